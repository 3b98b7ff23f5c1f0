"""What a client starts as its server: it passes bytes between its standard streams and the examiner's socket.

    _relay.py SOCKET

(It runs alone, without the package, so that it starts fast.)"""
import os
import socket
import sys
import threading

joined = socket.socket(socket.AF_UNIX)
joined.connect(sys.argv[1])


def to_examiner() -> None:
    while True:
        data = os.read(0, 1 << 16)
        if not data:
            joined.shutdown(socket.SHUT_WR)
            return
        joined.sendall(data)


threading.Thread(target=to_examiner, daemon=True).start()
try:
    while True:
        received = joined.recv(1 << 16)
        if not received:
            break
        while received:
            received = received[os.write(1, received) :]
except OSError:
    pass
os._exit(0)
