"""usage: teed.py NAME COMMAND [WORD ..]    runs a command, and keeps what goes through it

What comes in is in NAME.in, what goes out in NAME.out, and the command's status in NAME.status. Each byte goes on as soon
as it came and is kept."""
import os
import subprocess
import sys
import threading


def copy(source: int, sink: int, file: str) -> None:
    """Copies until either end is gone."""
    kept = os.open(file, os.O_WRONLY | os.O_CREAT | os.O_TRUNC, 0o666)
    try:
        while data := os.read(source, 1 << 16):
            os.write(kept, data)  # (first, so that what comes behind it is never more than what is kept here)
            view = memoryview(data)
            while view:
                view = view[os.write(sink, view) :]
    except OSError:
        pass
    os.close(kept)
    os.close(sink)


def main(name: str, command: list[str]) -> int:
    server = subprocess.Popen(command, stdin=subprocess.PIPE, stdout=subprocess.PIPE, bufsize=0)
    assert server.stdin is not None and server.stdout is not None
    to_server, from_server = os.dup(server.stdin.fileno()), server.stdout.fileno()
    server.stdin.close()
    threading.Thread(target=copy, args=(0, to_server, f"{name}.in"), daemon=True).start()
    copy(from_server, 1, f"{name}.out")
    status = server.wait()
    with open(f"{name}.status", "w", encoding="ascii") as file:
        file.write(str(status))
    return status if status >= 0 else 128 - status


if __name__ == "__main__":
    sys.exit(main(sys.argv[1], sys.argv[2:]))
