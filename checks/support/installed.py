"""What each package that is installed is tried with: a server in Python, and a program in C."""
REQUEST = '{"jsonrpc":"2.0","method":"add","params":[1,2],"id":7}\n'
ANSWER = '{"id":7,"jsonrpc":"2.0","result":3}\n'
SERVER = """import sys
from bullmyrtle import Server
server = Server(framing="lines")
@server.method("add")
def add(params: list):
    return sum(params)
sys.exit(server.run())
"""
HOST = r"""#include <bullmyrtle.h>
#include <stdio.h>
int main(void) { printf("%u\n", bm_interface()); return 0; }
"""
