"""python3 -m bullmyrtle.mcp"""
import sys

from ._command import run

if __name__ == "__main__":
    sys.exit(run())
