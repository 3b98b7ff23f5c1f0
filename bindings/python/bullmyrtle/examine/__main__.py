"""Runs the command."""
from ._command import run

if __name__ == "__main__":
    run()
