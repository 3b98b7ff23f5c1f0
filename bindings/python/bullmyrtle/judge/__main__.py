"""python3 -m bullmyrtle.judge"""
from ._command import run

if __name__ == "__main__":
    run()
