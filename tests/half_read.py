"""half_read.py FILE PROGRAM ..: runs the program on an input that gives the first half of the file, and then fails to read.

The far end of a terminal that nobody holds open any more is such an input: what was written comes first, then an error.
"""
import os
import subprocess
import sys
import tty

path, *program = sys.argv[1:]
with open(path, "rb") as file:
    text = file.read()
half = text[: text.rindex(b"\n", 0, len(text) // 2 + 1) + 1]
near, far = os.openpty()
tty.setraw(far)
os.write(far, half)
os.close(far)
sys.exit(subprocess.run(program, stdin=near).returncode)
