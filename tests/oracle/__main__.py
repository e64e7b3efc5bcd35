"""The plain program by itself: takes the words of splinter, and writes and ends as the rules have it.

usage: python3 tests/oracle, and words of splinter: what it says where there are none lists them
"""
import os
import sys

from program import ended

written, status, said = ended(sys.argv[1:])
left = written.encode()
try:
    while left:
        left = left[os.write(1, left) :]
except OSError:
    status, said = 6, "write failed\n"
sys.stderr.write(said)
sys.exit(status)
