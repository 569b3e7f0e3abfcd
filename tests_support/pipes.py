"""Runs a program between two pipes, of which its input's, its output's or both do not wait: the input comes in pieces with pauses, the output is read
slowly and late.

Usage: pipes.py PROGRAM INPUT OUTPUT in|out|both: writes to the file OUTPUT what the program wrote; exit status 1 where it did not end well.
"""
import os
import subprocess
import sys
import time


def main():
    program, source, target, which = sys.argv[1:]
    with open(source, 'rb') as file:
        calls = file.read()
    in_read, in_write = os.pipe()
    out_read, out_write = os.pipe()
    os.set_blocking(in_read, which == 'out')
    os.set_blocking(out_write, which == 'in')
    child = subprocess.Popen([program], stdin=in_read, stdout=out_write)
    os.close(in_read)
    os.close(out_write)
    # Nothing to read at first, then a piece that ends within a line, then the rest; meanwhile nobody reads the output, and its pipe fills.
    time.sleep(0.2)
    os.write(in_write, calls[:1000])
    time.sleep(0.2)
    feeder = os.fork()
    if feeder == 0:
        os.close(out_read)
        at = 1000
        while at < len(calls):
            at += os.write(in_write, calls[at:at + 65536])
        os._exit(0)
    os.close(in_write)
    time.sleep(0.5)
    with open(target, 'wb') as file:
        while piece := os.read(out_read, 4096):
            file.write(piece)
    os.waitpid(feeder, 0)
    return 0 if child.wait(timeout=20) == 0 else 1


sys.exit(main())
