#!/usr/bin/env python3
"""Runs a command whose error output is a terminal, and whose output goes into a file.

    on_a_terminal.py OUTPUT COMMAND..      prints what the terminal showed, and ends with the command's status
"""
import os
import pty
import subprocess
import sys


def shown_by(terminal):
    """All that is written to a terminal until its last writer has closed it."""
    shown = b""
    while True:
        try:
            piece = os.read(terminal, 4096)
        except OSError:
            return shown
        if not piece:
            return shown
        shown += piece


def main():
    terminal, end = pty.openpty()
    with open(sys.argv[1], "wb") as output:
        running = subprocess.Popen(sys.argv[2:], stdin=subprocess.DEVNULL, stdout=output, stderr=end)
    os.close(end)
    shown = shown_by(terminal)
    sys.stdout.buffer.write(shown.replace(b"\r\n", b"\n"))
    sys.stdout.flush()
    sys.exit(running.wait())


if __name__ == "__main__":
    main()
