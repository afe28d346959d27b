#!/usr/bin/env python3
"""Runs the converter on the longest input that it takes, and on one byte more.

    tools/checks/longest_input.py PROGRAM

PROGRAM is the converter as it is built: crates/tileset_program/out/tileset_program, or out/unproved beside it. Both inputs are a single line of signs `#`, which is a comment: with 268,435,456
of them the script ends before its base, so that its second line is bad; with one more the input is too long. Each run must stay below 1 GB. It takes a minute, and isn't part of the gate.
"""
import os
import subprocess
import sys

MOST = 268_435_456
CASES = [(MOST, 3, b"bad script: line 2\n"), (MOST + 1, 8, b"input too long\n")]
PIECE = b"#" * (1 << 20)


def ended(program, size):
    """The status, what was printed, and the most memory that was taken in bytes."""
    run = subprocess.Popen([program, "convert", "hex"], stdin=subprocess.PIPE, stdout=subprocess.PIPE, stderr=subprocess.DEVNULL)
    try:
        while size > 0:
            size -= run.stdin.write(PIECE[:size])
        run.stdin.close()
    except BrokenPipeError:
        pass
    said = run.stdout.read()
    _, status, usage = os.wait4(run.pid, 0)
    return os.waitstatus_to_exitcode(status), said, usage.ru_maxrss * 1024


def main(program):
    failed = False
    for size, status, line in CASES:
        found, said, taken = ended(program, size)
        right = (found, said) == (status, line) and taken < 10 ** 9
        failed = failed or not right
        print(f"{size} bytes: status {found}, {said.decode()[:100].strip()!r}, {taken // 10 ** 6} MB: {'right' if right else 'wrong'}")
    return 1 if failed else 0


if __name__ == "__main__":
    if len(sys.argv) != 2:
        sys.exit("usage: tools/checks/longest_input.py PROGRAM")
    sys.exit(main(sys.argv[1]))
