#!/usr/bin/env python3
"""Compares the cases of one tree with those of another that tools/make_cases made: each file that one has must be in the other, byte for byte the same.

    tools/checks/compare_cases.py TOP FRESH
"""
import glob
import os
import sys


def case_files(top, patterns):
    """Paths of cases below a folder, with their bytes."""
    found = {}
    for pattern in patterns:
        for path in glob.glob(os.path.join(top, pattern), recursive=True):
            if os.path.isfile(path):
                with open(path, 'rb') as file:
                    found[os.path.relpath(path, top)] = file.read()
    return found


def committed(top):
    return case_files(top, ('crates/*/stdin', 'crates/*/stdout', 'crates/*/args', 'crates/*/status', 'crates/*/data/**', 'examples/*.out'))


def made(fresh):
    found = case_files(fresh, ('crates/**', 'examples/**'))
    return {path: data for path, data in found.items() if not path.endswith('.mbtiles') or path.startswith('crates')}


def differences(stands, fresh):
    """A line for each case that is missing, that no script writes, or that differs."""
    wrong = []
    for path in sorted({*stands, *fresh}):
        if path not in stands:
            wrong.append(f'{path} is missing: tools/make_cases writes it')
        elif path not in fresh:
            wrong.append(f'{path} is written by none of the scripts of tools/make_cases')
        elif stands[path] != fresh[path]:
            wrong.append(f'{path} differs from what tools/make_cases writes')
    return wrong


def main():
    top, fresh = sys.argv[1:]
    new = made(fresh)
    stands = committed(top)
    for path in new:
        if path not in stands and os.path.isfile(os.path.join(top, path)):
            with open(os.path.join(top, path), 'rb') as file:
                stands[path] = file.read()
    wrong = differences(stands, new)
    for line in wrong:
        print(f'check: {line}')
    return 1 if wrong or not new else 0


if __name__ == '__main__':
    sys.exit(main())
