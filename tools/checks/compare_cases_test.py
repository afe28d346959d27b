#!/usr/bin/env python3
"""Changes one case, takes one away and adds one, and sees that tools/checks/compare_cases.py finds each.

    tools/checks/compare_cases_test.py
"""
import sys

from compare_cases import committed, differences
from specs import TOP

PATH, NEW = 'crates/set_rows/stdout', 'crates/set_rows/data/planted'


def main():
    cases = committed(TOP)
    wanted = (
        ('a byte that differs', {**cases, PATH: cases[PATH][:-2] + b'!\n'}, cases, f'{PATH} differs from what tools/make_cases writes'),
        ('a row more', {**cases, PATH: cases[PATH] + b'row = \n'}, cases, f'{PATH} differs from what tools/make_cases writes'),
        ('a file that is missing', {path: data for path, data in cases.items() if path != PATH}, cases, f'{PATH} is missing: tools/make_cases writes it'),
        ('a file that no script writes', {**cases, NEW: b''}, cases, f'{NEW} is written by none of the scripts of tools/make_cases'),
    )
    wrong = [kind for kind, stands, fresh, said in wanted if differences(stands, fresh) != [said]]
    if differences(cases, dict(cases)):
        wrong.append('cases that are the same')
    for kind in wrong:
        print(f'{kind}: not found')
    print(f'{len(wanted) + 1 - len(wrong)} of {len(wanted) + 1} comparisons of cases as wanted')
    return 1 if wrong else 0


if __name__ == '__main__':
    sys.exit(main())
