#!/usr/bin/env python3
"""Gives tools/checks/kept_slices.py answers of the toolchain that show nothing, and sees that it takes none of them.

    tools/checks/kept_slices_test.py
"""
import sys

from kept_slices import MISUSED, is_refused

LINES = [f'src/main.rt:{25 + n}:9: error[borrow-e0597]: `{name}` does not live long enough' for n, name in enumerate(sorted(MISUSED))]
OTHER = 'src/main.rt:3:5: error[unknown-name]: no `PmtResult` in `pm_format`'

# Kind of answer, the status, its lines, and whether it shows what is wanted.
ANSWERS = (
    ('each of three is refused', 1, LINES, True),
    ('nothing is refused', 0, [], False),
    ('one is not refused', 1, LINES[:2], False),
    ('all are named and the status is 0', 0, LINES, False),
    ('another error beside them', 1, [*LINES, OTHER], False),
    ('another error alone', 1, [OTHER], False),
    ('an error without a place', 1, [*LINES, 'error: out of memory'], False),
    ('another variable is refused', 1, [*LINES[:2], LINES[2].replace('`of_', '`in_')], False),
)


def main():
    wrong = [kind for kind, status, lines, wanted in ANSWERS if is_refused(status, '\n'.join(lines)) != wanted]
    for kind in wrong:
        print(f'{kind}: judged wrongly')
    print(f'{len(ANSWERS) - len(wrong)} of {len(ANSWERS)} answers on kept slices judged rightly')
    return 1 if wrong else 0


if __name__ == '__main__':
    sys.exit(main())
