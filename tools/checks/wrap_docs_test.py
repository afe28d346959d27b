#!/usr/bin/env python3
"""Sees that tools/checks/wrap_docs.py wraps what is too long and nothing else, and that it takes no word away.

    tools/checks/wrap_docs_test.py
"""
import sys

from wrap_docs import wrapped

LONG = 'word ' * 40 + 'end.'

# Kind of text, the text, and whether it stays as it is.
TEXTS = (
    ('a long paragraph', LONG, False),
    ('a long paragraph of a list', '- ' + LONG + '\n- next', False),
    ('a short paragraph', 'A short line.\nAnother one.', True),
    ('a long row of a table', '| ' + LONG + ' | b |', True),
    ('a long heading', '# ' + LONG, True),
    ('long code', '```\n' + LONG + '\n```', True),
)


def main():
    wrong = []
    for kind, text, stays in TEXTS:
        after = wrapped(text)
        if after.split() != text.split() or (after == text) != stays or not stays and any(len(line) > 120 for line in after.split('\n')):
            wrong.append(kind)
    for kind in wrong:
        print(f'{kind}: wrapped wrongly')
    print(f'{len(TEXTS) - len(wrong)} of {len(TEXTS)} texts wrapped rightly')
    return 1 if wrong else 0


if __name__ == '__main__':
    sys.exit(main())
