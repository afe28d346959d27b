#!/usr/bin/env python3
"""Sees that tools/checks/wrap_comments.py wraps long comments and nothing else, and that it takes no word away.

    tools/checks/wrap_comments_test.py
"""
import sys

from wrap_comments import wrapped

LONG = 'word ' * 40 + 'end.'

# Kind of text, the text, and the number of lines that it has afterwards.
TEXTS = (
    ('a long comment', f'// {LONG}\nfn f() {{}}', 3),
    ('a long comment of a definition', f'    -- {LONG}\n    pub a : A', 3),
    ('a long line of a document behind a short one', f'/// Short.\n/// {LONG}', 2),
    ('an item of a list', f'/// 1. {LONG}\n/// 2. Short.', 3),
    ('a row of names', f'--     name      {LONG}\n--     other     short', 4),
    ('short comments', '// One.\n// Two.', 2),
    ('long code', f'let a = "{LONG}";', 1),
    ('a long clause', f'    ensures {{ {LONG} }}', 1),
    ('code in a document', f'/// ```\n/// {LONG}\n/// ```', 3),
)


def words(text):
    """The words of a text without the marks of comments."""
    return [word for word in text.split() if word not in ('//', '///', '--')]


def main():
    wrong = []
    for kind, text, lines in TEXTS:
        after = wrapped(text)
        if words(after) != words(text) or len(after.split('\n')) != lines or wrapped(after) != after:
            wrong.append(kind)
    for kind in wrong:
        print(f'{kind}: wrapped wrongly')
    print(f'{len(TEXTS) - len(wrong)} of {len(TEXTS)} comments wrapped rightly')
    return 1 if wrong else 0


if __name__ == '__main__':
    sys.exit(main())
