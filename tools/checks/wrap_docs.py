#!/usr/bin/env python3
"""Wraps the paragraphs of the documents that have a line of more than 120 columns; tables, headings and code stay as they are.

    tools/checks/wrap_docs.py [FILE ..]
"""
import glob
import re
import sys
import textwrap

from specs import TOP

OPENING = re.compile(r" *(?:[-*] |\d+\. )")
MARKED = re.compile(r" *(?:[-*+|#>] |\d+\. )")


def paragraph(block):
    """The lines of a paragraph, wrapped where one of them is too long."""
    if not any(len(line) > 120 for line in block):
        return block
    mark = OPENING.match(block[0])
    first = mark[0] if mark else re.match(" *", block[0])[0]
    body = " ".join(line.strip() for line in block)[len(first.lstrip()):]
    for width in range(118, 90, -1):
        lines = textwrap.wrap(body, width, initial_indent=first, subsequent_indent=" " * len(first), break_long_words=False, break_on_hyphens=False)
        if not any(MARKED.match(line) for line in lines[1:]):
            break
    return lines


def wrapped(text):
    out, block, fenced = [], [], False
    for line in text.split("\n"):
        begins = OPENING.match(line)
        stays = fenced or line.startswith(("```", "|", "#", "<!--", "    ")) or not line.strip()
        if begins or stays:
            out += paragraph(block)
            block = []
        if line.startswith("```"):
            fenced = not fenced
        if stays:
            out.append(line)
        else:
            block.append(line)
    return "\n".join(out + paragraph(block))


def main():
    kinds = ("*.md", "docs/*.md", "crates/*/README.md", "examples/*.md")
    paths = sys.argv[1:] or [f"{TOP}/{path}" for kind in kinds for path in sorted(glob.glob(kind, root_dir=TOP))]
    for path in paths:
        with open(path, encoding="utf-8") as file:
            before = file.read()
        after = wrapped(before)
        assert before.split() == after.split(), path
        if after != before:
            with open(path, "w", encoding="utf-8") as file:
                file.write(after)


if __name__ == "__main__":
    main()
