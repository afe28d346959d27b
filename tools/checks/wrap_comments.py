#!/usr/bin/env python3
"""Wraps comments that have a line of more than 120 columns: runs of lines that begin with `///`, `//!`, `//`, `--` or `#`.
Without names it takes those of the scripts and of the crates. Items of lists and empty lines of comments stay apart, and so does code.

    tools/checks/wrap_comments.py [--check] [FILE ..]
"""
import re
import subprocess
import sys
import textwrap

from specs import TOP

WIDTH = 120
FILES = (".ci/run", "bin/*", "tools/*.sh", "tools/*.py", "tools/check*", "tools/make_cases", "crates/*.rt", "crates/*.antt")
COMMENT = re.compile(r"( *)(///|//!|//|--|#)( +|$)(.*)")
ITEM = re.compile(r"(?:[-*] |\d+\. )")
# what begins a paragraph of its own in a script
APART = re.compile(r"(?:usage: |status: |shellcheck )")
# a line of a table of names and what they are
DEEP = re.compile(r" {3,}\S")


def parts(line):
    """The indent with the mark of a comment's line, and its text; nothing where the line is code."""
    found = COMMENT.fullmatch(line)
    return (found[1] + found[2], found[3] + found[4]) if found else None


def broken(body, first, behind):
    """A paragraph's lines: as few as there can be, and the last one no short rest where another width avoids that."""
    made = None
    for width in range(WIDTH, 95, -1):
        lines = textwrap.wrap(body, width, initial_indent=first, subsequent_indent=behind, break_long_words=False, break_on_hyphens=False)
        if made and len(lines) > len(made):
            break
        if len(lines[-1]) - len(behind) >= 24:
            return lines
        made = made or lines
    return made


def filled(prefix, texts):
    """The lines of a paragraph, wrapped where one of them is too long."""
    lines = [(prefix + text).rstrip() for text in texts]
    if not any(len(line) > WIDTH for line in lines):
        return lines
    lead = re.match(r" *", texts[0])[0]
    first = prefix + lead
    body = " ".join(text.strip() for text in texts)
    mark = ITEM.match(body)
    column = re.match(r"\S.*?  +(?=\S)", body) if DEEP.match(texts[0]) else None
    hang = len((mark or column)[0]) if mark or column else 0
    return broken(body, first, first + " " * hang)


def is_item(texts):
    """Whether a paragraph is an item of a list, whose lines behind the first one are indented."""
    return bool(texts) and bool(ITEM.match(texts[0].strip()))


def wrapped(text):
    """A file's text with its comments wrapped."""
    out, prefix, texts, fenced = [], None, [], False

    def close():
        nonlocal prefix, texts
        if texts:
            out.extend(filled(prefix, texts))
        prefix, texts = None, []

    for line in text.split("\n"):
        part = parts(line)
        if not part:
            close()
            out.append(line)
            continue
        mark, words = part
        if words.strip().startswith("```"):
            fenced = not fenced
            close()
            out.append(line)
        elif fenced or not words.strip() or words.strip().startswith(("|", "#")):
            close()
            out.append(line)
        else:
            if mark != prefix or ITEM.match(words.strip()) or APART.match(words.strip()) or DEEP.match(words) and not is_item(texts):
                close()
            prefix = mark
            texts.append(words)
    close()
    return "\n".join(out)


def main():
    """Wraps files, or names those that would change."""
    words = sys.argv[1:]
    check = "--check" in words
    paths = [word for word in words if word != "--check"]
    if not paths:
        listed = subprocess.run(["git", "-C", TOP, "ls-files", *FILES], capture_output=True, text=True, check=True)
        paths = [f"{TOP}/{path}" for path in listed.stdout.split() if not path.endswith(".html")]
    changed = 0
    for path in paths:
        with open(path, encoding="utf-8") as file:
            before = file.read()
        after = wrapped(before)
        if after == before:
            continue
        changed += 1
        if check:
            print(f"{path}: a comment has a line of more than {WIDTH} columns")
        else:
            with open(path, "w", encoding="utf-8") as file:
                file.write(after)
    return 1 if check and changed else 0


if __name__ == "__main__":
    sys.exit(main())
