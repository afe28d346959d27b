#!/usr/bin/env python3
"""Lists the labels of clauses, each with the number of clauses that have it, those first that are used most, and how many of them no document explains.

A label is explained by its row under `## Labels of clauses` in docs/DEFINITIONS.md, or under `## Labels` in the README of each crate that has it. With `--check` it prints what is
wrong alone, and fails where something is: a label that isn't explained, a row of a README that no clause of its crate has, and a row that docs/DEFINITIONS.md has too.

    tools/checks/labels.py [--check]
"""
import collections
import functools
import os
import re
import sys

import specs

MOST = 40


@functools.lru_cache(None)
def by_crate():
    """How many clauses have each label, crate by crate."""
    found = {}
    for crate in specs.crate_lines():
        here = found[crate] = collections.Counter()
        for file in specs.crate(crate).files:
            if file.endswith(".rt"):
                here.update(re.findall(r"^\s*ensures\*? (\w+) \{", specs.text(os.path.join(specs.crate(crate).folder, file)), re.M))
    return found


@functools.lru_cache(None)
def counts():
    """How many clauses have each label."""
    return sum(by_crate().values(), collections.Counter())


def most(found):
    """The labels that are used most."""
    return [name for name, _ in sorted(found.items(), key=lambda it: (-it[1], it[0]))[:MOST]]


def rows_under(heading, page):
    """The names in the first cells of the table under a heading."""
    parts = re.split(rf"^{re.escape(heading)}$", page, flags=re.M)
    part = re.split(r"^## ", parts[1], flags=re.M)[0] if len(parts) > 1 else ""
    return [name for line in part.splitlines() if line.startswith("| `") for name in re.findall(r"`(\w+)`", line.split("|")[1])]


def told(page):
    """The labels that docs/DEFINITIONS.md defines."""
    return rows_under("## Labels of clauses", page)


def told_in(crate, docs):
    """The labels that the README of a crate explains."""
    return rows_under("## Labels", docs.get(f"crates/{crate}/README.md", ""))


def unexplained(docs, used=None):
    """The labels of a crate that neither docs/DEFINITIONS.md nor the README of the crate explains."""
    known = set(told(docs["docs/DEFINITIONS.md"]))
    return [(crate, name, number) for crate, found in (used or by_crate()).items() for name, number in found.items() if name not in known and name not in told_in(crate, docs)]


def wrong_rows(docs):
    """What is wrong with the labels of the documents, a line for each."""
    known = set(told(docs["docs/DEFINITIONS.md"]))
    wrong = [f"crates/{crate}/README.md: the label {name}, of {number} clauses, is explained neither here nor in docs/DEFINITIONS.md" for crate, name, number in unexplained(docs)]
    for crate, found in by_crate().items():
        here = told_in(crate, docs)
        wrong += [f"crates/{crate}/README.md: no clause has the label {name}" for name in here if name not in found]
        wrong += [f"crates/{crate}/README.md: docs/DEFINITIONS.md explains the label {name} already" for name in here if name in known]
        wrong += [f"crates/{crate}/README.md: the label {name} stands twice" for name, number in collections.Counter(here).items() if number > 1]
    return wrong


def pages():
    paths = ["docs/DEFINITIONS.md", *(f"crates/{crate}/README.md" for crate in specs.crate_lines())]
    return {path: specs.text(os.path.join(specs.TOP, path)) for path in paths if os.path.exists(os.path.join(specs.TOP, path))}


def main():
    docs = pages()
    wrong = wrong_rows(docs)
    if sys.argv[1:] == ["--check"]:
        for line in wrong:
            print(line)
        return 1 if wrong else 0
    found = counts()
    print(f"{sum(found.values())} clauses, {len(found)} labels, {len(unexplained(docs))} outside the table and the READMEs")
    for name, number in sorted(found.items(), key=lambda it: (-it[1], it[0])):
        print(number, name)
    return 0


if __name__ == "__main__":
    sys.exit(main())
