#!/usr/bin/env python3
"""Plants labels that aren't explained, and rows that explain nothing, and sees that tools/checks/labels.py finds each.

    tools/checks/labels_test.py
"""
import sys

import labels
import specs

DEFINITIONS = "docs/DEFINITIONS.md"


def last_row(page, heading):
    """The name in the last row under a heading, and the row."""
    name = labels.rows_under(heading, page)[-1]
    return name, next(line for line in page.splitlines() if line.startswith("| `") and f"`{name}`" in line.split("|")[1])


def plants(docs):
    """Kind of error, the documents with it, and what has to be said."""
    crate = next(it for it in specs.crate_lines() if labels.told_in(it, docs))
    page = f"crates/{crate}/README.md"
    name, row = last_row(docs[page], "## Labels")
    yield "a label without a row", {**docs, page: docs[page].replace(row + "\n", "")}, f"{page}: the label {name}, of"
    yield "a row of another name", {**docs, page: docs[page].replace(f"`{name}`", f"`{name}ed`")}, f"{page}: no clause has the label {name}ed"
    yield "a row twice", {**docs, page: docs[page].replace(row, row + "\n" + row)}, f"{page}: the label {name} stands twice"
    yield "a row of the table", {**docs, page: docs[page].replace(row, row + "\n| `kept` | what is kept |")}, f"{page}: {DEFINITIONS} explains the label kept already"
    yield "a label that left the table", {**docs, DEFINITIONS: docs[DEFINITIONS].replace("| `ok` |", "| `okay` |")}, "the label ok, of"


def main():
    docs = labels.pages()
    before, wrong, number = set(labels.wrong_rows(docs)), [], 0
    for kind, planted, said in plants(docs):
        number += 1
        if not any(said in line for line in set(labels.wrong_rows(planted)) - before):
            wrong.append(f"{kind}: not found")
    # a clause of a source with a label that no document has
    number += 1
    used = {crate: dict(found) for crate, found in labels.by_crate().items()}
    used["tile_ids"]["planted_label"] = 1
    if ("tile_ids", "planted_label", 1) not in labels.unexplained(docs, used):
        wrong.append("an unknown label of a clause: not found")
    for line in wrong:
        print(line)
    print(f"{number - len(wrong)} of {number} planted errors of labels found")
    return 1 if wrong else 0


if __name__ == "__main__":
    sys.exit(main())
