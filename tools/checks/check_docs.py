#!/usr/bin/env python3
"""Checks what the documents name and count against the sources, and prints a line for each place that is wrong.

    tools/checks/check_docs.py

- A path has to be there: a file named in a row or a README of a crate in that crate, under the folder that stands before it.
- A name has to be defined: in the file of its row (docs/DEFINITIONS.md), in the crate that it is given as of, and else somewhere in the sources.
- The table of files behind `tileset::run` in docs/TRUST.md is what tools/checks/behind_run.py prints, and the kit's crates there are those of crates.txt.
- The tables of docs/SAFETY.md are what tools/checks/safety_table.py writes, and the labels of docs/DEFINITIONS.md those that tools/checks/labels.py counts.
- No line is longer than 120 columns, but those of tables.
"""
import os
import re
import sys

import behind_run
import labels
import safety_table
import specs
from document_tables import architecture, definitions, differences, laws, proofs, rows_of_definitions
from documents import FOREIGN, NAME, crates, defined_names, file_at, is_there, lines, pages, quoted

# Pages that name what others have, or what was tried: the crates beside these names, the toolchain, older bodies.
LOOSE = ("docs/DIFFERENCES.md", "docs/PROOFS.md", "docs/SCRIPT.md", "CHANGELOG.md")
LISTED = re.compile(r"((?:`[^`\n]+`(?:,\s+|\s+and\s+|\s+or\s+))*)`([^`\n]+)`\s+(?:of|in)\s+(?:the\s+crate\s+)?`(\w+)`")


def paths(docs):
    """Paths in the other documents."""
    wrong = []
    everywhere = {os.path.basename(file) for crate in crates() for file in specs.crate(crate).files}
    for page, body in docs.items():
        own = page.split("/")[1] if page.startswith("crates/") else None
        for number, line in lines(body):
            for token in quoted(line):
                path = None
                if re.fullmatch(r"(?:crates|tools|docs|bin|examples)/[\w/.-]*\w", token):
                    path = token
                elif re.fullmatch(r"\w+/[\w/.-]+\.(?:rt|antt)", token):
                    path = file_at(token, {"crate": own})
                elif own and re.fullmatch(r"\w+\.(?:rt|antt)", token) or re.fullmatch(r"[A-Z]\w+\.antt|\w+\.rt", token):
                    if token not in everywhere:
                        path = token
                elif re.fullmatch(r"\w+\.py", token):
                    path = next((it for it in (f"tools/{folder}/{token}" for folder in ("models", "cases", "checks")) if is_there(it)), f"tools/{token}")
                if path and not is_there(path) and not (page == "docs/ARCHITECTURE.md" and not path.startswith(("tools", "bin", "docs"))):
                    wrong.append(f"{page}:{number}: no file {path}")
    return wrong


def names(docs):
    """Names: each defined somewhere, and in the crate that it is given as of."""
    wrong = []
    index = {crate: specs.crate(crate) for crate in crates()}
    defined, members = defined_names()
    for page, body in docs.items():
        for found in LISTED.finditer(body):
            before, last, crate = found.groups()
            known, place = index.get(crate), f"{page}:{body.count(chr(10), 0, found.start()) + 1}"
            if known and NAME.fullmatch(last) and not known.has(last) and last not in known.labels:
                wrong.append(f"{place}: no {last} in {crate}")
            if known:
                wrong += [f"{place}: no {it} in {crate}" for it in quoted(before) if NAME.fullmatch(it) and not known.has(it) and it not in known.labels and it not in defined]
        for number, line in lines(body):
            place = f"{page}:{number}"
            # the first cell has names of the original crates
            own = line.split("|", 2)[2] if page == "docs/LIBRARY.md" and line.startswith("|") else line
            for token in quoted(own):
                if not NAME.fullmatch(token) or token in FOREIGN:
                    continue
                parts = token.split("::")
                if len(parts) > 1 and parts[0] in index:
                    if not index[parts[0]].has(token):
                        wrong.append(f"{place}: no {token}")
                elif page in LOOSE or page.startswith("crates/"):
                    continue
                elif not all(it in defined for it in parts):
                    wrong.append(f"{place}: {token} is defined nowhere")
                elif len(parts) > 1 and parts[-2] in members and parts[-1] not in members[parts[-2]]:
                    wrong.append(f"{place}: no {parts[-1]} in {parts[-2]}")
    return wrong


def readmes(docs):
    """The READMEs of the crates: each call of a table `Call | Clause` is one of the crate, and what is explained
    behind a colon, as a clause, of the crate or of one below it."""
    wrong, needs = [], specs.crate_lines()
    beside = FOREIGN | behind_run.kit_crates() | set(needs)
    for page, body in docs.items():
        if not page.startswith("crates/"):
            continue
        crate, in_table = specs.crate(page.split("/")[1]), False
        of = [crate, *map(specs.crate, specs.below(needs, crate.name) & set(needs))]
        for number, line in lines(body):
            for names in re.findall(r"((?:`\w+`(?:, | and ))*`\w+`): ", line):
                wrong += [f"{page}:{number}: no {name} in {crate.name}" for name in quoted(names) if name not in beside and not any(name in it.labels or it.has(name) for it in of)]
            if not line.startswith("|"):
                in_table = False
            elif re.match(r"\| Calls? \|", line):
                in_table = True
            elif in_table:
                cell = re.sub(r"`[^`]+` of `\w+`", "", line.split("|")[1])
                wrong += [f"{page}:{number}: no {name} in {crate.name}" for name in quoted(cell) if NAME.fullmatch(name) and name not in FOREIGN and not crate.has(name)]
    return wrong


def trust(docs):
    """docs/TRUST.md: the table of files behind `run`, and the kit's crates."""
    page = docs["docs/TRUST.md"]
    wrong = []
    fresh, shown = behind_run.table().splitlines(), behind_run.between(page).splitlines()
    for line in fresh:
        if line not in shown:
            wrong.append(f"docs/TRUST.md: not as tools/checks/behind_run.py prints it, which has: {line[:200]}")
    wrong += [f"docs/TRUST.md: a line that tools/checks/behind_run.py doesn't print: {line[:200]}" for line in shown if line not in fresh]
    said = re.search(r"\*\*The contracts of the crates\*\*(.*?)(?:\n- |\n\n)", page, re.S)
    named = set(re.findall(r"`(\w+)`", said[1].split(", among")[0])) if said else set()
    wrong += [f"docs/TRUST.md: the crate {name} of the kit isn't named as assumed" for name in sorted(behind_run.kit_crates() - named)]
    wrong += [f"docs/TRUST.md: no crate of crates.txt names {name}" for name in sorted(named - behind_run.kit_crates())]
    return wrong


def safety(docs):
    """docs/SAFETY.md: a row for each public call that can refuse, as the script writes it."""
    page = docs["docs/SAFETY.md"]
    fresh, shown = safety_table.written(page).splitlines(), safety_table.between(page).splitlines()
    missing, more = set(fresh) - set(shown), set(shown) - set(fresh)
    return [f"docs/SAFETY.md: tools/checks/safety_table.py writes: {line[:200]}" for line in fresh if line in missing] + [
        f"docs/SAFETY.md: tools/checks/safety_table.py doesn't write: {line[:200]}" for line in shown if line in more]


def defined_labels(docs):
    """docs/DEFINITIONS.md: the labels that are used most are defined, and each that is defined is used."""
    counts = labels.counts()
    told = labels.told(docs["docs/DEFINITIONS.md"])
    wrong = [f"docs/DEFINITIONS.md: the label {name}, of {counts[name]} clauses, isn't defined" for name in labels.most(counts) if name not in told]
    return wrong + [f"docs/DEFINITIONS.md: no clause has the label {name}" for name in told if name not in counts]


def widths(docs):
    wrong = []
    for page, body in docs.items():
        if not page.startswith("crates/"):
            wrong += [f"{page}:{number}: {len(line)} columns" for number, line in lines(body) if len(line) > 120 and not line.startswith("|")]
    return wrong


CHECKS = (definitions, rows_of_definitions, laws, proofs, differences, architecture, paths, names, readmes, trust, safety, defined_labels, widths)


def main():
    docs = pages()
    wrong = [line for check in CHECKS for line in check(docs)]
    for line in dict.fromkeys(wrong):
        print(line)
    return 1 if wrong else 0


if __name__ == "__main__":
    sys.exit(main())
