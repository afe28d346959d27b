"""The checks of the tables of the documents that name files, definitions and clauses by crates."""
import functools
import os
import re

import behind_run
import calls
import specs
from documents import FOREIGN, NAME, crates, file_at, is_there, lines, quoted
from specs import TOP


def definitions(docs):
    """The rows of docs/DEFINITIONS.md: each name in a file of its row."""
    wrong, crate = [], None
    for number, line in lines(docs["docs/DEFINITIONS.md"]):
        place = f"docs/DEFINITIONS.md:{number}"
        if line.startswith("## "):
            crate = line[3:].strip()
        elif line.startswith("| `") and crate in crates():
            cells = [cell.strip() for cell in line.strip("|").split("|")]
            files = [f"crates/{crate}/specs/{file}" for file in re.findall(r"`([\w/]+\.antt)`", cells[1])]
            wrong += [f"{place}: no file {file}" for file in files if not is_there(file)]
            found = set()
            for file in filter(is_there, files):
                found |= set(specs.blocks(f"{TOP}/{file}")) | set(specs.owners(f"{TOP}/{file}"))
            wrong += [f"{place}: no {name} in {', '.join(files)}" for name in quoted(cells[0]) if name not in found]
    return wrong


def architecture(docs):
    """The rows of docs/ARCHITECTURE.md: files in their crates, and names behind a file in its crate."""
    wrong, page = [], docs["docs/ARCHITECTURE.md"]
    for crate in crates():
        if f"`{crate}`" not in page:
            wrong.append(f"docs/ARCHITECTURE.md: no row for {crate}")
        if f"crates/{crate}/README.md" not in docs:
            wrong.append(f"crates/{crate}/README.md: missing")
    of_crates = False
    for number, line in lines(page):
        if not line.startswith("| "):
            of_crates = False if not line.startswith("|") else of_crates
            continue
        of_crates = of_crates or line.startswith("| Crate |")
        first = line.split("|")[1].strip()
        several = quoted(first) if re.fullmatch(r"`\w+`(?:, `\w+`)*", first) else []
        wrong += [f"docs/ARCHITECTURE.md:{number}: no crate {it}" for it in several if of_crates and it not in crates()]
        several = [it for it in several if it in crates()]
        state = {"crate": several[0]} if several else {}
        for token, behind in re.findall(r"`([^`]+)`(?: \((`\w+`(?:, `\w+`)*)\))?", line):
            if not re.fullmatch(r"[\w/.-]+\.(?:rt|antt)", token):
                continue
            if len(several) > 1:
                found = [f"crates/{crate}/src/{token}" for crate in several]
            else:
                found = [file_at(token, state)] if several or token != "main.rt" else []
            for path in found:
                if not path or not is_there(path):
                    wrong.append(f"docs/ARCHITECTURE.md:{number}: no file {path or token}")
            if state.get("crate"):
                wrong += [f"docs/ARCHITECTURE.md:{number}: no {name} in {state['crate']}" for name in quoted(behind) if not specs.crate(state["crate"]).has(name)]
    return wrong


def proofs(docs):
    """The tables of docs/PROOFS.md by crates: the clauses and functions of the last cell are of that crate or of one
    below it."""
    wrong, needs = [], specs.crate_lines()
    for number, line in lines(docs["docs/PROOFS.md"]):
        of = quoted(line.split("|")[1]) if line.startswith("| `") else []
        if not of or not all(it in needs for it in of):
            continue
        of = set(of).union(*(specs.below(needs, it) for it in of)) & set(needs)
        said = re.sub(r"(?:`[^`]+`(?:, | and ))*`[^`]+` of the kit's `\w+`", "", line.rstrip().rstrip("|").split("|")[-1])
        for name in quoted(said):
            if NAME.fullmatch(name) and name not in needs and name not in FOREIGN and not any(specs.crate(it).has(name) or name in specs.crate(it).labels for it in of):
                wrong.append(f"docs/PROOFS.md:{number}: no {name} in {line.split('|')[1].strip()}")
    return wrong


def differences(docs):
    """The tables of docs/DIFFERENCES.md: what stands under `Here` is of the section's crates or of one below them."""
    wrong, needs, of = [], specs.crate_lines(), set()
    beside = FOREIGN | behind_run.kit_crates() | set("Bytes Clone Debug Eq From PartialEq compression has_ i32 is_ PmtError Mbtiles".split())
    for number, line in lines(docs["docs/DIFFERENCES.md"]):
        if line.startswith("## "):
            of = set(re.findall(r"\w+", line)) & set(needs)
            of = of.union(*(specs.below(needs, it) for it in of)) & set(needs)
        elif line.startswith("| ") and of and line.count("|") > 2:
            wrong += [f"docs/DIFFERENCES.md:{number}: no {name} in the section's crates" for name in quoted(line.split("|")[2])
                      if NAME.fullmatch(name) and name not in beside and name not in needs and not any(specs.crate(it).has(name) or name in specs.crate(it).labels for it in of)]
    return wrong


@functools.lru_cache(None)
def public_definitions():
    """The definitions that clauses of public calls name: (crate, file, name)."""
    found = set()
    for crate in calls.libraries():
        known = {}
        for path in calls.sources(crate):
            for module, group in re.findall(r"^\s*ghost use ([\w.]+?)\.\{([^}]*)\}", specs.text(path), re.M):
                known.update({item.strip(): specs.home(module, item.strip()) for item in group.split(",")})
        words = set().union(*(specs.words(body) for call in calls.calls_of(crate) for _, body in call.clauses))
        for name in {it.split(".")[0] for it in words} & set(known):
            path = specs.file_of(known[name])
            if path and name in specs.blocks(path):
                own, file = os.path.relpath(path, f"{TOP}/crates").split("/specs/")
                found.add((own, file, name))
    return found


def rows_of_definitions(docs):
    """docs/DEFINITIONS.md: a row for each definition that a clause of a public call names. What is printed can be put
    there."""
    told, crate = set(), None
    for line in docs["docs/DEFINITIONS.md"].splitlines():
        if line.startswith("## "):
            crate = line[3:].strip()
        elif line.startswith("| `"):
            told |= {(crate, name) for name in quoted(line.split("|")[1])}
    return [f"docs/DEFINITIONS.md: under {own} a row is missing: | `{name}` | `{file}` | {specs.comment_of(f'{TOP}/crates/{own}/specs/{file}', name)} | own words |"
            for own, file, name in sorted(public_definitions()) if (own, name) not in told]


def laws(docs):
    """docs/DEFINITIONS.md: each module of laws, which are public functions that do nothing, has a row, and each row a
    module."""
    page = docs["docs/DEFINITIONS.md"].split("## Laws")[1]
    found = set()
    for name in crates():
        crate = specs.crate(name)
        for file in crate.files:
            if file.endswith(".rt") and re.search(r"^pub fn \w+(?:<[^(]*>)?\(\)\n(?:[^{}]|\{[^{}]*\})*\{\}", specs.text(f"{crate.folder}/{file}"), re.M):
                found.add(f"{name}::{file[4:-3].replace('/', '::')}")
    told = {token for line in page.splitlines() if line.startswith("| `") for token in quoted(line.split("|")[1])}
    return [f"docs/DEFINITIONS.md: no row for the laws of {it}" for it in sorted(found - told)] + [
        f"docs/DEFINITIONS.md: {it} has no laws" for it in sorted(told - found)]
