#!/usr/bin/env python3
"""Prints the specs files that stand behind the contract of `tileset::run`, with their lines; with `--write` it writes them into docs/TRUST.md.

    tools/checks/behind_run.py [--write]

It begins with the names in the clauses of `run` and of the traits of its objects, and follows each name to its definition and those that this names, by the imports of the files. A file that no
subject below has is named at the end.
"""
import functools
import os
import re
import sys

import specs
from specs import TOP

RUN = f"{TOP}/crates/tileset/src/top_call.rt"
TRAITS = [f"{TOP}/crates/{it}.rt" for it in ("byte_streams/src/source", "byte_streams/src/sink", "byte_media/src/backend", "byte_media/src/medium")]
PAGE = f"{TOP}/docs/TRUST.md"
BEGIN, END = "<!-- table: tools/checks/behind_run.py -->", "<!-- end of the table -->"
HEADLINE = (("tile_bridge", "Convert", "HoldsExactly"), ("mb_edit", "Patched", "patched"))
SUBJECTS = (
    ("when each answer comes, and what it leaves", "tileset/Run tileset/Dump tile_bridge/ReadingBack byte_streams byte_media base_values pm_contents/Pieces pm_writer/Pieces"),
    ("words and lines of a script", "line_words tileset_script"),
    ("tables, layouts and their tiles", "mb_tables/Cell mb_tables/Table mb_tables/Key mb_tables/Kind mb_tables/Columns mb_tables/Described mb_tables/Schema mb_tables/PatchType mb_tables/Detection mb_tables/Tiles mb_store"),
    ("when a set loads, and what it holds", "mb_tables/Refusals mb_tables/CellKinds mb_lists mb_constraints mb_load mb_loaded/State mb_loaded/Edits mb_loaded/HeldCode"),
    ("digests and the hash of all tiles", "tile_hash mb_loaded/Aggregate"),
    ("what a patch makes, and when it is refused", "mb_edit mb_constraints/DiffHashes"),
    ("what a conversion comes to", "tile_bridge/Outcome tile_bridge/Stores"),
    ("coordinates and Hilbert ids", "tile_ids"),
    ("reading an archive", "pm_format/Varint pm_format/Directory pm_format/Scan pm_format/Header pm_format/Opened pm_format/LookUp pm_format/Sound pm_reader"),
    ("a well-formed archive, and the one archive of a map of tiles", "pm_format/Options pm_format/WellFormed pm_writer pm_contents"),
    ("that the archive has exactly the tiles", "mb_lists/Places tile_bridge/Convert"),
    ("what is printed", "tileset"),
)


@functools.lru_cache(None)
def kit_crates():
    """The crates of the kit that a line of crates.txt names."""
    needs = specs.crate_lines()
    return {name for named in needs.values() for name in named} - set(needs)


def clauses(path):
    """All clauses and ghost members of a source."""
    source = re.sub(r"//.*", "", specs.text(path))
    return "\n".join(re.findall(r"(?:ensures|requires)\*?(?: \w+)? \{[^}]*\}|^ +ghost .*", source, re.M))


def behind():
    """The files behind the clauses of `run` and of the traits of its objects, as `crate/File`, and the kit's crates
    that they name."""
    seen, others = specs.closure([(RUN, specs.contract(RUN, "run")), *((path, clauses(path)) for path in TRAITS)])
    files = {short(path) for path, _ in seen}
    return files, {module.split(".")[1] for module, _ in others} & kit_crates()


def headline():
    """The files behind the two definitions that say which tiles the archive has, and what a patch makes of tiles."""
    starts = [(f"{TOP}/crates/{crate}/specs/{file}.antt", name) for crate, file, name in HEADLINE]
    seen, _ = specs.closure([(path, specs.blocks(path)[name]) for path, name in starts])
    return sorted({short(path) for path, _ in seen | set(starts)})


def short(path):
    """A specs file as `crate/File`."""
    return os.path.relpath(path, f"{TOP}/crates").replace("specs/", "")[:-5]


def count(file):
    crate, name = file.split("/", 1)
    return specs.text(f"{TOP}/crates/{crate}/specs/{name}.antt").count("\n")


def subject_of(file):
    """The subject of a file: the one that has it by its name, and else the one that has its crate."""
    for wanted in (file, file.split("/")[0]):
        for subject, files in SUBJECTS:
            if wanted in files.split():
                return subject
    return "others"


def row(subject, files):
    by_crate = {}
    for file in files:
        by_crate.setdefault(file.split("/")[0], []).append(file)
    told = "; ".join(f"`{crate}`: " + ", ".join(f"`{file.split('/', 1)[1]}` {count(file)}" for file in sorted(of)) for crate, of in sorted(by_crate.items(), key=lambda it: ORDER.index(it[0])))
    return f"| {subject} | {told} | {sum(map(count, files))} |"


ORDER = list(specs.crate_lines())


@functools.lru_cache(None)
def table():
    files, kit = behind()
    out = ["| What | Files | Lines |", "|---|---|---|"]
    for subject in [it for it, _ in SUBJECTS] + ["others"]:
        of = [file for file in sorted(files) if subject_of(file) == subject]
        if of:
            out.append(row(subject, of))
    out.append(f"| all {len(files)} files | | {sum(map(count, files)):,} |")
    files = headline()
    out.append(row("of these for the headline alone: that the archive has exactly the tiles, and what a patch makes of them", files))
    return "\n".join(out)


def between(page):
    """What a page has between the two marks."""
    return page.split(BEGIN)[1].split(END)[0].strip() if BEGIN in page and END in page else ""


def main():
    if sys.argv[1:] == ["--write"]:
        page = specs.text(PAGE)
        front, rest = page.split(BEGIN)
        with open(PAGE, "w", encoding="utf-8") as file:
            file.write(f"{front}{BEGIN}\n{table()}\n{END}{rest.split(END)[1]}")
    else:
        print(table())
        print("crates of the kit behind it:", ", ".join(sorted(behind()[1])))


if __name__ == "__main__":
    main()
