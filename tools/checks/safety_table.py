#!/usr/bin/env python3
"""Writes the tables of docs/SAFETY.md from the sources: each public call that can refuse, its refusals, what stands after them, and how it is tried.

    tools/checks/safety_table.py

A call's refusals are the variants of error enums that its documentation, its clauses, its body and the bodies of the functions below it name, as far as these aren't public calls: of those with the
same error it has `those of` the call, where they have a refusal more. `StoreFault` is named too where a store is asked, and `OutOfMemory` where the error has it and no clause equates the answer with that of a test (`refused_by`). Its clauses are told apart by what
they speak of: those on the answer alone, and those on what stands afterwards. The programs of rows that call it are found by its name in their sources, and whether one of them has objects fail call
by call, by its lines. What is tried with refused memory stands in tools/checks/refused_memory.py; of its rows those count that are in the page's table. A call without a clause on what stands, that takes an
object to write on, or without a program is marked by `none`. Whatever stands between the two marks of docs/SAFETY.md is written anew.
"""
import functools
import os
import re
import textwrap

import refused_memory
import specs
from calls import CRATES, SHARED, TOP, calls_of, crate_names, errors, libraries, sources, text

# Calls of a crate by whose name a program calls one of another crate.
OTHERS = {('import_rows', 'mb_metadata', 'get_metadata'), ('tileset_rows', 'pm_contents', 'put')}
BEGIN, END = '<!-- tables: tools/checks/safety_table.py -->', '<!-- end of the tables -->'


def called(paths):
    """The names of all calls that stand in these files."""
    return {name for path in paths for name in re.findall(r'(?<!fn )\b(\w+)(?:::<[^;{]*?>)?\(', text(path))}


def used(paths, crate):
    """The names that files take from a crate, or from their own where it is `crate`."""
    uses = (group for path in paths for group in re.findall(rf'^use {crate}::([^;]*);', text(path), re.M))
    return {name for group in uses for name in re.findall(r'\w+', group)}


def reached(paths, shared):
    """The files of a shared crate that these files use, by the names that its lib.rt lends, and those that they use."""
    lib = text(f'{CRATES}/{shared}/src/lib.rt')
    lends = {module: set(re.findall(r'\w+', names)) for module, names in re.findall(r'^pub use (\w+)::([^;]*);', lib, re.M)}
    files = {os.path.basename(path)[:-3]: path for path in sources(shared)}
    found, open_ = set(), used(paths, shared)
    while open_:
        more = {files[module] for module in files if module in open_ or lends.get(module, set()) & open_} - found
        found |= more
        open_ = used(more, 'crate')
    return found


def callers():
    """What each program of rows calls, also by what it shares with others, and the crates that it stands on by these files."""
    needs, found = specs.crate_lines(TOP), {}
    for crate in crate_names():
        if crate.endswith('_rows'):
            files = set(sources(crate))
            for it in reversed([it for it in crate_names() if it in SHARED and it in needs[crate]]):
                files |= reached(files, it)
            named = set().union(*(re.findall(r'^use (\w+)\b', text(path), re.M) for path in files)) & set(needs) - set(SHARED)
            found[crate] = called(files), named.union(*(specs.below(needs, it) for it in named))
    return found


def tried(call, programs):
    return [crate for crate, (names, under) in programs.items() if call.name in names and call.crate in under and (crate, call.crate, call.name) not in OTHERS]


def failing(crate):
    """Whether lines of a program have calls fail."""
    return bool(re.search(r'^(?:\w+ )?(?:fail|hindered|each|import medium)\b', text(f'{CRATES}/{crate}/stdin'), re.M)) if os.path.exists(f'{CRATES}/{crate}/stdin') else False


def below():
    """The crates below each crate, by crates.txt."""
    return {name: specs.below(specs.crate_lines(TOP), name) for name in crate_names()}


def cell(items):
    return ', '.join(it if it == 'its contract' else f'`{it}`' for it in items) or '**none**'


def callers_of(call, naming):
    """The library crates that call it."""
    return [crate for crate, names in naming.items() if call.name in names]


def tables(ran):
    """The lines of the tables, of which rows with refused memory are those that ran, the calls that lack something,
    and those that refuse nothing."""
    known, programs, shared = errors(), callers(), below()
    fails = {crate for crate in programs if failing(crate)}
    memory = {}
    for row, (program, *_, names) in refused_memory.LINES.items():
        for name in names.split() if row in ran else ():
            memory.setdefault(name, []).append(row)
    naming = {crate: called(sources(crate)) for crate in libraries()}
    out, holes, silent = [], [], []
    for crate in naming:
        rows = []
        for call in calls_of(crate):
            if not call.error():
                silent.append(call)
                continue
            where = tried(call, programs)
            used = [it for it in callers_of(call, naming) if it == crate or crate in shared[it]]
            shown = cell(where) if where or not used else 'by calls of ' + cell(used)
            after = cell(call.after()) if call.writes() else 'takes nothing to write on'
            calls = '' if not call.asks_outside() else cell([it for it in where if it in fails]) if where else 'as those' if used else '**none**'
            rows.append(f'| {call.shown()} | {call.refusals(known)} | {cell(call.on_answer()) if call.on_answer() else ""} | {after} | {shown} | {calls} | {", ".join(memory.get(call.plain(), []))} |')
            if '**none**' in rows[-1] or not call.clauses:
                holes.append(f'{crate}: {call.shown()}')
        if rows:
            out += ['', f'### {crate}', '', '| Call | Refusals | Clauses on the answer | Clauses on what stands afterwards | Rows | Rows in which objects fail | Refused memory |', '|---|---|---|---|---|---|---|', *rows]
    out += ['', '### Calls that refuse nothing', '']
    for crate in naming:
        named = ', '.join(dict.fromkeys(call.shown() for call in silent if call.crate == crate))
        if named:
            out.append(textwrap.fill(f'- {crate}: {named}', 118, subsequent_indent='  ', break_long_words=False, break_on_hyphens=False))
    return out, holes, silent


def ran(page):
    """The rows with refused memory that a page's table has."""
    return set(re.findall(r'^\| (\w+) \| \w+ \| \d+ \|', page.split(BEGIN)[0], re.M))


@functools.lru_cache(None)
def lines_of(rows):
    return '\n'.join(tables(set(rows))[0]).strip()


def written(page):
    """What is to stand between the two marks of a page."""
    return lines_of(frozenset(ran(page)))


def between(page):
    """What stands there."""
    return page.split(BEGIN)[1].split(END)[0].strip() if BEGIN in page and END in page else ''


def main():
    path = f'{TOP}/docs/SAFETY.md'
    front, rest = text(path).split(BEGIN)
    out, holes, _ = tables(ran(text(path)))
    with open(path, 'w', encoding='utf-8') as file:
        file.write(front + BEGIN + '\n'.join(out) + '\n\n' + END + rest.split(END)[1])
    for hole in holes:
        print(hole)


if __name__ == '__main__':
    main()
