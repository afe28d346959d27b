#!/usr/bin/env python3
"""Makes sets of odd schemas by a fixed seed, and compares what bin/mbtiles-to-pmtiles makes of them, both ways, with what Python's sqlite3 reads.

    tools/checks/odd_sets.py COMMAND FOLDER [COUNT]

Each set is converted with its tiles as SQLite reads them, or refused in words; where both ways convert it, they agree. Prints what is wrong, and a last line of counts.
"""
import os
import random
import sqlite3
import sys

from read_sets import Twice, converted, place_of, side_by_side, tiles_of

COLUMNS = ('zoom_level', 'tile_column', 'tile_row', 'tile_data')
KINDS = ('integer', 'INTEGER NOT NULL', 'int', 'bigint', 'numeric', '', 'real', 'text', 'INTEGER DEFAULT 0', 'integer check (1)')
CONTENT_KINDS = ('blob', 'BLOB NOT NULL', '', 'blob default null', 'text', 'bytea')


def quoted(name, r):
    shown = r.choice((name, name, name, name.upper(), name.title()))
    return r.choice((shown, shown, f'"{shown}"', f'[{shown}]', f'`{shown}`'))


def place(r):
    z = r.randrange(6)
    return [z, r.randrange(1 << z), r.randrange(1 << z)]


def cells(r, odd):
    """A row's place, which is odd now and then."""
    found = place(r)
    if odd and r.random() < 0.2:
        at = r.randrange(3)
        found[at] = r.choice((None, -1, 31, str(found[at]), float(found[at]), 0.5, 'x', b'\x01', 1 << 40, f' {found[at]} '))
    return found


def content(r):
    return r.choice((b'', None, b'same', b'same', bytes(r.randrange(256) for _ in range(r.randrange(1, 700)))))


def table(r, name, content_name='tile_data', content_kinds=CONTENT_KINDS):
    """The statement that makes a table of rows, and whether its key is its own."""
    columns = [f'{quoted(column, r)} {r.choice(KINDS[:6] if r.random() < 0.8 else KINDS)}' for column in COLUMNS[:3]]
    columns.append(f'{quoted(content_name, r)} {r.choice(content_kinds)}')
    if r.random() < 0.3:
        columns.insert(r.randrange(5), 'note text' + r.choice(('', ' default \'n\'', ' collate nocase', ' /* , ) */')))
    if r.random() < 0.3:
        r.shuffle(columns)
    key = r.random()
    if key < 0.15:
        columns.insert(0, 'id integer primary key')
    elif key < 0.45:
        columns.append(r.choice(('unique', 'primary key')) + ' (zoom_level, tile_column, tile_row)')
    end = ' without rowid' if 'primary key (' in columns[-1] and r.random() < 0.6 else ''
    gap = r.choice((' ', '\n', '\t', ' -- , )\n'))
    return f'create table{gap}{quoted(name, r)} ({(r.choice((", ", "," + gap))).join(columns)}){end}'


def fill(base, r, name, columns, contents):
    """Puts rows into a table; one that the table refuses is left out."""
    seen = set()
    odd = r.random() < 0.4
    for _ in range(r.randrange(60)):
        row = cells(r, odd)
        # a place that comes again is refused where its contents differ
        key = place_of([cell.encode() if isinstance(cell, str) else cell for cell in row])
        if key in seen and r.random() < 0.99:
            continue
        seen.add(key)
        try:
            base.execute(f'insert into {name} ({", ".join(columns)}) values (?, ?, ?, ?)', (*row, contents()))
        except sqlite3.IntegrityError:
            pass


def flat(base, r):
    base.execute(table(r, 'tiles'))
    fill(base, r, 'tiles', COLUMNS, lambda: content(r))


def by_view(base, r):
    """Places and contents in tables of their own, under names that say something to readers or not."""
    names = r.choice((('map', 'images', 'tile_id'), ('tiles_shallow', 'tiles_data', 'tile_data_id'), ('places', 'contents', 'content')))
    base.execute(table(r, names[0], names[2], ('integer', 'text', '')))
    base.execute(f'create table {names[1]} ({r.choice((names[2] + " integer primary key, tile_data blob", "tile_data blob, " + names[2] + " text"))})')
    count = r.randrange(1, 8)
    for at in range(count):
        base.execute(f'insert into {names[1]} ({names[2]}, tile_data) values (?, ?)', (at, content(r)))
    fill(base, r, names[0], (*COLUMNS[:3], names[2]), lambda: r.randrange(count + (r.random() < 0.1)))
    end = r.choice(('', '', '', ' where zoom_level < 3', ' where a.tile_row >= 0', ' order by 1, 2, 3 limit 5'))
    row = r.choice(('a.tile_row', 'a.tile_row', 'a.tile_row', '(1 << a.zoom_level) - 1 - a.tile_row'))
    join = r.choice(('join', 'join', 'left join'))
    base.execute(f'create view tiles as select a.zoom_level as zoom_level, a.tile_column as tile_column, {row} as tile_row, b.tile_data as tile_data '
                 f'from {names[0]} as a {join} {names[1]} as b on a.{names[2]} = b.{names[2]}{end}')


def with_hashes(base, r):
    base.execute(table(r, 'tiles_with_hash').replace('(', '(tile_hash text, ', 1))
    fill(base, r, 'tiles_with_hash', COLUMNS, lambda: content(r))
    base.execute('create view tiles as select zoom_level, tile_column, tile_row, tile_data from tiles_with_hash' + r.choice(('', ' where zoom_level > 0')))


BESIDE = ('create table map (zoom_level integer, tile_column integer, tile_row integer, tile_id text)', 'create table images (tile_id text, tile_data blob)',
          'create table tiles_with_hash (zoom_level integer, tile_column integer, tile_row integer, tile_data blob, tile_hash text)',
          'create virtual table areas using rtree (id, a, b)', 'create table t (a, b references t (a) match full)', 'create table u (a, b as (a + 1))',
          'create index p on tiles (zoom_level) where zoom_level > 1', 'create index e on tiles (zoom_level + tile_row)', 'create table v (a) strict', 'analyze',
          'create trigger g after insert on tiles begin select 1; end', "alter table tiles add column later text default 'n'", 'alter table tiles rename column tile_data to tile_data',
          'delete from tiles where zoom_level = 2', 'create table tiles_shallow (zoom_level, tile_column, tile_row, tile_data_id)', 'create table tiles_data (tile_data_id, tile_data)')


def make(path, seed):
    r = random.Random(seed)
    base = sqlite3.connect(path, isolation_level=None)
    base.execute(f'pragma page_size = {r.choice((512, 1024, 4096, 65536))}')
    base.execute(f'pragma auto_vacuum = {r.choice((0, 0, 0, 1, 2))}')
    base.execute(f"pragma encoding = '{r.choice(('UTF-8', 'UTF-8', 'UTF-8', 'UTF-8', 'UTF-16le', 'UTF-16be'))}'")
    if r.random() < 0.1:
        base.execute('pragma journal_mode = wal')
    if r.random() < 0.9:
        base.execute(r.choice(('create table metadata (name text, value text)', 'create table metadata (value, name)', 'create table metadata (name text primary key, value text) without rowid',
                               'create table metadata (id integer primary key, name text unique, value text)')))
        base.execute("insert into metadata (name, value) values ('format', 'png'), ('name', 'é')")
    base.execute('begin')
    r.choice((flat, flat, flat, by_view, by_view, with_hashes))(base, r)
    base.execute('commit')
    for statement in r.sample(BESIDE, r.choice((0, 0, 1, 2, 3))):
        try:
            base.execute(statement)
        except sqlite3.Error:
            pass
    if r.random() < 0.1:
        base.execute('vacuum')
    base.close()


def tried(case):
    """What came of a set both ways: problems, and whether each way converted it."""
    command, path, seed = case
    make(path, seed)
    try:
        wanted = tiles_of(path)
    except (Twice, sqlite3.Error):
        wanted = None
    ways = []
    for flags in (), ('--by-script',):
        try:
            found, said = converted(command, path, *flags)
        except AssertionError as error:
            return [f'set {seed} {flags}: {error}'], ways
        ways.append(found is not None)
        if found is not None and found != wanted:
            return [f'set {seed} {flags}: {len(found)} tiles, and SQLite reads {wanted if wanted is None else len(wanted)}: {said[-200:]}'], ways
    os.remove(path)
    return [], ways


def main():
    command, folder = sys.argv[1:3]
    count = int(sys.argv[3]) if len(sys.argv) > 3 else 200
    os.makedirs(folder, exist_ok=True)
    found = side_by_side(tried, [(command, f'{folder}/odd{seed}.mbtiles', seed) for seed in range(count)])
    problems = [line for lines, _ in found for line in lines]
    for line in problems:
        print('odd_sets:', line)
    taken = [sum(ways[at] for _, ways in found if len(ways) > at) for at in (0, 1)]
    # sets that are refused alone would show nothing
    few = min(taken) * 3 < count
    print(f'odd_sets: of {count} sets {taken[0]} were converted by the program and {taken[1]} by a script, {len(problems)} wrong' + (', too few' if few else ''))
    sys.exit(bool(problems or few))


if __name__ == '__main__':
    main()
