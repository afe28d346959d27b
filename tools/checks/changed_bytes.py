#!/usr/bin/env python3
"""Changes single bytes of a set's file and of its log by a fixed seed, and compares what bin/mbtiles-to-pmtiles makes of each with what Python's sqlite3 reads.

    tools/checks/changed_bytes.py COMMAND FOLDER [COUNT]

Each file is converted with its tiles as SQLite reads them, or refused in words. Prints what is wrong, and a last line of counts.
"""
import os
import random
import shutil
import sqlite3
import sys

from read_sets import Twice, converted, side_by_side, tiles_of

TABLES = ('create table metadata (name text, value text); create table tiles (zoom_level integer, tile_column integer, tile_row integer, tile_data blob);'
          'create unique index tile_index on tiles (zoom_level, tile_column, tile_row)')


def fill(base, rows):
    base.executemany('insert or replace into tiles values (?, ?, ?, ?)', rows)


def make(folder):
    """A file, and another one with a log of its last writes."""
    r = random.Random(7)
    rows = [(5, v % 8, v // 8, bytes(r.randrange(256) for _ in range(20 + 12 * v))) for v in range(60)]
    for name in 'plain', 'logged':
        base = sqlite3.connect(f'{folder}/{name}', isolation_level=None)
        base.execute('pragma page_size = 512')
        base.executescript(TABLES)
        base.execute("insert into metadata values ('name', 'changed'), ('format', 'png')")
        fill(base, rows)
        if name == 'logged':
            base.execute('pragma journal_mode = wal')
            base.execute('pragma wal_autocheckpoint = 0')
            fill(base, [(z, x, y, content[::-1]) for z, x, y, content in rows[20:40]])
            base.execute('delete from tiles where tile_column = 3')
            shutil.copyfile(f'{folder}/{name}', f'{folder}/kept')
            shutil.copyfile(f'{folder}/{name}-wal', f'{folder}/kept-wal')
        base.close()


def changed(source, to, at, byte):
    with open(source, 'rb') as file:
        data = bytearray(file.read())
    data[at % len(data)] ^= byte
    with open(to, 'wb') as file:
        file.write(data)


def tried(case):
    """What came of a change: problems, and whether the file was converted."""
    command, folder, number = case
    r = random.Random(1000 + number)
    # read in a folder of its own: a log is put into its file by the last that reads it
    here = f'{folder}/{number}'
    os.makedirs(here)
    path = f'{here}/changed{number}.mbtiles'
    of_log = number % 3 == 2
    source = f'{folder}/kept' if number % 3 else f'{folder}/plain'
    shutil.copyfile(source, path)
    if number % 3:
        shutil.copyfile(f'{source}-wal', f'{path}-wal')
    target = '-wal' if of_log else ''
    size = os.path.getsize(source + target)
    # where the form of a file stands more often than its contents
    at = r.choice((r.randrange(size), r.randrange(min(size, 120)), r.randrange(size) // 512 * 512 + r.randrange(24)))
    changed(source + target, path + target, at, r.choice((1, 2, 4, 8, 16, 32, 64, 128, 255)))
    shutil.copytree(here, f'{here}.read')
    try:
        wanted = tiles_of(f'{here}.read/changed{number}.mbtiles')
    except (Twice, sqlite3.Error):
        wanted = None
    try:
        found, said = converted(command, path)
    except AssertionError as error:
        return [f'byte {at} of {source}{target}, change {number}: {error}'], False
    if found is not None and found != wanted:
        return [f'byte {at} of {source}{target}, change {number}: {len(found)} tiles, and SQLite reads {wanted if wanted is None else len(wanted)}: {said[-200:]}'], True
    shutil.rmtree(here)
    shutil.rmtree(f'{here}.read')
    return [], found is not None


def main():
    command, folder = sys.argv[1:3]
    count = int(sys.argv[3]) if len(sys.argv) > 3 else 300
    os.makedirs(folder, exist_ok=True)
    make(folder)
    found = side_by_side(tried, [(command, folder, number) for number in range(count)])
    problems = [line for lines, _ in found for line in lines]
    for line in problems:
        print('changed_bytes:', line)
    taken = sum(was for _, was in found)
    few = taken * 3 < count
    print(f'changed_bytes: of {count} changes {taken} left a set that is converted, {len(problems)} wrong' + (', too few' if few else ''))
    sys.exit(bool(problems or few))


if __name__ == '__main__':
    main()
