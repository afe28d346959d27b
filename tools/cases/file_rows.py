"""Writes the lines of file_rows: sets of databases that are read by their pages. Python's sqlite3 answers what the
databases of tools/cases/reading_cases.py and its own files hold.

    tools/make_cases file_rows
"""
import itertools
import os
import random
import sqlite3
import tempfile

from cases import reading_cases
from cases.reading_cases import FLAT, JOINED, MAP, STATEMENTS, spelled
from cases.rows import Rows, word
from models.hashes import digest, md5
from models.held_sets import say_rows
from models.names import TABLES
from models.read_databases import File, Left, Odd, cells, words_of


def said_of(file):
    """What a reading by pages shows: the rows in the order of the tables' trees, how many of the tiles are found by their
    places, and how many were left out; a fault, where a table has rows and none of them has a place. None where a table
    is a view, a place stands twice, or a value is of another kind."""
    layout = file.layout()
    if not layout or not all(map(file.has, layout)) or 'metadata' in file.kinds and not file.has('metadata'):
        return None
    file.left, tables = Left(), {}
    try:
        if file.has('metadata'):
            tables['metadata'] = file.filled('metadata')
        for table in layout:
            read = [(row, cells(table, row)) for row in file.asked(table)]
            for row, found in read:
                if found is None:
                    file.left.add(table, row)
            tables[table] = [found for _, found in read if found is not None]
            if read and not tables[table]:
                return 'fault'
    except (Odd, ValueError):
        return None
    places = [tuple(found[:3]) for found in tables[layout[-1]]]
    if len(set(places)) < len(places):
        return None
    return ''.join(say_rows(tables, name) for name in TABLES) + f"found {len(places)} left {' '.join(map(str, file.left.counts))}"


def pages_of(statements):
    """The same of the database that statements make. None also where a table is of a form that isn't made so."""
    file = File(statements)
    return None if any('without' in words_of(text) for text in file.texts.values()) else said_of(file)


def paged(rows, *statements):
    answer = pages_of(statements)
    if answer is not None:
        rows.row('paged ' + spelled(statements), answer)


def paged_cases(rows):
    """Tables of several pages, contents longer than a page, and what isn't read by pages."""
    rng = random.Random(31)
    tiles = [(z, x, y) for z in range(8, 11) for x in range(0, 2 ** z, 31) for y in range(0, 2 ** z, 67)]
    rng.shuffle(tiles)
    rows_of = [f"({z}, {x}, {y}, x'{rng.randbytes(9000 if k % 100 == 7 else rng.randrange(1, 60)).hex()}')" for k, (z, x, y) in enumerate(tiles)]
    inserts = ['INSERT INTO tiles VALUES ' + ', '.join(rows_of[k:k + 60]) for k in range(0, len(rows_of), 60)]
    paged(rows, FLAT, 'CREATE TABLE metadata (name TEXT, value TEXT)', "INSERT INTO metadata VALUES ('name', 'town')", *inserts)
    paged(rows, FLAT, *inserts[:2], 'DELETE FROM tiles WHERE tile_column < 100', *inserts[2:4])
    view = 'CREATE VIEW tiles AS SELECT zoom_level, tile_column, tile_row + 0 AS tile_row, tile_data FROM other'
    other = FLAT.replace('tiles', 'other', 1)
    for answer, statements in [('NotASet', ['CREATE TABLE other (a)']), ('View', [other, view]),
                               ('Column', ['CREATE TABLE tiles (zoom_level, tile_column, tile_row)'])]:
        rows.row('paged ' + spelled(statements), answer)


KEYED = 'CREATE TABLE tiles (zoom_level integer, tile_column integer, tile_row integer, tile_data blob, primary key (zoom_level, tile_column, tile_row)) without rowid'
PLACES = 'CREATE TABLE tiles_shallow (zoom_level integer, tile_column integer, tile_row integer, tile_data_id integer, primary key (zoom_level, tile_column, tile_row)) without rowid'
CONTENTS = 'CREATE TABLE tiles_data (tile_data_id integer primary key, tile_data blob)'
COMPACT = ('CREATE VIEW tiles AS SELECT tiles_shallow.zoom_level as zoom_level, tiles_shallow.tile_column as tile_column, tiles_shallow.tile_row as tile_row, tiles_data.tile_data as tile_data '
           'FROM tiles_shallow JOIN tiles_data ON tiles_shallow.tile_data_id = tiles_data.tile_data_id')
KEYED_NAMES = 'CREATE TABLE metadata (name text primary key, value text) without rowid'


def bytes_of(folder, statements, size=512):
    """The bytes of the file that statements make, in pages of so many bytes."""
    path = os.path.join(folder, 'made')
    base = sqlite3.connect(path, isolation_level=None)
    for statement in (f'pragma page_size = {size}', *statements):
        base.execute(statement)
    base.close()
    with open(path, 'rb') as file:
        data = file.read()
    os.remove(path)
    return data


def read_bytes(folder, data):
    """What SQLite reads of a file of these bytes, None where it refuses it."""
    path = os.path.join(folder, 'read')
    with open(path, 'wb') as file:
        file.write(data)
    try:
        read = OfFile(path)
    except (sqlite3.Error, UnicodeDecodeError, AttributeError):
        return None
    try:
        return said_of(read)
    except sqlite3.Error:
        return None
    finally:
        read.base.close()


class OfFile(File):
    """A file that is there."""

    def __init__(self, path):
        self.base = sqlite3.connect(path, isolation_level=None)
        self.base.text_factory = bytes
        self.read_catalog()


def file_case(rows, folder, *statements, size=512):
    data = bytes_of(folder, statements, size)
    rows.row('file ' + word(data), read_bytes(folder, data))
    return data


def changed_case(rows, folder, data):
    """A bit of each byte behind the header is changed: the set is refused, or read as SQLite reads it."""
    readings, runs = [], []
    for at in range(100, len(data)):
        changed = bytearray(data)
        changed[at] ^= 1 << at % 8
        said = read_bytes(folder, bytes(changed))
        readings.append('-' if said is None or said == 'fault' else md5(f'{said} '.encode())[:8])
    for reading, same in itertools.groupby(readings):
        runs.append(f'{len(list(same))}x{reading}')
    rows.row(f"changed {word(data)} {','.join(runs)}", f'tried {len(data)}')


def keyed_cases(rows, folder):
    """Tables WITHOUT ROWID: as Planetiler makes them, of several levels, with rows over several pages, with the columns
    in another order than the key's, after rows were removed, and with values of other kinds."""
    rng = random.Random(37)
    tiles = [(z, x, y) for z in range(8, 11) for x in range(0, 2 ** z, 31) for y in range(0, 2 ** z, 67)]
    rng.shuffle(tiles)

    def into(table, values):
        return [f'INSERT INTO {table} VALUES ' + ', '.join(values[k:k + 60]) for k in range(0, len(values), 60)]

    long = [f"({z}, {x}, {y}, x'{rng.randbytes(rng.choice((0, 5, 40, 300, 1500))).hex()}')" for z, x, y in tiles[:150]]
    short = [f'({z}, {x}, {y}, {rng.randrange(20)})' for z, x, y in tiles]
    contents = [f"({k}, x'{rng.randbytes(rng.randrange(1, 900)).hex()}')" for k in range(20)]
    file_case(rows, folder, KEYED, KEYED_NAMES, "INSERT INTO metadata VALUES ('name', 'town'), ('format', 'png'), ('a', 5)", *into('tiles', long))
    file_case(rows, folder, PLACES, CONTENTS, COMPACT, 'CREATE TABLE metadata (name text, value text)', 'CREATE UNIQUE INDEX name ON metadata (name)',
              "INSERT INTO metadata VALUES ('name', 'town')", *into('tiles_shallow', short), *into('tiles_data', contents))
    file_case(rows, folder, KEYED, *into('tiles', long), 'DELETE FROM tiles WHERE tile_column % 3 = 1', size=1024)
    file_case(rows, folder, KEYED.replace('without rowid', 'WITHOUT\nROWID '))
    file_case(rows, folder, 'CREATE TABLE "Tiles" (tile_data blob, [TILE_ROW] real, note text, tile_column, "zoom_level" text, primary key ("ZOOM_LEVEL", tile_column, tile_row)) without rowid',
              "INSERT INTO tiles VALUES (x'31', 0, 'a', 0, 1), (x'32', 1.0, 'b', 0, 1), (x'33', 0.5, 'c', 1, 1), ('text', 1, 'd', 1, '1'), (x'34', 0, 'e', 0, 'x')",
              "ALTER TABLE tiles ADD COLUMN more DEFAULT 7")
    file_case(rows, folder, 'CREATE TABLE tiles (zoom_level integer, tile_column integer, tile_row integer, primary key (zoom_level, tile_column, tile_row)) without rowid',
              'INSERT INTO tiles VALUES (1, 0, 0), (1, 1, 0)', "ALTER TABLE tiles ADD COLUMN tile_data DEFAULT x'3132'", "INSERT INTO tiles VALUES (1, 1, 1, x'33')")
    file_case(rows, folder, KEYED, 'INSERT INTO tiles VALUES (31, 0, 0, null)')
    hashed = [(digest('md5', bytes([k])), f"x'{k:02x}'") for k in range(40)]
    file_case(rows, folder, MAP[:-1] + ', primary key (zoom_level, tile_column, tile_row)) without rowid', 'CREATE TABLE images (tile_data blob, tile_id text primary key) without rowid', JOINED,
              *into('images', [f"({data}, '{name}')" for name, data in hashed]), *into('map', [f"(6, {k}, {rng.randrange(64)}, '{hashed[k][0]}')" for k in range(40)]))
    for key in ('tile_row, zoom_level, tile_column', 'zoom_level, tile_column', 'zoom_level, tile_column desc, tile_row', 'zoom_level, tile_column, tile_row collate nocase', 'zoom_level, tile_column, tile_row, tile_data'):
        data = bytes_of(folder, [KEYED.replace('zoom_level, tile_column, tile_row)', key + ')'), "INSERT INTO tiles VALUES (0, 0, 0, x'31')"])
        rows.row('file ' + word(data), 'Table')
    small = [f"(2, {k % 4}, {k // 4}, x'{rng.randbytes((3, 60, 700)[k % 3]).hex()}')" for k in range(12)]
    changed_case(rows, folder, bytes_of(folder, [KEYED, KEYED_NAMES, "INSERT INTO metadata VALUES ('name', 'town'), ('format', 'png')", *into('tiles', small)]))
    few = [f'(4, {k % 16}, {k // 16}, {k % 3})' for k in range(60)]
    changed_case(rows, folder, bytes_of(folder, [PLACES, CONTENTS, COMPACT, *into('tiles_shallow', few), *into('tiles_data', contents[:3])]))


def main():
    reading_cases.write(Rows('mbtiles_rows'))
    rows = Rows('file_rows')
    for statements in STATEMENTS:
        paged(rows, *statements)
    paged_cases(rows)
    with tempfile.TemporaryDirectory() as folder:
        keyed_cases(rows, folder)
    for line in ('paged', 'paged CREATE~NOTHING', 'file', 'file y', 'changed x00', 'other'):
        rows.refused(line)
    rows.write()


if __name__ == '__main__':
    main()
