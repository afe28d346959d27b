# Rows over a store in a database, for tools/cases/set_rows.py. The wanted answers are those of Python's sqlite3.
import random

from cases.database_lines import Database
from cases.store_lines import some_changes, some_key
from models.names import LAYOUTS, TABLES


def tile(column, last='x070809'):
    return 'tiles', f'place 1 {column} 1', ['i1', f'i{column}', 'i1', last]


def removed(column):
    return 'tiles', f'place 1 {column} 1', None


def one_row(rows):
    """A row that is put twice, found, and removed."""
    base = Database(rows, 'flat')
    base.count('tiles')
    base.commit(tile(0))
    base.commit(tile(0))
    base.find('tiles', 'place 1 0 1')
    base.find('tiles', 'place 1 1 1')
    base.find('tiles', 'text a')
    base.count('tiles')
    base.live()
    base.commit(removed(0))
    base.count('tiles')


def pages(rows):
    """Pages go on where the last one ended, and a commit between them is seen."""
    base = Database(rows, 'flat')
    base.run('CREATE TABLE tiles (zoom_level INTEGER, tile_column INTEGER, tile_row INTEGER, tile_data BLOB);'
             'INSERT INTO tiles (rowid, zoom_level, tile_column, tile_row) VALUES (-5, 1, 1, 1), (0, 1, 2, 1), (3, 1, 3, 1), (40, 1, 4, 1), (41, 1, 5, 1)')
    for first, limit in [(0, 2), (2, 2), (4, 2), (5, 2), (1, 2 ** 64 - 1), (3, 1), (0, 0), (2 ** 64 - 1, 1)]:
        base.page('tiles', first, limit)
    base.commit(removed(1))
    base.page('tiles', 3, 2)
    base.page('tiles', 0, 2)
    base.count('tiles')


def layouts(rows):
    """The tables of each layout can be made, and are described as that layout."""
    for layout in LAYOUTS:
        base = Database(rows, layout)
        base.detect()
        base.live()
        base.describe()
        for name in TABLES:
            base.count(name)


def faults(rows):
    """A cell that can't be written is a fault, and so is each call in a transaction. Both change nothing."""
    base = Database(rows, 'flat')
    base.commit(tile(0))
    base.commit(tile(0, 'o'))
    base.commit(tile(1), tile(0, 'o'))
    base.find('tiles', 'place 1 0 1')
    base.count('tiles')
    base.run('BEGIN')
    base.count('tiles')
    base.page('tiles', 0, 9)
    base.find('tiles', 'place 1 0 1')
    base.live()
    base.describe()
    base.commit(tile(1))
    base.run('COMMIT')
    base.count('tiles')


def kinds(rows):
    """A real, and a text that isn't UTF-8, is a cell of another kind. Of two rows of a name the first is found."""
    base = Database(rows, 'flat')
    base.run("CREATE TABLE metadata (name TEXT, value);INSERT INTO metadata VALUES ('n', NULL), ('i', 7), ('t', 'x'), ('t', 'y'), ('b', x'ff41'), ('r', 1.5)")
    base.run("INSERT INTO metadata VALUES ('u', CAST(x'ff41' AS TEXT))")
    for name in 'nitbruN':
        base.find('metadata', 'text ' + name)
    base.page('metadata', 0, 9)
    base.live()


HIDDEN = 'CREATE TABLE tiles (zoom_level INTEGER, tile_column INTEGER, tile_row INTEGER, tile_data BLOB, rowid)'


def hidden_numbers(rows):
    """Numbers that rise are read, whoever gave them. Others are a fault, also where two equal ones stand in two
    pages."""
    for numbers in (9, -5, 0), (1, 1, 1), (1, 'NULL', 3), (1, "'x'", 3), (1, 2, 2), (1, 1.5, 2):
        base = Database(rows, 'flat')
        base.run(HIDDEN + ';INSERT INTO tiles VALUES ' + ', '.join(f'(1, {column}, 1, NULL, {number})' for column, number in enumerate(numbers)))
        for first, limit in [(0, 1), (0, 2), (0, 9)] + ([(2, 2), (4, 2)] if numbers == (9, -5, 0) else []):
            base.page('tiles', first, limit)
        base.live()
        base.count('tiles')


def greatest_numbers(rows):
    """The least and the greatest number that a row can have are read."""
    base = Database(rows, 'flat')
    base.run('CREATE TABLE tiles (zoom_level INTEGER, tile_column INTEGER, tile_row INTEGER, tile_data BLOB);'
             'INSERT INTO tiles (rowid, zoom_level, tile_column, tile_row) VALUES (-9223372036854775807 - 1, 1, 1, 1), (0, 1, 2, 1), (9223372036854775807, 1, 3, 1)')
    for first, limit in [(0, 2), (2, 2), (4, 2), (0, 2 ** 64 - 1)]:
        base.page('tiles', first, limit)
    base.live()


def keys_by_bytes(rows):
    """Texts are equal by their bytes, however the column compares them."""
    for collation, stored, other in ('NOCASE', 'NAME', 'name'), ('RTRIM', 'n', 'N'):
        base = Database(rows, 'flat')
        base.run(f"CREATE TABLE metadata (name TEXT COLLATE {collation}, value);INSERT INTO metadata VALUES ('{stored}', 7)")
        for name in other, stored:
            base.find('metadata', 'text ' + name)
        for name in other, stored:
            base.commit(('metadata', 'text ' + name, None))
            base.count('metadata')
    base = Database(rows, 'normalized')
    base.run("CREATE TABLE images (tile_id TEXT COLLATE NOCASE UNIQUE, tile_data BLOB);INSERT INTO images VALUES ('AB', x'01')")
    base.commit(('images', 'text ab', None))
    base.count('images')
    base.find('images', 'text AB')


def names_of_tables(rows):
    """An index isn't a table of its name, and a table is found in any case of letters."""
    base = Database(rows, 'flat')
    base.run('CREATE TABLE METADATA (name, value)')
    base.count('metadata')
    base.run('CREATE TABLE other (x);DROP TABLE METADATA;CREATE INDEX metadata ON other (x)')
    base.count('tiles')
    base.live()


def random_commits(rows):
    chance = random.Random(21)
    for layout in LAYOUTS:
        base = Database(rows, layout)
        for _ in range(15):
            base.commit(*some_changes(chance, chance.randrange(5), lambda: chance.choice(base.names())))
            name = chance.choice(base.names())
            base.find(name, some_key(chance, name)[0])
            base.page(name, chance.randrange(4), chance.randrange(4))
        for name in TABLES:
            base.page(name, 0, 99)
            base.count(name)
        base.live()


def write(rows):
    for cases in (one_row, pages, layouts, faults, kinds, hidden_numbers, greatest_numbers, keys_by_bytes, names_of_tables, random_commits):
        cases(rows)
