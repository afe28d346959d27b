# Lines of a store in a database, for tools/cases/database_cases.py. The answers are those of Python's sqlite3, which is
# the C library of SQLite: the same statements run there, and each call is asked in a statement of this file.
import sqlite3

from models.names import KEYS, TABLES
from models.shown import option
from models.tables import debug, key_cells, layout_answers, layout_tables, show_row, size, spelled_changes, table

PLACE = 'zoom_level = ? AND tile_column = ? AND tile_row = ?'
WHERE = {'images': 'tile_id = ? COLLATE BINARY', 'tiles_data': 'tile_data_id = ?', 'metadata': 'name = ? COLLATE BINARY'}
WORDS = {'images': 'text', 'tiles_data': 'number', 'metadata': 'text'}


def word(kind, value):
    """A value that SQLite answers, as a cell in words."""
    if kind == 'text':
        try:
            return 't' + value.decode()
        except UnicodeDecodeError:
            return 'o'
    return {'null': 'n', 'real': 'o'}.get(kind) or ('x' + value.hex() if kind == 'blob' else f'i{value}')


def value(word):
    """A cell in words as a value of SQLite."""
    kind, rest = word[0], word[1:]
    return None if kind == 'n' else int(rest) if kind == 'i' else rest if kind == 't' else bytes.fromhex(rest)


class Database:
    """A database in memory, its layout, and the lines that are written of it."""

    def __init__(self, rows, layout):
        self.rows, self.layout = rows, layout
        self.base = sqlite3.connect(':memory:', isolation_level=None)
        self.base.text_factory = bytes
        rows.row('database new ' + layout)

    def tables(self):
        return [table('metadata')] + layout_tables(self.layout)

    def names(self):
        return [name for name, is_table, _, _ in self.tables() if is_table]

    def make(self):
        """Makes the tables that aren't there."""
        there = [name.decode() for name, in self.base.execute("SELECT lower(name) FROM sqlite_master WHERE type IN ('table', 'view')")]
        for name in self.names():
            columns = TABLES[name]
            if name not in there:
                key = ', '.join(column for column, _ in columns[:KEYS[name]])
                self.base.execute(f"CREATE TABLE {name} ({', '.join(map(' '.join, columns))}, UNIQUE ({key}))")

    def call(self, words, answer):
        """A line of a call that only reads. It is a fault within a transaction, and where a table can't be made."""
        try:
            if self.base.in_transaction:
                raise sqlite3.Error
            self.make()
        except sqlite3.Error:
            return self.rows.row('database ' + words, 'Err(Fault)')
        try:
            self.rows.row('database ' + words, f'Ok({answer()})')
        except sqlite3.Error:
            self.rows.row('database ' + words, 'Err(Fault)')

    def asked(self, name, rest, values):
        columns = [column for column, _ in TABLES[name]]
        found = self.base.execute(f"SELECT {', '.join(f'typeof({c}), {c}' for c in columns)} FROM {name} {rest}", values).fetchall()
        kinds = [[word(kind.decode(), cell) for kind, cell in zip(row[::2], row[1::2])] for row in found]
        return list(map(show_row, kinds)), kinds

    def run(self, text, layout=None):
        """Statements that run on the connection, which a store of a layout then takes."""
        self.layout = layout or self.layout
        answer = 'true'
        try:
            for statement in text.split(';'):
                self.base.execute(statement)
        except sqlite3.Error:
            answer = 'false'
        assert '~' not in text
        self.rows.row(f"database run {self.layout} {text.replace(' ', '~')}", answer)

    def rises(self, name, most):
        """Whether so many rows from the first on, and one more, have numbers that rise. A column of the name hides
        SQLite's."""
        found = self.base.execute(f'SELECT typeof(rowid), rowid FROM {name} ORDER BY rowid LIMIT ?', [min(most, 2 ** 63 - 2) + 1]).fetchall()
        numbers = [number for kind, number in found if kind == b'integer']
        return len(numbers) == len(found) and all(a < b for a, b in zip(numbers, numbers[1:]))

    def count(self, name):
        self.call('count ' + name, lambda: self.base.execute(f'SELECT count(*) FROM {name}').fetchone()[0] if name in self.names() else 0)

    def page(self, name, first, limit):
        def answer():
            if name not in self.names():
                return '[]'
            most = 2 ** 63 - 1
            if limit and not self.rises(name, first + limit):
                raise sqlite3.Error
            return '[' + ', '.join(self.asked(name, 'ORDER BY rowid LIMIT ? OFFSET ?', [min(limit, most), min(first, most)])[0]) + ']'
        self.call(f'rows {name} {first} {limit}', answer)

    def find(self, name, words):
        def answer():
            if name not in self.names() or words.split(' ')[0] != WORDS.get(name, 'place'):
                return 'None'
            values = [value(cell) for cell in key_cells(words)]
            return option(next(iter(self.asked(name, f'WHERE {WHERE.get(name, PLACE)} ORDER BY rowid LIMIT 1', values)[0]), None))
        self.call(f'find {name} {words}', answer)

    def live(self):
        def answer():
            if not all(self.rises(name, 2 ** 63) for name in self.names()):
                raise sqlite3.Error
            return sum(size(cell) for name in self.names() for row in self.asked(name, '', [])[1] for cell in row)
        self.call('live', answer)

    def describe(self):
        self.call('describe', lambda: debug(self.tables()))

    def detect(self):
        """The layout of the descriptions."""
        if self.base.in_transaction:
            return self.rows.refused('database layout')
        self.make()
        self.rows.row('database layout', *layout_answers(self.tables()))

    def commit(self, *calls):
        """Makes changes at once: each a table, a key in words, and the cells that are put in place of the rows of the
        key, or None."""
        line = spelled_changes('database commit', calls)
        fits = all(name in self.names() and (not cells or len(cells) == len(TABLES[name]) and key_cells(words) == list(cells[:KEYS[name]]))
                   for name, words, cells in calls)
        if self.base.in_transaction or not fits:
            return self.rows.refused(line)
        self.make()
        kept = {}
        for name, words, cells in calls:
            kept[name, words] = cells
        if any(cells and 'o' in cells for cells in kept.values()):
            return self.rows.row(line, 'Err(Fault)')
        self.base.execute('BEGIN')
        for (name, words), cells in kept.items():
            self.base.execute(f'DELETE FROM {name} WHERE {WHERE.get(name, PLACE)}', [value(cell) for cell in key_cells(words)])
            if cells:
                self.base.execute(f"INSERT INTO {name} VALUES ({', '.join('?' * len(cells))})", [value(cell) for cell in cells])
        self.base.execute('COMMIT')
        self.rows.row(line, 'Ok(())')
