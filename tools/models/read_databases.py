# What is read of a database that holds a set, by the rules of crates/mb_reading/README.md: which tables are the set,
# what becomes of each row, and what is refused. Python's sqlite3 answers what the database holds.
import re
import sqlite3

from models.names import KEYS, TABLES
from models.patches import order

PLACE = ('zoom_level', 'tile_column', 'tile_row')
COLUMNS = {**{name: tuple(column for column, _ in columns) for name, columns in TABLES.items()}, 'metadata': ('name', 'value', 'CAST(value AS TEXT)')}
# the layouts that have tables of their own, the first that is there
LAYOUTS = (('images', 'map'), ('tiles_data', 'tiles_shallow'), ('tiles_with_hash',))
LINKS = {'map': 'tile_id', 'tiles_shallow': 'tile_data_id'}


class Odd(Exception):
    """A value that no set has in its column, or a key that stands twice: the refusal's words."""


def whole(kind, value):
    if kind == 'integer':
        return value
    # a number of a place has 64 bits
    if kind == 'real' and value == int(value) and -2 ** 63 <= value < 2 ** 63:
        return int(value)
    if kind == 'text' and value.isdigit() and len(value) < 10 and (value == b'0' or value[:1] != b'0'):
        return int(value)
    return None


def placed(row):
    zoom, column, line = (whole(*cell) for cell in row[:3])
    if None in (zoom, column, line) or not 0 <= zoom <= 30 or not (0 <= column < 2 ** zoom and 0 <= line < 2 ** zoom):
        return None
    return [f'i{n}' for n in (zoom, column, line)]


def data(kind, value):
    if kind in ('integer', 'real'):
        raise Odd('Cell')
    return 'n' if kind == 'null' else 'x' + value.hex()


def is_utf8(value):
    try:
        value.decode()
        return True
    except UnicodeDecodeError:
        return False


def hashed(kind, value):
    if kind == 'null':
        return 'n'
    if kind != 'text' or len(value) not in (16, 32) or set(value) - set(b'0123456789abcdefABCDEF'):
        raise Odd('Cell')
    return 't' + value.decode()


def numbered(kind, value):
    if kind not in ('integer', 'null'):
        raise Odd('Cell')
    return 'n' if kind == 'null' else f'i{value}'


LAST = {'tiles': (data,), 'tiles_with_hash': (data, hashed), 'map': (hashed,), 'tiles_shallow': (numbered,), 'images': (hashed, data), 'tiles_data': (numbered, data)}


def plain(kind, value):
    return kind == 'text' and is_utf8(value) and b'\0' not in value


def name_row(row):
    (kind, name), (value_kind, value), spelled = row
    if not plain(kind, name) or not name:
        return None
    if value_kind == 'null':
        return ['t' + name.decode(), 'n']
    said = spelled if value_kind in ('integer', 'real') else (value_kind, value)
    return ['t' + name.decode(), 't' + said[1].decode()] if plain(*said) else None


def cells(table, row):
    """The cells of a row, None where it is left out."""
    if table == 'metadata':
        return name_row(row)
    own = [kind(*cell) for kind, cell in zip(LAST[table], row if table in ('images', 'tiles_data') else row[3:])]
    place = [] if table in ('images', 'tiles_data') else placed(row)
    return None if place is None else place + own


def words_of(text):
    """The words and signs of a text of SQL, names without their quotes and in lower case."""
    return [next(filter(None, found)).lower() for found in re.findall(r'"([^"]*)"|`([^`]*)`|\[([^\]]*)\]|(\w+|[^\w\s])', text)]


def split_at(words, sign):
    parts = [[]]
    for word in words:
        parts.append([]) if word == sign else parts[-1].append(word)
    return parts


def is_shown(words, table, column):
    """Whether a column is shown under its own name: of its table or of none, AS that name or without it."""
    if words[1:2] == ['.']:
        if words[0] != table:
            return False
        words = words[2:]
    return words in ([column], [column, 'as', column], [column, column])


def has_tiles_of(text, layout):
    """Whether a text makes a view that has exactly the tiles of a layout's tables."""
    words = words_of(text)
    if words[:2] != ['create', 'view'] or words[3:5] != ['as', 'select'] or words.count('from') != 1:
        return False
    at = words.index('from')
    columns, sources = split_at(words[5:at], ','), [word for word in words[at + 1:] if word != 'inner']
    contents, places = layout[0], layout[-1]
    wanted = [(places, column) for column in PLACE] + [(contents, 'tile_data')]
    if len(columns) != 4 or not all(any(is_shown(column, *one) for column in columns) for one in wanted):
        return False
    if len(layout) == 1:
        return sources == list(layout)
    if sources[1:2] != ['join'] or sorted((sources[0], sources[2])) != sorted(layout):
        return False
    link, how = LINKS[places], [word for word in sources[3:] if word not in '()']
    return how in (['using', link], *(['on', a, '.', link, '=', b, '.', link] for a, b in ((places, contents), (contents, places))))


def said_place(kind, value):
    return {'null': 'NULL', 'text': 'a text', 'blob': 'bytes'}.get(kind) or str(value)


class Left:
    """How many rows are left out: of tiles without a number, too deep and outside the grid, of the metadata without a
    text and of a name that stood before; and the place of the first tile."""

    def __init__(self):
        self.counts, self.first = [0, 0, 0, 0, 0], None

    def add(self, table, row):
        if table == 'metadata':
            self.counts[3] += 1
            return
        place = [whole(*cell) for cell in row[:3]]
        self.counts[0 if None in place else 1 if place[0] > 30 else 2] += 1
        self.first = self.first or ','.join(said_place(*cell) for cell in row[:3])

    def words(self):
        return f" left {' '.join(map(str, self.counts))} {self.first or 'none'}" if any(self.counts) else ''


class File:
    """A database that statements make."""

    def __init__(self, statements):
        self.base = sqlite3.connect(':memory:', isolation_level=None)
        self.base.text_factory = bytes
        for statement in statements:
            self.base.execute(statement)
        self.read_catalog()

    def read_catalog(self):
        listed = self.base.execute("SELECT type, name, sql FROM sqlite_master WHERE type IN ('table', 'view')").fetchall()
        self.kinds = {name.decode(errors='replace').lower(): kind for kind, name, _ in listed}
        self.texts = {name.decode(errors='replace').lower(): text.decode(errors='replace') for _, name, text in listed}

    def has(self, table):
        return self.kinds.get(table) == b'table'

    def rows(self, table):
        asked = ', '.join(f'typeof({c}), {c}' for c in COLUMNS[table])
        for row in self.base.execute(f'SELECT {asked} FROM {table}'):
            yield [(kind.decode(), value) for kind, value in zip(row[::2], row[1::2])]

    def asked(self, table):
        """All rows of a table, or why it isn't read: only behind another one than `tiles` may a view of the tiles
        stand."""
        try:
            return list(self.rows(table))
        except sqlite3.OperationalError:
            raise (ValueError(f'Fault {table}') if table in ('tiles', 'metadata') else Odd('Fault'))

    def filled(self, table):
        """The rows of a table in the order of their keys."""
        kept, answers = {}, self.asked(table)
        for row in answers:
            found = cells(table, row)
            if found is None:
                self.left.add(table, row)
                continue
            key = tuple(found[:KEYS[table]])
            if 'n' in key:
                kept[key + (len(kept),)] = found
            elif key not in kept:
                kept[key] = found
            elif table == 'metadata':
                self.left.counts[4] += 1
            elif table != 'tiles' or kept[key] != found:
                raise Odd('Twice')
        if answers and not kept and table not in ('metadata', 'images', 'tiles_data'):
            raise ValueError('OutsideGrid')
        return sorted(kept.values(), key=lambda row: [order(cell) for cell in row[:KEYS[table]]])

    def tables(self, layout):
        self.left = Left()
        names = {'metadata': self.filled('metadata')} if 'metadata' in self.kinds else {}
        return {**names, **{table: self.filled(table) for table in layout}}

    def layout(self):
        """The tables that are read first, None where it is no set."""
        named = next((layout for layout in LAYOUTS if all(map(self.has, layout))), None)
        if 'tiles' not in self.kinds:
            return named
        return named if named and not self.has('tiles') and has_tiles_of(self.texts['tiles'], named) else ('tiles',)

    def read(self):
        """The refusal or `ok`, and the tables."""
        layout = self.layout()
        for tables in (layout, ('tiles',)) if 'tiles' in self.kinds else (layout,) if layout else ():
            try:
                read = self.tables(tables)
                return 'ok' + self.left.words(), read
            except Odd as refusal:
                if tables == ('tiles',):
                    return f'{refusal} tiles', None
            except ValueError as refusal:
                return str(refusal), None
        return 'NotASet', None
