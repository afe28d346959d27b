# The store that crates/mbtiles_rows keeps, and what its tables hold, for tools/cases/mbtiles_rows.py: how the store
# is made in one line, which of its calls fail, and how its rows are printed.
from models import shown
from models.hashes import digest, md5
from models.names import CONTENT_TABLES, KEYS, TABLES, TILE_TABLES
from models.patches import State, insert_row, order, put_row


def is_plain(text):
    return all('!' <= c <= '~' for c in text)


def cell_word(cell):
    """A cell as a line spells it: a text that isn't plain by its bytes."""
    return cell if cell[0] != 't' or is_plain(cell) else 'u' + cell[1:].encode().hex()


def spelled(pushes):
    return f'{len(pushes)}' + ''.join(f" {name} {' '.join(map(cell_word, cells))}" for name, *cells in pushes)


def say_cell(cell):
    return 't' + shown.quoted(cell[1:]) if cell[0] == 't' else cell


def say_rows(tables, name):
    return ''.join(f"{name} {' '.join(map(say_cell, cells))}; " for cells in tables.get(name, []))


def summed(text):
    """A long text by its digest."""
    return md5(text.encode())


class Tables:
    """The rows of a layout's tables, in the order of their keys."""

    def put(self, name, cells):
        put_row(self.tables[name], KEYS[name], order, cells)

    def state(self):
        return State(self.layout, self.tables)

    def load_calls(self):
        """How many calls loading makes: the descriptions, and the number and the rows of each table."""
        return 1 + 2 * len(self.tables)


class Held(Tables):
    """The kept store: its layout, the rows of its tables in the order of their keys, and how often it was asked
    before the next call. A line makes it, where there is a word for that."""

    def __init__(self, rows, layout, pushes, word='new'):
        self.rows, self.layout = rows, layout
        names = ['metadata', TILE_TABLES[layout], *([CONTENT_TABLES[layout]] if layout in CONTENT_TABLES else [])]
        self.tables = {name: [] for name in names}
        for name, *cells in pushes:
            self.add(name, cells)
        self.asked = len(pushes)
        if word:
            rows.row(f'set {word} {layout} {spelled(pushes)}')

    def add(self, name, cells):
        """One row more, behind those of its key."""
        assert len(cells) == len(TABLES[name])
        key = [order(c) for c in cells[:KEYS[name]]]
        held = self.tables[name]
        assert 'n' in cells[:KEYS[name]] or all([order(c) for c in r[:KEYS[name]]] != key for r in held), cells
        insert_row(held, KEYS[name], cells)

    def fail(self, call):
        """The call of this number, from here on, fails."""
        self.rows.row(f'set fail {self.asked + call}')

    def say(self):
        """All rows of all tables."""
        text = ''.join(say_rows(self.tables, name) for name in TABLES)
        self.rows.rows.append(('set all', text))

    def say_digests(self):
        """How many rows each table has, and their digest."""
        self.rows.row('set digest', *(piece for name in TABLES if self.tables.get(name) for piece in (name, len(self.tables[name]), summed(say_rows(self.tables, name)))))


def tile_row(layout, algorithm, place, data):
    """The row of a tile with bytes in a layout, and that of its contents where they have one."""
    key, cell, name = [f'i{n}' for n in place], 'x' + data.hex(), 't' + digest(algorithm, data)
    if layout in CONTENT_TABLES:
        return [(TILE_TABLES[layout], *key, name), (CONTENT_TABLES[layout], name, cell)]
    rest = {'flat': [cell], 'flat-with-hash': [cell, name], 'cache': ['n', 'n', 'n', cell]}[layout]
    return [(TILE_TABLES[layout], *key, *rest)]


def blob(data):
    return f"BlobVal {{ bytes: [{', '.join(map(str, data))}] }}"


def data_of(cell):
    """The bytes of a cell, or None for another cell."""
    return bytes.fromhex(cell[1:]) if cell is not None and cell[0] == 'x' else None


def is_coord(z, x, y):
    return z <= 31 and x < 2 ** z and y < 2 ** z


def row_cells(held, place):
    """The cells behind the place in the row of a tile."""
    key = [f'i{n}' for n in place]
    return next((list(r[3:]) for r in held.tables[TILE_TABLES[held.layout]] if list(r[:3]) == key), None)
