# Lines of a store of crates/set_rows: rows in the order of their keys, equal keys in order of arrival.
from models.names import KEYS, TABLES, VARIANTS
from models.patches import insert_row, order
from models.shown import option
from models.tables import key_cells, layout_tables, show_row, size, spelled_changes, table


class StoreLines:
    """Rows by their tables, in the order of keys, and a line for each call."""

    def __init__(self, out, layout):
        self.out = out
        self.tables = {t[0]: [] for t in [table('metadata')] + layout_tables(layout) if t[1]}
        self.out.row('store new layout ' + layout)

    def key(self, name, cells):
        return [order(c) for c in cells[:KEYS[name]]]

    def push(self, name, *cells):
        call = f"store push {name} {' '.join(cells)}"
        if name not in self.tables or len(cells) != len(TABLES[name]):
            return self.out.refused(call)
        rows, key = self.tables[name], self.key(name, cells)
        if 'n' not in cells[:KEYS[name]] and any(self.key(name, r) == key for r in rows):
            return self.out.row(call, f'Err(DuplicateRow({VARIANTS[name]}))')
        self.out.row(call, 'Ok(())')
        insert_row(rows, KEYS[name], cells)

    def rows(self, name, first, limit):
        part = self.tables.get(name, [])[first:first + limit]
        self.out.row(f'store rows {name} {first} {limit}', f"Ok([{', '.join(map(show_row, part))}])")

    def find(self, name, words, *cells):
        found = next((r for r in self.tables.get(name, []) if list(r[:KEYS[name]]) == list(cells)), None)
        self.out.row(f'store find {name} {words}', f'Ok({option(found and show_row(found))})')

    def count(self, name):
        self.out.row('store count ' + name, f'Ok({len(self.tables.get(name, []))})')

    def commit(self, *calls, fault=False):
        """Makes changes at once: each a table, a key in words, and the cells that are put in place of the rows of the
        key, or None."""
        call = spelled_changes('store commit', calls)
        for name, words, cells in calls:
            if name not in self.tables or cells and (len(cells) != len(TABLES[name]) or key_cells(words) != list(cells[:KEYS[name]])):
                return self.out.refused(call)
        self.out.row(call, 'Err(Fault)' if fault else 'Ok(())')
        for name, words, cells in [] if fault else calls:
            self.remove(name, key_cells(words))
            if cells:
                insert_row(self.tables[name], KEYS[name], cells)

    def put(self, name, words, *cells):
        self.commit((name, words, cells))

    def delete(self, name, words):
        self.commit((name, words, None))

    def remove(self, name, cells):
        key = [order(c) for c in cells[:KEYS[name]]]
        self.tables[name] = [r for r in self.tables[name] if len(cells) < KEYS[name] or self.key(name, r) != key]

    def live(self):
        self.out.row('store live', f'Ok({sum(size(c) for rows in self.tables.values() for r in rows for c in r)})')


def some_key(chance, name):
    """A key that fits the table, in words, and its cells."""
    if KEYS[name] == 3:
        words = 'place ' + ' '.join(str(chance.randrange(3)) for _ in range(3))
    elif name == 'tiles_data':
        words = f'number {chance.randrange(-1, 3)}'
    else:
        words = 'text ' + chance.choice(['a', 'b', 'ab', 'z'])
    return words, key_cells(words)


def some_cells(chance, name):
    cells = []
    for column, kind in TABLES[name]:
        plain = {'INTEGER': f'i{chance.randrange(-1, 3)}', 'TEXT': 't' + chance.choice(['', 'a', 'b', 'ab']), 'BLOB': 'x' + chance.choice(['', '00', 'ff01'])}[kind]
        cells.append(plain if chance.random() < 0.9 else chance.choice(['n', 'o', 'i5', 'tz', 'x7f']))
    return cells


def some_changes(chance, count, choose):
    """Changes by chance of tables that are chosen: rows that are put or taken away."""
    calls = []
    for _ in range(count):
        name = choose()
        words, cells = some_key(chance, name)
        calls.append((name, words, None if chance.random() < 0.4 else [*cells, *some_cells(chance, name)[KEYS[name]:]]))
    return calls
