# Lines of a store, for tools/cases/set_rows.py: rows, changes and calls that fail. The wanted answers follow from the
# rules of a store, as store_lines.py has them.
import random

from cases.set_program import ROWS, refused, row
from cases.store_lines import StoreLines, some_cells, some_changes, some_key
from models import shown
from models.names import KEYS, LAYOUTS, TABLES, VARIANTS
from models.tables import layout_answers, show_row, spelled_changes, table_answers


def tile(z, c, r, b):
    return f'i{z}', f'i{c}', f'i{r}', f'x{b:02x}'


# a row put twice, a row removed, and a new row
THREE = [('tiles', 'place 2 1 0', tile(2, 1, 0, 9)), ('tiles', 'place 2 0 0', None), ('tiles', 'place 2 2 0', tile(2, 2, 0, 8)), ('tiles', 'place 2 1 0', tile(2, 1, 0, 7))]


def stores():
    s = StoreLines(ROWS, 'flat')
    s.push('tiles', *tile(1, 0, 1, 7))
    s.push('tiles', *tile(1, 0, 1, 8))
    s.rows('tiles', 0, 9)
    row('store empty', 'Ok(false)')
    s = StoreLines(ROWS, 'flat')
    for t in [(2, 3, 0, 3), (2, 1, 0, 2), (2, 0, 0, 1)]:
        s.push('tiles', *tile(*t))
    for first, limit in [(0, 9), (1, 1), (0, 0), (2, 5), (3, 1), (9, 9), (0, 2 ** 64 - 1), (2 ** 64 - 1, 2 ** 64 - 1)]:
        s.rows('tiles', first, limit)
    s.find('tiles', 'place 2 0 0', 'i2', 'i0', 'i0')
    s.find('tiles', 'place 2 2 0', 'i2', 'i2', 'i0')
    s.count('tiles')
    s.live()
    s.commit(*THREE)
    s.rows('tiles', 0, 9)
    s.count('tiles')
    s.live()
    s.find('tiles', 'place 2 0 0', 'i2', 'i0', 'i0')
    s.find('tiles', 'place 2 2 0', 'i2', 'i2', 'i0')
    for t in [(2, 1, 0, 1), (2, 2, 0, 2), (2, 3, 0, 4), (2, 0, 0, 5), (2, 0, 0, 6)]:
        s.push('tiles', *tile(*t))
    s.rows('tiles', 0, 9)
    s.commit()
    s.commit(('tiles', 'place 2 0 0', None), ('map', 'place 2 0 0', None))
    s.commit(('tiles', 'place 2 0 0', None), ('tiles', 'place 2 1 0', tile(2, 1, 1, 0)))
    refused('store commit 1 delete tiles place 2 0 0 delete tiles place 2 1 0')
    refused('store commit 2 delete tiles place 2 0 0')
    s.rows('tiles', 0, 9)


def many_rows():
    """Rows that come in the order of their keys, in the other one, and between those that are there."""
    s = StoreLines(ROWS, 'flat')
    for c in reversed(range(300)):
        s.push('tiles', *tile(9, c, 0, 7))
    s.count('tiles')
    for c in range(300):
        s.push('tiles', *tile(9, c, 0, 8))
    s.find('tiles', 'place 9 123 0', 'i9', 'i123', 'i0')
    s.rows('tiles', 0, 999)
    s = StoreLines(ROWS, 'flat')
    c = 0
    for number in range(1000):
        c = (c + 5) % 7
        s.push('tiles', 'n', f'i{c}', 'i0', f'i{number}')
    s.rows('tiles', 0, 2000)
    s = StoreLines(ROWS, 'flat')
    for c in list(range(100, 200)) + [199, 100, 201, 200, 200, 201, 50, 201, 202, 50, 202]:
        s.push('tiles', *tile(9, c, 0, 7))
    s.rows('tiles', 0, 2000)


def pages():
    """Pages that go on where the last one ended, pages from elsewhere, and changes and other calls between them."""
    chance = random.Random(16)
    for layout in LAYOUTS:
        s = StoreLines(ROWS, layout)
        for _ in range(60):
            name = chance.choice(list(s.tables))
            s.push(name, *some_cells(chance, name))
        at = dict.fromkeys(TABLES, 0)
        for _ in range(250):
            name = chance.choice(list(s.tables))
            limit = chance.randrange(4)
            what = chance.random()
            if what < 0.75:
                s.rows(name, at[name], limit)
                at[name] = at[name] + limit if at[name] <= len(s.tables[name]) else 0
            elif what < 0.8:
                s.rows(name, chance.randrange(9), limit)
            elif what < 0.85:
                s.push(name, *some_cells(chance, name))
            elif what < 0.9:
                s.commit(*some_changes(chance, chance.randrange(3), lambda: chance.choice(list(s.tables))))
            elif what < 0.95:
                s.count(name)
            else:
                words, cells = some_key(chance, name)
                s.find(name, words, *cells)


def random_stores():
    chance, more = random.Random(13), random.Random(15)
    for layout in LAYOUTS:
        for _ in range(4):
            s = StoreLines(ROWS, layout)
            for _ in range(40):
                name = chance.choice(list(TABLES))
                cells = some_cells(chance, name)
                s.push(name, *(cells if chance.random() < 0.95 else cells[1:]))
            for name in TABLES:
                s.count(name)
                s.rows(name, 0, 100)
                s.rows(name, 1, 2)
                for _ in range(3):
                    words, cells = some_key(chance, name)
                    s.find(name, words, *cells)
            for _ in range(30):
                name = chance.choice(list(TABLES))
                words, cells = some_key(chance, name)
                if chance.random() < 0.4:
                    s.delete(name, words)
                else:
                    s.put(name, words, *(cells if chance.random() < 0.9 else some_key(chance, name)[1]), *some_cells(chance, name)[KEYS[name]:])
            for name in TABLES:
                s.rows(name, 0, 100)
            s.live()
            mixed(more, s)


def mixed(chance, s):
    """Commits of several changes, and rows that are pushed between them."""
    for _ in range(6):
        s.commit(*some_changes(chance, chance.randrange(7), lambda: chance.choice(list(s.tables) if chance.random() < 0.98 else list(TABLES))))
        for _ in range(4):
            name = chance.choice(list(s.tables))
            s.push(name, *some_cells(chance, name))
    for name in s.tables:
        s.rows(name, 0, 100)
        s.count(name)
    s.live()


def show_key(words):
    kind, *values = words.split(' ')
    if kind == 'place':
        return f'Tile {{ zoom: {values[0]}, column: {values[1]}, row: {values[2]} }}'
    return f'TextId({shown.text(values[0])})' if kind == 'text' else f'IntId({values[0]})'


def changes(*calls):
    """Changes by (table, key, cells or None): one for each table and key, at the place of the first."""
    kept = {}
    for name, words, cells in calls:
        kept[name, words] = cells
    row(spelled_changes('changes', calls), len(kept), shown.flag(not kept), *(f'({VARIANTS[n]}, {show_key(w)}, {shown.option(c and show_row(c))})' for (n, w), c in kept.items()))


def all_changes():
    changes()
    t = {b: list(tile(0, 0, 0, b)) for b in (1, 2)}
    changes(('tiles', 'place 0 0 0', t[1]), ('map', 'place 0 0 0', None), ('tiles', 'place 0 0 0', None))
    changes(('tiles', 'place 2 1 0', list(tile(2, 1, 0, 9))), ('tiles', 'place 2 0 0', None), ('tiles', 'place 2 2 0', list(tile(2, 2, 0, 8))), ('tiles', 'place 2 1 0', list(tile(2, 1, 0, 7))))
    refused('changes 1 put tiles place 0 0 1 ' + ' '.join(t[1]))
    refused('changes 1 put tiles number 0 ' + ' '.join(t[1]))
    chance = random.Random(14)
    for _ in range(60):
        changes(*some_changes(chance, chance.randrange(1, 7), lambda: chance.choice(list(TABLES))))


def faults():
    s = StoreLines(ROWS, 'flat')
    row('store fail 2 4')
    s.count('tiles')
    row('store live', 'Err(Fault)')
    s.live()
    row('store rows tiles 0 9', 'Err(Fault)')
    s.count('tiles')
    for call, answer in [('count tiles', 'Err(Fault)'), ('live', 'Err(Fault)'), ('describe', 'Err(Fault)'), ('empty', 'Err(StoreFault)'), ('rows tiles 0 1', 'Err(Fault)'),
                         ('find tiles place 0 0 0', 'Err(Fault)')]:
        row('store new layout flat')
        row('store fail 1')
        row('store ' + call, answer)
        row('store count tiles', 'Ok(0)')
    s = StoreLines(ROWS, 'flat')
    s.push('tiles', *tile(1, 0, 0, 5))
    row('store fail 3 5')
    s.commit(('tiles', 'place 1 0 0', tile(1, 0, 0, 6)), fault=True)
    s.rows('tiles', 0, 9)
    refused('store commit 1 delete tiles place 1 0 0')
    s.rows('tiles', 0, 9)
    s.delete('tiles', 'place 1 0 0')
    s.rows('tiles', 0, 9)
    # the second and the fifth call fail: each commit asks for the descriptions first
    s = StoreLines(ROWS, 'flat')
    row('store fail 2 5')
    s.count('tiles')
    row('store live', 'Err(Fault)')
    s.live()
    s.commit(*THREE, fault=True)
    s.count('tiles')
    s.commit(*THREE)
    s.count('tiles')
    s.rows('tiles', 0, 9)
    row('store new')
    row('store fail 1 3')
    row('create flat', 'Err(StoreFault)', 0, *layout_answers([]), *table_answers([]))
    row('store describe', 'Err(Fault)')
    row('store describe', 'Ok([])')


def write():
    for rows in (stores, many_rows, pages, random_stores, all_changes, faults):
        rows()
