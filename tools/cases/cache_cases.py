# Calls of caches, for tools/cases/cache_rows.py. Their answers are those of tools/models/caches.py.
import random

from cases.cache_lines import Lines
from models.shown import flag


def first_tile(rows, kind, made):
    """A tile is kept and read, with all that is kept of it."""
    lines = Lines(rows, kind, made)
    lines.open()
    rows.row('tables', '3')
    lines.store.ask()
    lines.call('meta')
    lines.call('set', 3, 1, 2, b'hello', 42, 100, 'etag-1')
    lines.call('get', 3, 1, 2)
    lines.call('update', 3, 1, 2, 43, 101, 'etag-2')
    lines.call('get', 3, 1, 2)
    lines.call('update', 3, 0, 0, 43, 101, 'etag-2')
    lines.call('get', 3, 0, 0)
    lines.call('tile', 3, 1, 2)
    lines.call('tile', 3, 0, 0)
    lines.call('meta')
    lines.say_rows()
    # no bytes are an answer; fields that aren't there are null
    lines.call('set', 3, 1, 2, b'', None, None, None)
    lines.call('get', 3, 1, 2)
    lines.call('tile', 3, 1, 2)
    lines.call('update', 3, 1, 2, None, -5, '')
    lines.call('get', 3, 1, 2)
    lines.call('update', 3, 1, 2, 7, None, None)
    lines.say_rows()
    # numbers that are no coordinate of zoom 0 to 30
    for z, x, y in ((3, 8, 0), (3, 0, 8), (31, 0, 0), (32, 0, 0), (255, 0, 0), (0, 1, 0), (0, 0, 1), (30, 2 ** 30, 0), (31, 2 ** 31 - 1, 2 ** 31 - 1), (30, 2 ** 32 - 1, 0)):
        lines.call('set', z, x, y, b'no', 1, 2, None)
        lines.call('update', z, x, y, 1, 2, None)
        lines.call('get', z, x, y)
        lines.call('tile', z, x, y)
    for z, x, y in ((0, 0, 0), (30, 2 ** 30 - 1, 0), (30, 0, 2 ** 30 - 1)):
        lines.call('set', z, x, y, b'edge', -1, -2 ** 63, 'e')
        lines.call('update', z, x, y, 2 ** 63 - 1, 2 ** 63 - 1, 'f')
        lines.call('get', z, x, y)
    lines.call('meta')
    lines.say_rows()


def expiry(rows, kind, made):
    """What expires before a moment goes, and no more."""
    lines = Lines(rows, kind, made)
    lines.open()
    lines.call('expired', 50)
    for x, expires in enumerate((50, 200, None)):
        lines.call('set', 2, x, 0, bytes([x]), 1, expires, None)
    lines.each('expired', (50, 100, 100, 51, 201, 2 ** 63 - 1, 2 ** 63 - 1))
    # the lowest and the greatest moments, and one that moves by an update
    for x, expires in enumerate((-2 ** 63, -1, 0, 2 ** 63 - 1)):
        lines.call('set', 3, x, 0, bytes([x]), 1, expires, 't')
    lines.each('expired', (-2 ** 63, -2 ** 63 + 1, -1, 0))
    lines.call('update', 3, 2, 0, 1, 1000, None)
    lines.call('expired', 500)
    lines.call('update', 3, 2, 0, 1, 499, None)
    lines.call('expired', 500)
    lines.call('set', 3, 2, 0, b'again', 1, 499, None)
    lines.call('set', 3, 2, 0, b'again', 1, None, None)
    lines.call('expired', 500)
    lines.say_rows()


def sizes(rows, kind, made):
    """Rounds of 64 go by expiry, until the size is no more than the number."""
    lines = Lines(rows, kind, made)
    lines.open()
    lines.call('size', 0)
    for i in range(100):
        lines.call('set', 9, i, 0, bytes([i]), i, i if i < 80 else None, None)
    lines.say_size()
    lines.call('size', 4900)
    lines.call('size', 2000)
    lines.say_rows()
    lines.say_size()
    lines.call('size', 2000)
    lines.call('size', lines.cache.live_size())
    lines.call('size', lines.cache.live_size() - 1)
    lines.say_rows()
    # ties go by zoom, column, row from the bottom; those without an expiry go last
    keys = [(z, x, y) for z in (1, 2, 4) for x in range(min(2 ** z, 5)) for y in range(min(2 ** z, 6))]
    random.Random(5).shuffle(keys)
    for i, key in enumerate(keys):
        lines.call('set', *key, bytes(i % 7), None, (None, 7, 7, -3)[i % 4], 'tag' * (i % 3))
    lines.each('size', (5000, 2500, 1000, 0))
    # just one round, and one entry more
    for count in (64, 65, 128, 129):
        for i in range(count):
            lines.call('set', 8, i, 7, b'ab', None, 1000 - i, None)
        lines.say_size()
        lines.call('size', lines.cache.live_size() - 1)
        lines.call('size', 0)
        lines.say_rows()


def refusals(rows):
    """Stores that are no caches, and caches that don't load."""
    for layout in ('flat', 'flat-with-hash', 'normalized', 'normalized-with-view', 'dedup-id'):
        rows.row(f'new layout {layout}')
        rows.row('open', 'NotACacheFile')
        rows.row('once get 0 0 0', 'NotACacheFile')
        rows.row('over meta', 'NotACacheFile')
        rows.refused('get 0 0 0')
    bad = 'InvalidTileIndex {{ zoom_level: {}, tile_column: {}, tile_row: {} }}'
    for cells, refusal in ((('i0', 'i0', 'i0', 'tx', 'n', 'n', 'n'), 'InvalidDataFormat'), (('i0', 'i0', 'i0', 'n', 'x00', 'n', 'n'), 'InvalidDataFormat'),
                           (('i0', 'i0', 'i0', 'n', 'n', 'i5', 'n'), 'InvalidDataFormat'), (('i31', 'i0', 'i0', 'n', 'n', 'n', 'n'), bad.format('Int(31)', 'Int(0)', 'Int(0)')),
                           (('i1', 'i2', 'i0', 'n', 'n', 'n', 'n'), bad.format('Int(1)', 'Int(2)', 'Int(0)')), (('n', 'i0', 'i0', 'n', 'n', 'n', 'n'), bad.format('Null', 'Int(0)', 'Int(0)')),
                           (('i1', 'i1', 'i0', 'n', 'n', 'n', 'tx'), bad.format('Int(1)', 'Int(1)', 'Int(0)'))):
        rows.row('new layout cache')
        rows.row(f"push tile_cache {' '.join(cells)}", 'Ok(())')
        rows.row('open', refusal)
        rows.row('once meta', refusal)
    rows.row('new layout cache')
    rows.row('push metadata tname i5', 'Ok(())')
    rows.row('open', 'InvalidDataFormat')


def nulls(rows):
    """Null contents are none to read, and are an entry for all else."""
    lines = Lines(rows, 'layout cache')
    lines.push((1, 0, 1), (5, 60, 'v', None))
    lines.push((1, 1, 1), (5, None, None, None))
    lines.push((1, 1, 0), (5, 50, None, b'full'))
    for how in ('once ', 'over '):
        lines.call('get', 1, 0, 0, how=how)
        lines.call('tile', 1, 1, 1, how=how)
    lines.open()
    lines.call('get', 1, 0, 0)
    lines.call('get', 1, 1, 1)
    lines.call('update', 1, 0, 0, 6, 61, 'w')
    lines.call('update', 1, 1, 0, 6, None, None)
    lines.say_rows()
    lines.say_size()
    lines.each('expired', (62,))
    lines.each('size', (0,))


def moments(rows):
    rows.row('moment kept', 'CacheEntryMeta { fetched: None, expires: None, etag: None }',
             'CacheEntryMeta { fetched: Some(UnixSeconds(42)), expires: Some(UnixSeconds(100)), etag: Some("etag-1") }', 'false')
    for a, b in ((5, 5), (-1, 0), (2 ** 63 - 1, -2 ** 63), (-2 ** 63, -2 ** 63)):
        order = 'Less' if a < b else 'Equal' if a == b else 'Greater'
        rows.row(f'moment of {a} {b}', f'UnixSeconds({a})', str(a), order, flag(a == b))


PLACES = [(z, x, y) for z in (0, 1, 2, 3, 5) for x in range(min(2 ** z, 6)) for y in range(min(2 ** z, 7))] + [(30, 2 ** 30 - 1, 5), (30, 6, 2 ** 30 - 1), (12, 77, 4000)]
NOWHERE = [(3, 9, 0), (31, 1, 1), (2, 0, 4), (200, 0, 0)]
TAGS = (None, '', 'v1', 'a-longer-tag')


def random_call(chance):
    """A call by chance: most of them keep and read tiles."""
    place = chance.choice(PLACES if chance.random() < 0.97 else NOWHERE)
    times = chance.choice((None, chance.randrange(100))), chance.choice((None, chance.randrange(-20, 300), chance.randrange(300), 77)), chance.choice(TAGS)
    kind = chance.choices(('set', 'update', 'get', 'tile', 'expired', 'size', 'meta'), (46, 12, 20, 8, 5, 5, 4))[0]
    if kind == 'set':
        return kind, *place, bytes(chance.randrange(256) for _ in range(chance.choice((0, 1, 3, 12, 40)))), *times
    if kind == 'update':
        return kind, *place, *times
    if kind in ('get', 'tile'):
        return kind, *place
    if kind == 'expired':
        return kind, chance.choice((chance.randrange(-20, 60), chance.randrange(200), 78))
    if kind == 'size':
        return kind, chance.randrange(9000)
    return (kind,)


def life(rows, kind, made, seed, calls, fails):
    """A life of a cache. Where the store can be told to fail, each of its calls within some of the calls fails in
    turn."""
    chance = random.Random(seed)
    lines = Lines(rows, kind, made)
    lines.open()
    for number in range(calls):
        name, *given = random_call(chance)
        how = chance.choice(('once ', 'over ')) if chance.random() < 0.05 else ''
        if fails and (chance.random() < 0.08 or name == 'size' and chance.random() < 0.3):
            each_fails(lines, chance, name, given)
        else:
            lines.call(name, *given, how=how)
        if how:
            # the kept cache knows nothing of what another one changed
            lines.open()
        if number % 40 == 39:
            lines.say_rows()
            lines.say_size()
    lines.say_rows()


def each_fails(lines, chance, name, given):
    """Each of the store's calls fails in turn, or some of many; then none does."""
    at = 1
    for _ in range(200):
        lines.fail(lines.store.asked + at)
        said = lines.call(name, *given)
        if 'StoreFault' not in said:
            break
        if name == 'size':
            lines.fail()
            lines.say_rows()
        at += 1 if at < 4 else chance.randrange(1, 40)
    lines.fail()
    lines.say_size()


def opening_fails(rows):
    """Each call of the store fails while a cache is opened: over a store without tables, and over one with rows."""
    for made in (False, True):
        for at in range(1, 9):
            lines = Lines(rows, 'layout cache' if made else 'memory', made)
            if made:
                lines.push((2, 1, 1), (5, 60, 'v', b'one'))
            lines.fail(lines.store.asked + at)
            lines.open()
            lines.fail()
            lines.open()
            lines.call('get', 2, 1, 2)
            lines.say_rows()


def writing_fails(rows):
    """Each call of the store fails while a tile is kept, dated or thrown out, the last of them the commit: the rows
    are those before. Then the call is made."""
    for name, *given in (('set', 3, 1, 2, b'new', 7, 8, None), ('set', 2, 1, 2, b'other', 9, None, 't'), ('update', 2, 1, 2, 1, 2, 'w'), ('expired', 70)):
        lines = Lines(rows, 'layout cache', True)
        lines.push((2, 1, 1), (5, 60, 'v', b'one'))
        lines.open()
        for at in range(1, 9):
            lines.fail(lines.store.asked + at)
            said = lines.call(name, *given)
            lines.fail()
            lines.say_rows()
            if 'StoreFault' not in said:
                break


def write(rows):
    moments(rows)
    for kind, made in (('memory', False), ('layout cache', True), ('database', True)):
        first_tile(rows, kind, made)
        expiry(rows, kind, made)
        sizes(rows, kind, made)
    refusals(rows)
    nulls(rows)
    opening_fails(rows)
    writing_fails(rows)
    life(rows, 'memory', False, 1, 2000, True)
    life(rows, 'database', True, 2, 2000, False)
