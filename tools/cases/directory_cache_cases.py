# Lines of caches of directories, for tools/cases/archive_rows.py.
import random

from cases.archive_program import U64, refused, row
from cases.rows import entry, result, word
from models import pmtiles as pm
from models import shown
from models.hashes import md5


def found(spelled, t):
    """What is found in a directory that is held."""
    e = pm.scan(pm.read_directory(spelled), t)
    return f'Found({entry(e)})' if e else 'NotFound'


def fetched(spelled, t):
    return result(lambda: shown.option((lambda e: e and entry(e))(pm.scan(pm.read_directory(spelled), t))), str)


def caches():
    seven, eight = bytes.fromhex('0107010101'), bytes.fromhex('0108010101')
    there = found(seven, 7)
    taken = f'Ok(Some({entry((7, 0, 1, 1))}))'
    for spelled, t in [(seven, 7), (eight, 7), (b'\0', 0), (pm.directory([(0, 0, 5, 0)]), 99)]:
        row(f'cache from {word(spelled)} {t}', found(spelled, t))
    refused('cache new 0')
    refused('cache recent find 0 7')
    row('cache new 2')
    for call, wanted in [('insert 0 ' + word(seven), 'Ok(false)'), ('find 0 7', 'NotCached'), ('fetch 0 7 ' + word(seven), taken), ('fetch 0 7 x', 'Err(InvalidEntry)'), ('find 0 7', 'NotCached')]:
        row('cache none ' + call, wanted)
    for call, wanted in [('insert 0 ' + word(seven), 'Ok(true)'), ('insert 10 ' + word(eight), 'Ok(true)'), ('find 0 7', there), ('find 10 7', 'NotFound'), ('find 20 7', 'NotCached'),
                         ('fetch 0 7 x', taken), ('fetch 10 7 ' + word(seven), 'Ok(None)'), ('fetch 20 7 x', 'Err(InvalidEntry)'), ('find 20 7', 'NotCached'),
                         ('fetch 20 7 ' + word(seven), taken), ('find 20 7', there), ('insert 0 ' + word(eight), 'Ok(true)'), ('find 0 7', 'NotFound')]:
        row('cache map ' + call, wanted)
    for call, wanted in [('insert 0 ' + word(seven), 'Ok(true)'), ('insert 10 ' + word(eight), 'Ok(true)'), ('find 0 7', there), ('fetch 20 7 ' + word(seven), taken),
                         ('find 10 7', 'NotCached'), ('fetch 0 7 x', taken), ('insert 30 ' + word(eight), 'Ok(true)'), ('find 0 7', there), ('find 20 7', 'NotCached'),
                         ('fetch 40 7 x', 'Err(InvalidEntry)'), ('find 30 7', 'NotFound'), ('find 0 7', there)]:
        row('cache recent ' + call, wanted)
    row('cache new 4294967295')
    row('cache map find 20 7', 'NotCached')
    row('cache recent insert 0 ' + word(seven), 'Ok(true)')
    row('cache recent find 0 7', there)
    refused('cache recent insert 0 x')
    limited_caches(seven, there)
    random_caches(random.Random(10), 3, None)
    random_caches(random.Random(11), 4, 5)
    random_caches(random.Random(12), 2, 3)


def limited_caches(seven, there):
    """What is held has at most so many entries together; a longer directory is never held."""
    two = pm.directory([(7, 0, 1, 1), (9, 1, 1, 1)])
    three = pm.directory([(7, 0, 1, 1), (9, 1, 1, 1), (11, 2, 1, 1)])
    refused('cache limit 0 5')
    row('cache limit 4 3')
    for call, wanted in [('insert 0 ' + word(seven), 'Ok(true)'), ('insert 10 ' + word(two), 'Ok(true)'), ('find 0 7', there), ('insert 20 ' + word(seven), 'Ok(true)'), ('find 10 7', 'NotCached'),
                         ('find 0 7', there), ('find 20 7', there), ('insert 30 ' + word(three), 'Ok(true)'), ('find 0 7', 'NotCached'), ('find 20 7', 'NotCached'), ('find 30 7', there),
                         ('insert 40 ' + word(pm.directory([(i, i, 1, 1) for i in range(4)])), 'Ok(false)'), ('find 40 0', 'NotCached'), ('find 30 7', there),
                         ('fetch 40 3 ' + word(pm.directory([(i, i, 1, 1) for i in range(4)])), f'Ok(Some({entry((3, 3, 1, 1))}))'), ('find 40 3', 'NotCached'), ('find 30 7', there),
                         ('insert 30 ' + word(seven), 'Ok(true)'), ('insert 50 ' + word(two), 'Ok(true)'), ('find 30 7', there)]:
        row('cache recent ' + call, wanted)
    row('cache limit 1 0')
    row('cache recent insert 0 ' + word(seven), 'Ok(false)')
    row('cache recent insert 0 ' + word(b'\0'), 'Ok(true)')
    row('cache recent find 0 7', 'NotFound')
    row('cache limit 4294967295 4294967295')
    row('cache recent insert 0 ' + word(seven), 'Ok(true)')
    row('cache recent find 0 7', there)


class Caches:
    """What the caches hold: a map keeps all, and a bounded one gives up what was used longest ago."""

    def __init__(self, capacity, most):
        self.capacity, self.most, self.map, self.recent = capacity, most, {}, []

    def known(self, way, offset):
        return (self.map if way == 'map' else dict(self.recent)).get(offset)

    def put(self, way, offset, spelled):
        if way == 'map':
            self.map[offset] = spelled
            return True
        most = U64 if self.most is None else self.most
        if length(spelled) > most:
            return False
        self.recent = ([(offset, spelled)] + [u for u in self.recent if u[0] != offset])[:self.capacity]
        while sum(length(u[1]) for u in self.recent) > most:
            self.recent.pop()
        return True

    def touch(self, way, offset):
        if way == 'recent':
            self.recent.sort(key=lambda u: u[0] != offset)


def length(spelled):
    return len(pm.read_directory(spelled))


def random_caches(chance, capacity, most):
    """Any calls, by the rules of each cache."""
    row('cache new 3')
    directories = [pm.directory([(i, 0, 1, 1), (i + 3, 1, 1, 2)]) for i in range(5)] + [b'\1']
    if most is not None:
        row(f'cache limit {capacity} {most}')
        directories += [pm.directory([(k, 0, 1, 1) for k in range(n)]) for n in (0, 1, 3, 4, 6)]
    caches = Caches(capacity, most)
    for _ in range(400):
        offset, t, spelled = chance.randrange(6), chance.randrange(9), chance.choice(directories)
        way, call = chance.choice(['map', 'recent']), chance.choice(['insert', 'find', 'find', 'fetch', 'fetch'])
        known = caches.known(way, offset)
        if call == 'insert':
            if spelled != b'\1':
                row(f'cache {way} insert {offset} {word(spelled)}', 'Ok(true)' if caches.put(way, offset, spelled) else 'Ok(false)')
            continue
        if call == 'find':
            row(f'cache {way} find {offset} {t}', found(known, t) if known else 'NotCached')
        else:
            row(f'cache {way} fetch {offset} {t} {word(spelled)}', fetched(known or spelled, t))
        if known:
            caches.touch(way, offset)
        elif call == 'fetch' and spelled != b'\1':
            caches.put(way, offset, spelled)


def large():
    """A leaf of a million entries, which is read once."""
    count = 1000000
    h = pm.default_header()
    h.update(root_length=8, leaf_offset=16384, leaf_length=4 * count + 3, data_offset=16384 + 4 * count + 3, data_length=1)
    front = pm.header(h) + pm.directory([(0, 0, 4 * count + 3, 0)])
    assert len(front) == 135
    for way in ('map', 'recent 1'):
        row(f'medium hold x{front.hex()},x00*{16384 - 135},x{pm.varint(count).hex()}00,x01*{4 * count - 1},x30')
        row(f'read {way} sweep 0 {count}', count, shown.text(md5(b'0' * count)))
        row('medium calls', count + 2)
    row('medium hold x')


def write():
    caches()
    large()
