# Lines of a cache and of the store under it, for tools/cases/cache_cases.py. Their answers are those of
# tools/models/caches.py.
from cases.rows import tile_word
from models.caches import Cache, CacheRefused, StoreCalls, row_of
from models.shown import flag, option


def times_words(fetched, expires, tag):
    """When a tile was fetched, when it expires, and its tag, each a dash where it isn't there."""
    return ' '.join('-' if value is None else f'{kind}{value}' for kind, value in (('', fetched), ('', expires), ('t', tag)))


class Lines:
    """The lines of a store and of its cache."""

    def __init__(self, rows, kind, made=True):
        self.rows, self.kind = rows, kind
        self.store = StoreCalls()
        self.cache = Cache(self.store, made)
        rows.row(f'new {kind}')

    def result(self, call, answer, show=str):
        """A line whose answer is printed with Ok or Err."""
        try:
            said = f'Ok({show(answer())})'
        except CacheRefused as refusal:
            said = f'Err({refusal})'
        self.rows.row(call, said)
        return said

    def plain(self, call, answer, show):
        """A line whose refusal is printed alone."""
        try:
            said = show(answer())
        except CacheRefused as refusal:
            said = str(refusal)
        self.rows.row(call, said)
        return said

    def open(self):
        return self.plain('open', self.cache.open, lambda _: 'true')

    def call(self, name, *given, how=''):
        """A call of the open cache, or of one that is opened for it (`once `, `over `)."""
        cache = self.cache
        if how:
            try:
                cache.open()
            except CacheRefused as refusal:
                return self.rows.row(how + self.line(name, given), str(refusal))
        line = how + self.line(name, given)
        if name == 'set':
            return self.result(line, lambda: cache.set(*given), lambda _: '()')
        if name == 'update':
            return self.result(line, lambda: cache.update(*given), flag)
        if name == 'get':
            return self.plain(line, lambda: cache.get(*given), self.tile)
        if name == 'tile':
            return self.plain(line, lambda: cache.get(*given), lambda tile: tile_word(tile and tile[3]))
        if name == 'expired':
            return self.result(line, lambda: cache.purge_expired(*given))
        if name == 'size':
            return self.result(line, lambda: cache.purge_to_size(*given))
        assert name == 'meta'
        return self.plain(line, cache.zooms, lambda zooms: f'unknown {option(zooms[0])} {option(zooms[1])}')

    def line(self, name, given):
        if name == 'set':
            z, x, y, data, *times = given
            return f'set {z} {x} {y} x{data.hex()} {times_words(*times)}'
        if name == 'update':
            z, x, y, *times = given
            return f'update {z} {x} {y} {times_words(*times)}'
        return ' '.join([name, *map(str, given)])

    @staticmethod
    def tile(tile):
        if tile is None:
            return 'none'
        *times, data = tile
        return f'x{data.hex()} {times_words(*times)}'

    def each(self, name, numbers):
        """A call with each of some numbers, and the rows after it."""
        for number in numbers:
            self.call(name, number)
            self.say_rows()

    def say_rows(self):
        """The rows, in memory in the order of their keys, in a database as they came."""
        self.store.ask(2)
        tiles = self.cache.tiles.items()
        shown = ''.join(row_of(place, tile) + ' ; ' for place, tile in (tiles if self.kind == 'database' else sorted(tiles)))
        self.rows.rows.append(('rows', shown))

    def say_size(self):
        self.store.ask()
        self.rows.row('live', f'Ok({self.cache.live_size()})')

    def fail(self, *numbers):
        self.store.failing = set(numbers)
        self.rows.row(' '.join(['fail', *map(str, numbers)]))

    def push(self, place, tile):
        self.store.ask()
        self.cache.tiles[place] = tile
        self.rows.row(f'push tile_cache {row_of(place, tile)}', 'Ok(())')
