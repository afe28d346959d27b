# A cache of tiles: a map from places to when a tile was fetched, when it expires, its tag and its bytes or null. The
# store under it counts its calls, and the call of a number that is listed fails.
ROUND = 64
U64 = 2 ** 64 - 1


class CacheRefused(Exception):
    """The refusal of a call, as it is printed."""


class StoreCalls:
    """How often a store was asked, and the numbers of its calls that fail."""

    def __init__(self):
        self.asked, self.failing = 0, set()

    def ask(self, times=1):
        for _ in range(times):
            self.asked += 1
            if self.asked in self.failing:
                raise CacheRefused('StoreFault')


def is_coordinate(z, x, y):
    return z <= 30 and x < 2 ** z and y < 2 ** z


def place(z, x, y):
    return z, x, 2 ** z - 1 - y


def int_cell(value):
    return 'n' if value is None else f'i{value}'


def row_of(place, tile):
    fetched, expires, tag, data = tile
    cells = [f'i{n}' for n in place] + [int_cell(fetched), int_cell(expires), 'n' if tag is None else f't{tag}', 'n' if data is None else f'x{data.hex()}']
    return ' '.join(cells)


def size_of(tile):
    _, _, tag, data = tile
    return 5 * 8 + (8 if tag is None else len(tag)) + (8 if data is None else len(data))


def eviction(item):
    (z, x, row), (_, expires, _, _) = item
    return expires is None, expires or 0, z, x, row


class Cache:
    """The tiles of a cache, over a store whose tables are there or not yet."""

    def __init__(self, store, made):
        self.store, self.made, self.tiles = store, made, {}

    def open(self):
        self.store.ask()
        if not self.made:
            self.store.ask()
            self.made = True
        self.load()

    def load(self):
        # descriptions, and of two tables how many rows they have and these
        self.store.ask(5)

    def found(self, z, x, y):
        if not is_coordinate(z, x, y):
            return None
        self.store.ask()
        return self.tiles.get(place(z, x, y))

    def get(self, z, x, y):
        tile = self.found(z, x, y)
        return None if tile is None or tile[3] is None else tile

    def set(self, z, x, y, data, fetched, expires, tag):
        if not is_coordinate(z, x, y):
            raise CacheRefused(f'InvalidTileIndex {{ zoom_level: Int({z}), tile_column: Int({x}), tile_row: Int({y}) }}')
        self.store.ask(2)
        self.put(place(z, x, y), (fetched, expires, tag, data))

    def update(self, z, x, y, fetched, expires, tag):
        tile = self.found(z, x, y)
        if tile is None:
            return False
        self.store.ask()
        self.put(place(z, x, y), (fetched, expires, tag, tile[3]))
        return True

    def put(self, place, tile):
        """The tile comes behind all others, as a row of a database does."""
        self.tiles.pop(place, None)
        self.tiles[place] = tile

    def purge_expired(self, now):
        gone = [place for place, tile in self.tiles.items() if tile[1] is not None and tile[1] < now]
        self.store.ask()
        for place in gone:
            del self.tiles[place]
        return len(gone)

    def live_size(self):
        return min(sum(map(size_of, self.tiles.values())), U64)

    def purge_to_size(self, most):
        self.store.ask()
        count = 0
        while self.live_size() > most and self.tiles:
            gone = sorted(self.tiles.items(), key=eviction)[:ROUND]
            self.store.ask(len(gone) + 1)
            for place, _ in gone:
                del self.tiles[place]
            count += len(gone)
        return count

    def zooms(self):
        self.load()
        zooms = [z for z, _, _ in self.tiles]
        return (min(zooms), max(zooms)) if zooms else (None, None)
