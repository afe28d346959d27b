# What importing an archive makes of the tables of a set, or the first refusal, by the rules of imports, for
# tools/cases/import_cases.py and tools/cases/hostile_archives.py.
from models import pmtiles as pm
from models import readers
from models import shown
from models.held_sets import tile_row
from models.inserted import collision
from models.names import CONTENT_TABLES

DEEP = pm.below(31)
MOST_LEAVES = 6


class Ends(Exception):
    """An answer that isn't Ok, by its debug text."""


class Reads:
    """How often a backend was read; its call of a number fails, or has another number of bytes."""

    def __init__(self, fails=0, short=None):
        self.fails, self.short, self.calls = fails, short, 0

    def call(self, length=None):
        self.calls += 1
        if self.calls != self.fails:
            return
        if self.short is None:
            raise Ends('Archive(Reading(Fault))')
        if length is None:
            return
        raise Ends('Archive(Reading(PastEnd))' if self.short == length else f'Archive(UnexpectedNumberOfBytesReturned({length}, {self.short}))')

    def part(self, data, base, offset, length):
        """A range, which is asked for where its end is within u64."""
        if base + offset + length < 2 ** 64:
            self.call(length)
        return of_archive(lambda: readers.part(data, base, offset, length))


def of_archive(call):
    try:
        return call()
    except pm.ArchiveRefused as refusal:
        raise Ends(f'Archive({refusal})')


def place_of(k, n):
    """The column and row of the tile of a number in a square of 2 to the k tiles a side."""
    if k == 0:
        return 0, 0
    side, area = 1 << (k - 1), 1 << (2 * (k - 1))
    a, b = place_of(k - 1, n % area)
    return [(b, a), (a, b + side), (a + side, b + side), (2 * side - 1 - b, side - 1 - a)][n // area]


def coord(t):
    """The zoom, column and row from the top of an id."""
    z = max(k for k in range(32) if pm.below(k) <= t)
    x, y = place_of(z, t - pm.below(z))
    assert pm.tile_id(z, x, y) == t
    return z, x, y


class Walk:
    """The walk along the directories of an archive: the tile entries that have bytes, with their contents, and how
    many tiles they have."""

    def __init__(self, data, header, most, reads):
        self.data, self.header, self.most, self.reads = data, header, most, reads
        self.entries, self.tiles = [], 0

    def directory(self, entries, low, limit, leaves):
        last = None
        for i, e in enumerate(entries):
            end = entries[i + 1][0] if i + 1 < len(entries) else limit
            if last is not None and e[0] <= last or e[0] < low or limit is not None and e[0] >= limit:
                raise Ends('Archive(InvalidEntry)')
            if end is not None and e[0] + e[3] > end or e[3] == 0 and leaves == MOST_LEAVES:
                raise Ends('Archive(InvalidEntry)')
            last = e[0]
            if e[3] == 0:
                leaf = self.reads.part(self.data, self.header['leaf_offset'], e[1], e[2])
                self.directory(of_archive(lambda: pm.read_directory(leaf)), e[0], end, leaves + 1)
            else:
                self.tile(*e)

    def tile(self, first, offset, length, run):
        """A tile entry: one read, of its contents where nothing else is against it, and of no bytes at their end
        where something is, or where it has none."""
        refusal = self.refusal(first, length, run)
        if refusal is None and length > 0:
            content = self.reads.part(self.data, self.header['data_offset'], offset, length)
            self.tiles += run
            self.entries.append((first, run, content))
            return
        self.reads.part(self.data, self.header['data_offset'], offset + length, 0)
        if refusal is not None:
            raise Ends(refusal)

    def refusal(self, first, length, run):
        """Why an entry whose contents lie in the archive is refused, if it is."""
        if first + run - 1 > pm.LAST:
            return f'InvalidTileId({max(first, pm.LAST + 1)})'
        if length == 0:
            return None
        if first + run > DEEP:
            z, x, y = coord(max(first, DEEP))
            return f'InvalidTileIndex(TileCoord {{ z: {z}, x: {x}, y: {y} }})'
        if self.tiles + run > self.most:
            return f'TooManyTiles({self.most})'
        return None


def tiles_of(data, most, reads):
    """The tiles of an archive by zoom, column and row from the bottom."""
    reads.call()
    header, root = of_archive(lambda: readers.opened(data))
    walk = Walk(data, header, most, reads)
    walk.directory(root, 0, None, 0)
    tiles = {}
    for first, run, content in walk.entries:
        for t in range(first, first + run):
            z, x, y = coord(t)
            tiles[z, x, 2 ** z - 1 - y] = content
    for (z, x, y), content in tiles.items():
        assert readers.archive_tile(data, pm.tile_id(z, x, 2 ** z - 1 - y)) == content
    return tiles


def put(held, tiles):
    """The answer of a set that is asked to take tiles; its tables are changed where it takes them."""
    state = held.state()
    if held.layout in CONTENT_TABLES:
        collides = collision(state, tiles)
        if collides is not None:
            raise Ends(f'Store(IdCollision {{ id: {shown.text(collides)} }})')
    for place, content in tiles.items():
        for name, *cells in tile_row(held.layout, state.algorithm, place, content):
            held.put(name, cells)


def imported(held, data, most, reads=None):
    """The answer of an import; the tables of the set are changed where it is Ok."""
    try:
        if held.layout == 'dedup-id':
            raise Ends('Store(UnsupportedCopyOperation)')
        tiles = tiles_of(data, most, reads or Reads())
        put(held, tiles)
    except Ends as end:
        return f'Err({end})'
    return f'Ok({len(tiles)})'
