"""Where the tiles of an archive or a set are, and how large: counts by cells of each zoom.

The entries of an archive come from `fatyngu show --entries`, the rows of a set from sqlite3. None of this is proved.
"""
import contextlib
import os
import sqlite3
import urllib.parse

from python_said import say

# how many cells a zoom has at most, and how deep zooms go
MOST = 16384
DEEPEST = 31


class Unread(Exception):
    """Why the tiles of a file aren't counted, with a status."""

    def __init__(self, status, words):
        super().__init__(words)
        self.status = status


class Zoom:
    """The tiles of a zoom by cells. A cell is a square of 2**shift tiles a side, under its column and row; it has how
    many tiles there are in it, their bytes and the bytes of the largest one. Cells grow as they become too many."""

    def __init__(self, zoom):
        self.zoom = zoom
        self.shift = 0
        self.cells = {}
        self.tiles = 0
        self.bytes = 0
        self.largest = 0

    def add(self, x, y, level, length):
        """Adds a square of 2**level tiles a side, each of a length. Column and row are counted in such squares."""
        tiles = 1 << 2 * level
        self.tiles += tiles
        self.bytes += tiles * length
        if length > self.largest:
            self.largest = length
        while level > self.shift and 1 << 2 * (level - self.shift) > MOST:
            self.coarsen()
        if level <= self.shift:
            down = self.shift - level
            self._put(x >> down, y >> down, tiles, tiles * length, length)
        else:
            side = 1 << level - self.shift
            each = 1 << 2 * self.shift
            for row in range(y * side, (y + 1) * side):
                for column in range(x * side, (x + 1) * side):
                    self._put(column, row, each, each * length, length)
        while len(self.cells) > MOST:
            self.coarsen()

    def _put(self, x, y, tiles, size, largest):
        cell = self.cells.get((x, y))
        if cell is None:
            self.cells[x, y] = [tiles, size, largest]
            return
        cell[0] += tiles
        cell[1] += size
        if largest > cell[2]:
            cell[2] = largest

    def coarsen(self):
        """Makes cells of four, two a side."""
        before = self.cells
        self.cells = {}
        self.shift += 1
        for (x, y), (tiles, size, largest) in before.items():
            self._put(x >> 1, y >> 1, tiles, size, largest)

    def within(self, columns, rows):
        """The same, with cells so large that they lie within so many columns and rows, and the least and the greatest
        of these: the zoom, its columns and its rows."""
        seen = Zoom(self.zoom)
        seen.__dict__.update(self.__dict__)
        while True:
            xs = [x for x, _ in seen.cells]
            ys = [y for _, y in seen.cells]
            if max(xs) - min(xs) < columns and max(ys) - min(ys) < rows:
                return seen, (min(xs), max(xs)), (min(ys), max(ys))
            seen.coarsen()


class Cells:
    """The zooms that have tiles, by their numbers, and how many tiles have an id beyond them."""

    def __init__(self):
        self.zooms = {}
        self.outside = 0

    def add(self, z, x, y, level, length):
        """Adds a square of tiles of a zoom, as `Zoom.add` takes it."""
        if z not in self.zooms:
            self.zooms[z] = Zoom(z)
        self.zooms[z].add(x, y, level, length)

    def add_run(self, first, run, length):
        """Adds tiles whose ids follow one another. Ids of a square that 4**level divides are those of its tiles."""
        while run > 0:
            z = ((3 * first + 1).bit_length() - 1) // 2
            if z > DEEPEST:
                self.outside += run
                return
            place = first - ((1 << 2 * z) - 1) // 3
            level = min((run.bit_length() - 1) // 2, z)
            while place & ((1 << 2 * level) - 1):
                level -= 1
            self.add(z, *place_of(place >> 2 * level, z - level), level, length)
            first += 1 << 2 * level
            run -= 1 << 2 * level


def place_of(index, zoom):
    """The column and the row of an index on the Hilbert curve of a zoom."""
    x = y = 0
    for bit in range(zoom):
        side = 1 << bit
        right = index >> 1 & 1
        down = (index ^ right) & 1
        if not down:
            if right:
                x, y = side - 1 - x, side - 1 - y
            x, y = y, x
        x += side * right
        y += side * down
        index >>= 2
    return x, y


def is_set(path):
    """Whether a file is a database of SQLite. A pipe isn't opened, which would wait for its writer."""
    try:
        if not os.path.isfile(path):
            return False
        with open(path, 'rb') as file:
            return file.read(16) == b'SQLite format 3\0'
    except OSError:
        return False


def cells_of_entries(lines):
    """The cells of an archive, from the lines of `fatyngu show --entries`. Tiles beyond the deepest zoom are told, and
    left out. A line that is cut off is the last one of a program that ended, of which the caller sees the status."""
    cells = Cells()
    for line in lines:
        if not line.endswith(b'\n'):
            break
        first, place, run, _, length = line.split()
        if run == b'1' and place != b'-':
            z, x, y = place.split(b'/')
            cells.add(int(z), int(x), int(y), 0, int(length))
        else:
            cells.add_run(int(first), int(run), int(length))
    if cells.outside:
        say(f'{cells.outside} tiles with ids beyond zoom {DEEPEST} are left out')
    return cells


def whole(column):
    """An expression of SQL: the whole number in a column, or null. A text spells one in at most nine digits, without a
    zero in front."""
    return (f"case typeof({column}) when 'integer' then {column}"
            f" when 'real' then case when {column} = cast({column} as integer) then cast({column} as integer) end"
            f" when 'text' then case when {column} = '0' or {column} glob '[1-9]*' and {column} not glob '*[^0-9]*'"
            f" and length({column}) < 10 then cast({column} as integer) end end")


def cells_of_set(path):
    """The cells of a set, whose rows are counted from the bottom. Rows without a place are told, and left out."""
    cells = Cells()
    outside = 0
    name = f'file:{urllib.parse.quote(os.fsencode(os.path.abspath(path)))}?mode=ro'
    places = ', '.join(whole(column) for column in ('zoom_level', 'tile_column', 'tile_row'))
    size = 'length(cast(tile_data as blob))'
    rows = f'select {places}, {size} from tiles where {size} > 0'
    try:
        with contextlib.closing(sqlite3.connect(name, uri=True)) as database:
            database.execute('pragma trusted_schema = off')
            for z, x, y, length in database.execute(rows):
                if None not in (z, x, y) and 0 <= z <= 30 and 0 <= x < 1 << z and 0 <= y < 1 << z:
                    cells.add(z, x, (1 << z) - 1 - y, 0, length)
                else:
                    outside += 1
    except sqlite3.Error as error:
        raise Unread(1, f'{path}: {error}') from error
    if outside:
        say(f'{path}: {outside} rows outside the grid of zooms 0 to 30 are left out')
    return cells
