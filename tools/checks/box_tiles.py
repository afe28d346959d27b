# Compares a part of an archive with the archive: box_tiles.py ARCHIVE PART LEAST GREATEST [WEST,SOUTH,EAST,NORTH ..]
# The tiles of the part have to be those of the archive, of the zooms from LEAST to GREATEST that its header says, whose
# degrees a box has a part of, with equal bytes, and no others; the header and the metadata have to be the same but for
# the zooms. The degrees of a tile's corners are computed from its place, other than in bin/degree_boxes.py, which goes
# from degrees to places. A box whose west is greater than its east crosses the antimeridian. Prints how many tiles
# there are. Archives are read by `tools/models/readers.py`.
import math
import os
import sys

sys.path.append(os.path.dirname(os.path.dirname(os.path.abspath(__file__))))
from models import pmtiles as pm  # noqa: E402
from models import readers  # noqa: E402

SAME = ['type', 'tile', 'min_lon', 'min_lat', 'max_lon', 'max_lat', 'center_zoom', 'center_lon', 'center_lat']


def longitude(x, z):
    """Of the west edge of a column."""
    return 360 * x / 2 ** z - 180


def latitude(y, z):
    """Of the north edge of a row."""
    return math.degrees(math.atan(math.sinh(math.pi - 2 * math.pi * y / 2 ** z)))


def spans(box):
    """The longitudes of a box, as one or two ranges."""
    west, _, east, _ = box
    return [(west, 180), (-180, east)] if west > east else [(west, east)]


def has(box, z, x, y):
    """Whether a box has a part of a tile. The east and the south edge of a tile are those of its neighbours, but at the
    edges of the grid."""
    side = 2 ** z
    _, south, _, north = box
    west, east = longitude(x, z), longitude(x + 1, z)
    in_column = any(low < east and west <= high or x == side - 1 and low == 180 for low, high in spans(box))
    is_above = latitude(y + 1, z) < north or y == side - 1
    is_below = south <= latitude(y, z) or y == 0
    return in_column and is_above and is_below


def read(path):
    """The bytes of an archive and its header."""
    with open(path, 'rb') as file:
        data = file.read()
    return data, readers.opened(data)[0]


def tiles_of(data, h):
    """The ids of an archive's tiles, with their bytes."""
    return {t: readers.part(data, h['data_offset'], offset, length)
            for first, offset, length, run in readers.walk(data, 1 << 40) for t in range(first, first + run)}


def wanted(tiles, h, zooms, boxes):
    """Those of the boxes at some zooms."""
    found = {}
    for z in range(max(zooms[0], h['min_zoom']), min(zooms[1], h['max_zoom']) + 1):
        for x in range(2 ** z):
            for y in range(2 ** z):
                t = pm.tile_id(z, x, y)
                if t in tiles and any(has(box, z, x, y) for box in boxes):
                    found[t] = tiles[t]
    return found


def main(source, part, least, greatest, *boxes):
    data, h = read(source)
    part_data, part_h = read(part)
    areas = [tuple(map(float, box.split(','))) for box in boxes or ['-180,-90,180,90']]
    zooms = int(least), int(greatest)
    found, due = tiles_of(part_data, part_h), wanted(tiles_of(data, h), h, zooms, areas)
    assert found == due, f'{len(found)} tiles in the part, {len(due)} in the boxes, {sum(found.get(t) != due[t] for t in due)} differ or are missing'
    assert (part_h['min_zoom'], part_h['max_zoom']) == (max(zooms[0], h['min_zoom']), min(zooms[1], h['max_zoom'])), 'other zooms'
    assert [part_h[name] for name in SAME] == [h[name] for name in SAME], 'another header'
    assert readers.metadata(part_data) == readers.metadata(data), 'other metadata'
    print(len(found))


if __name__ == '__main__':
    main(*sys.argv[1:])
