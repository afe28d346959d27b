# The ids of the tiles of boxes, by a plain filter over the tiles of each box.
from models import pmtiles as pm


def tiles(box):
    """The columns and rows of a box (zoom, least column, least row, greatest column, greatest row) in its grid."""
    zoom, min_x, min_y, max_x, max_y = box
    if zoom > 31:
        return
    side = 2 ** zoom
    for x in range(min_x, min(max_x, side - 1) + 1):
        for y in range(min_y, min(max_y, side - 1) + 1):
            yield x, y


def joined(ids):
    """Ids as intervals, of which no two touch."""
    intervals = []
    for t in sorted(ids):
        if intervals and intervals[-1][1] + 1 == t:
            intervals[-1][1] = t
        else:
            intervals.append([t, t])
    return [tuple(i) for i in intervals]


def intervals(boxes):
    return joined({pm.tile_id(box[0], x, y) for box in boxes for x, y in tiles(box)})


def zooms(boxes):
    """The least and the greatest zoom."""
    return (min(b[0] for b in boxes), max(b[0] for b in boxes)) if boxes else (0, 0)
