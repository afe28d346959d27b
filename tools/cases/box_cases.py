# Lines of boxes of tiles and of the parts of archives that they are, for tools/cases/archive_rows.py. The wanted
# answers are those of tools/models/boxes.py and tools/models/extraction.py.
import random

from cases.archive_program import refused, row
from cases.extract_cases import Held, begin, each_fails, hold, line, wide_tree
from cases.random_archives import random_archive
from cases.sample_archives import CYCLE, OF_ZOOM_ONE, ONE, some_leaves, tree
from models import boxes as by_tiles
from models import pmtiles as pm
from models.extraction import ALL, U32, label, spans

LAST = U32 - 1


def numbers(groups):
    return ''.join(f' {n}' for group in groups for n in group)

# Intervals.


def intervals(boxes, wanted=None):
    """The zooms of boxes, and their ids as intervals."""
    wanted = by_tiles.intervals(boxes) if wanted is None else wanted
    row('boxes' + numbers(boxes), *by_tiles.zooms(boxes), 'true', *(n for i in wanted for n in i))


def known_boxes():
    intervals([])
    for boxes in ([(0, 0, 0, 0, 0)], [(1, 0, 0, 0, 0)], [(1, 1, 0, 1, 0)], [(1, 0, 0, 1, 0)], [(1, 0, 0, 0, 1)], [(1, 0, 0, 1, 1)], [(2, 1, 1, 2, 2)], [(2, 0, 0, 3, 1)], [(2, 0, 0, 1, 3)],
                  [(3, 1, 2, 5, 6)], [(3, 2, 1, 6, 5)], [(4, 3, 0, 3, 15)], [(4, 0, 3, 15, 3)], [(5, 0, 0, 30, 31)], [(5, 1, 0, 31, 31)], [(5, 0, 1, 31, 31)], [(5, 0, 0, 31, 30)],
                  # no tile: the numbers the wrong way round, columns and rows past the grid, no such zoom
                  [(3, 5, 0, 4, 7)], [(3, 0, 5, 7, 4)], [(2, 4, 0, 7, 3)], [(2, 0, 4, 3, 7)], [(32, 0, 0, 0, 0)], [(255, 0, 0, LAST, LAST)], [(3, LAST, 0, LAST, LAST)],
                  # past the grid on one side
                  [(0, 0, 0, LAST, LAST)], [(2, 3, 3, LAST, LAST)], [(4, 14, 2, 99, 3)], [(31, 2 ** 31 - 1, 0, LAST, 0)],
                  # several: of one zoom, side by side, crossing, twice, and of zooms that touch
                  [(3, 0, 0, 1, 7), (3, 6, 0, 7, 7)], [(3, 0, 0, 3, 7), (3, 4, 0, 7, 7)], [(4, 0, 2, 15, 5), (4, 6, 0, 9, 15)], [(4, 2, 2, 5, 5), (4, 2, 2, 5, 5)], [(4, 5, 5, 5, 5), (3, 2, 2, 2, 2), (4, 1, 1, 1, 1)],
                  [(1, 1, 0, 1, 0), (2, 0, 0, 0, 0)], [(2, 0, 0, 3, 3), (1, 0, 0, 1, 1), (0, 0, 0, 0, 0)], [(2, 0, 0, 3, 3), (0, 0, 0, 0, 0)], [(31, 0, 0, 1, 1), (0, 0, 0, 0, 0), (30, 0, 0, 0, 0)]):
        intervals(boxes)


def great_boxes():
    """Boxes of more tiles than can be gone through: all of a zoom, all but a corner, and the descendants of a tile."""
    for zoom in range(32):
        intervals([(zoom, 0, 0, 2 ** zoom - 1, 2 ** zoom - 1)], [(pm.below(zoom), pm.below(zoom + 1) - 1)])
    intervals([(zoom, 0, 0, LAST, LAST) for zoom in range(32)], [(0, pm.LAST)])
    intervals([(zoom, 0, 0, LAST, LAST) for zoom in (31, 7, 6, 20)], [(pm.below(6), pm.below(8) - 1), (pm.below(20), pm.below(21) - 1), (pm.below(31), pm.LAST)])
    for zoom in (9, 11):
        last = 2 ** zoom - 1
        for out in ((0, 0), (last, 0)):
            boxes = [(zoom, 0, 1, last, last), (zoom, 1 - (out[0] > 0), 0, last - (out[0] > 0), 0)]
            t = pm.tile_id(zoom, *out)
            intervals(boxes, [i for i in ((pm.below(zoom), t - 1), (t + 1, pm.below(zoom + 1) - 1)) if i[0] <= i[1]])
    for z, x, y, zoom in ((1, 0, 1, 31), (5, 17, 9, 30), (12, 3423, 1763, 31), (2, 3, 0, 25)):
        shift = zoom - z
        intervals([(zoom, x << shift, y << shift, (x + 1 << shift) - 1, (y + 1 << shift) - 1)], spans(z, x, y, zoom)[-1:])
        part = [(k, x << k - z, y << k - z, (x + 1 << k - z) - 1, (y + 1 << k - z) - 1) for k in range(z, zoom + 1)]
        intervals(part, by_spans(spans(z, x, y, zoom)))


def by_spans(found):
    """Intervals in order, those that touch as one."""
    wanted = []
    for first, last in found:
        if wanted and wanted[-1][1] + 1 == first:
            wanted[-1] = (wanted[-1][0], last)
        else:
            wanted.append((first, last))
    return wanted


def some_box(chance, zooms, most):
    zoom = chance.choice(zooms)
    side = 2 ** zoom
    min_x, min_y = chance.randrange(side), chance.randrange(side)
    wide, high = chance.randrange(most), chance.randrange(most)
    return zoom, min_x, min_y, min(min_x + wide, side - 1), min(min_y + high, side - 1)


def random_boxes():
    chance = random.Random(5)
    for zooms, most in ((range(4), 8), (range(2, 7), 20), (range(5, 9), 60), (range(9, 32), 25)):
        for _ in range(40):
            intervals([some_box(chance, zooms, most) for _ in range(chance.choice([1, 1, 2, 3, 6]))])
    intervals([(12, 100, 2000, 399, 2255)])
    intervals([(31, 2 ** 30 - 70, 2 ** 30 - 70, 2 ** 30 + 70, 2 ** 30 + 70)])


def said_boxes():
    """Those of boxes that are of a zoom that the header says."""
    chance = random.Random(3)
    boxes = [some_box(chance, range(9), 9) for _ in range(12)] + [(255, 1, 2, 3, 4), (0, LAST, 0, 5, 9)]
    for least, greatest in ((0, 0), (0, 30), (2, 5), (5, 2), (8, 255), (9, 31)):
        hold(tree(*some_leaves(), min_zoom=least, max_zoom=greatest))
        row('said' + numbers(boxes), *(n for box in boxes if least <= box[0] <= greatest for n in box))
    row('said')
    hold(ONE[:126])
    refused('said 0 0 0 0 0')

# Extractions.


def run(boxes, most, medium_fails=0, source_fails=0):
    """An extraction by boxes of what is held."""
    return line(f'extract from {source_fails} boxes {medium_fails} {most}' + numbers(boxes),
                lambda done: done.extract_part(lambda: by_tiles.intervals(boxes), *by_tiles.zooms(boxes), most), medium_fails, source_fails)


def by_ids(pairs, zooms, most, medium_fails=0, source_fails=0):
    """An extraction by intervals."""
    call = f'extract from {source_fails} ids {medium_fails} {most} {zooms[0]} {zooms[1]}' + numbers(pairs)
    ends = [-1] + [last for _, last in pairs]
    if any(not end < first <= last for end, (first, last) in zip(ends, pairs)):
        row(call, '"not apart"', label(Held.begun), 0)
        return None
    return line(call, lambda done: done.extract_part(lambda: pairs, *zooms, most), medium_fails, source_fails)


def known_parts():
    hold(OF_ZOOM_ONE)
    for boxes in ([], [(0, 0, 0, 0, 0)], [(1, 0, 0, 0, 0)], [(1, 0, 0, 1, 1)], [(1, 1, 0, 1, 1), (0, 0, 0, 0, 0)], [(32, 0, 0, 0, 0)], [(31, 0, 0, 0, 0)], [(1, 1, 0, 0, 1)]):
        for most in (0, 1, 10):
            run(boxes, most)
    for pairs, zooms in (([], (0, 0)), ([(0, 0)], (0, 0)), ([(0, 4)], (0, 1)), ([(0, 0), (1, 1), (2, 2)], (0, 1)), ([(1, 1), (1, 1)], (0, 1)), ([(2, 2), (1, 1)], (0, 1)), ([(2, 1)], (0, 1)), ([(0, 0), (1, 0)], (0, 1)),
                         ([(0, ALL)], (3, 9)), ([(0, ALL), (ALL, ALL)], (0, 0)), ([(ALL, ALL)], (0, 31)), ([(1, ALL - 1), (ALL, ALL)], (31, 31)), ([(0, 4)], (2, 1)), ([(0, 4)], (0, 32)), ([(0, 4)], (0, 255)), ([(pm.LAST + 1, ALL)], (0, 0))):
        for most in (0, 10):
            by_ids(pairs, zooms, most)
    for begun in (b'A', ONE):
        begin(begun)
        run([(1, 0, 0, 0, 0)], 10)
        run([(1, 0, 0, 0, 0), (33, 0, 0, 0, 0)], 10)
    begin(b'')
    for data in (CYCLE, ONE[:126], b'', ONE[:-1]):
        hold(data)
        run([(0, 0, 0, 0, 0)], 10)
        by_ids([(7, 7)], (0, 3), 10)


def parts_of_trees():
    for most in ((), (3,), (5, 2)):
        hold(tree(*some_leaves(), most=most, text=b'{"name":"trees"}', tile=2, type=1, min_lon=-5, max_lat=7, center_zoom=3))
        for boxes in ([(z, 0, 0, LAST, LAST) for z in range(5)], [(2, 1, 1, 2, 2), (3, 1, 2, 6, 5)], [(4, 0, 7, 15, 8)], [(4, 7, 0, 8, 15)], [(3, 0, 0, 1, 7), (3, 6, 0, 7, 7), (4, 0, 0, 3, 15), (4, 12, 0, 15, 15)]):
            for limit in (1000, 9):
                run(boxes, limit)


def parts_of_many():
    """Boxes of an archive of all tiles of zooms 0 to 6, and their parts again."""
    data = wide_tree()
    hold(data)
    chance = random.Random(8)
    for _ in range(25):
        zooms = sorted(chance.sample(range(8), chance.randrange(1, 4)))
        boxes = [some_box(chance, [z], 30) for z in zooms]
        run(boxes, 5000)
    count = sum(1 for box in boxes for x, y in by_tiles.tiles(box) if box[0] <= 6)
    run(boxes, count)
    run(boxes, count - 1)
    cut = run([(6, 9, 20, 40, 33), (5, 4, 10, 20, 16)], 5000).held
    hold(cut)
    assert run([(6, 9, 20, 40, 33), (5, 4, 10, 20, 16)], 5000).held == cut
    run([(6, 0, 0, 63, 63), (5, 4, 10, 20, 16)], 5000)
    by_ids([(5, 20), (400, 401), (1365, 2000)], (1, 6), 5000)


def failing():
    hold(OF_ZOOM_ONE)
    for boxes in ([(1, 0, 0, 1, 1), (0, 0, 0, 0, 0)], [(1, 1, 0, 1, 0)]):
        each_fails(lambda m, s: run(boxes, 10, m, s))
    each_fails(lambda m, s: run([(1, 0, 0, 1, 1)], 0, m, s))
    each_fails(lambda m, s: by_ids([(0, 4)], (1, 0), 10, m, s))
    hold(tree(*some_leaves(), most=(5, 2)))
    for boxes in ([(3, 2, 1, 5, 4), (4, 3, 3, 9, 9)], [(4, 0, 7, 15, 8)]):
        each_fails(lambda m, s: run(boxes, 300, m, s))
    each_fails(lambda m, s: by_ids([(4, 9), (30, 30), (90, 200)], (1, 4), 300, m, s))


def random_parts():
    chance = random.Random(21)
    for _ in range(120):
        hold(random_archive(chance))
        for _ in range(2):
            run([some_box(chance, range(4), 4) for _ in range(chance.randrange(1, 4))], chance.choice([3, 40, 40]))
        ends = sorted(chance.sample(range(45), 2 * chance.randrange(1, 4)))
        by_ids(list(zip(ends[::2], ends[1::2])), (0, 3), chance.choice([3, 40]))


def write():
    for rows in (known_boxes, great_boxes, random_boxes, said_boxes, known_parts, parts_of_trees, parts_of_many, failing, random_parts):
        rows()
    for words in ('boxes 1', 'boxes 1 2 3 4', 'boxes 256 0 0 0 0', 'boxes 1 4294967296 0 0 0', 'boxes 1 0 0 0 0 1', 'boxes -1 0 0 0 0', 'extract from 0 boxes 0 5 1', 'extract from 0 ids 0 5 0 0 1', 'extract from 0 ids 0 5'):
        refused(words)
