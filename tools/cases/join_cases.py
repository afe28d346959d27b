# Lines of archives that are joined, for tools/cases/archive_rows.py. The wanted answers are those of
# tools/models/joining.py.
import random

from cases import archive_program
from cases.archive_program import row
from cases.random_archives import random_archive
from cases.rows import size_and_digest, word
from cases.sample_archives import CYCLE, HOSTILE, OF_ZOOM_ONE, ONE, TREES, root_of, some_leaves, tree
from models import pmtiles as pm
from models import readers
from models.extraction import ALL, U32, Run, label
from models.joining import Join


class Held:
    """The sources, and what each medium has at first."""
    sources, begun = [], b''


def hold(*sources):
    row('join none')
    for source in sources:
        archive_program.hold(source)
        row('join hold')
    Held.sources = list(sources)


def begin(data):
    Held.begun = data
    row('extract begin ' + word(data))


def joined(most, medium_fails=0, hindered=0, source_fails=0):
    """A join of what is held."""
    done = Join(Held.sources, Held.begun, medium_fails, hindered, source_fails)
    row(f'join run {medium_fails} {hindered} {source_fails} {most}', done.result(most), label(done.held), *(it.calls for it in done.asked))
    if done.held is not None:
        row('extract digest', *size_and_digest(done.held))
    return done


def run(most=10_000, medium_fails=0, hindered=0, source_fails=0):
    """The same, and whether it has the tiles of its sources."""
    done = joined(most, medium_fails, hindered, source_fails)
    if done.is_done:
        assert tiles_of([done.held]) == tiles_of(Held.sources)
    return done


def tiles_of(archives):
    """The tiles of archives, each of the last one that has it, id by id; what another has there isn't read."""
    places = {}
    for data in archives:
        h, _ = readers.opened(data)
        for first, offset, length, run in readers.walk(data, 1 << 40):
            if length:
                places.update({t: (data, h['data_offset'], offset, length) for t in range(first, first + run)})
    return {t: readers.part(*place) for t, place in places.items()}


def faults():
    """Each call of the medium failing, then each of each source, and the first ones that don't come."""
    whole = run()
    for n in range(1, whole.medium.calls + 2):
        run(medium_fails=n)
    for k, source in enumerate(whole.asked):
        for n in range(1, source.calls + 2):
            run(hindered=k, source_fails=n)


def archive_of(tiles, text=b'{}', **fields):
    return pm.archive(sorted(tiles.items()), text, **fields)[0]


def known_archives():
    hold()
    run()
    for begun in (b'A', bytes(98), b'\1' * 200, ONE):
        begin(begun)
        hold()
        run()
        hold(ONE)
        run()
        run(medium_fails=1)
    begin(b'')
    for sources in ([ONE], [OF_ZOOM_ONE], [ONE, OF_ZOOM_ONE], [OF_ZOOM_ONE, ONE], [ONE, ONE], [CYCLE], [ONE, CYCLE], [CYCLE, ONE], [ONE[:126], ONE], [ONE, ONE[:126]], [ONE, b''], [OF_ZOOM_ONE, ONE[:-1]],
                    [ONE[:-1], OF_ZOOM_ONE]):
        hold(*sources)
        run()
        for most in (0, 1, 2):
            run(most)


def runs():
    """Runs that others cut at their ends, in their midst, in several places and wholly."""
    long = {t: b'sea' for t in range(3, 40)}
    over = [{3: b'a'}, {39: b'a'}, {20: b'a'}, {t: b'a' for t in range(3, 40)}, {t: b'b' for t in range(0, 60)}, {5: b'a', 9: b'sea', 10: b'sea', 30: b'c'}, {2: b'a', 40: b'a'}, {t: b'sea' for t in range(30, 50)},
            {t: b'%d' % t for t in range(4, 39, 2)}]
    for one in over:
        for sources in ([long, one], [one, long], [long, one, {20: b'last', 21: b'sea'}]):
            hold(*(archive_of(it) for it in sources))
            run()
    for root, other in (([(0, 0, 1, U32 - 1)], [(7, 0, 1, 1)]), ([(7, 0, 1, 1)], [(0, 0, 1, U32 - 1)]), ([(pm.LAST - 3, 0, 1, 4)], [(pm.LAST, 0, 1, 1)]), ([(pm.LAST, 0, 1, 2)], [(0, 0, 1, 1)]),
                        ([(0, 0, 1, 1)], [(pm.LAST, 0, 1, 2)]), ([(0, 0, 0, 9)], [(3, 0, 1, 1)]), ([(0, 0, 1, 3)], [(1, 0, 0, 1)]), ([(0, 0, 1, 3), (2, 0, 1, 1)], [(1, 0, 1, 1)])):
        hold(root_of(root, ONE), root_of(other, ONE))
        run(20)


def long_runs():
    """Runs of up to 2^32 - 1 ids, which cost what one tile does: cut by others, side by side, and put together again."""
    half, full = 1 << 31, pm.LONGEST
    sea, land = archive_of({5: b'sea'}), archive_of({9: b'land'})
    for sources, wanted in ((([(0, 0, 3, half)], sea), ([(half // 2, 0, 4, 1)], land)), [(0, 0, 3, half // 2), (half // 2, 3, 4, 1), (half // 2 + 1, 0, 3, half // 2 - 1)]), \
            ((([(half // 2, 0, 4, 1)], land), ([(0, 0, 3, half)], sea)), [(0, 0, 3, half)]), \
            ((([(0, 0, 3, half)], sea), ([(half // 2, 0, 3, 1)], sea)), [(0, 0, 3, half)]), \
            ((([(0, 0, 3, full)], sea), ([(full, 0, 3, full)], sea)), [(0, 0, 3, full), (full, 0, 3, full)]), \
            ((([(full, 0, 3, full)], sea), ([(1, 0, 3, full - 1)], sea)), [(1, 0, 3, full), (full + 1, 0, 3, full - 1)]), \
            ((([(7, 0, 3, full - 1)], sea), ([(full + 6, 0, 3, 9)], sea)), [(7, 0, 3, full), (full + 7, 0, 3, 8)]), \
            ((([(7, 0, 3, 9)], sea), ([(16, 0, 3, full)], sea), ([(full + 16, 0, 4, full)], land)), [(7, 0, 3, full), (full + 7, 0, 3, 9), (full + 16, 3, 4, full)]), \
            ((([(pm.LAST - full + 1, 0, 3, full)], sea), ([(pm.LAST, 0, 4, 1)], land)), [(pm.LAST - full + 1, 0, 3, full - 1), (pm.LAST, 3, 4, 1)]):
        hold(*(root_of(root, data) for root, data in sources))
        said = joined(1 << 34)
        assert said.held is not None and readers.opened(said.held)[1] == wanted
        for most in (0, half, sum(run for *_, run in wanted) - 1):
            joined(most)
        for n in range(1, said.medium.calls + 2):
            joined(1 << 34, n)


def labels():
    """What an archive says beside its tiles: that of the last one, and the zooms and bounds of all."""
    first = archive_of({0: b'a', 1: b'b'}, b'{"name":"first"}', min_zoom=0, max_zoom=1, min_lon=-50, min_lat=-3, max_lon=9, max_lat=80, center_zoom=1, center_lon=7, center_lat=8)
    second = archive_of({1: b'c', 6: b'd'}, b'{"name":"second"}', min_zoom=1, max_zoom=2, min_lon=-60, min_lat=5, max_lon=-10, max_lat=90, center_zoom=2, center_lon=-7, center_lat=-8)
    third = archive_of({}, b'{"name":"third"}', min_zoom=9, max_zoom=3)
    for sources in ([first], [first, second], [second, first], [first, third, second], [second, third], [third], [third, third]):
        hold(*sources)
        run()
    kinds = [archive_of({0: b'a'}, tile=tile, type=kind) for tile in (1, 2) for kind in (1, 2)]
    for a in kinds:
        for b in kinds:
            hold(a, b)
            run()
            hold(a, b, a)
            run(1)
            hold(kinds[0], a, b)
            run(0)


def metadata():
    """Metadata that isn't there, or no text, of the last and of another."""
    without = [root_of(bytes.fromhex('0100010101'), ONE, **fields) for fields in ({'metadata_offset': ALL}, {'metadata_length': ALL}, {'metadata_length': 4}, {'metadata_length': 0})]
    without.append(tree(*some_leaves(), most=(5, 2), text=b'{"name":"\xc3\xa9\xff"}'))
    for it in without:
        for sources in ([it], [it, ONE], [ONE, it], [ONE, it, ONE]):
            hold(*sources)
            run()


def hostile():
    for spelled, fields in HOSTILE:
        it = root_of(bytes.fromhex(spelled), ONE, **fields)
        hold(OF_ZOOM_ONE, it)
        run(50)
        hold(it, OF_ZOOM_ONE)
        run(50)


def trees():
    """Archives with leaves, and their parts put together in any order."""
    for most in TREES:
        whole = tree(*some_leaves(), most=most, text=b'{"name":"trees"}')
        hold(whole)
        run()
        hold(whole, OF_ZOOM_ONE)
        run()
    whole = tree(*some_leaves(), most=(5, 2), text=b'{"name":"trees"}', min_zoom=0, max_zoom=31)
    parts = []
    for z, x, y, greatest in [(0, 0, 0, 0), (1, 0, 0, 31), (1, 1, 0, 31), (1, 0, 1, 31), (1, 1, 1, 31)]:
        part = Run(whole, b'', 0, 0)
        part.extract(z, x, y, greatest, ALL)
        parts.append(part.held)
    chance = random.Random(5)
    for _ in range(6):
        chance.shuffle(parts)
        hold(*parts)
        run()
    hold(whole, *parts)
    run()
    hold(*parts, whole)
    run()


def failing():
    for sources in ([ONE], [OF_ZOOM_ONE, ONE], [tree(*some_leaves(), most=(5, 2)), OF_ZOOM_ONE], [archive_of({t: b'sea' for t in range(9)}), archive_of({4: b'a'}), archive_of({6: b'b'})], [CYCLE, ONE], [ONE, ONE[:126]]):
        hold(*sources)
        faults()


def random_lists():
    chance = random.Random(14)
    for _ in range(150):
        hold(*(random_archive(chance) for _ in range(chance.randrange(1, 6))))
        run(chance.choice([3, 12, 40, 400]))
    for _ in range(150):
        sources = []
        for _ in range(chance.randrange(1, 6)):
            tiles = {}
            for _ in range(chance.randrange(6)):
                at, content = chance.randrange(90), chance.choice([b'sea', b'land', b'%d' % chance.randrange(9)])
                tiles.update({t: content for t in range(at, at + chance.randrange(1, 12))})
            sources.append(archive_of(tiles))
        hold(*sources)
        run(chance.choice([30, 400, 400]))


def write():
    for rows in (known_archives, runs, long_runs, labels, metadata, hostile, trees, failing, random_lists):
        rows()
    for words in ('join', 'join run', 'join run 0 0 0', 'join run 0 0 x 1', 'join other'):
        archive_program.refused(words)
