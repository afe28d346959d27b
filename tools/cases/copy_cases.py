# Rows that copy one set into another, for tools/cases/copy_rows.py. The source and the destination are made by a line
# each; the tables of the destination are printed after a copy.
import random

from cases.copy_lines import COPIES, LAYOUTS, MODES, ONE, TYPES, Cases, at_times, other_of, some_boxes, some_zooms, zooms_of
from cases.insert_cases import SAME_FNV, SAME_MD5, WRITTEN
from cases.patch_cases import named, some_set
from cases.refused_sets import GONE, OUTSIDE, odd_name
from models.aggregates import aggregate
from models.copied import SIDE, Copier, Set, copy, kind
from models.hashes import digest
from models.names import AFTER, AGG, ALGORITHMS, BEFORE
from models.shown import flag

HELLO = digest('md5', b'hello')
# the layouts that a command line can name
WORDS = ('flat', 'flat-with-hash', 'normalized', 'cache')


def labels(rows):
    for word, shown_as, tiles, metadata in (('all', 'All', True, True), ('metadata', 'Metadata', False, True), ('tiles', 'Tiles', True, False)):
        rows.row(f'label {word}', word + '|', shown_as, flag(tiles), flag(metadata))
    rows.row('label default', 'all|', 'All', 'true', 'true')
    for line in ('label', 'label none', 'run copy=none', 'run copy', 'run min=256', 'run zooms=', 'run box=1,2,3', 'run type=dedup', 'run mode', 'src new', 'dst new flat 1', 'patch new', 'patched mode', 'move'):
        rows.refused(line)


def one_tile(cases):
    """The tile 0/0/0 of one byte into an empty destination, and again without a mode; then with each mode."""
    source = Set('flat', [('tiles', 'i0', 'i0', 'i0', 'x30')])
    target = Set(None)
    assert cases.case(Copier(type='normalized-with-view'), source, target) == 'Ok(())'
    assert ('thash_algorithm', 'tmd5') in target.tables['metadata'] and ('t' + AGG, 't4A7D1ED414474E4033AC29CCB8653D9B') in target.tables['metadata']
    assert target.tables['images'] == [('tCFCD208495D565EF66E7DFF9F98764DA', 'x30')]
    assert cases.run(Copier(type='normalized-with-view'), source, target) == 'Err(DestinationFileExists)'
    for mode in MODES:
        cases.run(Copier(mode=mode), source, target)
    cases.say('src', source)


def expiring(cases):
    """Two tiles of a cache, one of which expires at 50, into a cache, where it does so still, and into a flat set,
    which has the same tiles."""
    source = Set('cache', [('tile_cache', 'i0', 'i0', 'i0', 'n', 'i50', 'n', 'x30'), ('tile_cache', 'i1', 'i0', 'i1', 'n', 'n', 'n', 'x30')])
    cases.make('src', source)
    for asked in (None, 'flat'):
        target = Set(None)
        assert cases.case(Copier(type=asked), source, target, True) == 'Ok(())'
        assert target.state().tiles == {(0, 0, 0): 'x30', (1, 0, 1): 'x30'} and (asked or ('i0', 'i0', 'i0', 'n', 'i50', 'n', 'x30') in target.tables['tile_cache'])


def into_nothing(cases):
    """Each layout into a destination that describes nothing, of each layout that can be asked for."""
    for layout in LAYOUTS:
        source = Set(layout, zooms_of(layout))
        cases.make('src', source)
        for copies in COPIES:
            for skip in (False, True):
                for asked in [None, *TYPES]:
                    cases.case(Copier(copy=copies, skip=skip, type=asked), source, Set(None), True)
        for word in WORDS:
            cases.case(Copier(cli=word), source, Set(None), True)
            cases.case(Copier(cli=word, type='flat', mode='ignore', max=1), source, Set(None), True)
        for mode in MODES:
            cases.case(Copier(mode=mode, zooms=[1, 3]), source, Set(None), True)
        cases.say('src', source)


def over_others(cases):
    """Each layout over each layout that has some of its places and names."""
    for layout in LAYOUTS:
        source = Set(layout, zooms_of(layout))
        cases.make('src', source)
        for other in LAYOUTS:
            for mode in MODES:
                for copies in COPIES:
                    cases.case(Copier(mode=mode, copy=copies), source, Set(other, other_of(other)), True)
                cases.case(Copier(mode=mode, skip=True, copy='tiles', zooms=[0, 3]), source, Set(other, other_of(other)), True)
                cases.case(Copier(mode=mode, hash='xxh3', max=0, force=True), source, Set(other, other_of(other)[1:2]), True)


def zooms(cases):
    pushes = [('tiles', f'i{z}', f'i{2 ** z - 1}', 'i0', f'x{z:02x}') for z in range(0, 31)]
    source = Set('flat', pushes)
    cases.make('src', source)
    for fields in ({}, {'min': 0}, {'max': 0}, {'min': 3}, {'max': 3}, {'min': 30}, {'min': 31}, {'max': 255}, {'min': 255}, {'min': 4, 'max': 6}, {'min': 6, 'max': 4}, {'min': 5, 'max': 5},
                   {'zooms': [0]}, {'zooms': [30, 2, 2]}, {'zooms': [31, 255]}, {'zooms': [7], 'min': 9}, {'zooms': [7], 'max': 3}, {'zooms': [7, 8], 'min': 8, 'max': 8}):
        for copies in COPIES:
            cases.case(Copier(copy=copies, **fields), source, Set(None), True)


def boxes(cases):
    end = SIDE - 1
    places = [(z, c, r) for z in range(4) for c in range(2 ** z) for r in range(2 ** z)] + [(30, 0, 0), (30, end, 0), (30, 0, end), (30, end, end), (30, end // 2, end // 2), (29, 0, 1), (15, 3, 2 ** 15 - 1)]
    source = Set('flat', [('tiles', *(f'i{n}' for n in place), 'x%02x' % n) for n, place in enumerate(places)])
    half, eighth = SIDE // 2, SIDE // 8
    lists = [
        [(0, 0, end, end)],                                     # the whole world
        [(0, 0, 0, 0)],                                         # the first tile of zoom 30, and those that begin with it
        [(end, end, end, end)],                                 # the last one
        [(0, end, 0, end)], [(end, 0, end, 0)],
        [(half, 0, end, end)], [(0, half, end, end)],           # halves
        [(0, 0, half - 1, end)], [(0, 0, end, half - 1)],
        [(half, half, half, half)],                             # an edge of a tile
        [(half - 1, 0, half - 1, end)], [(half + 1, 0, end, end)],
        [(eighth, eighth, 2 * eighth - 1, 2 * eighth - 1)],     # one tile of zoom 3
        [(eighth, 0, eighth, end)], [(0, eighth, end, eighth)],
        [(eighth, 0, 2 * eighth, end)], [(1, 0, end, end)], [(0, 1, end, end)],
        [(0, 0, end - 1, end)], [(0, 0, end, end - 1)],
        [(1, 0, 0, end)], [(0, 1, end, 0)], [(end, end, 0, 0)],  # ends exchanged
        [(0, 0, SIDE, end)], [(0, 0, end, SIDE)], [(SIDE, 0, SIDE, end)], [(0, SIDE, end, SIDE)],   # beyond the grid
        [(0, 0, 2 ** 32 - 1, end)], [(0, 0, end, 2 ** 32 - 1)], [(2 ** 32 - 1,) * 4],
        [(0, 0, SIDE, SIDE), (0, 0, end, end)], [(0, 0, 0, 0), (end, end, end, end)], [(1, 0, 0, 0), (0, 0, SIDE, 0)], [(0, 0, half, half), (half, half, end, end), (0, end, 0, end)],
    ]
    cases.make('src', source)
    for boxes in lists:
        cases.case(Copier(box=boxes), source, Set(None), True)
        cases.case(Copier(box=boxes, max=2, copy='tiles', type='normalized'), source, Set(None), True)
        cases.case(Copier(box=boxes, zooms=[3, 30], mode='ignore'), source, Set('flat', [('tiles', 'i3', 'i1', 'i6', 'xff'), ('tiles', 'i30', 'i0', f'i{end}', 'n')]), True)


def validated(cases):
    tile = ('tiles', 'i0', 'i0', 'i0', 'x30')
    right = '4A7D1ED414474E4033AC29CCB8653D9B'
    for names in ([], [(AGG, None)], [(AGG, right)], [(AGG, right.lower())], [(AGG, 'other')], [(AGG, right), ('hash_algorithm', 'xxh64')], [(AGG, ''), ('name', 'a')]):
        source = Set('flat', [tile, *named(*names)])
        for validate in (False, True):
            for target in (Set(None), Set('flat', [tile]), Set('normalized')):
                for mode in (None, 'override', 'abort'):
                    cases.case(Copier(validate=validate, mode=mode, max=0), source, target if target.layout is None else Set(target.layout, target.pushes))
    # what is hashed is all of the source, and not what is chosen
    source = Set('flat', [tile, ('tiles', 'i1', 'i0', 'i0', 'x31'), *named((AGG, right))])
    cases.case(Copier(validate=True, zooms=[0]), source, Set(None))
    both = aggregate('md5', {(0, 0, 0): 'x30', (1, 0, 0): 'x31'})
    source = Set('flat', [tile, ('tiles', 'i1', 'i0', 'i0', 'x31'), *named((AGG, both))])
    cases.case(Copier(validate=True, zooms=[0]), source, Set(None))
    cases.case(Copier(validate=True, copy='metadata'), source, Set(None))
    for algorithm in ('fnv1a', 'fnv1a-decimal', 'xxh64', 'xxh3'):
        for pushes in ([], [tile]):
            stored = aggregate(algorithm, {(0, 0, 0): 'x30'} if pushes else {})
            cases.case(Copier(validate=True), Set('flat', [*pushes, *named((AGG, stored), ('hash_algorithm', algorithm))]), Set(None))


def algorithms(cases):
    for name in ('Md5', 'fnv1a', 'FNV1A-DECIMAL', 'xxh64', 'XXH3'):
        source = Set('cache', zooms_of('cache')[:2] + zooms_of('cache')[4:] + named(('hash_algorithm', name)))
        cases.make('src', source)
        for wanted in (None, *ALGORITHMS):
            for asked in ('flat-with-hash', 'normalized', 'cache'):
                cases.case(Copier(hash=wanted, type=asked), source, Set(None), True)
            # a destination that is described keeps its own
            cases.case(Copier(hash=wanted, mode='override'), source, Set('normalized', named(('hash_algorithm', 'xxh64'))), True)
            cases.case(Copier(hash=wanted, mode='ignore', copy='tiles', skip=True), source, Set('flat-with-hash', named(('hash_algorithm', 'Fnv1a'))), True)


def kinds(cases):
    """The layout that is asked for beside that of a described destination."""
    source = Set('flat', [('tiles', 'i0', 'i0', 'i0', 'x30')])
    cases.make('src', source)
    for other in LAYOUTS:
        for asked in TYPES:
            cases.case(Copier(type=asked, mode='override'), source, Set(other), True)
            cases.case(Copier(type=asked, cli='flat', mode='abort'), source, Set(other, other_of(other)), True)
        for word in WORDS:
            cases.case(Copier(cli=word, mode='ignore'), source, Set(other), True)


def duplicates(cases):
    """What is there already in mode `abort`: tiles that are chosen, null or not, and names that are copied, but for
    that of the algorithm."""
    pushes = {'flat': [('tiles', 'i1', 'i0', 'i0', 'x01'), ('tiles', 'i1', 'i1', 'i0', 'n'), ('tiles', 'i2', 'i0', 'i0', 'x02')]}
    pushes['normalized'] = [('images', 't' + ONE, 'x01'), ('images', 'tnull', 'n'), ('map', 'i1', 'i0', 'i0', 't' + ONE), ('map', 'i1', 'i1', 'i0', 'tnull'), ('map', 'i1', 'i1', 'i1', 'n')]
    for names, others in (([], []), ([('name', 'a')], [('name', 'a')]), ([('name', None)], [('name', 'b')]), ([('name', 'a')], [('name', None)]), ([(AGG, 'a')], [(AGG, 'b')]),
                          ([('hash_algorithm', 'md5')], [('hash_algorithm', 'md5')]), ([('hash_algorithm', 'md5'), ('name', 'a')], [('hash_algorithm', 'Md5'), ('format', 'a')])):
        for copies in COPIES:
            for tiles in ([], [('tiles', 'i1', 'i0', 'i0', 'x09')], [('tiles', 'i1', 'i1', 'i0', 'x09')], [('tiles', 'i1', 'i1', 'i1', 'n')], [('tiles', 'i2', 'i0', 'i0', 'x02')]):
                for layout in ('flat', 'normalized'):
                    source = Set('flat', tiles + named(*names))
                    cases.case(Copier(mode='abort', copy=copies, zooms=[1]), source, Set(layout, pushes[layout] + named(*others)))


def nulls(cases):
    """Null over bytes, over null, over nothing and over a row of places without an id."""
    for layout in WRITTEN:
        source = Set(layout, zooms_of(layout))
        nulls = Set('flat', [('tiles', f'i{z}', f'i{c}', f'i{r}', 'n') for z in range(4) for c in range(2 ** z) for r in range(2 ** z)])
        for mode in ('override', 'ignore'):
            cases.case(Copier(mode=mode), nulls, Set(layout, source.pushes))
            cases.case(Copier(mode=mode, copy='tiles', skip=True, zooms=[1]), nulls, Set(layout, source.pushes))


def collisions(cases):
    a, b = (data.hex() for data in SAME_MD5)
    name = 't' + digest('md5', SAME_MD5[0])
    place = lambda z, c, r: (f'i{z}', f'i{c}', f'i{r}')
    for tiles in ([((1, 0, 0), a), ((1, 1, 0), b)], [((1, 1, 0), a), ((1, 0, 1), b), ((0, 0, 0), '02')], [((1, 0, 0), a), ((1, 1, 0), a)], [((1, 0, 0), b)]):
        source = Set('flat', [('tiles', *place(*at), 'x' + data) for at, data in tiles])
        for target in (Set(None), Set('normalized', [('images', name, 'x' + a), ('map', 'i1', 'i0', 'i0', name)]), Set('normalized-with-view', [('images', name, 'n')]), Set('flat')):
            for fields in ({}, {'zooms': [1]}, {'box': [(0, SIDE // 2, SIDE // 2 - 1, SIDE - 1)]}, {'copy': 'metadata'}):
                for mode in MODES if target.layout else (None,):
                    cases.case(Copier(mode=mode, type=None if target.layout else 'normalized', **fields), source, Set(target.layout, target.pushes))
    a, b = (data.hex() for data in SAME_FNV)
    source = Set('flat', [('tiles', 'i1', 'i0', 'i0', 'x' + b), ('tiles', 'i1', 'i0', 'i1', 'x' + a)])
    for algorithm in ('fnv1a', 'fnv1a-decimal', 'md5'):
        for asked in ('normalized', 'flat-with-hash'):
            cases.case(Copier(type=asked, hash=algorithm), source, Set(None))
            cases.case(Copier(mode='override'), source, Set(asked, named(('hash_algorithm', algorithm))))
    for cell in ('n', 'o', 'i5', 'tany'):
        source = Set('flat', [('tiles', 'i1', 'i0', 'i0', 'x' + b'hello'.hex()), ('tiles', 'i0', 'i0', 'i0', 'x01')])
        for mode in MODES:
            cases.case(Copier(mode=mode), source, Set('normalized', [('images', 't' + HELLO, cell), ('map', 'i1', 'i0', 'i0', 'n')]))


def order_of_refusals(cases):
    """Of two refusals the first of the list is answered."""
    bad = Set(*OUTSIDE)
    unhashed = Set('flat', [('tiles', 'i0', 'i0', 'i0', 'x30'), *named(('name', 'a'))])
    worse = Set(*odd_name('dedup-id'))
    gone = Set(*GONE)
    numbers = Set('dedup-id', [('tiles_data', 'i7', 'x01'), ('tiles_shallow', 'i0', 'i0', 'i0', 'i7')])
    taken = Set('normalized', [('images', 't' + digest('md5', b'0'), 'n'), ('map', 'i0', 'i0', 'i0', 't' + digest('md5', b'0')), *named(('name', 'b'))])
    for source in (bad, unhashed, numbers, Set('flat')):
        for target in (Set(None), worse, gone, numbers, taken, Set('cache')):
            for validate in (False, True):
                for mode in (None, 'abort', 'override'):
                    for asked in (None, 'flat', 'normalized'):
                        of = Set(target.layout, target.pushes, target.refusal)
                        cases.case(Copier(validate=validate, mode=mode, type=asked), source, of)


def faults(cases):
    """Each call of the source and of the destination fails in turn. The destination stands as it was, or has its
    tables alone; then the copy is made."""
    for layout in ('flat', 'normalized', 'cache'):
        source = Set(layout, zooms_of(layout))
        for other in (None, 'flat', 'normalized', 'flat-with-hash', 'cache'):
            target = lambda: Set(other, other_of(other) if other else ())
            copier = Copier(mode='override') if other else Copier(type='flat')
            for call in range(1, source.load_calls() + 1):
                stores = source, target()
                cases.fail('src', call, copier, *stores)
                cases.go_on('src', copier, *stores)
            # the destination is asked what it describes; then it is loaded, or its tables are made; then comes the
            # commit
            last = 2 + target().load_calls() if other else 3
            for call in range(1, last + 1):
                of = target()
                cases.fail('dst', call, copier, source, of)
                if other is None and call == 3:
                    of = Set('flat')
                    cases.say_tables('dst', of)
                    cases.rows.row(cases.line(copier), 'Err(DestinationFileExists)')
                cases.go_on('dst', copier if of.layout is None or other else Copier(mode='abort'), source, of)
            cases.say('src', source)


def random_copies(cases):
    chance = random.Random(46)
    for _ in range(420):
        layout, other = chance.choice(LAYOUTS), chance.choice([None, None, *LAYOUTS, *WRITTEN, *WRITTEN])
        source = Set(layout, some_set(chance, layout, chance.sample([('name', 'town'), ('format', None), (AGG, 'A'), ('hash_algorithm', 'md5'), (BEFORE, 'B'), (AFTER, 'C')], chance.randrange(4))))
        target = Set(other, some_set(chance, other, chance.sample([('name', 'city'), ('format', 'png'), (AGG, 'B'), ('center', None)], chance.randrange(3))) if other else ())
        fields = {'mode': chance.choice([None, *MODES, *MODES]), 'copy': chance.choice([None, *COPIES]), 'skip': chance.random() < 0.3, 'force': chance.random() < 0.3, 'validate': chance.random() < 0.1}
        at_times(chance, fields, type=(0.3, lambda: chance.choice(TYPES)), cli=(0.3, lambda: chance.choice(WORDS)))
        if other and fields.get('type') and chance.random() < 0.7:
            fields['type'] = next(t for t in TYPES if kind(t) == kind(other))
        edges = [0, SIDE // 4 - 1, SIDE // 4, SIDE // 2 - 1, SIDE // 2, SIDE - 1]
        at_times(chance, fields, hash=(0.3, lambda: chance.choice([*ALGORITHMS])), min=(0.3, lambda: chance.randrange(4)), max=(0.3, lambda: chance.randrange(4)),
                 zooms=(0.2, lambda: some_zooms(chance)), box=(0.3, lambda: some_boxes(chance, edges, 4)))
        copier = Copier(**fields)
        cases.case(copier, source, target)
        if chance.random() < 0.3:
            # once more over what stands now
            cases.run(Copier(**{**fields, 'mode': chance.choice(MODES)}), source, target)


def large(cases):
    """Some thousands of tiles, into a set that is made and over one that is there. The hash of all tiles, which
    metadata has then, tells them."""
    tiles = [('tiles', 'i6', f'i{n // 64}', f'i{n % 64}', 'x' + (b'%d' % (n % 997)).hex()) for n in reversed(range(4096))]
    source = Set('flat', tiles)
    cases.make('src', source)
    for copier, target in ((Copier(type='normalized'), Set(None)), (Copier(mode='ignore'), Set('flat', tiles[::9]))):
        cases.make('dst', target)
        answer = copy(copier, source, target)
        assert answer == 'Ok(())'
        cases.rows.row(cases.line(copier), answer)
        cases.say_metadata('dst', target)


def write(rows):
    labels(rows)
    cases = Cases(rows)
    for part in (one_tile, expiring, into_nothing, over_others, zooms, boxes, validated, algorithms, kinds, duplicates, nulls, collisions, order_of_refusals, faults, random_copies, large):
        part(cases)
