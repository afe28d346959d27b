# Rows that copy a set with a patch, for tools/cases/copy_rows.py. The source, the patch and the destination are made
# by a line each; the tables of the destination are printed after a copy.
import random

from cases.copy_lines import COPIES, LAYOUTS, MODES, TYPES, Cases, at_times, other_of, some_boxes, some_zooms, zooms_of
from cases.insert_cases import SAME_FNV, SAME_MD5
from cases.patch_cases import named, some_set
from cases.refused_sets import OUTSIDE, odd_name
from models import shown
from models.aggregates import aggregate
from models.copied import SIDE, Copier, Set, copy_patched, made, patched
from models.names import AFTER, AGG, ALGORITHMS, BEFORE

WANTED = ['flat', 'flat-with-hash', 'normalized', 'normalized-with-view']


class PatchCases(Cases):
    """The three kept stores."""
    places, word, copy = ('src', 'patch', 'dst'), 'patched', staticmethod(copy_patched)

    def case(self, copier, source, patch, target=None, stands=()):
        return self.run_made(copier, source, patch, target or Set(None), stands=stands)


def hash_after(copier, source, patch):
    """The hash of all tiles that a copy computes."""
    state = source.state()
    tiles, _ = patched(state, patch.state())
    layout = made(copier.asked() or source.layout)
    kept = {place: cell for place, cell in tiles.items() if copier.takes(place) and (cell != 'n' or not layout.startswith('normalized'))}
    return aggregate(copier.hash or state.algorithm, kept)


def copy_and_patch(cases):
    """The set of one tile and the patch that takes it away, whose hash after it isn't that of no tiles."""
    source = Set('flat', [('tiles', 'i0', 'i0', 'i0', 'x30'), *named((AGG, 'A'))])
    patch = Set('flat', [('tiles', 'i0', 'i0', 'i0', 'n'), *named((BEFORE, 'A'), (AFTER, 'B'))])
    none = 'D41D8CD98F00B204E9800998ECF8427E'
    assert cases.case(Copier(), source, patch) == f'Err(AggHashMismatchAfterApply {{ after_apply_hash: {shown.text("B")}, agg_hash: {shown.text(none)} }})'
    assert cases.run(Copier(skip=True), source, patch, Set(None)) == 'Ok(())'
    cases.case(Copier(force=True), source, patch)
    right = Set('flat', [('tiles', 'i0', 'i0', 'i0', 'n'), *named((BEFORE, 'A'), (AFTER, none))])
    assert cases.case(Copier(), source, right) == 'Ok(())'
    for mode in (None, *MODES):
        assert cases.run(Copier(mode=mode), source, right, Set('flat', named((AGG, none), ('hash_algorithm', 'md5')))) == 'Err(NonEmptyTargetFile)'
    for place, of in (('src', source), ('patch', right)):
        cases.say(place, of)


def chains(cases):
    """Each hash of a source and of a patch missing, null, right or another, with and without force."""
    tiles = [('tiles', 'i0', 'i0', 'i0', 'x30'), ('tiles', 'i1', 'i0', 'i0', 'x31')]
    change = [('tiles', 'i0', 'i0', 'i0', 'n'), ('tiles', 'i1', 'i1', 'i0', 'x32')]
    right = aggregate('md5', {(1, 0, 0): 'x31', (1, 1, 0): 'x32'})
    missing = object()
    some = lambda *names: named(*(e for e in names if e[1] is not missing))
    for agg in (missing, None, 'A'):
        for before, after in ((missing, missing), ('A', missing), (missing, 'B'), (None, None), ('A', 'B')):
            source = Set('flat', tiles + some((AGG, agg), (BEFORE, before), (AFTER, after)))
            cases.make('src', source)
            for own in (missing, None, 'A', 'C'):
                for says in (missing, None, right, right.lower(), 'B'):
                    patch = Set('flat', change + some((BEFORE, own), (AFTER, says), (AGG, 'D')))
                    cases.make('patch', patch)
                    for force in (False, True):
                        for fields in ({}, {'skip': True}, {'copy': 'metadata'}) if agg == 'A' and before is missing and after is missing else ({},):
                            cases.case(Copier(force=force, **fields), source, patch, stands=('src', 'patch'))
    # the hash is that of what is copied, by the algorithm of the destination
    source = Set('flat', tiles + named((AGG, 'A')))
    cases.make('src', source)
    for fields in ({}, {'max': 0}, {'min': 1}, {'hash': 'xxh64'}, {'type': 'normalized', 'hash': 'fnv1a'}, {'copy': 'tiles'}, {'copy': 'metadata'}, {'skip': True}):
        for says in (hash_after(Copier(**fields), source, Set('flat', change)), 'D41D8CD98F00B204E9800998ECF8427E', right):
            for force in (False, True):
                cases.case(Copier(force=force, **fields), source, Set('flat', change + named((BEFORE, 'other'), (AFTER, says))), stands=('src',))


def layouts(cases):
    """A source of each layout with a patch of each, into each layout that can be asked for."""
    for layout in LAYOUTS:
        source = Set(layout, zooms_of(layout))
        cases.make('src', source)
        for other in LAYOUTS:
            patch = Set(other, other_of(other))
            cases.make('patch', patch)
            for asked in [None, *TYPES]:
                cases.case(Copier(type=asked, force=True), source, patch, stands=('src', 'patch'))
            cases.case(Copier(cli='normalized', force=True, copy='tiles'), source, patch, stands=('src', 'patch'))
            cases.case(Copier(cli='cache', type='flat', force=True, copy='metadata'), source, patch, stands=('src', 'patch'))
            for word in ('flat', 'flat-with-hash', 'cache'):
                cases.case(Copier(cli=word, force=True, zooms=[1, 3], skip=True), source, patch, stands=('src', 'patch'))
            cases.say('patch', patch)
        cases.say('src', source)


def chosen(cases):
    """Tiles are chosen once the patch is made: what it removes isn't copied, what it puts is where it is wanted, and
    what it does elsewhere doesn't show."""
    places = [(z, c, r) for z in range(3) for c in range(2 ** z) for r in range(2 ** z)]
    tiles = lambda cells: [('tiles', *(f'i{n}' for n in place), cell) for place, cell in cells.items()]
    source = Set('flat', tiles({place: 'x%02x' % n for n, place in enumerate(places)}))
    half, end = SIDE // 2, SIDE - 1
    cases.make('src', source)
    for change in ({place: 'n' for place in places}, {place: 'n' for place in places[::2]}, {place: 'xff' for place in places[1::3]}, {(3, 0, 0): 'xee', (3, 7, 7): 'n', (0, 0, 0): 'n'}, {}):
        patch = Set('flat', tiles(change))
        cases.make('patch', patch)
        for fields in ({}, {'min': 1}, {'max': 1}, {'zooms': [2]}, {'zooms': [3]}, {'zooms': [0, 3], 'min': 1}, {'box': [(0, 0, half - 1, half - 1)]}, {'box': [(half, half, end, end)], 'max': 2},
                       {'box': [(0, 0, 0, 0), (half, 0, half, 0)], 'zooms': [0, 1]}, {'box': [(1, 0, 0, end)]}, {'copy': 'tiles', 'zooms': [1]}, {'copy': 'metadata'}):
            for asked in (None, 'normalized'):
                cases.case(Copier(force=True, type=asked, **fields), source, patch, stands=('src', 'patch'))


def names(cases):
    """Names that a patch replaces, takes away and adds, the hashes, and names of algorithms."""
    tile = ('tiles', 'i0', 'i0', 'i0', 'x30')
    source = Set('flat', [tile, *named(('name', 'old'), ('format', 'png'), ('bounds', None), ('agg_tiles_hashes', 'x'), (AGG, 'A'), ('hash_algorithm', 'XXH64')), ('metadata', 'n', 'tnobody')])
    cases.make('src', source)
    for change in ([], [('name', 'new')], [('name', None)], [('bounds', '1')], [('center', '1'), ('nowhere', None)], [('bounds', None), ('format', None), ('name', None), ('agg_tiles_hashes', None)],
                   [(AGG, 'E'), (BEFORE, 'F'), (AFTER, 'G')], [(AGG, None), (BEFORE, None), (AFTER, None)], [('hash_algorithm', 'fnv1a')], [('hash_algorithm', None)], [('', 'none'), ('name', '')]):
        patch = Set('flat', [*named(*change), ('metadata', 'n', 'n')])
        cases.make('patch', patch)
        for copies in COPIES:
            for skip in (False, True):
                for algorithm in (None, 'xxh3'):
                    cases.case(Copier(force=True, copy=copies, skip=skip, hash=algorithm), source, patch, stands=('src', 'patch'))


def collisions(cases):
    """Contents that collide where ids are digests: in the source and the patch, in the patch alone, or in what the
    patch replaces."""
    for pair, algorithm in ((SAME_MD5, 'md5'), (SAME_FNV, 'fnv1a')):
        a, b = ('x' + data.hex() for data in pair)
        at = lambda z, c, r, cell: ('tiles', f'i{z}', f'i{c}', f'i{r}', cell)
        for tiles, change in (([at(1, 0, 0, a)], [at(1, 1, 0, b)]), ([at(1, 1, 0, a)], [at(1, 0, 1, b)]), ([at(1, 0, 0, a)], [at(1, 0, 0, b)]), ([at(1, 0, 0, a), at(1, 1, 1, b)], [at(1, 1, 1, 'n')]),
                              ([at(1, 0, 0, a), at(1, 1, 1, b)], []), ([], [at(2, 0, 0, a), at(1, 1, 1, b)]), ([at(0, 0, 0, a)], [at(1, 0, 0, b)]), ([at(1, 0, 0, a), at(1, 0, 1, b)], [at(1, 1, 1, a)])):
            source, patch = Set('flat', tiles), Set('flat', change)
            for asked in ('normalized', 'normalized-with-view', 'flat-with-hash', 'flat'):
                for fields in ({}, {'min': 1}, {'copy': 'metadata'}):
                    cases.case(Copier(force=True, type=asked, hash=algorithm, **fields), source, patch)


def order_of_refusals(cases):
    """Of two refusals the first of the list is answered."""
    tile = ('tiles', 'i0', 'i0', 'i0', 'x30')
    bad = Set(*OUTSIDE)
    nothing = aggregate('md5', {})
    patches = [bad, Set('flat', [tile]), Set('flat', [tile], differences=True), Set('flat', [*named((AGG, nothing))], differences=True), Set('flat', named((AGG, nothing), (AFTER, 'B'))),
               Set('flat', named((AGG, nothing), (BEFORE, 'A'), (AFTER, 'B'))), Set('cache', named((BEFORE, 'A'), (AFTER, nothing)))]
    sources = [Set(*odd_name('normalized')), Set('flat', [tile]), Set('flat', [tile, *named((AGG, '4A7D1ED414474E4033AC29CCB8653D9B'))]), Set('cache', named((AGG, nothing), (BEFORE, 'C'))),
               Set('dedup-id', named((AGG, nothing))), Set('flat', named((AGG, 'other')))]
    for source in sources:
        cases.make('src', source)
        for patch in patches:
            cases.make('patch', patch)
            for target in (Set(None), Set('flat')):
                cases.make('dst', target)
                for fields in ({}, {'validate': True}, {'force': True}, {'validate': True, 'force': True}, {'type': 'cache'}, {'type': 'flat', 'validate': True}, {'cli': 'cache', 'force': True}):
                    cases.case(Copier(**fields), source, patch, Set(target.layout), stands=('src', 'patch', 'dst') if target.layout else ('src', 'patch'))


def faults(cases):
    """Each call of each of the three stores fails in turn. The destination stands as it was, or has its tables alone;
    then the copy is made."""
    copier = Copier(type='flat', force=True)
    for layout in ('flat', 'normalized', 'cache'):
        for other in ('flat', 'normalized', 'cache'):
            source, patch = Set(layout, zooms_of(layout)), Set(other, other_of(other))
            for place, of in (('src', source), ('patch', patch)):
                for call in range(1, of.load_calls() + 1):
                    stores = source, patch, Set(None)
                    cases.fail(place, call, copier, *stores)
                    cases.go_on(place, copier, *stores)
            # the destination is asked what it describes; its tables are made; then comes the commit
            for call in range(1, 4):
                target = Set(None)
                cases.fail('dst', call, copier, source, patch, target)
                if call == 3:
                    target = Set('flat')
                    cases.say_tables('dst', target)
                cases.go_on('dst', copier, source, patch, target)
            cases.say('src', source)
            cases.say('patch', patch)


def random_patches(cases):
    chance = random.Random(47)
    for _ in range(420):
        layout, other = chance.choice(LAYOUTS), chance.choice(LAYOUTS)
        source = Set(layout, some_set(chance, layout, [*chance.sample([('name', 'town'), ('format', None), ('hash_algorithm', 'md5')], chance.randrange(3)), *([(AGG, 'A')] if chance.random() < 0.8 else [])]))
        fields = {'copy': chance.choice([None, None, *COPIES]), 'skip': chance.random() < 0.2, 'force': chance.random() < 0.5, 'mode': chance.choice([None, *MODES])}
        fields['type'] = chance.choice([None, *WANTED, *WANTED, *TYPES])
        at_times(chance, fields, hash=(0.3, lambda: chance.choice([*ALGORITHMS])), zooms=(0.2, lambda: some_zooms(chance)), max=(0.2, lambda: chance.randrange(4)),
                 box=(0.2, lambda: some_boxes(chance, [0, SIDE // 4, SIDE // 2 - 1, SIDE // 2, SIDE - 1], 3)))
        copier = Copier(**fields)
        names = chance.sample([('name', 'city'), ('format', 'png'), ('center', None), (AGG, 'Z')], chance.randrange(4))
        tiles = some_set(chance, other, names)
        after = hash_after(copier, source, Set(other, tiles)) if chance.random() < 0.7 else 'B'
        patch = Set(other, tiles + named(*([(BEFORE, 'A')] if chance.random() < 0.9 else []), *([(AFTER, after)] if chance.random() < 0.9 else [])))
        cases.case(copier, source, patch, Set('flat') if chance.random() < 0.05 else Set(None))


def write(rows):
    cases = PatchCases(rows)
    for part in (copy_and_patch, chains, layouts, chosen, names, collisions, order_of_refusals, faults, random_patches):
        part(cases)
