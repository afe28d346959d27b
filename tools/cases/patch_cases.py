# Rows that patch one set by another, for tools/cases/set_rows.py.
import random

from cases.store_lines import StoreLines
from models import patches
from models.hashes import digest
from models.names import AFTER, AGG, ALGORITHMS, BEFORE, CONTENT_TABLES, TILE_TABLES
from models.patches import order
from models.tables import PATCH, loaded


def held(rows, layout, pushes):
    """A store with these rows, and what its tables hold."""
    s = StoreLines(rows, layout)
    for name, *cells in pushes:
        s.push(name, *cells)
    return s


def say_rows(s):
    for name in s.tables:
        s.rows(name, 0, 999)


def patch_case(rows, base, patch, force, patch_type=None, extra=None):
    """A set and a patch, each a layout with rows: the answer, and the tables of both afterwards."""
    b = held(rows, *base)
    rows.row('patch swap')
    q = held(rows, *patch)
    if extra:
        extra(rows)
    state, change = patches.State(base[0], b.tables), patches.State(patch[0], q.tables, patch_type)
    try:
        patches.tests(state, change, force)
        answer = 'Ok(())'
        patches.apply(state, b.tables, change, order)
    except patches.PatchRefused as refusal:
        answer = f'Err({refusal})'
    word = 'force' if force else 'plain'
    if answer != 'Ok(())':
        rows.row(f'patch loaded {word}', str(answer[4:-1]))
    else:
        after = patches.State(base[0], b.tables)
        tiles = [((z, c, r), cell, after.ids.get((z, c, r))) for (z, c, r), cell in sorted(after.tiles.items())]
        names = [(name, 'n' if value is None else 't' + value) for name, value in sorted(after.names.items(), key=lambda n: n[0].encode())]
        rows.row(f'patch loaded {word}', *loaded(base[0], tiles, names, ALGORITHMS[state.algorithm]))
    rows.row(f'patch apply {word}', answer)
    say_rows(q)
    rows.row('patch swap')
    say_rows(b)
    return answer


def named(*pairs):
    return [('metadata', 't' + name, 'n' if value is None else 't' + value) for name, value in pairs]


def chains(rows):
    zero = ('tiles', 'i0', 'i0', 'i0', 'x30')
    base = ('flat', [zero, *named((AGG, 'A'))])
    null = ('tiles', 'i0', 'i0', 'i0', 'n')
    # the tile goes, and the digest after the patch takes the place of the set's; then a patch that is meant for
    # another set
    patch_case(rows, base, ('flat', [null, *named((BEFORE, 'A'), (AFTER, 'B'))]), False)
    patch_case(rows, base, ('flat', [null, *named((BEFORE, 'C'), (AFTER, 'B'))]), False)
    patch_case(rows, base, ('flat', [null, *named((BEFORE, 'C'), (AFTER, 'B'))]), True)
    # a patch that takes the digest away, and one that follows it
    one = ('tiles', 'i0', 'i0', 'i0', 'x31')
    patch_case(rows, base, ('flat', named((AGG, None))), False)
    patch_case(rows, base, ('flat', named((AGG, None))), True)
    patch_case(rows, base, ('flat', named((AGG, None), (BEFORE, 'A'), (AFTER, 'B'))), False)
    patch_case(rows, ('flat', [zero]), ('flat', [one, *named((BEFORE, 'B'), (AFTER, 'C'))]), False)
    patch_case(rows, ('flat', [zero]), ('flat', [one]), True)
    # digests that are null, or that only a patch has
    patch_case(rows, base, ('flat', named((BEFORE, 'A'), (AFTER, None))), False)
    patch_case(rows, base, ('flat', named((BEFORE, 'A'), (AFTER, None))), True)
    patch_case(rows, base, ('flat', named((BEFORE, None), (AFTER, 'B'))), False)
    patch_case(rows, ('flat', [zero, *named((AGG, 'A'), (AFTER, 'B'))]), ('flat', named((BEFORE, 'A'), (AFTER, 'B'))), False)
    patch_case(rows, ('flat', [zero, *named((AGG, 'A'), (BEFORE, 'B'))]), ('flat', named((BEFORE, 'A'), (AFTER, 'B'))), False)
    patch_case(rows, ('flat', [zero, *named((AGG, None))]), ('flat', named((BEFORE, 'A'), (AFTER, 'B'))), False)
    # names that replace, that go, and that only the set has
    patch_case(rows, ('flat', [*named(('name', 'old'), ('format', 'png'), ('bounds', None)), ('metadata', 'n', 'tnobody')]),
               ('flat', [*named(('name', 'new'), ('format', None), ('center', '1'), ('nowhere', None)), ('metadata', 'n', 'n')]), True)
    # sets of other algorithms, and sets that aren't patched
    patch_case(rows, ('flat', named(('hash_algorithm', 'XXH64'))), ('flat', [one, *named(('hash_algorithm', 'xxh64'))]), True)
    patch_case(rows, ('flat', [zero]), ('flat', [one, *named(('hash_algorithm', 'fnv1a'))]), True)
    for layout in ('cache', 'dedup-id'):
        patch_case(rows, (layout, []), ('flat', [one]), True)
        patch_case(rows, (layout, []), ('flat', [one]), False)
    patch_case(rows, base, ('flat', []), True, 'BinDiffRaw', bsdiff)
    patch_case(rows, ('cache', []), ('flat', []), False, 'BinDiffRaw', bsdiff)


def bsdiff(rows):
    """A table of binary differences, described in the store."""
    columns = ','.join(f'{n}:{k}' for n, k in PATCH)
    rows.row('table none')
    rows.row(f'table add bsdiffraw table {columns} -')
    rows.row('describe', 'Ok(())')
    rows.row('table none')


def collisions(rows):
    hello, five = '68656c6c6f', '35'
    d = {h: 't' + digest('md5', bytes.fromhex(h)) for h in (hello, five)}
    lower = {h: name.lower() for h, name in d.items()}
    put = ('tiles', 'i1', 'i0', 'i0', 'x' + hello)
    # null, or a cell of another kind, under the id of what is put, named by a tile or by none
    patch_case(rows, ('normalized', [('images', d[hello], 'n'), ('map', 'i0', 'i0', 'i0', d[hello])]), ('flat', [put]), True)
    for cell in ('n', 'o', 'i5', 'tany'):
        patch_case(rows, ('normalized-with-view', [('images', d[hello], cell), ('map', 'i3', 'i0', 'i0', 'n')]), ('flat', [put]), True)
    # two that collide: the first by zoom, column and row from the bottom
    both = [('images', d[hello], 'n'), ('images', d[five], 'o')]
    patch_case(rows, ('normalized', both), ('flat', [('tiles', 'i2', 'i1', 'i3', 'x' + five), ('tiles', 'i2', 'i2', 'i0', 'x' + hello)]), True)
    patch_case(rows, ('normalized', both), ('flat', [('tiles', 'i2', 'i1', 'i3', 'x' + five), ('tiles', 'i1', 'i1', 'i1', 'x' + hello), ('tiles', 'i2', 'i1', 'i2', 'x' + hello)]), True)
    # the same contents under their id, in either case of letters; contents of other kinds and null ids that stay
    kept = [('images', 'n', 'x07'), ('images', 'n', 'o'), ('map', 'i9', 'o', 'tany', 'n'), ('map', 'i1', 'i0', 'i0', 'n'), ('images', 'tnobody', 'i1')]
    for names in (d, lower):
        patch_case(rows, ('normalized', [('images', names[hello], 'x' + hello), ('map', 'i2', 'i0', 'i0', names[hello]), *kept]), ('flat', [put, ('tiles', 'i2', 'i0', 'i0', 'n')]), True)
        patch_case(rows, ('normalized', [('images', names[hello], 'x' + hello), ('map', 'i2', 'i0', 'i0', names[hello]), *kept]), ('flat', [put, ('tiles', 'i1', 'i1', 'i0', 'n')]), True)


def some_set(chance, layout, names):
    """Rows of a set that passes all tests of loading, by the algorithm md5."""
    pushes = named(*names)
    places = [(z, c, r) for z in range(3) for c in range(2 ** z) for r in range(2 ** z)]
    blobs = ['x', 'x01', 'x02', 'x0203']
    if layout in CONTENT_TABLES:
        table_of = CONTENT_TABLES[layout]
        ids = {}
        for number, cell in enumerate(chance.sample(blobs, chance.randrange(1, 4))):
            name = 't' + digest('md5', bytes.fromhex(cell[1:]))
            ids[f'i{number}' if layout == 'dedup-id' else chance.choice([name, name.lower()])] = cell
        if chance.random() < 0.5:
            ids['i9' if layout == 'dedup-id' else 'tother'] = 'n'
        pushes += [(table_of, name, cell) for name, cell in ids.items()]
        if chance.random() < 0.5:
            pushes += [(table_of, 'n', 'x0909')]
        kinds = [*ids, 'n']
        for z, c, r in chance.sample(places, chance.randrange(0, 8)):
            pushes.append((TILE_TABLES[layout], f'i{z}', f'i{c}', f'i{r}', chance.choice(kinds)))
        return pushes
    for z, c, r in chance.sample(places, chance.randrange(0, 8)):
        cell = chance.choice(blobs + ['n'])
        hashed = chance.choice(['n', 't' + digest('md5', bytes.fromhex(cell[1:])), 't' + digest('md5', bytes.fromhex(cell[1:])).lower()]) if cell != 'n' else 'n'
        pushes.append({'flat': ('tiles', f'i{z}', f'i{c}', f'i{r}', cell), 'flat-with-hash': ('tiles_with_hash', f'i{z}', f'i{c}', f'i{r}', cell, hashed),
                       'cache': ('tile_cache', f'i{z}', f'i{c}', f'i{r}', 'i5', 'n', 'tv', cell)}[layout])
    return pushes


def random_patches(rows):
    chance = random.Random(15)
    layouts = list(TILE_TABLES)
    for base in layouts:
        for patch in layouts:
            for _ in range(3 if base in ('cache', 'dedup-id') else 8):
                names = [(AGG, 'A'), ('name', 'town')] if chance.random() < 0.8 else [('name', None)]
                more = [(BEFORE, chance.choice('AAAB')), (AFTER, 'B'), *chance.sample([('name', 'city'), ('name2', None), ('format', 'png')], 2)] if chance.random() < 0.8 else [('name', None)]
                patch_case(rows, (base, some_set(chance, base, names)), (patch, some_set(chance, patch, more)), chance.random() < 0.4)


def faults(rows):
    """Each call on the set and on the patch fails in turn: both stores stay as they were, and the patch is made after that. A set is asked for its descriptions, and for the number and
    the rows of each table, of which there are none to ask for in an empty one; the last call on the set is the commit. Each row that was pushed asked for the descriptions before."""
    pushes = {True: [('images', 'n', 'x05'), *named((AGG, 'A'))], False: [('tiles', 'i1', 'i0', 'i0', 'x07'), *named((BEFORE, 'A'), (AFTER, 'B'))]}
    for on_set, call in [(True, n) for n in range(1, 8)] + [(False, n) for n in range(1, 6)]:
        b = held(rows, 'normalized', pushes[True])
        if on_set:
            rows.row(f'store fail {len(pushes[True]) + call}')
        rows.row('patch swap')
        q = held(rows, 'flat', pushes[False])
        if not on_set:
            rows.row(f'store fail {len(pushes[False]) + call}')
        rows.row('patch apply plain', 'Err(StoreFault)')
        say_rows(q)
        rows.row('patch swap')
        say_rows(b)
        rows.row('patch swap')
        state, change = patches.State('normalized', b.tables), patches.State('flat', q.tables)
        patches.apply(state, b.tables, change, order)
        rows.row('patch apply plain', 'Ok(())')
        rows.row('patch swap')
        say_rows(b)


def write(rows):
    for cases in (chains, collisions, random_patches, faults):
        cases(rows)
