# Writes the input and the wanted output of crates/tree_rows: trees of files that are packed and unpacked. The wanted
# answers are worked out by tools/models/trees.py.
import random

from cases import folder_cases
from cases.patch_cases import named, some_set
from cases.rows import Rows
from models import shown
from models.trees import FORMATS, KeptStore, Tree, files_of, pack, unpack

SCHEMES = ('xyz', 'tms')

# paths that are no tile's, paths that are a tile's, and paths that are refused
PARTS = ('0', '1', '3', '03', '+3', '-3', '++3', ' 3', '3 ', '', '.', '..', 'z', '30', '31', '255', '256', '999', '+255', '000000255', '4294967295', '4294967296', '+4294967295', '18446744073709551616',
         '3a', '0x3', '\u0663', '1e1', '1_0', '+')
NAMES = ('5.png', '5', '5.', '.png', '.5.png', '5.6.png', '5..png', '404.5.png', '5.PNG', '5.Png', '+5.png', '05.png', '-5.png', ' 5.png', '5 .png', '5.png ', '5.jpeg', '5.JPG', '5.webp', '5.avif', '5.AVIF',
         '5.pbf', '5.mvt', '5.MVT', '5.mlt', '5.gif', '5.json', '5.txt', '5.pn', '5.pngg', '5.p\u0144g', '5.\u212Aeg', '4294967295.png', '4294967296.png', '5.png.gz', '5.pbf.gz', 'z.png', '0.png', '1.png', '7.png', '8.png')
LEADING = ('any/3/4/5.pbf', 'a/b/c/3/4/5.pbf', '/3/4/5.pbf', '//3/4/5.pbf', './3/4/5.pbf', '../3/4/5.pbf', '9/3/4/5.pbf', '999/3/4/5.pbf', 'any /3/4/5.pbf', '3/4/5.pbf/', '3//4/5.pbf', '3/4//5.pbf', '3/4', '4/5.pbf', '5.pbf',
           '999/4/5.png', 'z/4/5.png', '5.png', '3/4/5.txt', 'metadata.json', '3/4/5.pbf/6', '3/4/5/6.pbf', '2/3/4/5.pbf')


def packed_row(rows):
    """A tree with a folder in front, packed, and unpacked again."""
    for scheme, word in (('xyz', 'xyz'), ('xyz', 'default'), ('tms', 'tms')):
        tree, store = Tree(rows, {'any/3/4/5.pbf': b'hello'}), KeptStore(rows)
        pack(rows, tree, store, scheme, word)
        rows.row('set tables', 'metadata', 'tiles')
        unpack(rows, Tree(rows, {}), store, scheme, word)
        unpack(rows, Tree(rows, {'3/4/5.pbf': b'old', '3/4/2.pbf': b'other', 'readme': b'stays'}), store, 'xyz')
    for path in ('999/4/5.png', 'z/4/5.png', '5.png', '3/4/5.txt'):
        pack(rows, Tree(rows, {path: b'1'}), KeptStore(rows), 'xyz')


def alone(rows, files, scheme='xyz'):
    pack(rows, Tree(rows, files), KeptStore(rows), scheme)


def odd_paths(rows):
    for part in PARTS:
        alone(rows, {f'{part}/0/0.png': b'1'})
        alone(rows, {f'30/{part}/0.png': b'1'})
        alone(rows, {f'30/0/{part}.png': b'1'})
        alone(rows, {f'30/0/{part}': b'1'})
    for name in NAMES:
        for zoom in ('3', '31'):
            alone(rows, {f'{zoom}/4/{name}': b'1'}, 'tms')
    for path in LEADING:
        alone(rows, {path: b'1'})
    for zoom in (0, 1, 2, 29, 30, 31, 32, 33, 63, 64, 255):
        for column, row in ((0, 0), (2 ** zoom - 1, 0), (0, 2 ** zoom - 1), (2 ** zoom, 0), (0, 2 ** zoom), (2 ** 32 - 1, 2 ** 32 - 1)):
            for scheme in SCHEMES:
                alone(rows, {f'{zoom}/{column}/{row}.png': b'1'}, scheme)


def tests_in_order(rows):
    """The first path that is refused, and of its tests the first."""
    for files in (('3/4/5.png', '3/4/6.jpg'), ('3/4/5.jpg', '3/4/6.png'), ('3/4/5.png', '3/4/6.PNG', '3/4/7.gif'), ('3/4/5.mvt', '3/4/6.pbf'), ('3/4/5.jpg', '3/4/6.jpeg'),
                  ('3/4/5.gif', '3/4/6.png'), ('3/4/5.png', '3/9/6.gif'), ('3/4/5.png', '3/9/6.jpg'), ('3/4/5.png', '3/9/6.png'), ('3/9/5.png', '3/4/6.gif'), ('3/9/5.png', '3/4/6.jpg'), ('10/0/0.png', '3/9/0.png'),
                  ('3/4/5.png', 'a/3/4/5.png'), ('3/4/5.png', '3/4/05.png'), ('3/4/5.png', '3/4/+5.png', '31/0/0.png'), ('3/4/5.png', 'a/3/4/5.png', '31/0/0.png'), ('a/5.gif', '3/4/5.png'),
                  ('3/4/5.png', '3/4/2.png'), ('1/0/0.png', '1/0/1.png', '1/1/0.png', '1/1/1.png'), ('10/0/0.png', '2/0/0.png', '30/0/0.png'), ('B/3/4/5.png', 'a/3/4/5.jpg'), ('a/3/4/5.jpg', 'B/3/4/5.png'), ()):
        for scheme in SCHEMES:
            alone(rows, {path: path.encode() for path in files}, scheme)
    for word in FORMATS:
        alone(rows, {f'3/4/5.{word}': b'', f'3/4/6.{word.upper()}': b'\0' * 3})


FLAT = [('tiles', 'i3', 'i4', 'i2', 'x01'), ('tiles', 'i1', 'i0', 'i0', 'n')]


def into_sets(rows):
    one = {'3/4/5.png': b'new'}
    sets = [[], FLAT, FLAT[:1], [*FLAT, *named(('format', 'jpg'), ('minzoom', '0'), ('maxzoom', '9'), ('name', 'town'))], named(('minzoom', '3'), ('maxzoom', '3')), named(('minzoom', '+3'), ('maxzoom', 'x')),
            named(('minzoom', '03'), ('maxzoom', None)), named(('minzoom', '256'), ('maxzoom', '')), named(('format', None)), [('metadata', 'n', 'tnobody')], named(('hash_algorithm', 'xxh3')), named(('agg_tiles_hash', 'stays'))]
    for pushes in sets:
        for files in ({}, one, {'3/4/2.png': b'a', '6/0/0.png': b'b'}, {'0/0/0.png': b''}, {'1/0/1.png': b'over null'}, {'1/0/0.png': b'x', 'readme': b'y'}):
            for scheme in SCHEMES:
                pack(rows, Tree(rows, files), KeptStore(rows, 'flat', pushes), scheme)
    # a set that isn't flat, before any test of a path
    for layout in ('flat-with-hash', 'normalized', 'normalized-with-view', 'dedup-id', 'cache'):
        for files in (one, {'3/4/5.gif': b''}, {}):
            pack(rows, Tree(rows, files), KeptStore(rows, layout, []), 'xyz')
    # a set that doesn't load, before all else
    for pushes, refusal in (([('tiles', 'i31', 'i0', 'i0', 'x')], 'InvalidTileIndex { zoom_level: Int(31), tile_column: Int(0), tile_row: Int(0) }'), (named(('hash_algorithm', 'crc')), f"UnsupportedHashAlgorithm {{ algorithm: {shown.text('crc')} }}")):
        KeptStore(rows, 'flat', pushes)
        for files in (one, {'3/4/5.gif': b''}):
            tree = Tree(rows, files)
            rows.row('tree pack xyz', f'Err({refusal})')
            rows.row('tree unpack xyz', f'Err({refusal})')
            tree.say()


def out_of_sets(rows):
    chance = random.Random(45)
    for layout in ('flat', 'flat-with-hash', 'normalized', 'normalized-with-view', 'dedup-id', 'cache'):
        for text in (None, '', 'png', 'PNG', 'jpeg', 'JPEG', 'jpg', 'webp', 'avif', 'mvt', 'pbf', 'mlt', 'gif', 'json', '.png', 'png ', 'image/png'):
            pushes = [p for p in some_set(chance, layout, []) if p[0] != 'metadata'] + ([] if text is None else named(('format', text)))
            for scheme in SCHEMES:
                unpack(rows, Tree(rows, {'3/4/5.png': b'there'}), KeptStore(rows, layout, pushes), scheme)
    unpack(rows, Tree(rows, {}), KeptStore(rows, 'flat', [*FLAT, *named(('format', None))]), 'xyz')
    # null is no file, and the ends of zooms
    ends = [('tiles', f'i{z}', f'i{c}', f'i{r}', 'x') for z in (0, 1, 29, 30) for c in {0, 2 ** z - 1} for r in {0, 2 ** z - 1}]
    for scheme in SCHEMES:
        unpack(rows, Tree(rows, {}), KeptStore(rows, 'flat', [*ends, ('tiles', 'i2', 'i0', 'i0', 'n'), *named(('format', 'png'))]), scheme)
    unpack(rows, Tree(rows, {'a': b''}), KeptStore(rows), 'xyz')


def there_and_back(rows):
    """What was packed is unpacked to the same files, by their last three parts."""
    chance = random.Random(46)
    for _ in range(30):
        kind = chance.choice(['png', 'pbf', 'webp'])
        files = {}
        for _ in range(chance.randrange(12)):
            zoom = chance.choice([0, 1, 2, 3, 8, 15, 30])
            files[f'{zoom}/{chance.randrange(2 ** zoom)}/{chance.randrange(2 ** zoom)}.{kind}'] = bytes(chance.randrange(256) for _ in range(chance.randrange(4)))
        files['readme.txt'] = b'no tile'
        for scheme in SCHEMES:
            store = KeptStore(rows)
            pack(rows, Tree(rows, files), store, scheme)
            unpack(rows, Tree(rows, {}), store, scheme)
            pack(rows, Tree(rows, files), store, scheme)


def failing_packs(rows):
    files = {'1/0/0.png': b'a', '1/0/1.png': b'b', 'readme': b'', '1/1/1.png': b'c'}
    tiles = 3
    for pushes in (None, FLAT):
        for call in range(1, tiles + 3):
            for scheme in SCHEMES:
                tree = Tree(rows, files)
                store = KeptStore(rows) if pushes is None else KeptStore(rows, 'flat', pushes[:1])
                tree.fail(call)
                if call <= tiles + 1:
                    rows.row(f'tree pack {scheme}', 'Err(TreeFault)')
                    store.say()
                    rows.row('set tables', *([] if pushes is None else ('metadata', 'tiles')))
                else:
                    pack(rows, tree, store, scheme)
    # a refusal that comes before the files are read, and one that comes after
    for paths, call, answer in ((('3/4/5.gif',), 2, None), (('3/4/5.gif',), 1, 'TreeFault'), (('3/4/5.png', 'a/3/4/5.png'), 3, 'TreeFault'), (('3/4/5.png', 'a/3/4/5.png'), 4, None)):
        tree, store = Tree(rows, {path: b'' for path in paths}), KeptStore(rows)
        tree.fail(call)
        if answer:
            rows.row('tree pack xyz', f'Err({answer})')
        else:
            pack(rows, tree, store, 'xyz')


def failing_calls(rows):
    """As many files are written as calls succeed."""
    pushes = [('tiles', 'i1', f'i{c}', f'i{r}', f'x0{c}0{r}') for c in (0, 1) for r in (0, 1)] + [('tiles', 'i0', 'i0', 'i0', 'n'), *named(('format', 'png'))]
    for scheme in SCHEMES:
        for call in range(1, 7):
            tree, store = Tree(rows, {'1/0/0.png': b'old', 'readme': b''}), KeptStore(rows, 'flat', pushes)
            tree.fail(call)
            written = files_of(store.held, scheme)[1]
            rows.row(f'tree unpack {scheme}', 'Ok(())' if call > len(written) else 'Err(TreeFault)')
            tree.files.update(written[:call - 1])
            rows.row('tree fail')
            tree.say()
    tree = Tree(rows, {'a': b'1', 'b': b'2'})
    for call in (1, 2, 3, 4):
        tree.fail(call)
        rows.row('tree all', *(['Fault'] if call == 1 else [w for n, p in ((2, 'a'), (3, 'b')) for w in (f'"{p}"', 'Fault' if call == n else 'x' + tree.files[p].hex())]))
        tree.asked += 1 if call == 1 else 3
    tree.fail(1)
    rows.row('tree write ta x09', 'Err(Fault)')
    tree.asked += 1
    tree.say()


def failing_stores(rows):
    files = {'1/0/0.png': b'a', 'readme': b''}
    # of nothing: what is described, the making of the tables, and the commit
    for call, tables in ((1, ()), (2, ()), (3, ('metadata', 'tiles'))):
        tree, store = Tree(rows, files), KeptStore(rows)
        store.fail(call)
        rows.row('tree pack xyz', 'Err(StoreFault)')
        rows.row('set all')
        rows.row('set tables', *tables)
    store = KeptStore(rows)
    store.fail(4)
    pack(rows, Tree(rows, files), store, 'xyz', clears=True)
    last = 1 + KeptStore(rows, 'flat', FLAT).load_calls() + 1
    for call in range(1, last + 2):
        tree, store = Tree(rows, files), KeptStore(rows, 'flat', [*FLAT[:1], *named(('format', 'png'))])
        store.fail(call)
        if call <= last:
            rows.row('tree pack xyz', 'Err(StoreFault)')
            store.say()
        else:
            pack(rows, tree, store, 'xyz', clears=True)
    for call in range(1, last):
        tree, store = Tree(rows, files), KeptStore(rows, 'flat', [*FLAT[:1], *named(('format', 'png'))])
        store.fail(call)
        if call <= store.load_calls():
            rows.row('tree unpack xyz', 'Err(StoreFault)')
            tree.say()
        else:
            unpack(rows, tree, store, 'xyz')


def main():
    rows = Rows('tree_rows')
    for cases in (packed_row, odd_paths, tests_in_order, into_sets, out_of_sets, there_and_back, failing_packs, failing_calls, failing_stores, folder_cases.write):
        cases(rows)
    for call in ('tree', 'tree pack', 'tree pack up', 'tree unpack', 'tree write ta', 'tree new', 'tree new 1 ta', 'tree fail x', 'folder', 'set', 'set new', 'link', 'link there', 'other'):
        rows.refused(call)
    rows.write()


if __name__ == '__main__':
    main()
