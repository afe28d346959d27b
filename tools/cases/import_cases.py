# Rows that import archives into sets, for tools/cases/import_rows.py. The tables are printed after each of them.
import random

from cases import insert_cases
from cases import sample_archives
from cases.insert_cases import SAME_FNV, SAME_MD5, WRITTEN
from cases.patch_cases import named, some_set
from cases.refused_sets import GONE, OUTSIDE, odd_name
from cases.rows import answered, size_and_digest, tile_word, word
from cases.sample_archives import CYCLE, HOSTILE, OF_ZOOM_ONE, ONE, root_of
from models import pmtiles as pm
from models import readers
from models import shown
from models.hashes import digest
from models.held_sets import Held, blob
from models.imported import DEEP, Reads, imported
from models.names import TABLES

ALL = 2 ** 64 - 1


def cell_text(cell):
    kind, rest = cell[0], cell[1:]
    return {'n': 'Null', 'o': 'Other', 'i': f'Int({rest})', 't': f'Text({shown.text(rest)})', 'x': 'Blob(' + (blob(bytes.fromhex(rest)) if kind == 'x' else '') + ')'}[kind]


def row_text(cells):
    return 'Row { cells: [' + ', '.join(map(cell_text, cells)) + '] }'


def rows_text(tables):
    return ''.join(f"{name} [{', '.join(map(row_text, tables[name]))}] " for name in TABLES if tables.get(name))


class Set(Held):
    """The kept store, whose rows are printed by their debug texts."""

    def say(self):
        self.rows.rows.append(('set all', rows_text(self.tables)))


def hold(rows, data):
    rows.row('hold ' + word(data))


def run(rows, held, data, most):
    """An import of the bytes that are held, and the tables after it."""
    answer = imported(held, data, most)
    rows.row(f'import bytes {most}', answer)
    held.say()
    return answer


def import_and_back(rows):
    """The archive of two tiles into an empty set, and the archive of that set."""
    hold(rows, OF_ZOOM_ONE)
    for layout in WRITTEN:
        held = Set(rows, layout, [])
        assert run(rows, held, OF_ZOOM_ONE, 1) == 'Err(TooManyTiles(1))'
        assert run(rows, held, OF_ZOOM_ONE, 2) == 'Ok(2)'
        export(rows, OF_ZOOM_ONE)
        run(rows, held, OF_ZOOM_ONE, 2)
        run(rows, held, OF_ZOOM_ONE, ALL)
        export(rows, OF_ZOOM_ONE)
    hold(rows, CYCLE)
    assert run(rows, Set(rows, 'flat', []), CYCLE, 10) == 'Err(Archive(InvalidEntry))'


def export(rows, data):
    rows.row('export', *size_and_digest(data))


def three_ways(rows, data, most=10):
    """Opening and the tile at id 0, by a reader and by a view, and an import into an empty flat set."""
    hold(rows, data)
    text = answered(lambda: readers.archive_tile(data, 0), tile_word)
    rows.row('tiles 0', text, text)
    return text, run(rows, Set(rows, 'flat', []), data, most)


def one_changed_field(rows):
    spelled = bytes.fromhex('808080808080808010')
    assert three_ways(rows, ONE) == ('x30', 'Ok(1)')
    for data, refusal in ((ONE[:126], 'InvalidHeader'), (root_of(bytes.fromhex('0100010101'), ONE, root_offset=126), 'InvalidHeader'), (root_of(spelled, ONE), 'InvalidEntry'),
                          (ONE[:97] + b'\2' + ONE[98:], 'UnsupportedCompression(Gzip)')):
        assert three_ways(rows, data) == (refusal, f'Err(Archive({refusal}))')
    for at in (*range(127), *range(127, 140), 16383, 16384, 16386):
        for byte in (0, 2, 128):
            three_ways(rows, ONE[:at] + bytes([byte]) + ONE[at + 1:])
    for length in (0, 6, 7, 126, 127, 131, 132, 16383, 16384, 16386):
        three_ways(rows, ONE[:length])


def hostile(rows):
    """The cases that each have one fault, with what is opened, looked up and imported."""
    refusals = ['InvalidHeader'] * 2 + ['InvalidEntry'] * 3 + ['Reading(PastEnd)'] * 2
    answers = [(refusal, f'Err(Archive({refusal}))') for refusal in refusals]
    answers += [('x30', 'Err(Archive(InvalidEntry))'), ('none', 'Err(InvalidTileId(6148914691236517205))')]
    for (root, fields), wanted in zip(HOSTILE, answers):
        assert three_ways(rows, root_of(bytes.fromhex(root), **fields)) == wanted, root
    assert three_ways(rows, CYCLE) == ('none', 'Err(Archive(InvalidEntry))')


GREAT = 2 ** 32 - 1


def borders(rows):
    """Runs at the ends of zooms 30 and 31 and of u64, with bytes and without; a run of 2^32 - 1 tiles, which no
    memory is taken for; and ends of ranges past u64."""
    for most in (1, 2, 3, GREAT - 1):
        for root in ([(DEEP - 1, 0, 1, 1)], [(DEEP - 1, 0, 1, 2)], [(DEEP - 2, 0, 1, 2)], [(DEEP, 0, 1, 1)], [(DEEP + 5, 0, 1, 1)], [(DEEP - 1, 0, 0, 2)], [(DEEP, 0, 0, GREAT)], [(pm.LAST, 0, 1, 1)], [(pm.LAST, 0, 0, 1)],
                     [(pm.LAST, 0, 1, 2)], [(pm.LAST, 0, 0, 2)], [(pm.LAST + 1, 0, 0, 1)], [(pm.LAST + 9, 0, 1, 1)], [(ALL, 0, 1, 1)], [(ALL, 0, 1, GREAT)], [(ALL, 0, 0, 1)], [(0, 0, 1, GREAT)], [(0, 0, 0, GREAT)],
                     [(0, 0, 1, 1), (1, 0, 1, GREAT)], [(0, 0, 1, 1), (1, 0, 0, GREAT), (GREAT + 1, 0, 1, 1)], [(0, 0, 1, 2), (1, 0, 1, 1)], [(0, 0, 1, GREAT), (1, 0, 1, 1)], [(0, 0, 1, 1), (2, 5, 1, 1), (3, 0, 1, 1)],
                     [(0, ALL - 1, 1, 1)], [(0, ALL - 1, GREAT, 1)], [(0, ALL - 1, 0, 1)], [(0, 1, 0, 1)], [(0, 2, 0, 1)], [(0, 0, 1, 1), (1, 7, 5, 0)], [(0, 0, 1, 1), (1, ALL - 9, 5, 0)], [(0, 0, 1, 1), (1, 0, 0, 0)],
                     [(DEEP, 9, 1, 1)], [(pm.LAST + 1, 9, 1, 1)], [(DEEP, 0, 1, 1), (pm.LAST + 1, 0, 1, 1)], [(pm.LAST + 1, 0, 0, 1), (pm.LAST + 1, 0, 0, 1)], []):
            three_ways(rows, root_of(root, ONE), most)


def trees(rows):
    """Archives with leaves, behind up to six others and one more."""
    for most in sample_archives.TREES + [(1, 1, 1, 1, 1, 1, 1)]:
        data = sample_archives.tree(*sample_archives.some_leaves(), most=most)
        hold(rows, data)
        for limit in (ALL, 172, 10):
            held = Set(rows, 'flat', [])
            if run(rows, held, data, limit).startswith('Ok'):
                rows.row('import medium 1000 0', imported(held, data, 1000), counted(data))
    leaves, contents = sample_archives.some_leaves()
    whole = sample_archives.tree(leaves, contents, most=(3,))
    h, root = readers.opened(whole)
    for at in (0, 4, 9, 11):
        place = h['leaf_offset'] + sum(len(pm.directory(leaf)) for leaf in leaves[:at])
        for piece in (b'\xff' * 10, b'\0', pm.directory(leaves[at][:1]), b'\7\0', b'\7' + pm.varint(leaves[at][0][0]) + b'\0'):
            three_ways(rows, whole[:place] + piece + whole[place + len(piece):], 1000)
    three_ways(rows, whole[:-1], 1000)


def counted(data, most=1000):
    reads = Reads()
    imported(Quiet(), data, most, reads)
    return reads.calls


class Quiet(Held):
    """An empty flat set that no line is written of."""

    def __init__(self):
        self.layout, self.tables = 'flat', {'metadata': [], 'tiles': []}


def sets_before(rows):
    """Sets that have rows: those of other places stay, and so does the metadata; a tile over bytes, over null, over
    times and over a row without an id."""
    sets = insert_cases.sets_before()
    sets['flat'].append(('tiles', 'i0', 'i0', 'i0', 'x07'))
    archives = [pm.archive(adds)[0] for adds in ([], [(0, b'0')], [(t, b'%d' % t) for t in range(5)], [(1, b'\x02'), (2, b'\x02'), (3, b'\x01')], [(t, b'same') for t in range(1, 21)], [(DEEP - 1, b'end'), (DEEP - 2, b'end')])]
    for data in archives:
        hold(rows, data)
        for layout, pushes in sets.items():
            run(rows, Set(rows, layout, pushes + [*named(('name', 'town'), ('agg_tiles_hash', 'stays')), ('metadata', 'n', 'tnobody')]), data, 100)
        for algorithm in ('fnv1a', 'FNV1A-DECIMAL', 'xxh64', 'xxh3'):
            for layout in ('flat-with-hash', 'normalized'):
                run(rows, Set(rows, layout, named(('hash_algorithm', algorithm))), data, 100)
    chance = random.Random(48)
    for layout in WRITTEN:
        for _ in range(25):
            data = some_archive(chance)
            hold(rows, data)
            run(rows, Set(rows, layout, some_set(chance, layout, chance.sample([('name', 'town'), ('format', None)], chance.randrange(3)))), data, chance.choice([0, 3, 100, ALL]))


def some_archive(chance):
    ids = sorted(chance.sample(range(21), chance.randrange(0, 9)))
    return pm.archive([(t, chance.choice([b'\x01', b'\x02', b'\x02\x03', b'\x09\x09', b'new'])) for t in ids])[0]


def round_trips(rows):
    """Archives as they are written, imported into an empty set of each layout and exported again."""
    chance = random.Random(49)
    for layout in WRITTEN:
        for _ in range(8):
            data = some_archive(chance)
            hold(rows, data)
            run(rows, Set(rows, layout, []), data, 100)
            export(rows, data)


def collisions(rows):
    """Contents of one digest: no matter where no id is of it. The first by zoom, column and row from the bottom is
    named."""
    a, b = SAME_MD5
    name = 't' + digest('md5', a)
    for adds in ([(1, a), (4, b)], [(1, b), (2, a)], [(1, a), (2, a)], [(3, b)]):
        data = pm.archive(adds)[0]
        hold(rows, data)
        for layout in ('flat', 'normalized'):
            run(rows, Set(rows, layout, []), data, 9)
        run(rows, Set(rows, 'normalized', [('images', name, 'x' + a.hex()), ('map', 'i0', 'i0', 'i0', name)]), data, 9)
        run(rows, Set(rows, 'normalized', [('images', name, 'n')]), data, 9)
        run(rows, Set(rows, 'normalized', [('images', name, 'n')]), data, 0)
    a, b = SAME_FNV
    data = pm.archive([(1, b), (4, a)])[0]
    hold(rows, data)
    for algorithm in ('fnv1a', 'fnv1a-decimal'):
        run(rows, Set(rows, 'normalized', named(('hash_algorithm', algorithm))), data, 9)


def refused_sets(rows):
    """A set that doesn't load, or whose ids are numbers, is refused before the archive is."""
    numbers = [('tiles_data', 'i7', 'x01'), ('tiles_shallow', 'i1', 'i0', 'i0', 'i7')]
    for data in (OF_ZOOM_ONE, CYCLE, ONE[:126]):
        hold(rows, data)
        numbered = [(layout, numbers, 'UnsupportedCopyOperation') for layout in ('dedup-id', 'dedup-id-with-view')]
        for layout, pushes, refusal in (OUTSIDE, odd_name('dedup-id'), *numbered, GONE):
            held = Set(rows, 'dedup-id' if layout == 'dedup-id-with-view' else layout, pushes, 'new')
            rows.row('import bytes 0', f'Err(Store({refusal}))')
            rows.row('import medium 0 1', f'Err(Store({refusal}))', 0)
            held.say()
        rows.row('set none')
        rows.row('import medium 2 0', 'Err(Store(InvalidDataFormat))', 0)
    for call in ('import', 'import bytes', 'import bytes x', 'import bytes -1', 'import bytes 18446744073709551616', 'import medium 1', 'import none 1', 'fresh', 'fresh 1', 'hold', 'tiles', 'set all more none new', 'exports'):
        if call != 'set all more none new':
            rows.refused(call)


def faults(rows):
    """Each call of the backend fails in turn, and then each of the store, the last one of which is the commit. The
    set stands as it was, and the archive is imported after that."""
    hello = digest('md5', b'hello')
    sets = {'flat': [('tiles', 'i1', 'i0', 'i0', 'x30')], 'flat-with-hash': [], 'cache': [],
            'normalized': [('images', 't' + hello, 'x68656c6c6f'), ('map', 'i1', 'i0', 'i0', 't' + hello)]}
    for data in (pm.archive([(1, b'hello'), (3, b'new'), (4, b'new'), (9, b'x')])[0], sample_archives.tree([[(0, 0, 1, 1), (1, 1, 0, 2)], [(7, 1, 2, 2)]], b'abc', most=(1,))):
        hold(rows, data)
        calls = counted(data)
        for layout, pushes in sets.items():
            held = Set(rows, layout, pushes)
            for call in range(1, calls + 1):
                rows.row(f'import medium 9 {call}', 'Err(Archive(Reading(Fault)))', call)
            held.say()
            held = Set(rows, layout, pushes)
            for call in range(1, held.load_calls() + 2):
                held.fail(call)
                rows.row('import medium 9 0', 'Err(Store(StoreFault))', calls if call > held.load_calls() else 0)
                held.asked += call
            rows.row('set fail')
            held.say()
            run(rows, held, data, 9)
            rows.row(f'import medium 9 {calls + 1}', imported(held, data, 9), calls)


def other_numbers(rows):
    """A backend that tells nothing: a read of another number of bytes, and one that is said to be past the end."""
    for data in (pm.archive([(1, b'hello'), (3, b'new')])[0], sample_archives.tree([[(0, 0, 1, 1), (1, 1, 0, 2)], [(7, 1, 2, 2)]], b'abc', most=(1,))):
        hold(rows, data)
        for call in range(1, counted(data) + 2):
            for got in (0, 1, 2, 5, 77, ALL):
                held = Set(rows, 'flat', [])
                rows.row(f'import mute 9 {call} {got}', imported(held, data, 9, Reads(call, got)))
                held.say()


def write(rows):
    for cases in (import_and_back, one_changed_field, hostile, borders, trees, sets_before, round_trips, collisions, refused_sets, faults, other_numbers):
        cases(rows)
