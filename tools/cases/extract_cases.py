# Lines of extractions, and the archive that crates/tile_extract_program reads, for tools/cases/archive_rows.py. The
# wanted answers are those of tools/models/extraction.py.
import random

from cases import archive_program
from cases.archive_program import row
from cases.random_archives import random_archive
from cases.rows import Rows, size_and_digest, word
from cases.sample_archives import CYCLE, HOSTILE, OF_ZOOM_ONE, ONE, TREES, root_of, some_leaves, tree
from models import pmtiles as pm
from models import readers
from models.extraction import ALL, U32, Run, asked, label

# Rows.


class Held:
    """What the program holds: a source, and what each medium has at first."""
    data, begun = b'', b''


def hold(data):
    Held.data = data
    archive_program.hold(data)


def begin(data):
    Held.begun = data
    row('extract begin ' + word(data))


def say_held(run):
    if run.held is not None:
        row('extract digest', *size_and_digest(run.held))


def run(words, medium_fails=0, source_fails=0):
    """An extraction of what is held: its status, its outcome, byte 97 of the medium, and how often the source was
    read."""
    done = Run(Held.data, Held.begun, source_fails, medium_fails)
    said, status = done.outcome(words.split())
    row(f'extract from {source_fails} run {medium_fails}' + ''.join(f' t{w}' for w in words.split()), status, said, label(done.held), done.source.calls)
    say_held(done)
    return done


def line(call, extraction, medium_fails=0, source_fails=0):
    """A line of a call: its result, byte 97 of the medium, and how often the source was read."""
    done = Run(Held.data, Held.begun, source_fails, medium_fails)
    said = done.result(lambda: extraction(done))
    row(call, said, label(done.held), done.source.calls)
    say_held(done)
    return done


def extract(words):
    """The same by the call that takes a tile and numbers."""
    line(f'extract from 0 tile 0 {words}', lambda done: done.extract(*asked(words.split())))


def part(run, at, length):
    row(f'extract part {at} {length}', 'x' + run.held[at:at + length].hex())


def each_fails(call):
    """Each call of the medium failing, then each of the source, and the first ones that don't come."""
    whole = call(0, 0)
    for n in range(1, whole.medium.calls + 2):
        call(n, 0)
    for n in range(1, whole.source.calls + 2):
        call(0, n)


def faults(words):
    each_fails(lambda medium, source: run(words, medium, source))


def known_archives():
    hold(OF_ZOOM_ONE)
    done = run('1 0 0 1 10')
    part(done, 127, 5)
    part(done, 100, 2)
    assert done.held[127:133] == b'\1\1\1\1\1\0' and len(done.held) == 16387 and done.held[100:102] == b'\1\1'
    done = run('0 0 0 0 10')
    part(done, 100, 2)
    assert done.held == ONE[:101] + b'\0' + ONE[102:]
    for words in ('0 0 0 1 1', '0 0 0 1 2', '1 0 0 0 10', '0 0 0 1 0', '1 1 1 1 0', '1 0 0 31 1', '0 0 0 32 10', '31 0 0 30 10', '31 2147483647 0 31 1', '1 0 0 255 10', '0 0 0 0 1'):
        run(words)
        extract(words)
    hold(CYCLE)
    run('0 0 0 0 10')
    extract('0 0 0 0 10')
    hold(ONE)
    for begun in (b'A', bytes(98), b'\1' * 200, ONE):
        begin(begun)
        for words in ('0 0 0 0 10', '1 0 0 0 10', '0 0 0 0'):
            run(words)
            run(words, 1, 1)
        extract('0 0 0 0 10')
    begin(b'')


def wrong_words():
    hold(OF_ZOOM_ONE)
    for words in ('', '0', '0 0 0 0', '0 0 0 0 10 0', '00 0 0 0 10', '0 00 0 0 10', '0 0 00 0 10', '0 0 0 00 10', '0 0 0 0 010', '+0 0 0 0 10', '0 -0 0 0 10', '0 0 0 0 +10', '0 0 0 0 x', 'a 0 0 0 10',
                  '0 0 0 0 1.0', '32 0 0 32 10', '0 1 0 0 10', '0 0 1 0 10', '1 2 0 1 10', '1 0 2 1 10', '31 2147483648 0 31 1', '31 0 2147483648 31 1', '31 4294967296 0 31 1', '0 0 0 256 10',
                  '0 0 0 0 18446744073709551616', '0 0 0 18446744073709551616 10', '18446744073709551616 0 0 0 10', '0 0 0 0 99999999999999999999999999', '--help', '--version'):
        assert asked(words.split()) is None
        run(words)
        run(words, 1, 1)
    for words in ('0 0 0 255 18446744073709551615', '31 2147483647 2147483647 31 0', '0 0 0 0 0', '2 3 3 9 9'):
        assert asked(words.split()) is not None
        run(words)


WORDS = ('0 0 0 0 10', '0 0 0 1 3', '1 0 0 1 10', '2 3 0 5 100', '0 0 0 31 50', '31 2147483647 0 31 2', '1 1 0 31 0')


def hostile():
    for spelled, fields in HOSTILE + [('01d4aad5aad5aad5aa55010101', {}), ('01d4aad5aad5aad5aa55020101', {}), ('01d5aad5aad5aad5aa55000101', {}), ('01ffffffffffffffffff01000101', {}),
                                      ('01ffffffffffffffffff01010101', {}), ('01ffffffffffffffffff01010001', {}), ('01d5aad5aad5aad5aa55010001', {}), ('0100010001', {}),
                                      ('0100010101', {'metadata_offset': ALL}), ('0100010101', {'metadata_length': ALL}), ('0100010101', {'metadata_length': 4}), ('020000010101010101', {'metadata_length': 4}),
                                      ('0100010101', {'metadata_length': 0}), ('0100010101', {'internal': 2}), ('0100010101', {'internal': 0}), ('0100010101', {'tile': 2, 'type': 1})]:
        hold(root_of(bytes.fromhex(spelled), ONE, **fields))
        for words in WORDS:
            run(words)
    for data in (CYCLE, ONE[:126], ONE[:7], b'', ONE[:-1], ONE[:-3], ONE[:16384], ONE[:-2] + b'\xff0', b'PM' + ONE[2:], ONE[:7] + b'\2' + ONE[8:]):
        hold(data)
        for words in WORDS:
            run(words)


GREAT = U32 - 1


def runs():
    """Runs of 2^32 - 1 ids, of an id that the next entry has, and over the ends of zooms; contents past the end."""
    for root in ([(0, 0, 1, GREAT)], [(7, 0, 1, GREAT)], [(0, 0, 0, GREAT)], [(pm.LAST - GREAT + 1, 0, 1, GREAT)], [(pm.LAST - GREAT + 2, 0, 1, GREAT)],
                 [(0, 0, 1, 2), (2, 0, 1, GREAT)], [(0, 0, 1, 3), (2, 0, 1, 1)], [(0, 0, 1, GREAT), (GREAT, 0, 1, GREAT)], [(0, 0, 1, GREAT), (GREAT - 1, 0, 1, 1)]):
        hold(root_of(root, ONE))
        for words in WORDS + ('0 0 0 5 1365', '0 0 0 5 1364', '4 3 9 6 21', '4 3 9 6 20', '3 0 7 3 18446744073709551615', '31 2147483647 0 31 18446744073709551615', '0 0 0 31 4294967295', '0 0 0 31 4294967294'):
            run(words)
    hold(root_of([(0, 0, 1, 1), (1, 5, 1, 1), (2, 0, 1, 1)], ONE))
    for words in WORDS + ('1 0 1 1 1',):
        run(words)


SOME = ('0 0 0 4 1000', '0 0 0 0 1', '1 0 0 4 300', '1 0 0 4 20', '2 1 1 4 300', '3 5 2 4 9', '3 7 0 9 9', '4 0 0 4 1', '1 1 0 3 50', '2 3 3 31 18446744073709551615')


def trees():
    for most in TREES:
        hold(tree(*some_leaves(), most=most, text=b'{"name":"trees"}', tile=2, type=1, min_lon=-5, max_lat=7, center_zoom=3, center_lon=9))
        for words in SOME:
            run(words)
    extract(SOME[2])
    hold(tree(*some_leaves(), most=(5, 2), text=b'{"name":"\xc3\xa9\xff"}'))
    run(SOME[0])
    hold(tree(*some_leaves(), most=(5, 2), text='{"name":"é"}'.encode()))
    run(SOME[0])


def broken_trees():
    """A part of a tree that is broken is refused where it is met, and only there."""
    leaves, contents = some_leaves()
    for most in ((), (3,), (1, 1, 1, 1, 1)):
        whole = tree(leaves, contents, most=most)
        h, root = readers.opened(whole)
        for at in (0, 4, 9):
            place = h['leaf_offset'] + sum(len(pm.directory(leaf)) for leaf in leaves[:at])
            for piece in (b'\xff' * 10, b'\0', pm.directory(leaves[at][:1]), b'\7\0', b'\7' + pm.varint(leaves[at][0][0]) + b'\0'):
                hold(whole[:place] + piece + whole[place + len(piece):])
                for words in ('0 0 0 4 1000', '1 0 0 4 300', '3 5 2 4 9', '0 0 0 0 1', '4 0 0 4 1'):
                    run(words)
        hold(whole[:-1])
        for words in SOME[:6]:
            run(words)
    lost = [(0, 0, 5, 0), (1, 10 ** 6, 5, 0), (5, 0, 5, 1)]
    hold(root_of(lost, ONE[:pm.FRONT] + pm.directory([(0, 0, 1, 1)]) + b'1', leaf_offset=pm.FRONT, data_offset=pm.FRONT + 5, metadata_length=0))
    for words in ('0 0 0 0 1', '1 0 1 1 1', '1 1 0 1 1', '0 0 0 31 1', '2 0 0 2 1', '2 0 1 2 1'):
        run(words)


def ranges_of_leaves():
    """Ids of leaves at, below and past the ends of the ranges that name them; a leaf entry with the id of the next
    one; names without an id in their range."""
    for first in ([(2, 0, 1, 1)], [(3, 0, 1, 1)], [(4, 0, 1, 1)], [(3, 0, 1, 3)], [(3, 0, 1, 4)], [(6, 0, 1, 1)], [(5, 0, 1, 1)], [(3, 0, 1, 1), (3, 1, 1, 1)], [(4, 0, 1, 1), (5, 1, 1, 1)], [],
                  [(3, 0, 0, 2), (5, 1, 2, 1)], [(3, 0, 5, 0)]):
        leaf = pm.directory(first)
        for behind in ([(6, 1, 1, 2)], [(6, 0, len(leaf), 0)], [], [(3, 1, 1, 1)], [(3, 0, len(leaf), 0), (9, 1, 1, 1)]):
            root = pm.directory([(3, 0, len(leaf), 0)] + behind)
            data = root_of(root, ONE[:pm.FRONT] + b'01234' + leaf, leaf_offset=pm.FRONT + 5, data_offset=pm.FRONT, metadata_length=0)
            hold(data)
            for words in ('0 0 0 2 100', '1 1 1 1 5', '1 0 0 2 9', '0 0 0 0 0'):
                run(words)


def wide_tree():
    """All tiles of zooms 0 to 6 in leaves of 16 entries."""
    adds = [(t, str(t // 3 if t % 5 else 7).encode()) for t in range(pm.below(7))]
    data = tree(pm.cut(pm.entries_of(adds, {d: (i * 4, len(d)) for i, d in enumerate(sorted({d for _, d in adds}))}), 16),
                b''.join(d.ljust(4) for d in sorted({d for _, d in adds})), most=(16,))
    for t, d in random.Random(3).sample(adds, 50):
        assert readers.archive_tile(data, t) == d
    return data


def many_tiles():
    """What is cut out of all tiles of zooms 0 to 6, which is itself cut."""
    hold(wide_tree())
    for words in ('0 0 0 6 5461', '0 0 0 6 5460', '0 0 0 5 2000', '1 0 0 6 5461', '1 1 1 6 1365', '1 1 1 6 1364', '2 0 3 6 400', '3 5 2 6 85', '5 31 31 6 5', '6 63 0 6 1', '6 63 0 6 0', '7 100 3 9 5', '6 0 63 31 9',
                  '0 0 0 0 1', '4 7 8 4 1', '4 8 7 5 5'):
        run(words)
    cut = run('2 1 2 6 400').held
    hold(cut)
    for words in ('2 1 2 6 400', '0 0 0 6 400', '3 2 5 6 400', '3 4 5 6 400'):
        run(words)
    assert run('2 1 2 6 400').held == cut


def failing():
    hold(OF_ZOOM_ONE)
    for words in ('0 0 0 1 10', '1 0 0 1 10', '1 1 1 1 10', '1 0 0 0 10', '0 0 0 1 1'):
        faults(words)
    hold(tree(*some_leaves(), most=(5, 2)))
    for words in ('1 0 0 4 300', '3 5 2 4 9', '0 0 0 3 300'):
        faults(words)
    hold(CYCLE)
    faults('0 0 0 0 10')
    hold(root_of([(0, 0, 1, 1), (1, 5, 1, 1), (2, 0, 1, 1)], ONE))
    faults('0 0 0 1 10')
    hold(ONE[:126])
    faults('0 0 0 1 10')


def random_archives():
    chance = random.Random(12)
    for _ in range(150):
        hold(random_archive(chance))
        z = chance.randrange(3)
        run(f'{z} {chance.randrange(2 ** z)} {chance.randrange(2 ** z)} {z + chance.randrange(3)} {chance.choice([3, 40, 40])}')
        run('0 0 0 2 40')
        run('1 1 0 2 40')


def stored_run():
    """The run of the program, over an archive in its folder data/."""
    program = Rows('tile_extract_program')
    program.write_data('two_tiles.pmtiles', OF_ZOOM_ONE)
    program.write_text('args', 'two_tiles.pmtiles\npart.pmtiles\n1\n0\n0\n1\n10\n')


def write():
    for rows in (known_archives, wrong_words, hostile, runs, trees, broken_trees, ranges_of_leaves, many_tiles, failing, random_archives):
        rows()
    for words in ('extract from 0', 'extract from 0 tile 0 0 1 0 0 10', 'extract other', 'other'):
        archive_program.refused(words)
    stored_run()
