# Lines of checks of headers, for tools/cases/archive_rows.py: archives whose header is right, or states one thing or
# several things that aren't so, and those that aren't sound. The wanted answers are those of tools/models/verifiers.py.
import itertools
import random

from cases.archive_program import check_header, checked_header, hold, refused, row
from cases.random_archives import random_archive
from cases.sample_archives import CYCLE, ONE, TREES, TWICE, nested, some_leaves, tree
from models import pmtiles as pm
from models import readers
from models import shown
from models import verifiers

ALL = 2 ** 64 - 1
COUNTS = ('addressed', 'entries', 'contents')


def header(data):
    """The answer of a check, and the line of what the header says wrong, if that is all."""
    hold(data)
    check_header(data)
    line = checked_header(data)[1]
    if line is None:
        refused('verify fault')
    else:
        row('verify fault', shown.text(line))
    return line


def said(data, **fields):
    """The archive with other fields in its header."""
    h = readers.opened(data)[0]
    return pm.header(dict(h, **fields)) + data[127:]


def right(data, **fields):
    """A sound archive whose header says what is so, but for these fields."""
    h, root = readers.opened(data)
    met = {'leaves': 0, 'tiles': []}
    numbers = verifiers.met_in(data, h, root, lambda length: None, met)
    ids = [t for e in met['tiles'] for t in (e[0], e[0] + e[3] - 1)] or [0]
    so = dict(zip(COUNTS, numbers[1:]), min_zoom=verifiers.zoom_of(min(ids)), max_zoom=verifiers.zoom_of(max(ids)), clustered=int(verifiers.unclustered(met['tiles']) is None))
    return said(data, **{**so, **fields})


def of(entries, contents, text=b'{}', **fields):
    """An archive of tile entries in its root, whose header is right but for these fields."""
    return right(pm.whole(pm.directory(entries), b'', contents, text)[0], **fields)


FEW = of([(1, 0, 2, 2), (5, 2, 3, 1), (6, 0, 2, 3)], b'aabbb')
WRONG = [{'addressed': 5}, {'entries': 4}, {'contents': 3}, {'min_zoom': 0}, {'max_zoom': 3}]


def fields():
    """Each number of the header one less, one more, at its ends, and 0, which is unknown of a count."""
    assert header(FEW) is None
    h = readers.opened(FEW)[0]
    for name in COUNTS:
        for n in (h[name] - 1, h[name] + 1, 0, ALL):
            assert (header(said(FEW, **{name: n})) is None) == (n == 0)
    for name in ('min_zoom', 'max_zoom'):
        for n in (h[name] - 1, h[name] + 1, 0, 255):
            assert header(said(FEW, **{name: n}))
    assert header(said(FEW, addressed=0, entries=0, contents=0)) is None


def order():
    """Several things that aren't so: the first one is told."""
    late = of([(1, 1, 1, 2), (5, 0, 1, 1), (6, 1, 1, 3)], b'ab', clustered=1)
    bad = of([(1, 1, 1, 2), (5, 0, 1, 1), (6, 1, 1, 3)], b'ab', b'[]', clustered=1)
    assert 'clustered' in header(late) and 'clustered' in header(bad) and 'metadata' in header(said(bad, clustered=0))
    for data in (FEW, late, bad, said(bad, clustered=0)):
        for one, two in itertools.combinations(WRONG, 2):
            assert next(iter(one)).split('_')[0] in header(said(data, **one, **two))
        header(said(data, **{name: n for wrong in WRONG for name, n in wrong.items()}))


def zooms():
    """Tiles at the ends of zooms, and runs over them."""
    for z in range(32):
        first, last = pm.below(z), pm.below(z + 1) - 1
        assert header(of([(first, 0, 1, 1)], b'a')) is None
        assert header(of([(last, 0, 1, 1)], b'a')) is None
        assert header(of([(last, 0, 1, 1)], b'a', min_zoom=z + 1))
        if z < 31:
            assert header(of([(last, 0, 1, 2)], b'a')) is None
            assert header(of([(last, 0, 1, 2)], b'a', max_zoom=z))
    for entries in ([(0, 0, 1, 1), (pm.LAST, 0, 1, 1)], [(0, 0, 1, 2 ** 32 - 1)], [(0, 0, 1, 2 ** 32 - 1), (2 ** 32 - 1, 0, 1, 2 ** 32 - 1)], [(pm.LAST - 2 ** 32 + 2, 0, 1, 2 ** 32 - 1)]):
        assert header(of(entries, b'a')) is None
        for wrong in ({'min_zoom': 1}, {'max_zoom': 30}, {'addressed': 1}, {'min_zoom': 255, 'max_zoom': 255}):
            header(of(entries, b'a', **wrong))


def clustered():
    """Contents in order and out of it: from a place past the first, with gaps, within others, used again, of other
    lengths where one begins, and empty ones."""
    laid = [([(0, 2), (2, 3)], True), ([(0, 2), (2, 3), (0, 2), (5, 1)], True), ([(1, 2), (3, 2)], False), ([(0, 2), (3, 2)], False), ([(2, 3), (0, 2)], False), ([(0, 2), (1, 1)], False),
            ([(0, 2), (1, 2)], False), ([(0, 4), (0, 2), (4, 1)], True), ([(0, 2), (0, 4), (2, 2)], True), ([(0, 2), (0, 4), (4, 2)], False), ([(0, 0), (0, 2), (2, 0), (2, 1), (0, 0)], True),
            ([(0, 1), (3, 0)], False), ([(0, 1), (0, 0), (1, 1)], True), ([(0, 0)], True), ([(1, 0)], False), ([(0, 6), (6, 0), (6, 0)], True), ([(0, 1), (1, 1), (2, 1), (3, 1), (4, 1), (2, 1), (5, 1), (4, 1)], True),
            ([(0, 1), (1, 1), (2, 1), (3, 1), (4, 1), (3, 1), (6, 0)], False), ([(0, 1), (1, 1), (2, 1), (0, 1), (1, 1), (5, 1)], False)]
    for ranges, fine in laid:
        entries = [(2 * n, *place, 1) for n, place in enumerate(ranges)]
        data = of(entries, b'abcdef')
        assert header(data) is None and (readers.opened(data)[0]['clustered'] == 1) == fine
        assert (header(said(data, clustered=1)) is None) == fine
        for flag in (0, 2):
            assert header(said(data, clustered=flag)) is None


def documents():
    """Metadata that is no JSON, no object, or not there."""
    texts = [text.encode() for text in shown.METADATA] + [
        b'{"a": 1.5e308}', b'{"a": 1e309}', b'{"a": -1e309}', b'{"a": ' + b'9' * 308 + b'}', b'{"a": 1' + b'0' * 400 + b'}', b'1e5', b'-0', b'true', b'"a"', b'[{}]', b'{"a": NaN}', b'{"a": Infinity}',
        b'\xef\xbb\xbf{}', b'{}\0', b'\t\r\n{}\n', b'{"a": "\x01"}', b'{"\xff": 1}', b'\x80', b'{}\xc3', b'\xed\xa0\x80', b'[' * 127 + b']' * 127, b'[' * 128 + b']' * 128]
    for text in texts:
        header(of([(0, 0, 1, 1)], b'a', text))
    data = of([(0, 0, 1, 1)], b'a')
    for places in ({'metadata_length': 4}, {'metadata_length': 1}, {'metadata_length': 0}, {'metadata_offset': len(data) - 2}, {'metadata_offset': len(data) - 1}, {'metadata_offset': ALL},
                   {'metadata_length': ALL}, {'metadata_offset': ALL, 'metadata_length': 0}, {'metadata_offset': len(data), 'metadata_length': 0}, {'metadata_offset': len(data) + 1, 'metadata_length': 0}):
        header(said(data, **places))


def empty():
    """Archives without tiles: counts of 0, and zooms that say nothing."""
    for data in (pm.archive([])[0], tree([], b''), pm.whole(pm.directory([]), b'', b'abc')[0]):
        assert header(right(data)) is None
        for wrong in ({'min_zoom': 7, 'max_zoom': 3}, {'clustered': 0}, {'clustered': 1}):
            assert header(right(data, **wrong)) is None
        for name in COUNTS:
            assert header(right(data, **{name: 1}))
        assert header(said(data, metadata_length=ALL))


def trees():
    """Leaves and upper directories, with entries in the root beside them, empty entries and shared contents."""
    leaves, contents = some_leaves()
    deep = [tree(leaves, contents, most) for most in TREES[:-1]] + [nested(depth) for depth in range(7)]
    leaf = pm.directory([(2, 1, 1, 2), (9, 0, 1, 1)])
    beside = pm.whole(pm.directory([(0, 0, 1, 1), (2, 0, len(leaf), 0), (30, 2, 1, 1)]), leaf, b'abc')[0]
    many = pm.archive([(t, bytes([t % 7])) for t in range(3, 5000, 2)], most=64)[0]
    for data in deep + [beside, many]:
        assert header(right(data)) is None
        h = readers.opened(right(data))[0]
        for name in COUNTS + ('min_zoom', 'max_zoom'):
            assert header(right(data, **{name: h[name] + 1}))
        header(right(data, clustered=1))
        header(right(data, metadata_length=1))


def unsound():
    for data in (CYCLE, TWICE, nested(7), ONE[:126], ONE[:-1], b'', said(ONE, internal=2), said(ONE, data_offset=ALL), ONE[:16385]):
        header(data)


def failing():
    """Each read failing, and one that doesn't come."""
    for data in (FEW, right(nested(3)), said(right(nested(3)), entries=9), said(FEW, metadata_length=ALL), CYCLE, TWICE, ONE[:126]):
        hold(data)
        check_header(data)
        calls = calls_of(data)
        row('medium calls', calls)
        for call in range(1, calls + 2):
            hold(data)
            row(f'medium fail {call}')
            row('verify header', checked_header(data)[0] if call > calls else 'Err(Unsound(Opening(Reading(Fault))))' if call == 1 else 'Err(Unsound(Fault))')


def calls_of(data):
    """How many reads a check makes: a range past u64 takes none."""
    calls = [1]

    def read(length):
        calls[0] += length != ALL
    try:
        verifiers.header_fault(data, read)
    except (verifiers.Broken, pm.ArchiveRefused):
        pass
    return calls[0]


def chances():
    chance = random.Random('headers')
    for n in range(120):
        data = random_archive(chance)
        try:
            data = right(data)
        except (pm.ArchiveRefused, verifiers.Broken):
            header(data)
            continue
        header(data)
        h = readers.opened(data)[0]
        name = chance.choice(COUNTS + ('min_zoom', 'max_zoom', 'clustered'))
        header(said(data, **{name: max(0, h[name] + chance.choice([-1, 1]))}))


def write():
    for rows in (fields, order, zooms, clustered, documents, empty, trees, unsound, failing, chances):
        rows()
