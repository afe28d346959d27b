# Archives with planted faults, each asked six ways, for tools/cases/import_rows.py: a reader, a view, an import into
# an empty flat set, a check, an extraction and a server.
from cases import faulty_archives as faulty
from cases import sample_archives
from cases.faulty_answers import Asked, answers
from cases.rows import word
from models import pmtiles as pm
from models.imported import DEEP, coord

ALL, GREAT = 2 ** 64 - 1, 2 ** 32 - 1
ONE, CYCLE = sample_archives.ONE, sample_archives.CYCLE
PLAIN = Asked(5, (0, 2, 7), 10, '0 0 0 3 12', (1, 4, 2, 3))
# A part of the archive, and limits that the whole one passes.
NARROW = Asked(1, (1, 5), 4, '1 0 0 2 5', (2, 3, 1, 100))
END = Asked(2, (DEEP - 2, DEEP - 1, pm.LAST), 1, '{} {} {} 31 2'.format(*coord(DEEP - 1)), (1, 1, 1, 1))


class Lines:
    """The archive that is held, what is asked, and the answers of the line before, which are printed as `same` where
    they come again."""

    def __init__(self, rows):
        self.rows, self.data, self.asked, self.last, self.count = rows, None, None, '', 0

    def ask(self, asked):
        if asked is not self.asked:
            for call in asked.calls():
                self.rows.row(call)
            self.asked = asked

    def hold(self, data):
        if data is not self.data:
            self.rows.row('hold ' + word(data))
            self.data = data

    def planted(self, changes):
        """The six answers of what is held, where edits have changed it."""
        found = answers(faulty.edited(self.data, changes), self.asked)
        text = ' ; '.join(found)
        call = f'planted {len(changes)}' + ''.join(f' {at} {lost} x{piece.hex()}' for at, lost, piece in changes)
        self.rows.row(call, 'same' if text == self.last else text)
        self.last, self.count = text, self.count + 1
        return found


def root_of(root, **fields):
    """The archive of one tile with another root."""
    data = sample_archives.root_of(bytes.fromhex(root), ONE)
    h = pm.read_header(data)
    h.update(fields)
    return pm.header(h) + data[127:]


def with_leaf(root, leaf, **fields):
    """The archive of one tile with another root, and a leaf behind it all."""
    return sample_archives.root_of(root, ONE + leaf, **{'leaf_offset': len(ONE), 'leaf_length': len(leaf), **fields})


def refused(error, status=1):
    """What all ways say of an archive that isn't opened."""
    return {'reader': error, 'view': error, 'import': f'Err(Archive({error}))', 'check': f'1 "opening {error}\\n"', 'extraction': f'{status} Refused(Archive({error})) None', 'server': f'1 Refused(Opening({error})) ""'}


def of_tile(answer, imports, check, extraction, reply):
    """What they say of an archive whose tile at id 0 is asked for, extracted and served."""
    return {'reader': answer, 'view': answer, 'import': imports, 'check': check, 'extraction': extraction, 'server': f'0 Done "{reply}\\n"'}


PAST_END, INVALID = 'Err(Archive(Reading(PastEnd)))', 'Err(Archive(InvalidEntry))'
# Each case of one fault: its archive, and what is said of it.
ONE_FAULT = {
    'root_before_the_end_of_the_header': (root_of('0100010101', root_offset=126), refused('InvalidHeader')),
    'root_length_at_u64s_end': (root_of('0100010101', root_length=ALL), refused('InvalidHeader')),
    'count_of_more_than_there_are': (root_of('0200010101'), refused('InvalidEntry')),
    'first_offset_of_zero': (root_of('0100010100'), refused('InvalidEntry')),
    'ids_that_pass_u64': (root_of('02ffffffffffffffffff0101010101010100'), refused('InvalidEntry')),
    'contents_past_the_end': (root_of('0100010201'), of_tile('Reading(PastEnd)', PAST_END, '1 "broken 0 0 0 TilePastEnd\\n"', '1 Refused(Archive(Reading(PastEnd))) Some(0)', '500 PastEnd')),
    'contents_that_begin_at_u64s_end': (root_of('0100010102', data_offset=ALL), of_tile('Reading(PastEnd)', PAST_END, '1 "broken 0 0 0 TilePastEnd\\n"', '1 Refused(Archive(Reading(PastEnd))) Some(0)', '500 PastEnd')),
    'one_id_twice': (root_of('020000010101010101'), of_tile('x30', INVALID, '1 "broken 0 0 1 IdsFall\\n"', '1 Refused(Archive(InvalidEntry)) None', '200 1982E3A7BB241055 30')),
    'id_past_the_last_one': (root_of('01d5aad5aad5aad5aa55010101'), of_tile('none', 'Err(InvalidTileId(6148914691236517205))', '1 "broken 0 0 0 OutsideRange\\n"', '1 Refused(Archive(InvalidEntry)) None', '404')),
    'leaf_cycle': (CYCLE, of_tile('none', INVALID, '1 "broken 6 0 0 TooDeep\\n"', '1 Refused(Archive(InvalidEntry)) None', '404')),
}
AT_ZERO = Asked(9, (0,), 10, '0 0 0 0 10', (4, 100, 4, 100))


def one_fault(lines):
    """The cases of one fault, each with what all six ways say."""
    lines.ask(AT_ZERO)
    for name, (data, wanted) in ONE_FAULT.items():
        lines.hold(data)
        found = dict(zip(('reader', 'view', 'import', 'check', 'extraction', 'server'), lines.planted([])))
        found.update((way, found[way].split(' ')[-1]) for way in ('reader', 'view'))
        assert found == wanted, (name, found)


def chain(depth):
    """Leaves of one entry each, one below another, above a tile."""
    level, leaves = pm.directory([(0, 0, 1, 1)]), b''
    for _ in range(depth):
        leaves, level = leaves + level, pm.directory([(0, len(leaves), len(level), 0)])
    return with_leaf(level, leaves)


def levels(lines):
    """Through none to nine leaves to a tile: the sixth is the last one."""
    for depth in range(10):
        lines.hold(chain(depth))
        found = lines.planted([])
        assert found[3] == (f'0 "sound {depth} 1 1 1\\n"' if depth < 7 else f'1 "broken 6 {5 * (depth - 6)} 0 TooDeep\\n"'), found[3]
        assert found[2].startswith('Ok(1) ' if depth < 7 else INVALID)


def cycles(lines):
    """A leaf that names itself, the one above it, the root, and a root that is a leaf of another one; with tiles
    before them, whose ids rise or stand."""
    own, up = pm.directory([(0, 0, 5, 0)]), pm.directory([(0, 0, 1, 1), (1, 0, 9, 0)])
    for root, leaf, fields in ((own, own, {}), (up, up, {}), (pm.directory([(0, 9, 5, 0)]), up + pm.directory([(0, 0, 9, 0)]), {}), (own, b'', {'leaf_offset': 127}), (up, b'', {'leaf_offset': 127}),
                               (pm.directory([(0, 0, 9, 0), (1, 0, 9, 0), (2, 0, 9, 0)]), pm.directory([(0, 0, 9, 0), (1, 0, 9, 0)]), {}), (pm.directory([(t, 0, 1, 0) for t in range(4000)]), b'\0', {}),
                               (pm.directory([(t, 0, 17, 0) for t in range(400)]), pm.directory([(t, 0, 17, 0) for t in range(4)]), {})):
        lines.hold(with_leaf(root, leaf, **fields))
        for asked in (AT_ZERO, PLAIN, NARROW):
            lines.ask(asked)
            lines.planted([])


def great_numbers(lines):
    """Counts that no memory is there for, runs of billions, and ranges that end at u64's end and past it."""
    lines.ask(AT_ZERO)
    lines.hold(ONE)
    found = []
    for count in (2 ** 60, 2 ** 61, 2 ** 62, 2 ** 62 + 1, 2 ** 63, ALL, 2 ** 58, 4096, 4064, 4063, 5):
        spelled = pm.varint(count)
        found += [sample_archives.root_of(spelled + b'\0\1\1\1', ONE), sample_archives.root_of(spelled + b'\0' + b'\1' * 9, ONE, root_length=16257), with_leaf([(0, 0, 19, 0)], spelled + b'\1' * 30), with_leaf([(0, 0, GREAT, 0)], spelled)]
    for run in (GREAT, GREAT - 1):
        for length in (0, 1):
            for entries in ([(0, 0, length, run)], [(pm.LAST - run + 1, 0, length, run)], [(pm.LAST - run + 2, 0, length, run)], [(ALL, 0, length, run)], [(t * run, 0, length, run) for t in range(300)]):
                found.append(sample_archives.root_of(entries, ONE))
    for base in (0, 1, ALL - 1, ALL):
        for offset in (0, 1, ALL - 2, ALL - 1):
            for length in (0, 1, 2, GREAT):
                for run in (0, 1):
                    found.append(sample_archives.root_of([(0, offset, length, run)], ONE, data_offset=base, leaf_offset=base))
    for data in found:
        lines.planted(faulty.edits(ONE, data))


def roots_at_the_end_of_the_front(lines):
    """A root that ends with the 16,384 bytes that are read at first, and one byte behind them; with room behind its
    entries, and filled with them."""
    lines.ask(AT_ZERO)
    full = pm.directory([(t + 200 * max(0, t - 4059), 0, 1, 1) for t in range(4063)])
    assert len(full) == 16257
    for root in (b'\1\0\1\1\1', full):
        data = ONE[:127] + root + ONE[127 + len(root):]
        lines.hold(data)
        for length in (16256, 16257, 16258):
            lines.planted([(16, 8, length.to_bytes(8, 'little'))])
    lines.hold(ONE)
    for length in (0, 6, 7, 126, 127, 131, 132, 16383, 16384, 16385, 16386):
        lines.planted([(length, len(ONE) - length, b'')])


def planted(lines):
    """Each kind of fault in each archive."""
    for base, kind in faulty.faults():
        kind = list(kind)
        for asked, chosen in ((END, kind),) if base is faulty.BORDERS else ((PLAIN, kind), (NARROW, kind[::8])):
            lines.ask(asked)
            lines.hold(base.data)
            for changes in chosen:
                lines.planted(changes)


def wrong_lines(rows):
    """Lines that are no calls, and edits of what isn't there."""
    rows.row('hold x0102')
    for call in ('ask', 'ask none', 'ask tiles', 'ask tiles x', 'ask tiles 1 x', f'ask tiles 1 {pm.LAST + 1}', 'ask import', 'ask import -1', 'ask extract 1', 'ask serve 1', 'planted', 'planted x', 'planted 1', 'planted 1 0', 'planted 1 0 1',
                 'planted 1 0 3 x', 'planted 1 3 0 x', 'planted 2 0 1 x', f'planted 1 1 {ALL} x', f'planted 1 {ALL} 1 x'):
        rows.refused(call)


def write(rows):
    lines = Lines(rows)
    for cases in (one_fault, levels, cycles, great_numbers, roots_at_the_end_of_the_front, planted):
        cases(lines)
    wrong_lines(rows)
    assert lines.count >= 10000
    return lines.count
