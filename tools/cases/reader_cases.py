# Lines of readers, views and states of archives, for tools/cases/archive_rows.py: what is read of an archive of one
# tile and of those with other bytes, other versions, and reads that fail.
from cases.archive_program import FAULT, archive, ask, changed, hold, read_documents, refused, row, tile
from cases.rows import answered, word
from cases.sample_archives import CYCLE, HOSTILE, ONE, root_of
from models import pmtiles as pm
from models import readers
from models import shown
from models.hashes import md5


def one_tile():
    hold(ONE)
    row('medium calls', 0)
    row('state open', 'Ok')
    row('medium calls', 1)
    row('state tile 0', 'x30')
    row('medium calls', 3)
    row('read none tiles 1', 'none')
    row('medium calls', 4)
    archive(ONE, (0, 1, 7, pm.LAST), (0, 1))
    read_documents(ONE)
    for way in ('read none', 'read map', 'read recent 1', 'read over', 'bytes', 'read idle'):
        row(f'{way} part header', 'x' + ONE[:127].hex())


def versions():
    a, b = shown.text('a'), shown.text('b')
    modified = f'SourceModified {{ opened: {a}, read: {b} }}'
    for first, then, calls in [
            ('a', 'b', [('none tiles 0', modified), ('map tiles 0', modified), ('recent 1 tiles 0 0', modified, modified), ('none plain 0', modified),
                        ('none unversioned 0', 'x30'), ('over unversioned 0', 'x30'), ('none tiles 1', 'none'), ('none metadata', f"Ok({shown.text('{}')})"),
                        ('none sweep 0 2', 1, shown.text(md5(b'0')))]),
            ('a', 'a', [('none tiles 0', 'x30'), ('map plain 0', 'x30')])]:
        for call, *wanted in calls:
            hold(ONE)
            row(f'medium versions t{first} t{then}')
            row('read ' + call, *wanted)
    for call, wanted in [('tile 0', modified), ('plain 0', modified), ('unversioned 0', 'x30'), ('tile 1', 'none')]:
        hold(ONE)
        row('medium versions ta tb')
        row('state ' + call, wanted)


def failing_reads():
    for calls, call, *answers in [('1', 'state open', 'Reading(Fault)'), ('1', 'read none tiles 0', 'Reading(Fault)'), ('2', 'read none tiles 0 0', 'Reading(Fault)', 'x30'),
                                  ('2 3', 'read map tiles 0 0 0', 'Reading(Fault)', 'Reading(Fault)', 'x30'), ('2', 'read none metadata', FAULT),
                                  ('2', 'state document tu', FAULT), ('3', 'read none tiles 0 0', 'x30', 'Reading(Fault)'), ('2', 'read none tiles 1 0', 'none', 'Reading(Fault)')]:
        hold(ONE)
        row('medium fail ' + calls)
        row(call, *answers)


def one_changed_field():
    for at, piece in [(8, b'\x7e'), (17, b'\x40'), (16, b'\xff' * 8), (97, b'\x02'), (97, b'\x09'), (98, b'\x09'), (99, b'\x09'), (0, b'p'), (3, b'p'), (127, b'\x02'), (98, b'\x02'),
                      (98, b'\0'), (97, b'\0'), (8, b'\x80'), (16, b'\x04'), (16, b'\x06'), (16, b'\x81\x3f'), (16, b'\x82\x3f'), (14, b'\x01'), (24, b'\0\0'), (32, b'\x03'), (32, b'\x04'),
                      (32, b'\0'), (24, b'\xff' * 8), (32, b'\xff' * 8), (56, b'\xff' * 8), (56, b'\x03'), (56, b'\x04'), (7, b'\0'), (96, b'\0'), (16384, b'{\xff')]:
        hold(ONE)
        row(f'medium change {at} {word(piece)}')
        ask(changed(ONE, at, piece), (0, 1), (2,))
    for n in (16384, 16385, 16386, 16387):
        hold(ONE)
        row(f'medium cut {n}')
        ask(ONE[:n], (0, 1), (2,))
    hold(ONE)
    for n in reversed(range(201)):
        row(f'medium cut {n}')
        cut = ONE[:n]
        if n < 132:
            row('state open', answered(lambda: readers.opened(cut)))
            row('bytes tiles 0', answered(lambda: readers.opened(cut)))
            row('view tiles 0', answered(lambda: readers.opened(cut)))
        else:
            row('read none tiles 0 1', tile(cut, 0), tile(cut, 1))
            row('view tiles 0 1', tile(cut, 0), tile(cut, 1))
            row('view metadata', 'Reading(PastEnd)')
            row('read map metadata', 'Err(Reading(PastEnd))')
    refused('medium cut 1')


def hostile_table():
    archive(root_of(bytes.fromhex('808080808080808010')))
    for spelled, fields in HOSTILE[2:9] + HOSTILE[:2] + HOSTILE[10:]:
        archive(root_of(bytes.fromhex(spelled), **fields), (0, 1, pm.LAST))


def leaf_cycle():
    hold(CYCLE)
    row('state open', 'Ok')
    row('medium calls', 1)
    hold(CYCLE)
    row('state tile 7', 'none')
    row('medium calls', 7)
    hold(CYCLE)
    row('state walk 10 2', 'Some(Err(BudgetSpent))', 'None')
    row('medium calls', 11)
    hold(CYCLE)
    row('read map tiles 7 7', 'none', 'none')
    row('medium calls', 2)
    archive(CYCLE, (0, 7), (0, 1, 10))


def write():
    for rows in (one_tile, versions, failing_reads, one_changed_field, hostile_table, leaf_cycle):
        rows()
