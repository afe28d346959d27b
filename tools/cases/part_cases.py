# Lines of the parts of archives, for tools/cases/archive_rows.py: directories, contents and documents, and archives of
# many levels and by chance.
import random

from cases.archive_program import U32, U64, archive, changed, hold, read_documents, row
from cases.random_archives import wild_archive
from cases.rows import answered, listed
from cases.sample_archives import CYCLE, ONE, nested
from models import pmtiles as pm
from models import readers
from models import shown


def parts():
    """Directories of the leaf part and contents of the data part, each read twice by a state and once by a reader."""
    def leaf_of(data, o, n):
        return answered(lambda: readers.leaf(data, readers.opened(data)[0], (0, o, n, 0)), listed)

    def contents_of(data, o, n):
        return answered(lambda: readers.part(data, readers.opened(data)[0]['data_offset'], o, n), lambda d: 'x' + d.hex())
    for data in (CYCLE, ONE, nested(3)):
        hold(data)
        for call, read in (('directory', leaf_of), ('contents', contents_of)):
            for o in (0, 1, 2, 5, 6, 127, len(data), U64 - 1):
                for n in (0, 1, 2, 4, 5, 6, 7, U32 - 1):
                    answer = read(data, o, n)
                    row(f'state part {call} {o} {n}', answer, answer)
                    row(f'read map part {call} {o} {n}', answer)
    for call, answer in (('contents 0 1', 'x30'), ('directory 127 5', listed([(0, 0, 1, 1)]))):
        hold(ONE)
        row('medium fail 2')
        row('state part ' + call, 'Reading(Fault)', answer)
        hold(ONE)
        row('medium versions ta tb')
        row('read none part ' + call, answer)


def documents():
    texts = [b'{"name":"Roads","type":"overlay","minzoom":"7","vector_layers":[{"id":"roads","fields":{"kind":"String"}}]}', b'[1]', b'{"a":1.5}', b'', b'{\xff}', b'{"a":1}']
    for text in texts + [t.encode() for t in shown.METADATA if len(t) < 300]:
        data = pm.archive([(0, b'0')], text)[0]
        hold(data)
        read_documents(data)
    short = changed(ONE, 32, b'\x04')
    hold(short)
    read_documents(short)


def deep():
    for depth in range(9):
        archive(nested(depth), (0, 1, 3, 4, 5), (0, depth, depth + 1))


def random_archives():
    """Archives whose leaves lie over one another, with places past the end, and some with a byte changed."""
    chance = random.Random(9)
    for _ in range(120):
        archive(wild_archive(chance), tuple(chance.sample(range(16), 4)), (chance.randrange(4), 6))


def write():
    for rows in (parts, documents, deep, random_archives):
        rows()
