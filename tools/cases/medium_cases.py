# Lines of media, of backends and of files, for tools/cases/format_rows.py.
import os

from cases.format_program import ROWS, U64, refused, row, word
from cases.sample_archives import ONE
from models import shown


def read_of(data, offset, length, exact):
    if offset > len(data) or exact and offset + length > len(data):
        return 'PastEnd'
    return 'None ' + word(data[offset:offset + length])


def reads(call, data, places):
    for offset, length in places:
        for name in ('read', 'exact'):
            row(f'{call} {name} {offset} {length}', read_of(data, offset, length, name == 'exact'))


def around(n):
    return [(a, l) for a in (0, 1, n - 1, n, n + 1, U64 - 1) for l in (0, 1, 3, n - 1, n, n + 1, U64 - 1)]


def media():
    row('medium hold x616263646566')
    row('medium len', 'Ok(6)')
    reads('medium', b'abcdef', around(6) + [(2, 3), (5, 2)])
    for offset, piece, held in [(0, 'x', 'xbc'), (1, 'xy', 'axy'), (2, 'xyz', 'abxyz'), (3, 'xy', 'abcxy'), (1, '', 'abc'), (0, 'wxyz', 'wxyz')]:
        row('medium hold x616263')
        row(f'medium write {offset} {word(piece.encode())}', 'Ok(())')
        row('medium held', word(held.encode()))
    refused('medium write 5 x78')
    row('medium held', 'x7778797a')
    for call, want in [('hold x', None), ('fail 2 4 6 7', None), ('write 0 x6162', 'Ok(())'), ('write 0 x78', 'Err(Fault)'), ('held', 'x6162'), ('len', 'Ok(2)'),
                       ('len', 'Err(MediumFault)'), ('read 1 1', 'None x62'), ('read 0 1', 'Fault'), ('exact 0 1', 'Fault'), ('exact 0 1', 'None x61'),
                       ('hold x', None), ('versions tone ttwo', None), ('read 0 1', f"Some({shown.text('one')}) x"), ('read 0 1', f"Some({shown.text('two')}) x"),
                       ('exact 0 0', f"Some({shown.text('two')}) x"), ('versions', None), ('read 0 1', 'None x')]:
        row('medium ' + call, *([] if want is None else [want]))


def backends():
    text = b'0123456789abcdef'
    row('hold ' + word(text))
    reads('bytes', text, around(16) + [(11, 10), (6, 10)])
    row('response x6162 x tv1', 'None x6162', f"Some({shown.text('v1')}) x")
    row('open no_such_file', 'MediumFault')
    refused('file read 0 1')
    row('open one_tile.pmtiles')
    reads('file', ONE, around(16387) + [(0, 127), (127, 5), (16384, 3), (16385, 3), (16386, 10)])
    refused('nothing of this name')
    refused('ids coord 0 0')


def gathered():
    """Reads at a border, behind which 20 bytes are gathered: those that they alone answer, those that end at the
    border, and those that have them written first."""
    held = bytes(range(20))
    row('disk open gathered')
    row('open gathered')
    row('disk call write 0 ' + word(held), 'Ok(())')
    for name in ('read', 'exact'):
        for first, end, is_written in [(0, 20, False), (0, 1, False), (7, 11, False), (19, 20, False), (-9, 0, False), (-9, -4, False), (-1, 1, True), (-5, 20, True), (19, 21, True), (20, 21, True), (21, 22, True)]:
            border = len(held)
            row('disk call len', f'Ok({border})')
            piece = bytes((border + i) % 251 for i in range(20))
            row(f'disk call write {border} {word(piece)}', 'Ok(())')
            held += piece
            row(f'disk call {name} {border + first} {end - first}', read_of(held, border + first, end - first, name == 'exact'))
            row(f'file read {border - 2} 40', read_of(held if is_written else held[:border], border - 2, 40, False))


# The answers follow from what was written before, and from what Linux says of a full device and of folders.
def files():
    for line in open(os.path.join(os.path.dirname(__file__), 'files.txt')):
        call, answer = line.rstrip('\n').split(' = ')
        ROWS.rows.append((call, answer))


def write():
    for rows in (media, backends, gathered, files):
        rows()
