# Lines of digests, for tools/cases/format_rows.py: by tools/models/hashes.py, published ones, and those that other
# programs gave (digests.txt).
import os

from cases.format_program import refused, row, word
from models import hashes
from models import shown
from models.names import ALGORITHMS


def counted(n):
    return bytes(i % 251 for i in range(n))


NAMES = list(ALGORITHMS.items())


def digest(name, data, want):
    assert hashes.digest(name, data) == want
    row(f'hash digest t{name} {word(data)}', f'Ok({shown.text(want)})', word(want.encode()))


def write():
    published = ['5D41402ABC4B2A76B9719D911017C592', 'A430D84680AABD0B', '11831194018420276491', '26C7827D889F6DA3', '9555E8555C62DCFD']
    for (name, variant), want in zip(NAMES, published):
        digest(name, b'hello', want)
        row(f'hash name t{name}', variant, f'"{name}"', name + '|')
    row('hash name tFNV1A-Decimal', 'Fnv1aDecimal', '"fnv1a-decimal"', 'fnv1a-decimal|')
    for name in ['sha1', '', 'md5x', 'md', 'fnv1a_decimal']:
        refused('hash name t' + name)
    row('hash default', 'Md5')
    empty = ['D41D8CD98F00B204E9800998ECF8427E', 'CBF29CE484222325', '14695981039346656037', 'EF46DB3751D8E999', '2D06800538D394C2']
    for (name, _), want in zip(NAMES, empty):
        digest(name, b'', want)
    # the published vectors of FNV-1a with 64 bits (draft-eastlake-fnv), and the last of RFC 1321
    digest('fnv1a', b'a', 'AF63DC4C8601EC8C')
    digest('fnv1a', b'foobar', '85944171F73967E8')
    row('hash pieces tmd5 ' + ' '.join(['x31323334353637383930'] * 8), 'Ok(' + shown.text('57EDF4A22BE3C955AC49DA2E2107B67A') + ')')
    # lengths of which the last ones, or all together, end at a border of one of the algorithms, and some that don't
    lengths = [[], [0], [0, 0, 1], [31], [32], [33], [31, 1], [31, 1, 32, 1], [1, 62, 1], [64, 64], [65, 63, 128], [240], [239, 2], [256], [255, 1, 1], [256, 1],
               [257], [300, 0, 20], [320], [100, 156, 64], [1, 256, 63, 1], [64] * 5, [64] * 17, [1024], [1024, 1], [1025], [1000, 25, 1024, 1], [3, 200, 2000], [2049, 7],
               [7] * 60, [1] * 70, [255, 255, 255, 255, 4], [192] * 6, [256, 192, 193, 191], [5000]]
    for name, _ in NAMES:
        for parts in lengths:
            row(' '.join([f'hash pieces t{name}'] + [f'n{n}' for n in parts]), 'Ok(' + shown.text(hashes.digest(name, b''.join(counted(n) for n in parts))) + ')')
    for n in [16, 17, 128, 129, 240, 241, 1024, 1025]:
        row(f'hash numbers x00*{n}', hashes.fnv1a(bytes(n)), hashes.xxh64(bytes(n)), hashes.xxh3(bytes(n)))
    for line in open(os.path.join(os.path.dirname(__file__), 'digests.txt')):
        if not line.startswith('#'):
            n, xxh64, xxh3, md5 = line.split()
            data = counted(int(n))
            row(f'hash numbers n{n}', hashes.fnv1a(data), int(xxh64, 16), int(xxh3, 16))
            row(f'hash md5 n{n}', word(md5.encode()))
