# Lines of varints and of directories, sound and not, for tools/cases/format_rows.py.
import random

from cases.format_program import U32, U64, coord, refused, row, word
from cases.rows import entry, listed, result
from models import pmtiles as pm
from models.shown import flag, option


def varints():
    for n in [0, 1, 127, 128, 16257, 16258, 8000, U32 - 1, U32, 2 ** 63, U64 - 1]:
        spelled = pm.varint(n)
        row(f'varint write x {n}', word(spelled))
        row(f'varint write x80ff {n}', word(b'\x80\xff' + spelled))
    texts = [pm.varint(n) for k in range(64) for n in (2 ** k - 1, 2 ** k, 2 ** k + 1)]
    texts += [pm.varint(n)[:-1] + bytes([pm.varint(n)[-1] | 128]) + b'\x80' * p + b'\0' for n in (0, 1, 300, U32 - 1, U32) for p in range(8)]
    texts += [pm.varint(n)[:-1] for n in (128, U32, U64 - 1)] + [b'', b'\xff' * 9 + b'\x02', b'\xff' * 10, b'\xff' * 11, b'\xff\xff\xff\xff\x10', b'\x80' * 5 + b'\0']
    for spelled in dict.fromkeys(texts):
        for name, read in (('u64', pm.read_u64), ('u32', pm.read_u32)):
            for front, back in ((b'', b''), (b'\x80\x80', b'\x05')):
                data = front + spelled + back
                row(f'varint {name} {word(data)} {len(front)}', result(lambda: read(data, len(front)), str))
    refused('varint u64 x01 2')
    row('varint u64 x01 1', 'Err(InvalidEntry)')


def directory(data):
    """What a directory of these bytes is: its entries, or that it is refused."""
    try:
        entries = pm.read_directory(data)
    except pm.ArchiveRefused as refusal:
        row('directory decode ' + word(data), f'Err({refusal})')
        return
    row('directory decode ' + word(data), f'Ok(Directory [entries: {len(entries)}])')
    row('directory entries ' + word(data), 24 * len(entries), listed(entries))
    if all(e[1] < U64 - 1 and e[1] + e[2] < U64 for e in entries):
        spelled = pm.directory(entries)
        row('directory encode ' + word(data), word(spelled))
        row('directory again ' + word(data), flag(spelled == data))
    else:
        refused('directory encode ' + word(data))


THREE = bytes.fromhex('03000101000102000102010200')


def directories():
    directory(THREE)
    for t, found in [(0, (0, 0, 0, 0)), (1, (1, 1, 1, 1)), (2, (2, 2, 2, 2)), (3, (2, 2, 2, 2)), (4, None)]:
        row(f'directory find {word(THREE)} {t}', option(found and entry(found)))
    row('directory decode x020001010101010100', 'Ok(Directory [entries: 2])')
    for data in [b'', b'\0', bytes.fromhex('808080808080808010')]:
        directory(data)
    million = 'xc0843d,x01*3000001,x00*999999'
    row('directory again ' + million, 'true')
    row(f'directory find {million} 1000000', option(entry((1000000, 999999, 1, 1))))
    row(f'directory find {million} 1000001', 'None')
    row('directory run 58 2', coord(3, 4, 7), coord(3, 5, 7))
    row(f'directory run {pm.LAST} 1', coord(31, 2 ** 31 - 1, 0))
    row('directory run 5 0')
    refused(f'directory run {pm.LAST} 2')
    refused(f'directory run {U64 - 1} 1')
    for e in [(0, 0, 0, 0), (1, 2, 3, 4), (pm.LAST, 0, 1, 1), (pm.LAST, 0, 1, 2), (pm.LAST + 1, 0, 1, 0), (U64 - 1, U64 - 1, U32 - 1, U32 - 1)]:
        row('directory entry ' + ' '.join(map(str, e)), *e, *(flag(b) for b in (e[3] == 0, e[0] + e[3] <= pm.LAST + 1, e == (0, 0, 0, 0))))


def some_entries(chance):
    """Entries whose ids don't fall."""
    entries, at, place = [], chance.choice([0, 0, 7, 2 ** 40, U64 - 5000]), 0
    for _ in range(chance.randrange(1, 7)):
        length = chance.choice([0, 1, 5, 200, U32 - 1])
        offset = place if chance.random() < 0.6 else chance.choice([0, 3, 2 ** 33, 2 ** 63])
        entries.append((at, offset, length, chance.choice([0, 1, 1, 2, 129, U32 - 1])))
        at, place = at + chance.choice([0, 1, 1, 2, 300]), offset + length
    return entries


def hostile_directories():
    """Directories that are spelled from entries, whole, cut, padded, changed in one byte, or with another count."""
    chance = random.Random(5)
    for _ in range(60):
        entries = some_entries(chance)
        good = pm.directory(entries)
        directory(good)
        for t in {0, entries[0][0], entries[-1][0], entries[-1][0] + entries[-1][3], entries[len(entries) // 2][0] + 1}:
            if t <= pm.LAST:
                found = pm.scan(entries, t)
                row(f'directory find {word(good)} {t}', option(found and entry(found)))
        directory(good[:chance.randrange(len(good))])
        directory(good[:-1])
        directory(good + bytes([chance.randrange(256)]))
        for _ in range(5):
            at = chance.randrange(len(good))
            directory(good[:at] + bytes([chance.choice([0, 1, 127, 128, 255, good[at] ^ 128, chance.randrange(256)])]) + good[at + 1:])
        at = chance.randrange(len(good))
        directory(good[:at] + good[at + 1:])
        directory(good[:at] + bytes([0x80, 0]) + good[at:])
    one = bytes.fromhex('0100010101')
    for count in [0, 1, 2, 3, 127, 128, 2 ** 31, U32, 2 ** 60, 2 ** 61, 2 ** 62, 2 ** 63, U64 - 1]:
        directory(pm.varint(count) + one[1:])
        directory(pm.varint(count) + bytes(40))
    for columns in ['02ffffffffffffffffff0101 0101 0101 0100', '02ffffffffffffffffff0100 0101 0101 0100', '01ffffffffffffffffff02 01 01 01',
                    '01 00 8080808010 01 01', '01 00 ffffffff0f 01 01', '01 00 01 8080808010 01', '01 00 01 ffffffff0f 01', '01 00 01 01 00',
                    '01 00 01 01 ffffffffffffffffff01', '02 00 01 01 01 01 01 ffffffffffffffffff01 00', '02 00 01 01 01 00 01 ffffffffffffffffff01 00',
                    '02 00 00 01 01 01 01 01 01', '01 d5aad5aad5aad5aa55 01 01 01', '02 0001 0101', '01 00 01', '01 8000 8100 8100 8100']:
        directory(bytes.fromhex(columns.replace(' ', '')))


def write():
    for rows in (varints, directories, hostile_directories):
        rows()
