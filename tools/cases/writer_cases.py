# Lines of writers of archives, for tools/cases/archive_rows.py: what they answer, and the archive that is there then.
import random

from cases.archive_program import FAULT, U64, check, held, read_documents, refused, row, tile
from cases.rows import entry, text_word, word
from models import pmtiles as pm
from models import readers
from models import shown
from models.hashes import md5, xxh3

FAILED = 'Err(Failed)'
# how an archive is begun, and the word behind it
WAYS = {'create': '', 'over': '', 'start': '0 '}


def overlapping(adds):
    seen, twice = set(), set()
    for t, _ in adds:
        (twice if t in seen else seen).add(t)
    return min(twice, default=None)


def written(way, adds, calls=None, metadata=b'{}', **options):
    """An archive that is written and read back: adds are (call, id, bytes)."""
    real = [(t, d) for _, t, d in adds if d]
    words = f'write {way} 0 ' + ('7 ' if way == 'start' else '') + str(len(adds)) + ''.join(f' {c} {t} {word(d)}' for c, t, d in adds)
    if overlapping(real) is not None:
        row(words, *['Ok(())'] * len(adds), f'Err(OverlappingEntries({overlapping(real)}))')
        row('medium part 97 1', 'x00')
        return
    data, h = pm.archive(real, metadata, **options)
    row(words, *['Ok(())'] * len(adds), f'Ok({shown.places(h)})')
    held(data)
    row(f'medium part 127 {h["root_length"]}', 'x' + data[127:127 + h['root_length']].hex())
    ids = sorted({t for t, _ in real} | {0, 1, 7, pm.LAST})
    row('read none tiles ' + ' '.join(map(str, ids)), *(tile(data, t) for t in ids))
    row('bytes entries 9', *(f'Ok({entry(e)})' for e in readers.walk(data, 9)))


def answers(contents, call, at_last):
    """What adds and the end are answered by a medium whose call with a number fails, the first two being those of the
    beginning."""
    known = pm.Contents()
    for i, content in enumerate(contents):
        call -= len(known.calls(content))
        if call <= 2:
            return ['Ok(())'] * i + [FAULT] + [FAILED] * (len(contents) - i)
    return ['Ok(())'] * len(contents) + [at_last(call - 2)]


LONG, OTHER = b'0123456789abcdefghij' * 2, b'0123456789abcdefghij_123456789abcdefghij'


def few_tiles():
    row('writer new 0')
    for way in WAYS:
        for adds in [[], [(0, b'0')], [(1, b'\xaa')], [(0, b'0'), (1, b'0')], [(0, b''), (7, b'')], [(1, b'0'), (0, b'0')], [(0, LONG), (1, OTHER), (2, LONG)],
                     [(0, b'0'), (5, b'0'), (7, b'0')], [(0, b'0'), (1, b'1'), (0, b'')], [(pm.LAST, b'0')], [(pm.LAST - 1, b'0'), (pm.LAST, b'0')],
                     [(0, b'0'), (1, b'0'), (2, b'0'), (1, b'1')], [(3, b'a'), (2, b'b'), (3, b'a'), (2, b'b')]]:
            written(way, [('raw', t, d) for t, d in adds])
    written('start', [('id', 0, b'0')])
    written('start', [('id', 9, b'ab'), ('raw', 3, b'ab'), ('plain', 4, b'ab')])
    chance = random.Random(7)
    for i in range(40):
        ids = chance.sample(range(30), chance.randrange(1, 12))
        if i % 2:
            ids.sort()
        adds = [(chance.choice(['raw', 'plain']), t, chance.choice([b'', b'a', b'a', b'b', b'ab', LONG])) for t in ids]
        written(chance.choice([*WAYS]), adds)


def one_digest():
    """Contents of one XXH3 digest: where eight bytes are the secret's first ones, the eight behind them don't count."""
    alike = [bytes.fromhex('b8fe6c3923a44bbe') + b'%08d' % i + b'the same last 16' for i in range(60)]
    assert len({xxh3(content) for content in alike}) == 1
    row('writer new 0')
    for way, front in WAYS.items():
        written(way, [('raw', t, alike[t % 7]) for t in range(30)])
        written(way, [('raw', t, alike[-t % 60]) for t in range(120)])
        written(way, [('raw', t, [alike[0], LONG, alike[5], OTHER, alike[5]][t % 5]) for t in range(10, 0, -1)])
        adds = [(t, alike[t]) for t in (0, 1, 2)] + [(3, alike[1])]
        words = '4 ' + ' '.join(f'raw {t} {word(content)}' for t, content in adds)
        for call in range(3, 9):
            row(f'write {way} {call} {front}{words}', *answers([content for _, content in adds], call, str))
            row('medium part 97 1', 'x00')


def under_one_number(mode, number, pieces):
    """Contents that share a digest: the first one is read back where it is as long, and the others are found by their
    bytes."""
    first, others, data, reads, answers = None, {}, b'', 0, []
    for d in pieces:
        read = None
        if first is not None and len(d) == len(first):
            reads += 1
            read = {'true': first, 'last': data[len(data) - len(d):]}.get(mode)
        if read == d:
            answers.append('known 0')
        elif d in others:
            answers.append(f'known {others[d]}')
        else:
            answers.append(f'new {len(data)}')
            if first is None:
                first = d
            else:
                others[d] = len(data)
            data += d
    row(f'contents {mode} {number} {len(pieces)}' + ''.join(f' {word(d)}' for d in pieces), *answers, sum(a.startswith('new') for a in answers), len(data), reads)


def one_number():
    """Two contents under one number find two places; over a medium that answers otherwise, they are new again, or the
    first one."""
    for mode in ('true', 'last', 'past', 'short'):
        for number in (0, 7, U64 - 1):
            under_one_number(mode, number, [b'a', b'b', b'a', b'b'])
        under_one_number(mode, 1, [])
        under_one_number(mode, 1, [b'a'])
        under_one_number(mode, 1, [b'ab', b'a', b'ab', b'a', b'b', b'abc', b'ab', b'b'])
        under_one_number(mode, 1, [b'a', b'b', b'b', b'c', b'a', b'c', b'a'])
        chance = random.Random(mode)
        for _ in range(40):
            under_one_number(mode, chance.randrange(U64), [bytes(chance.choice((0, 1, 255)) for _ in range(chance.randrange(1, 4))) for _ in range(chance.randrange(2, 24))])
        refused(f'contents {mode} 7 2 x61', 'new 0')
        refused(f'contents {mode} 7 1 x')
        refused(f'contents {mode} -1 1 x61')
    refused('contents none 7 1 x61')


def labels():
    row('writer new 1')
    row('writer label', 'None')
    for way, front in WAYS.items():
        data, h = pm.archive([(0, b'0')], type=1, tile=2)
        row(f'write {way} 0 {front}3 plain 0 x30 raw 0 x30 plain 1 x', 'Err(UnsupportedCompression(Gzip))', 'Ok(())', 'Err(UnsupportedCompression(Gzip))', f'Ok({shown.places(h)})')
        held(data)
        row('read none plain 0', 'UnsupportedCompression(Gzip)')
        row('read none plain 1', 'none')
        row('state plain 0', 'UnsupportedCompression(Gzip)')
    row('writer with internal 2')
    row('writer label', 'Gzip')
    for way, front in WAYS.items():
        row(f'write {way} 0 {front}1 raw 0 x30', 'UnsupportedCompression(Gzip)')
        held(b'')
        row(f'write {way} 1 {front}1 raw 0 x30', 'UnsupportedCompression(Gzip)')
    row('writer new 2')
    written('over', [('plain', 0, b'0')], type=2)
    for kind in range(7):
        row(f'writer new {kind}')
        written('create', [('raw', 0, b'0')], type=kind, tile=2 if kind == 1 else 1)
    refused('writer new 7')


def options():
    chance = random.Random(8)
    texts = ['{}', '', '{"name":"Cities"}', '{"name": "a b"}', '{"name":"é"}', 'no document', '{"vector_layers":[]}']
    fixed = dict(type=1, tile=1, min_zoom=1, max_zoom=9, min_lon=-10, min_lat=-20, max_lon=30, max_lat=40, center_zoom=4, center_lon=5, center_lat=-6)
    for i in range(25):
        o = dict(fixed)
        if i:
            o.update({n: chance.randrange(256) for n in ('min_zoom', 'max_zoom', 'center_zoom')}, type=chance.randrange(7), tile=chance.randrange(5))
            o.update({n: chance.choice([-2 ** 31, -1, 0, 7, 2 ** 31 - 1]) for n in pm.DEGREES + ['center_lon', 'center_lat']})
        text = '{"name":"Cities"}' if i == 0 else texts[i % len(texts)]
        row(f"writer new {o['type']}")
        settings = [f"tile {o['tile']}", f"min_zoom {o['min_zoom']}", f"max_zoom {o['max_zoom']}", 'bounds ' + ' '.join(str(o[n]) for n in pm.DEGREES),
                    f"center_zoom {o['center_zoom']}", f"center {o['center_lon']} {o['center_lat']}", 'metadata ' + text_word(text)]
        if i:
            chance.shuffle(settings)
        for setting in settings:
            row('writer with ' + setting)
        written('create', [('raw', 0, b'0')], metadata=text.encode(), **o)
        data = pm.archive([(0, b'0')], text.encode(), **o)[0]
        row('read none part header', 'x' + data[:127].hex())
        row('state part header', 'x' + data[:127].hex())
        read_documents(data)
    refused('writer with min_zoom 256')
    row('writer new 0')


def faults():
    """A medium whose call with a number fails: one of the two of the beginning, of those of the adds, or of the four
    of the end."""
    for way, front in WAYS.items():
        adds = '4 raw 0 x30 raw 1 x30 raw 2 x30 raw 1 x31'
        for call in range(1, 9):
            row(f'write {way} {call} {front}{adds}', *(['Reading(Fault)'] if call < 3 else answers([b'0', b'0', b'0', b'1'], call, lambda _: 'Err(OverlappingEntries(1))')))
        row('writer new 2')
        data, h = pm.archive([(0, b'a'), (1, b'a'), (pm.tile_id(1, 1, 1), b'b')], type=2)
        adds = '3 plain 0 x61 raw 1 x61 raw 3 x62'
        last = 9
        for call in [*range(1, last + 2), 0]:
            row(f'write {way} {call} {front}{adds}', *(['Reading(Fault)'] if 0 < call < 3 else answers([b'a', b'a', b'b'], call or U64, lambda left: FAULT if left <= 4 else f'Ok({shown.places(h)})')))
            if call > 2 or call == 0:
                row('medium part 97 1', 'x00' if 0 < call <= last else 'x01')
            if 2 < call <= last or call == 0:
                row('state tile 0', 'InvalidMagicNumber' if 0 < call < last else 'UnsupportedCompression(Unknown)' if call else 'x61')
        held(data)
        row('writer new 0')


def bulk():
    for n, k, *most in [(0, 1), (1, 1), (5, 2), (300, 7), (4063, 1), (4064, 1), (12288, 3), (40000, 1), (100000, 1000), (4064, 1, 16), (40000, 1, 65536), (65008, 1, 16),
                       (65009, 1, 16), (100000, 1, 16)]:
        adds = [(i, str(i // k).encode()) for i in range(n)]
        data, h = pm.archive(adds, most=most[0] if most else 4096)
        row(f'bulk {n} {k}' + ''.join(f' {m}' for m in most), shown.places(h))
        held(data)
        check(data)
        row(f'medium part 127 {h["root_length"]}', 'x' + data[127:127 + h['root_length']].hex())
        whole = md5(b''.join(d for _, d in adds))
        for way in ('read none', 'read map', 'read recent 1', 'read recent 3', 'read over', 'bytes'):
            if n > 20000 and (way in ('read none', 'bytes') or most and way != 'read recent 3'):
                continue
            row(f'{way} sweep 0 {n + 100}', n, shown.text(whole))
        row(f'read map tiles 0 {n - 1 if n else 0} {n} 1 {pm.LAST}', *(tile(data, t) for t in (0, max(n - 1, 0), n, 1, pm.LAST)))
        if h['leaves'] and not h['uppers']:
            row(f"state walk {h['leaves'] - 1} 1", *(f'Some(Err({i}))' for i in readers.walk(data, h['leaves'] - 1)[:1]))
        if h['uppers']:
            assert readers.look_up(data, n - 1) == (adds[-1][1], 2)
            row('state open', 'Ok')
            row(f'state tile {n - 1}', tile(data, n - 1))
    for words in ('5 0', '5 1 15', '5 1 65537', '5 1 x'):
        refused('bulk ' + words)


def write():
    for rows in (few_tiles, one_digest, one_number, labels, options, faults, bulk):
        rows()
