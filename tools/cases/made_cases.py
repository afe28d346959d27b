# Rows on sets that are made of archives with what these say of themselves, for tools/cases/import_rows.py. What the
# metadata of a set is to have is worked out by Python's json and decimal. Where an archive is the one of its set and
# of what the set says, the archive that is made of the set again has to be the same.
import json
import random

from cases import sample_archives
from cases.archive_names import WORLD, said
from cases.import_cases import Set, counted, export, hold
from cases.option_cases import bounds, center, center_of, in_order
from cases.patch_cases import named
from cases.rows import size_and_digest
from models import pmtiles as pm
from models import shown
from models.hashes import md5
from models.held_sets import spelled
from models.imported import Ends, imported

GZIP = b'\x1f\x8b\x08'
NUMBERS = (0, 1, -1, 5, -5, 10, -10, 100, 1234567, -1234567, 1000000, 9999999, 10000000, -10000000, 10000001, 85000000, -850511287, 850511290, 899999999, 900000000, -900000000, 1799999999, 1800000000, -1800000000,
           1800000001, -1800000001, 2147483647, -2147483648)
TEXTS = ['{}', ' { } ', '{"name":"town"}', '{"name":""}', '{"name":"a","name":"b"}', '{"name":null}', '{"name":1}', '{"name":{"en":"town"}}', '{"version":"1","type":"overlay","legend":"l","template":"t","description":"d","attribution":"\\u00a9 x"}',
         '{"vector_layers":[{"id":"a","fields":{"b":"String"},"minzoom":0,"maxzoom":14}],"name":"town"}', '{"vector_layers":"text"}', '{"vector_layers":[{"id":"a"}]}', '{"tilestats":{"layerCount":1,"half":0.5,"one":1.0,"less":-2.25}}',
         '{"b":{"d":1,"c":2},"a":"\\u00e9\\n"}', '{"a":[],"b":{},"c":true,"d":false,"e":-7,"f":18446744073709551615}', '{"":"empty","é":"é","with \\"quotes\\"":"\\u0001\\u007f"}',
         '{"bounds":[1,2,3,4],"center":[1,2,3],"minzoom":0,"maxzoom":"5","format":"gif","json":"{}","scheme":"xyz"}', '{"hash_algorithm":"sha1","agg_tiles_hash":"0","agg_tiles_hash_before_apply":"1","agg_tiles_hash_after_apply":"2"}',
         '{"json":{"a":1}}', '{"Format":"x","formats":"y"}', '', ' ', '[]', '[{"name":"a"}]', 'null', '"name"', '1', 'x', '{', '{"a":1,}', "{'a':1}", '{"a":1} x', '{"a":NaN}', *('{"a":' * n + '1' + '}' * n for n in (126, 127, 128))]


def status(answer):
    return 0 if answer.startswith('Ok') else 6 if 'Fault' in answer else 1


class Made(Set):
    """The kept store that has nothing, until a set is made in it."""

    def __init__(self, rows):
        self.rows, self.layout, self.tables, self.asked, self.is_new = rows, 'flat', {'metadata': [], 'tiles': []}, 0, True
        rows.row('set none')


class Bare(Set):
    """The kept store that has the tables of a layout and no view."""

    def __init__(self, rows, layout, pushes):
        super().__init__(rows, layout, pushes, None)
        self.asked += 1
        rows.row(f"set tables {len(self.tables)} {' '.join(self.tables)} {spelled(pushes)}")


def say_names(rows, *names):
    """What is described."""
    rows.row('set names', *names)


def made(held, data, most):
    """The answer of a set that is made, and its tables."""
    try:
        names = said(data)
    except Ends as end:
        return f'Err({end})'
    answer = imported(held, data, most)
    if answer.startswith('Ok'):
        for name, text in names.items():
            held.put('metadata', ['t' + name, 't' + text])
    return answer


def run(rows, held, data, most=100):
    """A set that is made in one commit; where the store is new first another one in several, which is the same."""
    hold(rows, data)
    if isinstance(held, Made) and held.is_new:
        held.is_new = False
        other = Made(rows)
        answer = made(other, data, most)
        rows.row(f'made streamed bytes {most}', answer, status(answer))
        other.say()
        rows.row('set none')
    answer = made(held, data, most)
    rows.row(f'made whole bytes {most}', answer, status(answer))
    held.say()
    return answer


def back(rows, data):
    """The archive of the set that was made: the same again, but for bounds and a center that the set doesn't say, or
    not in form."""
    h, names = pm.read_header(data), said(data)
    extent, at = (names.get(name) and read(names[name]) for name, read in (('bounds', bounds), ('center', center)))
    h.update(zip(pm.DEGREES, extent or WORLD))
    h['center_lon'], h['center_lat'], h['center_zoom'] = center_of(extent, at, h['min_zoom'])
    data = pm.header(h) + data[127:]
    rows.row('made back', *size_and_digest(data))


def archive(adds, text='{}', **options):
    """The archive of adds in the order of their ids, with the zooms of its tiles."""
    zooms = [max(z for z in range(32) if pm.below(z) <= t) for t, _ in adds] or [0]
    options = {'min_zoom': min(zooms), 'max_zoom': max(zooms), **options}
    return pm.archive(adds, text if isinstance(text, bytes) else text.encode(), **options)[0]


DESCRIBED = archive([(0, b'\x1a\x05'), (3, b'\x1a\x06')], '{"name":"town","vector_layers":[{"fields":{},"id":"a"}]}', type=1, min_lon=-84000000, center_zoom=1)


def types(rows):
    for kind in range(7):
        data = archive([(0, b'\x1a')], type=kind)
        assert run(rows, Made(rows), data) == 'Ok(1)'
        back(rows, data)
    # vector tiles that are compressed, and some that are
    for contents, label in (([GZIP], 2), ([GZIP, b'\x1a'], 0), ([b'\x1a', GZIP + b'x'], 0)):
        data = archive(list(enumerate(contents)), type=1, tile=label)
        run(rows, Made(rows), data)
        back(rows, data)


def texts(rows):
    for text in TEXTS:
        data = archive([(1, b'a'), (2, b'b')], text)
        answer = run(rows, Made(rows), data)
        if answer == 'Ok(2)':
            back(rows, archive([(1, b'a'), (2, b'b')], in_order(json.loads(text))))
    for text in (b'\xff', b'{"a":"\xc3\x28"}'):
        assert run(rows, Made(rows), archive([(1, b'a')], text)) == 'Err(Archive(InvalidMetadataUtf8Encoding))'
    data = archive([(1, b'a')], '{"a":1}')
    h = pm.read_header(data)
    for offset, length in ((len(data), 1), (2 ** 64 - 1, 1), (0, 2 ** 64 - 1), (16384, 0)):
        assert run(rows, Made(rows), pm.header({**h, 'metadata_offset': offset, 'metadata_length': length}) + data[127:]) != 'Ok(1)'


def extents(rows):
    for number in NUMBERS:
        for side in (*pm.DEGREES, 'center_lon', 'center_lat'):
            data = archive([(0, b'a')], **{side: number})
            run(rows, Made(rows), data)
            back(rows, data)
    for low, high, zoom in ((0, 0, 0), (3, 9, 30), (5, 2, 31), (255, 255, 255)):
        run(rows, Made(rows), archive([(0, b'a')], min_zoom=low, max_zoom=high, center_zoom=zoom))
    # the middle of bounds, at the least zoom and at others; bounds of the world, and some that no set says
    for sides in (WORLD, [84000000, 473000000, 86000000, 474000000], [-86000001, -474000000, -84000000, -473000001], [1, 2, 2, 3], [1700000000, 0, -1700000000, 10], [0, 10, 10, 0], [0, -900000001, 0, 900000001], [0, 0, 1800000001, 0]):
        lon, lat, _ = center_of(sides, None, 0)
        for zoom in (0, 2, 3, 30, 31, 255):
            for away in (0, 1, -1):
                data = archive([(21, b'a')], **dict(zip(pm.DEGREES, sides)), center_lon=lon + away, center_lat=lat, center_zoom=zoom)
                run(rows, Made(rows), data)
                back(rows, data)
    for place in (0, 1, 900000001):
        data = archive([(21, b'a')], center_lon=place, center_lat=place, center_zoom=1)
        run(rows, Made(rows), data)
        back(rows, data)


def refused(rows):
    """Archives that don't open, or fail a test of an import; and the order of the refusals."""
    data = archive([(1, b'a'), (2, b'b')])
    assert run(rows, Made(rows), data, 1) == 'Err(TooManyTiles(1))'
    say_names(rows)
    assert run(rows, Made(rows), data, 2) == 'Ok(2)'
    say_names(rows, 'metadata', 'tiles')
    run(rows, Made(rows), archive([]), 0)
    for broken in (data[:126], data[:16384], data[:16386], data[:16387], data[:97] + b'\2' + data[98:], sample_archives.CYCLE, archive([(pm.below(31), b'a')])):
        run(rows, Made(rows), broken, 1)
    assert run(rows, Made(rows), archive([(1, b'a'), (2, b'b')], '[]'), 1) == 'Err(Archive(InvalidMetadata))'
    say_names(rows)
    # what the archive says comes before what the set answers, and that before the tiles; a set that is refused stays
    for text, refusal in (('[]', 'InvalidMetadata'), (b'\xff', 'InvalidMetadataUtf8Encoding')):
        for layout in ('flat', 'normalized', 'dedup-id'):
            held = Set(rows, layout, named(('name', 'old')))
            assert run(rows, held, archive([(1, b'a'), (2, b'b')], text), 1) == f'Err(Archive({refusal}))'
    held = Set(rows, 'dedup-id', named(('name', 'old')))
    assert run(rows, held, archive([(1, b'a'), (2, b'b')]), 1) == 'Err(Store(UnsupportedCopyOperation))'
    collided = named(('name', 'old')) + [('images', 't' + md5(b'a'), 'n')]
    assert run(rows, Set(rows, 'normalized', collided), archive([(1, b'a')], '{"name":"new"}')).startswith('Err(Store(IdCollision')


def sets_before(rows):
    """Stores that hold sets already: tiles and names come over theirs."""
    data = archive([(0, b'a'), (3, b'b')], '{"name":"new","type":"overlay"}', type=2)
    for layout in ('flat', 'flat-with-hash', 'normalized', 'cache'):
        held = Set(rows, layout, named(('name', 'old'), ('format', 'pbf'), ('legend', 'old'), ('maxzoom', '9')))
        assert run(rows, held, data) == 'Ok(2)'
        assert run(rows, held, archive([(3, b'c')], '{"name":"newer"}')) == 'Ok(1)'
    held = Set(rows, 'dedup-id', [])
    rows.row('made whole bytes 9', 'Err(Store(UnsupportedCopyOperation))', 1)
    held.say()


def without_views(rows):
    """Stores that describe the tables of a layout and no view, or tables of no set: no table is made in them."""
    data = archive([(0, b'a'), (3, b'b')], '{"name":"new","type":"overlay"}', type=2)
    old = named(('name', 'old'), ('legend', 'old'))
    cached = [('tile_cache', 'i1', 'i0', 'i0', 'i5', 'i9', 'ttag', 'x63'), ('tile_cache', 'i2', 'i0', 'i0', 'n', 'n', 'n', 'x64')]
    id_of = 't' + md5(b'c')
    for layout, pushes in (('cache', cached), ('normalized', [('map', 'i1', 'i0', 'i0', id_of), ('images', id_of, 'x63')]), ('flat-with-hash', []), ('flat', [])):
        held = Bare(rows, layout, old + pushes)
        assert run(rows, held, data) == 'Ok(2)'
        say_names(rows, *held.tables)
        run(rows, held, archive([(3, b'c')], '{"name":"newer"}'))
    held = Bare(rows, 'dedup-id', old)
    assert run(rows, held, data) == 'Err(Store(UnsupportedCopyOperation))'
    say_names(rows, *held.tables)
    hold(rows, data)
    for names in (['metadata'], ['tiles'], ['images', 'metadata']):
        rows.row(f"set tables {len(names)} {' '.join(names)} 0")
        rows.row('made whole bytes 9', 'Err(Store(InvalidDataFormat))', 1)
        say_names(rows, *names)


def many(rows):
    """Some thousands of tiles: the archive that is made of the set is the same again."""
    data = archive([(t, t.to_bytes(2, 'big')) for t in range(3, 4100)], '{"name":"town"}')
    hold(rows, data)
    held = Made(rows)
    assert made(held, data, 9999) == 'Ok(4097)'
    rows.row('made whole bytes 9999', 'Ok(4097)', 0)
    back(rows, data)
    held = Set(rows, 'normalized', [])
    assert imported(held, data, 9999) == 'Ok(4097)'
    rows.row('import bytes 9999', 'Ok(4097)')
    export(rows, pm.archive([(t, t.to_bytes(2, 'big')) for t in range(3, 4100)])[0])


def commits(adds):
    """How many tiles each commit of tiles has: 1,000 at most, and 8 MiB of contents, or one tile of more."""
    counts, room = [0], 8 << 20
    for _, data in adds:
        if counts[-1] == 1000 or len(data) > room and counts[-1]:
            counts, room = counts + [0], 8 << 20
        counts, room = counts[:-1] + [counts[-1] + 1], max(room - len(data), 0)
    return counts


def streamed(rows):
    """Sets that are made in several commits: each of these fails in turn, and each read behind the first of them. There
    stand the tiles of the commits before, and no name."""
    large = b'x' * 9000
    several = [[(t, t.to_bytes(2, 'big')) for t in range(3, 3 + count)] for count in (0, 1, 999, 1000, 1001, 2000, 2001)]
    for adds in (*several, [(t, large) for t in range(85, 2085)], [(t, b'a' if t % 7 else large) for t in range(21, 5000)]):
        data = archive(adds, '{"name":"town"}')
        hold(rows, data)
        counts, first = commits(adds), 2 + counted(data, len(adds))
        entries = [data for n, (t, data) in enumerate(adds) if not n or adds[n - 1] != (t - 1, data)]
        Made(rows)
        rows.row(f'made streamed medium {len(adds)} 0', f'Ok({len(adds)})', 0, first + len(entries))
        back(rows, data)
        done, told = 0, {}
        for call, count in enumerate((*counts, 0), 3):
            put = min(done + count + (call < 2 + len(counts)), len(adds))
            reads = first + sum(not n or adds[n - 1] != (t - 1, data) for n, (t, data) in enumerate(adds[:put]))
            held = Made(rows)
            held.fail(call)
            rows.row(f'made streamed medium {len(adds)} 0', 'Err(Store(StoreFault))', 6, reads)
            rows.row('set fail')
            export(rows, pm.archive(adds[:done])[0])
            done += count
    # whether anything is described, and the tables
    hold(rows, DESCRIBED)
    for call, reads in ((1, 2), (2, 2 + counted(DESCRIBED))):
        held = Made(rows)
        held.fail(call)
        rows.row('made streamed medium 9 0', 'Err(Store(StoreFault))', 6, reads)
        rows.row('set fail')
        say_names(rows)
    # each read
    adds = several[-1]
    data = archive(adds)
    hold(rows, data)
    first = 2 + counted(data, len(adds))
    for call in (*range(1, 6), first, first + 1, first + 1000, first + 1001, first + 1002, first + 2001):
        Made(rows)
        rows.row(f'made streamed medium 2001 {call}', 'Err(Archive(Reading(Fault)))', 6, call)
        if call > first:
            export(rows, pm.archive(adds[:max(call - first - 2, 0) // 1000 * 1000])[0])
        else:
            say_names(rows)
    # in a store that describes anything all is put in one commit
    for layout in ('flat', 'flat-with-hash', 'normalized', 'cache', 'dedup-id'):
        held = Set(rows, layout, named(('name', 'old'), ('legend', 'old')))
        hold(rows, DESCRIBED)
        answer = made(held, DESCRIBED, 9)
        rows.row('made streamed bytes 9', answer, status(answer))
        held.say()


def faults(rows):
    """Each call of the backend fails in turn, and then each of the store, the last of which is the commit: the set stands
    as it was, but for the tables where nothing was described."""
    data = archive([(1, b'hello'), (3, b'new'), (4, b'new'), (9, b'x')], '{"name":"town","a":1}', type=1)
    hold(rows, data)
    reads = 2 + counted(data)
    for call in range(1, reads + 1):
        held = Made(rows)
        rows.row(f'made whole medium 9 {call}', 'Err(Archive(Reading(Fault)))', 6, call)
        held.say()
    held = Made(rows)
    rows.row(f'made whole medium 9 {reads + 1}', made(held, data, 9), 0, reads)
    held.say()
    # whether anything is described, the tables, and the commit
    for call in (1, 2, 3):
        held = Made(rows)
        held.fail(call)
        rows.row('made whole medium 9 0', 'Err(Store(StoreFault))', 6, 2 if call == 1 else reads)
        rows.row('set fail')
        held.say()
        say_names(rows, *(['metadata', 'tiles'] if call == 3 else []))
    # the same, the loading, and the commit
    for layout in ('flat', 'normalized', 'cache'):
        pushes = named(('name', 'old'), ('legend', 'old'))
        loads = Set(rows, layout, pushes).load_calls()
        for call in range(1, 1 + loads + 1 + 1):
            held = Set(rows, layout, pushes)
            held.fail(call)
            rows.row('made whole medium 9 0', 'Err(Store(StoreFault))', 6, reads if call > 1 + loads else 2)
            rows.row('set fail')
            held.say()


def limits(rows):
    for words, number in (('', '10000000'), (' 0', '0'), (' 1', '1'), (f' {2 ** 64 - 1}', str(2 ** 64 - 1)), (f' {2 ** 64}', None), (' 01', None), (' -1', None), (' +1', None), (' x', None), (' 1 2', None)):
        rows.row('made limit' + words, shown.option(number))
    for call in ('made', 'made whole', 'made whole bytes', 'made whole bytes x', 'made streamed medium 1', 'made streamed', 'made streamed back', 'made other'):
        rows.refused(call)


def round_trips(rows):
    chance = random.Random(2024)
    for _ in range(60):
        ids = sorted(chance.sample(range(400), chance.randrange(1, 12)))
        adds = [(t, chance.choice([b'a', b'bb', GZIP, bytes([t % 256, 1])])) for t in ids]
        kind = chance.randrange(7)
        label = 1
        if kind == 1:
            gzip = [d[:2] == GZIP[:2] for _, d in adds]
            label = 2 if all(gzip) else 0 if any(gzip) else 1
        degree = lambda most: chance.choice([0, most, -most, chance.randrange(-most, most + 1), chance.randrange(-180, 181) * most // 180])
        south, north = sorted((degree(900000000), degree(900000000)))
        text = in_order(dict(chance.sample([('name', 'town'), ('type', 'baselayer'), ('a', [1, {'c': 'd', 'b': None}]), ('format', 'x'), ('é', 'é'), ('half', 0.5), ('n', -3)], chance.randrange(8))))
        data = archive(adds, text, type=kind, tile=label, min_lon=degree(1800000000), min_lat=south, max_lon=degree(1800000000), max_lat=north,
                       center_zoom=chance.randrange(31), center_lon=degree(1800000000), center_lat=degree(900000000))
        assert run(rows, Made(rows), data) == f'Ok({len(adds)})'
        back(rows, data)


def write(rows):
    for cases in (types, texts, extents, refused, sets_before, without_views, many, streamed, faults, limits, round_trips):
        cases(rows)
