# Rows on the options that a set gives its archive, for tools/cases/mbtiles_rows.py. The answers are worked out by
# Python's json and decimal.
import json
import random
import re
from decimal import ROUND_HALF_UP, Decimal

from cases.patch_cases import named
from cases.rows import text_word
from models import shown
from models.held_sets import Held, data_of, tile_row
from models.names import LEFT_OUT, MEDIA_TYPES, TILE_TABLES, TYPE_WORDS

TYPES = {word: kind for kind, words in TYPE_WORDS.items() for word in (*words, *MEDIA_TYPES[kind])}
BLANKS = ' \t\n\x0c\r'
GZIP, OTHER = 'x1f8b08', 'x1a05'
NUMBERS = ('0', '-0', '+0', '7', '007', '-8.5', '8.', '.5', '-', '+', '', '1.5e1', '0x1', '180', '-180', '180.0', '180.00000004', '180.00000005', '180.0000001', '-180.1', '181', '90', '-90', '90.1', '-90.1', '1.23456784',
           '1.23456785', '-1.23456785', '1.234567849999999999999', '0.00000005', '-0.00000004', '1.2.3', '1,5', '--1', '1-', ' 4', '4 ', '4 5', '٣', '1.00000000x', '0' * 38 + '15', '0' * 39 + '15', '1.' + '3' * 38, '1.' + '3' * 39)


def degrees(word):
    """Ten millionths of a degree, or None."""
    word = word.strip(BLANKS)
    if not re.fullmatch(r'[-+]?[0-9]+(\.[0-9]*)?', word) or len(word.lstrip('-+')) > 40:
        return None
    number = int((Decimal(word) * 10 ** 7).quantize(Decimal(1), rounding=ROUND_HALF_UP))
    return number if abs(number) <= 180 * 10 ** 7 else None


def bounds(text):
    """West, south, east and north, or None."""
    parts = [degrees(part) for part in text.split(',')]
    if len(parts) != 4 or None in parts or abs(parts[1]) > 90 * 10 ** 7 or abs(parts[3]) > 90 * 10 ** 7 or parts[1] > parts[3]:
        return None
    return parts


def center(text):
    """Longitude and latitude, and a zoom or None; or None."""
    parts = text.split(',')
    lon, lat = (degrees(parts[0]), degrees(parts[1])) if len(parts) in (2, 3) else (None, None)
    if lon is None or lat is None or abs(lat) > 90 * 10 ** 7:
        return None
    zoom = parts[2].strip(BLANKS) if len(parts) == 3 else ''
    return lon, lat, int(zoom) if re.fullmatch('0|[1-9][0-9]?', zoom) and int(zoom) <= 30 else None


def middle(low, high):
    """Half of a sum, towards 0."""
    return (low + high) // 2 if low + high >= 0 else -(-(low + high) // 2)


def center_of(extent, at, zoom):
    """The center of an archive: that which is said, at zoom 0 where it says none, or the middle of the bounds at the
    least zoom. Without bounds it is that of the world."""
    if at is not None:
        return at[0], at[1], at[2] or 0
    west, south, east, north = extent or (0, 0, 0, 0)
    return middle(west, east), middle(south, north), zoom


def metadata(names):
    kept = shown.members(names.get('json') or '') or {}
    kept.update((name, text) for name, text in names.items() if name not in LEFT_OUT and text is not None)
    return in_order(kept)


def in_order(value):
    if isinstance(value, dict):
        return '{' + ','.join(f'{json.dumps(n, ensure_ascii=False)}:{in_order(v)}' for n, v in shown.in_order(value)) + '}'
    if isinstance(value, list):
        return '[' + ','.join(map(in_order, value)) + ']'
    return json.dumps(value, ensure_ascii=False)


def said(names, filled):
    """What a set says of its archive, by its names and by its tiles of at least one byte: type, label, zooms, bounds,
    center and metadata."""
    kind = TYPES.get((names.get('format') or '').strip(BLANKS).lower(), 'Unknown')
    gzip = [data[:2] == b'\x1f\x8b' for data in filled.values()]
    label = ('Gzip' if all(gzip) else 'Unknown' if any(gzip) else 'None') if kind == 'Mvt' else 'None'
    zooms = [place[0] for place in filled] or [0]
    extents = [read(names[name]) if names.get(name) is not None else None for name, read in (('bounds', bounds), ('center', center))]
    return kind, label, (min(zooms), max(zooms)), *extents, metadata(names)


def shown_bounds(of):
    return shown.option(of and 'SetBounds {{ west: {}, south: {}, east: {}, north: {} }}'.format(*of))


def shown_center(of):
    return shown.option(of and f'SetCenter {{ longitude: {of[0]}, latitude: {of[1]}, zoom: {shown.option(of[2])} }}')


def options(held):
    state = held.state()
    filled = {place: data for place, cell in state.tiles.items() if (data := data_of(cell))}
    kind, label, zooms, west, middle, text = said(state.names, filled)
    held.rows.row('meta options', kind, label, str(zooms), shown_bounds(west), shown_center(middle), shown.text(text))


def ask(rows, pushes, layout='flat'):
    options(Held(rows, layout, pushes))


def types(rows):
    for word in (*TYPES, 'PBF', ' Png', 'image/JPEG ', '\tmvt\n', '', 'gif', 'image/gif', 'vnd.mapbox-vector-tile', 'p bf', 'pbf2', 'é'):
        ask(rows, named(('format', word)))
    ask(rows, named(('format', None)))
    ask(rows, [])


def labels(rows):
    tiles = [[], [GZIP], [OTHER], [GZIP, GZIP], [GZIP, OTHER], [OTHER, GZIP], [OTHER, OTHER], ['n'], ['x'], ['x', 'n', GZIP], ['x', OTHER], ['x1f'], ['x1f8b'], ['x1f8c'], ['x8b1f']]
    for cells in tiles:
        for word in ('pbf', 'png', 'mlt', None):
            pushes = [('tiles', f'i{at + 3}', 'i0', 'i1', cell) for at, cell in enumerate(cells)]
            ask(rows, named(('format', word)) + pushes)
    # zooms by the tiles with a byte, whatever is said
    ask(rows, named(('minzoom', '0'), ('maxzoom', '9')) + [('tiles', 'i2', 'i0', 'i0', 'x'), ('tiles', 'i5', 'i0', 'i0', 'x30'), ('tiles', 'i7', 'i0', 'i0', 'x31'), ('tiles', 'i30', 'i0', 'i0', 'n')])
    ask(rows, named(('minzoom', '4')) + [('tiles', 'i30', 'i0', 'i0', 'x30')])


def extents(rows):
    for number in NUMBERS:
        for text in (f'{number},-85,8,85', f'-8,{number},8,90', f'-8,-90,8,{number}', f'-8,-5,{number},5'):
            ask(rows, named(('bounds', text)))
        for text in (f'{number},4', f'4,{number}', f'{number},{number},5', f'4,5,{number}'):
            ask(rows, named(('center', text)))
    for text in ('', ',', ',,,', '1,2,3', '1,2,3,4', '1,2,3,4,', ',1,2,3,4', '1,2,3,4,5', ' 1 , 2 ,\t3 , 4 ', '1;2;3;4', '1,4,3,2', '5,1,3,2', '[1,2,3,4]', '1', '1,2', '1,2,3', '1,2,30', '1,2,31', '1,2,07', '1,2,-1', '1,2,', '1,2,3.0', '1,2, 3 '):
        ask(rows, named(('bounds', text), ('center', text)))
    ask(rows, named(('bounds', None), ('center', None)))


def documents(rows):
    texts = ('{}', '{"a":1}', '{"vector_layers":[{"id":"a","fields":{"b":"String"},"minzoom":0,"maxzoom":14}],"tilestats":{"layerCount":1}}', '{"name":"inner","z":[1,2.5,null,true]}', '[1]', '"a"', 'null', '', 'x', '{"a":1,}',
             '{"a":1,"a":2}', '{"b":{"d":1,"c":2},"a":"\\u00e9\\n"}', '{"bounds":"1,2,3,4","format":"png"}', '{"half":0.5,"one":1.0,"less":-2.25}', *('{"a":' * n + '1' + '}' * n for n in (126, 127, 128)))
    for text in texts:
        ask(rows, named(('json', text)))
        ask(rows, named(('json', text), ('name', 'town'), ('a', 'over')))
        ask(rows, named(('json', text), ('name', None), ('a', None)))
    for name in (*LEFT_OUT, 'name', 'type', 'version', 'description', 'attribution', 'vector_layers', '', 'Format', 'é', 'with "quotes"', '\x01\x7f'):
        for text in ('md5', '', 'é "quoted" \\ \n\t\x0b\x7f end', None) if name != 'hash_algorithm' else ('md5', None):
            ask(rows, named((name, text)))
    ask(rows, named(('name', 'town'), ('type', 'overlay'), ('version', '2'), ('format', 'pbf'), ('agg_tiles_hash', '0')) + [('metadata', 'n', 'tnobody'), ('metadata', 'n', 'n')])


def understood(rows):
    """Whether texts are in the form that their names ask for."""
    texts = ['', ' ', 'pbf', ' Image/PNG ', 'gif', 'PBFS', '{}', '{"a":[1.5,null]}', '[]', '"a"', 'null', '1', 'x', '{"a":1,}', '1,2', '1,2,3', '1,2,31', '1,2,3,4', '3,2,1,4', '1,4,3,2', '1,2,3,4,5', '-180,-90,180,90', '-180.1,0,1,1',
             '0,91', '0,90,x', '8.4, 47.3,8.6 ,47.4', *('{"a":' * n + '1' + '}' * n for n in (127, 128)), *(f'{n},4' for n in NUMBERS), *(f'-8,{n},8,90' for n in NUMBERS)]
    reads = {'format': lambda text: text.strip(BLANKS).lower() in TYPES, 'bounds': bounds, 'center': center, 'json': shown.members}
    for text in texts:
        for name in ('format', 'bounds', 'center', 'json', 'name', 'minzoom', 'Format', ''):
            read = reads.get(name)
            answer = read is None or read(text) not in (None, False)
            rows.row(f'meta understood {text_word(name)} {text_word(text)}', f'Ok({str(answer).lower()})')
    for call in ('meta understood', 'meta understood x61'):
        rows.refused(call)


def layouts(rows):
    for layout in TILE_TABLES:
        ask(rows, named(('name', 'town'), ('format', 'png')), layout)
    # a row without an id is no tile
    tiles = tile_row('normalized', 'md5', (4, 0, 0), bytes.fromhex(GZIP[1:]))
    ask(rows, [*named(('format', 'pbf')), *tiles, ('map', 'i6', 'i0', 'i0', 'n')], 'normalized')
    refusal = f'UnsupportedHashAlgorithm {{ algorithm: {shown.text("crc32")} }}'
    Held(rows, 'flat', named(('hash_algorithm', 'crc32')))
    rows.row('meta options', refusal)


def some(rows):
    chance = random.Random(51)
    for _ in range(60):
        number = lambda limit: f'{chance.uniform(-limit, limit):.{chance.randrange(0, 12)}f}'
        low, high = sorted((number(90), number(90)), key=float)
        names = [('bounds', f'{number(180)},{low},{number(180)},{high}'), ('center', f'{number(180)},{number(90)},{chance.randrange(-1, 33)}'), ('format', chance.choice([*TYPES, 'x'])), ('name', chance.choice(['a', '', None])),
                 ('json', chance.choice(['{"a":[]}', '{"name":"b"}', 'x', None]))]
        tiles = [('tiles', f'i{z}', 'i0', 'i0', chance.choice([GZIP, OTHER, 'x', 'n'])) for z in sorted(chance.sample(range(31), chance.randrange(4)))]
        ask(rows, named(*chance.sample(names, chance.randrange(1, 6))) + tiles)


def write(rows):
    for cases in (types, labels, extents, documents, understood, layouts, some):
        cases(rows)
