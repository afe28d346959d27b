# Lines of headers, of the documents and fields of metadata, and of labels and errors, for tools/cases/format_rows.py.
import json
import random

from cases.format_program import HEADER, U64, refused, row, word
from cases.rows import document, extent, text_word
from cases.sample_archives import ONE
from models import pmtiles as pm
from models import shown
from models.names import COMPRESSIONS, TYPES


def header(data):
    """What a header of these bytes is: all its fields, or why it is refused."""
    try:
        h = pm.read_header(data)
    except pm.ArchiveRefused as refusal:
        row('header refusal ' + word(data), f'Some({refusal})')
        return
    row('header refusal ' + word(data), 'None')
    places = [h[p] for p in pm.PLACES]
    counts = [h[p] for p in pm.PLACES[8:]]
    h['clustered'] = 1 if h['clustered'] == 1 else 0
    row('header fields ' + word(data), *places[:8], *(shown.option(c or None) for c in counts), *counts, h['version'], shown.flag(h['clustered']),
        COMPRESSIONS[h['internal']], COMPRESSIONS[h['tile']], TYPES[h['type']], h['min_zoom'], h['max_zoom'], *extent(h))
    row('header again ' + word(data), word(pm.header(h)))


def headers():
    header(HEADER)
    header(HEADER + b'\xff')
    header(ONE[:200])
    for n in range(127):
        header(HEADER[:n])
    for data in [b'XXXXXX', b'PMxxxxx', b'PxTiles', b'PMTiler', b'PM', b'PMTiles' + bytes(119), b'PMTiles' + bytes(120), b'\xff' * 127, b'PMTiles' + b'\xff' * 120]:
        header(data)
    for at in range(127):
        for byte in {0, 1, 2, 4, 5, 6, 7, 9, 127, 128, 255, HEADER[at] ^ 32} - {HEADER[at]}:
            header(HEADER[:at] + bytes([byte]) + HEADER[at + 1:])
    chance = random.Random(6)
    for _ in range(150):
        fields = {p: chance.choice([0, 1, 127, 2 ** 60, 2 ** 63, U64 - 1, chance.randrange(U64)]) for p in pm.PLACES}
        fields.update({p: chance.randrange(-2 ** 31, 2 ** 31) for p in pm.DEGREES + ['center_lon', 'center_lat']})
        fields.update(version=chance.randrange(256), clustered=chance.choice([0, 1, 2]), internal=chance.randrange(6), tile=chance.randrange(6), type=chance.randrange(8),
                      min_zoom=chance.randrange(256), max_zoom=chance.randrange(256), center_zoom=chance.randrange(256))
        header(pm.header(fields))
    for tile in range(5):
        for kind in range(7):
            h = pm.default_header()
            h.update(tile=tile, type=kind, root_length=5 + tile, metadata_length=2, data_offset=16386, data_length=kind, addressed=1, entries=tile, contents=1)
            row(f'header written {tile} {kind} {5 + tile} 2 16386 {kind} 1 {tile} 1', word(pm.header(h)))
    row('header written 1 0 5 2 16386 1 1 1 1', word(HEADER))
    refused('header written 5 0 5 2 16386 1 1 1 1')
    refused('header written 0 7 5 2 16386 1 1 1 1')


def documents():
    h = pm.read_header(HEADER)
    for sources in [[], ['u'], ['u', 'v']]:
        row(f'header document {word(HEADER)}' + ''.join(' t' + s for s in sources), document(h, sources, {}))
    other = dict(h, min_zoom=3, max_zoom=0, min_lon=-5, max_lat=7, center_zoom=9, center_lat=-1)
    row(f'header document {word(pm.header(other))} tu', document(other, ['u'], {}))
    plain = pm.default_header()
    for metadata in shown.METADATA:
        want = shown.said(metadata)
        answer = 'Err(Invalid)' if want is None else f'Ok({document(plain, ["u"], want)})'
        row(f'json document {text_word(metadata)} tu', answer)
    for value in shown.LAYERS:
        layers = shown.layers(json.loads(value))
        row(f'json layers {text_word(value)}', 'Err(Invalid)' if layers is None else f'Ok({layers})')


def fields():
    names = [('b', '1'), ('ab', '2'), ('', '3'), ('é', '4'), ('a', '5'), ('b', '6')]
    for count in range(len(names) + 1):
        held = dict(names[:count])
        ordered = sorted(held.items(), key=lambda f: f[0].encode())
        for sought in ['b', 'c', 'aa', '', 'é']:
            words = ' '.join(f'{text_word(n)} t{v}' for n, v in names[:count])
            found = shown.option(shown.text(held[sought])) if sought in held else 'None'
            row(f'json texts {text_word(sought)} {count} {words}'.rstrip(), len(held), found, *(f'({shown.quoted(n)}, {shown.text(v)})' for n, v in ordered))
    for values in [['false'], ['false', 'true'], ['{}', '[1]', 'null']]:
        words = ' '.join('tminzoom t' + v for v in values)
        last = shown.value(json.loads(values[-1]))
        row(f'json values tminzoom {len(values)} {words}', 1, f'Some({last})', f'("minzoom", {last})')
    row('json values tb 0', 0, 'None')
    listed = [shown.layer({'id': n, 'fields': {}, 'minzoom': 0}) for n in ('water', 'roads')]
    row('json listed twater troads', shown.text('water'), shown.text('roads'), f'LayerList {{ layers: [{", ".join(listed)}] }}')


def labels():
    for byte, (name, encoding) in enumerate(zip(COMPRESSIONS, ['None', 'None', 'Some("gzip")', 'Some("br")', 'Some("zstd")'])):
        row(f'label compression {byte}', name, byte, encoding)
    kinds = ['application/octet-stream', 'application/vnd.mapbox-vector-tile', 'image/png', 'image/jpeg', 'image/webp', 'image/avif', 'application/vnd.maplibre-vector-tile']
    for byte, (name, media_type) in enumerate(zip(TYPES, kinds)):
        row(f'label type {byte}', name, byte, f'"{media_type}"')
    for byte in range(5, 256):
        row(f'label compression {byte}', 'InvalidCompression')
    for byte in range(7, 256):
        row(f'label type {byte}', 'InvalidTileType')
    for z, x, y in [(3, 9, 0), (32, 0, 0)]:
        row(f'label coord {z} {x} {y}', f'invalid coordinate {z}/{x}/{y}|', f'InvalidCoordinate({z}, {x}, {y})', f'invalid coordinate {z}/{x}/{y}|')
    row(f'label id {U64 - 1}', f'invalid tile id {U64 - 1}|', f'InvalidTileId({U64 - 1})', f'invalid tile id {U64 - 1}|')
    row('label header x', 'InvalidHeader', 'invalid header|')
    row('label header ' + word(b'XMTiles'), 'InvalidMagicNumber', 'invalid magic number|')
    row('label header ' + word(b'PMTilez'), 'UnsupportedPmTilesVersion', 'unsupported version|')
    row('label header ' + word(HEADER[:98] + b'\x09' + HEADER[99:]), 'InvalidCompression', 'invalid compression|')
    row('label header ' + word(HEADER[:99] + b'\x09' + HEADER[100:]), 'InvalidTileType', 'invalid tile type|')
    row('label directory x', 'InvalidEntry', 'invalid directory entry|')
    row('label faults', 'read fault|', 'past the end|', 'asked for 7 bytes, got 5|', 'out of memory|', 'write fault|', 'out of memory|', 'medium fault|', 'out of memory|')
    row('label sizes', 'OutOfMemory', 'out of memory|', 'Reading(PastEnd)', 'reading: past the end|',
        'UnexpectedNumberOfBytesReturned(7, 5)', 'asked for 7 bytes, got 5|')


def write():
    for rows in (headers, documents, fields, labels):
        rows()
