# The script of an .mbtiles file, as bin/mbtiles-script is to print it: worked out from the rows and the metadata by
# the rules that stand there, by Python's sqlite3 and json.
import json
import sqlite3

from models.names import LEFT_OUT, TYPE_WORDS

TYPES = {word: kind.lower() for kind, words in TYPE_WORDS.items() for word in words}


def parsed(text):
    try:
        return json.loads(text)
    except ValueError:
        return None


def in_grid(z, x, y):
    return all(isinstance(n, int) for n in (z, x, y)) and 0 <= z <= 30 and 0 <= x < 2 ** z and 0 <= y < 2 ** z


def numbers(text, count):
    """The first numbers of a list, or none where there aren't as many."""
    found = parsed(f'[{text}]')
    return found[:count] if found and len(found) >= count else None


def whole(degrees):
    return ' '.join(str(round(n * 10 ** 7)) for n in degrees)


def lines(rows, names):
    """The lines of a set: rows of the table or view of tiles, and texts by their names in their order."""
    tiles = [r for r in rows if in_grid(*r[:3])]
    kind = TYPES.get(names.get('format'), 'unknown')
    yield 'option type ' + kind
    first = next((data for *_, data in tiles if data), b'\x1f\x8b')
    if kind == 'mvt' and first[:2] != b'\x1f\x8b':
        yield 'option tile-compression none'
    for end, of in ('min', min), ('max', max):
        yield f'option {end}-zoom {of(r[0] for r in tiles)}'
    for name, count in ('bounds', 4), ('center', 2):
        found = numbers(names.get(name, ''), count)
        if found:
            yield f'option {name} ' + whole(found)
    center = numbers(names.get('center', ''), 3)
    if center and isinstance(center[2], int) and 0 <= center[2] <= 255:
        yield f'option center-zoom {center[2]}'
    kept = {n: t for n, t in names.items() if n not in LEFT_OUT}
    for name, value in (parsed(names.get('json', '')) or {}).items():
        kept.setdefault(name, value)
    text = json.dumps(kept, ensure_ascii=False, separators=(',', ':'))
    yield 'option metadata t' + ''.join(f'%{byte:02X}' for byte in text.encode())
    yield 'base flat'
    for z, x, y, data in sorted(tiles, key=lambda tile: tile[:3]):
        yield f'row tiles i{z} i{x} i{y} ' + ('n' if data is None else 'x' + data.hex().upper())
    yield f'# rows {len(tiles)}'


def script_of(path):
    base = sqlite3.connect(f'file:{path}?mode=ro', uri=True)
    names = {name: value for name, value in base.execute('select name, value from metadata') if isinstance(value, str)}
    rows = base.execute('select zoom_level, tile_column, tile_row, tile_data from tiles').fetchall()
    base.close()
    return ''.join(line + '\n' for line in lines(rows, names))
