# Rows that patch a set by one of many places that have one large content, for tools/cases/mbtiles_rows.py.
from cases.patch_cases import named
from models.hashes import digest
from models.held_sets import Held, tile_row
from models.names import AGG
from models.patches import remove


def write(rows):
    """A patch of many places that have one large content, which is put once."""
    for places, size, word in ((50, 100000, 'plain'), (50, 100000, 'force'), (3, 5, 'plain')):
        old = digest('md5', b'0')
        held = Held(rows, 'normalized', [('images', 't' + old, 'x30'), ('map', 'i6', 'i0', 'i0', 't' + old), *named((AGG, 'A'), ('name', 'town'))])
        data = bytes(n % 251 for n in range(size))
        rows.row(f'patch {places} {size} {word}', 'Ok(())')
        for n in range(places):
            for name, *cells in tile_row('normalized', 'md5', (6, n % 64, n // 64), data):
                held.put(name, cells)
        remove(held.tables['images'], ['t' + old])
        held.put('metadata', ['t' + AGG, 'tB'])
        held.say_digests()
