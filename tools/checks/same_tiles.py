# Compares an archive with the sets that it was made of: same_tiles.py ARCHIVE BASE.mbtiles [PATCH.mbtiles ..] Each
# tile of the sets, after the patches, has to be in the archive with equal bytes, and no other. Prints how many there
# are, the zooms of the header and the metadata. It reads the sets by python's sqlite3 and the archive by
# `tools/models/readers.py`.
import json
import os
import sqlite3
import sys

sys.path.append(os.path.dirname(os.path.dirname(os.path.abspath(__file__))))
from models import pmtiles as pm  # noqa: E402
from models import readers  # noqa: E402

with open(sys.argv[1], 'rb') as file:
    data = file.read()
tiles = {}


def whole(cell):
    """The whole number in a cell, or one of no tile."""
    if isinstance(cell, str):
        return int(cell) if cell.isascii() and cell.isdigit() and len(cell) < 10 and (cell == '0' or cell[:1] != '0') else -1
    return int(cell) if isinstance(cell, (int, float)) and cell == cell // 1 else -1


for name in sys.argv[2:]:
    for z, x, y, content in sqlite3.connect(name).execute('select zoom_level, tile_column, tile_row, tile_data from tiles'):
        z, x, y = whole(z), whole(x), whole(y)
        if 0 <= z <= 30 and 0 <= x < 1 << z and 0 <= y < 1 << z:
            key = pm.tile_id(z, x, (1 << z) - 1 - y)
            tiles.pop(key, None)
            if content:
                tiles[key] = bytes(content)
h, _ = readers.opened(data)
found = {}
for offset_id, offset, length, run in readers.walk(data, 1 << 40):
    for t in range(offset_id, offset_id + run):
        found[t] = readers.part(data, h['data_offset'], offset, length)
assert found == tiles, f'{len(found)} tiles in the archive, {len(tiles)} in the sets, {sum(found.get(t) != tiles[t] for t in tiles)} differ or are missing'
print(len(tiles), h['min_zoom'], h['max_zoom'], h['type'], h['tile'], json.dumps(json.loads(readers.metadata(data)), sort_keys=True))
