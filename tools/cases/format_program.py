# The lines of crates/format_rows, which several scripts write: format_rows.py writes them all.
from cases.rows import Rows
from cases.sample_archives import ONE

U32, U64 = 2 ** 32, 2 ** 64
HEADER = ONE[:127]
ROWS = Rows('format_rows')
row, refused = ROWS.row, ROWS.refused


def word(data):
    return 'x' + data.hex()


def coord(z, x, y):
    return f'TileCoord {{ z: {z}, x: {x}, y: {y} }}'
