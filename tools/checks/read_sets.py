"""The tiles of sets as Python's sqlite3 reads them, and of archives as readers.py does, for the scripts that compare
what bin/mbtiles-to-pmtiles makes."""
import concurrent.futures
import os
import sqlite3
import subprocess
import sys

sys.path.append(os.path.dirname(os.path.dirname(os.path.abspath(__file__))))
from models import pmtiles as pm  # noqa: E402
from models import readers  # noqa: E402


class Twice(Exception):
    """A place that two rows have, with different contents."""


def whole(cell):
    """The whole number in a cell, or None."""
    if isinstance(cell, bytes):
        return int(cell) if cell.isdigit() and len(cell) < 10 and (cell == b'0' or cell[:1] != b'0') else None
    return int(cell) if isinstance(cell, (int, float)) and cell == cell // 1 else None


def place_of(row):
    """The id of a row's place, or None where it has none."""
    z, x, y = (whole(cell) for cell in row)
    if None in (z, x, y) or not (0 <= z <= 30 and 0 <= x < 1 << z and 0 <= y < 1 << z):
        return None
    return pm.tile_id(z, x, (1 << z) - 1 - y)


def tiles_of(path):
    """The tiles of at least one byte in a file by their ids."""
    base = sqlite3.connect(f'file:{path}?mode=ro', uri=True)
    # texts come as bytes, whatever they are
    base.text_factory = bytes
    try:
        rows = base.execute('select zoom_level, tile_column, tile_row, cast(tile_data as blob) from tiles').fetchall()
    finally:
        base.close()
    found = {}
    for *place, content in rows:
        key = place_of(place)
        if key is not None and found.setdefault(key, content) != content:
            raise Twice
    return {key: content for key, content in found.items() if content}


def archived(path):
    """The tiles of an archive by their ids."""
    with open(path, 'rb') as file:
        data = file.read()
    header, _ = readers.opened(data)
    return {first + at: readers.part(data, header['data_offset'], offset, length) for first, offset, length, run in readers.walk(data, 1 << 40) for at in range(run)}


def converted(command, path, *flags):
    """The tiles of what a command makes of a file, or its status and what it says."""
    out = f'{path}.pmtiles'
    if os.path.exists(out):
        os.remove(out)
    done = subprocess.run([command, *flags, path, out], stdin=subprocess.DEVNULL, stdout=subprocess.PIPE, stderr=subprocess.PIPE, timeout=300)
    said = done.stderr.decode(errors='replace')
    if done.returncode == 0:
        found = archived(out)
        os.remove(out)
        return found, said
    # a refusal names the file, and leaves nothing
    problems = [] if os.path.basename(path) in said else ['a refusal that names no file']
    problems += ['a refusal that leaves something'] if os.path.exists(out) or os.path.exists(out + '.new') else []
    problems += [] if done.returncode in (1, 3, 4, 8) else [f'status {done.returncode}']
    if problems:
        raise AssertionError(f'{problems}: {said.strip()[-200:]}')
    return None, said


def side_by_side(call, cases):
    """What a call answers on each case, in their order."""
    with concurrent.futures.ThreadPoolExecutor(os.cpu_count()) as pool:
        return list(pool.map(call, cases))
