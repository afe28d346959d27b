"""Writes the stored runs of tileset_program, tile_verify_program, mbtiles_to_pmtiles_program, pmtiles_to_mbtiles_program
and fatyngu_program, and what is beside the examples.

    tools/make_cases programs

The report of a script is that of tools/cases/archives_again.py. The script of examples/places.mbtiles is worked out by tools/models/mbtiles.py, and its tiles and its names are what
mbtiles_to_pmtiles_program has to find in the same file.
"""
import os
import shutil
import sqlite3

from cases.archive_names import degrees
from cases.archives_again import adds_of, archive, report_of
from cases.made_cases import DESCRIBED
from cases.rows import TOP, Rows
from cases.streamed_sets import options_said, told
from cases.tileset_runs import ONE_TILE
from models import pmtiles
from models import readers
from models.mbtiles import script_of
from models.names import COMPRESSIONS, TYPES as TILE_TYPES
from models.scripts import parsed
from models.sets import Text, converted


# A base and its patches. Both patches have the tiles (1, 0, 0) and (1, 0, 1), so that their order shows, and no
# hashes, so that --force does.
FILES = ('places.mbtiles', 'places_update.mbtiles', 'places_removal.mbtiles')


def write(text, *path):
    path = os.path.join(TOP, *path)
    os.makedirs(os.path.dirname(path), exist_ok=True)
    with open(path, 'w', encoding='ascii') as file:
        file.write(text)


def rows_of(path, query):
    """The rows of a file."""
    base = sqlite3.connect(f'file:{path}?mode=ro', uri=True)
    rows = base.execute(query).fetchall()
    base.close()
    return rows


def patch_of(path):
    """The tiles of a file as a patch of a script."""
    yield 'patch flat\n'
    for z, x, y, content in rows_of(path, 'select zoom_level, tile_column, tile_row, tile_data from tiles'):
        yield f'row tiles i{z} i{x} i{y} ' + ('n' if content is None else 'x' + content.hex().upper()) + '\n'


def converted_files(script, path, patches):
    """The lines on the archive of a file, whose tiles are those of a script, and of patches without metadata, which
    are taken without hashes."""
    for patch in patches:
        script += ''.join(patch_of(patch))
    state = converted(parsed(script.encode()).stores, True, False)
    state.names = {name.encode(): Text(value.encode()) for name, value in rows_of(path, 'select name, value from metadata')}
    return told(state, dict(archive(options_said(state), adds_of(state.tiles))[1]))


def shown(data):
    """What is printed of the header of an archive."""
    h, _ = readers.opened(data)
    bounds = ','.join(degrees(h[name]) for name in pmtiles.DEGREES)
    center = f"{degrees(h['center_lon'])},{degrees(h['center_lat'])},{h['center_zoom']}"
    yield f"version {h['version']}"
    yield f"type {TILE_TYPES[h['type']].lower()}"
    yield f"tile compression {COMPRESSIONS[h['tile']].lower()}"
    yield f"directory compression {COMPRESSIONS[h['internal']].lower()}"
    yield f"zooms {h['min_zoom']} to {h['max_zoom']}"
    yield f'bounds {bounds} degrees'
    yield f'center {center}'
    yield f"addressed tiles {h['addressed']}"
    yield f"tile entries {h['entries']}"
    yield f"tile contents {h['contents']}"
    yield f"clustered {'yes' if h['clustered'] else 'no'}"
    for part, name in [('root directory', 'root'), ('metadata', 'metadata'), ('leaf directories', 'leaf'), ('tile data', 'data')]:
        yield f"{part} {h[name + '_length']} bytes at {h[name + '_offset']}"


def main():
    text, bytes_shown, _ = report_of(ONE_TILE)
    write('convert\nhex\n', 'crates', 'tileset_program', 'args')
    write(ONE_TILE, 'crates', 'tileset_program', 'stdin')
    write(text + bytes_shown, 'crates', 'tileset_program', 'stdout')
    write(ONE_TILE, 'examples', 'one_tile.script')
    write(text + bytes_shown, 'examples', 'one_tile.out')
    files = [os.path.join(TOP, 'examples', name) for name in FILES]
    places = files[0]
    script = script_of(places)
    write(script, 'examples', 'places.script')
    write(report_of(script)[0], 'examples', 'places.out')
    write(''.join(word + '\n' for word in ('--force', *FILES, 'places.pmtiles')), 'crates', 'mbtiles_to_pmtiles_program', 'args')
    write(converted_files(script, places, files[1:]), 'crates', 'mbtiles_to_pmtiles_program', 'stdout')
    held = os.path.join(TOP, 'crates', 'mbtiles_to_pmtiles_program', 'data')
    os.makedirs(held, exist_ok=True)
    for path in files:
        shutil.copyfile(path, os.path.join(held, os.path.basename(path)))
    # one tile in the archive: no fault, and one id, entry and content
    write('one_tile.pmtiles\n', 'crates', 'tile_verify_program', 'args')
    write('sound 0 1 1 1\n', 'crates', 'tile_verify_program', 'stdout')
    write('described.pmtiles\nmade.mbtiles\n2\n', 'crates', 'pmtiles_to_mbtiles_program', 'args')
    Rows('pmtiles_to_mbtiles_program').write_data('described.pmtiles', DESCRIBED)
    write('show\ndescribed.pmtiles\n', 'crates', 'fatyngu_program', 'args')
    Rows('fatyngu_program').write_data('described.pmtiles', DESCRIBED)
    write(''.join(f'{line}\n' for line in shown(DESCRIBED)), 'crates', 'fatyngu_program', 'stdout')


if __name__ == '__main__':
    main()
