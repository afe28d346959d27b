"""Prints where the tiles of an archive or a set are, as a grid of characters for each zoom: tile_map.py show --map FILE

The command `fatyngu` calls it, and is asked for the entries of an archive.
"""
import os
import subprocess
import sys

from python_said import end_by_interrupts, fail, printed, words_of
from tile_cells import Unread, cells_of_entries, cells_of_set, is_set

FATYNGU = os.path.join(os.path.dirname(os.path.abspath(__file__)), 'fatyngu')
# how large a grid is at most
COLUMNS = 64
ROWS = 32


def counted(path):
    """The cells of a file, each of which a grid has."""
    if is_set(path):
        return cells_of_set(path)
    with subprocess.Popen([FATYNGU, 'show', '--entries', '--', path], stdout=subprocess.PIPE) as process:
        cells = cells_of_entries(process.stdout)
    if process.returncode:
        # the program has said why
        sys.exit(process.returncode)
    return cells


def mark(tiles, area):
    """The character of a cell that has so many tiles, of the places that it has."""
    if tiles >= area:
        return '#'
    return '+' if 2 * tiles >= area else ':' if tiles else '.'


def grid(zoom):
    """The lines of a zoom."""
    seen, (left, right), (top, bottom) = zoom.within(COLUMNS, ROWS)
    side = 1 << seen.shift
    last = (1 << zoom.zoom) - 1
    lines = [
        f'zoom {zoom.zoom}: {zoom.tiles} {"tile" if zoom.tiles == 1 else "tiles"}, {zoom.bytes} bytes, the largest {zoom.largest}; '
        f'columns {left * side} to {min(right * side + side - 1, last)}, rows {top * side} to {min(bottom * side + side - 1, last)}'
        + (f', {side} x {side} tiles a character' if side > 1 else '')
    ]
    for row in range(top, bottom + 1):
        found = (seen.cells.get((column, row), (0,))[0] for column in range(left, right + 1))
        lines.append('  ' + ''.join(mark(tiles, side * side) for tiles in found))
    return lines


def main(words):
    usage = 'usage: fatyngu show --map FILE'
    places, _ = words_of(words, usage, flags=['--map'])
    if len(places) != 1:
        fail(2, usage)
    try:
        cells = counted(places[0])
    except Unread as error:
        fail(error.status, str(error))
    lines = [line for z in sorted(cells.zooms) for line in grid(cells.zooms[z])]
    printed('\n'.join(lines or ['no tiles']) + '\n')


if __name__ == '__main__':
    end_by_interrupts()
    main(sys.argv[2:])
