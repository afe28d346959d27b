"""Hands boxes of degrees, and a tile with its descendants, to the program as boxes of columns and rows:
degree_boxes.py extract IN OUT [BOX ..] [--bbox WEST,SOUTH,EAST,NORTH ..] [--tile Z/X/Y] [--minzoom Z] [--maxzoom Z] ..
degree_boxes.py copy SRC DST --bbox WEST,SOUTH,EAST,NORTH ..

The command `fatyngu` calls it. Columns and rows follow from degrees by the Web Mercator projection, in floating point:
none of this is proved. What the program does with the boxes is.
"""
import math
import os
import re
import sys

from python_said import fail, words_of

FATYNGU = os.path.join(os.path.dirname(os.path.abspath(__file__)), 'fatyngu')
USAGE = ('usage: fatyngu extract IN.pmtiles OUT.pmtiles [--bbox WEST,SOUTH,EAST,NORTH ..] [--tile Z/X/Y] [--minzoom Z] [--maxzoom Z]'
         ' [--overwrite] [--max-tiles N]')
DEEPEST = 30
# the latitude of the upper edge of the grid
NORTHMOST = 85.0511287798066
# how many boxes the program takes
MOST = 4000
DEGREES = '-?[0-9]+([.][0-9]*)?'
BOX = '[0-9]+( [0-9]+){4}'


def column(longitude, zoom):
    """The column at a zoom that a longitude lies in."""
    side = 1 << zoom
    return min(math.floor((longitude + 180) / 360 * side), side - 1)


def row(latitude, zoom):
    """The row at a zoom that a latitude lies in. Rows are counted from the top."""
    side = 1 << zoom
    within = max(-NORTHMOST, min(latitude, NORTHMOST))
    place = (1 - math.asinh(math.tan(math.radians(within))) / math.pi) / 2
    return max(0, min(math.floor(place * side), side - 1))


def degrees_of(word):
    """Boxes of degrees (west, south, east, north) that a word says: two where it crosses the antimeridian."""
    parts = word.split(',')
    if len(parts) != 4 or not all(re.fullmatch(DEGREES, part) for part in parts):
        fail(2, f'--bbox {word}: these are no four numbers of degrees; give WEST,SOUTH,EAST,NORTH, as -10.5,35,3,44')
    west, south, east, north = map(float, parts)
    if not -180 <= west <= 180 or not -180 <= east <= 180:
        fail(2, f'--bbox {word}: longitudes lie between -180 and 180 degrees; give a west and an east that do')
    if not -90 <= south <= 90 or not -90 <= north <= 90:
        fail(2, f'--bbox {word}: latitudes lie between -90 and 90 degrees; give a south and a north that do')
    if south > north:
        fail(2, f'--bbox {word}: its south is above its north; give WEST,SOUTH,EAST,NORTH in this order')
    if west > east:
        return [(west, south, 180, north), (-180, south, east, north)]
    return [(west, south, east, north)]


def tile_of(word):
    """The zoom, column and row that a word says."""
    found = re.fullmatch('([0-9]{1,2})/([0-9]{1,10})/([0-9]{1,10})', word)
    z, x, y = map(int, found.groups()) if found else (DEEPEST + 1, 0, 0)
    if z > DEEPEST or max(x, y) >= 1 << z:
        fail(2, f'--tile {word}: this is no tile; give Z/X/Y, a zoom from 0 to {DEEPEST}, and a column and a row below two to the zoom')
    return z, x, y


def zoom_of(options, name, usual):
    """The zoom of an option, or another one where it isn't there."""
    word = options.get(name, str(usual))
    if not re.fullmatch('[0-9]{1,2}', word) or int(word) > DEEPEST:
        fail(2, f'{name} {word}: this is no zoom; give a number from 0 to {DEEPEST}')
    return int(word)


def zooms_of(options):
    """The zooms that are asked for."""
    least, greatest = zoom_of(options, '--minzoom', 0), zoom_of(options, '--maxzoom', DEEPEST)
    if least > greatest:
        fail(2, f'--minzoom {least} is above --maxzoom {greatest}; give zooms of which the first is no deeper than the second')
    return range(least, greatest + 1)


def boxes_of_degrees(degrees, zooms):
    """The box of columns and rows at each zoom."""
    west, south, east, north = degrees
    for z in zooms:
        yield z, column(west, z), row(north, z), column(east, z), row(south, z)


def boxes_of_tile(tile, zooms):
    """That of a tile and its descendants."""
    zoom, x, y = tile
    for z in zooms:
        if z >= zoom:
            side = 1 << z - zoom
            yield z, x * side, y * side, (x + 1) * side - 1, (y + 1) * side - 1


def boxes_of(options, given):
    """All boxes that options ask for beside those that are given by columns and rows: those of the whole grid, where
    zooms alone are asked for. A box that is given has to have one of these zooms."""
    zooms = zooms_of(options)
    for word in given:
        if int(word.split()[0]) not in zooms:
            fail(2, f"the box '{word}' has none of the zooms {zooms[0]} to {zooms[-1]}; give other zooms or another box")
    areas = [each for word in options.get('--bbox', []) for each in degrees_of(word)]
    boxes = [box for area in areas for box in boxes_of_degrees(area, zooms)]
    if '--tile' in options:
        tile = tile_of(options['--tile'])
        if tile[0] > zooms[-1]:
            fail(2, f'--tile {options["--tile"]}: its zoom is above --maxzoom {zooms[-1]}; give a deeper one')
        boxes += boxes_of_tile(tile, zooms)
    elif not areas and not given:
        boxes += boxes_of_tile((0, 0, 0), zooms)
    return boxes


def plain_path(path):
    """A path that is taken for no option."""
    return f'./{path}' if path.startswith('-') else path


def hand_to_program(words):
    """Runs the command with words that have no degrees, in place of this script."""
    os.execv(FATYNGU, [FATYNGU, *words])


def extract(words):
    """Hands on the words of an extraction."""
    places, options = words_of(words, USAGE, flags=['--overwrite'], options=['--tile', '--minzoom', '--maxzoom', '--max-tiles'], lists=['--bbox'])
    given = places[2:]
    areas = [name for name in ('--bbox', '--tile', '--minzoom', '--maxzoom') if name in options]
    if len(places) < 2 or not all(re.fullmatch(BOX, word) for word in given) or not (given or areas):
        fail(2, USAGE)
    lines = [' '.join(map(str, box)) for box in (boxes_of(options, given) if areas else [])] + given
    if len(lines) > MOST:
        fail(2, f'these are more than {MOST} boxes, a box a zoom; give fewer, or fewer zooms by --minzoom and --maxzoom')
    more = ['--overwrite'] if '--overwrite' in options else []
    more += ['--max-tiles', options['--max-tiles']] if '--max-tiles' in options else []
    hand_to_program(['extract', *map(plain_path, places[:2]), *lines, *more])


def copy(words):
    """Hands on the words of a copy, whose box is one of columns and rows of the deepest zoom."""
    front = words[:words.index('--')] if '--' in words else words
    at = front.index('--bbox')
    if at + 1 == len(front) or '--bbox' in front[at + 1:]:
        fail(2, 'usage: fatyngu copy SRC DST --bbox WEST,SOUTH,EAST,NORTH, once')
    areas = degrees_of(front[at + 1])
    if len(areas) > 1:
        fail(2, f'--bbox {front[at + 1]}: its west is greater than its east; copy the two sides of the antimeridian one behind the other, the second with --on-duplicate override')
    (_, *box), = boxes_of_degrees(areas[0], [DEEPEST])
    hand_to_program(['copy', *words[:at], '--box', ' '.join(map(str, box)), *words[at + 2:]])


def main(subcommand, words):
    (copy if subcommand == 'copy' else extract)(words)


if __name__ == '__main__':
    main(sys.argv[1], sys.argv[2:])
