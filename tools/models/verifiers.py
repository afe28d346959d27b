# Archives that are checked: the numbers of a sound one, or the first broken part; and the first thing that the header
# of a sound one says wrong.
import json
import math

from models import pmtiles as pm
from models import readers
from models.shown import depth


class Broken(Exception):
    """The first broken part: the depth and offset of its directory, its index there, and why."""


def broken_id(entries, low, limit):
    """The first entry that fails a test of ids and runs, by its index, and why."""
    last, run = None, None
    for i, e in enumerate(entries):
        if last is not None and e[0] <= last:
            return i, 'IdsFall'
        if last is not None and last + run > e[0]:
            return i, 'RunOverlaps'
        if not low <= e[0] < limit:
            return i, 'OutsideRange'
        if e[3] > 0 and e[0] + e[3] - 1 > pm.LAST:
            return i, 'PastMaxId'
        if e[0] + e[3] > limit:
            return i, 'OutsideRange'
        last, run = e[0], e[3]
    return None


def check_directory(data, h, entries, place, low, limit, met, read):
    depth, offset = place
    found = broken_id(entries, low, limit)
    if found:
        raise Broken(depth, offset, *found)
    for i, e in enumerate(entries):
        if e[3] > 0:
            met['tiles'].append(e)
            read(0)
            try:
                readers.part(data, h['data_offset'], e[1], e[2])
            except pm.ArchiveRefused:
                raise Broken(depth, offset, i, 'TilePastEnd')
            continue
        if depth == 6:
            raise Broken(depth, offset, i, 'TooDeep')
        read(e[2])
        try:
            below = readers.leaf(data, h, e)
        except pm.ArchiveRefused as refusal:
            met['leaves'] += str(refusal) == 'InvalidEntry'
            raise Broken(depth, offset, i, 'NotDecoded' if str(refusal) == 'InvalidEntry' else 'LeafPastEnd')
        met['leaves'] += 1
        check_directory(data, h, below, (depth + 1, e[1]), e[0], entries[i + 1][0] if i + 1 < len(entries) else limit, met, read)


def met_in(data, h, root, read, met):
    """All that is met of a sound archive; else its first broken part is raised."""
    check_directory(data, h, root, (0, 0), 0, pm.LAST + 1, met, read)
    tiles = met['tiles']
    return met['leaves'], sum(e[3] for e in tiles), len(tiles), len({e[1:3] for e in tiles})


def check(data, read=lambda length: None):
    """The numbers of a sound archive, its refusal or its first broken part, and how many leaves were read. `read` is
    called before each read of a range, with its length: a tile's end is tested by a read of no bytes."""
    h, root = readers.opened(data)
    met = {'leaves': 0, 'tiles': []}
    try:
        return met_in(data, h, root, read, met), met['leaves']
    except Broken as broken:
        return broken.args, met['leaves']

# Headers.


def unclustered(tiles):
    """The first tile entry whose contents neither begin where those before it end, from 0, nor where some of these
    begin: its number, that end and its offset."""
    end, begins = 0, set()
    for number, (_, offset, length, _) in enumerate(tiles):
        if offset == end:
            begins.add(end)
            end += length
        elif offset not in begins:
            return number, end, offset
    return None


def finite(digits):
    """A number that a float holds."""
    if math.isinf(float(digits)):
        raise ValueError
    return digits


def shape_fault(text):
    """Why a text is no object of JSON that nests at most 127 deep, in which each number is one that a float holds."""
    try:
        value = json.loads(text, parse_int=finite, parse_float=finite, parse_constant=lambda name: 1 // 0)
        if depth(value) > 127:
            return 'NotJson'
    except (ValueError, ZeroDivisionError, RecursionError):
        return 'NotJson'
    return None if isinstance(value, dict) else 'NotAnObject'


def metadata_fault(data, h, read):
    read(h['metadata_length'])
    try:
        return shape_fault(readers.part(data, h['metadata_offset'], 0, h['metadata_length']).decode())
    except UnicodeDecodeError:
        return 'NotUtf8'
    except pm.ArchiveRefused:
        return 'PastEnd'


def zoom_of(t):
    return next(z for z in range(32) if t < pm.below(z + 1))


def header_fault(data, read=lambda length: None):
    """The numbers of a sound archive, and the first thing that its header says wrong: its name with what it states and
    what was found, or None. `read` is called as by `check`, and then before the metadata is read."""
    h, root = readers.opened(data)
    met = {'leaves': 0, 'tiles': []}
    numbers = met_in(data, h, root, read, met)
    tiles = met['tiles']
    found = [(name, h[field], n) for name, field, n in zip(('AddressedTiles', 'TileEntries', 'TileContents'), ('addressed', 'entries', 'contents'), numbers[1:]) if h[field] not in (0, n)]
    zooms = [zoom_of(t) for e in tiles for t in (e[0], e[0] + e[3] - 1)]
    if tiles:
        found += [(name, h[field], z) for name, field, z in (('MinZoom', 'min_zoom', min(zooms)), ('MaxZoom', 'max_zoom', max(zooms))) if h[field] != z]
    if h['clustered'] == 1 and unclustered(tiles):
        found.append(('Clustered', *unclustered(tiles)))
    if found:
        return numbers, found[0]
    fault = metadata_fault(data, h, read)
    return numbers, fault and ('Metadata', fault)
