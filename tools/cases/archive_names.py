# What an archive says of itself by the names of a set, for tools/cases/made_cases.py, worked out by Python's json and
# decimal.
from decimal import Decimal

from cases.option_cases import center_of, in_order
from models import pmtiles as pm
from models import readers
from models import shown
from models.imported import Ends, of_archive
from models.names import LEFT_OUT, TYPES, TYPE_WORDS

WORLD = [-1800000000, -850511290, 1800000000, 850511290]


def degrees(number):
    """The shortest decimal of ten millionths."""
    text = format(Decimal(number).scaleb(-7), 'f')
    return text.rstrip('0').rstrip('.') if '.' in text else text


def members(text):
    """The members of an object of JSON, or the refusal of any other text."""
    of = shown.members(text)
    if of is None:
        raise Ends('Archive(InvalidMetadata)')
    return of


def is_unsaid(h):
    """Whether a set says no center: its own is the middle of bounds that it can say, at its least zoom; those of the
    world are at zoom 0 too."""
    sides = [h[side] for side in pm.DEGREES]
    west, south, east, north = sides
    sayable = abs(west) <= 180 * 10 ** 7 and abs(east) <= 180 * 10 ** 7 and -90 * 10 ** 7 <= south <= north <= 90 * 10 ** 7
    middle = center_of(sides, None, h['min_zoom'])
    return sayable and middle[:2] == (h['center_lon'], h['center_lat']) and (h['center_zoom'] == h['min_zoom'] or h['center_zoom'] == 0 and sides == WORLD)


def said(data):
    """What an archive says of itself, by the names of a set."""
    h, _ = of_archive(lambda: readers.opened(data))
    of = members(of_archive(lambda: readers.metadata(data)))
    names = {n: v for n, v in of.items() if isinstance(v, str) and n not in LEFT_OUT}
    kept = {n: v for n, v in of.items() if n not in names}
    if kept:
        names['json'] = in_order(kept)
    if h['type'] != 0:
        names['format'] = TYPE_WORDS[TYPES[h['type']]][0]
    sides = [h[side] for side in pm.DEGREES]
    if sides != WORLD:
        names['bounds'] = ','.join(map(degrees, sides))
    if not is_unsaid(h):
        names['center'] = f"{degrees(h['center_lon'])},{degrees(h['center_lat'])},{h['center_zoom']}"
    names['minzoom'], names['maxzoom'] = str(h['min_zoom']), str(h['max_zoom'])
    return names
