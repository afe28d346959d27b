# Archives that are read, by the definition of PMTiles version 3: what opens, tiles by their ids, entries and metadata.
import functools

from models import pmtiles as pm
from models.names import COMPRESSIONS


@functools.lru_cache(maxsize=4)
def opened(data):
    front = data[:pm.FRONT]
    if len(front) < 127:
        raise pm.ArchiveRefused('InvalidHeader')
    h = pm.read_header(front)
    end = h['root_offset'] + h['root_length']
    if h['root_offset'] < 127 or end > len(front):
        raise pm.ArchiveRefused('InvalidHeader')
    if h['internal'] != 1:
        raise pm.ArchiveRefused(f"UnsupportedCompression({COMPRESSIONS[h['internal']]})")
    return h, pm.read_directory(front[h['root_offset']:end])


def part(data, base, offset, length):
    at = base + offset
    if at + length >= 2 ** 64 or at + length > len(data):
        raise pm.ArchiveRefused('Reading(PastEnd)')
    return data[at:at + length]


def leaf(data, h, e):
    return pm.read_directory(part(data, h['leaf_offset'], e[1], e[2]))


def look_up(data, t):
    """The tile, and how many leaves were read on the way."""
    h, entries = opened(data)
    found = pm.scan(entries, t)
    hops = 0
    while found and found[3] == 0:
        if hops == 6:
            return None, hops
        found = pm.scan(leaf(data, h, found), t)
        hops += 1
    if not found:
        return None, hops
    return part(data, h['data_offset'], found[1], found[2]), hops


def archive_tile(data, t):
    return look_up(data, t)[0]


def walk(data, budget, read=lambda length: None):
    """Items of a walk along the levels: entries, or the text of a refusal as the last one. `read` is called before
    each read of a leaf, with its length."""
    h, level = opened(data)
    items, spent = [], 0
    while level:
        following = []
        for e in level:
            if e[3] > 0:
                items.append(e)
                continue
            if spent == budget:
                return items + ['BudgetSpent']
            spent += 1
            try:
                read(e[2])
                following += leaf(data, h, e)
            except pm.ArchiveRefused as refusal:
                return items + [str(refusal)]
        level = following
    return items


def metadata(data):
    h, _ = opened(data)
    text = part(data, h['metadata_offset'], 0, h['metadata_length'])
    try:
        return text.decode('utf-8')
    except UnicodeDecodeError:
        raise pm.ArchiveRefused('InvalidMetadataUtf8Encoding')
