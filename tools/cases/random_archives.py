# Archives by chance, for tools/cases/archive_rows.py: their leaves lie over one another, places are past the end, a
# field of the header or a byte is changed, and the end is cut off.
from itertools import accumulate

from models import pmtiles as pm

GREAT, ALL = 2 ** 32 - 1, 2 ** 64 - 1


def some_directory(chance, odd, apart):
    """A directory whose lengths are odd at times. Ids may stand behind the run before them."""
    entries, at = [], chance.choice([0, 0, 1, 5])
    for _ in range(chance.randrange(1, 5)):
        run = chance.choice([0, 0, 1, 1, 2, 5])
        room = 40 if run == 0 else 12
        offset = chance.randrange(room + 1)
        length = chance.choice([0, 1, 2, 5, 9, 13, GREAT]) if chance.random() < odd else chance.randrange(max(1, room - offset + 1))
        entries.append((at, offset, length, run))
        at += max(run if apart else 0, chance.choice([0, 1, 1, 2, 4]))
    return entries


def some_tile(chance, t):
    return t, chance.randrange(12), chance.randrange(1, 9), chance.randrange(1, 4)


def places_of(spelled):
    """Where directories lie one behind another, and how long they are."""
    return [(end - len(s), len(s)) for s, end in zip(spelled, accumulate(map(len, spelled)))]


def damaged(chance, root, leaves, data, odds, **fields):
    """The archive of these parts, in which a place of the header or a byte is another one at times, or the end is
    cut off."""
    if chance.random() < odds[0]:
        fields[chance.choice(pm.PLACES)] = chance.choice([0, 127, 16384, 16390, 2 ** 60, ALL])
    spelled = pm.directory(root)
    whole = pm.whole(spelled, b''.join(leaves), data, **fields)[0]
    if chance.random() < odds[1]:
        at = chance.choice([chance.randrange(127), chance.randrange(127, 127 + len(spelled)), chance.randrange(16398, len(whole))])
        whole = whole[:at] + bytes([chance.randrange(256)]) + whole[at + 1:]
    return whole[:chance.randrange(16380, len(whole))] if chance.random() < odds[2] else whole


def wild_archive(chance):
    """An archive whose directories may all break a rule."""
    leaves = [pm.directory(some_directory(chance, 0.3, False)) for _ in range(3)]
    data = bytes(chance.randrange(48, 58) for _ in range(12))
    root, t = [], 0
    for _ in range(chance.randrange(1, 5)):
        root.append((t, *chance.choice(places_of(leaves)), 0) if chance.random() < 0.7 else some_tile(chance, t))
        t += chance.randrange(0, 5)
    return damaged(chance, root, leaves, data, (0.2, 0.4, 0.15), tile=chance.choice([1, 1, 2]))


def random_archive(chance):
    """An archive that is sound more often."""
    kinds = [some_directory(chance, 0.2, True) for _ in range(3)]
    leaves = list(map(pm.directory, kinds))
    root, t = [], 0
    for _ in range(chance.randrange(1, 6)):
        if chance.random() < 0.5:
            i = chance.randrange(3)
            t = max(t, kinds[i][0][0] - chance.randrange(2))
            root.append((t, *places_of(leaves)[i], 0))
            t += chance.choice([3, 6, 9, 12])
        else:
            root.append(some_tile(chance, t))
            t += chance.randrange(1, 5)
    return damaged(chance, root, leaves, bytes(chance.randrange(48, 52) for _ in range(12)), (0.1, 0.3, 0.1))
