"""Ids and archives laid out a second time, apart from tools/models/pmtiles.py, each archive held against the one that is made there.

So an error in one of the two alone fails.
"""
import functools
import struct

from models import pmtiles
from models.scripts import defaults, parsed
from models.sets import converted

MAX_ROOT = 16384 - 127


def within(z, x, y):
    """The number of a tile within its zoom: a recursion on quadrants."""
    if z == 0:
        return 0
    s, a = 1 << (z - 1), 1 << (2 * (z - 1))
    if x < s and y < s:
        return within(z - 1, y, x)
    if x < s:
        return a + within(z - 1, x, y - s)
    if y >= s:
        return 2 * a + within(z - 1, x - s, y - s)
    return 3 * a + within(z - 1, s - 1 - y, 2 * s - 1 - x)


def below(z):
    return (4 ** z - 1) // 3


def tile_id(z, x, y):
    return below(z) + within(z, x, y)


def coord(number):
    """The tile of an id: the quadrants of the recursion, taken back one after another."""
    z = 0
    while below(z + 1) <= number:
        z += 1

    def place(z, n):
        if z == 0:
            return 0, 0
        s, a = 1 << (z - 1), 1 << (2 * (z - 1))
        q, (x, y) = n // a, place(z - 1, n % a)
        return [(y, x), (x, y + s), (x + s, y + s), (2 * s - 1 - y, s - 1 - x)][q]

    return (z, *place(z, number - below(z)))


@functools.lru_cache(65536)
def varint(n):
    if n < 128:
        return n.to_bytes(1, "little")
    out = bytearray()
    while n >= 128:
        out.append(n % 128 + 128)
        n //= 128
    out.append(n)
    return bytes(out)


def spelled(entries):
    """The bytes of a directory: its count and four columns."""
    out = [varint(len(entries))]
    last = 0
    for number, _, _, _ in entries:
        out.append(varint(number - last))
        last = number
    out += [varint(run) for _, _, _, run in entries]
    out += [varint(length) for _, _, length, _ in entries]
    end = None
    for _, offset, length, _ in entries:
        out.append(varint(0 if offset == end else offset + 1))
        end = offset + length
    return b"".join(out)


def cut(entries, size, at):
    """Directories of so many entries, the last shorter, and an entry for each, the first of them at this place."""
    parts, named = [], []
    for k in range(0, len(entries), size):
        part = spelled(entries[k:k + size])
        named.append((entries[k][0], at, len(part), 0))
        parts.append(part)
        at += len(part)
    return parts, named


def archive(options, adds):
    """The bytes of an archive and its numbers, from pairs of an id and bytes by rising id."""
    data, offsets, entries, last = bytearray(), {}, [], None
    for number, content in adds:
        if content not in offsets:
            offsets[content] = len(data)
            data += content
        if last == (number - 1, content):
            first, offset, length, run = entries[-1]
            entries[-1] = first, offset, length, run + 1
        else:
            entries.append((number, offsets[content], len(content), 1))
        last = number, content
    root, leaves, uppers = spelled(entries), [], []
    if len(entries) >= 16384 or len(root) > MAX_ROOT:
        size = most = options["max-leaf-entries"]
        leaves, named = cut(entries, most, 0)
        root = spelled(named)
        while len(root) > MAX_ROOT:
            uppers, above = cut(named, size, sum(map(len, leaves)))
            root = spelled(above)
            size += size // 5
    leaf, meta = b"".join(leaves + uppers), options["metadata"]
    data_offset = 16384 + len(meta)
    leaf_offset = data_offset + len(data) if leaf else 0
    label = options["tile-compression"] or (2 if options["type"] == 1 else 1)
    if options["tile-compression"] == 0:
        label = 0
    head = b"PMTiles" + struct.pack(
        "<B11QBBBBBB4iB2i", 3, 127, len(root), 16384, len(meta), leaf_offset, len(leaf), data_offset, len(data),
        len(adds), len(entries), len(offsets), 1, options["internal-compression"], label, options["type"],
        options["min-zoom"], options["max-zoom"], *options["bounds"], options["center-zoom"], *options["center"])
    assert len(head) == 127
    whole = (head + root).ljust(16384, b"\0") + meta + data + leaf
    assert whole == other_archive(options, label, adds)
    numbers = [
        ("addressed", len(adds)), ("entries", len(entries)), ("contents", len(offsets)), ("length", len(whole)),
        ("root", len(root)), ("leaves", len(leaves)), ("uppers", len(uppers)), ("leaf-offset", leaf_offset), ("leaf-length", len(leaf)),
        ("data-offset", data_offset), ("data-length", len(data))]
    return whole, numbers


def other_archive(options, label, adds):
    """The same by tools/models/pmtiles.py."""
    names = ["min_lon", "min_lat", "max_lon", "max_lat", "center_lon", "center_lat"]
    places = dict(zip(names, [*options["bounds"], *options["center"]]))
    return pmtiles.archive(adds, options["metadata"], options["max-leaf-entries"], internal=options["internal-compression"], tile=label, type=options["type"],
                           min_zoom=options["min-zoom"], max_zoom=options["max-zoom"], center_zoom=options["center-zoom"], **places)[0]


def adds_of(tiles):
    return sorted((tile_id(z, x, 2 ** z - 1 - line), content) for (z, x, line), content in tiles.items() if content)


def dump(whole):
    out = []
    for at in range(0, len(whole), 32):
        if any(whole[at:at + 32]):
            out.append(f"{at:08x} {whole[at:at + 32].hex()}\n")
    return "".join(out)


def report(script, state):
    """The lines without the bytes, the dump of the bytes, and the bytes."""
    adds = adds_of(state.tiles)
    found = dict(adds)
    whole, numbers = archive(script.options, adds)
    lines = [f"tile {z}/{x}/{y} {found[tile_id(z, x, y)].hex() if tile_id(z, x, y) in found else 'none'}\n" for z, x, y in script.queries]
    lines.append(f"aggregate {state.aggregate().decode()}\n")
    lines += [f"{name} {count}\n" for name, count in numbers[:4]]
    return "".join(lines), dump(whole), whole


def report_of(script):
    """The report of a script that is refused nothing."""
    script = parsed(script.encode())
    return report(script, converted(script.stores, script.options["force"], script.options["verify"]))


def bulk(tiles, repeat, most=None):
    whole, numbers = archive({**defaults(), "max-leaf-entries": most or 4096}, [(k, b"%d" % (k // repeat)) for k in range(tiles)])
    return "".join(f"{name} {count}\n" for name, count in numbers if most or name != "uppers"), whole
