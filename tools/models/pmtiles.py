# PMTiles version 3 by its definition, in plain python: ids, varints, directories, headers, and archives that are
# written. The scripts beside it compute from it what the rows programs must print. Nothing here is taken from a
# program of this repository. tools/cases/archives_again.py lays ids and archives out a second time, and holds each
# archive against the one that is made here.
import functools
import struct

from models.hashes import xxh3

FRONT = 16384
# as many ids as the run of an entry may have
LONGEST = 2 ** 32 - 1


class ArchiveRefused(Exception):
    """An answer that isn't Ok, by its debug text."""


# Tile ids: a recursion on the four squares of a square.

def number(z, x, y):
    if z == 0:
        return 0
    k, side, area = z - 1, 1 << (z - 1), 1 << (2 * (z - 1))
    if x < side and y < side:
        return number(k, y, x)
    if x < side:
        return area + number(k, x, y - side)
    if y >= side:
        return 2 * area + number(k, x - side, y - side)
    return 3 * area + number(k, side - 1 - y, 2 * side - 1 - x)


def below(z):
    return (4 ** z - 1) // 3


def tile_id(z, x, y):
    return below(z) + number(z, x, y)


LAST = below(32) - 1

# Varints: seven bits a byte, the low part first.


def varint(n):
    out = b''
    while n >= 128:
        out += bytes([n % 128 + 128])
        n //= 128
    return out + bytes([n])


SMALL = [varint(n) for n in range(128)]


def read_varint(data, at, most, limit):
    value = 0
    for i in range(most):
        if at + i >= len(data):
            break
        byte = data[at + i]
        value += (byte % 128) << (7 * i)
        if byte < 128:
            if value >= limit:
                break
            return value, at + i + 1
    raise ArchiveRefused('InvalidEntry')


def read_u64(data, at):
    return read_varint(data, at, 10, 2 ** 64)


def read_u32(data, at):
    return read_varint(data, at, 5, 2 ** 32)

# Directories: entries (id, offset, length, run) in four columns.


@functools.lru_cache(maxsize=64)
def read_directory(data):
    count, at = read_u64(data, 0)
    if 4 * count > len(data) - at:
        raise ArchiveRefused('InvalidEntry')
    ids, runs, lengths, offsets = [], [], [], []
    last = 0
    for _ in range(count):
        step, at = read_u64(data, at)
        last += step
        if last >= 2 ** 64:
            raise ArchiveRefused('InvalidEntry')
        ids.append(last)
    for column in (runs, lengths):
        for _ in range(count):
            n, at = read_u32(data, at)
            column.append(n)
    for i in range(count):
        n, at = read_u64(data, at)
        if n > 0:
            offsets.append(n - 1)
            continue
        if i == 0 or offsets[-1] + lengths[i - 1] >= 2 ** 64:
            raise ArchiveRefused('InvalidEntry')
        offsets.append(offsets[-1] + lengths[i - 1])
    return list(zip(ids, offsets, lengths, runs))


def numbers(entries):
    """The numbers of a directory: the count, and four columns: ids by their rises, runs, lengths, and offsets, of which
    one at the end of the last entry is 0."""
    ids = [0] + [e[0] for e in entries]
    ends = [None] + [e[1] + e[2] for e in entries]
    return [len(entries), *(one - last for last, one in zip(ids, ids[1:])), *(e[3] for e in entries), *(e[2] for e in entries),
            *(0 if e[1] == end else e[1] + 1 for e, end in zip(entries, ends))]


def directory(entries):
    return b''.join([SMALL[n] if 0 <= n < 128 else varint(n) for n in numbers(entries)])


def scan(entries, t):
    found = None
    for e in entries:
        if e[0] <= t:
            found = e
    if found and (found[3] == 0 or t - found[0] < found[3]):
        return found
    return None

# Headers: 127 bytes, little endian.


PLACES = ['root_offset', 'root_length', 'metadata_offset', 'metadata_length', 'leaf_offset', 'leaf_length', 'data_offset', 'data_length',
          'addressed', 'entries', 'contents']
DEGREES = ['min_lon', 'min_lat', 'max_lon', 'max_lat']


def default_header():
    h = dict.fromkeys(PLACES, 0)
    h.update(version=3, root_offset=127, metadata_offset=16384, clustered=1, internal=1, tile=1, type=0, min_zoom=0, max_zoom=22,
             min_lon=-1800000000, min_lat=-850511290, max_lon=1800000000, max_lat=850511290, center_zoom=0, center_lon=0, center_lat=0)
    return h


def header(h):
    out = b'PMTiles' + bytes([h['version']]) + b''.join(struct.pack('<Q', h[p]) for p in PLACES)
    out += bytes([h['clustered'], h['internal'], h['tile'], h['type'], h['min_zoom'], h['max_zoom']])
    out += b''.join(struct.pack('<i', h[p]) for p in DEGREES)
    out += bytes([h['center_zoom']]) + struct.pack('<ii', h['center_lon'], h['center_lat'])
    assert len(out) == 127
    return out


def read_header(data):
    if len(data) < 7:
        raise ArchiveRefused('InvalidHeader')
    if data[:7] != b'PMTiles':
        raise ArchiveRefused('UnsupportedPmTilesVersion' if data[:2] == b'PM' else 'InvalidMagicNumber')
    if len(data) < 127:
        raise ArchiveRefused('InvalidHeader')
    if data[97] > 4 or data[98] > 4:
        raise ArchiveRefused('InvalidCompression')
    if data[99] > 6:
        raise ArchiveRefused('InvalidTileType')
    h = {'version': data[7]}
    for i, p in enumerate(PLACES):
        h[p] = struct.unpack_from('<Q', data, 8 + 8 * i)[0]
    h.update(clustered=data[96], internal=data[97], tile=data[98], type=data[99], min_zoom=data[100], max_zoom=data[101])
    for i, p in enumerate(DEGREES):
        h[p] = struct.unpack_from('<i', data, 102 + 4 * i)[0]
    h['center_zoom'] = data[118]
    h['center_lon'], h['center_lat'] = struct.unpack_from('<ii', data, 119)
    return h

# Archives that are written.


def entries_of_runs(runs, places):
    """The entries by rising id of runs (first id, count, bytes) in their order, each of fewer than 2^32 ids."""
    blocks = []
    for first, count, content in runs:
        if blocks and blocks[-1][2] == content and blocks[-1][0] + blocks[-1][1] == first:
            blocks[-1][1] += count
        else:
            blocks.append([first, count, content])
    return sorted((first + at, *places[content], min(count - at, LONGEST)) for first, count, content in blocks for at in range(0, count, LONGEST))


def entries_of(adds, places):
    """The same of adds (id, bytes)."""
    return entries_of_runs([(t, 1, d) for t, d in adds], places)


def cut(entries, size):
    return [entries[i:i + size] for i in range(0, len(entries), size)]


def named(place, directories):
    """An entry for each directory, these lying one behind another from a place on."""
    names = []
    for d in directories:
        length = len(directory(d))
        names.append((d[0][0], place, length, 0))
        place += length
    return names


def laid(entries, most):
    """The root, the leaves of at most so many entries, and the upper directories of the first size whose root fits."""
    if len(entries) < 16384 and len(directory(entries)) <= 16257:
        return entries, [], []
    leaves = cut(entries, most)
    names = named(0, leaves)
    if len(directory(names)) <= 16257:
        return names, leaves, []
    place, size = sum(map(len, map(directory, leaves))), most
    while True:
        uppers = cut(names, size)
        root = named(place, uppers)
        if len(directory(root)) <= 16257:
            return root, leaves, uppers
        size += size // 5


class Contents:
    """The contents that a writer has: the first one of each digest, and others by their bytes."""

    def __init__(self):
        self.firsts, self.others = {}, set()

    def calls(self, content):
        """The calls of the medium that an add makes: a read of the first content of its digest, where that has as
        many bytes, and a write where the content is new."""
        first = self.firsts.get(xxh3(content)) if content else content
        reads = ['read'] * (first is not None and content != b'' and len(first) == len(content))
        if content == first or content in self.others:
            return reads
        if first is None:
            self.firsts[xxh3(content)] = content
        else:
            self.others.add(content)
        return reads + ['write']


def front(h, root):
    """The first bytes of an archive: its header, its root and the room behind that."""
    return (header(h) + root).ljust(FRONT, b'\0')


def whole(root, leaf_part, contents, text=b'{}', /, **fields):
    """An archive by its parts, which lie one behind another, and its header."""
    h, data_offset = default_header(), FRONT + len(text)
    h.update(root_length=len(root), metadata_length=len(text), data_offset=data_offset, data_length=len(contents), leaf_offset=data_offset + len(contents), leaf_length=len(leaf_part))
    h.update(fields)
    return front(h, root) + text + contents + leaf_part, h


def archive(adds, metadata_text=b'{}', most=4096, **options):
    """The bytes of the archive of adds (id, bytes) with distinct ids, of at most so many entries in a leaf, and its
    places."""
    return archive_of_runs([(t, 1, d) for t, d in adds], metadata_text, most, **options)


def archive_of_runs(runs, metadata_text=b'{}', most=4096, **options):
    """The same of runs (first id, count, bytes)."""
    runs = [run for run in runs if run[1] and run[2]]
    places, length = {}, 0
    for _, _, content in runs:
        if content not in places:
            places[content] = (length, len(content))
            length += len(content)
    data = b''.join(places)
    entries = entries_of_runs(runs, places)
    root, leaves, uppers = laid(entries, most)
    root, leaf_part = directory(root), b''.join(map(directory, leaves + uppers))
    out, h = whole(root, leaf_part, data, metadata_text, **options, **({} if leaves else {'leaf_offset': 0}), addressed=sum(count for _, count, _ in runs), entries=len(entries), contents=len(places),
                   clustered=1 if all(a + n <= b for (a, n, _), (b, _, _) in zip(runs, runs[1:])) else 0)
    h['leaves'], h['uppers'] = len(leaves), len(uppers)
    h['length'] = len(out)
    return out, h
