"""Makes a PMTiles version 3 archive whose directories and metadata are compressed plain: plain_archive.py IN OUT

OUT has the tiles of IN byte for byte, under the same ids, with the same header but for the places of its parts. It is
read again before this ends. The command `pmtiles-plain` calls it, and then has the archive verified.
"""
import array
import hashlib
import json
import os
import struct
import subprocess
import sys
import zlib

from python_said import end_by_interrupts

HEADER = struct.Struct('<7sB11Q6B4iB2i')
ROOT_END = 16384
DEEPEST = 6
IDS = 1 << 64
MOST = 1 << 31
PIECE = 1 << 20
PLAIN = 1
COMMANDS = {3: ['brotli', '-d', '-c'], 4: ['zstd', '-d', '-q', '-c']}


class Refused(Exception):
    """Why no plain archive is made, with the status that the command ends with."""

    def __init__(self, words, status=1):
        super().__init__(words)
        self.status = status


def gunzipped(data):
    """The bytes of one gzip member."""
    inflater = zlib.decompressobj(31)
    try:
        plain = inflater.decompress(data, MOST)
    except zlib.error as error:
        raise Refused(f'a directory or the metadata is no gzip: {error}') from error
    if not inflater.eof or inflater.unused_data:
        raise Refused('a directory or the metadata is no whole gzip, or longer than 2 GiB')
    return plain


def decompressed(data, compression):
    """The bytes that a compression of the header says were compressed."""
    if compression in (0, PLAIN) or not data:
        return data
    if compression == 2:
        return gunzipped(data)
    if compression not in COMMANDS:
        raise Refused(f'the compression of directories, {compression}, is none of the format')
    command = COMMANDS[compression]
    try:
        done = subprocess.run(command, input=data, capture_output=True, check=False)
    except OSError as error:
        raise Refused(f'directories are compressed for the command {command[0]}, which is not there', 10) from error
    if done.returncode:
        raise Refused(f'{command[0]} refuses a directory or the metadata')
    return done.stdout


def numbers(data):
    """The varints of a directory."""
    value = shift = 0
    for byte in data:
        value |= (byte & 127) << shift
        shift += 7
        if byte < 128:
            yield value
            value = shift = 0
        elif shift > 63:
            raise Refused('a number of a directory is longer than 64 bits')
    if shift:
        raise Refused('a directory ends inside a number')


def columns(data):
    """The entries of a directory: their ids, offsets, lengths and runs."""
    values = list(numbers(data))
    count = values[0] if values else 0
    if len(values) != 4 * count + 1:
        raise Refused('a directory has another number of entries than it says')
    ids, offsets, last = [], [], 0
    runs, lengths = values[1 + count:1 + 2 * count], values[1 + 2 * count:1 + 3 * count]
    for at in range(count):
        last += values[1 + at]
        ids.append(last)
        offset = values[1 + 3 * count + at]
        if not offset and not at:
            raise Refused('the first entry of a directory has no offset')
        offsets.append(offset - 1 if offset else offsets[-1] + lengths[at - 1])
    return ids, offsets, lengths, runs


class Entries:
    """All tile entries of an archive, in 24 bytes each."""

    def __init__(self):
        self.ids, self.offsets = array.array('Q'), array.array('Q')
        self.lengths, self.runs = array.array('I'), array.array('I')

    def __len__(self):
        return len(self.ids)

    def __eq__(self, other):
        return self.parts() == other.parts()

    def parts(self):
        """The four columns."""
        return self.ids, self.offsets, self.lengths, self.runs

    def add(self, entry):
        """Puts an entry behind the others, whose tiles come before its own."""
        if self.ids and entry[0] < self.ids[-1] + self.runs[-1]:
            raise Refused('the entries are not in the order of their ids')
        for column, value in zip(self.parts(), entry):
            try:
                column.append(value)
            except OverflowError as error:
                raise Refused('an entry has a number that is too large') from error

    def directory(self, start, end):
        """The directory of the entries from one number to another."""
        out, last, behind = [end - start], 0, None
        for at in range(start, end):
            out.append(self.ids[at] - last)
            last = self.ids[at]
        out += self.runs[start:end]
        out += self.lengths[start:end]
        for at in range(start, end):
            out.append(0 if self.offsets[at] == behind else self.offsets[at] + 1)
            behind = self.offsets[at] + self.lengths[at]
        return spelled(out)


def spelled(values):
    """Numbers as varints."""
    out = bytearray()
    for value in values:
        while value > 127:
            out.append(value & 127 | 128)
            value >>= 7
        out.append(value)
    return bytes(out)


class Archive:
    """An archive that is read."""

    def __init__(self, path):
        self.file = open(path, 'rb')
        head = self.file.read(HEADER.size)
        if len(head) < HEADER.size or head[:7] != b'PMTiles' or head[7] != 3:
            raise Refused(f'{path} is no PMTiles archive of version 3')
        fields = HEADER.unpack(head)
        self.root, self.metadata, self.leaves, self.data = (tuple(fields[at:at + 2]) for at in (2, 4, 6, 8))
        self.rest = list(fields[10:])
        self.compression = self.rest[4]
        self.stamp = self.stamped()
        self.size = self.stamp[0]

    def stamped(self):
        """How long the file is, and when it was written last."""
        found = os.fstat(self.file.fileno())
        return found.st_size, found.st_mtime_ns, found.st_ctime_ns

    def part(self, offset, length, what):
        """The bytes at a place of the file."""
        if length > MOST or offset + length > self.size:
            raise Refused(f'{what} lies beyond the end of the archive')
        self.file.seek(offset)
        return self.file.read(length)

    def plain(self, part, what):
        """The bytes of a part, decompressed."""
        return decompressed(self.part(*part, what), self.compression)

    def entries(self):
        """All tile entries, in order."""
        found = Entries()
        self.walk(self.plain(self.root, 'the root'), found, 0, range(IDS))
        return found

    def walk(self, directory, found, depth, ids):
        """Adds the tile entries of a directory and of those below it. A reader looks for some ids there alone, so that it
        finds no tile of other ones."""
        if depth > DEEPEST:
            raise Refused('directories lie deeper than six below the root')
        entries = list(zip(*columns(directory)))
        for at, entry in enumerate(entries):
            end = entries[at + 1][0] if at + 1 < len(entries) else ids.stop
            if not ids.start <= entry[0] <= entry[0] + entry[3] <= end <= ids.stop:
                raise Refused(f'the entry of id {entry[0]} is out of order, or lies where no reader finds it')
            if entry[3]:
                if entry[1] + entry[2] > self.data[1]:
                    raise Refused(f'the tile of id {entry[0]} lies beyond the tile data')
                found.add(entry)
                continue
            if entry[1] + entry[2] > self.leaves[1]:
                raise Refused('a leaf lies beyond the leaf directories')
            leaf = self.part(self.leaves[0] + entry[1], entry[2], 'a leaf')
            self.walk(decompressed(leaf, self.compression), found, depth + 1, range(entry[0], end))

    def pieces(self):
        """The tile data, piece by piece."""
        offset, left = self.data
        if offset + left > self.size:
            raise Refused('the tile data end beyond the end of the archive')
        self.file.seek(offset)
        while left:
            piece = self.file.read(min(left, PIECE))
            if not piece:
                raise Refused('the archive became shorter while it was read')
            left -= len(piece)
            yield piece


def directories(entries):
    """The root and the leaves of entries: a root of tile entries where it fits, else one of leaves."""
    root = entries.directory(0, len(entries)) if len(entries) <= ROOT_END // 4 else None
    if root is not None and HEADER.size + len(root) <= ROOT_END:
        return root, b''
    size = 4096
    while True:
        upper, leaves = Entries(), bytearray()
        for start in range(0, len(entries), size):
            leaf = entries.directory(start, min(start + size, len(entries)))
            upper.ids.append(entries.ids[start])
            upper.offsets.append(len(leaves))
            upper.lengths.append(len(leaf))
            upper.runs.append(0)
            leaves += leaf
        root = upper.directory(0, len(upper))
        if HEADER.size + len(root) <= ROOT_END:
            return root, bytes(leaves)
        size *= 2


def no_number(word):
    """Refuses what Python reads as a number and JSON doesn't."""
    raise ValueError(f'{word} is no number')


def metadata_of(source):
    """The metadata of an archive, decompressed, which have to be JSON in UTF-8."""
    metadata = source.plain(source.metadata, 'the metadata')
    try:
        json.loads((metadata or b'{}').decode('utf-8'), parse_int=str, parse_constant=no_number)
    except ValueError as error:
        raise Refused(f'the metadata are no JSON in UTF-8: {error}') from error
    except RecursionError as error:
        raise Refused('the metadata are nested too deep') from error
    return metadata or b'{}'


def write(source, entries, path):
    """Writes the plain archive; gives the digest of the tile data."""
    metadata = metadata_of(source)
    root, leaves = directories(entries)
    data = source.data[1]
    behind = ROOT_END + len(metadata) + data
    places = (HEADER.size, len(root), ROOT_END, len(metadata), behind if leaves else 0, len(leaves), ROOT_END + len(metadata), data)
    rest = list(source.rest)
    rest[4] = PLAIN
    digest = hashlib.sha256()
    with open(path, 'xb') as out:
        out.write((HEADER.pack(b'PMTiles', 3, *places, *rest) + root).ljust(ROOT_END, b'\0') + metadata)
        for piece in source.pieces():
            digest.update(piece)
            out.write(piece)
        out.write(leaves)
        out.flush()
        os.fsync(out.fileno())
    return digest.digest()


def make(source_path, path):
    """Makes the plain archive, and reads it again; gives the number of its tiles and entries."""
    source = Archive(source_path)
    entries = source.entries()
    digest = write(source, entries, path)
    if source.stamped() != source.stamp:
        raise Refused(f'{source_path} was changed while it was read; try again once no program writes it')
    again, seen = Archive(path), hashlib.sha256()
    for piece in again.pieces():
        seen.update(piece)
    if again.entries() != entries or seen.digest() != digest:
        raise Refused(f'{path} reads otherwise than it was written', 9)
    return sum(entries.runs), len(entries)


def main():
    """The command: its words are the paths of the archive and of the new file."""
    try:
        tiles, entries = make(*sys.argv[1:])
    except Refused as error:
        print(f'pmtiles-plain: {error}', file=sys.stderr)
        return error.status
    except OSError as error:
        print(f'pmtiles-plain: {error.filename or "OUT"}: {error.strerror}', file=sys.stderr)
        return 6
    except MemoryError:
        print('pmtiles-plain: out of memory', file=sys.stderr)
        return 7
    print(f'{tiles} tiles in {entries} entries')
    return 0


if __name__ == '__main__':
    end_by_interrupts()
    sys.exit(main())
