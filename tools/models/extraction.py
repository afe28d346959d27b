# A part of an archive, as that below a tile, by its definition: the archive that an extraction makes, its outcome, and
# how often it asks its source and its medium.
from models import pmtiles as pm
from models import readers
from models import shown

U32, U64 = 2 ** 32, 2 ** 64
ALL = U64 - 1
LABELS = {'tile', 'type', 'min_lon', 'min_lat', 'max_lon', 'max_lat', 'center_zoom', 'center_lon', 'center_lat'}


class Ends(Exception):
    """An outcome that isn't Done, by its debug text, and its status."""


class Calls:
    """An object whose call with a number fails, 0 for none; how many calls were made."""

    def __init__(self, fails, fault):
        self.fails, self.fault, self.calls = fails, fault, 0

    def call(self):
        self.calls += 1
        if self.calls == self.fails:
            raise Ends(self.fault, 6)

    def read(self, base, offset, length):
        """A range is read where its end is within u64."""
        if base + offset + length < U64:
            self.call()


def refused(error):
    raise Ends(f'Refused({error})', 1)


def of_archive(call):
    """What a part of the source gives, or its refusal."""
    try:
        return call()
    except pm.ArchiveRefused as refusal:
        refused(f'Archive({refusal})')

# Words.


def number(text, most):
    """A decimal number without a sign or a leading zero, from 0 to a limit."""
    if not text or any(c not in '0123456789' for c in text) or (len(text) > 1 and text[0] == '0') or int(text) > most:
        return None
    return int(text)


def asked(words):
    """The zoom, column and row of a tile, the greatest zoom and the limit of tiles."""
    if len(words) != 5:
        return None
    z = number(words[0], 31)
    if z is None:
        return None
    numbers = [z] + [number(w, most) for w, most in zip(words[1:], (2 ** z - 1, 2 ** z - 1, 255, ALL))]
    return None if None in numbers else numbers

# The part of an archive below a tile.


def spans(z, x, y, greatest):
    """The first and the last id of a tile's descendants at each zoom."""
    n = pm.number(z, x, y)
    return [(pm.below(k) + n * 4 ** (k - z), pm.below(k) + (n + 1) * 4 ** (k - z) - 1) for k in range(z, greatest + 1)]


def is_met(wanted, first, end):
    """Whether an id from one on and below an end lies in the spans."""
    return any(a <= b for a, b in ((max(first, s[0]), s[1] if end is None else min(end - 1, s[1])) for s in wanted))


def walk(source, data, h, entries, low, limit, depth, wanted):
    """The tile entries of a directory and of the leaves below it that are met, each entry being tested before what it
    leads to is read."""
    last = None
    for i, e in enumerate(entries):
        end = entries[i + 1][0] if i + 1 < len(entries) else limit
        rises = last is None or last < e[0]
        inside = low <= e[0] and (limit is None or e[0] < limit) and (end is None or e[0] + e[3] <= end)
        if not rises or not inside or (depth == 6 if e[3] == 0 else e[0] + e[3] - 1 > pm.LAST):
            refused('Archive(InvalidEntry)')
        last = e[0]
        if e[3] > 0:
            yield e
        elif is_met(wanted, e[0], end):
            source.read(h['leaf_offset'], e[1], e[2])
            leaf = of_archive(lambda: readers.leaf(data, h, e))
            yield from walk(source, data, h, leaf, e[0], end, depth + 1, wanted)


def clipped(entries, wanted):
    """The parts of tile entries of at least one byte that lie in the spans."""
    parts = []
    for t, offset, length, run in entries:
        for first, last in wanted:
            a, b = max(t, first), min(t + run - 1, last)
            if length > 0 and a <= b:
                parts.append((a, offset, length, b - a + 1))
    return parts


class Run:
    """One extraction: what the medium holds afterwards is the bytes from before, an archive that isn't shown yet
    (None), or a whole one."""

    def __init__(self, data, begun, source_fails, medium_fails):
        self.data, self.begun, self.held = data, begun, begun
        self.source = Calls(source_fails, 'Refused(Archive(Reading(Fault)))')
        self.medium = Calls(medium_fails, 'Refused(MediumFault)')

    def write(self):
        """A write, after which the medium holds something that no reader takes for an archive."""
        self.medium.call()
        self.held = None

    def parts(self, wanted, most):
        h, root = of_archive(lambda: readers.opened(self.data))
        self.source.read(0, h['metadata_offset'], h['metadata_length'])
        text = of_archive(lambda: readers.metadata(self.data)).encode()
        parts = clipped(list(walk(self.source, self.data, h, root, 0, None, 0, wanted)), wanted)
        if sum(p[3] for p in parts) > most:
            refused(f'TooManyTiles({most})')
        return h, text, parts

    def add(self, h, parts):
        """The runs of parts, each read once from the source, and the calls of the medium that they make."""
        runs, known = [], pm.Contents()
        for first, offset, length, run in parts:
            self.source.read(h['data_offset'], offset, length)
            content = of_archive(lambda: readers.part(self.data, h['data_offset'], offset, length))
            for call in known.calls(content):
                self.write() if call == 'write' else self.medium.call()
            runs.append((first, run, content))
        return runs

    def extract(self, z, x, y, greatest, most):
        """The archive of a tile and its descendants."""
        return self.extract_part(lambda: spans(z, x, y, greatest), z, greatest, most)

    def extract_part(self, wanted, least, greatest, most):
        """The archive of the tiles in the intervals that a call gives."""
        if not least <= greatest <= 31:
            refused(f'InvalidZoom {{ tile: {least}, asked: {greatest} }}')
        self.medium.call()
        if self.begun:
            refused(f'MediumNotEmpty {{ length: {len(self.begun)} }}')
        self.source.call()
        h, text, parts = self.parts(wanted(), most)
        for _ in ('room for the root', 'metadata'):
            self.write()
        runs = self.add(h, parts)
        archive, places = pm.archive_of_runs(runs, text, min_zoom=least, max_zoom=greatest, **{name: h[name] for name in LABELS})
        for _ in ('leaves', 'root', 'header', 'label of directories'):
            self.write()
        self.held = archive
        return shown.places(places)

    def result(self, call):
        """The text of a result."""
        try:
            return f'Ok({call()})'
        except Ends as end:
            return 'Err(' + end.args[0][len('Refused('):]

    def outcome(self, words):
        """The text of an outcome and its status."""
        found = asked(words)
        if found is None:
            return 'Usage', 2
        try:
            return f'Done({self.extract(*found)})', 0
        except Ends as end:
            return end.args


def label(held):
    """Byte 97, where there is one."""
    return 'Some(0)' if held is None else f'Some({held[97]})' if len(held) > 97 else 'None'
