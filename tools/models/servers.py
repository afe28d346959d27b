# A server of tiles by the definition of its replies: what a line is answered, what is held then, and how often the
# archive is read.
from models import hashes
from models import pmtiles as pm
from models import readers

def spelled(text):
    return text.replace(' ', '_').replace('\n', '/')


def number(text, limit):
    """A decimal number without a leading zero, from 0 to a limit."""
    if not text or any(c not in '0123456789' for c in text) or (len(text) > 1 and text[0] == '0') or int(text) > limit:
        return None
    return int(text)


def request(line):
    """The id and the tag that a line asks for."""
    words = line.split(' ')
    if words[0] != 'GET' or len(words) not in (4, 5):
        return None
    z = number(words[1], 31)
    if z is None:
        return None
    x, y = number(words[2], 2 ** z - 1), number(words[3], 2 ** z - 1)
    if x is None or y is None:
        return None
    tag = words[4] if len(words) == 5 else ''
    if len(words) == 5 and (len(tag) != 16 or any(c not in '0123456789ABCDEF' for c in tag)):
        return None
    return pm.tile_id(z, x, y), tag


def tag_of(data):
    return f'{hashes.xxh3(data):016X}'


def tile_reply(data, tag):
    if not data:
        return '404'
    return f'304 {tag}' if tag == tag_of(data) else f'200 {tag_of(data)} {data.hex()}'


def replied(line, tile):
    """The reply to a line, whose tile is asked for by its id."""
    asked = request(line)
    if not asked:
        return '400'
    try:
        return tile_reply(tile(asked[0]), asked[1])
    except pm.ArchiveRefused as refusal:
        return '500 ' + ('InvalidEntry' if str(refusal) == 'InvalidEntry' else 'PastEnd')


def reply(data, line):
    """The reply by the bytes of the archive alone."""
    return replied(line, lambda t: readers.archive_tile(data, t))


class Fault(Exception):
    pass


class Server:
    """Reads are counted; directories are (place, entries), tiles are (id, bytes), the latest used first."""

    def __init__(self, data, limits, fails=()):
        self.data, self.fails, self.calls = data, fails, 0
        self.most_directories, self.most_entries, self.most_tiles, self.most_bytes = limits
        self.directories, self.tiles = [], []
        self.read()
        self.header, self.root = readers.opened(data)

    def read(self, length=None):
        """A read of a range of so many bytes, or that of opening."""
        self.calls += 1
        if self.calls in self.fails:
            raise Fault

    def leaf(self, e):
        place = self.header['leaf_offset'] + e[1]
        for i, held in enumerate(self.directories):
            if held[0] == place:
                self.directories.insert(0, self.directories.pop(i))
                return held[1]
        self.read(e[2])
        entries = readers.leaf(self.data, self.header, e)
        if len(entries) <= self.most_entries:
            self.directories = [(place, entries)] + self.directories[:self.most_directories - 1]
            while sum(len(d) for _, d in self.directories) > self.most_entries:
                self.directories.pop()
        return entries

    def tile(self, t):
        for i, held in enumerate(self.tiles):
            if held[0] == t:
                self.tiles.insert(0, self.tiles.pop(i))
                return held[1]
        found = pm.scan(self.root, t)
        for _ in range(6):
            if found and found[3] == 0:
                found = pm.scan(self.leaf(found), t)
        if not found or found[3] == 0:
            return None
        self.read(found[2])
        data = readers.part(self.data, self.header['data_offset'], found[1], found[2])
        if data and len(data) <= self.most_bytes:
            self.tiles = [(t, data)] + self.tiles[:self.most_tiles - 1]
            while self.held() > self.most_bytes:
                self.tiles.pop()
        return data

    def held(self):
        return sum(len(d) for _, d in self.tiles)

    def answer(self, line):
        return replied(line, self.tile)
