# Archives that the cases of several programs read: of one tile, of trees of directories, and with another root.
from models import pmtiles as pm


ONE = pm.archive([(0, b'0')])[0]
OF_ZOOM_ONE = pm.archive([(0, b'0'), (1, b'0')])[0]


def root_of(entries_or_bytes, data=ONE, **fields):
    """An archive with another root, and other fields of its header."""
    root = entries_or_bytes if isinstance(entries_or_bytes, bytes) else pm.directory(entries_or_bytes)
    h = pm.read_header(data)
    h.update(root_length=len(root))
    h.update(fields)
    return pm.front(h, root) + data[pm.FRONT:]


CYCLE = root_of([(0, 0, 5, 0)], ONE[:pm.FRONT] + pm.directory([(0, 0, 5, 0)]), leaf_offset=pm.FRONT)
# roots that break a rule, with fields of their headers
HOSTILE = [('0100010101', {'root_offset': 126}), ('0100010101', {'root_length': 2 ** 64 - 1}), ('0200010101', {}), ('0100010100', {}),
           ('02ffffffffffffffffff0101010101010100', {}), ('0100010201', {}), ('0100010102', {'data_offset': 2 ** 64 - 1}), ('020000010101010101', {}),
           ('01d5aad5aad5aad5aa55010101', {}), ('80808080808080808010', {}), ('00', {}), ('0100000101', {'leaf_offset': 2 ** 64 - 1}),
           ('0100000102', {'leaf_offset': 2 ** 64 - 1}), ('0100010101', {'data_offset': 2 ** 64 - 1}), ('0100000101', {}), ('0100ffffffff0f0101', {})]
TWICE = root_of(bytes.fromhex('020000010101010101'))


def tree(leaves, contents, most=None, text=b'{}', **fields):
    """An archive whose root names leaves of entries, through one more directory for each number of `most`, which is
    how many names it may have."""
    leaf_part, level = b''.join(map(pm.directory, leaves)), pm.named(0, leaves)
    for size in most or ():
        level = pm.cut(level, size)
        names, leaf_part = pm.named(len(leaf_part), level), leaf_part + b''.join(map(pm.directory, level))
        level = names
    return pm.whole(pm.directory(level), leaf_part, contents, text, **fields)[0]


def nested(depth):
    """An archive whose root leads through so many leaves, one below another, to the tiles 0 and 3."""
    entries = [(0, 0, 1, 1), (3, 1, 1, 2)]
    return tree([entries], b'ab', most=(1,) * (depth - 1)) if depth else pm.whole(pm.directory(entries), b'', b'ab')[0]


def some_leaves(count=12, size=7):
    """Leaves of tile entries: runs over ids, gaps, entries without a byte, and contents that several entries share."""
    leaves, t = [], 0
    contents = bytes(range(48, 48 + 20))
    for leaf in range(count):
        entries = []
        for i in range(size):
            run = (leaf + i) % 3 + 1 + 4 * (i == 6)
            entries.append((t, (leaf * 5 + i * 3) % 17, (leaf + i) % 4, run))
            t += run + (i % 3 == 2)
        leaves.append(entries)
    return leaves, contents


TREES = [(), (3,), (5, 2), (4, 2, 1), (1, 1, 1, 1), (1, 1, 1, 1, 1), (1, 1, 1, 1, 1, 1)]
