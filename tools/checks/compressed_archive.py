# Makes of an archive one as other tools write it, with directories and metadata in gzip:
# compressed_archive.py ARCHIVE OUT [ENTRIES] Leaves have ENTRIES entries, of tiles or of leaves, and the root is the
# directory that is left; 0 puts all entries into the root. It reads by `tools/models/readers.py`.
import gzip
import os
import sys

sys.path.append(os.path.dirname(os.path.dirname(os.path.abspath(__file__))))
from models import pmtiles as pm  # noqa: E402
from models import readers  # noqa: E402


def packed(data):
    """Bytes in gzip, without the time."""
    return gzip.compress(data, mtime=0)


def laid(entries, size):
    """The root and the leaves of tile entries."""
    leaves = b''
    while size and len(entries) > size:
        upper = []
        for start in range(0, len(entries), size):
            leaf = packed(pm.directory(entries[start:start + size]))
            upper.append((entries[start][0], len(leaves), len(leaf), 0))
            leaves += leaf
        entries = upper
    return packed(pm.directory(entries)), leaves


with open(sys.argv[1], 'rb') as file:
    whole = file.read()
old, _ = readers.opened(whole)
tiles = list(readers.walk(whole, 1 << 40))
parts = dict(zip(('root', 'leaf'), laid(tiles, int((sys.argv[3:] or ['0'])[0]))))
parts['metadata'] = packed(readers.part(whole, old['metadata_offset'], 0, old['metadata_length']))
parts['data'] = readers.part(whole, old['data_offset'], 0, old['data_length'])
new, at, body = dict(old, internal=2), 127, b''
for name in ('root', 'metadata', 'leaf', 'data'):
    new[name + '_offset'], new[name + '_length'] = at, len(parts[name])
    at += len(parts[name])
    body += parts[name]
with open(sys.argv[2], 'wb') as file:
    file.write(pm.header(new) + body)
