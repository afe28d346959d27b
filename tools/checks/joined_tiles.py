#!/usr/bin/env python3
"""Compares an archive with those that it was joined of: joined_tiles.py JOINED IN .. Each tile has to be that of the last
archive that has it, and no other tile may be there. Prints how many there are."""
import os
import sys

sys.path.append(os.path.dirname(os.path.dirname(os.path.abspath(__file__))))
from models import readers  # noqa: E402


def tiles_of(path):
    with open(path, "rb") as file:
        data = file.read()
    header, _ = readers.opened(data)
    found = {}
    for first, offset, length, run in readers.walk(data, 1 << 40):
        content = readers.part(data, header["data_offset"], offset, length)
        found.update(dict.fromkeys(range(first, first + run), content))
    return found


wanted = {}
for name in sys.argv[2:]:
    wanted.update(tiles_of(name))
found = tiles_of(sys.argv[1])
assert found == wanted, f"{len(found)} tiles in the archive, {len(wanted)} in those that it was made of"
print(len(found))
