"""Writes what library_examples prints: the lines of its examples, out of the set that they begin with.

    tools/make_cases library_examples
"""
import os

from cases.rows import TOP
from models.hashes import xxh3

WORLD = {(0, 0, 0): b'world', (1, 0, 0): b'north west', (1, 1, 0): b'north east', (1, 0, 1): b'south', (1, 1, 1): b'south'}


def lines():
    """The line of each example, in their order."""
    patched = {**WORLD, (1, 1, 0): b'north east, new'}
    yield f'converted: {len(patched)} tiles, {len(set(patched.values()))} contents'
    yield f'read: {WORLD[1, 0, 0].decode()}'
    yield f'patched: the world, new, others kept: {str((1, 0, 0) in WORLD).lower()}'
    west = {place for place in WORLD if place[0] == 1 and place[1] == 0}
    yield f'copied: the south west {str((1, 0, 1) in west).lower()}, the south east {str((1, 1, 1) in west).lower()}'
    yield 'extracted: VerifyReport { directories: 0, addressed: 1, entries: 1, contents: 1 }'
    tile = WORLD[0, 0, 0]
    yield f'served: 200 {xxh3(tile):016X} {tile.hex()}'
    yield 'cached: there true, expired 1'


def main():
    with open(os.path.join(TOP, 'crates/library_examples/stdout'), 'w', encoding='ascii') as file:
        file.write(''.join(f'{line}\n' for line in lines()))


if __name__ == '__main__':
    main()
