# What patches make of the tables of a set, by the rules of patches, for tools/cases/set_rows.py and
# tools/models/bases.py. tools/models/sets.py has these rules a second time, on sets that are loaded;
# tools/models/bases.py holds one against the other.
import functools
from bisect import bisect_left, bisect_right

from models import shown
from models.hashes import digest
from models.names import AFTER, AGG, BEFORE, CONTENT_TABLES, DATA_COLUMNS, TILE_TABLES


class PatchRefused(Exception):
    pass


class State:
    """What the tables of a set hold, which are known to pass all tests of loading."""

    def __init__(self, layout, tables, patch_type=None):
        self.layout, self.patch_type = layout, patch_type
        self.names = {name[1:]: None if value == 'n' else value[1:] for name, value in tables['metadata'] if name != 'n'}
        self.algorithm = (self.names.get('hash_algorithm') or 'md5').lower()
        self.contents = {c[0]: c[1] for c in tables.get(CONTENT_TABLES.get(layout), []) if c[0] != 'n'}
        self.tiles, self.ids = {}, {}
        for cells in tables[TILE_TABLES[layout]]:
            if layout in CONTENT_TABLES:
                if cells[3] == 'n':
                    continue
                self.ids[self.place(cells)] = cells[3]
            self.tiles[self.place(cells)] = self.contents[cells[3]] if layout in CONTENT_TABLES else cells[DATA_COLUMNS[layout]]

    @staticmethod
    def place(cells):
        return tuple(int(c[1:]) for c in cells[:3])


def text(t):
    return shown.text(t)


def tests(base, patch, force):
    """The first refusal, in the order of the tests."""
    if patch.patch_type:
        raise PatchRefused('UnsupportedPatchType')
    agg, before, after = base.names.get(AGG), patch.names.get(BEFORE), patch.names.get(AFTER)
    if not force and after is None:
        raise PatchRefused('PatchFileHasNoHashes')
    if not force and before is None:
        raise PatchRefused('PatchFileHasNoBeforeHash')
    if base.layout in ('cache', 'dedup-id'):
        raise PatchRefused('UnsupportedCopyOperation')
    if not force and agg is None:
        raise PatchRefused('CannotDiffFileWithoutHash')
    if not force and (base.names.get(BEFORE) is not None or base.names.get(AFTER) is not None):
        raise PatchRefused('DiffingDiffFile')
    if not force and before != agg:
        raise PatchRefused(f'AggHashMismatchWithDiff {{ before_apply_hash: {text(before)}, agg_hash: {text(agg)} }}')
    if base.algorithm != patch.algorithm:
        raise PatchRefused(f'UnsupportedHashAlgorithm {{ algorithm: {text(patch.algorithm)} }}')
    if base.layout in CONTENT_TABLES:
        put = [cell for _, cell in sorted(patch.tiles.items()) if cell != 'n']
        ids = {cell: digest(base.algorithm, bytes.fromhex(cell[1:])) for cell in put}
        for cell in put:
            stands = base.contents.get('t' + ids[cell])
            if stands not in (None, cell) or any(ids[other] == ids[cell] and other != cell for other in put):
                raise PatchRefused(f'IdCollision {{ id: {text(ids[cell])} }}')


@functools.lru_cache(65536)
def order(cell):
    """The place of a cell among others: nothing, numbers, texts, bytes, other values."""
    kind, value = cell[0], cell[1:]
    return {'n': (0,), 'i': (1, int(value) if kind == 'i' else 0), 't': (2, value.encode()), 'x': (3, bytes.fromhex(value) if kind == 'x' else b''), 'o': (4,)}[kind]


def insert_row(rows, width, cells):
    """One row more, behind those of its key. The rows are in the order of their keys."""
    rows.insert(bisect_right(rows, [order(c) for c in cells[:width]], key=lambda r: [order(c) for c in r[:width]]), tuple(cells))


def put_row(rows, width, order, cells):
    """One row in place of those of its key. The rows are in the order of their keys."""
    own, place = list(cells[:width]), [order(c) for c in cells[:width]]
    first = bisect_left(rows, place, key=lambda r: [order(c) for c in r[:width]])
    end = bisect_right(rows, place, first, key=lambda r: [order(c) for c in r[:width]])
    rows[first:end] = [*(r for r in rows[first:end] if list(r[:width]) != own), tuple(cells)]


def remove(rows, key):
    rows[:] = [r for r in rows if list(r[:len(key)]) != list(key)]


def apply(base, base_tables, patch, order):
    """The tables of the base after the patch."""
    rows = base_tables[TILE_TABLES[base.layout]]
    for place, cell in patch.tiles.items():
        key = [f'i{n}' for n in place]
        remove(rows, key)
        if cell == 'n':
            continue
        name = 't' + digest(base.algorithm, bytes.fromhex(cell[1:]))
        if base.layout in CONTENT_TABLES:
            put_row(rows, 3, order, [*key, name])
            put_row(base_tables['images'], 1, order, [name, cell])
        else:
            put_row(rows, 3, order, [*key, cell] + ([name] if base.layout == 'flat-with-hash' else []))
    if base.layout in CONTENT_TABLES:
        named = {r[3] for r in rows}
        base_tables['images'][:] = [r for r in base_tables['images'] if r[0] == 'n' or r[0] in named]
    names = base_tables['metadata']
    for name, value in sorted(patch.names.items(), key=lambda n: n[0].encode()):
        if name not in (AGG, BEFORE):
            put_row(names, 1, order, ['t' + (AGG if name == AFTER else name), 'n' if value is None else 't' + value])
    for name, value in patch.names.items():
        if value is None:
            remove(names, ['t' + name])
