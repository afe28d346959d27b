# What copying one set into another makes of the tables of its destination, and when it is refused, for
# tools/cases/copy_cases.py. The rules are worked out on rows of tables.
import collections

from models import shown
from models.aggregates import aggregate, hash_refusal
from models.hashes import digest
from models.held_sets import Tables
from models.names import AFTER, AGG, BEFORE, CONTENT_TABLES, KEYS, LAYOUTS, TILE_TABLES
from models.patches import State, insert_row
from models.tables import layout_tables, table

FIELDS = ('copy', 'type', 'cli', 'mode', 'min', 'max', 'zooms', 'box', 'skip', 'hash', 'force', 'validate')
SIDE = 2 ** 30


class Set(Tables):
    """A store: its layout, None where nothing is described, the rows of its tables, the refusal of loading it, if
    there is one, and whether a table of binary differences is described too."""

    def __init__(self, layout, pushes=(), refusal=None, differences=False):
        self.layout, self.refusal, self.differences = layout, refusal, differences
        self.tables = {} if layout is None else empty_tables(layout)
        self.pushes = pushes
        for name, *cells in pushes:
            insert_row(self.tables[name], KEYS[name], cells)

    def described(self):
        """The names and the kinds of the tables, in the order in which they are described."""
        return [] if self.layout is None else [(name, 'Table' if is_table else 'View') for name, is_table, _, _ in [table('metadata')] + layout_tables(self.layout)]


def empty_tables(layout):
    return {t[0]: [] for t in [table('metadata')] + layout_tables(layout) if t[1]}


class Copier:
    """The fields of a copier, each absent where it has its first value."""

    def __init__(self, **fields):
        assert all(name in FIELDS for name in fields), fields
        self.fields = fields

    def __getattr__(self, name):
        return self.fields.get(name)

    def words(self):
        words = []
        for name in FIELDS:
            value = self.fields.get(name)
            if name == 'box':
                words += ['box=' + ','.join(map(str, one)) for one in value or []]
            elif value is True:
                words.append(name)
            elif value is not None and value is not False:
                words.append(f"{name}={','.join(map(str, value)) if isinstance(value, (list, tuple)) else value}")
        return words

    def copies_tiles(self):
        return self.copy in (None, 'all', 'tiles')

    def copies_metadata(self):
        return self.copy in (None, 'all', 'metadata')

    def wants_zoom(self, zoom):
        if self.zooms:
            return zoom in self.zooms
        return (self.min is None or zoom >= self.min) and (self.max is None or zoom <= self.max)

    def wants_place(self, place):
        return not self.box or any(holds(one, place) for one in self.box)

    def takes(self, place):
        return self.copies_tiles() and self.wants_zoom(place[0]) and self.wants_place(place)

    def asked(self):
        """The layout that is asked for, or None; `normalized` of a command line has the view."""
        if self.type is not None:
            return self.type
        return 'normalized-with-view' if self.cli == 'normalized' else self.cli


def holds(box, place):
    """Whether a box of zoom 30, its rows counted from the top, holds a place, whose row is counted from the bottom."""
    least_column, least_row, greatest_column, greatest_row = box
    if any(n >= SIDE for n in box):
        return False
    zoom, column, row = place
    column, row = column << 30 - zoom, row << 30 - zoom
    return least_column <= column <= greatest_column and SIDE - 1 - greatest_row <= row <= SIDE - 1 - least_row


def kind(layout):
    """A layout without its fields."""
    return 'normalized' if layout.startswith(('normalized', 'dedup-id')) else layout


def made(layout):
    """The layout that is made for a wanted one: digests take the place of numbers."""
    return layout.replace('dedup-id', 'normalized')


def bytes_of(cell):
    return None if cell == 'n' else bytes.fromhex(cell[1:])


def collision(state, algorithm, put):
    """The id of the first tile that is put, by zoom, column and row from the bottom, whose contents stand under an id
    of another cell, or of other contents that are put."""
    ids = {cell: digest(algorithm, bytes_of(cell)) for cell in put.values() if cell != 'n'}
    shared = collections.Counter(ids.values())
    for place in sorted(put):
        cell = put[place]
        if cell == 'n':
            continue
        if state.contents.get('t' + ids[cell]) not in (None, cell) or shared[ids[cell]] > 1:
            return ids[cell]
    return None


def tile_rows(layout, algorithm, place, cell, times):
    """The rows of a tile that is put: its own, and that of its contents where the layout has these."""
    key = [f'i{n}' for n in place]
    name = 'n' if cell == 'n' else 't' + digest(algorithm, bytes_of(cell))
    if layout in CONTENT_TABLES:
        return [(TILE_TABLES[layout], *key, name), (CONTENT_TABLES[layout], name, cell)]
    return [(TILE_TABLES[layout], *key, *{'flat': [cell], 'flat-with-hash': [cell, name], 'cache': [*times, cell]}[layout])]


def times_in(source, place):
    """When a tile of a cache was fetched, when it expires, and its version."""
    if source.layout != 'cache':
        return ('n', 'n', 'n')
    key = tuple(f'i{n}' for n in place)
    return next(r[3:6] for r in source.tables['tile_cache'] if tuple(r[:3]) == key)


def remove_place(held, layout, place):
    key = tuple(f'i{n}' for n in place)
    rows = held.tables[TILE_TABLES[layout]]
    rows[:] = [r for r in rows if tuple(r[:3]) != key]


def own_refusal(copier, of):
    """The refusal of loading a set, or of its hash where that is tested, or None."""
    return of.refusal or (hash_refusal(of.state()) if copier.validate else None)


def copy_refusal(copier, source, target):
    """The first refusal of loading and of the tests that come before what is put, or None."""
    if own_refusal(copier, source):
        return own_refusal(copier, source)
    if target.layout is None:
        return None
    if copier.mode is None:
        return 'DestinationFileExists'
    if target.refusal:
        return target.refusal
    asked = copier.asked()
    if asked is not None and kind(asked) != kind(target.layout):
        return f'MismatchedTargetType {{ actual: {LAYOUTS[target.layout]}, desired: {LAYOUTS[asked]} }}'
    if target.layout.startswith('dedup-id'):
        return 'UnsupportedCopyOperation'
    return None


def put_into(copier, target, layout, algorithm, tiles, names, times):
    """What is put into a destination of a layout, tiles with the times of each: the refusal; or None, and the tables
    of the destination are changed."""
    is_made = target.layout is None
    state = State(layout, empty_tables(layout)) if is_made else target.state()
    mode = copier.mode or 'override'
    chosen = {place: cell for place, cell in tiles.items() if copier.takes(place)}
    copied = {name: value for name, value in names.items() if copier.copies_metadata() and name != 'hash_algorithm'}
    if mode == 'abort' and (any(place in state.tiles for place in chosen) or any(name in state.names for name in copied)):
        return 'DuplicateValues'
    put = {place: cell for place, cell in chosen.items() if mode == 'override' or place not in state.tiles}
    if layout in CONTENT_TABLES:
        collides = collision(state, algorithm, put)
        if collides is not None:
            return f'IdCollision {{ id: {shown.text(collides)} }}'
    if is_made:
        target.layout, target.tables = layout, empty_tables(layout)
    for place, cell in put.items():
        if cell == 'n' and layout in CONTENT_TABLES:
            if place in state.tiles:
                remove_place(target, layout, place)
            continue
        for name, *cells in tile_rows(layout, algorithm, place, cell, times(place)):
            target.put(name, cells)
    for name, value in copied.items():
        if mode == 'override' or name not in state.names:
            target.put('metadata', ['t' + name, 'n' if value is None else 't' + value])
    is_hashed = copier.copies_tiles() and not copier.skip
    if is_hashed:
        target.put('metadata', ['t' + AGG, 't' + aggregate(algorithm, target.state().tiles)])
    if copier.copies_metadata() or is_made or is_hashed:
        target.put('metadata', ['thash_algorithm', 't' + algorithm])
    return None


def copy(copier, source, target):
    """The answer; the tables of the destination are changed where it is Ok."""
    refusal = copy_refusal(copier, source, target)
    if refusal is None:
        state = source.state()
        layout = target.layout or made(copier.asked() or source.layout)
        algorithm = target.state().algorithm if target.layout else copier.hash or state.algorithm
        refusal = put_into(copier, target, layout, algorithm, state.tiles, state.names, lambda place: times_in(source, place))
    return 'Ok(())' if refusal is None else f'Err({refusal})'


def patch_refusal(copier, patch):
    """The first refusal of loading a patch and of its own tests, or None."""
    if own_refusal(copier, patch):
        return own_refusal(copier, patch)
    if patch.differences:
        return 'UnsupportedPatchType'
    if not copier.force and patch.state().names.get(AFTER) is None:
        return 'PatchFileHasNoHashes'
    if not copier.force and patch.state().names.get(BEFORE) is None:
        return 'PatchFileHasNoBeforeHash'
    return None


def patched_refusal(copier, source, target):
    """The same of a source that is to be patched, and of the destination."""
    if own_refusal(copier, source):
        return own_refusal(copier, source)
    state = source.state()
    if not copier.force and state.names.get(AGG) is None:
        return 'CannotDiffFileWithoutHash'
    if not copier.force and (state.names.get(BEFORE) is not None or state.names.get(AFTER) is not None):
        return 'DiffingDiffFile'
    if (copier.asked() or source.layout).startswith(('cache', 'dedup-id')):
        return 'UnsupportedCopyOperation'
    if target.layout is not None:
        return 'NonEmptyTargetFile'
    return None


def patched(source, patch):
    """The tiles and the names of a source after a patch."""
    tiles, names = dict(source.tiles), dict(source.names)
    for place, cell in patch.tiles.items():
        tiles[place] = cell
        if cell == 'n':
            del tiles[place]
    for name, value in patch.names.items():
        names[name] = value
        if value is None:
            del names[name]
    return tiles, {name: value for name, value in names.items() if name not in (AGG, BEFORE, AFTER)}


def copy_patched(copier, source, patch, target):
    """The answer of a copy with a patch; the tables of the destination are made and filled where it is Ok."""
    refusal = patch_refusal(copier, patch) or patched_refusal(copier, source, target)
    if refusal is None:
        state, change = source.state(), patch.state()
        layout, made_set = made(copier.asked() or source.layout), Set(None)
        tiles, names = patched(state, change)
        refusal = put_into(copier, made_set, layout, copier.hash or state.algorithm, tiles, names, lambda place: ('n', 'n', 'n'))
        if refusal is None and copier.copies_tiles() and not copier.skip and not copier.force:
            after, computed = change.names[AFTER], made_set.state().names[AGG]
            if after != computed:
                refusal = f'AggHashMismatchAfterApply {{ after_apply_hash: {shown.text(after)}, agg_hash: {shown.text(computed)} }}'
        if refusal is None:
            target.layout, target.tables = made_set.layout, made_set.tables
    return 'Ok(())' if refusal is None else f'Err({refusal})'
