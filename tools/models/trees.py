# Trees of files, and what packing and unpacking make of them, for tools/cases/tree_rows.py: the rules of the paths of
# tiles, of the tests in their order, and of what is stored.
import re

from models import shown
from models.described_sets import updated
from models.held_sets import Held, data_of
from models.names import LAYOUTS, TYPE_WORDS

FORMATS = {word: TYPE_WORDS[kind][0] for kind in ('Png', 'Jpeg', 'Webp', 'Avif', 'Mvt', 'Mlt') for word in TYPE_WORDS[kind]}


def format_of(word):
    """The format that a word names, ASCII case aside."""
    return FORMATS.get(word.encode().lower().decode())


def number(text, bits):
    """The number that std reads of a text: digits behind a plus or none."""
    return int(text) if re.fullmatch(r'\+?[0-9]+', text) and int(text) < 2 ** bits else None


def tile_path(path):
    """Zoom, column, row and format of the path of a tile, or None."""
    parts = path.split('/')
    if len(parts) < 3:
        return None
    stem, dot, extension = parts[-1].rpartition('.')
    zoom, column, row = number(parts[-3], 8), number(parts[-2], 32), number(stem if dot else parts[-1], 32)
    if zoom is None or column is None or row is None:
        return None
    return zoom, column, row, format_of(extension) if dot else None


def in_order(files):
    return sorted(files, key=lambda path: path.encode())


def turned(scheme, zoom, row):
    return row if scheme == 'xyz' else 2 ** zoom - 1 - row


def test(path, tile, first):
    """The first refusal of the path of a tile."""
    zoom, column, row, kind = tile
    if kind is None:
        return f'UnsupportedFileExtension({shown.text(path)})'
    if kind != first:
        return f'InconsistentTileFormats {{ path: {shown.text(path)} }}'
    if zoom > 30 or column >= 2 ** zoom or row >= 2 ** zoom:
        return f'InvalidTileIndex {{ zoom_level: Int({zoom}), tile_column: Int({column}), tile_row: Int({row}) }}'
    return None


class Tree:
    """A tree whose files are known: of the line `tree`, or of the line `folder`."""

    def __init__(self, rows, files, word='tree'):
        self.rows, self.word, self.files = rows, word, dict(files)
        if word == 'tree':
            rows.row(f'tree new {len(files)}' + ''.join(f' {path_word(path)} x{data.hex()}' for path, data in files.items()))
        self.asked = len(files)

    def fail(self, call):
        """The call of this number, from here on, fails."""
        self.rows.row(f'tree fail {self.asked + call}')

    def say(self):
        self.rows.row(f'{self.word} all', *(word for path in in_order(self.files) for word in (shown.quoted(path), 'x' + self.files[path].hex())))

    def tiles(self):
        return [(path, tile_path(path)) for path in in_order(self.files) if tile_path(path) is not None]


def path_word(path):
    return 't' + path if path and all('!' <= c <= '~' for c in path) else 'x' + path.encode().hex()


class KeptStore:
    """The kept store: of a layout, or of nothing."""

    def __init__(self, rows, layout=None, pushes=()):
        self.rows, self.held = rows, None
        if layout is None:
            rows.row('set none')
        else:
            self.held = Held(rows, layout, list(pushes))

    def fail(self, call):
        self.rows.row(f'set fail {(self.held.asked if self.held else 0) + call}')

    def say(self):
        if self.held is None:
            self.rows.row('set all')
        else:
            self.held.say()

    def load_calls(self):
        return self.held.load_calls()


def pack_due(tree, store, scheme):
    """The refusal of packing, or None and the tiles that are put."""
    if store.held is not None and store.held.layout != 'flat':
        return f'MismatchedTargetType {{ actual: {LAYOUTS[store.held.layout]}, desired: Flat }}', None
    had = store.held.state().tiles if store.held else {}
    tiles = tree.tiles()
    for path, tile in tiles:
        refusal = test(path, tile, tiles[0][1][3])
        if refusal:
            return refusal, None
    put = {}
    for path, (zoom, column, row, _) in tiles:
        place = (zoom, column, 2 ** zoom - 1 - turned(scheme, zoom, row))
        if place in put or place in had:
            return 'DuplicateValues', None
        put[place] = tree.files[path]
    return None, put


def pack(rows, tree, store, scheme, word=None, clears=False):
    """Packs, prints the answer and what the store holds then, where `clears` with no failing call any more."""
    refusal, put = pack_due(tree, store, scheme)
    call = f'{tree.word} pack {word or scheme}'
    if refusal:
        rows.row(call, f'Err({refusal})')
        store.say()
        return
    rows.row(call, 'Ok(())')
    if clears:
        rows.row('set fail')
    if store.held is None:
        store.held = Held.__new__(Held)
        store.held.rows, store.held.layout, store.held.tables, store.held.asked = rows, 'flat', {'metadata': [], 'tiles': []}, 3
    held = store.held
    for (zoom, column, row), data in put.items():
        held.put('tiles', (f'i{zoom}', f'i{column}', f'i{row}', 'x' + data.hex()))
    if put:
        held.put('metadata', ('tformat', 't' + tree.tiles()[0][1][3]))
    state = held.state()
    for name, value in updated(state.names, state.tiles, 'reset').items():
        if value is None:
            held.tables['metadata'] = [r for r in held.tables['metadata'] if r[0] != 't' + name]
        else:
            held.put('metadata', ('t' + name, 't' + value))
    store.say()


def files_of(held, scheme):
    """The files of a set in its order, or its refusal."""
    state = held.state()
    text = state.names.get('format')
    if text is None:
        return 'NoFormatInMetadata', None
    kind = format_of(text)
    if kind is None:
        return f'UnknownFormatInMetadata {{ format: {shown.text(text)} }}', None
    files = []
    for (zoom, column, row), cell in sorted(state.tiles.items()):
        if data_of(cell) is not None:
            files.append((f'{zoom}/{column}/{turned(scheme, zoom, 2 ** zoom - 1 - row)}.{kind}', data_of(cell)))
    return None, files


def unpack(rows, tree, store, scheme, word=None):
    """Unpacks, prints the answer and the files that the tree has then."""
    call = f'{tree.word} unpack {word or scheme}'
    if store.held is None:
        refusal, files = 'InvalidDataFormat', None
    else:
        refusal, files = files_of(store.held, scheme)
    if refusal:
        rows.row(call, f'Err({refusal})')
    else:
        rows.row(call, 'Ok(())')
        tree.files.update(files)
    tree.say()
