# What the tables of tile sets hold, and what patches make of them, by the rules of loading and patching, for
# tools/cases/tileset_rows.py. tools/models/patches.py has the rules of patching a second time, on the rows of tables;
# tools/models/bases.py holds one against the other.
#
# A cell is None for null, a number, bytes, a Text, or OTHER for a value of another kind.
from models import hashes
from models import names as known

OTHER = "other"
ALGORITHMS = [word.encode() for word in known.ALGORITHMS]
AGG, BEFORE, AFTER = (name.encode() for name in (known.AGG, known.BEFORE, known.AFTER))

# The width of each table and of its key.
TABLES = {name: (len(columns), known.KEYS[name]) for name, columns in known.TABLES.items()}

# The tables of each layout beside metadata. Others are views, or not there.
LAYOUTS = {layout: [name, known.CONTENT_TABLES[layout]] if layout in known.CONTENT_TABLES else [name] for layout, name in known.TILE_TABLES.items()}
LAYOUTS.update({"flat-no-index": ["tiles"], "flat-bsdiff": ["tiles"], "none": None})


class Text(bytes):
    """A cell that is a text, as against bytes."""


class SetRefused(Exception):
    """The name of a refusal, and its fields."""

    def __init__(self, *fields):
        super().__init__(b" ".join(it.encode() if isinstance(it, str) else it for it in fields))


def kind(cell):
    return 0 if cell is None else 1 if isinstance(cell, int) else 4 if cell is OTHER else 2 if isinstance(cell, Text) else 3


def order(cell):
    return kind(cell), 0 if cell is None or cell is OTHER else bytes(cell) if not isinstance(cell, int) else cell


def spelled(cell):
    """A cell as a script spells it."""
    if cell is None:
        return b"n"
    if cell is OTHER:
        return b"o"
    if isinstance(cell, int):
        return b"i%d" % cell
    if isinstance(cell, Text):
        return b"t" + b"".join(bytes([it]) if 0x21 <= it <= 0x7E and it != 0x25 else b"%%%02X" % it for it in cell)
    return b"x" + cell.hex().encode()


class ScriptStore:
    """A layout with the rows of its tables, by their keys, those of one key as they came."""

    def __init__(self, layout):
        wanted = LAYOUTS[layout]
        self.layout = layout
        self.tables = {} if wanted is None else {name: [] for name in [*wanted, "metadata"]}
        self.keys = {name: set() for name in self.tables}

    def push(self, name, row):
        """Whether the row has a table, and no row of its key where the table has a unique index."""
        if name not in self.tables or len(row) != TABLES[name][0]:
            return False
        key = tuple(order(cell) for cell in row[:TABLES[name][1]])
        keyed = (self.layout, name) != ("flat-no-index", "tiles")
        if keyed and key in self.keys[name] and (0, 0) not in key:
            return False
        self.keys[name].add(key)
        self.tables[name].append(row)
        return True

    def rows(self, name):
        return sorted(self.tables[name], key=lambda row: [order(cell) for cell in row[:TABLES[name][1]]])

    def described_as(self, layout):
        """What the store shows where it describes another layout: rows stand in the tables that both have, those of its
        other tables are gone, and a table that the other layout alone has is empty."""
        shown = ScriptStore(layout)
        for name in shown.tables.keys() & self.tables.keys():
            shown.tables[name], shown.keys[name] = self.tables[name], self.keys[name]
        return shown


def digest(algorithm, data):
    return hashes.digest(algorithm.decode(), data).encode()


class State:
    """What a set holds: tiles, metadata, and for a set with ids of contents these and the contents."""

    def __init__(self, layout, algorithm, tiles, names, ids, contents):
        self.layout, self.algorithm, self.tiles, self.names, self.ids, self.contents = layout, algorithm, tiles, names, ids, contents

    def normalized(self):
        return self.layout.startswith("normalized")

    def name(self, name):
        return self.names.get(name)

    def aggregate(self):
        joined = b"".join(b"%d%d%d%s" % (*place, self.tiles[place] or b"") for place in sorted(self.tiles))
        algorithm = b"fnv1a" if self.algorithm == b"fnv1a-decimal" and self.tiles else self.algorithm
        return digest(algorithm, joined)


def wrong_kinds(store):
    """Whether a name, value, hash, id, tag or time is neither null nor of its kind."""
    wanted = {"metadata": {0: 2, 1: 2}, "tiles_with_hash": {4: 2}, "map": {3: 2}, "images": {0: 2}, "tiles_shallow": {3: 1}, "tiles_data": {0: 1}, "tile_cache": {3: 1, 4: 1, 5: 2}}
    return any(kind(row[at]) not in (0, wants) for name, rows in store.tables.items() for row in rows for at, wants in wanted.get(name, {}).items())


def load(store):
    """The state of a store, or the first refusal."""
    if store.layout == "none":
        raise SetRefused("InvalidDataFormat")
    if store.layout == "flat-no-index":
        raise SetRefused("NoUniquenessConstraint")
    if wrong_kinds(store):
        raise SetRefused("InvalidDataFormat")
    names = {bytes(name): value for name, value in store.rows("metadata") if name is not None}
    stored = names.get(b"hash_algorithm")
    algorithm = b"md5" if stored is None else stored.lower()
    if algorithm not in ALGORITHMS:
        raise SetRefused("UnsupportedHashAlgorithm", stored)
    main = LAYOUTS[store.layout][0]
    rows, contents, ids = store.rows(main), {}, {}
    if main in ("map", "tiles_shallow"):
        linked = LAYOUTS[store.layout][1]
        contents = {order(key): cell for key, cell in store.rows(linked) if key is not None}
        rows = [[*row[:3], contents.get(order(row[3])), row[3]] for row in rows if row[3] is not None]
        ids = {tuple(row[:3]): row[4] for row in rows}
    data = 6 if main == "tile_cache" else 3
    for row in rows:
        place = row[:3]
        good = all(isinstance(it, int) for it in place) and 0 <= place[0] <= 30 and all(0 <= it < 2 ** place[0] for it in place[1:])
        if not good or kind(row[data]) not in (0, 3):
            raise SetRefused("InvalidTileIndex", *map(spelled, place))
    for row in rows if ids else []:
        if order(row[4]) not in contents:
            raise SetRefused("MissingTileReference", b"%d" % row[4] if isinstance(row[4], int) else row[4], linked)
    hashed = [(row[4], row[3]) for row in rows] if main == "tiles_with_hash" else store.rows("images") if main == "map" else []
    for text, cell in hashed:
        if text is not None and kind(cell) == 3 and text.upper() != digest(algorithm, cell):
            raise SetRefused("IncorrectTileHash", text.upper(), digest(algorithm, cell))
    tiles = {tuple(row[:3]): row[data] for row in rows}
    return State(store.layout, algorithm, tiles, names, ids, contents)


def tests(base, patch, force):
    """The tests of a patch and its base."""
    if patch.layout == "flat-bsdiff":
        raise SetRefused("UnsupportedPatchType")
    agg, before = base.name(AGG), patch.name(BEFORE)
    if not force and patch.name(AFTER) is None:
        raise SetRefused("PatchFileHasNoHashes")
    if not force and before is None:
        raise SetRefused("PatchFileHasNoBeforeHash")
    if base.layout in ("cache", "dedup-id"):
        raise SetRefused("UnsupportedCopyOperation")
    if not force and agg is None:
        raise SetRefused("CannotDiffFileWithoutHash")
    if not force and (base.name(BEFORE) is not None or base.name(AFTER) is not None):
        raise SetRefused("DiffingDiffFile")
    if not force and before != agg:
        raise SetRefused("AggHashMismatchWithDiff", before, agg)
    if base.algorithm != patch.algorithm:
        raise SetRefused("UnsupportedHashAlgorithm", patch.algorithm)
    put = [patch.tiles[place] for place in sorted(patch.tiles) if patch.tiles[place] is not None]
    for data in put if base.normalized() else []:
        text = digest(base.algorithm, data)
        key = order(Text(text))
        if key in base.contents and (kind(base.contents[key]) != 3 or base.contents[key] != data) or any(digest(base.algorithm, it) == text and it != data for it in put):
            raise SetRefused("IdCollision", text)


def patched(base, patch, force):
    """The state of a base after a patch, or the first refusal."""
    tests(base, patch, force)
    tiles, ids, contents, names = dict(base.tiles), dict(base.ids), dict(base.contents), dict(base.names)
    for place, data in patch.tiles.items():
        tiles.pop(place, None)
        ids.pop(place, None)
        if data is not None:
            tiles[place] = data
            if base.normalized():
                ids[place] = Text(digest(base.algorithm, data))
                contents[order(ids[place])] = data
    if base.normalized():
        named = {order(it) for it in ids.values()}
        contents = {key: cell for key, cell in contents.items() if key in named}
    for name, value in patch.names.items():
        if name not in (AGG, BEFORE):
            names[AGG if name == AFTER else name] = value
    for name, value in patch.names.items():
        if value is None:
            names.pop(name, None)
    return State(base.layout, base.algorithm, tiles, names, ids, contents)


def converted(stores, force, verify):
    """The state that is converted, or the place of a store and its refusal."""
    place = 0
    try:
        state = load(stores[0])
        for place, store in enumerate(stores[1:], 1):
            state = patched(state, load(store), force)
        place, stored = 0, state.name(AGG)
        if verify and stored is None:
            raise SetRefused("AggHashValueNotFound")
        if verify and stored != state.aggregate():
            raise SetRefused("AggHashMismatch", state.aggregate(), stored)
    except SetRefused as refusal:
        return b"store %d " % place + refusal.args[0]
    return state
