# Descriptions of tables, how the layout of a set is detected of them, and the debug texts of descriptions, rows and
# loaded sets.
from models import shown
from models.names import KEYS, LAYOUTS, NORMALIZED, PLACE, TABLES

# Descriptions: (name, whether it is a table, columns, indexes (unique, columns)).


def table(name):
    return name, True, TABLES[name], [(True, [c for c, _ in TABLES[name][:KEYS[name]]])]


def view(name):
    return name, False, TABLES[name], []


def layout_tables(layout):
    if layout == 'flat':
        return [table('tiles')]
    if layout == 'flat-with-hash':
        return [table('tiles_with_hash'), view('tiles')]
    if layout == 'cache':
        return [table('tile_cache'), view('tiles')]
    # contents that are kept by numbers have no digests, so that there is no view of them
    pair = ('map', 'images') if layout.startswith('normalized') else ('tiles_shallow', 'tiles_data')
    return [table(pair[0]), table(pair[1]), view('tiles')] + ([view('tiles_with_hash')] if layout == 'normalized-with-view' else [])


def created(tables, more):
    for t in more:
        if t[0] not in [d[0] for d in tables]:
            tables = tables + [t]
    return tables


def fits(columns, described):
    """Exactly as many columns match as are wanted."""
    def right(type_name, wanted):
        return 'INT' in type_name.upper() if wanted == 'INTEGER' else type_name == wanted
    return sum(1 for n, t in described for name, wanted in columns if n == name and right(t, wanted)) == len(columns)


def has(tables, name, as_view=False):
    return any(n == name and (is_table or as_view) and fits(TABLES[name], columns) for n, is_table, columns, _ in tables)


def layout_of(tables):
    if has(tables, 'map') and has(tables, 'images'):
        return NORMALIZED.format(shown.flag(has(tables, 'tiles_with_hash', True)), 'Hash'), 'map'
    if has(tables, 'tiles_shallow') and has(tables, 'tiles_data'):
        return NORMALIZED.format('false', 'DedupId'), 'tiles_shallow'
    for name, text in (('tiles_with_hash', 'FlatWithHash'), ('tiles', 'Flat'), ('tile_cache', 'Cache')):
        if has(tables, name):
            return text, name
    return None


PATCH = PLACE + [('patch_data', 'BLOB'), ('tile_xxh3_64_hash', 'INTEGER')]


def layout_answers(tables):
    found = layout_of(tables)
    patch = 'None'
    for name, text in (('bsdiffrawgz', 'BinDiffGz'), ('bsdiffraw', 'BinDiffRaw')):
        if any(n == name and fits(PATCH, columns) for n, _, columns, _ in tables):
            patch = f'Some({text})'
    if found is None:
        return ['Err(InvalidDataFormat)', 'Err(InvalidDataFormat)', patch]
    indexes = [i for n, _, _, indexes in tables if n == found[1] for i in indexes]
    place = {c for c, _ in PLACE}
    unique = any(u and set(columns) == place for u, columns in indexes)
    covered = any(place <= set(columns) for _, columns in indexes)
    return [f'Ok({found[0]})' if unique else 'Err(NoUniquenessConstraint)', 'Ok(None)' if covered else f'Ok(Some("{found[1]}"))', patch]


def table_answers(tables):
    return [shown.flag(a) for a in (has(tables, 'tiles'), has(tables, 'tiles_with_hash'), has(tables, 'tiles_with_hash', True), has(tables, 'map') and has(tables, 'images'),
                              has(tables, 'tiles_shallow') and has(tables, 'tiles_data'), has(tables, 'tile_cache'))]


def texts(of):
    return '[' + ', '.join(map(shown.text, of)) + ']'


def debug(tables):
    def one(t):
        columns = ', '.join(f'ColumnDesc {{ name: {shown.text(n)}, type_name: {shown.text(k)} }}' for n, k in t[2])
        indexes = ', '.join(f'IndexDesc {{ unique: {shown.flag(u)}, columns: TextList {{ texts: {texts(c)} }} }}' for u, c in t[3])
        return (f"TableDesc {{ name: {shown.text(t[0])}, kind: {'Table' if t[1] else 'View'}, columns: ColumnList {{ columns: [{columns}] }}, "
                f'indexes: IndexList {{ indexes: [{indexes}] }} }}')
    return '[' + ', '.join(map(one, tables)) + ']'


def show(cell):
    kind, value = cell[0], cell[1:]
    return {'n': 'Null', 'o': 'Other', 'i': f'Int({value})', 't': f'Text({shown.text(value)})',
            'x': f"Blob(BlobVal {{ bytes: [{', '.join(map(str, bytes.fromhex(value) if kind == 'x' else b''))}] }})"}[kind]


def show_row(cells):
    return f"Row {{ cells: [{', '.join(map(show, cells))}] }}"


def size(cell):
    return len(cell[1:].encode()) if cell[0] == 't' else len(cell[1:]) // 2 if cell[0] == 'x' else 8


def key_cells(words):
    kind, *values = words.split(' ')
    return [('t' if kind == 'text' else 'i') + v for v in values]


def spelled_changes(call, calls):
    """Changes in words: how many, and each a table, a key, and the cells that are put, or None."""
    return f'{call} {len(calls)}' + ''.join(f" {'put' if cells else 'delete'} {name} {words}{''.join(' ' + c for c in cells or [])}" for name, words, cells in calls)


def place_pieces(z, c, r):
    return f'{z}/{c}/{2 ** z - 1 - r}'


def loaded(layout, tiles, names, algorithm='Md5', patch_type='None'):
    return (LAYOUTS[layout], algorithm, patch_type,
            *(piece for (z, c, r), contents, name in tiles for piece in (place_pieces(z, c, r), show(contents), shown.option(name and show(name)), 'true')),
            *(piece for name, value in names for piece in (name, show(value))))


def bad_index(*cells):
    zoom, column, line = map(show, cells)
    return f'Err(InvalidTileIndex {{ zoom_level: {zoom}, tile_column: {column}, tile_row: {line} }})'.removeprefix('Err(').removesuffix(')')
