# Lines of tables and layouts, for tools/cases/set_rows.py: their names, which layout descriptions are, and tables that
# are made. The wanted answers are worked out from the tables of the layouts and the rules of detection.
import random

from cases.set_program import refused, row
from models.names import KEYS, LAYOUTS, TABLES, VARIANTS
from models.shown import flag
from models.tables import created, debug, layout_answers, layout_tables, table, table_answers, view


def words_of(t):
    index = ''.join(('unique:' if u else 'plain:') + ','.join(c) for u, c in t[3]) or '-'
    columns = ','.join(f"{n}:{k.replace(' ', '~')}" for n, k in t[2])
    return f"table add {t[0]} {'table' if t[1] else 'view'} {columns} {index}"


def described(tables):
    row('table none')
    for t in tables:
        row(words_of(t))
    row('table layout', *layout_answers(tables))
    row('table tables', *table_answers(tables))


def odd_tables():
    place = (True, ['zoom_level', 'tile_column', 'tile_row'])
    tiles = TABLES['tiles']

    def columns(text):
        return [tuple((c + ' ').split(' ', 1)) if ' ' not in c else tuple(c.split(' ', 1)) for c in text.split(', ')]
    for index in [place, None, (True, ['tile_row', 'zoom_level', 'tile_column']), (True, ['zoom_level', 'tile_column', 'tile_row', 'zoom_level']),
                  (True, ['zoom_level', 'tile_column', 'tile_row', 'tile_data']), (False, place[1]), (True, place[1][:2]), (True, ['ZOOM_LEVEL', 'tile_column', 'tile_row'])]:
        described([('tiles', True, tiles, [index] if index else [])])
    for text in ['zoom_level integer, tile_column Int, tile_row iNt, tile_data BLOB', 'zoom_level UNSIGNED BIG INT, tile_column POINT, tile_row MINTY, tile_data BLOB',
                 'zoom_level IN TEGER, tile_column INTEGER, tile_row INTEGER, tile_data BLOB', 'zoom_level , tile_column INTEGER, tile_row INTEGER, tile_data BLOB',
                 'zoom_level INTEGER, tile_column INTEGER, tile_row INTEGER, tile_data blob', 'ZOOM_LEVEL INTEGER, tile_column INTEGER, tile_row INTEGER, tile_data BLOB',
                 'tile_data BLOB, note TEXT, tile_row INT, tile_column INT, zoom_level INT', 'zoom_level INT, tile_column INT, tile_row INT',
                 'zoom_level INT, zoom_level INT, tile_row INT, tile_data BLOB', 'zoom_level INT, tile_column INT, tile_row INT, tile_data BLOB, tile_row INT']:
        described([('tiles', True, columns(text), [place])])
    plain = columns('zoom_level INT, tile_column INT, tile_row INT, tile_data BLOB')
    described([('tiles', False, plain, [place])])
    described([('Tiles', True, plain, [place])])
    patch = columns('zoom_level INT, tile_column INT, tile_row INT, patch_data BLOB, tile_xxh3_64_hash INT')
    flat = ('tiles', True, tiles, [place])
    for extra in [[], [('bsdiffrawgz', False, patch, [])], [('bsdiffrawgz', False, patch, []), ('bsdiffraw', True, patch, [])], [('bsdiffraw', True, patch[:4], [])]]:
        described([flat] + extra)
    described([])
    row('table all', '[]')
    chance = random.Random(11)
    for _ in range(120):
        tables = []
        for name in chance.sample(list(TABLES), chance.randrange(1, 5)):
            t = list(chance.choice([table, table, view])(name))
            if chance.random() < 0.3:
                t[2] = [c if chance.random() < 0.8 else chance.choice([(c[0].upper(), c[1]), (c[0], 'REAL'), (c[0], 'MINT'), c]) for c in t[2]]
            if chance.random() < 0.3:
                t[3] = [(chance.random() < 0.5, chance.sample([c for c, _ in t[2]], chance.randrange(1, len(t[2]) + 1)))]
            tables.append(tuple(t))
        described(tables)
    row('table all', debug(tables))
    for layout in LAYOUTS:
        described(layout_tables(layout))


def labels():
    schemas = {'Hash': ('map', 'images', 'tile_id', 'false'), 'DedupId': ('tiles_shallow', 'tiles_data', 'tile_data_id', 'true')}
    for layout, text in LAYOUTS.items():
        schema = next((s for s in schemas if s in text and text.startswith('Normalized')), None)
        words = 'normalized' if schema else layout
        names = [] if not schema else [schema, *(f'"{n}"' for n in schemas[schema][:3]), schemas[schema][3]]
        row('label layout ' + layout, words + '|', flag(schema), flag(schema and layout.endswith('with-view')), *names)
    row('label command_line', 'flat|', 'flat-with-hash|', 'normalized|', 'cache|')
    row('label patches', 'whole|', 'None', 'bin-diff-gz|', 'Some(BinDiffGz)', 'bin-diff-raw|', 'Some(BinDiffRaw)', 'bin-diff-gz|', 'bin-diff-raw|', '"bsdiffrawgz"', '"bsdiffraw"')
    row('label names', '"agg_tiles_hash"', '"agg_tiles_hash_after_apply"', '"agg_tiles_hash_before_apply"', '"hash_algorithm"')
    for number, name in enumerate(TABLES):
        row('label table ' + name, name + '|', VARIANTS[name], f'"{name}"', len(TABLES[name]), KEYS[name], number)
    row('label errors', 'invalid data format|', 'no uniqueness constraint|', 'duplicate row in tiles_data|', 'store fault|', 'out of memory|')
    refused('label layout none')


def creating():
    calls = {'flat': layout_tables('flat'), 'flat-with-hash': layout_tables('flat-with-hash'), 'normalized': layout_tables('normalized'), 'cache': layout_tables('cache'),
             'metadata': [table('metadata')], 'view': [view('tiles_with_hash')], 'cache-schema': [table('metadata')] + layout_tables('cache')}
    for layout in LAYOUTS:
        started = layout.replace('dedup-id', 'normalized')
        calls['schema ' + layout] = [table('metadata')] + layout_tables(started)

    def create(call, tables):
        tables = created(tables, calls[call])
        row('create ' + call, 'Ok(())', len(tables), *layout_answers(tables), *table_answers(tables))
        return tables
    for call in calls:
        row('store new')
        row('store empty', 'Ok(true)')
        tables = create(call, [])
        row('store describe', f'Ok({debug(tables)})')
        row('store empty', 'Ok(false)')
        create(call, tables)
        row('store describe', f'Ok({debug(tables)})')
    chance = random.Random(12)
    for _ in range(30):
        row('store new')
        tables = []
        for call in chance.sample(list(calls), 4):
            tables = create(call, tables)
        row('store describe', f'Ok({debug(tables)})')
    for layout in LAYOUTS:
        row('store new layout ' + layout)
        row('store describe', f"Ok({debug([table('metadata')] + layout_tables(layout))})")


def write():
    for rows in (labels, odd_tables, creating):
        rows()
