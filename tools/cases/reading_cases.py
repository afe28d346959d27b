# Rows that read a set of a database, for tools/cases/mbtiles_rows.py. The same statements make the database by
# Python's sqlite3; what is read of it is worked out by tools/models/read_databases.py.
import random

from models.hashes import digest
from models.held_sets import say_rows
from models.names import TABLES
from models.read_databases import PLACE, File

# the statements of all cases so far
STATEMENTS = []


def spelled(statements):
    return ';'.join(statement.replace(' ', '~') for statement in statements)


def case(rows, *statements):
    assert not any('~' in statement or ';' in statement for statement in statements)
    answer, tables = File(statements).read()
    rows.row('reading ' + spelled(statements), answer)
    if tables is not None:
        rows.rows.append(('set all', ''.join(say_rows(tables, name) for name in TABLES)))
    STATEMENTS.append(statements)


FLAT = 'CREATE TABLE tiles (zoom_level INTEGER, tile_column INTEGER, tile_row INTEGER, tile_data BLOB)'
LOOSE = 'CREATE TABLE tiles (zoom_level, tile_column, tile_row, tile_data)'
MAP = 'CREATE TABLE map (zoom_level INTEGER, tile_column INTEGER, tile_row INTEGER, tile_id TEXT)'
IMAGES = 'CREATE TABLE images (tile_id TEXT, tile_data BLOB)'
JOINED = 'CREATE VIEW tiles AS SELECT map.zoom_level AS zoom_level, map.tile_column AS tile_column, map.tile_row AS tile_row, images.tile_data AS tile_data FROM map JOIN images ON images.tile_id = map.tile_id'
HASHED = 'CREATE TABLE tiles_with_hash (zoom_level INTEGER, tile_column INTEGER, tile_row INTEGER, tile_data BLOB, tile_hash TEXT)'
OF_HASHED = 'CREATE VIEW tiles AS SELECT zoom_level, tile_column, tile_row, tile_data FROM tiles_with_hash'
SHALLOW = 'CREATE TABLE tiles_shallow (zoom_level INTEGER, tile_column INTEGER, tile_row INTEGER, tile_data_id INTEGER)'
DATA = 'CREATE TABLE tiles_data (tile_data_id INTEGER, tile_data BLOB)'
OF_SHALLOW = 'CREATE VIEW tiles AS SELECT tiles_shallow.zoom_level AS zoom_level, tiles_shallow.tile_column AS tile_column, tiles_shallow.tile_row AS tile_row, tiles_data.tile_data AS tile_data FROM tiles_shallow JOIN tiles_data ON tiles_data.tile_data_id = tiles_shallow.tile_data_id'
CACHE = 'CREATE TABLE tile_cache (zoom_level INTEGER, tile_column INTEGER, tile_row INTEGER, fetched INTEGER, expires INTEGER, etag TEXT, tile_data BLOB, UNIQUE (zoom_level, tile_column, tile_row))'
OF_CACHE = 'CREATE VIEW tiles AS SELECT zoom_level, tile_column, tile_row, tile_data FROM tile_cache'
NAMES = 'CREATE TABLE metadata (name TEXT, value TEXT)'
LOOSE_NAMES = 'CREATE TABLE metadata (name, value)'
HELLO, OTHER = "x'68656c6c6f'", "x'30'"


def put(table, *rows):
    return f"INSERT INTO {table} VALUES {', '.join('(' + ', '.join(row) + ')' for row in rows)}"


def said(data, name='md5'):
    return "'" + digest(name, bytes.fromhex(data[2:-1])) + "'"


def flat_cases(rows):
    tiles = put('tiles', ('1', '0', '1', "x'30'"), ('0', '0', '0', "x''"), ('1', '1', '0', 'NULL'), ('30', '1073741823', '0', "x'0102'"))
    case(rows, FLAT, tiles)
    case(rows, FLAT)
    case(rows, FLAT, NAMES, tiles, put('metadata', ("'name'", "'a'"), ("'format'", 'NULL')))
    # another order, further columns, names in other letters, a unique index
    case(rows, 'CREATE TABLE Tiles (tile_data BLOB, TILE_ROW INT, note TEXT, tile_column VARCHAR, zoom_level BIGINT, UNIQUE (zoom_level, tile_column, tile_row))', put('tiles', ("x'30'", '1', "'n'", '0', '1')))
    case(rows, FLAT, 'CREATE UNIQUE INDEX tile_index ON tiles (zoom_level, tile_column, tile_row)', tiles)
    # places that are no whole numbers, and those outside the grid
    case(rows, LOOSE, put('tiles', ('1.0', '0', '1', "x'30'"), ('1', '1.5', '0', "x'31'"), ("'1'", "'1'", "'0'", "x'32'"), ("'01'", '0', '0', "x'33'"), ('NULL', '0', '0', "x'34'"), ("x'30'", '0', '0', "x'35'"),
                                  ('31', '0', '0', "x'36'"), ('1', '2', '0', "x'37'"), ('1', '0', '-1', "x'38'"), ('1e300', '0', '0', "x'39'"), ("' 1'", '0', '0', "x'3a'"), ('0.0', "'0'", '0', "x'3b'")))
    case(rows, FLAT, put('tiles', ('31', '0', '0', "x'36'"), ('1', '2', '0', "x'37'")))
    case(rows, FLAT, NAMES, put('tiles', ('31', '0', '0', 'NULL')), put('metadata', ("'name'", "'a'")))
    # contents that are a text, a number, a floating point number
    case(rows, LOOSE, put('tiles', ('1', '0', '1', "'a\u00e9'"), ('1', '0', '0', "''")))
    case(rows, LOOSE, put('tiles', ('1', '0', '1', "x'30'"), ('1', '0', '0', '5')))
    case(rows, LOOSE, put('tiles', ('1', '0', '1', '0.5')))
    # a place that stands twice
    case(rows, FLAT, put('tiles', ('1', '0', '1', "x'30'"), ('1', '0', '1', "x'30'"), ('1', '0', '1', "x'30'"), ('1', '0', '0', 'NULL'), ('1', '0', '0', 'NULL')))
    case(rows, FLAT, put('tiles', ('1', '0', '1', "x'30'"), ('1', '0', '1', "x'31'")))
    case(rows, FLAT, put('tiles', ('1', '0', '1', "x''"), ('1', '0', '1', 'NULL')))
    case(rows, LOOSE, put('tiles', ('1', '0', '1', "x'61'"), ('1.0', "'0'", '1', "'a'")))
    # nothing of the name, and a view alone
    case(rows, NAMES)
    case(rows, 'CREATE TABLE others (a, b, c, d)', 'CREATE VIEW tiles AS SELECT a AS zoom_level, b AS tile_column, c AS tile_row, d AS tile_data FROM others', put('others', ('1', '0', '1', "x'30'")))
    case(rows, 'CREATE TABLE tiles (zoom_level, tile_column, tile_row)')
    case(rows, FLAT, 'CREATE TABLE metadata (name)')


def hashed_cases(rows):
    case(rows, HASHED, OF_HASHED, put('tiles_with_hash', ('1', '0', '1', HELLO, said(HELLO)), ('1', '0', '0', OTHER, said(OTHER).lower()), ('1', '1', '0', 'NULL', 'NULL'), ('0', '0', '0', OTHER, 'NULL')))
    case(rows, HASHED, OF_HASHED, put('tiles_with_hash', ('1', '0', '1', HELLO, said(HELLO)[:17] + "'"), ('31', '0', '0', OTHER, said(OTHER))))
    # a digest that is none: the tiles through the view
    for none in ("'ab'", "'0123456789abcdeg'", "''", '5', "x'30313233343536373839616263646566'"):
        case(rows, HASHED, OF_HASHED, put('tiles_with_hash', ('1', '0', '1', HELLO, said(HELLO)), ('1', '0', '0', OTHER, none)))
    case(rows, HASHED, put('tiles_with_hash', ('1', '0', '1', HELLO, said(HELLO))))
    case(rows, HASHED, OF_HASHED, put('tiles_with_hash', ('1', '0', '1', HELLO, said(HELLO)), ('1', '0', '1', HELLO, said(HELLO))))


def normalized_cases(rows):
    images = put('images', (said(HELLO), HELLO), (said(OTHER), OTHER))
    case(rows, MAP, IMAGES, JOINED, images, put('map', ('1', '0', '1', said(HELLO)), ('1', '0', '0', said(HELLO)), ('1', '1', '0', said(OTHER)), ('1', '1', '1', 'NULL'), ('31', '0', '0', said(OTHER))))
    case(rows, 'CREATE TABLE images (note TEXT, tile_data BLOB, tile_id TEXT)', 'CREATE TABLE map (tile_id TEXT, grid_id TEXT, tile_row INTEGER, tile_column INTEGER, zoom_level INTEGER)', JOINED,
         put('images', ("'n'", HELLO, said(HELLO))), put('map', (said(HELLO), "'g'", '1', '0', '1')))
    # an id that is no digest, one that isn't there, one that stands twice, a place that stands twice
    case(rows, MAP, IMAGES, JOINED, put('images', ("'1'", HELLO)), put('map', ('1', '0', '1', "'1'"), ('1', '0', '0', "'1'")))
    case(rows, MAP, IMAGES, JOINED, images, put('map', ('1', '0', '1', said(HELLO)), ('1', '0', '0', "'a'")))
    case(rows, MAP, IMAGES, JOINED, put('images', (said(HELLO), HELLO)), put('map', ('1', '0', '1', said(HELLO)), ('1', '0', '0', said(OTHER))))
    case(rows, MAP, IMAGES, JOINED, put('images', (said(HELLO), HELLO), (said(HELLO), HELLO)), put('map', ('1', '0', '1', said(HELLO))))
    case(rows, MAP, IMAGES, JOINED, put('images', (said(HELLO), HELLO), (said(HELLO), OTHER)), put('map', ('1', '0', '1', said(HELLO))))
    case(rows, MAP, IMAGES, JOINED, images, put('map', ('1', '0', '1', said(HELLO)), ('1', '0', '1', said(HELLO))))
    case(rows, MAP, IMAGES, JOINED, images, put('map', ('1', '0', '1', said(HELLO)), ('1', '0', '1', said(OTHER))))
    # contents of a null id; a number as contents; tables without the view; a table that lacks a column
    case(rows, MAP, IMAGES, JOINED, put('images', (said(HELLO), HELLO), ('NULL', OTHER), ('NULL', HELLO)), put('map', ('1', '0', '1', said(HELLO))))
    case(rows, MAP, 'CREATE TABLE images (tile_id, tile_data)', JOINED, put('images', (said(HELLO), '5')), put('map', ('1', '0', '1', said(HELLO))))
    case(rows, MAP, IMAGES, images, put('map', ('1', '0', '1', said(HELLO))))
    case(rows, MAP, 'CREATE TABLE images (tile_id TEXT, content BLOB)', 'CREATE VIEW tiles AS SELECT map.zoom_level AS zoom_level, map.tile_column AS tile_column, map.tile_row AS tile_row, images.content AS tile_data FROM map JOIN images ON images.tile_id = map.tile_id',
         images, put('map', ('1', '0', '1', said(HELLO))))
    case(rows, MAP, IMAGES, JOINED, images, put('map', ('31', '0', '0', said(HELLO))))
    case(rows, 'CREATE TABLE places (z, x, y, id)', IMAGES, 'CREATE VIEW map AS SELECT z AS zoom_level, x AS tile_column, y AS tile_row, id AS tile_id FROM places',
         'CREATE VIEW tiles AS SELECT places.z AS zoom_level, places.x AS tile_column, places.y AS tile_row, images.tile_data AS tile_data FROM places JOIN images ON images.tile_id = places.id',
         images, put('places', ('1', '0', '1', said(HELLO))))


def other_cases(rows):
    case(rows, SHALLOW, DATA, OF_SHALLOW, put('tiles_data', ('1', HELLO), ('2', OTHER)), put('tiles_shallow', ('1', '0', '1', '1'), ('1', '0', '0', '1'), ('1', '1', '0', '2'), ('1', '1', '1', 'NULL')))
    case(rows, 'CREATE TABLE tiles_shallow (zoom_level, tile_column, tile_row, tile_data_id)', 'CREATE TABLE tiles_data (tile_data_id, tile_data)', OF_SHALLOW, put('tiles_data', ("'a'", HELLO)), put('tiles_shallow', ('1', '0', '1', "'a'")))
    case(rows, CACHE, OF_CACHE, put('tile_cache', ('1', '0', '1', '5', '6', "'e'", HELLO), ('1', '0', '0', '5', 'NULL', 'NULL', OTHER)))


def name_cases(rows):
    case(rows, FLAT, LOOSE_NAMES, put('metadata', ("'name'", "'a'"), ("'name'", "'b'"), ("'none'", 'NULL'), ("'whole'", '5'), ("'real'", '0.5'), ("'blob'", "x'30'"), ("''", "'c'"), ('5', "'d'"), ('NULL', "'e'"),
                                          ("x'30'", "'f'"), ("'empty'", "''"), ("'accent'", "'\u00e9'"), ("'least'", '-9223372036854775808')))
    case(rows, FLAT, 'CREATE TABLE others (a, b)', 'CREATE VIEW metadata AS SELECT a AS name, b AS value FROM others', put('others', ("'name'", "'a'")))
    case(rows, FLAT, 'CREATE TABLE metadata (id INTEGER, value TEXT, name TEXT)', put('metadata', ('1', "'a'", "'name'")))


def view_cases(rows):
    tiles = put('tiles', ('1', '0', '1', HELLO), ('0', '0', '0', OTHER))
    # a table of the name is the set, whatever stands beside it
    for beside in ((HASHED,), (MAP, IMAGES), (SHALLOW, DATA)):
        case(rows, FLAT, *beside, tiles)
    case(rows, FLAT, HASHED, tiles, put('tiles_with_hash', ('2', '0', '1', HELLO, said(HELLO))))
    # a view over another table, beside the empty ones of a layout
    others = ('CREATE TABLE others (a, b, c, d)', 'CREATE VIEW tiles AS SELECT a AS zoom_level, b AS tile_column, c AS tile_row, d AS tile_data FROM others', put('others', ('1', '0', '1', HELLO)))
    for beside in ((HASHED,), (MAP, IMAGES), (SHALLOW, DATA)):
        case(rows, *beside, *others)
    # the tables of a layout without the name
    case(rows, SHALLOW, DATA, put('tiles_data', ('1', HELLO)), put('tiles_shallow', ('1', '0', '1', '1')))
    case(rows, HASHED, put('tiles_with_hash', ('1', '0', '1', HELLO, "'none'")))
    case(rows, CACHE)
    case(rows, MAP, put('map', ('1', '0', '1', said(HELLO))))


def views_of_map(rows):
    """Views over the tables of a layout: those that have exactly its tiles, and those that don't."""
    kept = put('images', (said(HELLO), HELLO), (said(OTHER), OTHER))
    places = put('map', ('1', '0', '1', said(HELLO)), ('3', '0', '1', said(OTHER)), ('2', '1', '3', said(OTHER)))
    columns = 'map.zoom_level, map.tile_column, map.tile_row, images.tile_data'
    named = 'map.zoom_level AS zoom_level, map.tile_column AS tile_column, map.tile_row AS tile_row, images.tile_data AS tile_data'
    linked = 'ON images.tile_id = map.tile_id'
    for text in (f'SELECT {columns} FROM map JOIN images {linked}', f'SELECT {named} FROM images JOIN map {linked}', f'SELECT {columns} FROM map INNER JOIN images ON map.tile_id = images.tile_id',
                 f'SELECT {columns} FROM map JOIN images USING (tile_id)', f'SELECT {columns} FROM images JOIN map USING ("TILE_ID")',
                 f'SELECT tile_data, tile_row, tile_column, zoom_level FROM Map JOIN "images" {linked}', f'select MAP.ZOOM_LEVEL zoom_level, [tile_column], `tile_row`, Images.tile_data as tile_data from map join images on (images.tile_id = map.tile_id)',
                 f'SELECT {named} FROM map JOIN images {linked} WHERE zoom_level < 3', f'SELECT {columns} FROM map JOIN images {linked} WHERE 1', f'SELECT DISTINCT {columns} FROM map JOIN images {linked}',
                 f'SELECT {columns} FROM map JOIN images {linked} LIMIT 1', f'SELECT {columns} FROM map JOIN images {linked} ORDER BY map.zoom_level', f'SELECT {columns} FROM map JOIN images {linked} GROUP BY map.zoom_level',
                 f'SELECT {columns} FROM map LEFT JOIN images {linked}', f'SELECT {columns} FROM map JOIN images ON images.tile_id = map.tile_id AND map.zoom_level < 3', f'SELECT {columns} FROM map, images WHERE images.tile_id = map.tile_id',
                 'SELECT map.zoom_level, map.tile_column, (1 << map.zoom_level) - 1 - map.tile_row AS tile_row, images.tile_data FROM map JOIN images USING (tile_id)',
                 'SELECT map.zoom_level, map.tile_row AS tile_column, map.tile_column AS tile_row, images.tile_data FROM map JOIN images USING (tile_id)',
                 f'SELECT {columns}, map.tile_id FROM map JOIN images {linked}', f'SELECT m.zoom_level, m.tile_column, m.tile_row, i.tile_data FROM map m JOIN images i ON i.tile_id = m.tile_id',
                 f'SELECT {columns} FROM map JOIN images {linked} UNION ALL SELECT 4, 0, 0, images.tile_data FROM images'):
        case(rows, MAP, IMAGES, f'CREATE VIEW tiles AS {text}', kept, places)
    case(rows, MAP, IMAGES, f'CREATE VIEW IF NOT EXISTS "Tiles" AS SELECT {named} FROM map JOIN images {linked}', kept, places)
    case(rows, MAP, IMAGES, f'CREATE VIEW tiles (zoom_level, tile_row, tile_column, tile_data) AS SELECT {columns} FROM map JOIN images {linked}', kept, places)
    case(rows, MAP, IMAGES, SHALLOW, DATA, OF_SHALLOW, kept, places, put('tiles_data', ('1', HELLO)), put('tiles_shallow', ('1', '0', '1', '1')))


def views_of_others(rows):
    """The same of the other layouts."""
    contents, shallow = put('tiles_data', ('1', HELLO), ('2', OTHER)), put('tiles_shallow', ('1', '0', '1', '1'), ('3', '0', '1', '2'))
    columns = 'tiles_shallow.zoom_level, tiles_shallow.tile_column, tiles_shallow.tile_row, tiles_data.tile_data'
    for text in (f'select {columns} from tiles_shallow join tiles_data on tiles_shallow.tile_data_id = tiles_data.tile_data_id', f'SELECT {columns} FROM tiles_shallow JOIN tiles_data USING (tile_data_id)',
                 f'SELECT {columns} FROM tiles_shallow JOIN tiles_data USING (tile_data_id) WHERE zoom_level < 3'):
        case(rows, SHALLOW, DATA, f'CREATE VIEW tiles AS {text}', contents, shallow)
    hashed = put('tiles_with_hash', ('1', '0', '1', HELLO, said(HELLO)), ('3', '0', '1', OTHER, said(OTHER)))
    for text in ('SELECT tiles_with_hash.zoom_level, tile_column AS tile_column, tile_row, tile_data FROM tiles_with_hash', 'SELECT zoom_level, tile_column, tile_row, tile_data FROM tiles_with_hash WHERE zoom_level < 3',
                 'SELECT zoom_level, tile_column, (1 << zoom_level) - 1 - tile_row AS tile_row, tile_data FROM tiles_with_hash', 'SELECT * FROM tiles_with_hash'):
        case(rows, HASHED, f'CREATE VIEW tiles AS {text}', hashed)


def test_cases(rows):
    # two contents of one length and first byte at one place; a number that stands behind one that is right
    case(rows, FLAT, put('tiles', ('1', '0', '1', "x'30313233'"), ('1', '0', '1', "x'30313234'")))
    case(rows, LOOSE, put('tiles', ('1', '0', '1', "x'30'"), ('1', '1', '1', '0')))
    case(rows, LOOSE, put('tiles', ('1', '0', '1', "x'30'"), ('31', '1', '1', '7')))


def random_cases(rows):
    rng = random.Random(20)
    places = [(z, x, y) for z in (0, 1, 2) for x in range(2 ** z) for y in range(2 ** z)]
    contents = ["x''", "x'30'", "x'0102'", 'NULL', "x'30'"]
    for count in range(12):
        chosen = rng.sample(places, rng.randint(1, 12))
        tiles = [(*map(str, place), rng.choice(contents)) for place in chosen]
        order_of = list(PLACE) + ['tile_data']
        rng.shuffle(order_of)
        shuffled = [tuple(dict(zip((*PLACE, 'tile_data'), tile))[name] for name in order_of) for tile in tiles]
        case(rows, f"CREATE TABLE tiles ({', '.join(order_of)})", put('tiles', *shuffled))
        case(rows, HASHED, OF_HASHED, put('tiles_with_hash', *((*tile, 'NULL' if tile[3] == 'NULL' else said(tile[3])) for tile in tiles)))
        kept = sorted({tile[3] for tile in tiles} - {'NULL'})
        known = put('images', *((said(data), data) for data in kept)) if kept else put('images', ('NULL', 'NULL'))
        case(rows, MAP, IMAGES, JOINED, known, put('map', *((*tile[:3], 'NULL' if tile[3] == 'NULL' else said(tile[3])) for tile in tiles)))


def write(rows):
    for cases in (flat_cases, hashed_cases, normalized_cases, other_cases, name_cases, view_cases, views_of_map, views_of_others, test_cases, random_cases):
        cases(rows)
    for line in ('reading', 'reading CREATE~NOTHING'):
        rows.refused(line)
