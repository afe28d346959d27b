# The names of tile sets and archives that all scripts here read: tables with their columns and keys, layouts,
# algorithms of digests, tile types and compressions.

PLACE = [('zoom_level', 'INTEGER'), ('tile_column', 'INTEGER'), ('tile_row', 'INTEGER')]
DATA = ('tile_data', 'BLOB')
TABLES = {
    'tiles': PLACE + [DATA],
    'tiles_with_hash': PLACE + [DATA, ('tile_hash', 'TEXT')],
    'map': PLACE + [('tile_id', 'TEXT')],
    'images': [('tile_id', 'TEXT'), DATA],
    'tiles_shallow': PLACE + [('tile_data_id', 'INTEGER')],
    'tiles_data': [('tile_data_id', 'INTEGER'), DATA],
    'tile_cache': PLACE + [('fetched', 'INTEGER'), ('expires', 'INTEGER'), ('etag', 'TEXT'), DATA],
    'metadata': [('name', 'TEXT'), ('value', 'TEXT')],
}
# how many of the columns are the key, the first ones
KEYS = {name: 1 if len(columns) == 2 else 3 for name, columns in TABLES.items()}
VARIANTS = dict(zip(TABLES, ['Tiles', 'TilesWithHash', 'Map', 'Images', 'TilesShallow', 'TilesData', 'TileCache', 'Metadata']))

# Layouts, by the debug text of the type that says them.
NORMALIZED = 'Normalized {{ hash_view: {}, schema: {} }}'
LAYOUTS = {'flat': 'Flat', 'flat-with-hash': 'FlatWithHash', 'normalized': NORMALIZED.format('false', 'Hash'), 'normalized-with-view': NORMALIZED.format('true', 'Hash'),
           'dedup-id': NORMALIZED.format('false', 'DedupId'), 'dedup-id-with-view': NORMALIZED.format('true', 'DedupId'), 'cache': 'Cache'}
# the table of tiles and that of contents by layout, for the six layouts that are detected as they are named
TILE_TABLES = {'flat': 'tiles', 'flat-with-hash': 'tiles_with_hash', 'normalized': 'map', 'normalized-with-view': 'map', 'dedup-id': 'tiles_shallow', 'cache': 'tile_cache'}
CONTENT_TABLES = {'normalized': 'images', 'normalized-with-view': 'images', 'dedup-id': 'tiles_data'}
# the column of a tile's bytes where they stand in the table of tiles
DATA_COLUMNS = {layout: TABLES[name].index(DATA) for layout, name in TILE_TABLES.items() if DATA in TABLES[name]}

# Algorithms of digests by their words, and the names of a set's metadata that hold hashes of all tiles.
ALGORITHMS = {'md5': 'Md5', 'fnv1a': 'Fnv1a', 'fnv1a-decimal': 'Fnv1aDecimal', 'xxh64': 'Xxh64', 'xxh3': 'Xxh3'}
AGG, BEFORE, AFTER = 'agg_tiles_hash', 'agg_tiles_hash_before_apply', 'agg_tiles_hash_after_apply'

# Compressions and tile types by their bytes in a header.
COMPRESSIONS = ['Unknown', 'None', 'Gzip', 'Brotli', 'Zstd']
TYPES = ['Unknown', 'Mvt', 'Png', 'Jpeg', 'Webp', 'Avif', 'Mlt']
# the words of a type under `format` in metadata and as the ending of a file, the first as it is written
TYPE_WORDS = {'Mvt': ('pbf', 'mvt'), 'Png': ('png',), 'Jpeg': ('jpg', 'jpeg'), 'Webp': ('webp',), 'Avif': ('avif',), 'Mlt': ('mlt',)}
MEDIA_TYPES = {'Mvt': ('x-protobuf', 'protobuf', 'application/x-protobuf', 'application/vnd.mapbox-vector-tile'), 'Png': ('image/png',), 'Jpeg': ('image/jpg', 'image/jpeg'),
               'Webp': ('image/webp',), 'Avif': ('image/avif',), 'Mlt': ('application/vnd.maplibre-vector-tile',)}
# the names of metadata that say nothing of an archive, or are said by other options
LEFT_OUT = ('format', 'minzoom', 'maxzoom', 'bounds', 'center', 'json', 'scheme', 'hash_algorithm', AGG, BEFORE, AFTER)
