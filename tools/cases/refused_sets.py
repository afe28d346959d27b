# Sets that don't load, for the lines of several programs: each by its layout, its rows and the refusal.
from cases.patch_cases import named
from models.hashes import md5
from models.shown import text
from models.tables import bad_index

HASHED = f'IncorrectTileHash {{ stored: {text("ABC")}, computed: {text(md5(bytes([1])))} }}'
OUTSIDE = 'flat', [('tiles', 'i31', 'i0', 'i0', 'x30')], bad_index('i31', 'i0', 'i0')
WRONG_HASH = 'flat-with-hash', [('tiles_with_hash', 'i0', 'i0', 'i0', 'x01', 'tabc')], HASHED
WRONG_ID = 'normalized', [('images', 'tabc', 'x01')], HASHED
GONE = 'normalized', [('map', 'i0', 'i0', 'i0', 'tgone')], f'MissingTileReference {{ tile_id: {text("gone")}, table: Images }}'


def odd_name(layout):
    return layout, [('metadata', 'tname', 'i1')], 'InvalidDataFormat'


def odd_algorithm(name):
    return 'flat', named(('hash_algorithm', name)), f'UnsupportedHashAlgorithm {{ algorithm: {text(name)} }}'
