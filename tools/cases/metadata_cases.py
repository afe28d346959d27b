# Rows on the metadata of a set, for tools/cases/mbtiles_rows.py. The tables are printed after each call that changes
# them.
import json
import random

from cases.patch_cases import named
from cases.refused_sets import GONE, WRONG_HASH, odd_algorithm, odd_name
from cases.rows import text_word
from models import shown
from models.described_sets import parsed, put_by, said, updated, zoom_of
from models.held_sets import Held
from models.names import TILE_TABLES
from models.patches import remove
from models.tables import bad_index

NAMES = ('name', 'version', 'description', 'attribution', 'legend', 'template', 'type', 'agg_tiles_hash', 'bounds', 'center', 'scheme', 'format', 'generator', 'compression', 'agg_tiles_hash_before_apply',
         'agg_tiles_hash_after_apply', 'id', 'tiles', 'vector_layers', 'Name', 'name ', 'minZoom', '')
ZOOMS = ('0', '5', '7', '005', '+5', '-5', '-0', '+0', '+', '++5', '255', '256', '1000', '5.0', '1e1', ' 5', '5 ', '0x5', 'x', '٣', '0' * 30 + '5', '9' * 30)
DEEP = [('[' * n + ']' * n, '{"a":' * n + '1' + '}' * n) for n in (1, 126, 127, 128, 200)]
JSON = ['{}', ' { } ', 'null', 'true', '1', '"text"', '[]', '[1,"a",null]', '{"a":1}', '{"a":1,"a":2}', '{"vector_layers":[],"vector_layers":1,"b":2}', '{"b":1,"a":{"d":[],"c":"\\u00e9\\n\\""}}',
        '18446744073709551615', '18446744073709551616', '-9223372036854775808', '-9223372036854775809', '-0', '0', '1.5', '1.0', '1e2', '1E400', '[1,2.5]', '{"a":{"b":[1e0]}}', '{"vector_layers":[],"a":0.5}',
        'nothing', '{', '{"a":1,}', "{'a':1}", '[01]', '{"a":1} x', '\ufeff{}', '"\\ud800"', '"\\ud83d\\ude00"', 'NaN', '[Infinity]', '{"vector_layers":null}', '{"vector_layers":null,"a":1}',
        '{"vector_layers":[{"id":"a","fields":{},"maxzoom":1.0}]}', '{"vector_layers":"a","b":"c"}', '{"tilestats":{"layerCount":0}}']
JSON += [f'{{"vector_layers":{layers}}}' for layers in shown.LAYERS] + [f'{{"a":true,"vector_layers":{layers}}}' for layers in shown.LAYERS[2:7]] + [text for pair in DEEP for text in pair]


def tiles_at(*zooms):
    return [('tiles', f'i{z}', 'i0', 'i0', 'x30') for z in zooms]


def get(rows, held, file_name='set'):
    rows.row('meta get ' + text_word(file_name), *said(held.state(), file_name))


def value_answer(held, name):
    text = held.state().names.get(name)
    return f'Ok({shown.option(None if text is None else shown.text(text))})'


def zoom_answer(held, name):
    text = held.state().names.get(name)
    if text is not None and zoom_of(text) is None:
        return f'Err(InvalidZoomValue("{name}", {shown.text(text)}))'
    return f'Ok({shown.option(None if text is None else zoom_of(text))})'


def ask(rows, held, *names):
    for name in names:
        rows.row('meta value ' + text_word(name), value_answer(held, name))
    for name in ('minzoom', 'maxzoom'):
        rows.row('meta zoom ' + name, zoom_answer(held, name))


def values(rows):
    """Each name with a text, with none, with null, with a long text, and with signs that are escaped."""
    for name in NAMES:
        for text in ('a', '', None, 'long ' * 200, 'é "quoted" \\ \n\t\x7f end'):
            held = Held(rows, 'flat', named((name, text), ('maxzoom', '3')))
            get(rows, held)
            ask(rows, held, name)
    held = Held(rows, 'flat', [*named(*((name, 'value of ' + name) for name in NAMES)), ('metadata', 'n', 'tnobody'), ('metadata', 'n', 'n'), *tiles_at(3, 4)])
    get(rows, held)
    ask(rows, held, *NAMES)
    for path in ('a/b.c', '', 'unknown', 'é "'):
        get(rows, held, path)
    get(rows, Held(rows, 'flat', named(('hash_algorithm', 'XXH3'))))
    for layout in TILE_TABLES:
        held = Held(rows, layout, named(('name', 'town'), ('minzoom', '2')))
        get(rows, held)
        ask(rows, held, 'name')


def declared_zooms(rows):
    """Declared zooms, readable or not, beside those of the tiles, of the set and of its layers."""
    for text in ZOOMS:
        for tiles in ([], tiles_at(4, 6)):
            held = Held(rows, 'flat', [*named(('minzoom', text), ('maxzoom', text)), *tiles])
            get(rows, held)
            ask(rows, held)
    layer = '{"vector_layers":[{"id":"a","fields":{},"minzoom":%s,"maxzoom":%s}]}'
    for low in (None, 0, 2, 3, 5, 9):
        for high in (None, 0, 2, 4, 5, 9):
            pairs = [(name, str(zoom)) for name, zoom in (('minzoom', low), ('maxzoom', high)) if zoom is not None]
            for tiles in (tiles_at(2, 3, 5), tiles_at(0), []):
                get(rows, Held(rows, 'flat', [*named(*pairs, ('json', layer % (json.dumps(high), json.dumps(low)))), *tiles]))
    # null counts as a tile, and a row without an id doesn't
    get(rows, Held(rows, 'flat', [('tiles', 'i6', 'i0', 'i0', 'n'), *named(('minzoom', '2'), ('maxzoom', '4')), *tiles_at(0)]))
    get(rows, Held(rows, 'normalized', [('map', 'i6', 'i0', 'i0', 'n'), *named(('minzoom', '2'), ('maxzoom', '4'))]))


def json_values(rows):
    for text in JSON:
        get(rows, Held(rows, 'flat', [*named(('json', text), ('name', 'town')), *tiles_at(2)]))
        get(rows, Held(rows, 'flat', named(('json', text))))
    get(rows, Held(rows, 'flat', named(('json', '[' * 5000 + ']' * 5000))))
    get(rows, Held(rows, 'flat', named(('json', '{"a":"' + 'long ' * 400 + '"}'))))


def change(rows, held, line, changes):
    """A call that puts values or takes names away, and the tables after it."""
    for name, text in changes.items():
        if text is None:
            remove(held.tables['metadata'], ['t' + name])
        else:
            held.put('metadata', ['t' + name, 't' + text])
    rows.row(line, 'Ok(())')
    held.say()


def single_values(rows):
    """One name is put, asked for, and taken away."""
    word = text_word
    pushes = [*named(('name', 'old'), ('bounds', None), ('maxzoom', 'x')), ('metadata', 'n', 'tnobody'), ('metadata', 'n', 'n'), *tiles_at(1)]
    for name in ('name', 'bounds', 'maxzoom', 'new', '', 'agg_tiles_hash', 'hash_algorithm', 'é', 'with blank'):
        held = Held(rows, 'flat', pushes)
        for text in ('a', '', 'md5', 'xxh3') if name != 'hash_algorithm' else ('md5', 'xxh3'):
            change(rows, held, f'meta set {word(name)} {word(text)}', {name: text})
            ask(rows, held, name)
        change(rows, held, 'meta delete ' + word(name), {name: None})
        ask(rows, held, name)
        change(rows, held, 'meta delete ' + word(name), {name: None})
    for layout in TILE_TABLES:
        held = Held(rows, layout, [])
        change(rows, held, 'meta set tname ta', {'name': 'a'})
        ask(rows, held, 'name')
        change(rows, held, 'meta delete tname', {'name': None})
        ask(rows, held, 'name')
    # an algorithm that isn't known is put, and refuses all that follows
    held = Held(rows, 'flat', [])
    change(rows, held, 'meta set thash_algorithm tcrc32', {'hash_algorithm': 'crc32'})
    refused(rows, f'UnsupportedHashAlgorithm {{ algorithm: {shown.text("crc32")} }}')
    for line in ('meta', 'meta get', 'meta value', 'meta set tname', 'meta zoom name', 'meta zoom zoom', 'meta update', 'meta update all', 'meta insert t{}', 'meta none'):
        rows.refused(line)


def refused(rows, refusal):
    rows.row('meta get tset', refusal)
    for line in ('meta value tname', 'meta zoom minzoom', 'meta set tname ta', 'meta delete tname', 'meta update reset', 'meta update grow', 'meta update skip', 'meta insert t{} - - - - -'):
        rows.row(line, f'Err({refusal})')


def refusals(rows):
    """The first refusal of loading comes from each call, and nothing is changed."""
    outside = 'flat', [*tiles_at(31), *named(('minzoom', '1'))], bad_index('i31', 'i0', 'i0')
    for layout, pushes, refusal in (outside, odd_name('flat'), odd_algorithm(''), WRONG_HASH, GONE):
        held = Held(rows, layout, pushes)
        refused(rows, refusal)
        held.say()
    rows.row('set none')
    refused(rows, 'InvalidDataFormat')


def update(rows, held, mode):
    state = held.state()
    change(rows, held, 'meta update ' + mode, updated(state.names, state.tiles, mode))


def updates(rows):
    """Each order of what is declared and what is computed, in each mode."""
    for low in ('absent', None, '', 'x', '1', '2', '002', '4', '9'):
        for high in ('absent', None, '', 'x', '1', '5', '+5', '9'):
            pairs = [(name, text) for name, text in (('minzoom', low), ('maxzoom', high)) if text != 'absent']
            for mode in ('reset', 'grow', 'skip'):
                update(rows, Held(rows, 'flat', [*named(*pairs), *tiles_at(2, 3, 5)]), mode)
    for mode in ('reset', 'grow', 'skip'):
        for pairs in ([], [('minzoom', '1')], [('maxzoom', 'x'), ('minzoom', None)], [('minzoom', '2'), ('maxzoom', '4'), ('name', 'town')]):
            update(rows, Held(rows, 'flat', named(*pairs)), mode)
            for layout in TILE_TABLES:
                pushes = {'normalized': [('map', 'i3', 'i0', 'i0', 'n')], 'cache': [('tile_cache', 'i3', 'i0', 'i0', 'n', 'n', 'n', 'n')]}.get(layout, [])
                update(rows, Held(rows, layout, [*named(*pairs), *pushes]), mode)
        update(rows, Held(rows, 'flat', [*named(('minzoom', '2'), ('maxzoom', '4')), *tiles_at(*range(7))]), mode)
    held = Held(rows, 'flat', [*named(('minzoom', '2'), ('maxzoom', '4')), *tiles_at(*range(7))])
    get(rows, held)
    rows.row('read zooms', 'Ok(Some((0, 6)))')


DOCUMENTS = [
    ('{"name":"only"}', {}), ('{}', {}), ('{"name":"a","version":"b","description":"c","attribution":"d","legend":"e"}', {}),
    ('{}', {'template': 'f'}), ('{}', {'zooms': (0, 255)}), ('{}', {'zooms': (None, 7)}), ('{}', {'bounds': 'whole:-1800000000,-850511290,1800000000,850511290'}), ('{}', {'center': 'whole:-1,2147483647,255'}),
    ('{}', {'bounds': 'whole:-2147483648,0,0,-1', 'center': 'whole:0,0,0'}), ('{}', {'bounds': '-180,-85,180,85', 'center': '1.5,2.5,3'}), ('{}', {'bounds': '', 'center': ''}),
    ('{"name":"","a":"","b":"text"}', {'template': ''}), ('{"a":null,"b":true,"c":18446744073709551615,"d":-9223372036854775808,"e":[1,{"z":"y","x":[]}],"f":{"b":2,"a":{"é":"\\n\\"\\\\\\u0001\\u007f/"}}}', {}),
    # members of the names of fields: the field wins
    ('{"template":"member","bounds":"member","center":"member","type":"overlay","json":"member","format":"pbf"}', {'template': 'field', 'bounds': 'whole:1,2,3,4', 'center': 'field'}),
    ('{"minzoom":1,"maxzoom":[2]}', {}), ('{"minzoom":1,"maxzoom":[2]}', {'zooms': (3, 4)}), ('{"minzoom":"5","maxzoom":"6"}', {}), ('{"name":1,"json":{"a":[]}}', {}),
    ('{"vector_layers":[]}', {}), ('{"vector_layers":"text"}', {}), ('{"json":"member","vector_layers":[{"id":"a","fields":{}}]}', {}),
    ('{"vector_layers":[{"id":"b","fields":{"z":"1","a":"\\"é\\""},"description":"d","minzoom":0,"maxzoom":255,"more":[1,null],"A":"first"},{"fields":{},"id":"","description":null,"minzoom":null}]}', {'zooms': (1, 2)}),
    ('{"scheme":"xyz","agg_tiles_hash":"none","agg_tiles_hash_after_apply":"B","hash_algorithm":"XXH3"}', {}), ('{"":"no name","with blank":"é"}', {}), ('{"long":"' + 'long ' * 300 + '"}', {}),
    ('{"hash_algorithm":"crc32"}', {}), ('{"deep":' + '[' * 126 + ']' * 126 + '}', {})]


def insert_line(rows, text, more):
    def part(name):
        given = more.get(name)
        return '-' if given is None else given if given.startswith('whole:') else text_word(given)
    zooms = ' '.join('-' if zoom is None else str(zoom) for zoom in more.get('zooms', (None, None)))
    return f"meta insert {text_word(text)} {part('template')} {zooms} {part('bounds')} {part('center')}"


def insert(rows, held, text, more):
    extent = [None if more.get(name) is None else more[name].removeprefix('whole:') for name in ('bounds', 'center')]
    change(rows, held, insert_line(rows, text, more), put_by(parsed(text)[0], more.get('template'), more.get('zooms', (None, None)), *extent))


def documents(rows):
    """Each document is put into an empty set and over one with names, and read back."""
    full = [*named(('name', 'old'), ('minzoom', '9'), ('maxzoom', 'x'), ('json', '{"old":1}'), ('a', None), ('bounds', None), ('kept', 'kept')), ('metadata', 'n', 'tnobody'), *tiles_at(3, 4)]
    for text, more in DOCUMENTS:
        for pushes in ([], full):
            held = Held(rows, 'flat', pushes)
            insert(rows, held, text, more)
            if '"crc32"' in text:
                rows.row('meta get tset', f'UnsupportedHashAlgorithm {{ algorithm: {shown.text("crc32")} }}')
            else:
                get(rows, held)
    for layout in TILE_TABLES:
        held = Held(rows, layout, [])
        insert(rows, held, *DOCUMENTS[0])
        get(rows, held)
    for text in ('{"a":1.5}', '[]', '{', '{"vector_layers":1}', '{"vector_layers":[{"id":"a","fields":{},"more":1e2}]}', '{"a":18446744073709551616}'):
        rows.refused(insert_line(rows, text, {}))


def faults(rows):
    """Each call of the store fails in turn, the last of which is the commit where the call changes something. The
    store stands as it was, and the call is made after that."""
    pushes = [*named(('name', 'old'), ('minzoom', '4')), *tiles_at(3)]
    for line, changes in (('meta set tname tnew', {'name': 'new'}), ('meta delete tname', {'name': None}), ('meta update reset', {'minzoom': '3', 'maxzoom': '3'}), ('meta insert t{"name":"put"} - - - - -', {'name': 'put'})):
        held = Held(rows, 'flat', pushes)
        for number in range(1, held.load_calls() + 2):
            held.fail(number)
            rows.row(line, 'Err(StoreFault)')
            held.asked += number
        rows.row('set fail')
        held.say()
        change(rows, held, line, changes)
    for line in ('get tset', 'value tname', 'zoom minzoom'):
        held = Held(rows, 'flat', pushes)
        for number in range(1, held.load_calls() + 1):
            held.fail(number)
            rows.row('meta ' + line, 'StoreFault' if line.startswith('get') else 'Err(StoreFault)')
            held.asked += number
        rows.row('set fail')
        held.say()


def random_metadata(rows):
    chance = random.Random(33)
    texts = ['', 'a', None, '5', '3', '{"a":1}', '{"vector_layers":[{"id":"a","fields":{"b":"c"},"minzoom":4}]}', '{"vector_layers":[],"z":[]}', 'x']
    for _ in range(120):
        names = chance.sample([*NAMES, 'json', 'json', 'minzoom', 'maxzoom'], chance.randrange(1, 8))
        held = Held(rows, 'flat', [*named(*((name, chance.choice(texts)) for name in dict.fromkeys(names))), *tiles_at(*chance.sample(range(8), chance.randrange(3)))])
        get(rows, held)
        update(rows, held, chance.choice(['reset', 'grow', 'skip']))
        insert(rows, held, *chance.choice([d for d in DOCUMENTS if 'hash_algorithm' not in d[0]]))
        get(rows, held)


def labels(rows):
    rows.row('meta words', 'reset|', 'grow-only|', 'skip|', 'Reset', 'GrowOnly', 'Skip', 'Reset')


def write(rows):
    for cases in (labels, values, declared_zooms, json_values, single_values, refusals, updates, documents, faults, random_metadata):
        cases(rows)
