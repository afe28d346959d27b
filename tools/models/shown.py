# Debug texts of values that the rows programs print, and what a document says by the rules of metadata.
import functools
import json


ESCAPES = {'\\': '\\\\', '"': '\\"', '\0': '\\0', '\t': '\\t', '\n': '\\n', '\r': '\\r'}


@functools.lru_cache(65536)
def quoted(text):
    return '"' + ''.join(ESCAPES.get(c) or (f'\\u{{{ord(c):x}}}' if ord(c) < 32 or ord(c) == 127 else c) for c in text) + '"'


def text(text):
    return f'TextVal {{ text: {quoted(text)} }}'


def json_value(value):
    if value is None:
        return 'Null'
    if value is True or value is False:
        return f'Bool({str(value).lower()})'
    if isinstance(value, int):
        return f'Number({value})'
    if isinstance(value, str):
        return f'String({quoted(value)})'
    if isinstance(value, list):
        return 'Array [' + ', '.join(map(json_value, value)) + ']'
    return 'Object {' + ', '.join(f'{quoted(n)}: {json_value(v)}' for n, v in in_order(value)) + '}'


def value(value):
    return f'JsonVal {{ value: {json_value(value)} }}'


def in_order(fields):
    return sorted(fields.items(), key=lambda field: field[0].encode())


def fields(of, show):
    return 'TextMap { entries: [' + ', '.join(f'({text(n)}, {show(v)})' for n, v in in_order(of)) + '] }'


def option(x):
    return 'None' if x is None else f'Some({x})'


def places(of):
    """Where the parts of an archive that was written lie, and how much is in them."""
    names = ('length', 'root_length', 'leaf_offset', 'leaf_length', 'leaves', 'uppers', 'data_offset', 'data_length', 'addressed', 'entries', 'contents')
    return 'ArchivePlaces { ' + ', '.join(f'{n}: {of[n]}' for n in names) + ' }'


def flag(x):
    return 'true' if x else 'false'


def optional(of, name, show):
    return option(None if of.get(name) is None else show(of[name]))


def layer(of):
    own = ('id', 'fields', 'description', 'minzoom', 'maxzoom')
    other = {n: v for n, v in of.items() if n not in own}
    return (f"VectorLayer {{ id: {text(of['id'])}, fields: {fields(of['fields'], text)}, description: {optional(of, 'description', text)}, "
            f"minzoom: {optional(of, 'minzoom', str)}, maxzoom: {optional(of, 'maxzoom', str)}, other: {fields(other, value)} }}")


def is_zoom(x):
    return x is None or isinstance(x, int) and not isinstance(x, bool) and 0 <= x <= 255


def is_layer(of):
    return (isinstance(of, dict) and isinstance(of.get('id'), str) and isinstance(of.get('fields'), dict)
            and all(isinstance(v, str) for v in of['fields'].values())
            and (of.get('description') is None or isinstance(of['description'], str)) and is_zoom(of.get('minzoom')) and is_zoom(of.get('maxzoom')))


def layers(of):
    """The layers that a value lists, or None where it lists none."""
    if not isinstance(of, list) or not all(map(is_layer, of)):
        return None
    return 'LayerList { layers: [' + ', '.join(map(layer, of)) + '] }'


class Float(Exception):
    """A number that is held as a float."""


def whole(digits):
    n = int(digits)
    if digits == '-0' or not -2 ** 63 <= n < 2 ** 64:
        raise Float
    return n


def no_float(_):
    raise Float


def depth(of):
    if isinstance(of, (list, dict)):
        return 1 + max(map(depth, of.values() if isinstance(of, dict) else of), default=0)
    return 0


def members(text):
    """The members of an object of JSON that nests at most 127 deep, None of any other text."""
    def refuse(_):
        raise ValueError
    try:
        of = json.loads(text, parse_constant=refuse)
    except (ValueError, RecursionError):
        return None
    return of if isinstance(of, dict) and depth(of) <= 127 else None


def said(metadata):
    """What metadata says: its fields, with `other`; None where it is refused."""
    try:
        of = json.loads(metadata, parse_int=whole, parse_float=no_float, parse_constant=no_float)
    except (ValueError, Float, RecursionError):
        return None
    if not isinstance(of, dict) or depth(of) > 127:
        return None
    found, other = {}, {}
    for name, v in of.items():
        if isinstance(v, str):
            if name in ('description', 'attribution', 'legend', 'name', 'version'):
                found[name] = option(text(v))
            elif name not in ('minzoom', 'maxzoom'):
                other[name] = v
        elif name == 'vector_layers':
            if layers(v) is None:
                return None
            found[name] = option(layers(v))
        else:
            other[name] = v
    found['other'] = other
    return found


def document(sources, header, found):
    names = ('name', 'version', 'description', 'attribution', 'legend', 'template', 'minzoom', 'maxzoom', 'bounds', 'center', 'vector_layers')
    texts = ', '.join(map(text, sources))
    parts = [f'tiles: TextList {{ texts: [{texts}] }}'] + [f"{n}: {header.get(n) or found.get(n, 'None')}" for n in names]
    return 'TileJson { ' + ', '.join(parts) + f", other: {fields(found.get('other', {}), value)} }}"


LAYERS = [
    '[]', '[{"id": "a", "fields": {}}]',
    '[{"id": "a", "fields": {"k": "v", "b": "c"}, "description": "d", "minzoom": 0, "maxzoom": 255}]',
    '[{"id": "a", "fields": {}, "description": null, "minzoom": null, "maxzoom": null}]',
    '[{"id": "a", "fields": {}}, {"id": "", "fields": {}, "maxzoom": 7}]',
    '[{"id": "a", "fields": {}, "source": [1], "Id": "b"}]',
    'null', '{}', 'true', '[1]', '[{"fields": {}}]', '[{"id": null, "fields": {}}]', '[{"id": 1, "fields": {}}]', '[{"id": "a"}]', '[{"id": "a", "fields": null}]',
    '[{"id": "a", "fields": ["b"]}]', '[{"id": "a", "fields": {"b": 1}}]', '[{"id": "a", "fields": {}, "description": 1}]',
    '[{"id": "a", "fields": {}, "minzoom": 256}]', '[{"id": "a", "fields": {}, "minzoom": -1}]', '[{"id": "a", "fields": {}, "minzoom": "1"}]',
    '[{"id": "a", "fields": {}, "maxzoom": true}]', '[{"id": "a", "fields": {}}, {"id": "b"}]']

METADATA = [
    '{}', ' { } ', '{"name": "a"}', '{"version": "a"}', '{"description": "a"}', '{"attribution": "a"}', '{"legend": "a"}', '{"template": "a"}',
    '{"legend": "a", "version": "b", "name": "c"}', '{"name": "a", "name": "b"}', '{"minzoom": "5", "maxzoom": "6"}', '{"minzoom": 5, "maxzoom": 6}',
    '{"vector_layers": "a"}', '{"name": 1, "description": null}', '{"z": [1, {"y": true}], "a": "b"}', '{"Name": "a", "bounds": "0,0,1,1"}',
    '{"a": 18446744073709551615}', '{"a": -9223372036854775808}', '{"a": "é"}', '{"tiles": ["a"], "other": {}}',
    '', ' ', 'a', '[1]', '1', 'null', '"{}"', '{}{}', '{"a": 1', '{"a": 1.5}', '{"a": 1e2}', '{"a": [{"b": 1.0}]}', '{"a": 18446744073709551616}',
    '{"a": -9223372036854775809}', '{"a": -0}', '{a: 1}', '{"a": 1,}', '{"a" 1}', '{"a": 01}', '{"a": +1}', "{'a': 1}"]
METADATA += [f'{{"vector_layers": {v}}}' for v in LAYERS]
METADATA += ['{"vector_layers": [{"id": "a", "fields": {}, "maxzoom": 1.0}]}']
METADATA += ['{"a":' + '[' * n + ']' * n + '}' for n in (1, 125, 126, 127, 128, 3000)] + ['{"a":}']
