# What the metadata of a set says, what a document makes of it, and how its zooms are brought up to date, for
# tools/cases/metadata_cases.py.
import json
import re

from models import shown

FIELDS = ('name', 'version', 'description', 'attribution', 'legend', 'template')


def zoom_of(text):
    """A zoom of 0 to 255 in decimal, which may have a plus sign and leading zeros."""
    return int(text) if re.fullmatch(r'\+?[0-9]+', text) and len(text.lstrip('+0')) <= 3 and int(text) <= 255 else None


def has_surrogate(value):
    if isinstance(value, str):
        return any('\ud800' <= c <= '\udfff' for c in value)
    if isinstance(value, dict):
        return any(map(has_surrogate, [*value, *value.values()]))
    return isinstance(value, list) and any(map(has_surrogate, value))


def parsed(text):
    """The value of a text of JSON as a list of one, or an empty list where it isn't JSON, is nested more than 127
    deep, or has a number that is held as a float."""
    try:
        value = json.loads(text, parse_int=shown.whole, parse_float=shown.no_float, parse_constant=shown.no_float)
    except (ValueError, shown.Float, RecursionError):
        return []
    return [] if shown.depth(value) > 127 or has_surrogate(value) else [value]


def span(tiles):
    zooms = [z for z, _, _ in tiles]
    return (min(zooms), max(zooms)) if zooms else None


def within(declared, found):
    """Declared zooms, each a number or None, beside the least and the greatest zoom of the tiles."""
    if found is None:
        return declared
    a, b = found
    p, q = a if declared[0] is None else declared[0], b if declared[1] is None else declared[1]
    return min(a, q, p), min(b, max(a, q, p))


def with_zooms(layer, found):
    low, high = within((layer.get('minzoom'), layer.get('maxzoom')), found)
    return {**layer, 'minzoom': low, 'maxzoom': high}


def said(state, file_name):
    """What a set says of itself: the name of its file, its kind, the document, the value of `json`, and the digest of
    all tiles."""
    names = {name: text for name, text in state.names.items() if text}
    found, other, value = {name: names[name] for name in FIELDS if name in names}, {}, []
    zooms = [zoom_of(names.get(name, '')) for name in ('minzoom', 'maxzoom')]
    taken = (*FIELDS, 'type', 'agg_tiles_hash', 'bounds', 'center', 'minzoom', 'maxzoom', 'scheme', 'json')
    other = {name: text for name, text in names.items() if name not in taken}
    layers = None
    if 'json' in names:
        value = parsed(names['json'])
        if value and isinstance(value[0], dict):
            layers = value[0].pop('vector_layers', None)
            value = value if value[0] else []
    tiles = span(state.tiles)
    low, high = within(zooms, tiles)
    document = {name: shown.option(shown.text(text)) for name, text in found.items()}
    document.update(minzoom=shown.option(low), maxzoom=shown.option(high), other=other)
    for name in ('bounds', 'center'):
        if name in names:
            document[name] = f'Some(Text({shown.text(names[name])}))'
    if shown.layers(layers) is not None:
        document['vector_layers'] = shown.option(shown.layers([with_zooms(layer, tiles) for layer in layers]))
    hashed = names.get('agg_tiles_hash')
    return (shown.text(file_name), shown.option(shown.text(names['type']) if 'type' in names else None), shown.document([], {}, document),
            shown.option(shown.value(value[0]) if value else None), shown.option(None if hashed is None else shown.text(hashed)))


def compact(value):
    """A value of JSON without blanks, its names in the order of their bytes."""
    return json.dumps(value, ensure_ascii=False, separators=(',', ':'), sort_keys=True)


def layer_value(layer):
    return {name: value for name, value in layer.items() if value is not None or name not in ('description', 'minzoom', 'maxzoom')}


def put_by(document, template, zooms, bounds, center):
    """The names and values that a document puts: the members of a text of JSON, and five fields, each None where it
    isn't there. A field wins over a member of its name."""
    put, fields, layers = {}, {}, None
    for name, value in document.items():
        if isinstance(value, str) and name in ('name', 'version', 'description', 'attribution', 'legend'):
            fields[name] = value
        elif isinstance(value, str) and name in ('minzoom', 'maxzoom'):
            continue
        elif not isinstance(value, str) and name == 'vector_layers':
            layers = value
        else:
            put[name] = value if isinstance(value, str) else compact(value)
    fields.update(template=template, bounds=bounds, center=center, minzoom=zooms[0], maxzoom=zooms[1])
    put.update({name: str(value) for name, value in fields.items() if value is not None})
    if layers is not None:
        put['json'] = compact({'vector_layers': [layer_value(layer) for layer in layers]})
    return put


def updated(names, tiles, mode):
    """What bringing the zooms up to date changes: names with the value that is put, or None where they go."""
    found = span(tiles)
    if found is None:
        return {name: None for name in ('minzoom', 'maxzoom') if name in names} if mode == 'reset' else {}
    changes = {}
    for name, computed, grows in (('minzoom', found[0], lambda declared, zoom: zoom < declared), ('maxzoom', found[1], lambda declared, zoom: zoom > declared)):
        declared = zoom_of(names.get(name) or '')
        if declared is None or declared != computed and (mode == 'reset' or mode == 'grow' and grows(declared, computed)):
            changes[name] = str(computed)
    return changes
