# What the tables of a base hold after a conversion, for tools/cases/tileset_rows.py. Whether it is refused comes from
# tools/models/sets.py, and what the patches make of the tables from tools/models/patches.py, which was written apart
# from it: where one takes a chain that the other refuses, or has other tiles or names after it, this fails.
from models import patches
from models.sets import OTHER, TABLES, SetRefused, Text, converted, load


def word(cell):
    """A cell in words, its text as it is."""
    if cell is None:
        return 'n'
    if cell is OTHER:
        return 'o'
    if isinstance(cell, int):
        return f'i{cell}'
    return 't' + cell.decode() if isinstance(cell, Text) else 'x' + cell.hex()


def words(store):
    return {name: [tuple(map(word, row)) for row in store.rows(name)] for name in store.tables}


def state(store, tables=None):
    layout, kind = ('flat', 'BinDiffGz') if store.layout == 'flat-bsdiff' else (store.layout, None)
    return patches.State(layout, tables or words(store), kind)


def patched(script, tables):
    """The tables of the base after all patches, or None where one is refused."""
    base = script.stores[0]
    for patch in script.stores[1:]:
        try:
            patches.tests(state(base, tables), state(patch), script.options['force'])
        except patches.PatchRefused:
            return None
        patches.apply(state(base, tables), tables, state(patch), patches.order)
    return tables


def is_loaded(store):
    try:
        load(store)
    except SetRefused:
        return False
    return True


def base_after(script):
    """How a script's conversion ends, None or a refusal, and the rows of each table of the base afterwards."""
    end = converted(script.stores, script.options['force'], script.options['verify'])
    if not isinstance(end, bytes):
        after = patched(script, words(script.stores[0]))
        assert after is not None, 'tools/models/sets.py takes what tools/models/patches.py refuses'
        held = state(script.stores[0], after)
        assert held.tiles == {place: word(data) for place, data in end.tiles.items()}
        assert held.names == {name.decode(): None if value is None else value.decode() for name, value in end.names.items()}
        return None, after
    place = int(end.split()[1])
    if place > 0 and all(map(is_loaded, script.stores)):
        assert patched(script, words(script.stores[0])) is None, 'tools/models/patches.py takes what tools/models/sets.py refuses'
    return end, words(script.stores[0])


def spelled(tables, escaped):
    """The rows as they are printed, each with the name of its table."""
    def cell(word):
        return 't' + escaped(word[1:].encode()) if word[0] == 't' else word
    return ''.join(' '.join([name, *map(cell, row)]) + '; ' for name in TABLES for row in tables.get(name, []))
