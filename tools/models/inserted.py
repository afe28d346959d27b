# What putting a batch of tiles makes of the tables of a set, and when it is refused, for tools/cases/insert_cases.py.
import collections

from models import shown
from models.hashes import digest
from models.held_sets import tile_row
from models.names import CONTENT_TABLES


def is_place(z, x, y):
    return z <= 30 and x < 2 ** z and y < 2 ** z


def chosen(tiles, mode, batch):
    """The tiles of a batch that are put: the last one at a place, or the first where the set has none."""
    put = {}
    for place, data in batch:
        if mode == 'ignore' and (place in tiles or place in put):
            continue
        put[place] = data
    return put


def collision(state, put):
    """The id of the first tile by zoom, column and row from the bottom whose contents stand under an id of other
    contents, of another cell, or of other contents of the batch."""
    ids = {data: digest(state.algorithm, data) for data in put.values()}
    shared = collections.Counter(ids.values())
    for place in sorted(put):
        data = put[place]
        if state.contents.get('t' + ids[data]) not in (None, 'x' + data.hex()) or shared[ids[data]] > 1:
            return ids[data]
    return None


def insert(held, mode, batch):
    """The answer; the tables of the set are changed where it is Ok."""
    if held.layout == 'dedup-id':
        return 'Err(UnsupportedCopyOperation)'
    for z, x, y, _ in batch:
        if not is_place(z, x, y):
            return f'Err(InvalidTileIndex {{ zoom_level: Int({z}), tile_column: Int({x}), tile_row: Int({y}) }})'
    placed = [((z, x, 2 ** z - 1 - y), data) for z, x, y, data in batch]
    state = held.state()
    if mode == 'abort' and (any(place in state.tiles for place, _ in placed) or len(dict(placed)) < len(placed)):
        return 'Err(DuplicateValues)'
    put = chosen(state.tiles, mode, placed)
    if held.layout in CONTENT_TABLES:
        collides = collision(state, put)
        if collides is not None:
            return f'Err(IdCollision {{ id: {shown.text(collides)} }})'
    for place, data in put.items():
        for name, *cells in tile_row(held.layout, state.algorithm, place, data):
            held.put(name, cells)
    return 'Ok(())'
