# The hash of all tiles of a set, by its rules, and the test of the one that is stored.
from models.hashes import digest
from models.names import AGG
from models.shown import text


def data(cell):
    return b'' if cell == 'n' else bytes.fromhex(cell[1:])


def aggregate(algorithm, tiles):
    """The hash of all tiles: their numbers in decimal and their bytes, by zoom, column and row counted from the
    bottom; in hexadecimal, but for no tiles."""
    joined = b''.join(b'%d%d%d%s' % (*place, data(cell)) for place, cell in sorted(tiles.items()))
    return digest('fnv1a' if algorithm == 'fnv1a-decimal' and tiles else algorithm, joined)


def hash_refusal(state):
    """Why the stored hash isn't the computed one, or None."""
    stored, computed = state.names.get(AGG), aggregate(state.algorithm, state.tiles)
    if stored is None:
        return 'AggHashValueNotFound'
    if stored != computed:
        return f'AggHashMismatch {{ computed: {text(computed)}, stored: {text(stored)} }}'
    return None
