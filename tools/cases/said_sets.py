"""Cases of conversions that hold all contents, with the options that a set says of itself."""
from cases.archives_again import adds_of, archive, tile_id
from cases.set_scripts import (four_ways, random_chains, refused_patches, refused_sets, removes_the_tile, verified_sets,
                               worked_patches, worked_sets)
from cases.streamed_sets import options_said, says_of_itself, told
from cases.tileset_runs import case, escaped, hindered, NO_TILE, ONE_TILE, shown
from models.bases import base_after, spelled as rows_of, words as words_of
from models.scripts import parsed
from models.sets import converted


def said(script, held=b""):
    """A conversion over stores of a script's rows with the options that the set says of itself, whatever options of
    an archive the script has."""
    given = parsed(script.encode())
    refusal, after = base_after(given)
    rows = rows_of(after, escaped)
    fields = ["said", escaped(script.encode()), held.hex()]
    if held:
        rows = rows_of(words_of(given.stores[0]), escaped)
        return case(fields, f"1|refused: medium not empty {len(held)}|{rows}|{len(held)}|{shown(held, 64)}")
    if refusal is not None:
        return case(fields, f"1|{shown(b'refused: ' + refusal, 4000)}|{rows}|0|")
    state = converted(given.stores, given.options["force"], given.options["verify"])
    adds = adds_of(state.tiles)
    whole, numbers = archive(options_said(state), adds)
    found, numbers = dict(adds), dict(numbers)
    answers = [found.get(tile_id(z, x, y)) for z, x, y in given.queries]
    tiles = "".join(("none" if it is None else shown(it, 4000)) + " " for it in answers)
    case(fields, f"{tiles}|0|{shown(told(state, numbers).encode(), 4000)}|{rows}|{len(whole)}|{shown(whole, 64)}")


def says():
    """What such conversions come to, and the same of other sets; then each call of their objects fails in turn."""
    for script in says_of_itself():
        said(script)
    for scripts in [worked_sets, verified_sets, refused_sets, worked_patches, refused_patches, four_ways]:
        for script in scripts():
            if not isinstance(parsed(script.encode()), int):
                said(script)
    for script in random_chains(25, 40):
        if not isinstance(parsed(script.encode()), int):
            said(script)
    for script, held in [(ONE_TILE, b"a"), ("base none\n", b"c"), (removes_the_tile(), b"PMTiles")]:
        said(script, held)
    for script in [ONE_TILE, NO_TILE, removes_the_tile(), *four_ways()]:
        if base_after(parsed(script.encode()))[0] is None:
            hindered(script, "hindered-said")
