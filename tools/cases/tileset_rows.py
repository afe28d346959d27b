"""Writes the cases of crates/tileset_rows, and what they must print, by the definitions of the formats alone.

    tools/make_cases tileset_rows

It writes crates/tileset_rows/stdin and stdout. No answer comes from the converter: ids are by Hilbert's curve as the PMTiles
specification has it, archives by version 3 of that specification and the rules of docs/ARCHITECTURE.md, digests by hashlib.

Ids and archives are laid out a second time by archives_again.py. The same holds of sets: tools/models/sets.py loads and patches them
as they are converted, tools/models/patches.py works on the rows of the tables, and tools/models/bases.py holds one against the other.
"""
import os

from cases.rows import TOP
from cases.set_scripts import (bad_rows, four_ways, QUERY, random_chains, refused_patches, refused_sets, removes_the_tile, verified_sets,
                               worked_patches, worked_sets)
from cases.collided_streams import collided_streams
from cases.measured_sets import again, measured
from cases.odd_streams import odd_streams
from cases.patched_digests import patched_digests
from cases.patched_streams import patched_streams
from cases.said_sets import says
from cases.set_parts import parts
from cases.streamed_sets import across_pages, hashes, streams, streams_by_itself
from cases.tileset_runs import ACROSS_ZOOMS, bad, base, case, CASES, FILE, FIVE, hindered, ONE_TILE, run, turned, views
from cases.tileset_scripts import BAD_LINES, files, good_scripts, many_rows, many_tiles, media, on_file, other_objects, random_scripts, words_and_bulk
from models.bases import base_after
from models.scripts import parsed


def sets():
    """Sets of every layout, and patches."""
    for scripts in [worked_sets, verified_sets, refused_sets, bad_rows, worked_patches, refused_patches, four_ways]:
        for script in scripts():
            run(script)
    for script in random_chains(23, 150):
        run(script)


def bases():
    """What the base holds after a conversion over stores of its own: for chains of patches, collisions of ids, and
    refusals."""
    for scripts in [worked_sets, worked_patches, refused_patches, four_ways]:
        for script in scripts():
            base(script)
    for script in random_chains(24, 80):
        base(script)


def failing_objects():
    """Stores and media of which one call after another fails, and a medium that gives another byte than was written."""
    five = "\n".join(["base flat", *FIVE, "query 4 1 3", "query 0 0 0", ""])
    chain = removes_the_tile().replace(QUERY, "patch normalized\nrow metadata tagg_tiles_hash_before_apply tB\nrow metadata tagg_tiles_hash_after_apply tC\n"
                                       "row metadata tname ttown\nrow images t99 n\n" + QUERY)
    for script in [removes_the_tile(), "option force\n" + chain, ONE_TILE, five, *four_ways()]:
        given = parsed(script.encode())
        if base_after(given)[0] is None:
            hindered(script)
    for words, script, ids in [(["convert", "hex"], ACROSS_ZOOMS, [0, 1, 2]), (["convert", "hex"], ACROSS_ZOOMS + QUERY + "\nquery 1 0 0\n", [0, 1]), (FILE, ACROSS_ZOOMS, [0, 1]),
                               (["convert", "hex"], removes_the_tile(), [0]), (["convert", "hex"], five, [0, 1, 19, 91, 241]), (["bulk", "5", "2"], "", [0, 3, 4, 5]),
                               (["bulk", "300", "1", "16"], "", [0, 17, 299, 300])]:
        views(words, script, ids)
    for script in [ONE_TILE, five, "base flat\nrow tiles i0 i0 i0 x3031\nrow tiles i1 i0 i0 x32\nquery 0 0 0\nquery 1 0 1\nquery 1 0 0\n",
                   "base flat\nrow tiles i1 i0 i0 x32\nrow tiles i1 i1 i1 x00ff00\nquery 1 0 1\nquery 1 1 0\nquery 1 0 1\n", "option metadata t\n" + ONE_TILE, "option metadata t{%20%20}\n" + ONE_TILE]:
        turned(script)


def asks():
    """Words and files."""
    for words, wanted in [([], "none"), (["a"], "none"), (["a", "b"], "2"), (["a", "b", "c"], "3"), (["--force", "a", "b"], "force 2"), (["--verify", "a", "b"], "verify 2"),
                          (["--overwrite", "a", "b"], "overwrite 2"), (["--overwrite", "--verify", "--force", "--verify", "a", "b", "c", "d"], "force verify overwrite 4"), (["--force", "a"], "none"),
                          (["--", "a", "b"], "2"), (["--force", "--", "--verify", "b"], "force 2"), (["--", "--", "b"], "2"), (["--", "a"], "none"), (["--"], "none"), (["--Force", "a", "b"], "none"),
                          (["-force", "a", "b"], "none"), (["-", "a", "b"], "3"), (["a", "-"], "2"), (["--help", "a", "b"], "none"), (["--forced", "a", "b"], "none"),
                          (["a", "--force", "b"], "force 2"), (["a", "b", "--strict"], "strict 2"), (["--strict", "a", "--overwrite", "b", "--force", "c"], "force overwrite strict 3"), (["a", "--strict", "--", "--force"], "strict 2"),
                          (["--hash", "a", "b"], "hash 2"), (["a", "b", "--hash", "--verify"], "verify hash 2"), (["a", "--hash"], "none"),
                          (["a", "--", "b", "--strict"], "3"), (["a", "b", "--", "--", "-x"], "4"), (["a", "b", "-x"], "none"), (["a", "b", "--nothing"], "none"), (["a", "--strict"], "none"), (["a", "b", "--"], "2")]:
        case(["asked", " ".join(words)], wanted)


def main():
    good_scripts()
    for script, line in BAD_LINES:
        bad(script, line)
    words_and_bulk()
    files()
    media()
    other_objects()
    failing_objects()
    random_scripts(20)
    sets()
    many_rows()
    bases()
    streams()
    across_pages()
    hashes()
    says()
    streams_by_itself()
    patched_streams()
    collided_streams()
    patched_digests()
    parts()
    again()
    odd_streams()
    measured()
    asks()
    many_tiles()
    on_file()
    folder = os.path.join(TOP, "crates", "tileset_rows")
    for name, index in [("stdin", 0), ("stdout", 1)]:
        with open(os.path.join(folder, name), "w", encoding="ascii") as file:
            file.writelines(f"{it[index]}\n" for it in CASES)


if __name__ == "__main__":
    main()
