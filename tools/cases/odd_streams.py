"""Cases of conversions over media and stores that answer in other ways, mostly of those that hold no contents."""
from cases.archives_again import adds_of, archive
from cases.set_scripts import chain, GOOD_LAYOUTS, named, removes_the_tile, store, text
from cases.tileset_runs import case, escaped, FIVE, NO_TILE, ONE_TILE, shown, turned
from models.bases import base_after
from models.scripts import parsed
from models.sets import converted


def odd_media():
    """A medium that gives another byte than was written: what is answered is what was read. One that opens as the front of
    an archive and gives short ranges: what it gives can't be read back."""
    five = "\n".join(["base flat", *FIVE, "query 4 1 3", "query 0 0 0", ""])
    for script in [ONE_TILE, five, "base flat\nrow tiles i0 i0 i0 x3031\nrow tiles i1 i0 i0 x32\nquery 0 0 0\nquery 1 0 1\nquery 1 0 0\n", patched()]:
        turned(script, "turned-streamed")
    for size, script, line in [(0, ONE_TILE, "9|read back: InvalidHeader"), (130, ONE_TILE, "9|read back: InvalidHeader"), (16384, ONE_TILE, "9|read back: UnexpectedNumberOfBytesReturned"),
                               (0, patched(), "9|read back: InvalidHeader"), (16384, patched(), "9|read back: UnexpectedNumberOfBytesReturned"), (16384, NO_TILE, "0|"),
                               (0, "option internal-compression gzip\nbase flat\nquery 0 0 0\n", "1|refused: unsupported compression gzip")]:
        case(["short-streamed", str(size), escaped(script.encode())], line)


def patched():
    """A base with a patch that puts a tile and leaves another."""
    return text("option force", store("base", "normalized", {(0, 0, 0): b"0", (1, 0, 0): b"11"}), store("patch", "flat", {(1, 0, 1): b"1"}), "query 0 0 0", "query 1 0 0")


def redescribed(script, other, name="redescribed"):
    """A conversion over a store that first describes the tables of another layout, and takes no commit. It is described
    once, so that the set is what the store shows by that description."""
    given = parsed(script.encode())
    given.stores[0] = given.stores[0].described_as(other)
    refusal, _ = base_after(given)
    if refusal is None and name == "redescribed-whole" and len(given.stores) > 1:
        refusal = b"OutOfMemory"
    fields = [name, escaped(script.encode()), escaped(f"base {other}\n".encode())]
    if refusal is not None:
        return case(fields, f"1|{shown(b'refused: ' + refusal, 4000)}|0|")
    state = converted(given.stores, given.options["force"], given.options["verify"])
    whole = archive(given.options, adds_of(state.tiles))[0]
    case(fields, f"0||{len(whole)}|{shown(whole, 64)}")


TILES = {(0, 0, 0): b"0", (1, 0, 0): b"11", (1, 0, 1): b"0", (2, 3, 0): None}
HELLO = "5D41402ABC4B2A76B9719D911017C592"
COLLIDES = text("option force", "base normalized", f"row images t{HELLO} n", f"row map i0 i0 i0 t{HELLO}", "patch flat",
                "row tiles i1 i0 i0 x68656c6c6f")
PATCH = store("patch", "flat", {(1, 0, 0): b"put", (0, 0, 0): None}, chain(b"A", b"B"))


def redescribed_bases():
    """Bases with patches that are taken for one whose ids are digests and aren't, and the other way round: their tiles
    go, and their names stand. Then one whose ids would collide with those of a patch, if its rows were shown."""
    for layout in GOOD_LAYOUTS:
        script = text(store("base", layout, TILES, named(agg_tiles_hash=b"A")), PATCH, "query 1 0 1")
        for other in GOOD_LAYOUTS:
            if other.startswith("normalized") != layout.startswith("normalized"):
                redescribed(script, other)
    for other in ("flat", "cache", "dedup-id", "none"):
        redescribed(COLLIDES, other)
    redescribed(removes_the_tile(), "normalized")


def verified(layout):
    """A base with the hash of its tiles, which is verified."""
    right = converted(parsed(text(store("base", layout, TILES)).encode()).stores, False, False).aggregate()
    return text("option verify", store("base", layout, TILES, named(agg_tiles_hash=right)), "query 1 0 1")


def redescribed_both_ways():
    """Further layouts, without patches and with them, by the conversion that holds no contents and by the one that
    holds all: rows that stand, and a hash that is verified; a wrong digest that goes with its row; rows that stand
    without their index; a hash of tiles that are gone; rows that stand and are patched; an algorithm that stands; null
    that stands under the id of a patch's contents."""
    wrong = text(store("base", "flat-with-hash", TILES)).replace("i1 i0 i0 x3131", "i1 i0 i0 x3132")
    digested = store("base", "normalized", TILES, named(hash_algorithm=b"xxh3"), b"xxh3")
    chained = {layout: text(store("base", layout, TILES, named(agg_tiles_hash=b"A")), PATCH)
               for layout in ("flat", "normalized-with-view")}
    for script, other in [(verified("normalized"), "normalized-with-view"), (wrong, "flat"),
                          (text(store("base", "flat", TILES)), "flat-no-index"), (verified("cache"), "dedup-id"),
                          (chained["normalized-with-view"], "normalized"), (chained["flat"], "flat-bsdiff"),
                          (text("option force", digested, PATCH), "flat-with-hash"),
                          (COLLIDES, "normalized-with-view")]:
        redescribed(script, other)
        redescribed(script, other, "redescribed-whole")


def odd_streams():
    odd_media()
    redescribed_bases()
    redescribed_both_ways()
