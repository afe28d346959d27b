"""Cases of patches on bases that keep digests, as the ids of their contents or beside the tiles. Each is converted with
no contents held and with all of them, by the options that the set says of itself."""
import re

from cases.collided_streams import base_of, held as held_patches, SAME_FNV
from cases.said_sets import said
from cases.set_scripts import chain, named, store, text, tile_rows
from cases.streamed_sets import changing, streamed
from cases.tileset_runs import CASES
from models.scripts import parsed
from models.sets import AFTER, BEFORE, converted, digest

NORMALIZED = ["normalized", "normalized-with-view"]
HASHED = "flat-with-hash"
TILES = {(0, 0, 0): b"0", (1, 0, 0): b"11", (1, 0, 1): b"0", (2, 3, 0): None, (4, 0, 0): b""}
HASH = named(agg_tiles_hash=b"A", name=b"town")
QUERIES = ["query 0 0 0", "query 1 0 1", "query 1 0 0", "query 3 0 0"]
FORMS = ["flat", HASHED, "normalized", "dedup-id", "cache"]

# What patches do, each list a chain of one or two: a tile is replaced; two are removed, of which one has the last row
# that names its contents; contents are put that are there already; contents go to another place; and contents go that
# the next patch puts back.
EDITS = [[{(1, 0, 0): b"put"}],
         [{(1, 0, 0): None, (0, 0, 0): None}],
         [{(1, 0, 0): b"0", (1, 0, 1): b"0", (2, 3, 0): b"0"}],
         [{(3, 0, 7): b"11", (1, 0, 0): None, (2, 1, 1): b""}],
         [{(1, 0, 0): None, (3, 0, 7): b"1"}, {(3, 0, 7): b"11", (1, 0, 1): b"1", (2, 3, 0): None}]]

# The refusals of a set and of its patches, but for tiles that are too large or too many.
REFUSALS = ["InvalidDataFormat", "NoUniquenessConstraint", "UnsupportedHashAlgorithm", "InvalidTileIndex",
            "MissingTileReference", "IncorrectTileHash", "UnsupportedPatchType", "PatchFileHasNoHashes",
            "PatchFileHasNoBeforeHash", "UnsupportedCopyOperation", "CannotDiffFileWithoutHash", "DiffingDiffFile",
            "AggHashMismatchWithDiff", "IdCollision", "AggHashValueNotFound", "AggHashMismatch"]


def both(script):
    """A conversion without contents, and the one with all of them: tiles, archive, status and refusal are the same."""
    streamed(script, name="streamed-said")
    said(script)
    (_, without), (_, whole) = CASES[-2:]
    parts = [re.sub("aggregate [0-9A-F]*", "", it).split("|") for it in (without, whole)]
    base = 2 if parts[0][0] == "1" else 3
    assert all(one == other for at, (one, other) in enumerate(zip(*parts)) if at != base), script


def chained(edits, form):
    """Patches with the hashes of a chain, the last of which is C."""
    hashes = [b"A", b"B", b"C"][-len(edits):]
    links = zip([b"A", *hashes], hashes)
    return [line for tiles, link in zip(edits, links)
            for line in store("patch", form, tiles, [*chain(*link), *named(name=b"city")])]


def edited():
    """Bases of both kinds with each edit, by patches of all forms, and the hash of the tiles after them, which is
    verified where there are two."""
    for at, edits in enumerate(EDITS):
        for layout in (NORMALIZED[at % 2], HASHED):
            script = text(store("base", layout, TILES, HASH), chained(edits, FORMS[at]), QUERIES)
            if len(edits) > 1:
                right = converted(parsed(script.encode()).stores, False, False).aggregate().decode()
                script = "option verify\n" + script.replace(f"{AFTER.decode()} tC", f"{AFTER.decode()} t{right}")
            yield script


def small(lines):
    """Rows whose digests have small letters."""
    return [re.sub(r"\bt([0-9A-F]{32})\b", lambda found: "t" + found[1].lower(), line) for line in lines]


def of_other_ids():
    """Contents under another id than the one that a patch gives them: that in small letters, and a number."""
    for layout, form in [("normalized", "dedup-id"), (HASHED, "normalized")]:
        patch = small(store("patch", form, {(3, 0, 7): b"11", (1, 0, 1): b"11"}))
        yield text("option force", small(store("base", layout, TILES, HASH)), patch, QUERIES)


def of_null():
    """Null contents, some of them where a patch has null or bytes, ids that are null, and rows that don't stand in the
    order of their keys."""
    null_ids = ["row map i3 i0 i0 n", "row images n x30", "row images n o"]
    tiles = {**TILES, (1, 1, 0): None, (1, 1, 1): None}
    patch = {(1, 1, 0): None, (1, 1, 1): b"put", (1, 0, 0): None, (3, 1, 0): b"", (3, 0, 7): b"0"}
    for layout, form in [("normalized-with-view", HASHED), (HASHED, "normalized-with-view")]:
        more = null_ids if layout != HASHED else ["row tiles_with_hash i3 i0 i0 x3131 n"]
        rows, put = [[*tile_rows(layout, tiles), *more], tile_rows(form, patch)]
        base, change = [f"base {layout}", *reversed([*HASH, *rows])], [f"patch {form}", *reversed(put)]
        yield text("option force", base, change, QUERIES)


PLACES = [(0, 0, 0), (1, 0, 0), (1, 0, 1)]


def collided(layout, contents, put, names=()):
    """A base with three contents, each of a tile, and a patch that puts three others at these tiles."""
    base = base_of(layout, contents, dict(zip(PLACES, contents)), names)
    return text("option force", base, store("patch", "flat", dict(zip(PLACES, put)), names), QUERIES)


def of_collisions():
    """An id of a patch's contents that stands for null in the first, the middle or the last row of the contents of the
    base, the tile being the first, the middle or the last one that is put; the same for other contents. Beside tiles
    such digests may stand."""
    held = sorted([b"hello", b"0", b"5"], key=lambda data: digest(b"md5", data))
    for null in held:
        yield collided("normalized", {digest(b"md5", data): None if data == null else data for data in held}, held)
    one, other = SAME_FNV
    names, key = named(hash_algorithm=b"fnv1a"), digest(b"fnv1a", one)
    rest = sorted([b"%d" % number for number in range(40)], key=lambda data: digest(b"fnv1a", data))
    lower, higher = ([data for data in rest if (digest(b"fnv1a", data) < key) == less] for less in (True, False))
    for at in range(3):
        held = [*lower[:at], one, *higher[:2 - at]]
        contents = {digest(b"fnv1a", data): data for data in held}
        assert list(contents) == sorted(contents) and list(contents)[at] == key
        yield collided("normalized-with-view", contents, [other if data == one else data for data in held], names)
    yield text("option force", store("base", HASHED, {(0, 0, 0): one}, names, b"fnv1a"),
               store("patch", HASHED, {(1, 0, 1): other}, names, b"fnv1a"), QUERIES)


def of_pages():
    """Bases of more than a page of 512 rows, of tiles or of contents, with patches at its border."""
    tiles = {(6, k // 64, k % 64): b"%d" % (k % 5) for k in range(514)}
    queries = ["query 6 7 0", "query 6 8 63", "query 6 8 62", "query 7 0 0"]
    for layout in ("normalized", HASHED):
        puts = [{(6, 7, 63): b"4", (6, 8, 0): None}, {(6, 8, 0): b"3", (6, 7, 63): None, (7, 0, 127): b"2"}]
        yield text("option force", store("base", layout, tiles), held_patches(*puts), queries)
    # the last row of the first page has contents that are put once more; the first one of the second page has null
    # under the id of what the second patch puts, when no tile names it any more
    held = sorted([b"%d" % number for number in range(514)], key=lambda data: digest(b"md5", data))
    contents = {digest(b"md5", data): None if at == 512 else data for at, data in enumerate(held)}
    named_ones = {(6, 0, k): key for k, key in enumerate(list(contents)[510:])}
    puts = [{(6, 8, 0): held[511], (6, 0, 2): None}, {(6, 7, 63): held[512], (7, 0, 127): held[511]}]
    yield text("option force", base_of("normalized-with-view", contents, named_ones), held_patches(*puts), queries)


def of_refused_patches():
    """A base that keeps digests, and a patch on it that is refused, or patches of which the second one is."""
    base = {layout: store("base", layout, TILES, HASH) for layout in [*NORMALIZED, HASHED, "dedup-id"]}
    one, two = base["normalized"], base["normalized-with-view"]
    unhashed, put = store("base", "normalized", TILES), {(1, 0, 0): b"put"}
    linked = store("patch", "flat", put, chain(b"A", b"B"))
    yield text(one, "patch flat-bsdiff", chain(b"A", b"B"))
    yield text(two, store("patch", "flat", put))
    yield text(base[HASHED], store("patch", "flat", put, named(**{AFTER.decode(): b"B"})))
    yield text(base["dedup-id"], linked)
    yield text(unhashed, linked)
    yield text(store("base", "normalized-with-view", TILES, [*HASH, *named(**{BEFORE.decode(): b"A"})]), linked)
    yield text(base[HASHED], linked, store("patch", HASHED, put, chain(b"A", b"C")), QUERIES)
    yield text("option force", one, store("patch", HASHED, put, named(hash_algorithm=b"xxh3"), b"xxh3"))
    yield text("option force", two, "patch flat-no-index", tile_rows("flat", put))
    yield text("option force", two, store("patch", "flat", {(1, 0, 0): b"put", (1, 2, 0): b"put"}))
    # contents under the id of others, in the base and in a patch
    yield text(one, store("patch", "normalized", put, chain(b"A", b"B"))).replace("x707574", "x707575")
    yield text(base[HASHED], linked).replace("i1 i0 i0 x3131 t6512", "i1 i0 i0 x3131 t6513")


def of_refused_sets():
    """The rest of what is refused: rows of the base, and the hash of the tiles after a patch that is right."""
    put = store("patch", "flat", {(1, 0, 0): b"put"}, chain(b"A", b"B"))
    yield text(store("base", HASHED, TILES, HASH), "row tiles_with_hash i3 i0 i0 x30 i5", put)
    yield text(store("base", "normalized", TILES, HASH), "row map i3 i0 i0 tnowhere", put)
    unhashed = [store("base", "normalized-with-view", TILES), store("patch", HASHED, {(1, 0, 0): None})]
    yield text("option verify", "option force", *unhashed, QUERIES)
    yield text("option verify", store("base", "normalized", TILES, HASH), put, QUERIES)


def patched_digests():
    """All of these, and contents of a patch that are looked up in a base which changes meanwhile."""
    begun = len(CASES)
    for scripts in [edited, of_other_ids, of_null, of_collisions, of_pages, of_refused_patches, of_refused_sets]:
        for script in scripts():
            both(script)
    refused = {it.split(" ")[3].split("|")[0] for _, it in CASES[begun:] if it.startswith("1|refused: store ")}
    assert refused == set(REFUSALS), refused ^ set(REFUSALS)
    patch = store("patch", "flat", {(3, 0, 7): b"0"})
    script = text("option force", store("base", "normalized", TILES), patch, QUERIES)
    ids = [digest(b"md5", it).decode() for it in (b"0", b"11")]
    changing(script, 1, ["text", ids[1]], f"1|refused: store 1 IdCollision {ids[0]}|none")
