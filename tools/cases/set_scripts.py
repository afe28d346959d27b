# Scripts of sets of every layout and of patches, for tools/cases/tileset_rows.py.
import random

from models.sets import AFTER, ALGORITHMS, BEFORE, ScriptStore, Text, digest, load, spelled

GOOD_LAYOUTS = ["flat", "flat-with-hash", "normalized", "normalized-with-view", "dedup-id", "cache"]
PATCHED = ["flat", "flat-with-hash", "normalized", "normalized-with-view"]
A, B, C = b"A", b"B", b"C"


def row(table, *cells):
    return "row " + " ".join([table, *(spelled(it).decode() for it in cells)])


def named(**names):
    return [row("metadata", Text(name.encode()), None if value is None else Text(value)) for name, value in names.items()]


def chain(before, after):
    return named(**{BEFORE.decode(): before, AFTER.decode(): after})


def tile_rows(layout, tiles, algorithm=b"md5"):
    """The rows that give a layout these tiles, contents or null by place."""
    out, ids = [], {}
    for place, data in tiles.items():
        text = None if data is None else Text(digest(algorithm, data))
        if layout.startswith("normalized"):
            # contents of null need an id of their own
            out.append(row("map", *place, text or Text(b"none")))
            ids[text or Text(b"none")] = data
        elif layout == "dedup-id":
            out.append(row("tiles_shallow", *place, ids.setdefault(data, len(ids) - 1)))
        elif layout == "flat-with-hash":
            out.append(row("tiles_with_hash", *place, data, text))
        elif layout == "cache":
            out.append(row("tile_cache", *place, 5, None, Text(b"tag"), data))
        else:
            out.append(row("tiles", *place, data))
    if layout.startswith("normalized"):
        out += [row("images", key, data) for key, data in ids.items()]
    if layout == "dedup-id":
        out += [row("tiles_data", number, data) for data, number in ids.items()]
    return out


def store(word, layout, tiles, names=(), algorithm=b"md5"):
    return [f"{word} {layout}", *names, *tile_rows(layout, tiles, algorithm)]


def text(*parts):
    return "".join(line + "\n" for part in parts for line in ([part] if isinstance(part, str) else part))


ROOT = {(0, 0, 0): b"0"}
ROOT_HASH = b"4A7D1ED414474E4033AC29CCB8653D9B"
QUERY = "query 0 0 0"
MD5_NAME = named(hash_algorithm=b"md5")
PATCH_OF_ROOT = ["base flat", *named(agg_tiles_hash=A), *tile_rows("flat", ROOT)]


def removes_the_tile(before=A, after=B):
    return text(PATCH_OF_ROOT, "patch flat", chain(before, after), "row tiles i0 i0 i0 n", QUERY)


def worked_sets():
    """Sets of every layout, of the algorithms of digests and of the usual tool."""
    hello = {(0, 0, 0): b"hello"}
    two = {(1, 0, 1): b"0", (0, 0, 0): b"0"}
    for layout in GOOD_LAYOUTS:
        yield text(store("base", layout, two), "query 0 0 0", "query 1 0 0")
        yield text(store("base", layout, {}), QUERY)
        yield text(store("base", layout, {(2, 1, 3): b"", (2, 0, 0): None, (3, 7, 7): b"x"}), "query 2 1 0", "query 3 7 0")
    yield text(store("base", "flat-with-hash", hello)).replace("t5D41402ABC4B2A76B9719D911017C592", "t5d41402abc4b2a76b9719d911017c592")
    yield text(store("base", "flat-with-hash", hello)).replace("C592", "C593").replace("5D41", "5d41")
    for algorithm in ALGORITHMS:
        for layout in ["flat", "flat-with-hash", "normalized"]:
            yield text(store("base", layout, hello, named(hash_algorithm=algorithm), algorithm), QUERY)
            yield text(store("base", layout, {}, named(hash_algorithm=algorithm.upper()), algorithm))
    yield text("base flat", "row tiles i4 i1 i12 x30", "query 4 1 3")
    yield text("base flat", "row tiles i4 i11 i2 x30", "query 4 11 13")
    yield text("option type mvt", "option max-zoom 0", "option verify", 'option metadata t{"name":"Cities"}', "base normalized-with-view",
               named(name=b"Cities", format=b"pbf", bounds=b"-180,-85.0511,180,85.0511", hash_algorithm=b"md5", agg_tiles_hash=ROOT_HASH), tile_rows("normalized", ROOT))
    for layout in ["none", "flat-no-index", "flat-bsdiff"]:
        yield text(f"base {layout}", [] if layout == "none" else tile_rows("flat", ROOT), QUERY)
    yield text("base flat-no-index", tile_rows("flat", ROOT) * 2, MD5_NAME)


def verified_sets():
    """The stored aggregate hash, right, wrong and missing."""
    for algorithm in ALGORITHMS:
        for tiles in [{}, ROOT, {(1, 1, 0): None, (5, 30, 2): b"abc"}]:
            store_of = ScriptStore("flat")
            store_of.push("metadata", [Text(b"hash_algorithm"), Text(algorithm)])
            for place, data in tiles.items():
                store_of.push("tiles", [*place, data])
            right = load(store_of).aggregate()
            for stored in [right, right.lower(), right + b" "]:
                yield text("option verify", store("base", "flat", tiles, named(hash_algorithm=algorithm, agg_tiles_hash=stored)))
    yield text("option verify", store("base", "flat", ROOT), QUERY)
    yield text("option verify", store("base", "flat", ROOT, named(agg_tiles_hash=None)), QUERY)
    yield text("option verify", store("base", "flat", ROOT, named(agg_tiles_hash="l\nä ".encode())), QUERY)


def refused_sets():
    """One set for each refusal of loading, cells of each kind, and several faults at once."""
    cells = ["n", "o", "i-1", "i31", "i9223372036854775807", "i-9223372036854775808", "t", "ta%20%25%0a%C3%a4~!", "x", "x00fF", "i1"]
    for cell in cells:
        yield text("base flat", f"row tiles {cell} i0 i0 x30")
        yield text("base flat", "row tiles i0 i0 i0 x30", f"row tiles i3 {cell} i8 x30")
        yield text("base cache", f"row tile_cache i2 i3 {cell} n n n n")
        yield text("base flat", f"row tiles i0 i0 i0 {cell}")
        yield text("base flat", f"row metadata {cell} tv", f"row metadata tn {cell}")
        yield text("base flat", f"row metadata n {cell}")
        yield text("base flat-with-hash", f"row tiles_with_hash i0 i0 i0 x30 {cell}")
        yield text("base normalized", f"row images {cell} x30")
        yield text("base normalized", f"row map i0 i0 i0 {cell}")
        yield text("base normalized", "row images tk n", f"row images tl {cell}", "row map i0 i0 i0 tl")
        yield text("base dedup-id", f"row tiles_data {cell} x30")
        yield text("base dedup-id", f"row tiles_shallow i0 i0 i0 {cell}")
        yield text("base dedup-id", f"row tiles_data i7 {cell}", "row tiles_shallow i1 i0 i0 i7", QUERY)
        for at in range(3):
            yield text("base cache", "row tile_cache i0 i0 i0 " + " ".join(["n"] * at + [cell] + ["n"] * (2 - at)) + " x30")
        yield text("base flat", f"row metadata thash_algorithm {cell}")
    for name in ["md4", "MD5", "Fnv1A-Decimal", "", "md5%20", "xxh64%0a", "%e2%82%ac"]:
        yield text("base flat", f"row metadata thash_algorithm t{name}")
    # The first in the order of rows counts, and the first test before that.
    yield text("base flat", "row tiles i5 i0 tb n", "row tiles i5 i0 ta n", "row tiles i5 n o n", "row tiles i4 i16 i0 n")
    yield text("base normalized", "row map i1 i0 i0 tb", "row map i0 i0 i0 ta", "row map i2 i5 i0 tc")
    yield text("base normalized", "row map i1 i0 i0 tb", "row map i0 i0 i0 ta", "row images tb x31", "row images ta x30")
    yield text("base normalized", "row map i1 i0 i0 n", "row map i40 o n n", "row images ta n", "row images n x30", "row images n o")
    yield text("base flat-with-hash", "row tiles_with_hash i1 i0 i0 x31 tb%c3%a4", "row tiles_with_hash i0 i0 i0 n tZ", "row tiles_with_hash i0 i0 i1 x30 n")
    yield text("base flat-with-hash", "row tiles_with_hash i0 i0 i0 x31 tB", "row tiles_with_hash i1 i2 i0 x31 n", "row metadata thash_algorithm tcrc32", "row metadata n o")
    yield text("base flat", "row tiles i0 i0 i1 x31", "row metadata thash_algorithm tcrc32")
    yield text("option internal-compression gzip", "base none")


def bad_rows():
    """Rows of tables that a store has or not, and of keys that repeat."""
    rows = {"tiles": "i0 i0 i0 n", "tiles_with_hash": "i0 i0 i0 n n", "map": "i0 i0 i0 n", "images": "n n", "tiles_shallow": "i0 i0 i0 n", "tiles_data": "n n",
            "tile_cache": "i0 i0 i0 n n n n", "metadata": "ta n", "bsdiffraw": "i0 i0 i0 n n", "Tiles": "i0 i0 i0 n", "": "i0 i0 i0 n"}
    for layout in [*GOOD_LAYOUTS, "flat-no-index", "flat-bsdiff", "none"]:
        for table, cells in rows.items():
            yield text(f"base {layout}", f"row {table} {cells}")
    for table, cells in rows.items():
        layout = next((it for it, of in [("flat", "tiles"), ("flat-with-hash", "tiles_with_hash"), ("normalized", "map images"), ("dedup-id", "tiles_shallow tiles_data"),
                                         ("cache", "tile_cache"), ("flat", "metadata")] if table and table in of.split()), None)
        for width in [f"{cells} n", cells.rsplit(" ", 1)[0]] if layout else []:
            yield text(f"base {layout}", f"row {table} {width}")
        for one, other in [(cells, cells), (cells.replace("i0", "n", 1), cells.replace("i0", "n", 1)), (cells.replace("i0", "o", 1), cells.replace("i0", "o", 1))] if layout else []:
            yield text(f"base {layout}", f"row {table} {one}", f"row {table} {other}")
    for one, other in [("t", "x"), ("t61", "x61"), ("ta", "t%61"), ("i61", "ta"), ("x0a", "x0A"), ("o", "o"), ("n", "n"), ("i0", "o")]:
        yield text("base flat", f"row metadata {one} n", f"row metadata {other} n")
        yield text("base flat", f"row metadata {one} n", "patch flat", f"row metadata {other} n", f"row metadata {one} n")
    for words in ["flat-with-view", "normalized-with-hash", "Flat", "dedup", "flat flat", ""]:
        yield text(f"base {words}")
        yield text("base flat", f"patch {words}")
    yield text("patch flat")
    yield text("option force", "patch flat", "base flat")
    yield text("base flat", "patch flat", "base flat")
    yield text("base flat", "patch flat", "option force")
    yield text("base flat", QUERY, "patch flat")
    yield text("base none", "patch none", "row metadata n n")
    for line in ["option force 1", "option verify ", "option forced", "option force=1", "option max-leaf-entries", "option max-leaf-entries 15", "option max-leaf-entries 65537",
                 "option max-leaf-entries 016", "option max-leaf-entries -16", "option max-leaf-entries 16 17"]:
        yield text(line, "base flat")


def worked_patches():
    """Chains of patches, right and wrong, with and without force."""
    yield removes_the_tile()
    yield removes_the_tile(before=C)
    yield "option verify\n" + removes_the_tile()
    yield "option verify\n" + removes_the_tile(after=digest(b"md5", b""))
    first, second = ["patch flat", *named(agg_tiles_hash=None)], ["patch flat", "row tiles i0 i0 i0 x31"]
    yield text("option force", PATCH_OF_ROOT, first, second, QUERY)
    yield text(PATCH_OF_ROOT, first, second, QUERY)
    yield text(PATCH_OF_ROOT, first, chain(A, B), second, chain(B, C), QUERY)
    yield text("option force", PATCH_OF_ROOT, first, chain(A, B), second, chain(B, C), QUERY)
    hello = b"5D41402ABC4B2A76B9719D911017C592"
    for cell in ["n", "o", "i5", "x68656c6c6f", "t"]:
        yield text("option force", "base normalized", f"row images t{hello.decode()} {cell}", f"row map i0 i0 i0 t{hello.decode()}", "patch flat", "row tiles i1 i0 i0 x68656c6c6f", "query 1 0 1")
        yield text("option force", "base normalized", f"row images t{hello.decode()} {cell}", "patch flat", "row tiles i2 i3 i0 n", "row tiles i2 i0 i3 x68656c6c6f", "query 2 0 0")
    # A wrong link in the middle, and one that is right by force alone.
    linked = [*PATCH_OF_ROOT, "patch flat", *chain(A, B), "patch flat", *chain(b"X", C)]
    for force in [[], ["option force"]]:
        yield text(force, linked, QUERY)
        yield text(force, linked, "patch flat", chain(C, b"D"), "row tiles i0 i0 i0 x39", QUERY)
    for layout in ["flat-bsdiff", "none", "flat-no-index", *GOOD_LAYOUTS]:
        for base in ["flat", "cache", "dedup-id", "normalized", "none"]:
            for force in [[], ["option force"]]:
                yield text(force, f"base {base}", [] if base == "none" else named(agg_tiles_hash=A), f"patch {layout}", [] if layout == "none" else chain(A, B), QUERY)


def refused_patches():
    """One chain for each refusal of patching, and the order of the tests."""
    hashes = [{}, {"agg_tiles_hash": A}, {"agg_tiles_hash": A, BEFORE.decode(): B}, {"agg_tiles_hash": A, AFTER.decode(): B}, {BEFORE.decode(): A}, {"agg_tiles_hash": None},
              {"agg_tiles_hash": A, BEFORE.decode(): None}]
    links = [{}, {AFTER.decode(): B}, {BEFORE.decode(): A}, {BEFORE.decode(): A, AFTER.decode(): B}, {BEFORE.decode(): b"a b\n", AFTER.decode(): None},
             {BEFORE.decode(): None, AFTER.decode(): B}, {BEFORE.decode(): b"a b\n", AFTER.decode(): B}, {"agg_tiles_hash": C}]
    for held in hashes:
        for given in links:
            for force in [[], ["option force"]]:
                yield text(force, store("base", "flat", ROOT, named(**held)), "patch flat", named(**given), "row tiles i1 i0 i0 x32", QUERY)
    for ours in ALGORITHMS:
        for theirs in [b"md5", b"FNV1A", b"xxh3", b"none of these"]:
            yield text("option force", store("base", "flat", ROOT, named(hash_algorithm=ours), ours), "patch flat", named(hash_algorithm=theirs), QUERY)
    # The names of a patch replace those of the base, and its nulls remove them.
    for names in [{"a": b"1", "b": None}, {"agg_tiles_hash": None}, {AFTER.decode(): None}, {"hash_algorithm": None}, {BEFORE.decode(): None, "agg_tiles_hash": C}, {AFTER.decode(): C}]:
        for last in [{}, {BEFORE.decode(): C, AFTER.decode(): B}, {BEFORE.decode(): A, AFTER.decode(): B}]:
            yield text("option verify", "option force", store("base", "flat", ROOT, named(agg_tiles_hash=A, a=b"0", b=b"0")), "patch flat", named(**names))
            yield text(store("base", "flat", ROOT, named(agg_tiles_hash=A, a=b"0", b=b"0")), "patch flat", chain(A, C), "patch flat", named(**{**last, **names}), QUERY)


def four_ways():
    """Equal tiles by different layouts and patches."""
    tiles = {(0, 0, 0): b"0", (1, 0, 1): b"0", (3, 5, 1): b"ab"}
    queries = ["query 0 0 0", "query 1 0 0", "query 3 5 6"]
    yield text(store("base", "flat", dict(reversed(tiles.items()))), queries)
    yield text(store("base", "normalized", tiles), queries)
    yield text("option force", store("base", "cache", tiles), queries)
    yield text("option force", store("base", "normalized", {(3, 5, 1): b"old", (1, 1, 1): b"gone"}), store("patch", "flat-with-hash", {(1, 1, 1): None, (3, 5, 1): b"ab"}),
               store("patch", "dedup-id", {(0, 0, 0): b"0", (1, 0, 1): b"0"}), queries)


def random_tiles(rng, most=6):
    places = [(z, rng.randrange(2 ** z), rng.randrange(2 ** z)) for z in rng.choices(range(4), k=rng.randrange(most))]
    return {place: rng.choice([None, b"", b"0", b"0", b"1", b"ab", bytes(40)]) for place in places}


def random_chains(seed, count):
    """Bases with patches that follow each other, mostly linked by the right hashes, of any layout, and such scripts
    with a change."""
    rng = random.Random(seed)
    for _ in range(count):
        algorithm = rng.choice([b"md5", *ALGORITHMS])
        links = [rng.choice([A, B, C]) if rng.random() < 0.1 else b"%d" % number for number in range(6)]
        option = rng.choice([[], [], ["option force"], ["option verify"]])
        base = rng.choice(PATCHED if rng.random() < 0.9 else GOOD_LAYOUTS)
        lines = [*option, *store("base", base, random_tiles(rng), named(hash_algorithm=algorithm, agg_tiles_hash=links[0], note=b"x"), algorithm)]
        for number in range(rng.randrange(4)):
            names = [*chain(links[number], links[number + 1]), *(named(hash_algorithm=algorithm) if rng.random() < 0.9 else []), *(named(note=None) if rng.random() < 0.2 else [])]
            lines += store("patch", rng.choice(GOOD_LAYOUTS), random_tiles(rng, 4), names, algorithm)
        lines += [f"query {z} {rng.randrange(2 ** z)} {rng.randrange(2 ** z)}" for z in rng.choices(range(4), k=3)]
        script = text(lines)
        yield script
        at = rng.randrange(len(script))
        yield rng.choice([script[:at] + script[at + 1:], script[:at] + rng.choice("\n#x0-int%o ") + script[at:], script[:at] + rng.choice("no9 \n") + script[at + 1:]])
