"""Cases of conversions that hold no contents: of sets that stay, of sets that change meanwhile, at the borders of pages, with a hash of all tiles, and with the options that a set says of itself."""
from cases import option_cases
from cases.archives_again import adds_of, archive, tile_id
from cases.set_scripts import chain, GOOD_LAYOUTS, named, PATCHED, refused_sets, store, text, verified_sets, worked_sets
from cases.tileset_runs import case, escaped, hindered, NO_TILE, ONE_TILE, SCRIPTS, shown
from models.bases import base_after, spelled as rows_of, words as words_of
from models.scripts import defaults, LABELS, parsed, TYPES
from models.sets import AGG, converted


def options_said(state):
    """The options of a set's archive by what the set says of itself."""
    names = {name.decode(): None if value is None else value.decode() for name, value in state.names.items()}
    kind, label, zooms, bounds, center, metadata = option_cases.said(names, {place: data for place, data in state.tiles.items() if data})
    said = {**defaults(), "type": TYPES.index(kind.lower()), "tile-compression": LABELS.index(label.lower()), "min-zoom": zooms[0], "max-zoom": zooms[1], "metadata": metadata.encode()}
    if bounds is not None:
        said["bounds"] = bounds
    *said["center"], said["center-zoom"] = option_cases.center_of(bounds, center, zooms[0])
    return said


def told(state, numbers):
    """The text on an archive."""
    return f"tiles {numbers['addressed']}, contents {numbers['contents']}\nbytes {numbers['length']}\naggregate {state.aggregate().decode()}\n"


def says_of_itself():
    """Sets that say what their archives are, and patches that say something else."""
    gzip, other = bytes.fromhex("1f8b08"), b"\x1a\x05"
    names = {"format": b"pbf", "bounds": b"-1.5,-2,3,4", "center": b"1,2,3", "name": b"town", "minzoom": b"7", "maxzoom": b"9", "json": b'{"vector_layers":[],"a":[1,2]}', AGG.decode(): b"A"}
    tiles = {(1, 0, 1): gzip, (2, 3, 0): gzip, (4, 1, 1): None, (0, 0, 0): b""}
    query = ["query 1 0 0", "query 2 3 3", "query 0 0 0", "query 5 0 0"]
    for layout in GOOD_LAYOUTS:
        yield text(store("base", layout, tiles, named(**names)), query)
    yield text(store("base", "flat", tiles, named(**{**names, "center": b"1,2"})), query)
    # without a center, or with one that isn't in form: the middle of the bounds, or of the world, at the least zoom
    for bounds in (b"-1.5,-2,3,4", b"8.4,47.3,8.6000001,47.4", b"-8.6000001,-47.4,-8.4,-47.3000001", b"-180,-90,180,90", b"170,5,-170,5", b"x"):
        for center in ({}, {"center": b"1"}):
            yield text(store("base", "flat", tiles, named(**{**{n: v for n, v in names.items() if n != "center"}, "bounds": bounds, **center})), query)
    yield text(store("base", "flat", {(3, 0, 0): other}, named(format=b"pbf")), query)
    yield text(store("base", "flat", tiles, named(**{**names, "center": b"180,-90,30", "bounds": b"1,2,3"})), query)
    yield text(store("base", "flat", {**tiles, (3, 0, 0): other}, named(**names)), query)
    yield text(store("base", "flat", {(3, 0, 0): other}, named(**{**names, "format": b" image/PNG"})), query)
    # what the script says of an archive is nothing here
    yield text("option type webp", "option min-zoom 3", "option metadata t{%22b%22:1}", "option internal-compression gzip", "option max-leaf-entries 16", store("base", "flat", tiles, named(**names)), query)
    # a patch says the options of the archive, and zooms and labels are those of the tiles after it
    put = {(5, 0, 0): other, (1, 0, 1): None}
    for patch_names in [{"format": b"png", "bounds": b"0,0,1,1", "center": b"5,6,7", "name": b"city", "more": b"x"}, {"format": None, "bounds": None, "center": None, "json": None, "name": None}, {}]:
        for layout in PATCHED:
            yield text(store("base", layout, tiles, named(**names)), store("patch", "flat", put, [*chain(b"A", b"B"), *named(**patch_names)]), query)
    after = [*chain(b"B", b"C"), *named(center=b"8,9", format=b"mlt")]
    yield text(store("base", "normalized", tiles, named(**names)), store("patch", "flat", put, chain(b"A", b"B")), store("patch", "cache", {(1, 0, 1): gzip}, after), query)
    # the two flags, each alone: patches without hashes, and a stored hash that isn't right
    unchained = [store("base", "flat", tiles, named(**{**names, AGG.decode(): None})), store("patch", "flat", put, named(format=b"png")), query]
    wrong = [store("base", "flat", tiles, named(**names)), query]
    for flags in [[], ["option force"], ["option verify"], ["option force", "option verify"]]:
        yield text(flags, *unchained)
        yield text(flags, *wrong)


def lies(number, part):
    """Whether an id lies in a part, as it is spelled."""
    return part == "all" or any(first <= number <= last for first, last in (map(int, word.split("-")) for word in part.split()))


def streamed(script, held=b"", name="streamed", part=None):
    """A conversion that holds no contents of a script's base: what the archive and the answers are, and the hash of all
    tiles where it is verified, or wanted for itself (`hashed`). The options are the script's, or those that the set says
    of itself. Of a part (intervals of ids as they are spelled, `all` for all of them) the archive has the tiles alone."""
    by_itself = name == "streamed-said"
    script = script.encode() if isinstance(script, str) else script
    given = parsed(script)
    rows = rows_of(words_of(given.stores[0]), escaped)
    fields = [*([] if part is None else ["part"]), name, *([] if part is None else [part]), escaped(script), held.hex()]
    if held:
        return case(fields, f"1|refused: medium not empty {len(held)}|{rows}|{len(held)}|{shown(held, 64)}")
    if given.options["internal-compression"] != 1 and not by_itself:
        return case(fields, f"1|refused: unsupported compression {LABELS[given.options['internal-compression']]}|{rows}|0|")
    state = converted(given.stores, given.options["force"], given.options["verify"])
    if isinstance(state, bytes):
        return case(fields, f"1|{shown(b'refused: ' + state, 4000)}|{rows}|0|")
    adds = [it for it in adds_of(state.tiles) if part is None or lies(it[0], part)]
    whole, numbers = archive(options_said(state) if by_itself else given.options, adds)
    found, numbers = dict(adds), dict(numbers)
    answers = [found.get(tile_id(z, x, y)) for z, x, y in given.queries]
    tiles = "".join(("none" if it is None else shown(it, 4000)) + " " for it in answers)
    text = told(state, numbers)
    if not given.options["verify"] and name != "hashed":
        text = text[:text.index("aggregate ")] + "aggregate \n"
    case(fields, f"{tiles}|0|{shown(text.encode(), 4000)}|{rows}|{len(whole)}|{shown(whole, 64)}")


def changing(script, number, other, wanted, part=None):
    """A conversion of a store that shows another row, or none, where one is sought a second time: that of a place, or of an
    id of contents."""
    case([*(["changing"] if part is None else ["changing-part", part]), escaped(script.encode()), str(number), *(map(str, other or []))], wanted)


def streams():
    """Conversions that hold no contents, of every script so far that has no patch, and of stores that change."""
    for script in dict.fromkeys(SCRIPTS):
        given = parsed(script)
        if not isinstance(given, int) and len(given.stores) == 1 and len(script) < 20000:
            streamed(script)
    for script, held in [(ONE_TILE, b"a"), ("base none\n", b"c"), ("option internal-compression gzip\nbase flat\n", b"PMTiles")]:
        streamed(script, held)
    for script in [ONE_TILE, NO_TILE, *(it for it in worked_sets() if it.count("\n") < 30)]:
        if base_after(parsed(script.encode()))[0] is None:
            hindered(script, "hindered-streamed")
    changed = f"1|refused: StoreFault {2 ** 64 - 1}"
    for layout in ("flat", "flat-with-hash", "cache"):
        tiles = {(0, 0, 0): b"0", (1, 0, 0): b"11", (1, 0, 1): b"1", (1, 1, 1): b"0"}
        script = text(store("base", layout, tiles, []), "query 0 0 0")
        for number in range(1, 5):
            changing(script, number, None, f"{changed}|0")
            changing(script, number, (2, 0, 0), f"{changed}|0")
        # by rising id: 0/0/0, then 1/0/0 from the top, which is row 1 from the bottom
        changing(script, 1, (1, 0, 1), f"{changed}|0")
        changing(script, 1, (1, 0, 0), f"{changed}|0")
        changing(script, 1, (1, 1, 1), "0||1")
        changing(script, 9, None, "0||1")
    changing_contents()


def changing_contents():
    """The same of sets whose contents stand in a table of their own: a row of a tile is sought, and then its contents."""
    changed = f"1|refused: StoreFault {2 ** 64 - 1}"
    for layout in ("normalized", "normalized-with-view", "dedup-id"):
        tiles = {(0, 0, 0): b"0", (1, 0, 0): b"11", (1, 0, 1): b"1", (1, 1, 1): b"0", (2, 0, 0): None, (2, 0, 1): b""}
        lines = store("base", layout, tiles, [])
        # a row that names no contents is none of a tile
        places, contents = ("tiles_shallow", "tiles_data") if layout == "dedup-id" else ("map", "images")
        lines.insert(1, f"row {places} i3 i0 i0 n")
        script = text(lines, "query 0 0 0")
        ids = {line.split(" ")[3]: line.split(" ")[2] for line in lines if line.startswith(f"row {contents} ")}

        def id_of(word):
            return ["number" if layout == "dedup-id" else "text", ids[word][1:]]

        # by rising id: 0/0/0, then 1/0/0 from the top, which is row 1 from the bottom; tiles
        # without bytes aren't sought
        order = [((0, 0, 0), "x30"), ((1, 0, 1), "x31"), ((1, 0, 0), "x3131"), ((1, 1, 1), "x30")]
        for at, (place, content) in enumerate(order):
            row, held = 2 * at + 1, 2 * at + 2
            # no row, one that names nothing, one of no place, and contents that aren't there
            for number, other in [(row, None), (row, (3, 0, 0)), (row, (5, 0, 0)), (held, None), (held, place)]:
                changing(script, number, other, f"{changed}|0")
            for other, found in [*order, ((2, 0, 0), "n"), ((2, 0, 1), "x")]:
                ends = "0||1" if found == content else f"{changed}|0"
                changing(script, row, other, ends)
                changing(script, held, id_of(found), ends)
        changing(script, 2 * len(order) + 1, None, "0||1")


def across_pages():
    """Sets at the borders of pages of 512 rows, which end with a short page, an empty one or a whole one, of tiles and of
    contents: each tile is there once. Then refusals on two pages, of which the first in the order of tests is answered."""
    def tiles(count):
        return {(6, k // 64, k % 64): b"%d" % k for k in range(count)}

    for layout, counts in [("flat", [511, 512, 513, 1024]), ("normalized", [513]), ("dedup-id", [512, 513])]:
        for count in counts:
            streamed(text(store("base", layout, tiles(count)), "query 6 0 63", "query 6 7 0", "query 6 8 63"))
    streamed(text(store("base", "dedup-id", tiles(513)), "query 6 8 63"), name="hashed")
    # rows stand in the order of their places: the last one of the first page, and the first one of the second
    first, second = 1 + 511, 1 + 512

    def with_words(layout, *changes):
        lines = store("base", layout, tiles(518))
        assert " i6 i7 i63 " in lines[first] and " i6 i8 i0 " in lines[second]
        for at, column, word in changes:
            words = lines[at].split(" ")
            lines[at] = " ".join([*words[:column], word, *words[column + 1:]])
        return text(lines, "query 0 0 0")

    # the columns are those of the line, whose first words are `row` and the table: 3 is that of a tile, 5 has
    # bytes or an id, 6 a digest
    for changes in [[(first, 5, "ta")], [(first, 5, "ta"), (second, 5, "tb")]]:
        streamed(with_words("flat", *changes))
    for changes in [[(first, 6, "tA"), (second, 3, "i64")], [(first, 6, "tA"), (second, 6, "tB")]]:
        streamed(with_words("flat-with-hash", *changes))
    for changes in [[(first, 5, "i99999")], [(first, 5, "i99999"), (second, 5, "i99998")], [(first, 5, "i99999"), (second, 5, "ta")], [(second, 5, "n")], [(first, 5, "i99999"), (second, 3, "i64")]]:
        streamed(with_words("dedup-id", *changes))


# Places of several zooms, whose ids stand in another order, with contents that are null or have no byte, and digests
# that end in other zooms, columns and rows.
APART = {(0, 0, 0): b"0", (1, 0, 0): b"11", (1, 0, 1): b"1", (1, 1, 0): None, (1, 1, 1): b"", (2, 3, 0): b"0", (3, 0, 7): b"one", (10, 5, 1000): b"two" * 50, (10, 5, 1001): b"\x00", (30, 2 ** 30 - 1, 0): b"last", (30, 0, 2 ** 30 - 1): b"first"}


def hashed_sets():
    """Sets of every layout and algorithm, each with the hash of its tiles, the same by the bytes of tiles alone, by another
    row of them, and none."""
    for algorithm in [b"md5", b"fnv1a", b"fnv1a-decimal", b"xxh64", b"xxh3"]:
        for layout in GOOD_LAYOUTS:
            for tiles in [APART, {(2, 1, 1): None}, {}]:
                names = {} if algorithm == b"md5" else {"hash_algorithm": algorithm}
                script = text(store("base", layout, tiles, named(**names), algorithm), "query 3 0 0", "query 1 1 0")
                right = converted(parsed(script.encode()).stores, False, False).aggregate()
                turned = {(z, x, 2 ** z - 1 - y): data for (z, x, y), data in tiles.items()}
                other = converted(parsed(text(store("base", layout, turned, named(**names), algorithm)).encode()).stores, False, False).aggregate()
                yield script, [text(store("base", layout, tiles, named(**names, agg_tiles_hash=stored), algorithm), "query 3 0 0", "query 1 1 0") for stored in dict.fromkeys([right, other, right[:-1], None])]


def hashes():
    """Conversions that hold no contents and hash all of them: to verify the hash, and for itself. Then each call of their
    objects fails, and the store changes, in the reading of the hash and in that of the archive."""
    for script, stored in hashed_sets():
        streamed(script, name="hashed")
        streamed("option verify\n" + script)
        for it in stored:
            streamed("option verify\n" + it)
    for sets in [worked_sets, verified_sets, refused_sets]:
        for script in sets():
            if not isinstance(parsed(script.encode()), int):
                streamed(script, name="hashed")
    for script, held in [(ONE_TILE, b"a"), ("base none\n", b"c"), ("option internal-compression gzip\nbase flat\n", b"PMTiles")]:
        streamed(script, held, "hashed")
    few = {(0, 0, 0): b"0", (1, 0, 0): b"11", (1, 0, 1): b"1", (1, 1, 1): b"0", (2, 0, 0): None}
    changed = f"1|refused: StoreFault {2 ** 64 - 1}"
    for layout in GOOD_LAYOUTS:
        script = text(store("base", layout, few), "query 0 0 0")
        right = converted(parsed(script.encode()).stores, False, False).aggregate()
        script = text("option verify", store("base", layout, few, named(agg_tiles_hash=right)), "query 0 0 0")
        hindered(script, "hindered-streamed")
        hindered(script, "hindered-hashed")
        hindered(text(store("base", layout, few), "query 0 0 0"), "hindered-hashed")
        if layout not in ("flat", "flat-with-hash", "cache"):
            changing_hashed_contents(script, layout)
            continue
        for number in range(1, 9):
            label = "none" if number < 5 else "0"
            changing(script, number, None, f"{changed}|{label}")
            changing(script, number, (3, 0, 0), f"{changed}|{label}")
        # by place for the hash: 0/0/0, 1/0/0, 1/0/1 and 1/1/1, rows from the bottom; by id for the
        # archive: 1/0/1 before 1/0/0
        for number, place in [(2, (1, 0, 0)), (3, (1, 0, 1)), (6, (1, 0, 1)), (7, (1, 0, 0)), (1, (1, 1, 1)), (4, (0, 0, 0)), (8, (0, 0, 0))]:
            changing(script, number, place, "0||1")
        for number, place in [(2, (1, 0, 1)), (3, (1, 0, 0)), (6, (1, 0, 0)), (7, (1, 0, 1))]:
            changing(script, number, place, f"{changed}|{'none' if number < 5 else '0'}")
        changing(script, 9, None, "0||1")


def changing_hashed_contents(script, layout):
    """The same of a set whose contents stand in a table of their own: by place for the hash, then by id for the archive, and
    of each tile its row and its contents."""
    changed = f"1|refused: StoreFault {2 ** 64 - 1}"
    by_place = [((0, 0, 0), "x30"), ((1, 0, 0), "x3131"), ((1, 0, 1), "x31"), ((1, 1, 1), "x30")]
    order = [*by_place, by_place[0], by_place[2], by_place[1], by_place[3]]
    for at, (place, content) in enumerate(order):
        label = "none" if at < len(by_place) else "0"
        for number in [2 * at + 1, 2 * at + 2]:
            changing(script, number, None, f"{changed}|{label}")
        for other, found in by_place:
            changing(script, 2 * at + 1, other, "0||1" if found == content else f"{changed}|{label}")
    changing(script, 2 * len(order) + 1, None, "0||1")


def streams_by_itself():
    """Conversions that hold no contents, with the options that the base says of itself: the bytes are those of the
    conversion that holds all of them."""
    scripts = [script for sets in [says_of_itself, worked_sets, verified_sets, refused_sets] for script in sets()]
    for script in dict.fromkeys(scripts):
        given = parsed(script.encode())
        if not isinstance(given, int) and len(given.stores) == 1:
            streamed(script, name="streamed-said")
    # the label of vector tiles is that of all of them, the last and those of many pages too;
    # the zooms are the outermost
    gzip, other = b"\x1f\x8b", b"\x1f"
    for tiles in [{(7, k, 0): gzip for k in range(40)} | {(7, 40, 0): other}, {(2, 0, 0): other, (9, 1, 1): gzip, (9, 1, 2): b""}, {(9, k % 500, k // 500): gzip for k in range(1030)} | {(12, 0, 0): other}]:
        for layout in ("flat", "flat-with-hash", "cache"):
            if len(tiles) < 100 or layout == "flat":
                streamed(text(store("base", layout, tiles, named(format=b"pbf", name=b"town")), "query 7 0 127"), name="streamed-said")
    for script, held in [(ONE_TILE, b"a"), ("base none\n", b"c")]:
        streamed(script, held, "streamed-said")
    for script in [ONE_TILE, NO_TILE]:
        hindered(script, "hindered-streamed-said")
