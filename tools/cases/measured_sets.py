"""Cases of stores that are filled with tiles made of numbers, and of conversions that are made twice over the same stores."""
from cases.archives_again import adds_of, archive
from cases.collided_streams import hindered_chains
from cases.patched_streams import APART
from cases.set_scripts import chain, GOOD_LAYOUTS, named, PATCHED, store, text
from cases.streamed_sets import options_said
from cases.tileset_runs import case, escaped, shown
from models.bases import spelled as rows_of, words as words_of
from models.scripts import defaults, parsed
from models.sets import converted

WAYS = {"memory": ["none", "streamed", "whole", "owned"], "database": ["none", "streamed", "whole"]}


def place(number):
    """The place of a number: round zooms 10 to 15, and in each of them by rows of 1,024 columns."""
    return 10 + number % 6, number // 6 % 1024, number // 6 // 1024


def contents(number, words):
    """The contents of a number: words of 8 bytes by a linear congruence, the first of which is the number."""
    out = []
    for _ in range(words):
        out.append(number.to_bytes(8, "little"))
        number = (number * 6364136223846793005 + 1442695040888963407) % 2 ** 64
    return b"".join(out)


def measured():
    """Stores of so many tiles with so many words of contents: how many rows they have, and what their archive counts."""
    for count, words in [(0, 1), (1, 0), (1, 1), (300, 2), (1025, 3)]:
        tiles = {place(number): contents(number, words) for number in range(count)}
        assert len(tiles) == count and words == 0 or len(set(tiles.values())) == count
        numbers = dict(archive(defaults(), adds_of(tiles))[1])
        counts = " ".join(str(numbers[name]) for name in ("addressed", "contents", "entries", "length"))
        for kind, ways in WAYS.items():
            for way in ways:
                case(["measure", kind, str(count), str(words), way], str(count) if way == "none" else counts)


def twice(name, script):
    """A conversion that is made twice over the same stores, which it only reads."""
    given = parsed(script.encode())
    state = converted(given.stores, given.options["force"], given.options["verify"])
    assert not isinstance(state, bytes)
    whole = archive(options_said(state) if name == "streamed-said" else given.options, adds_of(state.tiles))[0]
    end = f"0||1|{len(whole)}|{shown(whole, 64)}|"
    rows = "|".join(rows_of(words_of(it), escaped) for it in given.stores)
    case(["twice", name, escaped(script.encode())], end + end + rows)


def small_sets():
    """A set of each layout with tiles of equal contents, of none and of null, and the hash of all tiles."""
    tiles = {(0, 0, 0): b"0", (1, 0, 0): b"11", (1, 0, 1): b"0", (1, 1, 1): b"", (2, 3, 0): None}
    for layout in GOOD_LAYOUTS:
        names = {"name": b"town", "format": b"pbf"}
        right = converted(parsed(text(store("base", layout, tiles, named(**names))).encode()).stores, False, False).aggregate()
        yield text("option verify", store("base", layout, tiles, named(**names, agg_tiles_hash=right)), "query 1 0 0")


def small_chains():
    """A base of each layout that takes patches, with two of them, of all forms."""
    forms = ["flat", "flat-with-hash", "normalized", "normalized-with-view", "dedup-id", "cache"]
    tiles = {(0, 0, 0): b"0", (1, 0, 0): b"11", (1, 0, 1): b"0", (2, 3, 0): None}
    for at, layout in enumerate(PATCHED):
        first = store("patch", forms[at], {(1, 0, 0): b"put", (1, 1, 1): b"0"}, [*chain(b"A", b"B"), *named(name=b"city")])
        second = store("patch", forms[at + 2], {(0, 0, 0): None, (1, 0, 1): b"put"}, chain(b"B", b"C"))
        yield text(store("base", layout, tiles, named(agg_tiles_hash=b"A")), first, second, "query 1 0 0")


def again():
    """These, each twice: by the script's options, with the hash wanted, and by what the set says of itself."""
    for name in ["streamed", "streamed-said"]:
        for script in small_sets():
            twice(name, script)
    for name in ["streamed", "hashed", "streamed-said"]:
        for script in small_chains():
            twice(name, script)
    twice("hashed", text(store("base", "flat", APART), "query 0 0 0"))
    # for both layouts, patches that put contents whose id stood for null, until no tile named it
    for script in list(hindered_chains())[::2]:
        twice("streamed", script)
