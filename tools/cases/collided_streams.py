"""Cases of conversions of a normalised base and patches whose contents have ids that others of the base have, or had."""
import itertools
import random

from cases.set_scripts import chain, named, row, store, text
from cases.streamed_sets import changing, streamed
from cases.tileset_runs import hindered
from models.bases import base_after
from models.scripts import parsed
from models.sets import OTHER, Text, digest

LAYOUTS = ["normalized", "normalized-with-view"]
HELLO = b"hello"
# two contents that FNV-1a gives one digest
SAME_FNV = (b"8yn0iYCKYHlIj4-BwPqk", b"GReLUrM4wMqfg9yzV3KQ")
QUERIES = ["query 0 0 0", "query 1 0 1", "query 2 3 3", "query 3 0 0"]


def base_of(layout, contents, tiles, names=(), algorithm=b"md5"):
    """A base with cells of contents by id, and ids by place; its other ids are those of contents of their own."""
    rows = [row("map", *place, None if key is None else Text(key)) for place, key in tiles.items()]
    return [f"base {layout}", *names, *rows, *(row("images", Text(key), cell) for key, cell in contents.items())]


def held(*patches, algorithm=b"md5"):
    """Patches without hashes, which are forced."""
    names = [] if algorithm == b"md5" else named(hash_algorithm=algorithm)
    return [line for it in patches for line in store("patch", "flat", it, names, algorithm)]


def of_null():
    """A base with null, or a cell of another kind, under the id of what patches put: named by one tile, by two, or by
    none. It stands until no tile names it, and where none does until the first patch."""
    key, other = digest(b"md5", HELLO), digest(b"md5", b"0")
    put, away, over, beside = {(3, 0, 7): HELLO}, {(1, 0, 0): None}, {(1, 0, 0): b"1"}, {(2, 0, 0): b"2"}
    for layout in LAYOUTS:
        for tiles in [{(1, 0, 0): key}, {(1, 0, 0): key, (2, 3, 0): key}, {(0, 0, 0): other}, {}]:
            contents = {key: None, other: b"0"}
            base = base_of(layout, contents, tiles)
            for before in [[], [beside], [away], [over], [{}], [away, {(2, 3, 0): None}], [over, {(2, 3, 0): b"", (0, 0, 0): None}], [{**away, (2, 3, 0): b"0"}], [beside, over, beside]]:
                yield text("option force", base, held(*before, put), QUERIES)
                yield text("option force", base, held(*before, put, {(3, 0, 7): None}, put), QUERIES)
            # what puts it, and takes the last tile that names the other away
            for last in [{**put, **away}, {**put, **over, (2, 3, 0): HELLO}]:
                yield text("option force", base, held(last), QUERIES)
                yield text("option force", base, held(beside, last), QUERIES)
        for cell in [OTHER, 5, Text(b"any")]:
            base = base_of(layout, {key: cell}, {(0, 0, 0): None})
            for before in [[], [beside], [{}]]:
                yield text("option force", base, held(*before, put), QUERIES)


def of_equal():
    """A base with the contents that patches put, under their id in either case of letters, named or not."""
    key, other = digest(b"md5", HELLO), digest(b"md5", b"0")
    for layout in LAYOUTS:
        for own in [key, key.lower()]:
            for tiles in [{(1, 0, 0): own, (0, 0, 0): other}, {(0, 0, 0): other}]:
                base = base_of(layout, {own: HELLO, other: b"0"}, tiles)
                for patches in [[{(3, 0, 7): HELLO}], [{(3, 0, 7): HELLO, (1, 0, 0): None}], [{(1, 0, 0): b"1"}, {(3, 0, 7): HELLO}], [{(0, 0, 0): HELLO}, {(0, 0, 0): None, (1, 0, 0): b"0"}, {(2, 0, 0): HELLO}]]:
                    yield text("option force", base, held(*patches), QUERIES)
        # under one case of letters null, which isn't the id of what is put
        base = base_of(layout, {key.lower(): None, other: b"0"}, {(1, 0, 0): key.lower()})
        yield text("option force", base, held({(3, 0, 7): HELLO}), QUERIES)


def of_order():
    """Two contents that collide: the first by zoom, column and row from the bottom is named, whichever id is the
    smaller; and each test before that of contents comes first."""
    keys = [digest(b"md5", it) for it in (HELLO, b"5")]
    for layout in LAYOUTS:
        for whole in [True, False]:
            tiles = {} if whole else {(0, 0, 0): keys[0], (1, 1, 1): keys[1]}
            base = base_of(layout, {it: None for it in keys}, tiles)
            before = [] if whole else [{(3, 3, 3): b"3"}]
            for places in itertools.permutations([(2, 1, 2), (2, 1, 3), (3, 0, 0)], 2):
                put = dict(zip(places, (HELLO, b"5")))
                yield text("option force", base, held(*before, put), QUERIES)
                yield text("option force", base, held(*before, {**put, (1, 0, 0): b"5"}), QUERIES)
                yield text("option force", base, held(*before, {**put, (0, 0, 0): None, (1, 0, 0): b"0"}), QUERIES)
        base = base_of(layout, {keys[0]: None}, {}, named(agg_tiles_hash=b"A"))
        put = store("patch", "flat", {(1, 0, 0): HELLO}, chain(b"A", b"B"))
        yield text(base, put, QUERIES)
        yield text(base, store("patch", "flat", {(1, 0, 0): HELLO}, chain(b"X", b"B")), QUERIES)
        yield text(base, store("patch", "flat", {(1, 0, 0): HELLO}), QUERIES)
        yield text("option force", base, store("patch", "flat", {(1, 0, 0): HELLO}, named(hash_algorithm=b"xxh3"), b"xxh3"), QUERIES)
        yield text("option verify", base, put, QUERIES)


def of_digests():
    """Contents of one digest, by an algorithm for which such are known: of the base, of a patch, of several patches, and
    of all of these, beside null under another id."""
    a, b = SAME_FNV
    names = named(hash_algorithm=b"fnv1a")
    key, null = digest(b"fnv1a", a), digest(b"fnv1a", HELLO)
    assert key == digest(b"fnv1a", b) and a != b
    p, q, r, s = (0, 0, 0), (1, 0, 0), (1, 1, 0), (2, 2, 2)

    def of(*patches):
        return held(*patches, algorithm=b"fnv1a")

    for layout in LAYOUTS:
        for tiles in [{p: key}, {p: key, q: key}, {r: null}, {}]:
            base = base_of(layout, {key: a, null: None}, tiles, names)
            for patches in [[{q: a}], [{q: b}], [{p: b}], [{p: None}, {q: b}], [{p: b, q: b}], [{p: None, q: None}, {q: b}], [{p: None, q: None}, {q: b}, {r: a}],
                            [{q: a, s: b}], [{s: a, q: b}], [{p: a}, {p: None, q: None}, {s: b}], [{p: a}, {q: b}], [{p: a, q: a}, {p: b, q: b}], [{p: a}, {s: a}, {p: None, q: None}, {r: b}],
                            [{r: b}, {s: a}], [{r: b, s: HELLO}], [{r: HELLO, s: b}], [{s: b}, {p: None, q: None}, {s: a}], [{r: None}, {r: HELLO, s: a, q: b}], [{r: None}, {r: b, q: HELLO, s: a}]]:
                yield text("option force", base, of(*patches), QUERIES)


def at_random():
    """Bases whose contents are null, equal or of another digest's owner, with chains of patches."""
    rng, pool = random.Random(31), [HELLO, b"0", b"1", *SAME_FNV]
    places = [(z, c, r) for z in range(3) for c in range(2 ** z) for r in range(2 ** z)]
    for number in range(240):
        algorithm = b"fnv1a" if number % 2 else b"md5"
        names = named(hash_algorithm=algorithm)
        contents = {digest(algorithm, it): it if rng.random() < 0.6 else None for it in rng.sample(pool, rng.randrange(1, 5))}
        tiles = {it: rng.choice([*contents, None]) for it in rng.sample(places, rng.randrange(8))}
        patches = [{it: rng.choice([*pool, None, None]) for it in rng.sample(places, rng.randrange(1, 5))} for _ in range(rng.randrange(1, 5))]
        yield text("option force", base_of(rng.choice(LAYOUTS), contents, tiles, names), held(*patches, algorithm=algorithm), QUERIES)


def changing_ids():
    """A base that changes: contents are sought for each content of a patch, once that is loaded, and where others are
    found also the rows of the tiles that are left."""
    changed = f"1|refused: StoreFault {2 ** 64 - 1}|0"
    key, other = digest(b"md5", b"put").decode(), digest(b"md5", b"0").decode()
    tiles = {(0, 0, 0): b"0", (1, 0, 0): b"11", (1, 0, 1): b"1", (2, 0, 0): b"2"}
    for layout in LAYOUTS:
        base = store("base", layout, tiles)
        first, second = store("patch", "flat", {(1, 0, 0): b"put", (1, 0, 1): None}), store("patch", "flat", {(3, 0, 0): b"put"})
        one, two = text("option force", base, first, "query 0 0 0"), text("option force", base, first, second, "query 0 0 0")
        # nothing, or contents that aren't those of the patch: before the first patch these collide anyhow
        changing(one, 1, None, "0||1")
        changing(one, 1, ["text", key], "0||1")
        changing(one, 1, ["text", other], f"1|refused: store 1 IdCollision {key}|none")
        # after it only where a tile that is left names their id, and none does: then 0/0/0 and 2/0/0 were asked
        changing(two, 2, ["text", other], "0||1")
        # then the two tiles that are left are sought, each with its contents
        for script, behind in [(one, 1), (two, 2)]:
            for number in range(behind + 1, behind + 5):
                changing(script, number, None, changed)
            changing(script, behind + 5, None, "0||1")
        # a base with null under the id of the second patch, which a tile that is left names
        named_base = base_of(layout, {key.encode(): None, other.encode(): b"0"}, {(0, 0, 0): other.encode(), (2, 0, 0): key.encode()})
        script = text("option force", named_base, store("patch", "flat", {(1, 0, 0): b"1"}), second, "query 0 0 0")
        collides = f"1|refused: store 2 IdCollision {key}|none"
        changing(script, 9, None, collides)
        # nothing under the id of the first patch, then null under that of the second, then the rows of 0/0/0 and 2/0/0
        changing(script, 1, None, collides)
        changing(script, 2, None, "0||1")
        changing(script, 3, None, collides)
        changing(script, 3, (2, 0, 0), collides)
        changing(script, 4, None, "0||1")
        changing(script, 4, (0, 0, 0), "0||1")


def hindered_chains():
    """Chains whose calls fail in turn: without others under the ids of what is put, with some that stand no more, and with
    some that are asked for where two patches put them."""
    key, other = digest(b"md5", HELLO), digest(b"md5", b"0")
    for layout in LAYOUTS:
        base = base_of(layout, {key: None, other: b"0"}, {(0, 0, 0): other, (1, 0, 0): key, (1, 1, 1): other})
        yield text("option force", base, held({(1, 0, 0): b"1"}, {(3, 0, 7): HELLO}, {(3, 0, 0): HELLO, (0, 0, 0): None}), QUERIES)
        yield text("option force", store("base", layout, {(0, 0, 0): b"0", (1, 0, 0): b"1"}), held({(1, 0, 0): b"0"}, {(3, 0, 7): b"1"}), QUERIES)


def collided_streams():
    """All of these."""
    for script in [*of_null(), *of_equal(), *of_order(), *of_digests(), *at_random()]:
        streamed(script)
    for script in [*list(of_null())[::7], *list(of_digests())[::5], *list(at_random())[::6]]:
        streamed(script, name="hashed")
        streamed(script, name="streamed-said")
    changing_ids()
    for script in hindered_chains():
        assert base_after(parsed(script.encode()))[0] is None
        hindered(script, "hindered-streamed")
        hindered(script, "hindered-hashed")
