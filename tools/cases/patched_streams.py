"""Cases of conversions of a base and patches that hold no contents of the base."""
from cases.set_scripts import (GOOD_LAYOUTS, chain, four_ways, named, random_chains, refused_patches, removes_the_tile,
                               store, text, worked_patches)
from cases.streamed_sets import APART, changing, says_of_itself, streamed
from cases.tileset_runs import SCRIPTS, hindered
from models.bases import base_after
from models.scripts import parsed
from models.sets import converted


def with_patches(scripts):
    """The scripts that can be read and have patches, each once."""
    for script in dict.fromkeys(scripts):
        given = parsed(script.encode() if isinstance(script, str) else script)
        if not isinstance(given, int) and len(given.stores) > 1 and len(script) < 20000:
            yield script


def chains():
    """Bases of every layout, each with two patches: the second one puts what the first one took away, takes away what
    it put, and leaves the rest."""
    first = {(1, 0, 0): b"put", (1, 0, 1): None, (2, 3, 0): b"0", (4, 0, 0): b"11", (4, 1, 0): b""}
    second = {(1, 0, 1): b"11", (4, 0, 0): None, (3, 0, 7): b"put", (30, 0, 2 ** 30 - 1): b"first"}
    for layout in GOOD_LAYOUTS:
        for form in ("flat", "flat-with-hash", "normalized-with-view", "cache"):
            lines = [store("base", layout, APART, named(agg_tiles_hash=b"A", name=b"town")),
                     store("patch", form, first, chain(b"A", b"B")),
                     store("patch", form, second, [*chain(b"B", b"C"), *named(name=b"city")])]
            queries = ["query 1 0 1", "query 1 0 0", "query 4 0 15", "query 30 0 0", "query 0 0 0"]
            yield text(*lines, queries)
            yield text("option force", lines[0], lines[2], lines[1], queries)
            yield text(*lines[:2], queries)


def verified_chains():
    """The same with a last patch that says the hash of the tiles after it, and one that says another."""
    for script in chains():
        if "option force" in script:
            continue
        state = converted(parsed(script.encode()).stores, False, False)
        if isinstance(state, bytes):
            continue
        right, last = state.aggregate().decode(), "tC" if " tC" in script else "tB"
        for stored in (right, right[:-1]):
            yield "option verify\n" + script.replace(f"agg_tiles_hash_after_apply {last}", f"agg_tiles_hash_after_apply t{stored}")


def across_pages():
    """A base of more than a page of rows with patches at the border of the pages, over all of it, and beside it."""
    tiles = {(6, k // 64, k % 64): b"%d" % k for k in range(518)}
    queries = ["query 6 7 0", "query 6 8 63", "query 6 8 62", "query 7 0 0"]
    for layout in ("flat", "normalized", "dedup-id"):
        for put in [{(6, 7, 63): b"a", (6, 8, 0): None}, {place: None for place in tiles}, {place: b"same" for place in tiles}, {(7, 0, 127): b"b"}]:
            yield text("option force", store("base", layout, tiles), store("patch", "flat", put), queries)


def three_patches():
    """A base with patches of the forms that the chains don't have."""
    forms = ["normalized", "dedup-id", "cache"]
    return text("option force", store("base", "flat", {(0, 0, 0): b"0", (1, 0, 0): b"11"}), *(store("patch", form, {(3, at, 1): b"put", (1, 0, 0) if at == 1 else (2, at, 0): None}) for at, form in enumerate(forms)), "query 1 0 0")


def changing_bases():
    """A base that changes meanwhile: of it those tiles are sought that the patches leave."""
    changed = f"1|refused: StoreFault {2 ** 64 - 1}"
    tiles = {(0, 0, 0): b"0", (1, 0, 0): b"11", (1, 0, 1): b"1", (1, 1, 1): b"0", (2, 0, 0): b"2"}
    for layout in ("flat", "flat-with-hash"):
        base = store("base", layout, tiles)
        first = store("patch", "flat", {(1, 0, 0): b"put", (1, 0, 1): None})
        second = store("patch", "flat", {(2, 0, 0): b"put", (3, 0, 0): b"0"})
        # by rising id: 0/0/0, 1/1/1 from the bottom, which is 1/1/0 from the top, and 2/0/0
        for lines, order in [([first], [(0, 0, 0), (2, 0, 0), (1, 1, 1)]), ([first, second], [(0, 0, 0), (1, 1, 1)])]:
            script = text("option force", base, *lines, "query 0 0 0")
            for number in range(1, len(order) + 1):
                changing(script, number, None, f"{changed}|0")
                changing(script, number, (3, 0, 0), f"{changed}|0")
            changing(script, 1, (1, 1, 1), "0||1")
            changing(script, 1, (1, 0, 0), f"{changed}|0")
            changing(script, len(order) + 1, None, "0||1")
            changing_hashed_base(script, order)


def changing_hashed_base(script, order):
    """The same where the hash is verified: first each of those tiles, which are of different zooms, is sought by its place,
    and then by its id."""
    changed = f"1|refused: StoreFault {2 ** 64 - 1}"
    state = converted(parsed(script.encode()).stores, True, False)
    at = script.rindex("patch flat\n") + len("patch flat\n")
    script = "option verify\n" + script[:at] + text(named(agg_tiles_hash_after_apply=state.aggregate())) + script[at:]
    for number, own in enumerate([*sorted(order), *sorted(order)], 1):
        label = "none" if number <= len(order) else "0"
        changing(script, number, None, f"{changed}|{label}")
        changing(script, number, (3, 0, 0), f"{changed}|{label}")
        changing(script, number, own, "0||1")
    changing(script, 2 * len(order) + 1, None, "0||1")


def patched_streams():
    """All of these, the patches of every script so far, and each call of the objects failing in turn."""
    scripts = [*SCRIPTS, *worked_patches(), *refused_patches(), *four_ways(), *random_chains(24, 80), *random_chains(26, 150), *chains(), *across_pages()]
    for script in with_patches(scripts):
        streamed(script)
    for script in with_patches([*worked_patches(), *chains(), *random_chains(27, 60)]):
        streamed(script, name="hashed")
    for script in with_patches(verified_chains()):
        streamed(script)
    for script in with_patches([*says_of_itself(), *worked_patches(), *refused_patches(), *four_ways(), *random_chains(25, 40), *random_chains(28, 60)]):
        streamed(script, name="streamed-said")
    streamed(removes_the_tile(), b"c")
    for script in [removes_the_tile(), *four_ways(), *list(chains())[::5]]:
        if base_after(parsed(script.encode()))[0] is None:
            hindered(script, "hindered-streamed")
            hindered(script, "hindered-streamed-said")
    # a patch of each form, and none of a store with a hash to be verified is left out
    for script in [three_patches(), *list(chains())[::18]]:
        if base_after(parsed(script.encode()))[0] is None:
            hindered(script, "hindered-hashed")
    hindered(three_patches(), "hindered-streamed")
    for script in list(verified_chains())[::16]:
        if base_after(parsed(script.encode()))[0] is None:
            hindered(script, "hindered-streamed")
    changing_bases()
