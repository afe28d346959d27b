"""Cases of conversions of parts of sets: intervals of ids, alone and joined."""
import random

from cases.archives_again import adds_of, archive, tile_id
from cases.patched_streams import chains, verified_chains, with_patches
from cases.set_scripts import GOOD_LAYOUTS, named, random_chains, refused_patches, refused_sets, store, text, verified_sets, worked_patches, worked_sets
from cases.streamed_sets import changing, options_said, says_of_itself, streamed
from cases.tileset_runs import case, escaped, shown
from models.scripts import parsed
from models.sets import converted

LAST = (4 ** 32 - 1) // 3 - 1


def pyramid(zoom):
    """How many tiles the zooms below one have."""
    return (4 ** zoom - 1) // 3


def spelled(intervals):
    return " ".join(f"{first}-{last}" for first, last in intervals)


def below(zoom, x, y, greatest=31):
    """The ids of a tile and of all tiles below it: at each zoom the next four times as many along the curve."""
    number = tile_id(zoom, x, y) - pyramid(zoom)
    return [(pyramid(z) + number * 4 ** (z - zoom), pyramid(z) + (number + 1) * 4 ** (z - zoom) - 1) for z in range(zoom, greatest + 1)]


def quarters():
    """The four tiles of zoom 1 with all below them, and the tile of zoom 0."""
    return [[(0, 0)], *(below(1, x, y) for x in range(2) for y in range(2))]


def ids_of(script):
    """The ids of the tiles that a script's set has, and of their neighbours, or some ids where it is refused."""
    given = parsed(script.encode())
    state = converted(given.stores, given.options["force"], given.options["verify"])
    ids = range(12) if isinstance(state, bytes) else [number for number, _ in adds_of(state.tiles)]
    return sorted({min(max(it + step, 0), LAST) for it in ids for step in (-1, 0, 1)} | {0, LAST})


def random_part(rng, ids):
    """Up to four intervals between some of these ids, apart from one another."""
    ends = sorted(rng.sample(ids, min(len(ids), 2 * rng.randrange(5))))
    return spelled(zip(ends[::2], ends[1::2]))


def partition(rng, ids):
    """Parts that have each id once: all ids cut at some of these, and the pieces given to two to five parts in turn."""
    cuts = sorted(rng.sample(ids[1:], min(len(ids) - 1, rng.randrange(1, 9))))
    pieces = list(zip([0, *cuts], [*(it - 1 for it in cuts), LAST]))
    parts = [[] for _ in range(rng.randrange(2, 6))]
    for piece in pieces:
        rng.choice(parts).append(piece)
    return [spelled(it) for it in parts]


def joined(script, parts, name="streamed"):
    """The archives of the parts, joined: the archive of the whole set, where each tile lies in a part."""
    given = parsed(script.encode())
    fields = ["parts-joined", name, ";".join(parts), escaped(script.encode())]
    state = converted(given.stores, given.options["force"], given.options["verify"])
    if isinstance(state, bytes):
        return case(fields, f"1|{shown(b'refused: ' + state, 4000)}")
    whole, _ = archive(options_said(state) if name == "streamed-said" else given.options, adds_of(state.tiles))
    case(fields, f"|{len(whole)}|{shown(whole, 64)}")


def usual(script):
    """Whether the options of a script's archive are such that a join gives them."""
    return "option internal-compression" not in script and "option max-leaf-entries" not in script


def unsought():
    """A base whose rows change: of it only those are sought a second time whose tiles lie in the part."""
    changed = f"1|refused: StoreFault {2 ** 64 - 1}"
    tiles = {(0, 0, 0): b"0", (1, 0, 0): b"11", (1, 0, 1): b"1", (1, 1, 1): b"0"}
    patch = store("patch", "flat", {(1, 0, 0): b"put"})
    for layout in ("flat", "flat-with-hash", "cache"):
        base = store("base", layout, tiles)
        for part, sought in [("", 0), ("0-0", 1), ("1-2", 2), ("1-1 4-9", 2), ("5-9", 0), (f"0-{LAST}", 4)]:
            script = text(base, "query 0 0 0")
            for number in range(1, sought + 1):
                changing(script, number, None, f"{changed}|0", part)
            changing(script, sought + 1, None, "0||1", part)
        if layout == "cache":
            continue
        # 1/0/0 from the bottom, the second row of zoom 1 from the top, is put by the patch, and has the id 2
        script = text("option force", base, patch, "query 0 0 0")
        for part, sought in [("1-2", 1), ("2-2", 0), ("0-4", 3)]:
            for number in range(1, sought + 1):
                changing(script, number, None, f"{changed}|0", part)
            changing(script, sought + 1, None, "0||1", part)


def asks_for_parts():
    """Words that name a part, once, by numbers of which there is one."""
    top = str(2 ** 31 - 1)
    for words, ids in [(["0", "0", "0"], below(0, 0, 0)), (["1", "1", "0"], below(1, 1, 0)), (["2", "3", "0"], below(2, 3, 0)), (["31", top, top], below(31, 2 ** 31 - 1, 2 ** 31 - 1))]:
        case(["asked", " ".join(["--part", *words, "a", "b"])], f"ids {spelled(ids)} 2")
    case(["asked", "--force a --part 1 0 1 --hash b c"], f"force hash ids {spelled(below(1, 0, 1))} 3")
    for first, last in [(0, 0), (0, 20), (5, 5), (7, LAST), (LAST, LAST)]:
        case(["asked", f"a --ids {first} {last} b"], f"ids {first}-{last} 2")
    for words in ["--part 1 2 0 a b", "--part 1 0 2 a b", "--part 32 0 0 a b", "--part 256 0 0 a b", "--part 31 4294967296 0 a b", "--part 1 0 a b", "a b --part 1 0", "a b --part", "--part -- a b",
                  "--part 01 0 0 a b", "--part 1 +1 0 a b", "--ids 5 4 a b", f"--ids 0 {LAST + 1} a b", f"--ids {LAST + 1} {LAST + 1} a b", "--ids 0 a b", "a b --ids 0", "a b --ids", "--ids 0 -- a b",
                  "--ids 0 1 --ids 2 3 a b", "--part 0 0 0 --ids 2 3 a b", "--ids 2 3 --part 0 0 0 a b", "--ids 0 1 a", "--part 0 0 0 a", "--parts 0 0 0 a b", "--id 0 1 a b"]:
        case(["asked", words], "none")
    case(["asked", "a -- --part 0 0 0"], "5")


def parts():
    """Parts of sets of every layout, with patches and without: none, all, random ones, and those of a partition."""
    rng = random.Random(69)
    scripts = [*worked_sets(), *verified_sets(), *refused_sets(), *worked_patches(), *refused_patches(), *list(chains())[::3], *random_chains(70, 60)]
    scripts = [it for it in dict.fromkeys(scripts) if not isinstance(parsed(it.encode()), int) and len(it) < 6000]
    for script in scripts[::5]:
        for part in (random_part(rng, ids_of(script)), rng.choice(["", "all", f"0-{LAST}"])):
            streamed(script, name=rng.choice(["streamed", "streamed", "streamed-said", "hashed"]), part=part)
    for script in [*list(worked_sets())[::3], *list(says_of_itself())[::2], *list(verified_chains())[::24]]:
        if len(script) < 6000:
            for part in map(spelled, quarters()[:3]):
                streamed(script, name="streamed-said", part=part)
    for script in scripts[1::8]:
        if usual(script):
            joined(script, partition(rng, ids_of(script)))
    for script in [*says_of_itself(), *with_patches(chains())][::4]:
        joined(script, partition(rng, ids_of(script)), "streamed-said")
        joined(script, [spelled(it) for it in quarters()], "streamed-said")
    one = text(store("base", GOOD_LAYOUTS[0], {(0, 0, 0): b"0"}, named(name=b"town")))
    streamed(one, b"a", part="0-0")
    streamed("option internal-compression gzip\n" + one, part="0-0")
    unsought()
    asks_for_parts()
