"""Scripts and words of the converter: good and bad ones, files, media and other objects, many rows and random ones."""
import random

from cases.archives_again import bulk, coord, report, report_of, tile_id
from cases.set_scripts import removes_the_tile
from cases.tileset_runs import ACROSS_ZOOMS, case, ended, escaped, FILE, FIVE, NO_TILE, ONE_TILE, outcome, run, shown, USAGE
from models.scripts import LABELS, parsed, TYPES
from models.sets import converted


def good_scripts():
    """Sets, options and queries whose archives are written."""
    for script in [
        NO_TILE, ONE_TILE,
        "base flat\nrow tiles i1 i0 i1 xaa\nquery 1 0 0\nquery 1 0 1\n",
        "base flat\nrow tiles i0 i0 i0 x30\nrow tiles i1 i0 i1 x30\n",
        "# in reverse order\n\nbase flat\nrow tiles i1 i0 i1 x30\n\n#\nrow tiles i0 i0 i0 x30",
        "base flat\nrow tiles i0 i0 i0 x\nrow tiles i1 i0 i0 n\nquery 0 0 0\nquery 1 0 1\n",
        "base flat\nrow tiles i0 i0 i0 x", "base flat\nrow tiles i0 i0 i0 n\nquery 0 0 0",
        "base flat\nrow tiles i4 i1 i12 x30\nquery 4 1 3\n", "base flat\nrow tiles i4 i11 i2 x30\nquery 4 11 13\n",
        "option type png\noption type mvt\noption max-zoom 0\noption metadata t{%22name\":\"Cities\"}\nbase flat\nrow tiles i0 i0 i0 x30\n",
        "option tile-compression zstd\noption type mvt\nbase flat\nrow tiles i0 i0 i0 x30\n",
        "option type mvt\noption tile-compression unknown\nbase flat\nrow tiles i0 i0 i0 x30\n",
        "base flat", "# a set\n\nbase flat\n#\n\nquery 0 0 0\n# end",
        "base flat\nrow tiles i1 i0 i1 xaa\nquery 1 0 0\nquery 1 0 1\n",
        "base flat\nrow tiles i0 i0 i0 x\nrow tiles i1 i0 i0 n\nquery 31 2147483647 2147483647\n",
        "base flat\nrow tiles i30 i1073741823 i1073741823 x0fA0\nrow tiles i30 i0 i0 x\nquery 30 1073741823 0\n",
        "option type mvt\noption tile-compression none\noption internal-compression brotli\noption min-zoom 0\n\noption max-zoom 255\noption center-zoom 3\n"
        "option bounds -2147483648 -1 0 2147483647\noption center -5 6\noption metadata t{\"name\":\"%c3%A9\"}\noption metadata t\nbase flat\n",
        "option internal-compression none\noption min-zoom 7\noption max-zoom 255\noption center-zoom 3\noption bounds -2147483648 -1 0 2147483647\n"
        "option center -5 6\noption metadata t%f0%9f%97%BA\noption type mlt\nbase flat\nrow tiles i2 i3 i3 xffFF00\nquery 2 3 0\n",
        "option internal-compression gzip\nbase flat\n", "option internal-compression unknown\nbase flat\nrow tiles i0 i0 i0 x30\n",
        "option internal-compression gzip\noption internal-compression none\nbase flat\n",
    ]:
        run(script)
    for rows in [FIVE, FIVE[::-1], sorted(FIVE)]:
        run("\n".join(["base flat", *rows, "query 4 1 3", "query 1 1 1", "query 0 0 0", "query 31 0 0", ""]))


BAD_LINES = [
    # The base, its place, and the end.
    ("", 1), ("# nothing\n\n", 3), ("option min-zoom 1", 2), ("base flat\nbase flat", 2), ("base  flat", 1), ("base  flat\n", 1), ("base flat ", 1),
    ("base flat\r\n", 1), ("row tiles i0 i0 i0 n\nbase flat", 1), ("query 0 0 0\nbase flat", 1),
    ("base flat\nquery 0 0 0\nrow tiles i0 i0 i0 n\n", 3), ("base flat\n #\n", 2), (b"base flat\n\xff\x00\n", 2), ("\n", 2), (" base flat\n", 1), ("base", 1), ("base \n", 1),
    # Rows.
    ("base flat\nrow tiles i0 i0 i0\n", 2), ("base flat\nrow tiles i0 i0 i0 n n\n", 2), 
    
    ("base flat\nrow tiles i0 i0 i00 n\n", 2), ("base flat\nrow tiles i0 i0 i-0 n\n", 2), 
    ("base flat\nrow tiles i0 i0 i0 x3\n", 2), ("base flat\nrow tiles i0 i0 i0 xg0\n", 2), 
    
    ("base flat\nrow tiles i9223372036854775808 i0 i0 n\n", 2), ("base flat\nrow tiles i i0 i0 n\n", 2), ("base flat\nrow\n", 2), ("base flat\nrow tiles\n", 2),
    ("base flat\nrow tiles i1 i0 i1 xaa\n\n# again\nrow tiles i1 i0 i1 n\n", 5),
    ("base flat\nrow tiles i0 i0 i0 x30\nrow tiles i0 i0 i0 x30\n", 3),
    ("base flat\nrow tiles i2 i3 i1 x30\nrow tiles i2 i1 i3 n\nrow tiles i1 i1 i1 n\nrow tiles i2 i3 i1 n\nrow tiles i9 i9 i9\n", 5),
    # Queries.
    ("base flat\nquery 0 0 1\n", 2), ("base flat\nquery 32 0 0\n", 2), ("base flat\nquery 31 2147483648 0\n", 2), ("base flat\nquery 0 0 0 \n", 2),
    ("base flat\nquery 0 0\n", 2), ("base flat\nquery 0 0 +0\n", 2), ("base flat\nquery 0 0 -1\n", 2), ("base flat\nquery 0  0 0\n", 2),
    # Options.
    ("base flat\noption min-zoom 1\n", 2), ("option type jpg\nbase flat", 1), ("option tile-compression deflate\nbase flat", 1),
    ("option min-zoom 256\nbase flat", 1), ("option max-zoom -1\nbase flat", 1), ("option bounds 1 2 3\nbase flat", 1),
    ("option bounds 1 2 3 2147483648\nbase flat", 1), ("option center 1\nbase flat", 1), ("option center -2147483649 0\nbase flat", 1),
    ("option metadata {}\nbase flat", 1), ("option metadata t%2\nbase flat", 1), ("option metadata t%ff\nbase flat", 1),
    ("option metadata t%c3\nbase flat", 1), ("option\nbase flat", 1), ("option type\nbase flat", 1), ("option type mvt mvt\nbase flat", 1),
    ("option metadata t%ed%a0%80\nbase flat", 1), ("option min-zoom 01\nbase flat", 1),
]


def words_and_bulk():
    """Words that are no command, and sets that are made from two numbers."""
    for words in [["convert"], ["convert", "file"], ["convert", "file", "x", "y"], ["Convert", "file", "x"], ["convert", "files", "x"], ["convert", "hex", "x"],
                  ["file", "convert", "x"], ["convert", "Hex"], ["hex", "convert"], ["convert", "hex", ""], [], ["bulk", "100001", "1"], ["bulk", "1", "0"],
                  ["bulk", "1", "1000001"], ["bulk", "01", "1"], ["bulk", "-1", "1"], ["bulk", "1"], ["bulk", "1", "1", "1"], ["Bulk", "1", "1"], ["bulk", "1", "1", "15"],
                  ["bulk", "1", "1", "65537"], ["bulk", "1", "1", "016"], ["bulk", "1", "1", "-16"], ["bulk", "1", "1", "16", "16"], ["bulk", "1", "0", "16"], ["Bulk", "1", "1", "16"]]:
        run(ONE_TILE, words)
    for tiles, repeat in [(0, 1), (1, 1), (5, 2), (5, 1000000), (86, 3), (4063, 1), (4064, 1), (40000, 1), (12288, 3), (100000, 1000000)]:
        run("", ["bulk", str(tiles), str(repeat)])
    for tiles, repeat, most in [(0, 1, 16), (5, 2, 65536), (4063, 1, 16), (4064, 1, 16), (4064, 1, 4096), (4064, 1, 4063), (12288, 3, 100), (65000, 1, 16), (70000, 1, 17),
                                (100000, 1, 16), (100000, 1, 65536), (100000, 2, 16)]:
        run("", ["bulk", str(tiles), str(repeat), str(most)])
    run("base none", ["bulk", "3", "1"])


def files():
    """What is printed beside a file, whatever its path, and the same refusals and faults as of the bytes in
    hexadecimal."""
    five = "\n".join(["base flat", *FIVE, "query 4 1 3", "query 1 1 1", "query 0 0 0", "query 31 0 0", ""])
    for script in [ONE_TILE, NO_TILE, "base flat", five, "option min-zoom 7\noption type mlt\noption metadata t%f0%9f%97%BA\nbase flat\nrow tiles i2 i3 i3 xffFF00\nquery 2 3 0\n",
                   "option internal-compression gzip\nbase flat\n", "base none\n", "", "base flat\nrow tiles i0 i0 i0 x3\n"]:
        run(script, FILE)
    for path in ["", "hex", "file", "/none/a.pmtiles", "5"]:
        run(ONE_TILE, ["convert", "file", path])
    for script, held in [(ONE_TILE, b"a"), (ONE_TILE, bytes(200)), ("option internal-compression gzip\nbase flat\n", b"ab"), ("base none\n", b"c")]:
        run(script, FILE, held)
    _, _, whole = report_of(ONE_TILE)
    for script, calls, wanted in [
        (ONE_TILE, "i1", ended(4, "input fault")), (ONE_TILE, "o1", ended(5, "output fault", medium=whole)), (ONE_TILE, "m1", ended(6, "medium fault")),
        ("base flat flat", "o1 m1", ended(3, "bad script: line 1")), ("base none", "o1", ended(1, "refused: store 0 InvalidDataFormat")), (ONE_TILE, "o1 m1", ended(6, "medium fault")),
    ]:
        case(["run", " ".join(FILE), escaped(script.encode()), calls, ""], wanted)
    for script in [ONE_TILE, NO_TILE, five]:
        for place in ["input", "output", "medium"]:
            case(["each", place, " ".join(FILE), escaped(script.encode())], "as wanted")


def media():
    """Media that aren't empty, and objects whose first call fails."""
    for script, held in [(ONE_TILE, b"a"), ("option internal-compression gzip\nbase flat\n", b"ab"), ("base none\n", b"c")]:
        run(script, medium=held)
    run("", ["bulk", "5", "2"], b"d")
    run("", ["bulk", "x", "2"], b"e")
    _, _, whole = report_of(ONE_TILE)
    gzip = "option internal-compression gzip\nbase flat\nquery 0 0 0\n"
    for script, calls, wanted in [
        (ONE_TILE, "i1", ended(4, "input fault")), (gzip, "i1", ended(4, "input fault")), ("base flat flat", "i1", ended(4, "input fault")),
        (ONE_TILE, "o1", ended(5, "output fault", medium=whole)), (gzip, "o1", ended(1, "refused: unsupported compression gzip")),
        (ONE_TILE, "m1", ended(6, "medium fault")), (gzip, "m1", ended(6, "medium fault")), ("base flat flat", "m1", ended(3, "bad script: line 1")), ("base none", "m1", ended(6, "medium fault")),
        (removes_the_tile(), "o1", ended(5, "output fault", medium=report_of(NO_TILE)[2])),
        (ONE_TILE, "i1 m1 o1", ended(4, "input fault")), (ONE_TILE, "o1 m1", ended(6, "medium fault")), ("base flat flat", "o1 m1", ended(3, "bad script: line 1")), ("base none", "o1", ended(1, "refused: store 0 InvalidDataFormat")),
    ]:
        case(["run", "convert hex", escaped(script.encode()), calls, ""], wanted)
    case(["run", "convert", escaped(ONE_TILE.encode()), "i1 o1 m1", ""], ended(2, USAGE))
    case(["run", "convert hex", escaped(ONE_TILE.encode()), "i1 o1 m1", "61"], ended(4, "input fault", medium=b"a"))
    case(["run", "convert hex", escaped(ONE_TILE.encode()), "m1", "61"], ended(6, "medium fault", medium=b"a"))
    case(["run", "bulk 3 1", "", "i1", ""], outcome(["bulk", "3", "1"], b""))
    case(["run", "bulk 3 1", "", "o1", ""], ended(5, "output fault", medium=bulk(3, 1)[1]))
    case(["run", "bulk 3 1", "", "m1", ""], ended(6, "medium fault"))


def other_objects():
    """Each call failing in turn, reads for what is asked, and objects that answer in odd ways."""
    five = "\n".join(["base flat", *FIVE, "query 4 1 3", "query 0 0 0", ""])
    for words, script in [("convert hex", ONE_TILE), ("convert hex", NO_TILE), ("convert hex", five), ("convert hex", removes_the_tile()), ("convert hex", ACROSS_ZOOMS), ("bulk 5 2", ""), ("bulk 300 1", ""), ("bulk 4064 1 16", "")]:
        # The medium of 4064 contents has more calls than a case takes.
        for place in ["input", "output"] + ["medium"] * (words != "bulk 4064 1 16"):
            wanted = "no call" if place == "input" and words != "convert hex" else "as wanted"
            case(["each", place, words, escaped(script.encode())], wanted)
    base = "base flat\nrow tiles i0 i0 i0 x30\nrow tiles i1 i0 i0 x\n"
    for queries, reads in [("query 0 0 0\n", 1), ("query 1 0 1\n", 0), ("query 2 0 0\n", 0), ("query 0 0 0\nquery 1 0 1\nquery 0 0 0\n", 2)]:
        case(["reads", escaped(base.encode()), escaped(queries.encode())], str(reads))
    short = "read back: UnexpectedNumberOfBytesReturned"
    for size, script, line in [(0, ONE_TILE, "read back: InvalidHeader"), (130, ONE_TILE, "read back: InvalidHeader"), (16384, ONE_TILE, short),
                               (16384, "base flat\nrow tiles i0 i0 i0 x30\n", short)]:
        case(["short", str(size), escaped(script.encode())], f"9|{line}")
    gzip = "option internal-compression gzip\nbase flat\nquery 0 0 0\n"
    case(["short", "0", escaped(gzip.encode())], "1|refused: unsupported compression gzip")
    for script in [ONE_TILE, five]:
        output = "".join(report_of(script)[:2])
        for kind in ["versions", "single", "streams"]:
            case([kind, escaped(script.encode())], f"0||{shown(output.encode(), 4000)}")
    for name, status, line in [("OutOfMemory", 7, "out of memory"), ("InputTooLong", 8, "input too long"), ("IndexEntryOverflow", 1, "refused: IndexEntryOverflow")]:
        case(["outcome", name], f"{status}|{line}")


def many_tiles():
    """Sets of more than 65,000 tiles through leaves of 16 entries and the directories above them, each tile with its
    column and its row as contents."""
    for zoom, columns, rows, head, tail in [
        (8, 256, 256, "option max-leaf-entries 16\nbase flat\n", "query 8 0 0\nquery 8 255 0\nquery 8 128 127\nquery 8 37 201\nquery 8 0 255\nquery 9 0 0\n"),
        (9, 300, 230, "option max-leaf-entries 16\noption force\nbase flat\n",
         "patch flat\nrow tiles i9 i0 i511 x70\nrow tiles i9 i299 i229 n\nrow tiles i9 i511 i0 x71\nquery 9 0 0\nquery 9 299 282\nquery 9 298 282\nquery 9 511 511\nquery 9 150 400\nquery 9 300 400\n"),
    ]:
        script = head + "".join(f"row tiles i{zoom} i{x} i{y} x{x:04x}{y:04x}\n" for x in range(columns) for y in range(rows)) + tail
        fields = ["many", " ".join(FILE), escaped(head.encode()), str(zoom), str(columns), str(rows), escaped(tail.encode())]
        case(fields, outcome(FILE, script.encode()))


def on_file():
    """A file in the folder that the program runs in: it is made, written and opened again, and refused where it holds
    something."""
    held = {}
    for path, script in [("made.pmtiles", ONE_TILE), ("made.pmtiles", NO_TILE), ("bad.pmtiles", "base flat flat"), ("bad.pmtiles", NO_TILE), ("none.pmtiles", "base none"),
                         ("chain.pmtiles", removes_the_tile())]:
        before = held.get(path, b"")
        given = parsed(script.encode())
        if not before and not isinstance(given, int):
            state = converted(given.stores, False, False)
            held[path] = b"" if isinstance(state, bytes) else report(given, state)[2]
        status, line, output, *_ = outcome(["convert", "file", path], script.encode(), before).split("|")
        whole = held.get(path, b"")
        case(["file", path, escaped(script.encode())], f"{status}|{line}|{output}|{len(whole)}|{shown(whole, 64)}")


def random_scripts(seed):
    """Scripts of a few rows, options and queries, and such scripts with one change."""
    rng = random.Random(seed)
    for _ in range(120):
        lines, places = [], []
        for _ in range(rng.randrange(3)):
            lines.append(rng.choice([
                f"option type {rng.choice(TYPES)}", f"option tile-compression {rng.choice(LABELS)}", f"option min-zoom {rng.randrange(256)}",
                f"option center-zoom {rng.randrange(256)}", f"option center {rng.randrange(-2 ** 31, 2 ** 31)} {rng.randrange(-9, 9)}",
                f"option metadata t{rng.choice(['', 'a%20b', '{%7d', '%E2%82%AC'])}", "# a line", ""]))
        lines.append("base flat")
        for _ in range(rng.choice([0, 1, 3, 12, 40])):
            z = rng.choice([0, 1, 2, 2, 3, 3, 3, 5, 9, 30])
            x, line = (rng.randrange(2 ** min(z, 4)) for _ in range(2))
            if (z, x, line) in places:
                continue
            places.append((z, x, line))
            content = rng.choice(["n", "x", "x00", "x01", "x01", "x0102", "xfFfE"])
            lines.append(f"row tiles i{z} i{x} i{line} {content}")
        for _ in range(rng.randrange(4)):
            z, x, line = rng.choice(places) if places and rng.random() < 0.7 else (4, 3, 2)
            lines.append(f"query {z} {x} {2 ** z - 1 - line}")
        script = "\n".join(lines) + rng.choice(["", "\n", "\n\n"])
        run(script)
        at = rng.randrange(len(script))
        change = rng.choice([script[:at] + script[at + 1:], script[:at] + rng.choice(" \n#x0-in%") + script[at:], script[:at] + rng.choice("z9 \n") + script[at + 1:]])
        run(change)


def many_rows():
    """Sets at the edge of one flat directory, row by row in two orders."""
    def line(k):
        z, x, y = coord(k)
        assert tile_id(z, x, y) == k
        return f"row tiles i{z} i{x} i{2 ** z - 1 - y} x{str(k).encode().hex()}"

    rows = [line(k) for k in range(4064)]
    run("\n".join(["base flat", *rows[:4063], ""]))
    run("\n".join(["base flat", *rows, "query 5 31 0", "query 9 0 0", ""]))
    run("\n".join(["option max-leaf-entries 16", "base flat", *rows, "query 5 31 0", "query 4 3 9", "query 9 0 0", ""]))
    run("\n".join(["option max-leaf-entries 16", "option max-leaf-entries 65536", "base flat", *rows, "query 5 31 0", ""]))
    random.Random(4).shuffle(rows)
    run("\n".join(["base flat", *rows, "query 5 31 0", "query 9 0 0", ""]))
    run("\n".join(["base flat", *rows, rows[17], ""]))
