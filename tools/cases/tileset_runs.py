"""Cases of the program tileset_rows: their list, how bytes are shown in them, and what a run, its base and its medium come to."""
import hashlib
import re

from cases.archives_again import adds_of, bulk, report, tile_id
from models.bases import base_after, spelled as rows_of, words as words_of
from models.scripts import LABELS, parsed
from models.sets import converted

USAGE = "usage: tileset convert hex | convert file PATH | bulk N K [L]"
CASES = []
SCRIPTS = []


def shown(data, most):
    """Bytes as they are printed: a text with escapes, or their number and digest where they are many."""
    if len(data) > most:
        return f"{len(data)} bytes {hashlib.md5(data).hexdigest().upper()}"
    return escaped(data)


def escaped(data):
    out = []
    for byte in data:
        if byte == 10:
            out.append("\\n")
        elif byte == 92:
            out.append("\\\\")
        elif byte == 124 or not 32 <= byte < 127:
            out.append(f"\\x{byte:02x}")
        else:
            out.append(chr(byte))
    return "".join(out)


def case(fields, wanted):
    line = "|".join(fields)
    assert "\n" not in line and "\n" not in wanted
    CASES.append((line, wanted))


def ended(status, line, output=b"", medium=b""):
    line = line.encode() if isinstance(line, str) else line
    return f"{status}|{shown(line, 4000)}|{shown(output, 4000)}|{len(medium)}|{shown(medium, 64)}"


def bulk_numbers(words):
    """The numbers of the command, or None where the words are none."""
    if len(words) not in (3, 4) or words[0] != "bulk" or not all(re.fullmatch("0|[1-9][0-9]*", it) for it in words[1:]):
        return None
    numbers = [int(it) for it in words[1:]]
    limits = [(0, 100000), (1, 1000000), (16, 65536)]
    return numbers if all(least <= it <= most for it, (least, most) in zip(numbers, limits)) else None


def outcome(words, script, medium=b""):
    """How a run ends whose objects don't fail."""
    given, numbers = None, bulk_numbers(words)
    if words == ["convert", "hex"] or len(words) == 3 and words[:2] == ["convert", "file"]:
        given = parsed(script)
        if isinstance(given, int):
            return ended(3, f"bad script: line {given}", medium=medium)
    elif numbers is None:
        return ended(2, USAGE, medium=medium)
    if medium:
        return ended(1, f"refused: medium not empty {len(medium)}", medium=medium)
    if given is None:
        output, whole = bulk(*numbers)
        return ended(0, "", output.encode(), whole)
    if given.options["internal-compression"] != 1:
        return ended(1, f"refused: unsupported compression {LABELS[given.options['internal-compression']]}")
    state = converted(given.stores, given.options["force"], given.options["verify"])
    if isinstance(state, bytes):
        return ended(1, b"refused: " + state)
    lines, bytes_shown, whole = report(given, state)
    output = lines + bytes_shown if words[1] == "hex" else lines
    return ended(0, "", output.encode(), whole)


def run(script, words=("convert", "hex"), medium=b""):
    script = script.encode() if isinstance(script, str) else script
    if words == ("convert", "hex") and not medium:
        SCRIPTS.append(script)
    case(["run", " ".join(words), escaped(script), "", medium.hex()], outcome(list(words), script, medium))


def bad(script, line):
    script = script.encode() if isinstance(script, str) else script
    assert parsed(script) == line, (script, parsed(script), line)
    run(script)


ONE_TILE = "base flat\nrow tiles i0 i0 i0 x30\nquery 0 0 0\n"
ACROSS_ZOOMS = "base flat\nrow tiles i0 i0 i0 x30\nrow tiles i1 i0 i1 x30\n"
FILE = ["convert", "file", "x"]
NO_TILE = "base flat\nquery 0 0 0\n"
FIVE = ["row tiles i4 i11 i2 x62", "row tiles i0 i0 i0 x61", "row tiles i4 i1 i12 x30", "row tiles i1 i0 i0 n", "row tiles i1 i1 i0 x"]


def base(script):
    given = parsed(script.encode())
    if isinstance(given, int) or given.options["internal-compression"] != 1:
        return
    refusal, tables = base_after(given)
    line = "0|" if refusal is None else "1|" + shown(b"refused: " + refusal, 4000)
    case(["stores", escaped(script.encode())], f"{line}|{rows_of(tables, escaped)}")


def in_a_row(ends):
    """Ends as they are printed: those that follow each other and are the same stand once."""
    return "".join(f"{end}|" for k, end in enumerate(ends) if k == 0 or end != ends[k - 1])


def hindered(script, name="hindered"):
    """Each call of each store and of the medium fails in a conversion of its own: the base's tables are those at the
    start, or wholly patched where the medium fails after the commit. A conversion that holds no contents only reads the
    base."""
    given = parsed(script.encode())
    refusal, after = base_after(given)
    assert refusal is None
    before, after = (rows_of(tables, escaped) for tables in (words_of(given.stores[0]), after))
    if name not in ("hindered", "hindered-said"):
        after = before
    for place in range(len(given.stores)):
        case([name, str(place), escaped(script.encode())], in_a_row([f"1|refused: StoreFault {place}|{before}", f"0||{after}"]))
    ends = dict.fromkeys([f"1|refused: MediumFault|{before}", f"1|refused: MediumFault|{after}", f"0||{after}"])
    case([name, "medium", escaped(script.encode())], in_a_row(list(ends)))


def views(words, script, ids):
    """Each call of the medium fails in a run of its own: a view opens what the medium then holds only where it is the
    whole archive."""
    if words[0] == "bulk":
        numbers = bulk_numbers(words)
        found = {k: b"%d" % (k // numbers[1]) for k in range(numbers[0])}
    else:
        given = parsed(script.encode())
        found = dict(adds_of(converted(given.stores, given.options["force"], given.options["verify"]).tiles))
    tiles = "".join(" " + (found[k].hex() if k in found else "none") for k in ids)
    case(["views", " ".join(words), escaped(script.encode()), " ".join(map(str, ids))], in_a_row(["6|medium fault" + " refused" * len(ids), f"6|medium fault{tiles}", f"0|{tiles}"]))


TURNED = 16386


def turned(script, name="turned"):
    """What is read back of the archive, a byte of which is read with all its bits turned over."""
    given = parsed(script.encode())
    state = converted(given.stores, given.options["force"], given.options["verify"])
    adds, at, offsets = adds_of(state.tiles), 16384 + len(given.options["metadata"]), {}
    for _, content in adds:
        if content not in offsets:
            offsets[content] = at
            at += len(content)
    found = {number: bytes(byte ^ 255 if offsets[content] + k == TURNED else byte for k, byte in enumerate(content)) for number, content in adds}
    answers = [found.get(tile_id(z, x, y)) for z, x, y in given.queries]
    case([name, escaped(script.encode())], "".join("none " if it is None else it.hex() + " " for it in answers))
