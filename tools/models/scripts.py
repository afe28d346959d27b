# What scripts say, by their grammar, for tools/cases/tileset_rows.py.
import re

from models import names
from models.names import COMPRESSIONS
from models.sets import LAYOUTS, OTHER, TABLES, ScriptStore, Text

LABELS = [name.lower() for name in COMPRESSIONS]
TYPES = [name.lower() for name in names.TYPES]


class Bad(Exception):
    pass


def number(word, least, most):
    if not re.fullmatch(rb"0|-?[1-9][0-9]*", word) or not least <= int(word) <= most:
        raise Bad
    return int(word)


def text(word):
    if not re.fullmatch(rb"([!-$&-~]|%[0-9a-fA-F]{2})*", word):
        raise Bad
    out = re.sub(rb"%(..)", lambda found: bytes([int(found[1], 16)]), word)
    try:
        out.decode("utf-8")
    except UnicodeDecodeError:
        raise Bad from None
    return Text(out)


def cell(word):
    if word == b"n":
        return None
    if word == b"o":
        return OTHER
    if word[:1] == b"i":
        return number(word[1:], -2 ** 63, 2 ** 63 - 1)
    if word[:1] == b"x" and re.fullmatch(rb"([0-9a-fA-F]{2})*", word[1:]):
        return bytes.fromhex(word[1:].decode())
    if word[:1] == b"t":
        return text(word[1:])
    raise Bad


def defaults():
    return {"force": False, "verify": False, "type": 0, "tile-compression": None, "internal-compression": 1, "min-zoom": 0, "max-zoom": 22, "center-zoom": 0,
            "bounds": [-1800000000, -850511290, 1800000000, 850511290], "center": [0, 0], "metadata": b"{}", "max-leaf-entries": 4096}


def take_option(options, words):
    name = words[0].decode("latin-1") if words else ""
    if name in ("force", "verify") and len(words) == 1:
        options[name] = True
    elif name in ("type", "tile-compression", "internal-compression") and len(words) == 2:
        said = [it.encode() for it in (TYPES if name == "type" else LABELS)]
        if words[1] not in said:
            raise Bad
        options[name] = said.index(words[1])
    elif name in ("min-zoom", "max-zoom", "center-zoom") and len(words) == 2:
        options[name] = number(words[1], 0, 255)
    elif name == "max-leaf-entries" and len(words) == 2:
        options[name] = number(words[1], 16, 65536)
    elif name in ("bounds", "center") and len(words) == {"bounds": 5, "center": 3}[name]:
        options[name] = [number(it, -2 ** 31, 2 ** 31 - 1) for it in words[1:]]
    elif name == "metadata" and len(words) == 2 and words[1][:1] == b"t":
        options[name] = text(words[1][1:])
    else:
        raise Bad


class Draft:
    def __init__(self):
        self.options, self.stores, self.queries = defaults(), [], []

    def take(self, words):
        kind, words = words[0], words[1:]
        if kind == b"option" and not self.stores:
            take_option(self.options, words)
        elif kind in (b"base", b"patch") and len(words) == 1 and bool(self.stores) == (kind == b"patch") and not self.queries:
            layout = words[0].decode("latin-1")
            if layout not in LAYOUTS:
                raise Bad
            self.stores.append(ScriptStore(layout))
        elif kind == b"row" and self.stores and not self.queries and words:
            name = words[0].decode("latin-1")
            if name not in TABLES or not self.stores[-1].push(name, [cell(it) for it in words[1:]]):
                raise Bad
        elif kind == b"query" and self.stores and len(words) == 3:
            z = number(words[0], 0, 31)
            self.queries.append((z, number(words[1], 0, 2 ** z - 1), number(words[2], 0, 2 ** z - 1)))
        else:
            raise Bad


def parsed(script):
    """What a script says, or the number of its first bad line."""
    draft = Draft()
    lines = script.split(b"\n")
    if lines[-1] == b"":
        lines.pop()
    for count, line in enumerate(lines, 1):
        if line != b"" and line[:1] != b"#":
            try:
                draft.take(line.split(b" "))
            except Bad:
                return count
    return draft if draft.stores else len(lines) + 1
