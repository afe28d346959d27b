"""What the sources define: the definitions of the specs files, and the functions, types and clause labels of the
sources."""
import functools
import os
import re

TOP = os.path.dirname(os.path.dirname(os.path.dirname(os.path.abspath(__file__))))
WORD = re.compile(r"[^\W\d]\w*(?:\.[^\W\d]\w*)*")
MODIFIERS = r"(?:pub |abbrev |unfoldable |record |data )"
OPENING = re.compile(rf"^( *)({MODIFIERS}*)([^\W\d]\w*|◌\S*)(.*)")


@functools.lru_cache(None)
def text(path):
    with open(path, encoding="utf-8") as file:
        return file.read()


@functools.lru_cache(None)
def crate_lines(top=TOP):
    """The crates of crates.txt, each with those that it names."""
    found = {}
    for line in text(f"{top}/crates.txt").splitlines():
        line = line.split("#")[0]
        if ":" in line:
            name, rest = line.split(":", 1)
            found[name.split()[0]] = rest.split()
    return found


def below(needs, crate):
    """All crates below one."""
    seen, open_ = set(), [crate]
    while open_:
        for it in needs.get(open_.pop(), []):
            if it not in seen:
                seen.add(it)
                open_.append(it)
    return seen


@functools.lru_cache(None)
def handed_on(module):
    """The names that a module passes on, each with where it has it from."""
    path = file_of(module)
    groups = re.findall(r"^(?:unfoldable )?pub use ([\w.]+?)\.\{([^}]*)\}", text(path), re.M) if path else []
    return {name.strip(): origin for origin, group in groups for name in group.split(",")}


def home(module, name):
    """The module that a name comes from."""
    while name in handed_on(module):
        module = handed_on(module)[name]
    return module


def imports(source):
    """What each name of a file is imported as: name -> (module, name there), and alias -> module."""
    names, aliases = {}, {}
    for module, group in re.findall(r"^(?:ghost )?use ([\w.]+?)\.\{([^}]*)\}", source, re.M):
        for item in group.split(","):
            there, _, here = item.strip().partition(" as ")
            names[(here or there).strip()] = (home(module, there.strip()), there.strip())
    for module, alias in re.findall(r"^(?:ghost )?use ([\w.]+) as (\w+)", source, re.M):
        aliases[alias] = module
    return names, aliases


@functools.lru_cache(None)
def blocks(path):
    """The definitions of a specs file by name: the text of each, fields and constructors by that of their type."""
    found, name = {}, None
    for line in text(path).splitlines():
        begun = line.lstrip()
        if name and (begun != line and not begun.startswith(("pub ", "abbrev ", "unfoldable ", "record ", "data ", "module ", "--"))):
            found[name].append(line)
            continue
        if line.lstrip().startswith("--") or re.match(r"(?:ghost )?use | *module ", line):
            continue
        opening = OPENING.match(line)
        if opening and opening[2] and not (opening[2] == "pub " and name and is_field(opening[1], found[name][0])):
            name = opening[3]
            found[name] = [line]
        elif opening and not opening[1] and re.match(r"\s*:", opening[4]):
            name = opening[3]
            found[name] = [line]
        elif name:
            found[name].append(line)
    return {name: "\n".join(re.sub(r"--.*", "", line) for line in lines) for name, lines in found.items()}


def comment_of(path, name):
    """The comment above a definition."""
    above = []
    for line in text(path).splitlines():
        if re.match(rf"\s*{MODIFIERS}+{re.escape(name)}\b", line):
            return " ".join(above)
        above = above + [line.strip(" -")] if line.lstrip().startswith("--") else []
    return ""


def is_field(indent, line):
    """Whether a line with this indentation is of the type that another line opens."""
    return is_type(line) and len(indent) > len(line) - len(line.lstrip())


def is_type(line):
    return bool(re.match(rf" *{MODIFIERS}*(?:record|data) ", line))


def owners(path):
    """The fields and constructors of a specs file, each with its type."""
    return {
        field: name
        for name, body in blocks(path).items() if is_type(body)
        for field in re.findall(r"^\s+(?:pub )?([^\W\d]\w*)\s*:", body, re.M)
    }


def words(body):
    """The words of a text, without those in quotes."""
    return {it for it in WORD.findall(re.sub(r'"[^"]*"', "", body))}


def file_of(module, top=TOP):
    """The specs file of a module, or none where it is one of the kit, or declared by a source."""
    found = re.match(r"Rattle\.(\w+)\.specs\.((?!declared\b)[\w.]+)$", module)
    path = found and f"{top}/crates/{found[1]}/specs/{found[2].replace('.', '/')}.antt"
    return path if path and os.path.exists(path) else None


def reached(path, body, top=TOP):
    """What a text of a file names: (file, name) of definitions, and the modules of the other names."""
    names, aliases = imports(text(path))
    own = blocks(path) if path.endswith(".antt") else {}
    parts = owners(path) if path.endswith(".antt") else {}
    files, others = set(), set()
    for word in words(body):
        first, _, rest = word.partition(".")
        if first in names:
            module, there = names[first]
        elif first in aliases:
            module, there = aliases[first], rest.split(".")[0]
        elif first in own or first in parts:
            files.add((path, first if first in own else parts[first]))
            continue
        else:
            continue
        file = file_of(module, top)
        if file:
            files.add((file, there if there in blocks(file) else owners(file).get(there, there)))
        else:
            others.add((module, there))
    return files, others


def closure(starts, top=TOP):
    """The definitions behind some texts, each (path, text), and the modules beside the specs files of the crates that
    they name."""
    seen, others, open_ = set(), set(), []
    for path, body in starts:
        files, more = reached(path, body, top)
        others |= more
        open_ += files
    while open_:
        path, name = open_.pop()
        if (path, name) in seen:
            continue
        seen.add((path, name))
        files, more = reached(path, blocks(path).get(name, ""), top)
        others |= more
        open_ += files - seen
    return seen, others


def contract(path, function):
    """The clauses of a function of a source."""
    source = text(path)
    at = re.search(rf"^(?:pub )?fn {function}\b", source, re.M).start()
    end = source.index("\n{", at)
    return re.sub(r"//.*", "", source[at:end])


class Crate:
    """The names that a crate defines."""

    def __init__(self, name, top=TOP):
        self.name, self.folder = name, f"{top}/crates/{name}"
        self.files = {
            os.path.relpath(os.path.join(at, file), self.folder): None
            for part in ("src", "specs", "proofs", "must-fail")
            for at, _, files in os.walk(f"{self.folder}/{part}") for file in files
        }
        self.names, self.labels, self.members = set(), set(), {}
        for file in self.files:
            path = f"{self.folder}/{file}"
            if file.endswith(".rt"):
                self.read_source(text(path))
            elif file.endswith(".antt"):
                self.names |= set(blocks(path)) | set(owners(path))
            self.names.add(os.path.splitext(os.path.basename(file))[0])

    def read_source(self, source):
        self.labels |= set(re.findall(r"^\s*(?:ensures|requires)\*? (\w+) \{", source, re.M))
        self.names |= set(re.findall(r"\b(?:fn|struct|enum|trait|type|const|static|macro_rules!|mod) (\w+)", source))
        for group in re.findall(r"^pub use ([^;]*);", source, re.M):
            self.names |= set(re.findall(r"(\w+)\s*(?=[,}]|$)", group))
        self.names |= set(re.findall(r"^\s*(?:pub )?ghost (?:fn |const )?(\w+)", source, re.M))
        for kind, owner, body in re.findall(r"^(?:pub(?:\(crate\))? )?(struct|enum) (\w+)[^{;\n]*\{\n(.*?)^\}", source, re.M | re.S):
            self.members.setdefault(owner, set()).update(re.findall(r"^ +(?:pub(?:\(crate\))? )?(\w+)", body, re.M))
        for owner, body in re.findall(r"^(?:#\[.*\] *)?(?:pub trait|impl)(?:<[^{\n]*?>)? (?:[^{\n]*? for )?(\w+)[^{]*\{\n(.*?)^\}", source, re.M | re.S):
            self.members.setdefault(owner, set()).update(re.findall(r"\bfn (\w+)", body))
        for found in self.members.values():
            self.names |= found

    def has(self, name):
        """Whether it defines a name, or a member of a type or a module."""
        parts = name.split("::")
        if parts[0] == self.name:
            parts = parts[1:]
        if len(parts) >= 2 and parts[-2] in self.members and parts[-1] not in self.members[parts[-2]]:
            return False
        return all(it in self.names for it in parts)


@functools.lru_cache(None)
def crate(name, top=TOP):
    return Crate(name, top)
