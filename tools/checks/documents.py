"""The documents, and the names that the sources define."""
import functools
import glob
import os
import re

import behind_run
import specs
from specs import TOP

# Names of std, of the kit, of databases and of other programs, which no source here defines.
FOREIGN = set("""
    BTreeMap Connection Connection::open Connection::query Copy Data Disk Err FinMap HANDLES Ok Some Transaction::query alloc b8fe6c3923a44bbe cp decode_of encode_lower
    hex_digit_value i impl jpeg malloc_consolidate mbtiles n on open_files perf pmtiles proofs python3 requires result rt specs sqlite3 sqlite_master src static stdin stdout t
    Display Examples InvalidInput PMxxxxx flock malloc the_type u32 u64 u64::from u8 unknown
""".split())
NAME = re.compile(r"[A-Za-z_]\w*(?:::[A-Za-z_]\w*)*")


def pages():
    """The documents: those of the project, and the README of each crate."""
    paths = ["README.md", "CONTRIBUTING.md", "CHANGELOG.md", *glob.glob("docs/*.md", root_dir=TOP), *glob.glob("crates/*/README.md", root_dir=TOP)]
    return {path: specs.text(f"{TOP}/{path}") for path in sorted(paths)}


def crates():
    return list(specs.crate_lines())


def lines(page):
    return enumerate(page.splitlines(), 1)


def quoted(line):
    return re.findall(r"`([^`]+)`", line)


def is_there(path):
    return os.path.exists(os.path.join(TOP, path))


def file_at(token, state):
    """The file that a path names, by the crate and the folder of the path before it."""
    parts = token.split("/")
    if parts[0] in crates():
        state["crate"], parts = parts[0], parts[1:]
        state["folder"] = None
    crate = state.get("crate")
    if not crate or not parts:
        return None
    if parts[0] in ("src", "specs", "proofs", "must-fail"):
        found = "/".join(parts)
    else:
        found = f"{'specs' if token.endswith('.antt') else 'src'}/{'/'.join(parts)}"
        near = f"{state.get('folder')}/{token}"
        if state.get("folder") and is_there(f"crates/{crate}/{near}") and not is_there(f"crates/{crate}/{found}"):
            found = near
    state["folder"] = os.path.dirname(found)
    return f"crates/{crate}/{found}"


@functools.lru_cache(None)
def defined_names():
    """All names that the sources define, and the members of each type."""
    index = [specs.crate(it) for it in crates()]
    members = {}
    for crate in index:
        for owner, found in crate.members.items():
            members.setdefault(owner, set()).update(found)
    defined = set(crates()).union(behind_run.kit_crates(), *(it.names | it.labels for it in index))
    for path in glob.glob(f"{TOP}/tools/*/*.py"):
        defined |= set(re.findall(r"\bdef (\w+)", specs.text(path))) | set(re.findall(r"^([A-Z_]+) =", specs.text(path), re.M))
    return defined, members
