#!/usr/bin/env python3
"""Puts a wrong word of each kind into a copy of the documents, one at a time, and sees that tools/checks/check_docs.py finds it where it stands.

    tools/checks/check_docs_test.py
"""
import functools
import sys

import check_docs
from check_docs import architecture, defined_labels, definitions, differences, laws, names, paths, proofs, readmes, rows_of_definitions, safety, trust, widths

# Kind of error: the check, the page, what stands there, what is put in its place, and what has to be said.
PLANTS = (
    ("a file of another crate", architecture, "docs/ARCHITECTURE.md", "`coord.rt`, `hilbert.rt`", "`coord.rt`, `sink.rt`", "no file crates/tile_ids/src/sink.rt"),
    ("a path of another crate", architecture, "docs/ARCHITECTURE.md", "`line_words/specs/Number.antt`", "`line_words/specs/Header.antt`", "no file crates/line_words/specs/Header.antt"),
    ("a folder that isn't the file's", architecture, "docs/ARCHITECTURE.md", "`mb_tables/src/error.rt`", "`mb_tables/src/header/error.rt`", "no file crates/mb_tables/src/header/error.rt"),
    ("a name behind a file of another crate", architecture, "docs/ARCHITECTURE.md", "(`MAX_LEAVES`)", "(`MAX_INPUT`)", "no MAX_INPUT in pm_reader"),
    ("a crate without a row", architecture, "docs/ARCHITECTURE.md", "`bounded_lru`", "`bounded`", "no row for bounded_lru"),
    ("a row without a crate", architecture, "docs/ARCHITECTURE.md", "| `hex_pairs` |", "| `hex_bytes` |", "no crate hex_bytes"),
    ("a definition of another file", definitions, "docs/DEFINITIONS.md", "| `Rose`, ", "| `Coord`, ", "no Coord in crates/base_values/specs/Counts.antt"),
    ("a definition that isn't there", definitions, "docs/DEFINITIONS.md", "`words_of`", "`words_off`", "no words_off in crates/line_words/specs/Parting.antt"),
    ("a specs file that isn't there", definitions, "docs/DEFINITIONS.md", "`Parting.antt`", "`Partings.antt`", "no file crates/line_words/specs/Partings.antt"),
    ("a definition of a public call without a row", rows_of_definitions, "docs/DEFINITIONS.md", "| `unless_forced` |", "| `unforced` |", "| `unless_forced` | `DiffHashes.antt` |"),
    ("laws without a row", laws, "docs/DEFINITIONS.md", "| `mb_cache::laws` |", "| `mb_edit::laws` |", "no row for the laws of mb_cache::laws"),
    ("laws of a crate without any", laws, "docs/DEFINITIONS.md", "| `mb_cache::laws` |", "| `mb_check::laws` |", "mb_check::laws has no laws"),
    ("a label that no clause has", defined_labels, "docs/DEFINITIONS.md", "| `unfailing` |", "| `unfailling` |", "no clause has the label unfailling"),
    ("a label that isn't defined", defined_labels, "docs/DEFINITIONS.md", "| `unfailing` |", "| `unfaulted` |", "the label unfailing, of"),
    ("a clause of another crate", proofs, "docs/PROOFS.md", "`valid` of `TileCoord::new`", "`hidden` of `TileCoord::new`", "no hidden in `tile_ids`"),
    ("a function of another crate", proofs, "docs/PROOFS.md", "`value` of `hilbert_number`", "`value` of `finalize`", "no finalize in `tile_ids`"),
    ("a call of another crate beside those of the original", differences, "docs/DIFFERENCES.md", "`subtree_interval`", "`subtree_of`", "no subtree_of in the section's crates"),
    ("a name of another crate", names, "docs/ARCHITECTURE.md", "`mb_reading` reads each patch", "`mb_sqlite` reads each patch", "no read_file in mb_sqlite"),
    ("a path of names that isn't there", names, "README.md", "`tileset::run`", "`tileset::runs`", "no tileset::runs"),
    ("a name that is defined nowhere", names, "docs/ARCHITECTURE.md", "`make_adds`", "`make_add`", "make_add is defined nowhere"),
    ("a method of another type", names, "docs/LIBRARY.md", "`PmTilesWriter::start`", "`PmTilesWriter::open`", "no open in PmTilesWriter"),
    ("a call of another crate in the library's page", names, "docs/LIBRARY.md", "`mb_copy::MbtilesCopier`", "`mb_edit::MbtilesCopier`", "no mb_edit::MbtilesCopier"),
    ("a tool that isn't there", paths, "CONTRIBUTING.md", "`tools/make_cases`", "`tools/make_case`", "no file tools/make_case"),
    ("a page that isn't there", paths, "CONTRIBUTING.md", "`docs/TRUST.md`", "`docs/TRUTH.md`", "no file docs/TRUTH.md"),
    ("a call of another crate in a README", readmes, "crates/tile_ids/README.md", "| `parse_tile_index`", "| `parse_script`", "no parse_script in tile_ids"),
    ("a clause in a README that the crate hasn't", readmes, "crates/tileset/README.md", "`untaken`", "`untakken`", "no untakken in tileset"),
    ("another count of lines", trust, "docs/TRUST.md", "`Hilbert` 84", "`Hilbert` 85", "`Hilbert` 84"),
    ("a file behind `run` that is left out", trust, "docs/TRUST.md", "; `pm_contents`: `Pieces` 22", "", "`pm_contents`: `Pieces`"),
    ("another sum", trust, "docs/TRUST.md", "| 157 |", "| 175 |", "| 157 |"),
    ("a crate of the kit that is left out", trust, "docs/TRUST.md", "`sqlite_trees`, ", "", "the crate sqlite_trees of the kit isn't named"),
    ("a crate of the kit that isn't used", trust, "docs/TRUST.md", "`sqlite_trees`, ", "`sqlite_trees`, `sqlite_draft`, ", "no crate of crates.txt names sqlite_draft"),
    ("a call without a row", safety, "docs/SAFETY.md", "| `TileCoord::new` |", "| `TileCoord::make` |", "writes: | `TileCoord::new`"),
    ("another refusal", safety, "docs/SAFETY.md", "| `TileCoord::new` | `InvalidCoordinate` |", "| `TileCoord::new` | `InvalidTileId` |", "`TileCoord::new` | `InvalidCoordinate`"),
    ("a clause that the call hasn't", safety, "docs/SAFETY.md", "| `InvalidTileId` | `valid`, ", "| `InvalidTileId` | `found`, ", "`InvalidTileId` | `valid`"),
    ("a long line", widths, "README.md", "# Fatyngu", "Fatyngu " * 16, "columns"),
)


def main():
    docs = check_docs.pages()
    wrong = []
    before = functools.cache(lambda check, page: set(check({page: docs[page]} if page else docs)))
    for kind, check, page, old, new, said in PLANTS:
        if docs[page].count(old) < 1:
            wrong.append(f"{kind}: {page} hasn't {old}")
            continue
        # an error that was there before is not the planted one
        alone = check in (names, paths, readmes, widths)
        planted = {**({} if alone else docs), page: docs[page].replace(old, new)}
        found = set(check(planted)) - before(check, page if alone else None)
        if not any(line.startswith(page) and said in line for line in found):
            wrong.append(f"{kind}: not found in {page} with {new.strip()[:60]}")
    for line in wrong:
        print(line)
    print(f"{len(PLANTS) - len(wrong)} of {len(PLANTS)} planted errors found")
    return 1 if wrong else 0


if __name__ == "__main__":
    sys.exit(main())
