#!/usr/bin/env python3
"""Tries that nothing of a view of an archive can be kept past the bytes of the archive.

A program with three such misuses is compiled over `pm_reader` and the crates below it, in a folder of its own and without proofs. The borrow checker must refuse each of them, and nothing else
may be refused. `rt ci` can't do this: it takes an edit that doesn't compile for a bad one, which shows nothing. It takes some 30 seconds of processor time, writes nothing into the repository and
needs the toolchain alone.
"""
import os
import re
import shutil
import subprocess
import sys
import tempfile

TOP = os.path.dirname(os.path.dirname(os.path.dirname(os.path.abspath(__file__))))
USED = ('pm_reader', 'pm_format', 'tile_ids')

PROGRAM = '''//! What is kept of an archive whose bytes are let go.
#![tactic(auto)]

use pm_format::PmtResult;
use pm_reader::ArchiveView;
use std::alloc::Global;
use std::io;
use tile_ids::TileId;

fn tile<'b>(bytes: &'b [u8], tile_id: TileId) -> PmtResult<Option<&'b [u8]>> {
    let view = ArchiveView::open(bytes)?;
    view.get_tile(tile_id)
}

fn text<'b>(bytes: &'b [u8]) -> PmtResult<&'b str> {
    let view = ArchiveView::open(bytes)?;
    view.metadata()
}

fn kept_tile(alloc: Global, bytes: &[u8], tile_id: TileId) -> Option<bool> {
    let found = {
        let of_tile = bytes.to_vec(alloc).ok()?;
        tile(of_tile.as_slice(), tile_id)
    };
    Some(found.is_ok())
}

fn kept_text(alloc: Global, bytes: &[u8]) -> Option<bool> {
    let found = {
        let of_text = bytes.to_vec(alloc).ok()?;
        text(of_text.as_slice())
    };
    Some(found.is_ok())
}

fn kept_view(alloc: Global, bytes: &[u8]) -> Option<bool> {
    let opened = {
        let of_view = bytes.to_vec(alloc).ok()?;
        ArchiveView::open(of_view.as_slice())
    };
    Some(opened.is_ok())
}

fn main(rt: HostRuntime) -> io::Result<()> {
    let alloc = rt.alloc();
    if let Ok(tile_id) = TileId::new(0) {
        println!(rt; "{}", kept_tile(alloc, b"", tile_id).is_some())?;
    }
    println!(rt; "{} {}", kept_text(alloc, b"").is_some(), kept_view(alloc, b"").is_some())
}
'''
MISUSED = {'of_tile', 'of_text', 'of_view'}


def crates():
    """The lines of crates.txt, by the name of the crate."""
    with open(os.path.join(TOP, 'crates.txt'), encoding='utf-8') as file:
        lines = [line.split('#')[0].strip() for line in file]
    return {line.split(':')[0].split()[0]: line for line in lines if line}


def below(lines, names):
    """These crates of the repository and all below them."""
    found = set()
    left = list(names)
    while left:
        name = left.pop()
        if name in lines and name not in found:
            found.add(name)
            left += lines[name].split(':')[1].split()
    return found


def make(folder):
    """The program with the crates that it needs. Gives its own folder."""
    lines = crates()
    wanted = below(lines, USED)
    with open(os.path.join(folder, 'crates.txt'), 'w', encoding='utf-8') as file:
        file.writelines(line + '\n' for name, line in lines.items() if name in wanted)
        file.write('kept_slices: ' + ' '.join(USED) + '\n')
    shutil.copy(os.path.join(TOP, 'HANDLES'), folder)
    for name in wanted:
        for part in ('src', 'specs', 'proofs'):
            whole = os.path.join(TOP, 'crates', name, part)
            if os.path.isdir(whole):
                shutil.copytree(whole, os.path.join(folder, 'crates', name, part))
    crate = os.path.join(folder, 'crates', 'kept_slices')
    os.makedirs(os.path.join(crate, 'src'))
    with open(os.path.join(crate, 'src', 'main.rt'), 'w', encoding='utf-8') as file:
        file.write(PROGRAM)
    return crate


def is_refused(status, said):
    """Whether the borrow checker alone refuses, in each of the three functions."""
    errors = [line for line in said.splitlines() if 'error[' in line or 'error:' in line]
    refused = [re.match(r'src/main\.rt:\d+:\d+: error\[borrow-e0597\]: `(\w+)` does not live long enough', line) for line in errors]
    return status != 0 and all(refused) and {match.group(1) for match in refused} == MISUSED


def main():
    with tempfile.TemporaryDirectory() as folder:
        tried = subprocess.run(['rt', 'try'], cwd=make(folder), stdin=subprocess.DEVNULL, capture_output=True, text=True)
    said = tried.stdout + tried.stderr
    if not is_refused(tried.returncode, said):
        sys.exit('kept_slices: not refused by the borrow checker alone, in each of three functions:\n' + said)


if __name__ == '__main__':
    main()
