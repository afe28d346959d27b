#!/usr/bin/env python3
"""Runs rows with each call refused by which they ask for memory, and says what they answer then.

    tools/checks/refused_memory.py [--built FOLDER] [ROW..]

A row is some lines of a program of rows, as they stand in its stdin, or a run of the converter; without names all rows are run. Each row is first run with ample memory, where it
must print what the committed stdout has, and its calls for memory are counted. Then call n alone is refused, for each n up to the last; then all calls from n on. A run is right where

- no line differs from the row's answer (`answer`): the call was made good; or
- one line is answered `OutOfMemory`, or ends in `refused` where the program's own words or printing found no memory (`refused`), and all lines behind it are answered as they are
  had that line not been there, had it been done, or, where it makes the tables of a new set, had it made these alone; or
- that line writes an archive: where it isn't finished, whatever opens it behind that line is refused, and nothing is said of its bytes; where an add alone was refused, nothing is said of what is read of the rest; or
- that line converts twice over the same stores: one conversion is refused and shows no archive or all of it, the other one is done, and the rows of all stores stand; or
- that line is one of the program's own, by which it makes or fills an object before the calls that are tried (`unmade`): nothing is said of the lines behind it; or
- the program stops because it can't read or print a line, with status 1 (`stopped`), and what it printed until then is a front of that.

Where all calls from n on are refused, lines behind the first are `OutOfMemory`, end in `refused`, or are the row's answers. The converter must end with status 7 and print nothing but a front of the
row's text and the line `out of memory`, or with the row's text and status; a file that it was to make isn't there after status 7. A signal, an error that the build's checks find, and 60 seconds
without an end are wrong. The last line has the number of wrong runs, which is also whether the status is 0.

The programs are those of `rt try`, with checks of all accesses to memory, kept in FOLDER (a new one without the option); a proved program in FOLDER serves as well. Nothing is written into
the repository. The table of docs/SAFETY.md is what this prints.
"""
import os
import re
import shutil
import signal
import subprocess
import sys
import tempfile
import time

TOP = os.path.dirname(os.path.dirname(os.path.dirname(os.path.abspath(__file__))))
SECONDS = 60
WORKERS = 4

LAYOUTS = ['flat', 'flat-with-hash', 'normalized', 'normalized-with-view', 'dedup-id', 'cache']
PATCHED = LAYOUTS[:4]


def twice(words, layouts):
    """A line of tileset_rows for each layout, each of them apart: what one of them makes is no other's."""
    front = f'twice|{words}' + '\\n' * (not words.endswith('|'))
    return [Apart([(f'{front}base {layout}\\n', 0, 1)]) for layout in layouts]


class Apart(list):
    """Pieces that are run without the others of their row."""


# Lines of a program, as pieces of its stdin: the front of a line, how many lines before the first that begins
# so a piece begins, and how many lines it has; or such lists of pieces, each of which is run alone. Behind them
# the calls that are tried.
LINES = {
    'copied_into_an_empty_destination': ('copy_rows', [('src new flat 1 tiles i0 i0 i0 x30', 0, 8)], 'MbtilesCopier::run'),
    'imported_and_back': ('import_rows', [('hold x504d54696c6573037f0000', 0, 10)], 'import convert'),
    'made_of_an_archive': ('import_rows', [('made bytes 2', 2, 5), ('set new normalized 4 metadata tname told', 0, 4)], 'import_as_said'),
    'made_tables': ('set_rows', [(f'create {word}', 2, 5) for word in ('flat', 'flat-with-hash', 'normalized', 'cache', 'metadata', 'view')],
                    'create_flat_tables create_flat_with_hash_tables create_normalized_tables create_cache_tables create_metadata_table create_tiles_with_hash_view is_empty_database '
                    'TileStore::create TileStore::describe'),
    'patched': ('set_rows', [('patch loaded plain', 8, 15)], 'patch_loaded apply_patch MemStore::push_row TileStore::rows load commit_loaded'),
    'edited': ('set_rows', [('edit 2 set 1 0 1 x02', 5, 9)], 'load Loaded::set_tile Loaded::changes commit_loaded TileStore::rows TileStore::commit'),
    'checked': ('set_rows', [('check algorithm', 2, 22)],
                'get_hash_algorithm get_agg_tiles_hash check_agg_tiles_hashes calc_agg_tiles_hash check_tiles_type_validity check_each_tile_hash validate examine_diff assert_hashes '
                'validate_diff_info summary update_agg_tiles_hash'),
    'inserted_and_read': ('mbtiles_rows', [('insert override 1 3 1 2', 1, 12)], 'insert_tiles Mbtiles::get_tile Mbtiles::get_tile_and_hash Mbtiles::contains Mbtiles::stream_coords Mbtiles::stream_tiles'),
    'by_name': ('mbtiles_rows', [('name tile 0 0 0', 1, 4)], 'Mbtiles::new Mbtiles::get_tile Mbtiles::get_tile_and_hash Mbtiles::contains'),
    'streamed': ('mbtiles_rows', [('stream coords', 1, 3)], 'Mbtiles::stream_coords Mbtiles::stream_tiles'),
    'single_values': ('mbtiles_rows', [('meta set tname ta', 1, 6), ('meta delete tname', 0, 2)], 'set_metadata_value get_metadata_value get_metadata_zoom_value delete_metadata_value'),
    'documents': ('mbtiles_rows', [('meta insert t{"', 1, 4)], 'insert_metadata get_metadata'),
    'edited_when_loaded': ('mbtiles_rows', [('loaded editing', 1, 3)], 'Editing::set_tile Editing::set_cache_fields Editing::settle'),
    'cached': ('cache_rows', [('set 3 1 2 x68656c6c6f 42 100 tetag-1', 4, 14)],
               'MbtilesCache::open_cache MbtilesCache::set_cached MbtilesCache::get_cached MbtilesCache::update_cached_meta MbtilesCache::get_tile MbtilesCache::get_metadata'),
    'packed_and_unpacked': ('tree_rows', [('tree new 1 tany/3/4/5.pbf', 0, 8)], 'pack unpack TileTree::list TileTree::read TileTree::write'),
    'written_and_read': ('archive_rows', [('read none part header', 13, 20)],
                         'PmTilesWriter::create PmTilesStreamWriter::add_raw_tile PmTilesStreamWriter::finalize PmTilesReader::try_from_source PmTilesReader::get_tile PmTilesReader::get_metadata '
                         'PmTilesReader::parse_tilejson ReaderState::parse_tilejson'),
    'streamed_from_each_layout': ('tileset_rows', twice('streamed|option verify', LAYOUTS), 'convert_streamed read_marks'),
    'streamed_as_each_says': ('tileset_rows', twice('streamed-said|option verify', LAYOUTS), 'convert_streamed read_marks StreamOptions::made_for_marked'),
    'patched_from_each_layout': ('tileset_rows', twice('hashed|', PATCHED), 'convert_patched read_marks'),
    'patched_over_other_contents': ('tileset_rows', twice('streamed|option force', PATCHED[2:]), 'convert_patched'),
    'patched_as_each_says': ('tileset_rows', twice('streamed-said|', PATCHED), 'convert_patched read_marks StreamOptions::made_for_marked'),
    'served': ('archive_rows', [('serve lines 4 100', 1, 2)], 'TileServer::open TileServer::answer'),
    'extracted': ('archive_rows', [('extract from 0 run 0', 1, 4)], 'run_extract extract'),
}

# Lines whose call may leave the tables of a new set, still empty, where it is refused behind their making, and the
# line that makes such a set.
MADE = {b'run type=normalized-with-view': b'dst new normalized-with-view 0', b'tree pack xyz': b'set new flat 0', b'open': b'new layout cache', b'made bytes 2': b'set new flat 0'}

# Words, and what is read from standard input.
CHAIN = 'base flat\nrow metadata tagg_tiles_hash tA\nrow tiles i0 i0 i0 x30\n{}patch flat\nrow metadata tagg_tiles_hash_before_apply tA\nrow metadata tagg_tiles_hash_after_apply tB\n'
RUNS = {
    'one_tile': ('convert hex', 'base flat\nrow tiles i0 i0 i0 x30\nquery 0 0 0\n'),
    'one_tile_into_a_file': ('convert file made', 'base flat\nrow tiles i0 i0 i0 x30\nquery 0 0 0\n'),
    'patch_removes_the_tile': ('convert hex', CHAIN.format('') + 'row tiles i0 i0 i0 n\nquery 0 0 0\n'),
    'id_collision': ('convert hex', 'option force\nbase normalized\nrow images t5D41402ABC4B2A76B9719D911017C592 n\nrow map i0 i0 i0 t5D41402ABC4B2A76B9719D911017C592\n'
                     'patch flat\nrow tiles i1 i0 i0 x68656c6c6f\n'),
    'usual_tool_set': ('convert hex', 'option type mvt\noption max-zoom 0\noption verify\noption metadata t{"name":"Cities"}\nbase normalized-with-view\nrow metadata tname tCities\n'
                       'row metadata tformat tpbf\nrow metadata tbounds t-180,-85.0511,180,85.0511\nrow metadata thash_algorithm tmd5\n'
                       'row metadata tagg_tiles_hash t4A7D1ED414474E4033AC29CCB8653D9B\nrow images tCFCD208495D565EF66E7DFF9F98764DA x30\nrow map i0 i0 i0 tCFCD208495D565EF66E7DFF9F98764DA\n'),
    'bulk_in_one_root': ('bulk 300 1 16', ''),
}


class Program:
    """A built program, and where it takes memory."""

    def __init__(self, name, file, shim):
        self.file, self.name = file, name
        places = {}
        for line in subprocess.run(['nm', file], capture_output=True, text=True, check=True).stdout.splitlines():
            place, kind, symbol = (['', '', ''] + line.split())[-3:]
            if kind == 'T' and symbol in ('rattle_alloc', 'rattle_realloc'):
                places[symbol] = place
        self.env = {**os.environ, 'LD_PRELOAD': shim, 'REFUSED_ALLOC': places['rattle_alloc'], 'REFUSED_REALLOC': places['rattle_realloc']}

    def run(self, words, data):
        """The status, what was printed, and how many calls were made, with ample memory."""
        with tempfile.TemporaryDirectory() as folder:
            count = os.path.join(folder, 'count')
            ran = subprocess.run([self.file, *words], input=data, env={**self.env, 'REFUSED_COUNT': count}, cwd=folder, capture_output=True, timeout=SECONDS)
            return ran.returncode, ran.stdout, int(open(count).read())

    def refused(self, words, data, calls, from_on):
        """For each number of a call: the status, or None where there was no end, what was printed, and whether the
        file `made` is there."""
        with tempfile.TemporaryDirectory() as folder:
            with open(f'{folder}/stdin', 'wb') as file:
                file.write(data)
            env = {**self.env, 'REFUSED_FOLDER': folder, 'REFUSED_ON': str(int(from_on)), 'REFUSED_SECONDS': str(SECONDS)}
            each = -(-calls // WORKERS)
            parts = [subprocess.Popen([self.file, *words], env={**env, 'REFUSED_FIRST': str(at), 'REFUSED_LAST': str(min(calls, at + each - 1))}) for at in range(1, calls + 1, each)]
            if any(part.wait() != 0 for part in parts):
                sys.exit('refused_memory: the runs are not whole')
            return [self.ended(f'{folder}/{call}') for call in range(1, calls + 1)]

    def ended(self, folder):
        status = int(open(f'{folder}/status').read())
        code = None if os.WIFSIGNALED(status) and os.WTERMSIG(status) == signal.SIGALRM else os.waitstatus_to_exitcode(status)
        return code, open(f'{folder}/stdout', 'rb').read(), os.path.exists(f'{folder}/made')


def build(name, folder):
    """The program as `rt try` builds it, kept while it runs on its own cases."""
    file = os.path.join(folder, name)
    if os.path.exists(file):
        return file
    with tempfile.TemporaryDirectory() as room, open(f'{TOP}/crates/{name}/stdin', 'rb') as stdin, open(f'{room}/said', 'wb') as said:
        trying = subprocess.Popen(['rt', 'try'], cwd=f'{TOP}/crates/{name}', stdin=stdin, stdout=said, stderr=said, env={**os.environ, 'TMPDIR': room})
        while trying.poll() is None and not os.path.exists(file):
            for at, _, names in os.walk(room):
                if 'program' in names and 'stdout' in names:
                    shutil.copy(f'{at}/program', file + '.new')
                    os.rename(file + '.new', file)
                    break
            time.sleep(0.05)
        trying.terminate()
        trying.wait()
    if not os.path.exists(file):
        sys.exit(f'refused_memory: {name} is not built')
    return file


def is_refusal(answer):
    return b'OutOfMemory' in answer or answer.endswith(b'refused')


def is_own(line):
    """Whether a line makes or fills an object of the program of rows."""
    words = line.split()
    return words[0] in (b'hold', b'fresh', b'push') or words[1:2] in ([b'new'], [b'none'], [b'push'], [b'add'], [b'fill'], [b'hold'], [b'fail'], [b'with'])


def is_left(wanted, said, from_on):
    """Whether a line that converts twice over the same stores answers as it may where memory is refused. One conversion
    is refused, and its medium shows no archive, or the whole one if that was written; the other is done, and what all
    stores hold stands. Where all calls from one on are refused, both may be. Where there is no memory for the line
    itself, it is cut off."""
    words = wanted.decode().split('|')
    assert words[:5] == words[5:10] and words[2] == '1'
    archive = '|'.join(words[2:5])
    done, rows = f'0||{archive}|', '|'.join(words[10:])
    refused = [f'1|refused: OutOfMemory|{shown}|' for shown in ('none', '0', archive)]
    ends = [first + second for first in (done, *refused) for second in (done, *refused) if from_on or done in (first, second)]
    answer, cut = re.subn('refused$', '', said.decode())
    return any(said.decode() == end + rows or cut and (end + rows).startswith(answer) for end in ends)


def is_half(asked, said):
    """Whether lines behind a refused one that writes an archive are as they may be: what opens it is refused, and of
    its bytes, which the writer leaves as its contract says, nothing is said."""
    return all(line.split()[0] in (b'medium', b'extract') or b'InvalidMagicNumber' in answer for line, answer in zip(asked, said))


class Lines:
    """Lines of a program of rows."""

    def __init__(self, program, pieces):
        self.program = program
        with open(f'{TOP}/crates/{program.name}/stdin', 'rb') as stdin, open(f'{TOP}/crates/{program.name}/stdout', 'rb') as stdout:
            asked, said = stdin.read().splitlines(), stdout.read().splitlines()
        self.asked, self.wanted, self.kept = [], [], {}
        for front, before, number in pieces:
            at = next(k for k, line in enumerate(asked) if line.startswith(front.encode())) - before
            self.asked += asked[at:at + number]
            self.wanted += said[at:at + number]

    def answers(self, lines):
        status, said, calls = self.program.run([], b''.join(line + b'\n' for line in lines))
        return status, said.split(b'\n'), calls

    def runs(self, calls, from_on):
        return self.program.refused([], b''.join(line + b'\n' for line in self.asked), calls, from_on)

    def others(self, at):
        """The answers behind a line that isn't there, and those behind tables that were made alone."""
        if at not in self.kept:
            self.kept[at] = [self.answers(self.asked[:at] + self.asked[at + 1:])[1][at:-1]]
            if self.asked[at] in MADE:
                self.kept[at].append(self.answers([*self.asked[:at], MADE[self.asked[at]], *self.asked[at + 1:]])[1][at + 1:-1])
        return self.kept[at]

    def calls(self):
        status, said, calls = self.answers(self.asked)
        if status != 0 or said[:-1] != self.wanted:
            sys.exit(f'refused_memory: {self.program.name} differs from its stdout')
        return calls

    def judged(self, run, from_on):
        """`answer`, `refused`, `unmade` or `stopped`, or why a run is wrong."""
        status, said = run[0], run[1].split(b'\n')
        if status not in (0, 1) or said[-1] or len(said) - 1 > len(self.wanted) or status == 0 and len(said) - 1 < len(self.wanted):
            return f'wrong: status {status}, {len(said) - 1} lines'
        said = said[:-1]
        at = next((k for k, answer in enumerate(said) if answer != self.wanted[k]), None)
        if at is None:
            return 'answer' if status == 0 else 'stopped'
        if not is_refusal(said[at]):
            return f'wrong: line {at + 1}: {said[at][:200]!r}'
        if self.asked[at].startswith(b'twice|') and not is_left(self.wanted[at], said[at], from_on):
            return f'wrong: line {at + 1} leaves: {said[at][:200]!r}'
        if is_own(self.asked[at]):
            return 'unmade' if status == 0 else 'stopped'
        rest = said[at + 1:]
        if self.asked[at].startswith((b'write ', b'extract from')) and (b'Ok(ArchivePlaces' in said[at] or is_half(self.asked[at + 1:], rest)):
            return 'refused' if status == 0 else 'stopped'
        ways = [self.wanted[at + 1:], *self.others(at)]
        if any(rest == way[:len(rest)] for way in ways):
            return 'refused' if status == 0 else 'stopped'
        known = list(zip(*ways))
        if from_on and all(is_refusal(answer) or answer in known[k] for k, answer in enumerate(rest)):
            return 'refused' if status == 0 else 'stopped'
        k = next((k for k, answer in enumerate(rest) if answer not in known[k]), 0)
        return f'wrong: behind line {at + 1}, {self.asked[at][:60].decode()}: {rest[k][:200].decode()}'


class Run:
    """A run of the converter."""

    def __init__(self, program, words, script):
        self.program, self.words, self.script = program, words.split(), script.encode()

    def calls(self):
        self.wanted, self.said, calls = self.program.run(self.words, self.script)
        return calls

    def runs(self, calls, from_on):
        return self.program.refused(self.words, self.script, calls, from_on)

    def judged(self, run, _):
        status, said, is_made = run
        if (status, said) == (self.wanted, self.said):
            return 'answer'
        front = said.removesuffix(b'out of memory\n')
        if status == 7 and self.said.startswith(front) and not is_made:
            return 'refused'
        return f'wrong: status {status}: {said[-200:]!r}'


def judged(name, row, calls, from_on):
    """How each run is judged in which a call is refused."""
    for n, run in enumerate(row.runs(calls, from_on), 1):
        said = row.judged(run, from_on)
        if said.startswith('wrong'):
            print(f'{name}: call {n}{" and all behind it" if from_on else ""}: {said}', file=sys.stderr, flush=True)
            said = 'wrong'
        yield said


def table(name, rows):
    """A line of the table, of rows that are run apart."""
    calls, wrong = [row.calls() for row in rows], 0
    cells = [name, rows[0].program.name, str(sum(calls))]
    for from_on in (False, True):
        found = {}
        for row, number in zip(rows, calls):
            for said in judged(name, row, number, from_on):
                found[said] = found.get(said, 0) + 1
        wrong += found.get('wrong', 0)
        cells.append(', '.join(f'{found[key]} {key}' for key in ('answer', 'refused', 'unmade', 'stopped', 'wrong') if key in found))
    print(f'| {" | ".join(cells)} |', flush=True)
    return wrong


def rows_of(program, name):
    if name in RUNS:
        return [Run(program, *RUNS[name])]
    pieces = LINES[name][1]
    return [Lines(program, it) for it in (pieces if isinstance(pieces[0], Apart) else [pieces])]


def main(words):
    folder = tempfile.mkdtemp()
    built = folder
    if words[:1] == ['--built']:
        built, words = os.path.abspath(words[1]), words[2:]
        os.makedirs(built, exist_ok=True)
    shim = os.path.join(folder, 'refused_memory.so')
    subprocess.run(['cc', '-O1', '-shared', '-fPIC', '-o', shim, f'{TOP}/tools/checks/refused_memory.c'], check=True)
    programs, wrong = {}, 0
    print('| Row | Program | Calls for memory | One refused | All refused from it on |\n|---|---|---|---|---|', flush=True)
    for name in words or [*RUNS, *LINES]:
        of = 'tileset_program' if name in RUNS else LINES[name][0]
        if of not in programs:
            programs[of] = Program(of, build(of, built), shim)
        wrong += table(name, rows_of(programs[of], name))
    print(f'{wrong} wrong')
    shutil.rmtree(folder)
    return 1 if wrong else 0


if __name__ == '__main__':
    sys.exit(main(sys.argv[1:]))
