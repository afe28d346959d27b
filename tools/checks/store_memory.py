#!/usr/bin/env python3
"""Measures conversions that hold no contents, over stores that are filled with tiles: their memory beside the store, and their time beside that of a conversion that holds all of them.

    tools/checks/store_memory.py PROGRAM [--runs N] [--bytes N] [STORE:COUNT..]

PROGRAM is the built `tileset_rows`, by default that in its out/. A STORE is `memory` or `database`, COUNT how many tiles it is given, each of so many bytes of its own (2,048, or those of the option, a multiple
of 8). Without any they are both stores of 100,000 tiles, and that in memory of 1,000,000. The program is run on a line `measure` of its own for each way: `none` only fills the store. The memory of a conversion
is the greatest of its process less that of `none`; its time is its processor time less that of `none`, the least of N runs (3) each. What it is held against is `owned`, by which a store in memory is let go as it
is read, and `whole` of a database. All blocks of 64 KB and more are given back to the system as they are freed, so that what filling took for a moment hides nothing. The medium keeps nothing of the archive but
its front. The status is 1 where a conversion holds more than 130 bytes a tile beside the store, or takes more than 1.2 times the other's time.
"""
import os
import subprocess
import sys

TOP = os.path.dirname(os.path.dirname(os.path.dirname(os.path.abspath(__file__))))
BYTES_A_TILE, TIMES = 130, 1.2
WAYS = {'memory': 'owned', 'database': 'whole'}


def run(program, store, count, size, way):
    """The greatest memory of a run in bytes, its processor time in seconds, and what it printed."""
    line = f'measure|{store}|{count}|{size // 8}|{way}\n'
    running = subprocess.Popen([program], stdin=subprocess.PIPE, stdout=subprocess.PIPE, env={**os.environ, 'MALLOC_MMAP_THRESHOLD_': '65536', 'MALLOC_TRIM_THRESHOLD_': '65536'})
    running.stdin.write(line.encode())
    running.stdin.close()
    said = running.stdout.read().decode().strip()
    _, status, used = os.wait4(running.pid, 0)
    if status != 0:
        sys.exit(f'store_memory: status {status} of {line}')
    return used.ru_maxrss * 1024, used.ru_utime + used.ru_stime, said


def least(program, runs, *words):
    """The least memory and time of several runs, all of which print the same."""
    found = [run(program, *words) for _ in range(runs)]
    if len({said for _, _, said in found}) != 1:
        sys.exit(f'store_memory: {words} differs from run to run')
    return min(it[0] for it in found), min(it[1] for it in found), found[0][2]


def measured(program, runs, store, count, size):
    """A line of the table, and whether it is within the limits."""
    other = WAYS[store]
    held, filling, rows = least(program, runs, store, count, size, 'none')
    memory, time, counts = least(program, runs, store, count, size, 'streamed')
    whole, whole_time, whole_counts = least(program, runs, store, count, size, other)
    if rows != str(count) or counts != whole_counts or counts.split()[:3] != [str(count)] * 3:
        sys.exit(f'store_memory: {store} of {count}: {rows}, {counts}, {whole_counts}')
    beside, ratio = (memory - held) / count, (time - filling) / (whole_time - filling)
    print(f'| {store} | {count:,} | {held / 1e6:,.0f} MB | {beside:,.0f} | {(whole - held) / count:,.0f} | {filling:.2f} s | {time - filling:.2f} s | {whole_time - filling:.2f} s | {ratio:.2f} |', flush=True)
    return beside <= BYTES_A_TILE and ratio <= TIMES


def main(words):
    program, runs, size, wanted = f'{TOP}/crates/tileset_rows/out/tileset_rows', 3, 2048, []
    while words:
        word = words.pop(0)
        if word == '--runs':
            runs = int(words.pop(0))
        elif word == '--bytes':
            size = int(words.pop(0))
        elif ':' in word:
            store, count = word.split(':')
            wanted.append((store, int(count)))
        else:
            program = os.path.abspath(word)
    print('| Store | Tiles | The store | Beside it, bytes a tile | The other way | Filling | Conversion | The other way | Ratio |\n|---|---|---|---|---|---|---|---|---|', flush=True)
    within = [measured(program, runs, store, count, size) for store, count in wanted or [('memory', 100_000), ('memory', 1_000_000), ('database', 100_000)]]
    return 0 if all(within) else 1


if __name__ == '__main__':
    sys.exit(main(sys.argv[1:]))
