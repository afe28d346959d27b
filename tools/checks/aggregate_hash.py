#!/usr/bin/env python3
"""Prints the hash of all tiles of a set, as SQLite reads it: the MD5 of zoom, column, row and bytes of each, in this order.

    tools/checks/aggregate_hash.py FILE.mbtiles
"""
import hashlib
import sqlite3
import sys

ROWS = 'select zoom_level, tile_column, tile_row, tile_data from tiles order by 1, 2, 3'


def main():
    """Prints it."""
    digest = hashlib.md5()
    for zoom, column, row, data in sqlite3.connect(sys.argv[1]).execute(ROWS):
        digest.update(b'%d%d%d' % (zoom, column, row) + (data or b''))
    print(digest.hexdigest().upper())


if __name__ == '__main__':
    main()
