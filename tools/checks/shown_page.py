#!/usr/bin/env python3
"""Shows the page of `fatyngu serve --http` in a browser without a screen, and says what its console has.

    tools/checks/shown_page.py ADDRESS PICTURE.png

The browser is chromium (Debian's package of that name), which has ten seconds of its own time. Status 1 where the console has
a line, or where the picture has fewer than fifty colours, as a page without its grids has.
"""
import re
import struct
import subprocess
import sys
import tempfile
import zlib

LINE = re.compile(r'CONSOLE[^"]*"(.*)", source')


def shown(address, picture):
    """The lines of the console of a page, of which a picture is made."""
    with tempfile.TemporaryDirectory() as folder:
        words = ['chromium', '--headless', '--no-sandbox', '--disable-gpu', '--hide-scrollbars', '--window-size=1200,1500', '--enable-logging=stderr',
                 '--virtual-time-budget=10000', f'--user-data-dir={folder}', f'--screenshot={picture}', address]
        said = subprocess.run(words, capture_output=True, text=True, timeout=120, check=True).stderr
    return LINE.findall(said)


def rows_of(picture):
    """The rows of a picture of 8 bits a channel, without their filters."""
    with open(picture, 'rb') as file:
        data = file.read()
    at, parts = 8, b''
    while at < len(data):
        length, = struct.unpack('>I', data[at:at + 4])
        kind = data[at + 4:at + 8]
        if kind == b'IHDR':
            width, height, _, colour = struct.unpack('>IIBB', data[at + 8:at + 18])
        elif kind == b'IDAT':
            parts += data[at + 8:at + 8 + length]
        at += length + 12
    size = {2: 3, 6: 4}[colour]
    raw, before = zlib.decompress(parts), bytearray(width * size)
    for y in range(height):
        start = y * (width * size + 1)
        before = unfiltered(raw[start], raw[start + 1:start + 1 + width * size], before, size)
        yield [bytes(before[x:x + 3]) for x in range(0, len(before), size)]


def unfiltered(kind, row, before, size):
    """The bytes of a row, by the filters of PNG."""
    out = bytearray(row)
    for place, byte in enumerate(row):
        left = out[place - size] if place >= size else 0
        up = before[place]
        corner = before[place - size] if place >= size else 0
        if kind == 4:
            best = min((abs(up - corner), 0, left), (abs(left - corner), 1, up), (abs(left + up - 2 * corner), 2, corner))[2]
        else:
            best = (0, left, up, (left + up) // 2)[kind]
        out[place] = (byte + best) & 255
    return out


def main():
    """Shows the page."""
    address, picture = sys.argv[1:]
    lines = shown(address, picture)
    for line in lines:
        print(f'console: {line}')
    colours = len({colour for row in rows_of(picture) for colour in row})
    print(f'{colours} colours')
    return 1 if lines or colours < 50 else 0


if __name__ == '__main__':
    sys.exit(main())
