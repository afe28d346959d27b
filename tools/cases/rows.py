# Lines of a rows program: calls, and what must be printed.
import functools
import os
import re

from models import shown
from models.hashes import md5
from models.pmtiles import ArchiveRefused

TOP = os.path.dirname(os.path.dirname(os.path.dirname(os.path.abspath(__file__))))


class Rows:
    """The input and the wanted output of a program of this repository."""

    def __init__(self, name):
        self.crate = os.path.join(TOP, 'crates', name)
        self.rows = []

    def row(self, call, *answers):
        self.rows.append((call, ''.join(f'{a} ' for a in answers)))

    def refused(self, call, *answers):
        self.rows.append((call, ''.join(f'{a} ' for a in answers) + 'refused'))

    def write(self):
        self.write_text('stdin', ''.join(call + '\n' for call, _ in self.rows))
        self.write_text('stdout', ''.join(f'{call} = {answer}\n' for call, answer in self.rows))
        print(len(self.rows), 'rows')

    def write_text(self, name, text):
        with open(os.path.join(self.crate, name), 'w') as file:
            file.write(text)

    def write_data(self, name, data):
        os.makedirs(os.path.join(self.crate, 'data'), exist_ok=True)
        with open(os.path.join(self.crate, 'data', name), 'wb') as file:
            file.write(data)


ZEROS = re.compile(rb'\0{40,}')


@functools.lru_cache(1024)
def word(data):
    """Bytes as a word: hexadecimal digits, and long rows of zeros by their number."""
    pieces, at = [], 0
    for zeros in ZEROS.finditer(data):
        if at < zeros.start():
            pieces.append('x' + data[at:zeros.start()].hex())
        pieces.append(f'x00*{len(zeros[0])}')
        at = zeros.end()
    if at < len(data):
        pieces.append('x' + data[at:].hex())
    return ','.join(pieces) or 'x'


def text_word(text):
    return 't' + text if all('!' <= c <= '~' for c in text) else 'x' + text.encode().hex()


def entry(e):
    return f'DirEntry {{ tile_id: {e[0]}, offset: {e[1]}, length: {e[2]}, run_length: {e[3]} }}'


def listed(entries):
    return '[' + ', '.join(map(entry, entries)) + ']'


def extent(h):
    bounds = ', '.join(f'{name}: {h[name]}' for name in ('min_lon', 'min_lat', 'max_lon', 'max_lat'))
    return f'Whole {{ {bounds} }}', f"Whole {{ lon: {h['center_lon']}, lat: {h['center_lat']}, zoom: {h['center_zoom']} }}"


def document(h, sources, said):
    """The debug text of the document of a header, with what metadata says."""
    bounds, center = map(shown.option, extent(h))
    return shown.document(sources, {'minzoom': f"Some({h['min_zoom']})", 'maxzoom': f"Some({h['max_zoom']})", 'bounds': bounds, 'center': center}, said)


def size_and_digest(data):
    """How many bytes there are, and the text of their MD5 as a word."""
    return len(data), word(md5(data).encode())


def tile_word(data):
    return 'none' if data is None else 'x' + data.hex()


def answered(call, show=str):
    try:
        return show(call())
    except ArchiveRefused as refusal:
        return str(refusal)


def result(call, show):
    try:
        return f'Ok({show(call())})'
    except ArchiveRefused as refusal:
        return f'Err({refusal})'


def write_rows(name, *modules):
    """The input and the wanted output of a program, whose lines modules write one after another."""
    rows = Rows(name)
    for module in modules:
        module.write(rows)
    rows.write()
