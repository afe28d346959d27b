# Lines of checks of archives, for tools/cases/archive_rows.py: with each read failing, and with each byte changed.
from cases.archive_program import changed, check, checked, hold, refused, row
from cases.sample_archives import CYCLE, ONE, TWICE, nested
from models import pmtiles as pm
from models import shown
from models.hashes import md5


def short(entries, behind, **fields):
    """An archive without room behind its root."""
    root = pm.directory(entries)
    h = pm.default_header()
    h.update(root_length=len(root), metadata_offset=127 + len(root))
    h.update((name, 127 + len(root) + place) for name, place in fields.items())
    return pm.header(h) + root + behind


SHORT = short([(0, 0, 1, 1)], b'{}0', data_offset=2)
SHORT_CYCLE = short([(0, 0, 5, 0)], pm.directory([(0, 0, 5, 0)]), leaf_offset=0)


def run(status, line):
    row('verify run', status, shown.text(line))


def changes(data, first, end, last):
    lines = ''.join(checked(changed(data, at, bytes([(data[at] + step) % 256])))[1] for at in range(first, end) for step in range(1, last + 1))
    row(f'changes {first} {end} {last}', shown.text(md5(lines.encode())))


def write():
    for data, calls in ((ONE, 2), (CYCLE, 7), (nested(3), 6), (TWICE, 1), (ONE[:126], 1), (ONE[:-1], 2)):
        hold(data)
        check(data)
        row('medium calls', calls)
        line = checked(data)[1]
        for call in range(1, calls + 2):
            hold(data)
            row(f'medium fail {call}')
            run(*((0 if line.startswith('sound') else 1, line) if call > calls else (6, 'opening Reading\n' if call == 1 else 'source fault\n')))
        hold(data)
        row('verify run t', 2, shown.text('usage: tile_verify IN\n'))
        row('verify run ta tb', 2, shown.text('usage: tile_verify IN\n'))
        row('medium calls', 0)
    for data in (SHORT, SHORT_CYCLE):
        hold(data)
        check(data)
        changes(data, 0, len(data), 255)
    hold(ONE)
    for first, end, last in ((0, 132, 8), (132, pm.FRONT, 1), (pm.FRONT, len(ONE), 255)):
        changes(ONE, first, end, last)
    refused('verify other')
