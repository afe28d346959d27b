# Lines of a server of tiles, and the run that crates/tile_serve_program stores, for tools/cases/archive_rows.py. The
# wanted answers are worked out from the definition of a reply, by tools/models/servers.py, a server in plain python
# that keeps lists.
import random

from cases.archive_program import hold, row
from cases.rows import Rows
from cases.sample_archives import ONE, tree
from models import pmtiles as pm
from models import readers
from models import shown
from models.servers import Fault, Server, reply, spelled, tag_of

GREAT = 2 ** 32 - 1


def serve(data, limits, lines, fails=(), counted=True):
    """Lines that one server answers, each with the bytes held then, and how often it read."""
    hold(data)
    if fails:
        row('medium fail ' + ' '.join(map(str, fails)))
    call = 'serve lines ' + ' '.join(map(str, limits)) + ''.join(' ' + spelled(line) for line in lines)
    try:
        server = Server(data, limits, fails)
    except Fault:
        row(call, 'Opening(Reading(Fault))')
        return
    except pm.ArchiveRefused as refusal:
        row(call, f'Opening({refusal})')
        return
    answers = []
    for line in lines:
        try:
            text = server.answer(line)
            assert text == reply(data, line)
            answers += [spelled(text + '\n'), server.held()]
        except Fault:
            answers += ['Fault', server.held()]
    row(call, *answers)
    if counted:
        row('medium calls', server.calls)


def run(data, words, requests, outcome, status, written, input_fails=0, output_fails=0, fails=()):
    hold(data)
    if fails:
        row('medium fail ' + ' '.join(map(str, fails)))
    row(f'serve run {output_fails} {input_fails} {spelled(requests)}' + ''.join(f' t{w}' for w in words), status, outcome, spelled(written))


def replies(data, requests):
    lines = requests.split('\n')
    return ''.join(reply(data, line) + '\n' for line in (lines[:-1] if lines[-1] == '' else lines))


HELLO = pm.archive([(0, b'hello')])[0]
TAG = '9555E8555C62DCFD'
TABLE = ['GET 0 0 0', 'GET 0 0 0 ' + TAG, 'GET 1 0 0', 'GET 0 1 0']


def some_leaves():
    """Four leaves of eight tiles each, of 1 to 12 bytes, and an entry of no bytes in each."""
    leaves, contents = [], b''
    for leaf in range(4):
        entries = []
        for i in range(8):
            length = 0 if i == 5 else (leaf * 8 + i) % 12 + 1
            entries.append((1 + leaf * 16 + i, len(contents), length, 1 if i < 7 else 3))
            contents += bytes((leaf * 37 + i * 11 + k) % 256 for k in range(length))
        leaves.append(entries)
    return leaves, contents


LEAFY, DEEP, TOO_DEEP = (tree(*some_leaves(), most=(4,) * deeper) for deeper in (0, 2, 7))


def line_of(t, tag=''):
    z = next(z for z in range(32) if t < pm.below(z + 1))
    x, y = next((x, y) for x in range(2 ** z) for y in range(2 ** z) if pm.tile_id(z, x, y) == t)
    return f'GET {z} {x} {y}' + (' ' + tag if tag else '')


def table():
    serve(HELLO, (4, 100, 4, 100), TABLE)
    serve(HELLO, (1, 0, 1, 0), TABLE)
    serve(HELLO, (GREAT, GREAT, GREAT, 2 ** 64 - 1), TABLE)
    a, b = shown.text('a'), shown.text('b')
    for first, then, answers in [('a', 'b', [f'Modified {{ opened: {a}, read: {b} }}', 0]), ('a', 'a', [spelled(reply(HELLO, TABLE[0]) + '\n'), 5])]:
        hold(HELLO)
        row(f'medium versions t{first} t{then}')
        row('serve lines 4 100 4 100 GET_0_0_0', *answers)
    hold(HELLO)
    row('medium versions ta tb')
    row('serve run 0 0 GET_0_0_0/ t4 t100 t4 t100', 1, f'Refused(Modified {{ opened: {a}, read: {b} }})', '')
    serve(ONE[:-1], (4, 100, 4, 100), ['GET 0 0 0', 'GET 1 0 0'], counted=False)
    serve(ONE[:126], (4, 100, 4, 100), ['GET 0 0 0'])


def lines():
    wrong = ['', 'GET', 'GET 0 0', 'GET 0 0 0 0', 'get 0 0 0', 'GET 00 0 0', 'GET 0 0 00', 'GET 1 2 0', 'GET 1 0 2', 'GET 32 0 0', 'GET -1 0 0', 'GET 0 0 0 ', ' GET 0 0 0', 'GET  0 0 0',
             'GET 0 0 0 ' + TAG.lower(), 'GET 0 0 0 ' + TAG[:15], 'GET 0 0 0 ' + TAG + '0', 'GET 0 0 0 ' + TAG[:15] + 'G', 'GET 0 0 0 ' + TAG + ' ', 'GET 0 0 0 ' + TAG + ' ' + TAG, 'GETS 0 0 0', 'PUT 0 0 0',
             'GET 31 2147483648 0', 'GET 4294967296 0 0', 'GET 0 0 18446744073709551616']
    right = ['GET 0 0 0', 'GET 31 2147483647 2147483647', 'GET 31 0 0', 'GET 1 1 1', 'GET 0 0 0 ' + TAG, 'GET 0 0 0 0000000000000000', 'GET 0 0 0 FFFFFFFFFFFFFFFF']
    for line in filter(None, wrong + right):
        assert line in right or reply(HELLO, line) == '400'
        serve(HELLO, (1, 1, 1, 5), [line])
    requests = '\n'.join(wrong + right)
    run(HELLO, (1, 1, 1, 5), requests, 'Done', 0, replies(HELLO, requests))


def bounds():
    ids = [1, 2, 3, 17, 18, 33, 49, 6, 1, 2, 3, 8, 9, 10, 11, 56]
    for limits in [(1, 8, 1, 100), (1, 7, 3, 20), (2, 16, 4, 11), (2, 15, 2, 12), (4, 32, 100, 1), (4, 100, 100, 1000), (4, 100, 2, 0)]:
        for data in (LEAFY, DEEP):
            serve(data, limits, [line_of(t) for t in ids])
    serve(TOO_DEEP, (9, 100, 1, 1), [line_of(1)], counted=False)
    data = readers.archive_tile(LEAFY, 2)
    serve(LEAFY, (1, 8, 1, 100), [line_of(2), line_of(2, tag_of(data)), line_of(2, tag_of(data)[::-1]), line_of(3, tag_of(data)), line_of(2, tag_of(data))])


def faults():
    asked = [line_of(1), line_of(2), line_of(17), line_of(1)]
    for n in range(1, 8):
        serve(LEAFY, (1, 8, 2, 100), asked, (n,))
    serve(LEAFY, (1, 8, 2, 100), asked, (2, 3, 4, 5))
    broken = LEAFY[:-3]
    serve(broken, (4, 100, 4, 100), [line_of(49), line_of(1), line_of(50)], counted=False)
    h, _ = readers.opened(LEAFY)
    spoilt = LEAFY[:h['leaf_offset']] + b'\xff' * 8 + LEAFY[h['leaf_offset'] + 8:]
    serve(spoilt, (4, 100, 4, 100), [line_of(1), line_of(17), line_of(2)], counted=False)


def runs():
    requests = 'GET 0 0 0\nGET 1 0 0\nGET 0 0 0 ' + TAG + '\nGET\n'
    words = (4, 100, 4, 100)
    whole = replies(HELLO, requests)
    for text in [requests, requests[:-1], 'GET 0 0 0', 'GET 0 0 0\n', '\n\n']:
        run(HELLO, words, text, 'Done', 0, replies(HELLO, text))
    for call in (1, 2):
        run(HELLO, words, requests, 'InputFault', 4, '', input_fails=call)
    run(HELLO, words, requests, 'Done', 0, whole, input_fails=3)
    for call in range(1, 5):
        run(HELLO, words, requests, 'OutputFault', 5, ''.join(line + '\n' for line in whole.split('\n')[:call - 1]), output_fails=call)
    run(HELLO, words, requests, 'Done', 0, whole, output_fails=5)
    run(HELLO, words, requests, 'Refused(Opening(Reading(Fault)))', 6, '', fails=(1,))
    run(HELLO, words, 'GET 1 0 0\n' + requests, 'Refused(Fault)', 6, '404\n', fails=(2,))
    run(HELLO, words, requests, 'Done', 0, whole, fails=(3,))
    run(ONE[:126], words, requests, 'Refused(Opening(InvalidHeader))', 1, '')
    run(ONE[:126], words, requests, 'InputFault', 4, '', input_fails=1)
    for wrong in ['', '4 100 4', '4 100 4 100 5', '0 100 4 100', '4 100 0 100', '04 100 4 100', '4 100 4 18446744073709551616', '4294967296 100 4 100', '4 4294967296 4 100', '4 100 4294967296 100', '4 x 4 100']:
        run(ONE[:126], wrong.split(), requests, 'Usage', 2, '', input_fails=1)


def random_requests():
    chance = random.Random(20)
    known = [1 + leaf * 16 + i for leaf in range(4) for i in range(10)]
    spelled_ids = {t: line_of(t) for t in range(0, 70)}
    for _ in range(40):
        limits = (chance.randint(1, 4), chance.choice([0, 7, 8, 15, 16, 24, 40]), chance.randint(1, 6), chance.choice([0, 3, 12, 25, 60]))
        data = chance.choice([LEAFY, DEEP])
        asked = []
        for _ in range(chance.randint(5, 30)):
            t = chance.choice(known[:6] if chance.random() < 0.4 else known + list(range(70)))
            tile = readers.archive_tile(data, t)
            tag = tag_of(tile) if tile and chance.random() < 0.3 else chance.choice(['', '', '0123456789ABCDEF'])
            asked.append(spelled_ids[t] + (' ' + tag if tag else ''))
        serve(data, limits, asked)


def stored_run():
    """The run of the program, over an archive in its folder data/."""
    program = Rows('tile_serve_program')
    program.write_data('one_tile.pmtiles', HELLO)
    requests = '\n'.join(TABLE) + '\n'
    for name, text in [('stdin', requests), ('stdout', replies(HELLO, requests)), ('args', 'one_tile.pmtiles\n4\n100\n4\n100\n')]:
        program.write_text(name, text)


def write():
    for rows in (table, lines, bounds, faults, runs, random_requests, stored_run):
        rows()
