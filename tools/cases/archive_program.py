# The lines of crates/archive_rows that several scripts write, and what is answered there: archive_rows.py writes them
# all.
from cases.rows import Rows, answered, document, entry, listed, result, size_and_digest, tile_word, word
from models import pmtiles as pm
from models import readers
from models import shown
from models import verifiers
from models.names import COMPRESSIONS

U32, U64 = 2 ** 32, 2 ** 64
FAULT = 'Err(Reading(Fault))'
ROWS = Rows('archive_rows')
row, refused = ROWS.row, ROWS.refused


def hold(data):
    row('medium hold ' + word(data))


def held(data):
    row('medium digest', *size_and_digest(data))

# Answers.


def tile(data, t):
    return answered(lambda: readers.archive_tile(data, t), tile_word)


def changed(data, at, piece):
    return data[:at] + piece + data[at + len(piece):]


FIELDS = {'Clustered': ('entry', 'due', 'found')}
LINES = {'AddressedTiles': 'header addressed tiles {}, found {}\n', 'TileEntries': 'header tile entries {}, found {}\n', 'TileContents': 'header tile contents {}, found {}\n',
         'MinZoom': 'header min zoom {}, found {}\n', 'MaxZoom': 'header max zoom {}, found {}\n', 'Clustered': 'header clustered, tile entry {0} at {2} and not at {1}\n',
         'Metadata': 'header metadata {}\n'}


def said_of_header(numbers, fault):
    """The result of a check of a header, and the line of what it says wrong, which is None where it is right."""
    if fault is None:
        return said_of_check(numbers, 0)[0], None
    name, *cells = fault
    fields = ', '.join(f'{n}: {c}' for n, c in zip(FIELDS.get(name, ('stated', 'found')), cells))
    return f'Err(Header({name}' + (f'({cells[0]})' if name == 'Metadata' else f' {{ {fields} }}') + '))', LINES[name].format(*cells)


def checked_header(data):
    """What a check of a header answers, and its line."""
    try:
        return said_of_header(*verifiers.header_fault(data))
    except pm.ArchiveRefused as refusal:
        return f'Err(Unsound(Opening({refusal})))', None
    except verifiers.Broken:
        return f'Err(Unsound({checked(data)[0][4:-1]}))', None


def said_of_check(found, leaves):
    """The result of a check, and its line."""
    line = ' '.join(map(str, found)) + '\n'
    if isinstance(found[3], int):
        numbers = ', '.join(f'{n}: {c}' for n, c in zip(('directories', 'addressed', 'entries', 'contents'), found))
        return f'Ok(VerifyReport {{ {numbers} }})', 'sound ' + line
    place = 'Place {{ depth: {}, offset: {}, index: {} }}'.format(*found)
    return f'Err(Broken {{ place: {place}, reason: {found[3]}, directories: {leaves} }})', 'broken ' + line


def checked(data):
    """What a check answers, and its line."""
    try:
        return said_of_check(*verifiers.check(data))
    except pm.ArchiveRefused as refusal:
        return f'Err(Opening({refusal}))', 'opening ' + str(refusal).split('(')[0] + '\n'

# Lines.


def check(data):
    row('verify report', checked(data)[0])


def check_header(data):
    row('verify header', checked_header(data)[0])


def read_documents(data):
    for call in ('read map', 'state'):
        row(call + ' metadata', result(lambda: readers.metadata(data), shown.text))

    def of_archive():
        h, found = readers.opened(data)[0], shown.said(readers.metadata(data))
        if found is None:
            raise pm.ArchiveRefused('InvalidMetadata')
        return document(h, ['u'], found)
    for call in ('read none', 'read recent 2', 'state'):
        row(call + ' document tu', result(of_archive, str))


def one_length(data):
    """Whether each offset of a leaf that is reached is used with one length."""
    try:
        h, level = readers.opened(data)
    except pm.ArchiveRefused:
        return True
    used, seen = {}, set()
    while level:
        following = []
        for e in level:
            if e[3] == 0:
                if used.setdefault(e[1], e[2]) != e[2]:
                    return False
                if e[1:3] not in seen:
                    seen.add(e[1:3])
                    try:
                        following += readers.leaf(data, h, e)
                    except pm.ArchiveRefused:
                        pass
        level = following
    return True


def archive(data, ids=(0, 1, 7), budgets=(0, 3)):
    """All that is asked of an archive: whether it opens, and its tiles, entries and metadata."""
    hold(data)
    ask(data, ids, budgets)


def ask(data, ids, budgets):
    check(data)
    check_header(data)
    try:
        readers.opened(data)
    except pm.ArchiveRefused as refusal:
        for call in ('view tiles 0', 'view header', 'view metadata', 'state open', 'read none part header', 'bytes tiles 0', 'read map tiles 0', 'read over tiles 0', 'read idle tiles 0'):
            row(call, str(refusal))
        return
    h, root = readers.opened(data)
    row('state open', 'Ok')
    row('state part root', listed(root))
    row('read map part root', listed(root))
    row('view header', 'x' + pm.header(dict(h, clustered=1 if h['clustered'] == 1 else 0)).hex())
    row('view metadata', answered(lambda: readers.metadata(data), shown.quoted))
    words = ' '.join(map(str, ids))
    tiles = [tile(data, t) for t in ids]
    row('view tiles ' + words, *tiles)
    for way in ('read none', 'bytes', 'read idle') + (('read map', 'read recent 1', 'read over') if one_length(data) else ()):
        row(f'{way} tiles {words} {words}', *tiles, *tiles)
    for t, found in zip(ids, tiles):
        row(f'state tile {t}', found)
        row(f'state unversioned {t}', found)
        row(f'read none unversioned {t}', found)
        label = data[98]
        plain = found if label == 1 or not found.startswith('x') else f'UnsupportedCompression({COMPRESSIONS[label]})'
        row(f'state plain {t}', plain)
        row(f'read map plain {t}' if one_length(data) else f'read none plain {t}', plain)
    for budget in budgets:
        items = [f'Err({i})' if isinstance(i, str) else f'Ok({entry(i)})' for i in readers.walk(data, budget)]
        row(f'read none entries {budget}', *items)
        row(f'read map entries {budget}', *items)
        row(f'state walk {budget} {len(items) + 2}', *(f'Some({i})' for i in items), 'None', 'None')
    row('read none metadata', result(lambda: readers.metadata(data), shown.text))
