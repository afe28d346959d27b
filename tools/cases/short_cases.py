# Lines of calls over a backend that tells nothing, one of whose reads is answered by two numbers in place of bytes,
# for tools/cases/archive_rows.py: how many bytes were asked for, or are said to be, and how many came. Whoever reads
# hands on both. The wanted answers are worked out by the models of the other scripts, which count their reads.
from cases import archive_program
from cases import sample_archives
from cases import serve_cases
from cases.archive_program import hold, row, said_of_check, said_of_header
from cases.rows import answered, document, entry, listed, tile_word
from models import extraction
from models import pmtiles as pm
from models import readers
from models import servers
from models import shown
from models import verifiers
from models.hashes import md5

U64 = 2 ** 64
GREAT = U64 - 1
# what is said to be asked for, None for what is, and what came: no read of these lines asks for 99,999 bytes
NUMBERS = [(None, 99999), (7, 5), (5, 7), (0, GREAT), (GREAT, 0)]


class Short(Exception):
    """A read that was answered by numbers."""

    def error(self):
        return 'UnexpectedNumberOfBytesReturned({}, {})'.format(*self.args)

    def named(self):
        return 'Short {{ asked: {}, got: {} }}'.format(*self.args)


class Reads:
    """Reads are counted from 1, the one of opening; the one with a number is answered by numbers, but never that of
    opening."""

    def __init__(self, at, asked, got):
        self.at, self.asked, self.got, self.calls = at, asked, got, 0

    def read(self, length=None):
        self.calls += 1
        if self.calls == self.at and length is not None:
            raise Short(length if self.asked is None else self.asked, self.got)


def each(words, answers, calls, numbers=NUMBERS):
    """The line with each read answered by numbers, and with one more that doesn't come: `answers` gives what is
    printed, and calls `read` for each read."""
    for at in range(1, calls + 2):
        for asked, got in numbers if 1 < at <= calls else numbers[:1]:
            reads = Reads(at, asked, got)
            said = answers(reads)
            row(f"short {at} {'-' if asked is None else asked} {got} {words}", *said, reads.calls)


def calls_of(answers):
    """How many reads there are where all are answered."""
    reads = Reads(0, None, 0)
    answers(reads)
    return reads.calls


def rows_of(words, answers, numbers=NUMBERS):
    each(words, answers, calls_of(answers), numbers)

# Readers.


class Reader(servers.Server):
    """A reader with a cache of so many directories: the server without its replies."""

    def __init__(self, data, reads, limits):
        self.reads = reads
        super().__init__(data, limits)

    def read(self, length=None):
        self.reads.read(length)


WAYS = {'none': (1, 0, 1, 0), 'idle': (1, 0, 1, 0), 'map': (GREAT, GREAT, 1, 0), 'over': (GREAT, GREAT, 1, 0), 'recent 1': (1, GREAT, 1, 0), 'recent 2': (2, GREAT, 1, 0)}


def tile_of(reader, t):
    try:
        return answered(lambda: reader.tile(t), tile_word)
    except Short as short:
        return short.error()


def tiles(data, way, ids):
    """Look-ups by one reader: after a short read the others are answered as ever."""
    def answers(reads):
        reader = Reader(data, reads, WAYS[way])
        return [tile_of(reader, t) for t in ids]
    rows_of(f'read {way} tiles ' + ' '.join(map(str, ids)), answers, NUMBERS[:3])


def one_tile(data, t):
    """A look-up by each of the calls that look a tile up."""
    for call, way in (('state tile', 'none'), ('state plain', 'none'), ('state unversioned', 'none'), ('read none plain', 'none'), ('read map unversioned', 'map')):
        rows_of(f'{call} {t}', lambda reads: [tile_of(Reader(data, reads, WAYS[way]), t)], NUMBERS[:3])


def sweep(data, first, end):
    """Look-ups of ids in a row end with the first short read."""
    def answers(reads):
        reader = Reader(data, reads, WAYS['map'])
        found = [tile_of(reader, t) for t in range(first, end)]
        error = next((f for f in found if f.startswith('Unexpected')), None)
        if error:
            reads.calls = reads.at
            return [error]
        there = [bytes.fromhex(f[1:]) for f in found if f.startswith('x')]
        return [len(there), shown.text(md5(b''.join(there)))]
    rows_of(f'read map sweep {first} {end}', answers, NUMBERS[:3])


def walks(data, budget):
    """A walk ends with the short read as its last item."""
    def items(reads):
        def read(length):
            try:
                reads.read(length)
            except Short as short:
                raise pm.ArchiveRefused(short.error())
        reads.read()
        return [f'Err({i})' if isinstance(i, str) else f'Ok({entry(i)})' for i in readers.walk(data, budget, read)]
    rows_of(f'read none entries {budget}', items, NUMBERS[:3])
    count = len(items(Reads(0, None, 0))) + 2
    rows_of(f'state walk {budget} {count}', lambda reads: (list(map(shown.option, items(reads))) + ['None'] * count)[:count], NUMBERS[:3])


def of_range(words, length, right, wrong, turns=1):
    """A range that is read so many times."""
    def answer(reads):
        try:
            reads.read(length)
            return right
        except Short as short:
            return wrong(short)

    def answers(reads):
        reads.read()
        return [answer(reads) for _ in range(turns)]
    rows_of(words, answers, NUMBERS[:3])


def ranges(data):
    h, root = readers.opened(data)
    text = readers.metadata(data)
    said = document(h, ['u'], shown.said(text))
    for call in ('read none', 'read map', 'state'):
        of_range(f'{call} metadata', h['metadata_length'], f'Ok({shown.text(text)})', lambda short: f'Err({short.error()})')
        of_range(f'{call} document tu', h['metadata_length'], f'Ok({said})', lambda short: f'Err({short.error()})')
    for call, turns in (('state', 2), ('read none', 1)):
        of_range(f'{call} part contents 0 2', 2, 'x' + readers.part(data, h['data_offset'], 0, 2).hex(), Short.error, turns)
        name = next((e for e in root if e[3] == 0), None)
        if name:
            of_range(f'{call} part directory {name[1]} {name[2]}', name[2], listed(readers.leaf(data, h, name)), Short.error, turns)

# Checks, servers and extractions.


def checks(data):
    """A check ends with the first short read: the archive is neither sound nor broken."""
    def found(reads):
        try:
            reads.read()
            return said_of_check(*verifiers.check(data, reads.read))
        except Short as short:
            return f'Err({short.named()})', 'short {} {}\n'.format(*short.args)

    def run(reads):
        line = found(reads)[1]
        return [0 if line.startswith('sound') else 1, shown.text(line)]
    def header(reads):
        try:
            reads.read()
            return [said_of_header(*verifiers.header_fault(data, reads.read))[0]]
        except Short as short:
            return [f'Err(Unsound({short.named()}))']
        except verifiers.Broken:
            return [f'Err(Unsound({found(Reads(0, None, 0))[0][4:-1]}))']
    rows_of('verify report', lambda reads: found(reads)[:1])
    rows_of('verify run', run)
    rows_of('verify header', header)


def serves(data, limits, lines):
    """A server hands on the short read, and answers the lines after it as ever; a run of it ends there, after the
    replies of the lines before."""
    def answers(reads):
        server, said = Reader(data, reads, limits), []
        for line in lines:
            try:
                said += [servers.spelled(server.answer(line) + '\n'), server.held()]
            except Short as short:
                said += [short.named(), server.held()]
        return said

    def run(reads):
        server, written = Reader(data, reads, limits), ''
        for line in lines:
            try:
                written += server.answer(line) + '\n'
            except Short as short:
                return [1, f'Refused({short.named()})', servers.spelled(written)]
        return [0, 'Done', servers.spelled(written)]
    words = ' '.join(map(str, limits))
    rows_of(f'serve lines {words} ' + ' '.join(map(servers.spelled, lines)), answers)
    texts = ' '.join(f't{n}' for n in limits)
    rows_of('serve run 0 0 ' + servers.spelled(''.join(line + '\n' for line in lines)) + ' ' + texts, run)


class Source(extraction.Calls):
    """A source that an extraction reads from."""

    def __init__(self, reads):
        self.reads = reads

    def call(self, length=None):
        try:
            self.reads.read(length)
        except Short as short:
            raise extraction.Ends(f'Refused(Archive({short.error()}))', 1)

    def read(self, base, offset, length):
        self.call(length)


def extracts(data, words):
    """An extraction hands on the short read; where tiles are being written, no reader takes what the medium holds for
    an archive."""
    def extracted(reads):
        run = extraction.Run(data, b'', 0, 0)
        run.source = Source(reads)
        return run, run.outcome(words.split())

    def by_words(reads):
        run, (said, status) = extracted(reads)
        return [status, said, extraction.label(run.held)]

    def by_tile(reads):
        run, (said, status) = extracted(reads)
        said = said.replace('Done(', 'Ok(', 1) if status == 0 else said.replace('Refused(', 'Err(', 1)
        return [said, extraction.label(run.held)]
    rows_of('extract run 0' + ''.join(f' t{w}' for w in words.split()), by_words)
    rows_of(f'extract tile 0 {words}', by_tile, NUMBERS[:3])


def write():
    leafy, deep = serve_cases.LEAFY, serve_cases.DEEP
    for data, ids in ((serve_cases.HELLO, (0, 0, 1)), (leafy, (1, 17, 2, 1, 18, 6, 5, 99)), (deep, (1, 17, 1, 2)), (sample_archives.CYCLE, (7, 7)), (leafy[:-3], (49, 1, 50))):
        hold(data)
        for way in WAYS:
            tiles(data, way, ids)
        one_tile(data, ids[0])
        for budget in (0, 2, 12):
            walks(data, budget)
        checks(data)
    for data in (serve_cases.HELLO, leafy):
        hold(data)
        ranges(data)
        sweep(data, 0, 6)
    asked = [serve_cases.line_of(t) for t in (1, 2, 17, 1, 99, 2)]
    for data, limits, lines in ((serve_cases.HELLO, (4, 100, 4, 100), serve_cases.TABLE), (serve_cases.HELLO, (1, 0, 1, 0), serve_cases.TABLE), (leafy, (1, 8, 2, 100), asked), (leafy, (4, 100, 4, 100), asked),
                                (deep, (1, 0, 1, 0), asked), (sample_archives.CYCLE, (1, 0, 1, 0), [serve_cases.line_of(7)] * 2)):
        hold(data)
        serves(data, limits, lines)
    tree = sample_archives.tree(*sample_archives.some_leaves(), most=(5, 2))
    for data, asked in ((sample_archives.OF_ZOOM_ONE, ('0 0 0 1 10', '1 0 0 1 10', '0 0 0 1 1')), (sample_archives.CYCLE, ('0 0 0 0 10',)), (tree, ('1 0 0 4 300', '3 5 2 4 9', '0 0 0 3 300'))):
        hold(data)
        for words in asked:
            extracts(data, words)
    for words in ('short 1 2', 'short 1 - - read none tiles 0', 'short 1 - 7 view tiles 0', 'short 1 - 7'):
        archive_program.refused(words)
