# What a reader, a view, an import, a check, an extraction and a server answer of the bytes of an archive, for
# tools/cases/faulty_cases.py: by the definitions of the format, and by the models of the scripts beside it.
from cases.import_cases import Quiet, rows_text
from cases.rows import answered, tile_word
from models import extraction
from models import pmtiles as pm
from models import readers
from models import servers
from models import shown
from models import verifiers
from models.hashes import md5
from models.imported import coord, imported


class Asked:
    """What is asked of an archive: how many leaves a walk along its entries may read, ids, the most tiles of an
    import, the words of an extraction and the limits of a server."""

    def __init__(self, leaves, ids, most, words, limits):
        self.leaves, self.ids, self.most, self.words, self.limits = leaves, ids, most, words, limits
        self.requests = ['GET {} {} {}'.format(*coord(t)) for t in ids]

    def calls(self):
        yield 'ask tiles ' + ' '.join(map(str, (self.leaves, *self.ids)))
        yield f'ask import {self.most}'
        yield 'ask extract' + ''.join(f' t{w}' for w in self.words.split())
        yield 'ask serve' + ''.join(f' t{n}' for n in self.limits)


def by_view(data, asked):
    """The metadata and the tiles."""
    return ' '.join([answered(lambda: readers.metadata(data), shown.quoted), *(answered(lambda: readers.archive_tile(data, t), tile_word) for t in asked.ids)])


def entries(data, asked):
    """The entries along the levels, and why there are no more."""
    return ''.join((e if isinstance(e, str) else '.'.join(map(str, e))) + ' ' for e in readers.walk(data, asked.leaves))


def by_import(data, asked):
    """The answer, and the digest of all rows of the set that was empty, where it has some."""
    held = Quiet()
    answer = imported(held, data, asked.most)
    rows = rows_text(held.tables)
    return f'{answer} {md5(rows.encode())}' if rows else answer


def by_check(data):
    """The status and the line."""
    found, _ = verifiers.check(data)
    status, word = (0, 'sound') if isinstance(found[3], int) else (1, 'broken')
    return f"{status} {shown.quoted(' '.join(map(str, (word, *found))) + chr(10))}"


def by_extraction(data, asked):
    """The status and the outcome, and byte 97 of the medium; where it is done, how many bytes the medium has, and
    their digest."""
    run = extraction.Run(data, b'', 0, 0)
    said, status = run.outcome(asked.words.split())
    if status == 0:
        return f'0 {len(run.held)} {md5(run.held)}'
    return f'{status} {said} {extraction.label(run.held)}'


def by_server(data, asked):
    """The status, the outcome and the replies. A server keeps directories by their places, so that its replies are
    those of the bytes alone where no place is read with two lengths."""
    server = servers.Server(data, asked.limits)
    return '0 Done ' + shown.quoted(''.join(server.answer(line) + '\n' for line in asked.requests))


def answers(data, asked):
    """The six of them."""
    try:
        readers.opened(data)
    except pm.ArchiveRefused as refusal:
        line = shown.quoted('opening ' + str(refusal).split('(')[0] + '\n')
        return [str(refusal), str(refusal), f'Err(Archive({refusal}))', f'1 {line}', f'1 Refused(Archive({refusal})) None', f'1 Refused(Opening({refusal})) ""']
    view = by_view(data, asked)
    return [entries(data, asked) + view, view, by_import(data, asked), by_check(data), by_extraction(data, asked), by_server(data, asked)]
