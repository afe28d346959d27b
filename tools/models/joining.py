# The archive of several archives, the later ones over the earlier ones, by its definition: what it is, the refusals,
# and how often each source and the medium are asked.
from models import pmtiles as pm
from models import readers
from models import shown
from models.extraction import Calls, Ends, clipped, of_archive, walk

ALIKE = ('type', 'tile')
LEAST = ('min_zoom', 'min_lon', 'min_lat')
GREATEST = ('max_zoom', 'max_lon', 'max_lat')
OF_LAST = ('tile', 'type', 'center_zoom', 'center_lon', 'center_lat')
WHOLE = [(0, pm.LAST)]


def ends(error):
    raise Ends(error)


def of_source(number, call):
    """What a part of a source gives, or its refusal with the source's number."""
    try:
        return call()
    except Ends as end:
        error = end.args[0]
        assert error.startswith('Refused(Archive(') and error.endswith('))')
        return ends(f'Archive {{ source: {number}, error: {error[16:-2]} }}')


def outside(first, run, others):
    """The parts of a run that other runs leave, first id and length."""
    at = first
    for a, n in others:
        if a < first + run and a + n > at:
            if a > at:
                yield at, a - at
            at = max(at, a + n)
    if at < first + run:
        yield at, first + run - at


class Join:
    """One join of sources, of which that with a number has a read that fails, 0 for none."""

    def __init__(self, sources, begun, medium_fails, hindered, source_fails):
        self.sources, self.begun, self.held, self.is_done = sources, begun, begun, False
        self.asked = [Calls(source_fails if k == hindered else 0, 'Refused(Archive(Reading(Fault)))') for k in range(len(sources))]
        self.medium = Calls(medium_fails, 'MediumFault')

    def write(self):
        self.medium.call()
        self.held = None

    def found(self, k):
        """The header and the runs of a source."""
        data = self.sources[k]
        self.asked[k].call()
        h, root = of_archive(lambda: readers.opened(data))
        return h, clipped(list(walk(self.asked[k], data, h, root, 0, None, 0, WHOLE)), WHOLE)

    def gathered(self, most):
        """The headers of all sources, and the runs that are left of them, with the numbers of their sources."""
        headers, pieces = [], []
        for k in range(len(self.sources)):
            h, runs = of_source(k, lambda: self.found(k))
            if sum(run[3] for run in runs) > most:
                ends(f'TooManyTiles({most})')
            over = [(first, run) for first, _, _, run in runs]
            left = [(a, offset, length, n, source) for first, offset, length, run, source in pieces for a, n in outside(first, run, over)]
            pieces = sorted(left + [(*run, k) for run in runs])
            headers.append(h)
        return headers, pieces

    def text(self, headers):
        k = len(headers) - 1
        self.asked[k].read(0, headers[k]['metadata_offset'], headers[k]['metadata_length'])
        return of_archive(lambda: readers.metadata(self.sources[k])).encode()

    def add(self, headers, pieces):
        runs, known = [], pm.Contents()
        for first, offset, length, run, k in pieces:
            def content():
                self.asked[k].read(headers[k]['data_offset'], offset, length)
                return of_archive(lambda: readers.part(self.sources[k], headers[k]['data_offset'], offset, length))
            data = of_source(k, content)
            for call in known.calls(data):
                self.write() if call == 'write' else self.medium.call()
            runs.append((first, run, data))
        return runs

    def join(self, most):
        if not self.sources:
            ends('NoSource')
        self.medium.call()
        if self.begun:
            ends(f'MediumNotEmpty {{ length: {len(self.begun)} }}')
        headers, pieces = self.gathered(most)
        text = of_source(len(headers) - 1, lambda: self.text(headers))
        last = headers[-1]
        for k, h in enumerate(headers):
            if any(h[name] != last[name] for name in ALIKE):
                ends(f'Different {{ source: {k} }}')
        if sum(piece[3] for piece in pieces) > most:
            ends(f'TooManyTiles({most})')
        for _ in ('room for the root', 'metadata'):
            self.write()
        runs = self.add(headers, pieces)
        said = {name: last[name] for name in OF_LAST}
        said.update({name: min(h[name] for h in headers) for name in LEAST})
        said.update({name: max(h[name] for h in headers) for name in GREATEST})
        archive, places = pm.archive_of_runs(runs, text, **said)
        for _ in ('leaves', 'root', 'header', 'label of directories'):
            self.write()
        self.held, self.is_done = archive, True
        return shown.places(places)

    def result(self, most):
        """The text of the result."""
        try:
            return f'Ok({self.join(most)})'
        except Ends as end:
            return f'Err({end.args[0]})'
