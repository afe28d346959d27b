"""What the HTTP server knows of an archive: its tiles by the program behind `fatyngu serve`, which is asked line by
line, and all else by `fatyngu show`."""
import os
import re
import subprocess
import threading

from tile_cells import cells_of_entries

# by the words of `fatyngu show`: the media type of tiles, and the endings of their names, the usual one first
TYPES = {
    'mvt': ('application/vnd.mapbox-vector-tile', ('mvt', 'pbf')),
    'png': ('image/png', ('png',)),
    'jpg': ('image/jpeg', ('jpg', 'jpeg')),
    'webp': ('image/webp', ('webp',)),
    'avif': ('image/avif', ('avif',)),
    'mlt': ('application/vnd.maplibre-vector-tile', ('mlt',)),
}
UNKNOWN = ('application/octet-stream', ())
FATYNGU = os.path.join(os.path.dirname(os.path.abspath(__file__)), 'fatyngu')
ENCODINGS = {'gzip': 'gzip', 'brotli': 'br', 'zstd': 'zstd'}
# how many cells of a grid there are a side, and how many seconds a program has to end
SIDE = 256
PATIENCE = 3


class Gone(Exception):
    """A program ended instead of answering, with this status, which is negative for a signal."""

    def __init__(self, program, status):
        super().__init__(f'{program} has ended, ' + (f'status {status}' if status >= 0 else f'signal {-status}'))
        self.status = status


def started(words, **streams):
    """A program. What the terminal signals is for the server alone."""
    return subprocess.Popen(words, start_new_session=True, **streams)


class Program:
    """The program that answers requests for tiles. Where it has ended, the next request starts it anew."""

    def __init__(self, path, limits):
        self.words = [FATYNGU, 'serve', '--', path, *limits]
        self.lock = threading.Lock()
        self.process = None

    def ask(self, line):
        """The words of the reply to a line."""
        with self.lock:
            if self.process is None:
                self.process = started(self.words, stdin=subprocess.PIPE, stdout=subprocess.PIPE)
            try:
                self.process.stdin.write(line.encode() + b'\n')
                self.process.stdin.flush()
                reply = self.process.stdout.readline()
            except OSError:
                reply = b''
            except BaseException:
                # the rest of this reply would be taken for the next one
                self._end()
                raise
            if reply.endswith(b'\n') and reply[:3].isdigit():
                return reply.decode().split()
            raise Gone('the program that answers', self._end())

    def _end(self):
        """Ends the program, and gives its status."""
        process, self.process = self.process, None
        try:
            process.stdin.close()
        except OSError:
            pass
        try:
            process.wait(PATIENCE)
        except subprocess.TimeoutExpired:
            process.kill()
            process.wait()
        process.stdout.close()
        return process.returncode

    def stop(self):
        """Ends the program, if it runs."""
        if not self.lock.acquire(timeout=PATIENCE):
            process = self.process
            if process is not None:
                process.kill()
            self.lock.acquire()
        if self.process is not None:
            self._end()


class Archive:
    """The header of an archive, its documents, and its cells, which are counted once."""

    def __init__(self, path):
        self.path = path
        self.lock = threading.Lock()
        self.counting = threading.Lock()
        self.running = set()
        self.cells = None
        self.header = self.show().decode()
        self.type = self.fact('type')
        self.media_type, self.endings = TYPES.get(self.type, UNKNOWN)
        self.compression = self.fact('tile compression')
        self.encoding = ENCODINGS.get(self.compression)

    def fact(self, name):
        """What the header says of something."""
        return re.search(f'^{name} (.*)$', self.header, re.MULTILINE)[1]

    def _run(self, words, read):
        """What is read of `fatyngu show`, which has to end with status 0."""
        with started([FATYNGU, 'show', *words, '--', self.path], stdout=subprocess.PIPE) as process:
            with self.lock:
                self.running.add(process)
            try:
                got = read(process.stdout)
            finally:
                with self.lock:
                    self.running.discard(process)
        if process.returncode:
            raise Gone(' '.join(['fatyngu show', *words]), process.returncode)
        return got

    def show(self, *words):
        """What `fatyngu show` prints."""
        return self._run(words, lambda stream: stream.read())

    def counted(self):
        """The zooms that have tiles, by their numbers."""
        with self.counting:
            if self.cells is None:
                self.cells = self._run(['--entries'], cells_of_entries)
            return self.cells.zooms

    def about(self, has_map):
        """What the page has to know."""
        return {
            'name': os.path.basename(self.path),
            'type': self.type,
            'media_type': self.media_type,
            'compression': self.compression,
            'bounds': [float(n) for n in self.fact('bounds').removesuffix(' degrees').split(',')],
            'has_map': has_map,
        }

    def zooms(self):
        """How many tiles each zoom has, and their bytes."""
        zooms = self.counted()
        return [{'zoom': z, 'tiles': zooms[z].tiles, 'bytes': zooms[z].bytes, 'largest': zooms[z].largest}
                for z in sorted(zooms)]

    def grid(self, z):
        """The cells of a zoom, or None where it has no tiles."""
        zoom = self.counted().get(z)
        if zoom is None:
            return None
        seen, columns, rows = zoom.within(SIDE, SIDE)
        return {'zoom': z, 'shift': seen.shift, 'columns': columns, 'rows': rows,
                'cells': [[x, y, *cell] for (x, y), cell in sorted(seen.cells.items())]}

    def stop(self):
        """Ends what runs."""
        with self.lock:
            for process in self.running:
                process.kill()
