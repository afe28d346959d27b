"""Serves the tiles of an archive by HTTP: http_server.py serve FILE [LIMITS] --http PORT [--address ADDRESS]

The command `fatyngu` calls it. None of it is proved; the tiles are those that the proved program answers.
"""
import email.errors
import http
import http.server
import json
import os
import re
import signal
import socket
import socketserver
import sys

from http_archive import Archive, Gone, Program
from python_said import fail, printed, say, words_of
from tile_cells import is_set

HERE = os.path.dirname(os.path.abspath(__file__))
LEAFLET = os.environ.get('FATYNGU_LEAFLET', '/usr/share/javascript/leaflet')
LEAFLET_NAME = re.compile(r'/leaflet/((?:images/)?[A-Za-z0-9_-]+(?:\.[A-Za-z0-9_-]+)*\.(js|css|png))')
LEAFLET_TYPES = {'js': 'text/javascript', 'css': 'text/css', 'png': 'image/png'}
TILE = re.compile(r'/([0-9]{1,10})/([0-9]{1,10})/([0-9]{1,10})(?:\.([a-z]+))?')
HOST = re.compile(r'([A-Za-z0-9._-]+|\[[0-9A-Fa-f:.]+\])(:[0-9]+)?')
# heads of which a part is no header, so that they may be read in two ways
BROKEN = (email.errors.MissingHeaderBodySeparatorDefect, email.errors.FirstHeaderLineIsContinuationDefect)
# how many bytes a body has at most that is read, and dropped
MOST = 1 << 16
SIGNALS = (signal.SIGINT, signal.SIGTERM, signal.SIGHUP)


class Stopped(Exception):
    """A signal asks the server to end."""


class Handler(http.server.BaseHTTPRequestHandler):
    """The answers to the requests of a connection."""
    protocol_version = 'HTTP/1.1'
    server_version = 'fatyngu/0.1.0'
    sys_version = ''
    timeout = 60
    wbufsize = -1

    def parse_request(self):
        """Reads the head of a request, and its body, which would be taken for the next request otherwise. Where it
        isn't read the connection ends."""
        if not super().parse_request():
            return False
        status, words = self.drop_body()
        if status:
            self.close_connection = True
            self.refuse(status, words)
        return not status

    def drop_body(self):
        """Reads the body of a request, or gives the status and the words of a refusal."""
        if any(isinstance(defect, BROKEN) for defect in self.headers.defects):
            return 400, 'a line of the head of this request is no header'
        if 'Transfer-Encoding' in self.headers:
            return 411, 'a body is taken only where Content-Length says how long it is'
        lengths = self.headers.get_all('Content-Length', ['0'])
        if len(lengths) > 1 or not re.fullmatch('[0-9]{1,18}', lengths[0]):
            return 400, 'Content-Length is no number'
        if int(lengths[0]) > MOST:
            return 413, f'a body is longer than {MOST} bytes, and no request here needs one'
        # the client may wait for a word that its body is wanted
        self.wfile.flush()
        if len(self.rfile.read(int(lengths[0]))) < int(lengths[0]):
            return 400, 'the body ends early'
        return None, None

    def do_GET(self):
        """Answers a request, or says that a program ended meanwhile."""
        try:
            self.answer(self.path.split('?', 1)[0])
        except Gone as error:
            if not self.server.is_stopping:
                say(error)
            self.refuse(502, f'{error}; the standard error of the server has more')

    do_HEAD = do_GET

    def do_OPTIONS(self):
        """Says what may be asked."""
        self.give(204, None, None, {
            'Access-Control-Allow-Methods': 'GET, HEAD, OPTIONS',
            'Access-Control-Allow-Headers': 'If-None-Match',
            'Access-Control-Max-Age': '86400',
        })

    def answer(self, path):
        """Answers a request for a path."""
        archive = self.server.archive
        if path == '/':
            self.give_page()
        elif path == '/tiles.json':
            self.give(200, archive.show('--tilejson', '--url', self.template()), 'application/json')
        elif path == '/metadata.json':
            self.give(200, archive.show('--metadata'), 'application/json')
        elif path == '/about.json':
            self.give_json(archive.about(os.path.isfile(os.path.join(LEAFLET, 'leaflet.js'))))
        elif path == '/grid.json':
            self.give_json(archive.zooms())
        elif asked := re.fullmatch(r'/grid/([0-9]{1,2})\.json', path):
            self.give_json(archive.grid(int(asked[1])))
        elif asked := LEAFLET_NAME.fullmatch(path):
            self.give_leaflet(*asked.groups())
        elif asked := TILE.fullmatch(path):
            self.give_tile(*asked.groups())
        else:
            self.refuse(404, 'there is nothing under this name; a tile is /Z/X/Y')

    def template(self):
        """The address of tiles, by the name that the client has for this server."""
        host = self.headers.get('Host', '')
        endings = self.server.archive.endings
        return (f'http://{host if HOST.fullmatch(host) else self.server.host}/{{z}}/{{x}}/{{y}}'
                + (f'.{endings[0]}' if endings else ''))

    def give_tile(self, z, x, y, ending):
        """Gives a tile, unless the client has it."""
        archive = self.server.archive
        if ending and ending not in archive.endings:
            return self.refuse(404, f'the type of these tiles is {archive.type}')
        known = self.headers.get('If-None-Match', '')
        tags = re.findall('"([0-9A-F]{16})"', known)
        status, *words = self.server.program.ask(' '.join(['GET', z, x, y, *tags[:1]]))
        if status == '400':
            return self.refuse(400, 'there is no such place: a zoom is 0 to 31, column and row are below two to the zoom')
        if status == '404':
            return self.refuse(404, f'there is no tile {z}/{x}/{y}')
        if status == '500':
            return self.refuse(500, f'the archive is broken on the way to this tile: {words[0]}')
        headers = {'ETag': f'"{words[0]}"', 'Cache-Control': 'no-cache'}
        if status == '304' or words[0] in tags or known.strip() == '*':
            return self.give(304, None, None, headers)
        if archive.encoding:
            headers['Content-Encoding'] = archive.encoding
        return self.give(200, bytes.fromhex(words[1]), archive.media_type, headers)

    def give_page(self):
        """Gives the page, which may take nothing from elsewhere."""
        with open(os.path.join(HERE, 'http_page.html'), 'rb') as file:
            page = file.read()
        policy = "default-src 'self' 'unsafe-inline'; img-src 'self' data:"
        self.give(200, page, 'text/html; charset=utf-8', {'Content-Security-Policy': policy})

    def give_leaflet(self, name, ending):
        """Gives a file of Leaflet, where the system has it."""
        try:
            with open(os.path.join(LEAFLET, name), 'rb') as file:
                text = file.read()
        except OSError:
            return self.refuse(404, f'there is no {LEAFLET}/{name}; the package libjs-leaflet has it')
        return self.give(200, text, LEAFLET_TYPES[ending])

    def give_json(self, value):
        """Gives a value as JSON."""
        if value is None:
            return self.refuse(404, 'this zoom has no tiles')
        return self.give(200, json.dumps(value, separators=(',', ':')).encode(), 'application/json')

    def refuse(self, status, words):
        """Says why there is nothing else."""
        self.give(status, f'{words}\n'.encode('utf-8', 'replace'), 'text/plain; charset=utf-8')

    def give(self, status, body, media_type, headers=None):
        """Writes an answer, for HEAD without its body."""
        self.send_response(status, http.HTTPStatus(status).phrase)
        self.send_header('Access-Control-Allow-Origin', '*')
        self.send_header('Access-Control-Expose-Headers', 'ETag')
        for name, value in (headers or {}).items():
            self.send_header(name, value)
        if body is not None:
            self.send_header('Content-Type', media_type)
            self.send_header('Content-Length', str(len(body)))
        if self.close_connection:
            self.send_header('Connection', 'close')
        self.end_headers()
        if body is not None and self.command != 'HEAD':
            self.wfile.write(body)

    def log_message(self, format, *args):
        """Requests aren't told."""


class Server(socketserver.ThreadingMixIn, socketserver.TCPServer):
    """A server of an archive, with a thread for each connection."""
    allow_reuse_address = True
    daemon_threads = True
    request_queue_size = 128

    def __init__(self, family, place, archive, program):
        self.address_family = family
        super().__init__(place, Handler)
        self.archive = archive
        self.program = program
        self.is_stopping = False
        name, port = self.server_address[:2]
        self.host = f'[{name}]:{port}' if ':' in name else f'{name}:{port}'

    def handle_error(self, request, client_address):
        """A client that has left is no fault."""
        error = sys.exc_info()[1]
        if not isinstance(error, (ConnectionError, TimeoutError)):
            say(f"a request wasn't answered: {error!r}")


def open_archive(program, path):
    """What is told of the archive, whose program has to answer."""
    if is_set(path):
        fail(1, f'{path} is no archive of the PMTiles format; fatyngu convert makes one of a set')
    try:
        archive = Archive(path)
        program.ask('GET 0 0 0')
    except Gone as error:
        # the program has said why
        sys.exit(error.status)
    return archive


def listen(address, port, archive, program):
    """The server at an address."""
    try:
        family, _, _, _, place = socket.getaddrinfo(address, port, type=socket.SOCK_STREAM)[0]
        return Server(family, place, archive, program)
    except OSError as error:
        return fail(1, f'port {port} of {address}: {error.strerror or error}')


def stop(number, frame):
    """Ends the server, once."""
    for each in SIGNALS:
        signal.signal(each, signal.SIG_IGN)
    raise Stopped


def asked(words):
    """What the words ask for."""
    usage = 'usage: fatyngu serve FILE [DIRECTORIES ENTRIES TILES BYTES] --http PORT [--address ADDRESS]'
    places, options = words_of(words, usage, options=['--http', '--address'])
    port = options.get('--http', '')
    if len(places) not in (1, 5) or not re.fullmatch('[0-9]{1,5}', port) or int(port) > 65535:
        fail(2, usage)
    return places, int(port), options.get('--address', '127.0.0.1')


def main(words):
    (path, *limits), port, address = asked(words)
    program = Program(path, limits)
    archive = None
    try:
        for each in SIGNALS:
            # one that is ignored stays so, as under nohup
            if signal.getsignal(each) != signal.SIG_IGN:
                signal.signal(each, stop)
        archive = open_archive(program, path)
        with listen(address, port, archive, program) as server:
            printed(f'http://{server.host}/\n')
            try:
                server.serve_forever()
            finally:
                server.is_stopping = True
    except Stopped:
        pass
    finally:
        if archive:
            archive.stop()
        program.stop()


if __name__ == '__main__':
    main(sys.argv[2:])
