# Asks servers of tiles for what an archive has, which it reads by `tools/models/readers.py`.
#
# served_tiles.py make PNG GZIP           writes an archive of pictures and one of tiles in gzip
# served_tiles.py lines ARCHIVE WORDS ..  starts a command, and asks for each tile once the reply before is there
# served_tiles.py http ARCHIVE URL        asks a server of HTTP for each tile and document
# served_tiles.py status URL              prints the status of an answer, and its body where that is no tile
import gzip
import json
import os
import re
import selectors
import socket
import struct
import subprocess
import sys
import urllib.error
import urllib.request
import zlib

sys.path.append(os.path.dirname(os.path.dirname(os.path.abspath(__file__))))
from models import pmtiles as pm  # noqa: E402
from models import readers  # noqa: E402
from models.hashes import digest  # noqa: E402

TYPES = {1: ('application/vnd.mapbox-vector-tile', 'mvt'), 2: ('image/png', 'png')}
ENCODINGS = {1: None, 2: 'gzip'}
DEEPEST = 3


def picture(z, x, y):
    """A picture of 256 points a side, in a colour of its own."""
    def chunk(name, body):
        return struct.pack('>I', len(body)) + name + body + struct.pack('>I', zlib.crc32(name + body))
    colour = bytes([40 + 60 * z, 255 * x >> z, 255 * y >> z])
    rows = b''.join(b'\0' + b''.join(bytes(3) if 0 in (i, j) else colour for i in range(256)) for j in range(256))
    return (b'\x89PNG\r\n\x1a\n' + chunk(b'IHDR', struct.pack('>IIBBBBB', 256, 256, 8, 2, 0, 0, 0))
            + chunk(b'IDAT', zlib.compress(rows, 9)) + chunk(b'IEND', b''))


def places():
    """The tiles of both archives: all of the least zooms, and a part of the deepest one."""
    return [(z, x, y) for z in range(DEEPEST + 1) for x in range(1 << z) for y in range(1 << z) if z < DEEPEST or (x < 5 and y > 1)]


def make(png, packed):
    """Writes both archives."""
    adds = sorted((pm.tile_id(*place), place) for place in places())
    options = {'min_zoom': 0, 'max_zoom': DEEPEST}
    pictures, _ = pm.archive([(t, picture(*place)) for t, place in adds], b'{"name":"pictures"}', type=2, **options)
    vector = b'{"name":"vectors","vector_layers":[{"id":"a","fields":{}}]}'
    vectors, _ = pm.archive(
        [(t, gzip.compress(f'{place} '.encode() * (1 + place[1]), mtime=0)) for t, place in adds], vector, type=1, tile=2, **options)
    for name, data in ((png, pictures), (packed, vectors)):
        with open(name, 'wb') as file:
            file.write(data)


def tiles_of(path):
    """The bytes of an archive, its header, and its tiles by their places."""
    with open(path, 'rb') as file:
        data = file.read()
    h, _ = readers.opened(data)
    found = {}
    for z in range(DEEPEST + 2):
        for x in range(1 << z):
            for y in range(1 << z):
                tile = readers.archive_tile(data, pm.tile_id(z, x, y))
                if tile:
                    found[z, x, y] = tile
    return data, h, found


def lines(path, *words):
    """Asks a command line by line. A reply that doesn't come in time is none."""
    _, _, tiles = tiles_of(path)
    with subprocess.Popen(words, stdin=subprocess.PIPE, stdout=subprocess.PIPE) as process:
        waiting = selectors.DefaultSelector()
        waiting.register(process.stdout, selectors.EVENT_READ)

        def asked(line):
            process.stdin.write(line)
            process.stdin.flush()
            assert waiting.select(20), f'no reply to {line[:60]!r}'
            return process.stdout.readline()
        for (z, x, y), tile in tiles.items():
            tag = digest('xxh3', tile)
            assert asked(f'GET {z} {x} {y}\n'.encode()) == f'200 {tag} {tile.hex()}\n'.encode(), (z, x, y)
            assert asked(f'GET {z} {x} {y} {tag}\n'.encode()) == f'304 {tag}\n'.encode(), (z, x, y)
        for line in (b'\n', b'GET 0 0 0\r\n', b'GET 0 0 1\n', b'GET  0 0 0\n', b'x' * 255 + b'\n', b'x' * 256 + b'\n', b'x' * 257 + b'\n',
                     b'GET 0 0 0' + b' ' * 100000 + b'\n', b'GET 0 0 0' + b'\nGET 0 0 0'[1:] * 100 + b'\n', b'\0\n', b'\xff' * 9000 + b'\n'):
            assert asked(line) == b'400\n', line[:60]
        assert asked(b'GET 4 0 0\n') == b'404\n'
        # the last line may lack its line feed
        process.stdin.write(b'GET 0 0 0')
        process.stdin.close()
        assert process.stdout.readline().startswith(b'200 ')
        assert process.stdout.read() == b''
    assert process.returncode == 0, process.returncode
    print('answered', len(tiles))


def ask(url, method='GET', **headers):
    """The status, the headers and the body of an answer."""
    asked = urllib.request.Request(url, method=method, headers={name.replace('_', '-'): value for name, value in headers.items()})
    try:
        with urllib.request.urlopen(asked, timeout=60) as answer:
            return answer.status, answer.headers, answer.read()
    except urllib.error.HTTPError as error:
        with error:
            return error.code, error.headers, error.read()


def ask_tile(url, place, tile, wanted):
    """One tile in all the ways that it can be asked for."""
    address = url + '/'.join(map(str, place))
    ending, headers = wanted
    tag = f'"{digest("xxh3", tile)}"'
    for name in (address, f'{address}.{ending}', f'{address}?a=1'):
        status, got, body = ask(name)
        assert (status, body) == (200, tile), (name, status)
        for header, value in {**headers, 'ETag': tag, 'Content-Length': str(len(tile)), 'Access-Control-Allow-Origin': '*'}.items():
            assert got[header] == value, (name, header, got[header])
    status, got, body = ask(address, 'HEAD')
    assert (status, body, got['Content-Length'], got['ETag']) == (200, b'', str(len(tile)), tag), address
    for known in (tag, f'W/{tag}', f'"0000000000000000", {tag}', '*'):
        status, got, body = ask(address, If_None_Match=known)
        assert (status, body, got['ETag'], got['Content-Encoding']) == (304, b'', tag, None), (address, known, status)
    for other in ('"0000000000000000"', '"x"', ''):
        status, got, body = ask(address, If_None_Match=other)
        assert (status, body) == (200, tile), (address, other, status)


def ask_documents(url, data, h, tiles, ending):
    """The documents, and the counts of the grids."""
    status, got, body = ask(url + 'metadata.json')
    assert (status, got['Content-Type'], body.decode().rstrip('\n')) == (200, 'application/json', readers.metadata(data)), body
    status, got, body = ask(url + 'tiles.json')
    document = json.loads(body)
    assert (status, got['Content-Type'], document['tiles']) == (200, 'application/json', [f'{url}{{z}}/{{x}}/{{y}}.{ending}']), body
    assert (document['minzoom'], document['maxzoom'], document['tilejson']) == (h['min_zoom'], h['max_zoom'], '3.0.0'), body
    assert json.loads(ask(url + 'tiles.json', Host='tiles.example')[2])['tiles'] == [f'http://tiles.example/{{z}}/{{x}}/{{y}}.{ending}']
    assert json.loads(ask(url + 'tiles.json', Host='"<a>')[2])['tiles'] == document['tiles']
    zooms = {zoom['zoom']: zoom for zoom in json.loads(ask(url + 'grid.json')[2])}
    assert set(zooms) == {z for z, _, _ in tiles}
    for z, zoom in zooms.items():
        sizes = {(x, y): len(tile) for (k, x, y), tile in tiles.items() if k == z}
        assert (zoom['tiles'], zoom['bytes'], zoom['largest']) == (len(sizes), sum(sizes.values()), max(sizes.values())), zoom
        grid = json.loads(ask(f'{url}grid/{z}.json')[2])
        assert {(x, y): rest for x, y, *rest in grid['cells']} == {place: [1, size, size] for place, size in sizes.items()}, grid
    assert json.loads(ask(url + 'about.json')[2])['bounds'] == [h[name] / 10 ** 7 for name in ('min_lon', 'min_lat', 'max_lon', 'max_lat')]


def ask_others(url):
    """What isn't there, and what may be asked."""
    for name in ('nothing', '0/0', '0/0/0/', '0/0/0.exe', '0/0/0.webp', '4/0/0', '00/0/0/0', '-1/0/0', 'grid/9.json', 'grid/x.json',
                 'leaflet/../leaflet.js', 'leaflet/%2e%2e/x.js', 'leaflet/.x.js', 'http_server.py', '../http_server.py'):
        status, got, body = ask(url + name)
        assert (status, got['Access-Control-Allow-Origin']) == (404, '*') and body, (name, status)
    for name in ('0/0/1', '32/0/0', '1/2/0', '01/0/0', '4/16/0'):
        assert ask(url + name)[0] == 400, name
    status, got, body = ask(url + '0/0/0', 'OPTIONS')
    assert (status, body, got['Access-Control-Allow-Origin']) == (204, b'', '*') and 'HEAD' in got['Access-Control-Allow-Methods']
    assert ask(url + '0/0/0', 'POST')[0] == 501
    status, got, body = ask(url)
    assert status == 200 and got['Content-Type'].startswith('text/html') and b'://' not in body, 'the page'


def talked(url, method, headers, body):
    """The statuses that a server answers on one connection: to a request with headers and a body, and to a second one."""
    host, port = url.split('/')[2].split(':')
    second = b'GET /0/0/1 HTTP/1.1\r\n\r\n'
    with socket.create_connection((host, int(port)), 60) as connection:
        connection.sendall('\r\n'.join([f'{method} /nothing HTTP/1.1', *headers, '', '']).encode() + body + second)
        connection.shutdown(socket.SHUT_WR)
        said = b''.join(iter(lambda: connection.recv(1 << 16), b''))
    return [int(number) for number in re.findall(rb'HTTP/1\.1 ([0-9]{3}) ', said)]


def ask_bodies(url):
    """Requests whose bodies could be taken for requests."""
    body = b'GET / HTTP/1.1\r\n\r\n'
    length = f'Content-Length: {len(body)}'
    for method, statuses in (('GET', [404, 400]), ('HEAD', [404, 400]), ('OPTIONS', [204, 400]), ('POST', [501]), ('BREW', [501])):
        assert talked(url, method, [length], body) == statuses, method
        for headers, status in ((['Content-Length: 65537'], 413), (['Transfer-Encoding: chunked'], 411), ([length, 'Transfer-Encoding: x'], 411),
                                (['Content-Length: -1'], 400), (['Content-Length: 0x1'], 400), ([length, length], 400),
                                ([f' {length}'], 400), ([length.replace(':', ' :')], 400), (['Content-Length: 999'], 400)):
            assert talked(url, method, headers, body) == [status], (method, headers)
    assert talked(url, 'GET', [length, 'Expect: 100-continue'], body) == [100, 404, 400]
    assert talked(url, 'GET', [], b'') == [404, 400]


def answers(path, url):
    """All that a server of HTTP answers of an archive."""
    data, h, tiles = tiles_of(path)
    media_type, ending = TYPES[h['type']]
    for place, tile in tiles.items():
        ask_tile(url, place, tile, (ending, {'Content-Type': media_type, 'Content-Encoding': ENCODINGS[h['tile']]}))
    ask_documents(url, data, h, tiles, ending)
    ask_others(url)
    ask_bodies(url)
    print('answered', len(tiles))


def status(url):
    """Prints what an answer is."""
    number, got, body = ask(url)
    print(number, body.decode().strip() if got['Content-Type'].startswith(('text/plain', 'application/json')) else got['Content-Type'])


if __name__ == '__main__':
    {'make': make, 'lines': lines, 'http': answers, 'status': status}[sys.argv[1]](*sys.argv[2:])
