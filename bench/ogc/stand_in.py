#!/usr/bin/env python3
"""A stand-in for landmap's HTTP, to try the map page and these scripts without building anything.

    stand_in.py PORT [FEATURES [BASE]]

It serves the map page of crates/map_page and the pages of a made-up map near 7 degrees east, 46 north, in landmap's words, and takes
changes. Its rule `zones-stay` denies each change of a zone, and no rule permits one of a sign. It is no measure of landmap: what landmap
answers is what its crates say. A path /slow before any other waits a second; /fail/N answers with status N.
"""
import collections
import datetime
import http.server
import json
import math
import os
import random
import re
import sys
import threading
import time
import urllib.parse
from decimal import ROUND_CEILING, ROUND_FLOOR, Decimal

from shapes import meets

HERE = os.path.dirname(os.path.abspath(__file__))
ORIGIN = (Decimal(7), Decimal(46))
DECIMALS = int(os.environ.get('DECIMALS', '6'))
REACH = 10_000_000
LONGEST = 131_072 # bytes of a body
DOCUMENTS = ('application/geo+json', 'application/json')
CLASSES = ['mast', 'road', 'parcel', 'zone']
KEPT = 16
LOCK = threading.Lock()


def made_up(count):
    """Rows of (id, class, office, version, corners in steps), the same for the same count."""
    dice = random.Random(7)
    rows = []
    for number in range(1, count + 1):
        kind = dice.choices(CLASSES + ['sign'], [30, 25, 35, 2, 8])[0]
        spread = min(REACH * 0.9, 40_000 * math.sqrt(count))
        x, y = (max(-REACH + 60_000, min(REACH - 60_000, int(dice.gauss(0, spread / 3)))) for _ in range(2))
        if kind in ('mast', 'sign'):
            corners = [(x, y)]
        elif kind == 'road':
            corners = sorted([(x, y), (x + dice.randint(-40_000, 40_000), y + dice.randint(1, 40_000))])
        else:
            wide = 150_000 if kind == 'zone' else 15_000
            turn, sides = dice.random(), dice.randint(3, 8)
            angles = [2 * math.pi * (n + turn) / sides for n in range(sides)]
            corners = [(max(-REACH, min(REACH, x + int(wide * math.cos(a)))), max(-REACH, min(REACH, y + int(wide * math.sin(a))))) for a in angles]
        rows.append((number * 3, kind, dice.choice(['north', 'south', 'harbour']), dice.randint(1, 90), corners))
    return rows


def degrees(axis, steps):
    return f'{ORIGIN[axis] + Decimal(steps).scaleb(-DECIMALS):.{DECIMALS}f}'


def position(corner):
    return f'[{degrees(0, corner[0])},{degrees(1, corner[1])}]'


def geometry_text(corners):
    if len(corners) == 1:
        return f'{{"type":"Point","coordinates":{position(corners[0])}}}'
    if len(corners) == 2:
        return f'{{"type":"LineString","coordinates":[{",".join(map(position, corners))}]}}'
    return f'{{"type":"Polygon","coordinates":[[{",".join(map(position, corners + corners[:1]))}]]}}'


def feature_text(row):
    number, kind, office, version, corners = row
    return (f'{{"type":"Feature","id":{number},"geometry":{geometry_text(corners)},'
            f'"properties":{{"id":{number},"office":"{office}","class":"{kind}","version":{version}}}}}')


def plain(corners):
    kind = {1: 'Point', 2: 'LineString'}.get(len(corners), 'Polygon')
    return {'type': kind, 'coordinates': corners[0] if kind == 'Point' else corners if kind == 'LineString' else [corners + corners[:1]]}


class Fault(Exception):
    def __init__(self, status, code, retry=None, fields=(), **more):
        self.status, self.code, self.more = status, code, more
        self.fields = list(fields) + ([('retry-after', str(retry))] if retry else [])


NUMBER = re.compile(r'[+-]?(\d+\.?\d*|\.\d+)([eE][+-]?\d{1,4})?$')
MOMENT = r'\d{4}-\d\d-\d\d(T\d\d:\d\d:\d\d(\.\d+)?(Z|[+-]\d\d:\d\d))?'
DATETIME = re.compile(rf'{MOMENT}$|({MOMENT}/(\.\.|{MOMENT})?|(\.\.)?/{MOMENT})$')


def is_moment(text):
    """whether there is the day, and the time of day, of what has the form of a moment, or is open"""
    if text in ('', '..'):
        return True
    try:
        datetime.date(int(text[:4]) or 400, int(text[5:7]), int(text[8:10]))
    except ValueError:
        return False
    clock, zone = text[11:19], text[-6:]
    if clock and (int(clock[:2]) > 23 or int(clock[3:5]) > 59 or int(clock[6:]) > 60):
        return False
    return not clock or text[-1] in 'Zz' or int(zone[1:3]) < 24 and int(zone[4:]) < 60


def is_datetime(text):
    return bool(DATETIME.match(text)) and all(is_moment(end) for end in text.split('/'))


def box_of(text):
    parts = text.split(',')
    if len(parts) == 6:
        parts = parts[:2] + parts[3:5] if all(NUMBER.match(part) for part in (parts[2], parts[5])) else []
    if len(parts) != 4 or not all(NUMBER.match(part) for part in parts):
        raise Fault(400, 'U4')
    west, south, east, north = (((Decimal(part) - ORIGIN[n % 2]).scaleb(DECIMALS)).to_integral_value(ROUND_FLOOR if n < 2 else ROUND_CEILING)
                                for n, part in enumerate(parts))
    if west > east or south > north:
        raise Fault(400, 'U4')
    if west > REACH or south > REACH or east < -REACH or north < -REACH:
        return None
    return [int(max(-REACH, west)), int(max(-REACH, south)), int(min(REACH, east)), int(min(REACH, north))]


def natural(text):
    if not re.match(r'(0|[1-9]\d*)$', text) or int(text) >= 2 ** 64:
        raise Fault(400, 'U4')
    return int(text)


def text_of(name, parts):
    """The text that a definition means: `codes "TEXT"`, names of other definitions, `++` between them."""
    return ''.join(json.loads(word[6:]) if word.startswith('codes ') else text_of(word, parts) for word in parts[name].split(' ++ '))


def member(value, name, place, kind, wanted=True):
    """A member of an object, of this kind."""
    got = value.get(name)
    if not isinstance(got, kind) and (wanted or got is not None):
        raise Fault(400, 'J2', place=f'{place}/{name}')
    return got


def step_of(axis, value, place):
    """The number of steps that a coordinate means."""
    if not isinstance(value, Decimal):
        raise Fault(400, 'J2', place=place)
    steps = (value - ORIGIN[axis]).scaleb(DECIMALS)
    if steps != steps.to_integral_value():
        raise Fault(400, 'M2', place=place)
    if abs(steps) > REACH:
        raise Fault(400, 'M3', place=place)
    return int(steps)


def point_of(value, place):
    if not isinstance(value, list) or len(value) < 2:
        raise Fault(400, 'J2', place=place)
    return tuple(step_of(axis, value[axis], f'{place}/{axis}') for axis in (0, 1))


def ring_of(points):
    """The corners of a ring, counter-clockwise, if it is convex."""
    if len(points) < 4:
        raise Fault(422, 'P4')
    if points[0] != points[-1]:
        raise Fault(422, 'P5')
    corners = points[:-1]
    if len(set(corners)) < len(corners):
        raise Fault(422, 'P6')
    if sum(a[0] * b[1] - b[0] * a[1] for a, b in zip(points, points[1:])) < 0:
        corners = corners[::-1]
    turns = [(b[0] - a[0]) * (c[1] - b[1]) - (b[1] - a[1]) * (c[0] - b[0]) for a, b, c in zip(corners, corners[1:] + corners, corners[2:] + corners)]
    if not any(turns):
        raise Fault(422, 'P7')
    if min(turns) < 0:
        raise Fault(422, 'P8')
    return [corner for corner, turn in zip(corners[1:] + corners[:1], turns) if turn]


def corners_of(geometry):
    kind, given, place = geometry.get('type'), geometry.get('coordinates'), '/geometry/coordinates'
    if kind not in ('Point', 'LineString', 'Polygon', 'MultiLineString', 'MultiPolygon'):
        raise Fault(400, 'J3', place='/geometry/type')
    if kind == 'Point':
        return [point_of(given, place)]
    if not isinstance(given, list) or not given:
        raise Fault(400, 'J2', place=place)
    if kind.startswith('Multi'):
        raise Fault(422, 'parts')
    lines = [given] if kind == 'LineString' else given
    points = [[point_of(point, f'{place}/{n}/{m}') for m, point in enumerate(line)] for n, line in enumerate(lines)]
    if len(points) > 1 or kind == 'LineString' and len(points[0]) != 2:
        raise Fault(422, 'parts')
    if kind == 'LineString' and points[0][0] == points[0][1]:
        raise Fault(422, 'P2')
    return points[0] if kind == 'LineString' else ring_of(points[0])


def id_in(document):
    for place, holder in ('', document), ('/properties', document.get('properties') or {}):
        got = holder.get('id')
        if got is not None:
            if not re.match(r'(0|[1-9]\d*)$', str(got)) or int(got) >= 2 ** 64:
                raise Fault(400, 'J2', place=place + '/id')
            return int(got)
    return None


class StandIn(http.server.BaseHTTPRequestHandler):
    protocol_version = 'HTTP/1.1'
    rows, base, kept, given = [], '', collections.OrderedDict(), 0

    def log_message(self, *words):
        if os.environ.get('LOG'):
            print(self.command, self.path, file=sys.stderr, flush=True)

    def send(self, status, media, body, fields=()):
        data = body.encode()
        self.send_response(status)
        if data:
            self.send_header('content-type', media)
        for name, value in fields:
            self.send_header(name, value)
        self.send_header('content-length', str(len(data)))
        self.end_headers()
        if self.command != 'HEAD':
            self.wfile.write(data)

    def problem(self, fault):
        told = {'type': 'about:blank', 'title': http.HTTPStatus(fault.status).phrase, 'status': fault.status, 'code': fault.code, **fault.more}
        self.send(fault.status, 'application/problem+json', json.dumps(told), fault.fields)

    def chunks(self):
        while size := int(self.rfile.readline(), 16):
            yield self.rfile.read(size)
            self.rfile.readline()
        self.rfile.readline()

    def body(self):
        if self.headers.get('transfer-encoding') == 'chunked':
            return b''.join(self.chunks())
        length = int(self.headers.get('content-length') or 0)
        if length <= LONGEST:
            return self.rfile.read(length)
        self.close_connection = True
        self.send(413, '', '')
        while length > 0 and (piece := self.rfile.read(min(length, LONGEST))):
            length -= len(piece)
        return None

    def do_any(self):
        body = self.body()
        if body is None:
            return
        try:
            if self.command not in ('GET', 'HEAD'):
                with LOCK:
                    return self.change(*self.path.partition('?')[::2], body)
            path, _, query = self.path.partition('?')
            if path.startswith('/slow/'):
                time.sleep(1)
                path = path[5:]
            self.page(path, query)
        except Fault as fault:
            self.problem(fault)

    do_GET = do_HEAD = do_POST = do_PUT = do_PATCH = do_DELETE = do_OPTIONS = do_TRACE = do_BREW = do_any

    def change(self, path, query, body):
        """What the request changes, refused in the order that `read_change` of crates/map_changes tells."""
        match = re.match(r'/collections/([^/]*)/items(?:/(0|[1-9]\d*))?$', path)
        layer, item = match.groups() if match and match[1] in CLASSES + ['features'] and int(match[2] or 0) < 2 ** 64 else (None, None)
        allowed = 'GET, HEAD'
        if layer and item is None:
            allowed += ', POST'
        elif layer == 'features':
            allowed += ', PUT, PATCH, DELETE'
        origin = self.headers.get('origin')
        if origin is not None and origin not in (self.base, 'http://' + self.headers.get('host', '')):
            raise Fault(403, 'origin')
        if layer is None and not self.fixed(path):
            raise Fault(404, 'U1')
        if self.command not in allowed.split(', '):
            raise Fault(405, 'method', fields=[('allow', allowed)])
        if query.strip('&'):
            raise Fault(400, 'U2')
        self.add(layer, body) if item is None else self.alter(int(item), body)

    def document(self, body):
        media = re.split('[; ]', self.headers.get('content-type', ''))[0].lower()
        if media not in DOCUMENTS + (('application/merge-patch+json',) if self.command == 'PATCH' else ()):
            raise Fault(415, 'media')
        try:
            document = json.loads(body.decode(), parse_float=Decimal, parse_int=Decimal)
        except (ValueError, RecursionError):
            raise Fault(400, 'J1', place='') from None
        if not isinstance(document, dict):
            raise Fault(400, 'J2', place='')
        if document.get('type') != 'Feature':
            raise Fault(400, 'J3', place='/type')
        member(document, 'properties', '', dict, wanted=False)
        return id_in(document), (document.get('properties') or {}).get('class'), corners_of(member(document, 'geometry', '', dict))

    def add(self, layer, body):
        number, kind, corners = self.document(body)
        if number is None:
            raise Fault(422, 'id')
        kind = kind or (None if layer == 'features' else layer)
        if kind is None or layer not in ('features', kind) or not re.match(r'[a-z0-9-]{1,32}$', kind):
            raise Fault(422, 'class')
        self.judge(kind)
        if any(row[0] == number for row in self.rows):
            raise Fault(409, 'exists')
        StandIn.rows = sorted(self.rows + [(number, kind, 'north', 1, corners)])
        self.send(201, '', '', [('location', f'{self.base}/collections/{layer}/items/{number}'), ('etag', '"1"')])

    def alter(self, number, body):
        tag = self.headers.get('if-match', '')
        if tag in ('', '*'):
            raise Fault(428, 'version')
        if not re.match(r'"(0|[1-9]\d*)"$', tag):
            raise Fault(412, 'stale')
        own, _, corners = self.document(body) if self.command != 'DELETE' else (number, None, None)
        if own not in (None, number):
            raise Fault(422, 'id')
        row = next((row for row in self.rows if row[0] == number), None)
        if row is None:
            raise Fault(404, 'absent')
        self.judge(row[1])
        if tag != f'"{row[3]}"':
            raise Fault(412, 'stale', current=row[3], fields=[('etag', f'"{row[3]}"')])
        others = [other for other in self.rows if other[0] != number]
        StandIn.rows = sorted(others + ([row[:3] + (row[3] + 1, corners)] if corners else []))
        self.send(204, '', '', [('etag', f'"{row[3] + 1}"')] if corners else [])

    @staticmethod
    def judge(kind):
        if kind in ('zone', 'sign'):
            raise Fault(403, 'denied', rule='zones-stay' if kind == 'zone' else None)

    def link(self, relation, media, path):
        return f'{{"rel":"{relation}","type":"{media}","href":{json.dumps(self.base + path)}}}'

    def collection(self, name):
        ends = ','.join(f'{degrees(0, n)},{degrees(1, n)}' for n in (-REACH, REACH))
        return (f'{{"id":"{name}","title":"{name}","itemType":"feature","extent":{{"spatial":{{"bbox":[[{ends}]]}}}},'
                '"crs":["http://www.opengis.net/def/crs/OGC/1.3/CRS84"],"links":['
                + self.link('self', 'application/json', f'/collections/{name}') + ','
                + self.link('items', 'application/geo+json', f'/collections/{name}/items') + ']}')

    def page(self, path, query):
        if match := re.match(r'/fail/(\d+)', path):
            raise Fault(int(match[1]), os.environ.get('CODE', 'X10'), 60)
        if match := re.match(r'/collections/([^/]*)/items$', path):
            if match[1] in CLASSES + ['features']:
                return self.items(match[1], query)
        pairs = [pair for pair in query.split('&') if pair]
        if path == '/explain':
            kind = dict(urllib.parse.parse_qsl(query)).get('class')
            rule = {'zone': 'zones-stay', 'sign': None}.get(kind, 'the-rest')
            return self.send(200, 'application/json', json.dumps({'decision': 'deny' if kind in ('zone', 'sign') else 'permit', 'rule': rule, 'edition': 1}))
        fixed = self.fixed(path)
        if pairs:
            raise Fault(400, 'U2')
        if fixed:
            return self.send(200, *fixed)
        match = re.match(r'/collections/([^/]*)/items/(0|[1-9]\d*)$', path)
        if not match or match[1] not in CLASSES + ['features']:
            raise Fault(404, 'U1')
        for row in self.rows:
            if row[0] == int(match[2]) and match[1] in (row[1], 'features'):
                return self.item(match[1], row, path)
        raise Fault(404, 'absent')

    def item(self, name, row, path):
        tag = f'"{row[3]}"'
        if tag in self.headers.get('if-none-match', '') or self.headers.get('if-none-match') == '*':
            return self.send(304, '', '', [('etag', tag)])
        links = self.link('self', 'application/geo+json', path) + ',' + self.link('collection', 'application/json', f'/collections/{name}')
        self.send(200, 'application/geo+json', feature_text(row)[:-1] + f',"links":[{links}]}}', [('etag', tag)])

    def fixed(self, path):
        api = 'application/vnd.oai.openapi+json;version=3.0'
        if path == '/map':
            with open(os.path.join(HERE, '../../crates/map_page/src/page.rt'), encoding='utf-8') as file:
                return 'text/html; charset=utf-8', re.search(r'r##"(.*)"##;', file.read(), re.S)[1]
        if path == '/':
            links = [self.link('self', 'application/json', '/'), self.link('service-desc', api, '/api'),
                     self.link('conformance', 'application/json', '/conformance'), self.link('data', 'application/json', '/collections'),
                     self.link('alternate', 'text/html; charset=utf-8', '/map')]
            return 'application/json', f'{{"title":"landmap","links":[{",".join(links)}]}}'
        if path == '/conformance':
            parts = ','.join(f'"http://www.opengis.net/spec/ogcapi-features-1/1.0/conf/{part}"' for part in ('core', 'geojson'))
            return 'application/json', f'{{"conformsTo":[{parts}]}}'
        if path == '/collections':
            listed = ','.join(map(self.collection, ['features'] + CLASSES))
            return 'application/json', f'{{"links":[{self.link("self", "application/json", "/collections")}],"collections":[{listed}]}}'
        if path == '/api':
            parts = {}
            for name in ('Api', 'CallPaths'):
                with open(os.path.join(HERE, f'../../crates/map_pages/specs/{name}.antt'), encoding='utf-8') as file:
                    parts.update(re.findall(r'^(\w+) =\s+(.*)$', file.read(), re.M))
            return api, text_of('api_head', parts) + json.dumps(self.base) + text_of('paths_key', parts) + text_of('paths_text', parts)
        name = path.removeprefix('/collections/')
        if name != path and name in CLASSES + ['features']:
            return 'application/json', self.collection(name)
        return None

    def items(self, name, query):
        asked = {}
        for pair in filter(None, query.split('&')):
            key, _, value = (urllib.parse.unquote(part) for part in pair.partition('='))
            if key not in ('bbox', 'limit', 'datetime', 'kept', 'after'):
                raise Fault(400, 'U2')
            if key in asked:
                raise Fault(400, 'U3')
            asked[key] = box_of(value) if key == 'bbox' else natural(value) if key != 'datetime' else value
            if key == 'limit' and asked[key] == 0 or key == 'datetime' and not is_datetime(value):
                raise Fault(400, 'U4')
        limit = min(asked.get('limit', 1000), 10_000)
        if 'kept' in asked and ('bbox' in asked or 'datetime' in asked) or 'after' in asked and 'kept' not in asked:
            raise Fault(400, 'U5')
        if 'kept' in asked:
            layer, rows = self.kept.get(asked['kept'], (None, []))
            if layer != name:
                raise Fault(410, 'gone')
            number = asked['kept']
        else:
            box = asked.get('bbox', [-REACH, -REACH, REACH, REACH])
            rows = [row for row in self.rows if name in ('features', row[1]) and box and meets(plain(row[4]), box)]
            number = None
            if len(rows) > limit:
                StandIn.given += 1
                number = StandIn.given
                self.kept[number] = name, rows
                while len(self.kept) > KEPT:
                    self.kept.popitem(last=False)
        behind = [row for row in rows if row[0] > asked.get('after', -1)]
        page = behind[:limit]
        links = self.link('self', 'application/geo+json', self.path)
        if number is not None and len(behind) > len(page):
            links += ',' + self.link('next', 'application/geo+json', f'/collections/{name}/items?kept={number}&after={page[-1][0]}&limit={limit}')
        self.send(200, 'application/geo+json', f'{{"type":"FeatureCollection","numberMatched":{len(rows)},"numberReturned":{len(page)},'
                  f'"links":[{links}],"features":[{",".join(map(feature_text, page))}]}}')


def main():
    port = int(sys.argv[1])
    StandIn.rows = made_up(int(sys.argv[2]) if len(sys.argv) > 2 else 600)
    StandIn.base = sys.argv[3] if len(sys.argv) > 3 else f'http://127.0.0.1:{port}'
    http.server.ThreadingHTTPServer(('127.0.0.1', port), StandIn).serve_forever()


if __name__ == '__main__':
    main()
