#!/usr/bin/env python3
"""Tries a server with changes by HTTP: changes.py BASE [--class NAME] [--denied NAME] [--as NAME:SECRET] [--seed N] [--count N]

BASE is the server's address. Whoever asks (nobody by name, or with --as the subject of this secret) has to be permitted to read, add,
reshape and delete points, segments and polygons of the class (`mast`), which has to be a collection, and to be denied to add one of the
class --denied (`zone`). Features are added with ids from a thousand million on, near the middle of the grid, and deleted at the end.
Prints a line for each test, and `N passed, M failed` as the last one. --count says how many ill-formed requests are made by chance.
"""
import argparse
import base64
import json
import random
import re
import sys
import threading
import urllib.parse
from decimal import Decimal

from conformance import GEOJSON, PROBLEM, Client, Wrong, relations, want, want_status

MERGE = 'application/merge-patch+json'
# What a change may be answered, if the request is one of HTTP.
STATUSES = {201, 204, 400, 403, 404, 405, 409, 412, 413, 415, 422, 428, 503}
TRIES = 200


class Fields(dict):
    """Fields of a request, of which those that are None are left out."""

    def __init__(self, *parts):
        super().__init__({name: value for part in parts for name, value in part.items() if value is not None})


class Tests:
    """Each method without an underscore is a test; its doc string says what has to hold."""

    def __init__(self, told):
        self.base, self.kind, self.denied, self.count = told.base.rstrip('/'), told.kind, told.denied, told.count
        self.dice = random.Random(told.seed)
        self.own = {'authorization': 'Basic ' + base64.b64encode(told.asker.encode()).decode()} if told.asker else {}
        self.client = Client(self.base)
        extent = json.loads(self._ask('/collections/features').body, parse_float=str, parse_int=str)['extent']['spatial']['bbox'][0]
        west, south, east, north = map(Decimal, extent)
        self.step = Decimal(1).scaleb(west.as_tuple().exponent)
        self.middle = (west + east) / 2, (south + north) / 2
        self.east = east
        self.next = 1_000_000_000 + self.dice.randrange(500_000_000)
        self.made = set()

    def _ask(self, path, method='GET', fields=None, body=None, client=None):
        return (client or self.client).ask(path, method, Fields(self.own, fields or {}), body)

    def _number(self):
        self.next += 1
        self.made.add(self.next)
        return self.next

    def _at(self, right, up):
        """The point so many steps from the middle of the grid, as JSON."""
        return f'[{self.middle[0] + right * self.step},{self.middle[1] + up * self.step}]'

    def _point(self, right=0, up=0):
        return f'{{"type":"Point","coordinates":{self._at(right, up)}}}'

    def _line(self, *places):
        return f'{{"type":"LineString","coordinates":[{",".join(self._at(*place) for place in places)}]}}'

    def _region(self, *rings):
        texts = (f'[{",".join(self._at(*place) for place in ring)}]' for ring in rings)
        return f'{{"type":"Polygon","coordinates":[{",".join(texts)}]}}'

    @staticmethod
    def _feature(geometry, number=None, properties=None):
        own = f'"id":{number},' if number is not None else ''
        return f'{{"type":"Feature",{own}"geometry":{geometry},"properties":{json.dumps(properties or {})}}}'.encode()

    def _post(self, body, layer='features', media=GEOJSON, query='', client=None, **fields):
        return self._ask(f'/collections/{layer}/items{query}', 'POST', {'content-type': media, **fields}, body, client)

    def _alter(self, method, number, body=None, tag=None, media=GEOJSON, client=None, **fields):
        return self._ask(f'/collections/features/items/{number}', method, {'content-type': media, 'if-match': tag, **fields}, body, client)

    def _added(self, geometry=None, kind=None):
        """The id and the tag of a new feature."""
        number = self._number()
        got = self._post(self._feature(geometry or self._point(), number, {'class': kind or self.kind}))
        want_status(got, 201, 'a new feature')
        return number, got.fields['etag']

    def _read(self, number, client=None):
        got = self._ask(f'/collections/features/items/{number}', client=client)
        want_status(got, 200, f'feature {number}')
        return got

    def _refused(self, got, status, code, told):
        """A problem (RFC 9457) of this status, and of a code that has this form."""
        want_status(got, status, told)
        said = got.json()
        want(got.media() == PROBLEM and said['status'] == status and re.fullmatch(code, said['code']), f'{told}: {said}')
        return said

    # ---- tests

    def adds(self):
        """POST: 201, the feature's address, its tag, no body; then it is there as it was sent"""
        ring = ((0, 0), (9, 0), (9, 9), (0, 9), (0, 0))
        for geometry in (self._point(3, 4), self._line((0, 0), (5, 7)), self._region(ring), self._region(ring[::-1])):
            number = self._number()
            got = self._post(self._feature(geometry, number, {'class': self.kind, 'office': 'nobody', 'version': 77, 'colour': 'red'}))
            want_status(got, 201, geometry)
            want(not got.body and re.fullmatch(r'"\d+"', got.fields['etag']), f"{got.body} {got.fields.get('etag')}")
            there = self.client.follow(got.fields['location']) if not self.own else self._read(number)
            want(got.fields['location'].endswith(f'/collections/features/items/{number}'), got.fields['location'])
            read = there.json()
            want(there.fields['etag'] == got.fields['etag'] == f'"{read["properties"]["version"]}"', 'another tag')
            wanted = json.loads(geometry, parse_float=Decimal)
            same = {str(place) for place in read['geometry']['coordinates'][0]} == {str(place) for place in wanted['coordinates'][0]} \
                if wanted['type'] == 'Polygon' else read['geometry'] == wanted
            want(same, f"{read['geometry']}, not {geometry}")
            want(read['properties']['class'] == self.kind and read['properties']['office'] != 'nobody', read['properties'])

    def adds_to_a_class(self):
        """at a class's collection the class may be left out; another one is none: 422"""
        for properties in ({}, {'class': self.kind}):
            number = self._number()
            got = self._post(self._feature(self._point(), number, properties), self.kind)
            want_status(got, 201, properties)
            want(got.fields['location'].endswith(f'/collections/{self.kind}/items/{number}'), got.fields['location'])
            want(self._ask(f'/collections/{self.kind}/items/{number}').status == 200, 'not in its collection')
        self._refused(self._post(self._feature(self._point(), self._number(), {'class': 'another'}), self.kind), 422, 'class', 'another class')

    def needs_an_id_and_a_class(self):
        """the id is the member or the property, a number or its text; without one, or without a class: 422"""
        number = self._number()
        want_status(self._post(self._feature(self._point(), None, {'id': number, 'class': self.kind})), 201, 'an id among the properties')
        want_status(self._post(self._feature(self._point(), f'"{self._number()}"', {'class': self.kind})), 201, 'an id as a text')
        self._refused(self._post(self._feature(self._point(), None, {'class': self.kind})), 422, 'id', 'no id')
        self._refused(self._post(self._feature(self._point(), self._number())), 422, 'class', 'no class')
        for wrong in ('-1', '1.5', '18446744073709551616', 'true', '"x"'):
            got = self._post(self._feature(self._point(), wrong, {'class': self.kind}))
            want(got.status in (400, 422), f'id {wrong}: {got.status}')

    def adds_once(self):
        """an id in use: 409, and nothing is changed"""
        number, tag = self._added()
        self._refused(self._post(self._feature(self._point(9, 9), number, {'class': self.kind})), 409, 'exists', 'an id in use')
        want(self._read(number).fields['etag'] == tag, 'it was changed')

    def reshapes(self):
        """PUT and PATCH with the tag that was seen: 204, a new tag, no body; class and office stay"""
        number, tag = self._added()
        before = self._read(number).json()['properties']
        for turn, (method, media) in enumerate((('PUT', GEOJSON), ('PATCH', GEOJSON), ('PATCH', MERGE), ('PUT', 'application/json'))):
            shape = self._line((turn, 0), (turn + 5, 7)) if turn % 2 else self._point(turn, turn)
            got = self._alter(method, number, self._feature(shape, number if turn % 2 else None, {'class': 'another', 'office': 'nobody'}), tag, media)
            want_status(got, 204, f'{method} {media}')
            want(not got.body and got.fields['etag'] != tag, f'{method}: tag {got.fields["etag"]}')
            tag, read = got.fields['etag'], self._read(number)
            want(read.fields['etag'] == tag and read.json()['geometry'] == json.loads(shape, parse_float=Decimal), method)
            after = read.json()['properties']
            want({**after, 'version': 0} == {**before, 'version': 0}, f'{after}, not {before}')
            known = self._ask(f'/collections/features/items/{number}', fields={'if-none-match': tag})
            want_status(known, 304, 'If-None-Match with the new tag')
        self._refused(self._alter('PUT', number, self._feature(self._point(), number + 1), tag), 422, 'id', 'the id of another')

    def deletes(self):
        """DELETE with the tag that was seen: 204, no body, and it is gone: 404"""
        number, tag = self._added()
        got = self._alter('DELETE', number, tag=tag)
        want_status(got, 204, 'DELETE')
        want(not got.body, 'a body')
        want_status(self._ask(f'/collections/features/items/{number}'), 404, 'GET')
        self._refused(self._alter('DELETE', number, tag=tag), 404, 'absent', 'DELETE once more')
        self._refused(self._alter('PUT', number, self._feature(self._point()), tag), 404, 'absent', 'PUT')
        want_status(self._post(self._feature(self._point(), number, {'class': self.kind})), 201, 'an id that is free again')

    def wants_the_version(self):
        """without if-match, or with *: 428; another version: 412, which tells the present one; no tag at all: 412"""
        number, old = self._added()
        tag = self._alter('PUT', number, self._feature(self._point(1, 1)), old).fields['etag']
        for method in ('PUT', 'PATCH', 'DELETE'):
            body = None if method == 'DELETE' else self._feature(self._point(2, 2))
            for field in (None, '*'):
                self._refused(self._alter(method, number, body, field), 428, 'version', f'{method}, if-match {field}')
            got = self._alter(method, number, body, old)
            said = self._refused(got, 412, 'stale', f'{method}, the version before')
            want(f'"{said["current"]}"' == tag == got.fields['etag'], f'current {said}, {got.fields.get("etag")}')
            for field in (tag.strip('"'), f'W/{tag}', '"x"', '"', f'{tag}, {old}', '"18446744073709551616"'):
                self._refused(self._alter(method, number, body, field), 412, 'stale', f'{method}, if-match {field}')
        want(self._read(number).fields['etag'] == tag, 'it was changed')

    def knows_its_methods(self):
        """what a page has not: 405; what is no page: 404"""
        number, tag = self._added()
        body = self._feature(self._point(), number, {'class': self.kind})
        for method, path in (('PUT', '/collections/features/items'), ('DELETE', '/collections/features/items'), ('PATCH', f'/collections/{self.kind}/items'),
                             ('POST', f'/collections/features/items/{number}'), ('POST', '/'), ('POST', '/map'), ('DELETE', '/collections/features'),
                             ('PUT', f'/collections/{self.kind}/items/{number}'), ('PATCH', f'/collections/{self.kind}/items/{number}'),
                             ('DELETE', f'/collections/{self.kind}/items/{number}'), ('OPTIONS', '/collections/features/items'), ('BREW', '/')):
            got = self._ask(path, method, {'content-type': GEOJSON, 'if-match': tag}, body)
            self._refused(got, 405, 'method', f'{method} {path}')
            want('GET' in got.fields.get('allow', ''), f'{method} {path}: no allow')
        for method, path in (('POST', '/collections/nowhere/items'), ('PUT', '/collections/features/items/x'), ('DELETE', '/collections/features/items/-7'),
                             ('POST', '/collections/features/items/'), ('PUT', f'/collections/features/items/{2 ** 64}')):
            self._refused(self._ask(path, method, {'content-type': GEOJSON, 'if-match': tag}, body), 404, 'U1|absent', f'{method} {path}')
        want(self._read(number).fields['etag'] == tag, 'it was changed')

    def has_no_parameters(self):
        """a query: 400"""
        number, tag = self._added()
        self._refused(self._post(self._feature(self._point(), self._number(), {'class': self.kind}), query='?limit=1'), 400, 'U2', 'POST')
        got = self._ask(f'/collections/features/items/{number}?bbox=1,2,3,4', 'DELETE', {'if-match': tag})
        self._refused(got, 400, 'U2', 'DELETE')

    def reads_geojson_alone(self):
        """a body of another type: 415; the type in any letters, and with parameters, is the same"""
        body = self._feature(self._point(), self._number(), {'class': self.kind})
        for media in (None, 'text/plain', 'application/xml', 'application/geo', 'application/geo+json2', MERGE, 'multipart/form-data; boundary=x', 'x'):
            self._refused(self._post(body, media=media), 415, 'media', f'POST, {media}')
        for media in (GEOJSON, 'application/json', 'Application/GEO+JSON', GEOJSON + '; charset=utf-8', GEOJSON + ';charset=utf-8', GEOJSON + ' ; q=1'):
            want_status(self._post(self._feature(self._point(), self._number(), {'class': self.kind}), media=media), 201, media)
        number, tag = self._added()
        for method, media in (('PUT', MERGE), ('PUT', None), ('PATCH', 'application/json-patch+json')):
            self._refused(self._alter(method, number, self._feature(self._point()), tag, media), 415, 'media', f'{method}, {media}')

    def tells_what_is_no_feature(self):
        """no JSON, no Feature, no coordinate of the grid: 400 with the place"""
        point = self._point()
        far = f'{{"type":"Point","coordinates":[{self.east + self.step},{self.middle[1]}]}}'
        for body, code in ((b'', 'J1'), (b'{', 'J1'), (b'no', 'J1'), (b'\xff\xfe', 'J1'), (b'{"type":"Feature",}', 'J1'), (b'null', 'J[23]'), (b'[]', 'J[23]'), (b'7', 'J[23]'),
                           (b'{}', 'J[23]'), (b'{"type":"Feature"}', 'J2'), (b'{"type":"FeatureCollection","features":[]}', 'J3'),
                           (self._feature('{"type":"Circle","coordinates":[1,2]}', 1), 'J3'), (self._feature('{"type":"Point"}', 1), 'J2'),
                           (self._feature('{"type":"Point","coordinates":[]}', 1), 'J2'), (self._feature('{"type":"Point","coordinates":["a","b"]}', 1), 'J2|M1'),
                           (self._feature('{"type":"Point","coordinates":[[7,46]]}', 1), 'J2|M1'), (self._feature(far, 1), 'M3'),
                           (self._feature('{"type":"Point","coordinates":[1e400,0]}', 1), 'M[13]'), (b'[' * 100_000, 'J1'),
                           (self._feature(point, 1)[:-1], 'J1'), (self._feature(point, 1) + b'x', 'J1')):
            said = self._refused(self._post(body), 400, code, body[:60])
            want(isinstance(said.get('place', 0), str) and re.fullmatch(r'(/[^/]*)*', said['place']), f'{body[:60]}: place {said.get("place")}')
        half = self._feature(f'{{"type":"Point","coordinates":[{self.middle[0] + self.step / 2},{self.middle[1]}]}}', self._number(), {'class': self.kind})
        got = self._post(half)
        if got.status != 201:  # else the grid takes the nearest step
            want(self._refused(got, 400, 'M2', 'between two steps')['place'].startswith('/geometry/coordinates'), got.body)

    def tells_what_is_no_shape(self):
        """several parts, or points that make no shape: 422"""
        ring, hole = ((0, 0), (9, 0), (9, 9), (0, 9), (0, 0)), ((2, 2), (2, 4), (4, 4), (4, 2), (2, 2))
        lines = f'{{"type":"MultiLineString","coordinates":[[{self._at(0, 0)},{self._at(1, 1)}],[{self._at(3, 3)},{self._at(4, 4)}]]}}'
        number, tag = self._added()
        for geometry, code in ((lines, 'parts'), (self._region(ring, hole), 'parts'), (self._line((0, 0), (1, 1), (2, 0)), 'parts'),
                               (self._line((3, 3), (3, 3)), 'P2'), (self._region(((0, 0), (1, 1), (2, 2), (0, 0))), 'P7'),
                               (self._region(((0, 0), (9, 0), (1, 1), (0, 9), (0, 0))), 'P8'), (self._region(((0, 0), (9, 9), (9, 0), (0, 9), (0, 0))), 'P8')):
            self._refused(self._post(self._feature(geometry, self._number(), {'class': self.kind})), 422, code, geometry)
            self._refused(self._alter('PUT', number, self._feature(geometry), tag), 422, code, geometry)

    def is_denied(self):
        """what the policy denies: 403, with the rule's name, or null"""
        said = self._refused(self._post(self._feature(self._point(), self._number(), {'class': self.denied})), 403, 'denied', self.denied)
        want('rule' in said and (said['rule'] is None or re.fullmatch('[a-z0-9-]{1,32}', said['rule'])), said)

    def looks_at_the_origin(self):
        """a change from another host's page: 403; from the server's own, or of no browser: as ever; reading is not looked at"""
        number, tag = self._added()
        parts = urllib.parse.urlsplit(self.base)
        own = f'{parts.scheme}://{parts.netloc}'
        for origin in ('https://evil.example', 'null', own + '.evil.example', 'http://127.0.0.1:1', 'http://'):
            body = self._feature(self._point(), self._number(), {'class': self.kind})
            self._refused(self._post(body, origin=origin), 403, 'origin', f'POST from {origin}')
            self._refused(self._alter('DELETE', number, tag=tag, origin=origin), 403, 'origin', f'DELETE from {origin}')
            want_status(self._ask('/collections/features/items?limit=1', fields={'origin': origin}), 200, f'GET from {origin}')
        got = self._alter('PUT', number, self._feature(self._point(5, 5)), tag, origin=own)
        want_status(got, 204, f'PUT from {own}')
        want_status(self._alter('DELETE', number, tag=got.fields['etag'], origin=own), 204, f'DELETE from {own}')

    def takes_long_bodies(self):
        """100,000 bytes are read, in one piece or in chunks; 200,000 are too many: 413, or the connection's end"""
        for chunks in (False, True):
            body = self._feature(self._point(), self._number(), {'class': self.kind, 'note': 'x' * 100_000})
            want_status(self._post(iter([body[:7], body[7:]]) if chunks else body), 201, f'chunks: {chunks}')
        body = self._feature(self._point(), self._number(), {'class': self.kind, 'note': 'x' * 200_000})
        head = f'POST {self.client.front}/collections/features/items HTTP/1.1\r\nHost: {self.client.host}\r\nContent-Type: {GEOJSON}\r\nContent-Length: {len(body)}\r\n'
        head += ''.join(f'{name}: {value}\r\n' for name, value in self.own.items())
        peer, got = self.client.kind(self.client.host, timeout=60), b''
        peer.connect()
        try:
            peer.sock.sendall(head.encode() + b'\r\n' + body)
        except OSError:
            pass
        try:
            got = peer.sock.recv(4096)
        except OSError:
            pass
        peer.close()
        want(not got or got.startswith(b'HTTP/1.1 413 '), got[:100])
        want_status(self._ask(f'/collections/features/items/{self.next}'), 404, 'the feature of a body that is too long')

    def keeps_a_moment(self):
        """the further pages of a list are those of its first moment, whatever was changed meanwhile"""
        made = [self._added(self._point(n, n)) for n in range(3)]
        first = self._ask('/collections/features/items?limit=1')
        later = relations(first.json())['next']['href'].replace('limit=1', 'limit=10000')
        number, tag = made[1]
        want_status(self._alter('DELETE', number, tag=tag), 204, 'DELETE')
        parts = urllib.parse.urlsplit(later)
        page = self._ask(parts.path.removeprefix(self.client.public_front()) + '?' + parts.query)
        want_status(page, 200, later)
        if page.json()['numberMatched'] <= 10_000:
            want(number in [feature['id'] for feature in page.json()['features']], 'it is gone from a list that was asked for before')
        want_status(self._ask(f'/collections/features/items/{number}'), 404, 'the feature itself')

    def lets_one_of_two_win(self):
        """two clients change the version that both have seen, at once: one gets 204, the other 412"""
        number, tag = self._added()
        clients = [Client(self.base), Client(self.base)]
        for turn in range(50):
            got = [None, None]

            def change(n, turn=turn, tag=tag, got=got):
                got[n] = self._insist('PUT', number, self._feature(self._point(turn, n)), tag, clients[n])

            self._together(change, 2)
            statuses = sorted(one.status for one in got)
            want(statuses == [204, 412], f'turn {turn}: {statuses}')
            winner = got[0] if got[0].status == 204 else got[1]
            tag = winner.fields['etag']
            read = self._read(number)
            want(read.fields['etag'] == tag and read.json()['geometry']['coordinates'][1] == self.middle[1] + got.index(winner) * self.step, 'not the winner\'s shape')

    def loses_no_change(self):
        """eight clients each move a point twenty steps, by reading it and naming what they have read: it has moved 160 steps"""
        number, _ = self._added()
        wrong = []

        def move(_):
            client, done = Client(self.base), 0
            for _ in range(2000):
                read = self._read(number, client)
                right = int((read.json()['geometry']['coordinates'][0] - self.middle[0]) / self.step)
                got = self._insist('PUT', number, self._feature(self._point(right + 1, 0)), read.fields['etag'], client)
                done += got.status == 204
                if done == 20:
                    return
                if got.status not in (204, 412):
                    break
            wrong.append(f'{done} of 20, then {got.status}')

        self._together(move, 8)
        want(not wrong, wrong)
        place = self._read(number).json()['geometry']['coordinates'][0]
        want(place == self.middle[0] + 160 * self.step, f'{(place - self.middle[0]) / self.step} steps')

    def _insist(self, method, number, body, tag, client):
        """Asks again while the server is held."""
        for _ in range(TRIES):
            got = self._alter(method, number, body, tag, client=client)
            if got.status != 503:
                break
        return got

    @staticmethod
    def _together(work, count):
        threads = [threading.Thread(target=work, args=(n,)) for n in range(count)]
        for thread in threads:
            thread.start()
        for thread in threads:
            thread.join()

    # ---- by chance

    def _bent(self, body):
        """A body with something wrong in it, mostly."""
        body = bytearray(body)
        for _ in range(self.dice.choice((1, 1, 2, 8))):
            at = self.dice.randrange(len(body) + 1)
            kind = self.dice.randrange(6)
            if kind == 0 and at < len(body):
                body[at] = self.dice.randrange(256)
            elif kind == 1:
                del body[at:at + self.dice.choice((1, 2, 5, 40))]
            elif kind == 2:
                body[at:at] = self.dice.choice((b'{', b'}', b'[', b']', b'"', b',', b':', b'null', b'-', b'1e999', b'\\u0000', b'\xc3', b'0' * 2000))
            elif kind == 3:
                body[at:at] = body[:at]
            elif kind == 4:
                words = re.findall(rb'"[a-z]+"|[\d.]+', bytes(body))
                if words:
                    one = self.dice.choice(words)
                    body = bytearray(bytes(body).replace(one, self.dice.choice((b'null', b'{}', b'[]', b'-1', b'"id"', b'true', one[:-1], one + one)), 1))
            else:
                body[at:] = self.dice.randbytes(self.dice.randrange(60))
        return bytes(body)

    def is_not_upset(self):
        """ill-formed requests by chance: each has an answer that says what is wrong, none is 500, and the server lives"""
        number, _ = self._added()
        before = len(self._all())
        told = {}
        for _ in range(self.count):
            method = self.dice.choice(('POST', 'POST', 'PUT', 'PATCH', 'DELETE', 'POST', 'TRACE'))
            layer = self.dice.choice(('nowhere', 'Features', '%2e%2e', '')) if self.dice.random() < 0.1 else self.dice.choice(('features', 'features', self.kind))
            path = f'/collections/{layer}/items'
            if method != 'POST' or self.dice.random() < 0.1:
                path += '/' + (self.dice.choice(('0', 'x', str(2 ** 64), '-1', '', '%37')) if self.dice.random() < 0.2 else str(number))
            if self.dice.random() < 0.1:
                path += self.dice.choice(('?', '?a=1', '?limit=1&limit=1', '?%', '?' + 'b' * 300, '/'))
            geometry = self.dice.choice((self._point(1, 1), self._line((0, 0), (1, 1)), self._region(((0, 0), (9, 0), (9, 9), (0, 0)))))
            body = self._feature(geometry, self.next + 1 if method == 'POST' else number, {'class': self.kind})
            tag = self._read(number).fields['etag']
            odd = self.dice.choice(('content-type', 'if-match', 'origin', '', '', '', ''))
            fields = {'content-type': self.dice.choice((MERGE, 'x/y', '', '; ;', GEOJSON + ';' * 200)) if odd == 'content-type' else GEOJSON,
                      'if-match': self.dice.choice((None, '*', '""', '"1"', '"' + '9' * 300 + '"', 'W/"1"', '"1', '\xff')) if odd == 'if-match' else tag,
                      'origin': self.dice.choice(('null', 'x', '')) if odd == 'origin' else None}
            got = self._ask(path, method, fields, self._bent(body) if self.dice.random() < 0.8 else body)
            told[got.status] = told.get(got.status, 0) + 1
            shown = f'{method} {path} {fields} {body}'
            want(got.status in STATUSES, f'{got.status}: {shown}')
            if got.status >= 400 and got.body:
                said = json.loads(got.body)
                want(got.media() == PROBLEM and said['status'] == got.status and isinstance(said['code'], str), f'{said}: {shown}')
            if got.status == 201:
                self.made.add(int(got.fields['location'].rsplit('/', 1)[1]))
                self._clean(int(got.fields['location'].rsplit('/', 1)[1]))
            elif got.status == 204 and method == 'DELETE':
                number, _ = self._added()
        want(len(self._all()) == before, f'{len(self._all())} features, not {before}')
        print('        statuses by chance: ' + ', '.join(f'{status}: {count}' for status, count in sorted(told.items())), flush=True)

    def _all(self):
        answer = self._ask('/collections/features/items?limit=10000')
        want_status(answer, 200, 'the whole map')
        return answer.json()['features'][:10_000]

    def _clean(self, number):
        got = self._ask(f'/collections/features/items/{number}')
        if got.status == 200:
            self._insist('DELETE', number, None, got.fields['etag'], None)
        self.made.discard(number)

    def run(self):
        return self._run_all([name for name in vars(Tests) if not name.startswith('_') and name != 'run'])

    def _run_all(self, names):
        passed = failed = 0
        for name in names:
            test = getattr(type(self), name)
            try:
                test(self)
                passed += 1
                print(f'passed  {name.replace("_", "-")}: {test.__doc__}', flush=True)
            except (Wrong, KeyError, ValueError, TypeError, IndexError, AttributeError) as wrong:
                failed += 1
                print(f'FAILED  {name.replace("_", "-")}: {test.__doc__}: {type(wrong).__name__} {wrong}', flush=True)
        for number in sorted(self.made):
            self._clean(number)
        print(f'{passed} passed, {failed} failed')
        return failed


def main():
    parser = argparse.ArgumentParser(description=__doc__.splitlines()[0])
    parser.add_argument('base')
    parser.add_argument('--class', dest='kind', default='mast')
    parser.add_argument('--denied', default='zone')
    parser.add_argument('--as', dest='asker')
    parser.add_argument('--seed', type=int, default=5)
    parser.add_argument('--count', type=int, default=1000)
    sys.exit(1 if Tests(parser.parse_args()).run() else 0)


if __name__ == '__main__':
    main()
