#!/usr/bin/env python3
"""Tries a server by the abstract tests of OGC API - Features, Part 1 (core and geojson), as far as they are known here: conformance.py BASE

BASE is the server's address, as http://127.0.0.1:8080, or https://maps.agency.example/land behind a proxy. Prints a line for each test,
by the standard's name for it, and `N passed, M failed` as the last one. Behind them come tests of landmap's own. It only reads. The map
should have from ten to some thousand features, and nobody should change it meanwhile.
"""
import http.client
import json
import random
import re
import sys
import urllib.parse
from decimal import Decimal

from shapes import corners, meets

GEOJSON, JSON = 'application/geo+json', 'application/json'
OPENAPI = 'application/vnd.oai.openapi+json;version=3.0'
PROBLEM = 'application/problem+json'
CORE = 'http://www.opengis.net/spec/ogcapi-features-1/1.0/conf/core'


class Answer:
    def __init__(self, status, fields, body, version):
        self.status, self.fields, self.body, self.version = status, fields, body, version

    def json(self):
        return json.loads(self.body, parse_float=Decimal)

    def media(self):
        return self.fields.get('content-type', '')


class Client:
    """Asks on one connection, which is begun again where the server has closed it."""

    def __init__(self, base):
        self.base = base.rstrip('/')
        parts = urllib.parse.urlsplit(self.base)
        self.kind = http.client.HTTPSConnection if parts.scheme == 'https' else http.client.HTTPConnection
        self.host, self.front, self.peer = parts.netloc, parts.path, None

    def ask(self, path, method='GET', fields=None, body=None):
        for again in (True, False):
            self.peer = self.peer or self.kind(self.host, timeout=60)
            try:
                self.peer.request(method, self.front + path, body=body, headers=fields or {})
                got = self.peer.getresponse()
                return Answer(got.status, {name.lower(): value for name, value in got.getheaders()}, got.read(), got.version)
            except (http.client.HTTPException, OSError):
                self.peer.close()
                self.peer = None
                if not again:
                    raise

    def behind_head(self, path):
        """All bytes behind the fields of an answer to HEAD: none, if it is right."""
        peer, got = self.kind(self.host, timeout=60), b''
        peer.request('HEAD', self.front + path, headers={'connection': 'close'})
        while piece := peer.sock.recv(1 << 16):
            got += piece
        peer.close()
        return got.split(b'\r\n\r\n', 1)[1]

    def follow(self, link):
        """What is at a link, by the address that BASE says; the link itself has to be absolute."""
        parts = urllib.parse.urlsplit(link)
        want(parts.scheme and parts.netloc, f'{link} is not absolute')
        path = parts.path
        for front in {self.front, self.public_front()}:
            path = path.removeprefix(front) if front else path
        return self.ask(path + (f'?{parts.query}' if parts.query else ''))

    def public_front(self):
        """The path that the server's links begin with, which is that of its landing page."""
        if not hasattr(self, 'public'):
            own = [link['href'] for link in self.ask('/').json()['links'] if link['rel'] == 'self']
            self.public = urllib.parse.urlsplit(own[0]).path.rstrip('/')
        return self.public


class Wrong(Exception):
    pass


def want(right, told=''):
    if not right:
        raise Wrong(told)


def want_status(answer, status, told):
    want(answer.status == status, f'{told}: status {answer.status}, not {status}')


def relations(page):
    return {link['rel']: link for link in page['links']}


def digits(number):
    return max(0, -number.as_tuple().exponent) if isinstance(number, Decimal) else 0


class Tests:
    """Each method is a test; its doc string says what of the standard's it is."""

    def __init__(self, base):
        self.client = Client(base)
        self.ask = self.client.ask
        self.dice = random.Random(17)

    def begin(self):
        """What several tests look at."""
        self.names = [one['id'] for one in self.ask('/collections').json()['collections']]
        self.all = self.pages('/collections/features/items?limit=10000')
        want(len(self.all) >= 10, f'the map has {len(self.all)} features: these tests want ten at least')
        self.step = max(digits(number) for feature in self.all for corner in corners(feature['geometry']) for number in corner)

    def pages(self, path, most=100_000):
        """All features from a page on, by its links to the next ones."""
        answer, features = self.ask(path), []
        want_status(answer, 200, path)
        while True:
            page = answer.json()
            features += page['features']
            following = relations(page).get('next')
            if not following or len(features) > most:
                return features
            answer = self.client.follow(following['href'])
            want_status(answer, 200, following['href'])

    def ids(self, query, name='features'):
        return [feature['id'] for feature in self.pages(f'/collections/{name}/items?limit=10000&{query}')]

    # ---- core

    def http(self):
        """HTTP/1.1; HEAD as GET, without a body"""
        for path in ('/', '/conformance', '/collections', '/collections/features/items?limit=1', '/nowhere'):
            got, head = self.ask(path), self.ask(path, 'HEAD')
            want(got.version == 11, 'not HTTP/1.1')
            want(head.status == got.status and head.media() == got.media(), f'HEAD {path} differs')
            want(self.client.behind_head(path) == b'', f'HEAD {path} has a body')
            want(int(head.fields.get('content-length', len(got.body))) == len(got.body) or 'kept=' in got.body.decode(), f'HEAD {path}: another length')

    def root_op(self):
        """GET / is 200"""
        want_status(self.ask('/'), 200, '/')

    def root_success(self):
        """self, service-desc, conformance, data, all absolute; what they lead to is there, and of their type"""
        links = relations(self.ask('/').json())
        for relation in ('self', 'service-desc', 'conformance', 'data'):
            want(relation in links, f'no link {relation}')
        for link in links.values():
            got = self.client.follow(link['href'])
            want(got.status == 200 and got.media() == link['type'], f"{link['href']}: {got.status}, {got.media()}")

    def api_definition_op(self):
        """the description for programs is 200"""
        want_status(self.client.follow(relations(self.ask('/').json())['service-desc']['href']), 200, 'service-desc')

    def api_definition_success(self):
        """its own type; the paths of the standard; what limit may be"""
        got = self.ask('/api')
        want(got.media() == OPENAPI, got.media())
        told = got.json()
        want(told['openapi'].startswith('3.0.') and told['info']['title'] and told['info']['version'], 'its head')
        for path in ('/', '/conformance', '/collections', '/collections/{collectionId}', '/collections/{collectionId}/items',
                     '/collections/{collectionId}/items/{featureId}'):
            want('200' in told['paths'][path]['get']['responses'], f'no {path}')

    def conformance_op(self):
        """GET /conformance is 200"""
        want_status(self.ask('/conformance'), 200, '/conformance')

    def conformance_success(self):
        """conformsTo names core"""
        want(CORE in self.ask('/conformance').json()['conformsTo'], 'no core')

    def query_param_unknown(self):
        """a parameter that a page does not have: 400"""
        for path in ('/', '/api', '/conformance', '/collections', '/collections/features', '/collections/features/items',
                     f"/collections/features/items/{self.all[0]['id']}"):
            want_status(self.ask(path + '?foo=1'), 400, path + '?foo=1')

    def query_param_invalid(self):
        """a parameter without a value that it may have: 400"""
        for query in ('limit=0', 'limit=x', 'limit=-1', 'limit=', 'bbox=1,2,3', 'bbox=a,b,c,d', 'bbox=1,2,3,4,5', 'bbox=7,47,7,46', 'bbox=',
                      'datetime=x', 'datetime=../..', 'limit=1&limit=2'):
            want_status(self.ask('/collections/features/items?' + query), 400, query)

    def crs84(self):
        """each coordinate within 180 and 90"""
        for feature in self.all:
            want(all(abs(x) <= 180 and abs(y) <= 90 for x, y in corners(feature['geometry'])), f"feature {feature['id']}")

    def fc_md_op(self):
        """GET /collections is 200"""
        want_status(self.ask('/collections'), 200, '/collections')

    def fc_md_success(self):
        """each collection has an id and links"""
        told = self.ask('/collections').json()
        want(len(set(self.names)) == len(self.names) and all(one['links'] for one in told['collections']), 'ids or links')

    def fc_md_links(self):
        """a link to the list itself, of its type"""
        want(relations(self.ask('/collections').json())['self']['type'] == JSON, 'no self')

    def fc_md_items(self):
        """what a collection has are features, in CRS84"""
        for one in self.ask('/collections').json()['collections']:
            want(one['itemType'] == 'feature' and 'http://www.opengis.net/def/crs/OGC/1.3/CRS84' in one['crs'], one['id'])

    def fc_md_items_links(self):
        """each has a link items, of GeoJSON, that is there"""
        for one in self.ask('/collections').json()['collections']:
            link = relations(one)['items']
            want(link['type'] == GEOJSON and self.client.follow(link['href']).status == 200, one['id'])

    def fc_md_extent(self):
        """its extent holds all its features"""
        for one in self.ask('/collections').json()['collections']:
            west, south, east, north = one['extent']['spatial']['bbox'][0]
            for feature in self.pages(f"/collections/{one['id']}/items?limit=10000"):
                want(all(west <= x <= east and south <= y <= north for x, y in corners(feature['geometry'])), f"feature {feature['id']}")

    def sfc_md_op(self):
        """GET /collections/C is 200; of no collection 404"""
        for name in self.names:
            want_status(self.ask(f'/collections/{name}'), 200, name)
        for path in ('/collections/nowhere', '/collections/', '/collections/Features'):
            want_status(self.ask(path), 404, path)

    def sfc_md_success(self):
        """the same as in the list"""
        for one in self.ask('/collections').json()['collections']:
            want(self.ask(f"/collections/{one['id']}").json() == one, one['id'])

    def fc_op(self):
        """GET /collections/C/items is 200"""
        for name in self.names:
            want_status(self.ask(f'/collections/{name}/items'), 200, name)

    def fc_response(self):
        """a FeatureCollection; the features of a class are those of all that have it"""
        for name in self.names:
            got = self.ask(f'/collections/{name}/items')
            want(got.media() == GEOJSON and got.json()['type'] == 'FeatureCollection', name)
            wanted = [feature['id'] for feature in self.all if name in ('features', feature['properties']['class'])]
            want(self.ids('', name) == wanted, f'{name}: other features')

    def fc_limit_definition(self):
        """limit in the description: an integer with least, greatest and default"""
        parameters = self.ask('/api').json()['paths']['/collections/{collectionId}/items']['get']['parameters']
        limit = next(one for one in parameters if one['name'] == 'limit')
        want(limit['in'] == 'query' and limit['schema'] == {'type': 'integer', 'minimum': 1, 'maximum': 10000, 'default': 1000}, limit)

    def fc_limit_response(self):
        """never more than limit; the pages together are all, none twice; above the greatest, the greatest"""
        for limit in (1, 2, 7, len(self.all) - 1, len(self.all), len(self.all) + 1):
            page = self.ask(f'/collections/features/items?limit={limit}').json()
            want(len(page['features']) == min(limit, len(self.all)), f'limit={limit}: {len(page["features"])}')
        limit = max(1, len(self.all) // 7)
        together = [feature['id'] for feature in self.pages(f'/collections/features/items?limit={limit}')]
        want(together == [feature['id'] for feature in self.all] == sorted(set(together)), 'the pages are not all, each once, in order')
        want_status(self.ask('/collections/features/items?limit=99999999'), 200, 'a limit above the greatest')

    def fc_bbox_definition(self):
        """bbox in the description: four to six numbers with commas"""
        parameters = self.ask('/api').json()['paths']['/collections/{collectionId}/items']['get']['parameters']
        bbox = next(one for one in parameters if one['name'] == 'bbox')
        want(bbox['schema']['minItems'] == 4 and bbox['schema']['maxItems'] == 6 and bbox['explode'] is False and bbox['style'] == 'form', bbox)

    def boxes(self):
        """Boxes: at features' corners and bounds, their edges' middles, without width, and by chance."""
        unit = Decimal(1).scaleb(-self.step)
        for feature in self.dice.sample(self.all, min(12, len(self.all))):
            places = corners(feature['geometry'])
            west, south = (min(place[n] for place in places) for n in (0, 1))
            east, north = (max(place[n] for place in places) for n in (0, 1))
            x, y = places[0]
            yield from ((west, south, east, north), (x, y, x, y), (east, north, east + 5 * unit, north + 5 * unit),
                        (east + unit, south, east + 9 * unit, north), (west - 9 * unit, south - 9 * unit, west, south),
                        ((west + east) / 2, south, (west + east) / 2, north), (x - 50 * unit, y, x + 50 * unit, y))
        xs = [place[0] for feature in self.all for place in corners(feature['geometry'])]
        ys = [place[1] for feature in self.all for place in corners(feature['geometry'])]
        for _ in range(25):
            west, east = sorted(Decimal(self.dice.uniform(float(min(xs)), float(max(xs)))) for _ in range(2))
            south, north = sorted(Decimal(self.dice.uniform(float(min(ys)), float(max(ys)))) for _ in range(2))
            yield west, south, east, north

    def fc_bbox_response(self):
        """exactly the features that meet the box, by exact arithmetic; also with heights"""
        unit = Decimal(1).scaleb(-self.step)
        for box in self.boxes():
            west, south = (number.quantize(unit, 'ROUND_FLOOR') for number in box[:2])
            east, north = (number.quantize(unit, 'ROUND_CEILING') for number in box[2:])
            wanted = [feature['id'] for feature in self.all if meets(feature['geometry'], (west, south, east, north))]
            text = ','.join(map(str, box))
            want(self.ids(f'bbox={text}') == wanted, f'bbox={text}')
            high = '{},{},-3,{},{},1e3'.format(*box)
            want(self.ids(f'bbox={high}') == wanted, f'bbox={high}')
        want(self.ids('bbox=-180,-90,180,90') == [feature['id'] for feature in self.all], 'the whole earth')

    def fc_time_definition(self):
        """datetime in the description"""
        parameters = self.ask('/api').json()['paths']['/collections/{collectionId}/items']['get']['parameters']
        want(next(one for one in parameters if one['name'] == 'datetime')['schema']['type'] == 'string', 'no datetime')

    def fc_time_response(self):
        """a moment, an interval, open ones: features without a time pass; another form: 400"""
        for time in ('2026-11-28', '2026-11-28T05:00:00Z', '2026-11-28T05:00:00.5%2B01:00', '2026-01-01/2026-12-31', '../2026-12-31',
                     '2026-01-01/..', '2024-02-29', '2026-01-01/', '/2026-12-31T00:00:00Z'):
            want(len(self.ids(f'datetime={time}')) == len(self.all), time)
        for time in ('yesterday', '2026', '2026-11-28T05:00', '../..', '/', '2026-01-01/2026-02-01/2026-03-01', '2026-02-29',
                     '2026-11-28T24:00:00Z'):
            want_status(self.ask(f'/collections/features/items?datetime={time}'), 400, time)

    def fc_links(self):
        """self; next exactly where features are left"""
        for limit, left in ((len(self.all) - 1, True), (len(self.all), False), (1, True)):
            links = relations(self.ask(f'/collections/features/items?limit={limit}').json())
            want('self' in links and ('next' in links) == left, f'limit={limit}')

    def fc_rel_type(self):
        """each link with rel and type, and absolute"""
        for link in self.ask('/collections/features/items?limit=1').json()['links']:
            want(link['type'] == GEOJSON and urllib.parse.urlsplit(link['href']).netloc, link)

    def fc_timeStamp(self):
        """if there, of RFC 3339"""
        stamp = self.ask('/collections/features/items?limit=1').json().get('timeStamp')
        want(stamp is None or re.match(r'\d{4}-\d\d-\d\dT\d\d:\d\d:\d\d', stamp), stamp)

    def fc_numberMatched(self):
        """exact, on each page"""
        page = self.ask('/collections/features/items?limit=3').json()
        want(page['numberMatched'] == len(self.all), page['numberMatched'])
        want(self.client.follow(relations(page)['next']['href']).json()['numberMatched'] == len(self.all), 'on the second page')

    def fc_numberReturned(self):
        """exact"""
        for limit in (1, 3, 10000):
            page = self.ask(f'/collections/features/items?limit={limit}').json()
            want(page['numberReturned'] == len(page['features']), limit)

    def f_op(self):
        """GET /collections/C/items/ID is 200; 404 of what is not there"""
        for feature in self.dice.sample(self.all, 5):
            want_status(self.ask(f"/collections/features/items/{feature['id']}"), 200, feature['id'])
        absent = max(feature['id'] for feature in self.all) + 1
        for item in (absent, 'x', '-1', 2 ** 64):
            want_status(self.ask(f'/collections/features/items/{item}'), 404, item)

    def f_success(self):
        """the feature as it is in the list; 404 in a collection of another class"""
        for feature in self.dice.sample(self.all, 5):
            own = self.ask(f"/collections/features/items/{feature['id']}")
            alone = own.json()
            alone.pop('links')
            want(own.media() == GEOJSON and alone == feature, feature['id'])
            for name in self.names[1:]:
                got = self.ask(f"/collections/{name}/items/{feature['id']}")
                want_status(got, 200 if feature['properties']['class'] == name else 404, f"{name}/items/{feature['id']}")

    def f_links(self):
        """self and collection"""
        feature = self.all[0]
        links = relations(self.ask(f"/collections/features/items/{feature['id']}").json())
        want(self.client.follow(links['self']['href']).json()['id'] == feature['id'], 'self')
        want(self.client.follow(links['collection']['href']).json()['id'] == 'features', 'collection')

    # ---- geojson

    def geojson_definition(self):
        """application/geo+json for features, and claimed"""
        want(CORE.replace('core', 'geojson') in self.ask('/conformance').json()['conformsTo'], 'not claimed')
        for path in ('/collections/features/items?limit=1', f"/collections/features/items/{self.all[0]['id']}"):
            want(self.ask(path).media() == GEOJSON, path)

    def geojson_content(self):
        """RFC 7946: members, two numbers a position, rings closed and counter-clockwise"""
        for feature in self.all:
            geometry, told = feature['geometry'], f"feature {feature['id']}"
            want(feature['type'] == 'Feature' and isinstance(feature['properties'], dict), told)
            want(geometry['type'] in ('Point', 'LineString', 'Polygon'), told)
            places = corners(geometry)
            want(all(len(place) == 2 for place in places), told)
            want({'Point': len(places) == 1, 'LineString': len(places) == 2, 'Polygon': len(places) >= 3}[geometry['type']], told)
            if geometry['type'] == 'Polygon':
                ring = [tuple(place) for place in geometry['coordinates'][0]]
                want(len(geometry['coordinates']) == 1 and ring[0] == ring[-1], told + ': not closed')
                want(sum(a[0] * b[1] - b[0] * a[1] for a, b in zip(ring, ring[1:])) > 0, told + ': clockwise')

    # ---- landmap's own

    def own_problems(self):
        """each refusal is a problem (RFC 9457) with landmap's code"""
        for path, status, code in (('/nowhere', 404, 'U1'), ('/?f=json', 400, 'U2'), ('/collections/features/items?limit=1&limit=1', 400, 'U3'),
                                   ('/collections/features/items?limit=0', 400, 'U4'), ('/collections/features/items?after=3', 400, 'U5'),
                                   ('/collections/features/items?kept=18446744073709551615', 410, 'gone'),
                                   ('/collections/features/items/18446744073709551615', 404, 'absent')):
            got = self.ask(path)
            want_status(got, status, path)
            told = got.json()
            want(got.media() == PROBLEM and told['code'] == code and told['status'] == status, f'{path}: {told}')

    def own_methods(self):
        """a method that a page has not: 405 and allow"""
        item = f"/collections/features/items/{self.all[0]['id']}"
        for method, paths in (('POST', ('/', '/map', '/collections/features', item)), ('PUT', ('/', '/collections/features/items')),
                              ('PATCH', ('/api', '/collections/features/items')), ('DELETE', ('/', '/collections', '/collections/features/items')),
                              ('OPTIONS', ('/', '/collections/features/items', item))):
            for path in paths:
                got = self.ask(path, method, body=b'{}')
                want_status(got, 405, f'{method} {path}')
                want('GET, HEAD' in got.fields.get('allow', '') and got.json()['code'] == 'method', f'{method} {path}')

    def own_tags(self):
        """a feature has its version as tag; 304 where the client knows it"""
        feature = self.all[0]
        path, tag = f"/collections/features/items/{feature['id']}", f'"{feature["properties"]["version"]}"'
        want(self.ask(path).fields.get('etag') == tag, 'no tag')
        for field in (tag, f'W/{tag}', f'"x", {tag}', '*'):
            got = self.ask(path, fields={'if-none-match': field})
            want(got.status == 304 and not got.body and got.fields.get('etag') == tag, field)
        want_status(self.ask(path, fields={'if-none-match': '"none"'}), 200, 'another tag')

    def own_keeping(self):
        """of kept answers the oldest goes: 410; a kept answer is of its collection alone"""
        first = relations(self.ask('/collections/features/items?limit=1').json())['next']['href']
        want_status(self.client.follow(first), 200, 'a kept answer')
        if len(self.names) > 1:
            want_status(self.client.follow(first.replace('/features/', f'/{self.names[1]}/')), 410, 'of another collection')
        for _ in range(16):
            self.ask('/collections/features/items?limit=1')
        want_status(self.client.follow(first), 410, 'after 16 more')

    def own_map(self):
        """the map page is there, as HTML, and may be shown without any other host"""
        got = self.ask('/map')
        want(got.status == 200 and got.media() == 'text/html; charset=utf-8', f'{got.status} {got.media()}')
        want(b'Content-Security-Policy' in got.body and not re.findall(rb'(?:src|href)="[a-z]+:(?!,)', got.body), 'its policy, or another host')

    # ----

    def run(self):
        self.begin()
        passed = failed = 0
        for name, test in vars(Tests).items():
            if name in ('__init__', 'begin', 'pages', 'ids', 'boxes', 'run', '__doc__', '__module__', '__dict__', '__weakref__'):
                continue
            shown = name.replace('_', '-')
            shown = 'landmap/' + shown[4:] if shown.startswith('own-') else 'geojson/' + shown[8:] if shown.startswith('geojson-') else 'core/' + shown
            try:
                test(self)
                passed += 1
                print(f'passed  {shown}: {test.__doc__}', flush=True)
            except (Wrong, KeyError, ValueError, TypeError, IndexError, StopIteration) as wrong:
                failed += 1
                print(f'FAILED  {shown}: {test.__doc__}: {type(wrong).__name__} {wrong}', flush=True)
        print(f'{passed} passed, {failed} failed')
        return failed


if __name__ == '__main__':
    if len(sys.argv) != 2:
        sys.exit(__doc__)
    sys.exit(1 if Tests(sys.argv[1]).run() else 0)
