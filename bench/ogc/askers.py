"""Clients that ask by chance, by session lines and by HTTP, and keep what they asked, what they were answered, and when."""
import base64
import collections
import http.client
import json
import os
import random
import re
import sys
import threading
import time
from decimal import Decimal

sys.path.insert(0, os.path.join(os.path.dirname(os.path.abspath(__file__)), '../../examples'))
from client import Session  # noqa: E402
from conformance import GEOJSON, Answer, Client, relations  # noqa: E402
from trail import OPEN, WHOLE, Asked, change, frame, places_of, printed  # noqa: E402

REACH = 900_000  # how far from the middle of the grid things are done
POOL = 80  # ids that all clients change
CLASSES = ['mast', 'road', 'parcel', 'zone']
CHANGES = [[{'action': 'add'}], [{'action': 'reshape'}], [{'action': 'delete'}]]
YARD = 'POLYGON ((-400000 -400000, 300000 -400000, 300000 500000, -400000 500000, -400000 -400000))'
POLICIES = [
    OPEN,
    {'root': {'policy': 'zones', 'combine': 'first-applicable', 'rules': [
        {'rule': 'no-zones', 'effect': 'deny', 'target': [[[{'class': 'zone'}]]]}, {'rule': 'the-rest', 'effect': 'permit'}]}},
    {'root': {'policy': 'classes', 'combine': 'first-applicable', 'rules': [
        {'rule': 'no-new-parcels', 'effect': 'deny', 'target': [[[{'class': 'parcel'}, {'action': 'add'}]]]},
        {'rule': 'roads-are-secret', 'effect': 'deny', 'target': [[[{'class': 'road'}, {'action': 'read'}]]]},
        {'rule': 'the-rest', 'effect': 'permit'}]}},
    {'root': {'policy': 'offices', 'combine': 'permit-overrides', 'rules': [
        {'rule': 'own-features', 'effect': 'permit', 'when': [{'own': True}]},
        {'rule': 'all-may-read', 'effect': 'permit', 'target': [[[{'action': 'read'}]]]}]}},
    {'zones': [{'zone': 'yard', 'shape': YARD}],
     'root': {'set': 'places', 'combine': 'deny-overrides', 'of': [
         {'policy': 'yard', 'combine': 'first-applicable', 'target': [[[{'zone': 'yard'}]]], 'rules': [
             {'rule': 'yard-is-closed', 'effect': 'deny', 'target': [CHANGES]}]},
         {'policy': 'others', 'combine': 'first-applicable', 'rules': [{'rule': 'all', 'effect': 'permit'}]}]}},
    {'zones': [{'zone': 'yard', 'shape': YARD}],
     'root': {'policy': 'sights', 'combine': 'first-applicable', 'rules': [
         {'rule': 'changes', 'effect': 'permit', 'target': [CHANGES]},
         {'rule': 'no-zones-elsewhere', 'effect': 'permit', 'target': [[[{'zone': 'yard'}]]]},
         {'rule': 'own-features', 'effect': 'permit', 'when': [{'own': True}, {'not': {'class': 'zone'}}]}]}},
]


class Broken(Exception):
    """The connection is gone before the answer was there."""


class Log:
    """What all clients asked and were answered. Lists are appended to by many threads, which Python allows."""

    def __init__(self):
        self.asked, self.explained, self.rolls = [], [], []
        self.formed = []  # what has no record: what was asked, the answer, and which one is due
        self.wrong = []  # answers that are wrong by themselves
        self.counts = collections.Counter()
        self.lock = threading.Lock()
        self.seen = {}  # id: version and shape that some client saw last

    def count(self, word):
        with self.lock:
            self.counts[word] += 1


class Chance:
    """Shapes and windows by chance."""

    def __init__(self, run, seed):
        self.run, self.log, self.dice = run, run.log, random.Random(seed)

    def place(self):
        if self.log.seen and self.dice.random() < 0.1:  # a corner of what is there: shapes that only touch
            known = self.log.seen.get(self.number())
            if known:
                return self.dice.choice(places_of(known[1]))
        return self.dice.randint(-REACH, REACH), self.dice.randint(-REACH, REACH)

    def shape(self):
        x, y = self.place()
        a, b, c = (self.dice.randint(1, 200_000) for _ in range(3))
        return printed(self.dice.choice(([(x, y)], [(x, y)], [(x, y), (x + a, y - b)], [(x, y), (x + a, y + b)], frame(x, y, x + a, y + b),
                                         [(x, y), (x + a, y), (x, y + b)], [(x, y), (x + a, y - c), (x + a, y + b)])))

    def box(self):
        x, y = self.place()
        a, b = (self.dice.choice((self.dice.randint(0, 3), self.dice.randint(1, 700_000), self.dice.randint(1, 700_000))) for _ in range(2))
        return x, y, x + a, y + b

    def number(self):
        return self.run.first + self.dice.randrange(POOL)

    def version(self, number):
        """The version that was seen last, or one that is stale on purpose."""
        version = self.log.seen.get(number, (1, ''))[0]
        return max(1, version - self.dice.randint(1, 9)) if self.dice.random() < 0.1 else version

    def saw(self, number, version, shape=None):
        known = self.log.seen.get(number)
        if known is None or known[0] < version:
            self.log.seen[number] = version, shape or (known[1] if known else 'POINT (0 0)')


class ByLine(Chance):
    """A client of session lines. `steward` says whether it is always the steward, who puts policies in force and rolls."""

    def __init__(self, run, seed, steward=False):
        super().__init__(run, seed)
        self.steward, self.session, self.edition = steward, None, 0

    def begin(self, subject):
        """A session of this subject. Where no seat is left, or no worker, it waits."""
        for _ in range(100):
            self.session = Session(self.run.path)
            if self.session.ask(self.run.hello(subject)) == [f'hello {subject}']:
                self.subject = subject
                return
            time.sleep(0.5)
        raise ConnectionError('no seat for ' + subject)

    def end(self):
        if self.session:
            self.session.ask('BYE')
            self.session = None

    def timed(self, line, leaving=None):
        """The times and the reply. Where `leaving` says what a record of it would tell, the client now and then leaves at once."""
        before = time.monotonic_ns()
        try:
            self.session.send(line)
            if leaving and self.dice.random() < 0.004:
                raise ConnectionError
            reply = self.session.receive()
            return before, time.monotonic_ns(), reply
        except OSError:
            self.session.peer.close()
            self.session.replies.close()
            self.session = None
            self.log.count('broken off')
            if leaving:
                self.log.asked.append(Asked('loose', self.subject, (self.subject, leaving), before, None, None, line, True))
            raise Broken from None

    def whole(self, line, _=None):
        return ByLine.timed(self, line)

    def keep(self, kind, key, before, after, reply, told):
        self.log.asked.append(Asked(kind, self.subject, (kind, self.subject, *key), before, after, reply, told))

    def work(self, requests):
        for turn in range(requests):
            if self.session is None:
                self.begin(self.run.steward if self.steward else self.dice.choice(self.run.subjects))
                self.log.count('HELLO')
                continue
            try:
                self.turn(turn)
            except Broken:
                continue
        self.end()

    def turn(self, turn):
        draw = self.dice.random()
        if self.steward and draw < 0.02:
            self.govern(self.dice.choice(POLICIES))
        elif self.steward and (draw < 0.024 or turn % 500 == 499):
            self.roll()
        elif draw < 0.45:
            self.search(printed(frame(*self.box())) if self.dice.random() < 0.7 else self.shape() if self.dice.random() < 0.9 else WHOLE)
        elif draw < 0.55:
            self.explain()
        elif draw < 0.62:
            self.err()
        elif draw < 0.995:
            self.commit([self.change() for _ in range(self.dice.choice((1, 1, 1, 2, 4)))])
        elif not self.steward:
            self.end()

    def search(self, window):
        before, after, reply = self.timed(f'SEARCH {window}', window)
        if not reply[0].startswith('rows '):
            return self.log.count('SEARCH: ' + reply[0])
        self.log.count('SEARCH: rows')
        self.keep('answered', (window,), before, after, ('rows', '\n'.join(reply[1:])), f'SEARCH {window}')
        for row in reply[1:]:
            number, version, _, _, shape = row.split(' ', 4)
            self.saw(int(number), int(version), shape)
        return reply[1:]

    def change(self):
        number, draw = self.number(), self.dice.random()
        if draw < 0.4 or number not in self.log.seen:
            return change('add', number, None, self.dice.choice(CLASSES), self.shape())
        if draw < 0.75:
            return change('reshape', number, self.version(number), None, self.shape())
        return change('delete', number, self.version(number))

    def commit(self, changes):
        changes = list({one[1]: one for one in changes}.values())
        words = {'add': 'ADD {1} {3} {4}', 'reshape': 'RESHAPE {1} {2} {4}', 'delete': 'DELETE {1} {2}'}
        for one in changes:
            reply = self.timed(words[one[0]].format(*one))[2]
            if reply != ['staged']:
                self.log.wrong.append(f'{one} is answered {reply}')
        before, after, reply = self.timed('COMMIT', tuple(changes))
        words = reply[0].split()
        self.log.count('COMMIT: ' + words[0])
        told = f'{changes} is answered {reply[0]}'
        if words[0] == 'applied':
            self.keep('applied', tuple(changes), before, after, int(words[1]), told)
            for what, number, _, _, shape in changes:
                if what != 'delete':
                    self.saw(number, int(words[1]), shape)
        elif words[0] in ('denied', 'absent', 'exists', 'stale'):
            current = int(words[1]) if words[0] == 'stale' else None
            rule = words[2] if words[:2] == ['denied', 'rule'] else None
            self.keep('refused', (tuple(changes), int(words[-1]), words[0], current), before, after, rule, told)
            if current:
                self.saw(changes[int(words[-1]) - 1][1], current)
        else:
            self.timed('ABORT')
        return words

    def govern(self, document):
        before, after, reply = self.timed('POLICY ' + json.dumps(document), json.dumps(document, sort_keys=True))
        if reply[0].startswith('edition '):
            self.log.count('POLICY: edition')
            self.edition = int(reply[0].split()[1])
            self.keep('governed', (self.edition, json.dumps(document, sort_keys=True)), before, after, None, f'POLICY is answered {reply[0]}')
        else:
            self.log.wrong.append(f'POLICY is answered {reply[0]}')

    def roll(self):
        before, after, reply = self.timed('ROLL')
        self.log.count('ROLL: ' + reply[0].split()[0])
        if reply[0].startswith('rolled '):
            self.log.rolls.append((before, after, reply[1:]))
        else:
            self.log.wrong.append(f'ROLL is answered {reply[0]}')

    def explain(self):
        action, kind = self.dice.choice(('read', 'add', 'reshape', 'delete')), self.dice.choice(CLASSES)
        owner, shape = self.dice.choice(self.run.offices_known + ['nobody']), self.shape()
        before, after, reply = self.timed(f'EXPLAIN {action} {owner} {kind} {shape}')
        self.log.count('EXPLAIN: ' + reply[0].split()[0])
        self.log.explained.append((self.subject, action, owner, kind, shape, before, after, reply[0]))

    def err(self):
        """Lines that are refused by their form, and lists that are dropped: none of them has a record."""
        one = self.dice.choice((
            ('SEARCH POINT (3.5 4)', 'error K4'), ('SEARCH POLYGON ((0 0, 4 0, 1 1, 0 4, 0 0))', 'error P8'), ('ADD x mast POINT (1 1)', 'error E3'),
            ('COMMIT', 'error E7'), ('search POINT (1 1)', 'error E2'), (self.run.hello(self.subject), 'error E6'), ('DELETE 1', 'error E2'),
            ('SEARCH LINESTRING (0 0, 10000001 0)', 'error K5'), ('EXPLAIN see roads road POINT (1 1)', 'error E4'), ('POLICY {"root":1}', 'error D2'),
            ('POLICY {', 'error D1'), ('ROLL', None if self.subject == self.run.steward or self.run.rolls_too else 'error X7'), ('twice', None)))
        if one[0] == 'twice':
            lines = [(f'DELETE {self.number()} 1', 'staged'), ('ABORT', 'aborted'), ('COMMIT', 'error E7')]
            lines[1:1] = [(lines[0][0], 'error X5')]
        else:
            lines = [one] if one[1] else []
        for line, due in lines:
            self.log.formed.append((line, '; '.join(self.timed(line)[2]), due))
            self.log.count('ill-formed or dropped lines')


class ByHttp(Chance):
    """A client by HTTP: each request by NAME, or by nobody where the server has an anonymous subject."""

    def __init__(self, run, seed):
        super().__init__(run, seed)
        self.client = Client(run.base)

    def once(self, path, method='GET', fields=None, body=None, leaving=False):
        """An answer and its times; None where the connection broke off, as the client itself does now and then. It is not asked again."""
        client, before = self.client, time.monotonic_ns()
        client.peer = client.peer or client.kind(client.host, timeout=60)
        try:
            client.peer.request(method, client.front + path, body=body, headers=fields or {})
            if leaving and self.dice.random() < 0.004:
                raise ConnectionError
            got = client.peer.getresponse()
            answer = Answer(got.status, {name.lower(): value for name, value in got.getheaders()}, got.read(), got.version)
        except (http.client.HTTPException, OSError):
            client.peer.close()
            client.peer = answer = None
        return before, time.monotonic_ns(), answer

    def who(self):
        if self.run.anonymous and self.dice.random() < 0.25:
            return self.run.anonymous, {}
        return self.run.name, dict(self.run.own)

    def keep(self, kind, subject, key, before, after, reply, told):
        self.log.asked.append(Asked(kind, subject, (kind, subject, *key), before, after, reply, told))

    def lost(self, got, subject, what, before, told):
        """Whether no answer tells what was done; `what` is the window or the changes of a record."""
        if got is None or got.status == 503 and not got.body:
            self.log.count('broken off')
            self.log.asked.append(Asked('loose', subject, (subject, what), before, None, None, told, True))
            return True
        if got.status == 503:
            self.log.count(f'503 {json.loads(got.body)["code"]}')
            return True
        return False

    def work(self, requests):
        self.left = requests
        while self.left > 0:
            self.left -= 1
            draw = self.dice.random()
            if draw < 0.25:
                self.page()
            elif draw < 0.45:
                self.item()
            elif draw < 0.68:
                self.post()
            elif draw < 0.85:
                self.reshape()
            elif draw < 0.93:
                self.delete()
            else:
                self.err()

    # ---- reading

    def degrees(self, steps, half=0):
        """A number of steps along an axis, as the text of degrees."""
        axis, number = steps
        return format(self.run.origin[axis] + (Decimal(number) + Decimal(half) / 2) * self.run.unit, 'f')

    def box_asked(self):
        """A box by chance: the words that ask for it, and the window of its record."""
        west, south, east, north = self.box()
        halves = [0] * 4
        if self.dice.random() < 0.2:  # between two steps: widened outwards
            halves = [self.dice.choice((0, n)) for n in (1, 1, -1, -1)]
            east, north = east + 1, north + 1
        box = [self.degrees(pair, half) for pair, half in zip(((0, west), (1, south), (0, east), (1, north)), halves)]
        words = 'bbox=' + ','.join(box if self.dice.random() < 0.9 else [*box[:2], '0', *box[2:], '100'])
        return [words], printed(frame(west, south, east, north))

    def page(self):
        subject, fields = self.who()
        name, limit = self.dice.choice(['features'] + self.run.layers), self.dice.choice((1, 5, 20, 1000, None))
        words, window = ([], WHOLE) if self.dice.random() < 0.05 else self.box_asked()
        words += [f'limit={limit}'] if limit else []
        method = 'HEAD' if self.dice.random() < 0.05 else 'GET'
        path = f'/collections/{name}/items' + ('?' + '&'.join(words) if words else '')
        before, after, got = self.once(path, method, fields, leaving=True)
        told = f'{method} {path}'
        if self.lost(got, subject, window, before, told):
            return
        self.log.count(f'items: {got.status}')
        if got.status != 200:
            return self.log.wrong.append(f'{told}: {got.status} {got.body[:200]}')
        if method == 'HEAD':
            return self.keep('answered', subject, (window,), before, after, ('head',), told)
        matched, rows, whole = self.pages(json.loads(got.body), fields, told)
        self.keep('answered', subject, (window,), before, after, ('page', None if name == 'features' else name, matched, rows, whole), told)
        for number, version in rows:
            self.saw(number, version)

    def pages(self, page, fields, told):
        """How many features a list has, the ids and versions of its first pages, and whether these are all."""
        rows, matched, pages = [], page['numberMatched'], 1
        while True:
            rows += [(feature['id'], feature['properties']['version']) for feature in page['features']]
            if page['numberReturned'] != len(page['features']) or page['numberMatched'] != matched:
                self.log.wrong.append(f'{told}: page {pages} has other numbers')
            following = relations(page).get('next')
            if not following:
                return matched, rows, True
            if pages == 4 or self.left <= 0:
                return matched, rows, False
            pages += 1
            self.left -= 1
            got = self.once('/' + following['href'].split('/', 3)[3].removeprefix(self.run.front), fields=fields)[2]
            self.log.count(f'further page: {got and got.status}')
            if got is None or got.status in (410, 503):  # sixteen others have kept answers meanwhile
                return matched, rows, False
            if got.status != 200:
                self.log.wrong.append(f'{told}: page {pages} is {got.status}')
                return matched, rows, False
            page = json.loads(got.body)

    def item(self):
        subject, fields = self.who()
        number, layer = self.number(), self.dice.choice(['features'] * 9 + self.run.layers)
        tag = self.log.seen.get(number, (1,))[0] if self.dice.random() < 0.5 else None
        if tag:
            fields['if-none-match'] = f'"{tag}"'
        method = 'HEAD' if self.dice.random() < 0.05 else 'GET'
        path = f'/collections/{layer}/items/{number}'
        before, after, got = self.once(path, method, fields, leaving=True)
        told = f'{method} {path}' + (f', tag {tag}' if tag else '')
        if self.lost(got, subject, WHOLE, before, told):
            return
        self.log.count(f'item: {got.status}')
        if got.status not in (200, 304, 404):
            return self.log.wrong.append(f'{told}: {got.status} {got.body[:200]}')
        version = None if got.status == 404 else int(got.fields['etag'].strip('"'))
        if got.status == 304 and (version != tag or got.body) or got.status == 200 and version == tag:
            self.log.wrong.append(f'{told}: {got.status} with the tag {version}')
        if got.status == 200 and method == 'GET' and json.loads(got.body)['properties']['version'] != version:
            self.log.wrong.append(f'{told}: another version than its tag')
        self.keep('answered', subject, (WHOLE,), before, after, ('item', None if layer == 'features' else layer, number, version), f'{told}: {got.status}')
        if version:
            self.saw(number, version)

    # ---- changing

    def geometry(self, shape):
        places = [f'[{self.degrees((0, x))},{self.degrees((1, y))}]' for x, y in places_of(shape)]
        if len(places) == 1:
            return f'{{"type":"Point","coordinates":{places[0]}}}'
        if len(places) == 2:
            return f'{{"type":"LineString","coordinates":[{",".join(places)}]}}'
        turned = places[::-1] if self.dice.random() < 0.3 else places
        return f'{{"type":"Polygon","coordinates":[[{",".join(turned + turned[:1])}]]}}'

    def feature(self, shape, number=None, kind=None):
        own = f'"id":{number},' if number is not None else ''
        return f'{{"type":"Feature",{own}"geometry":{self.geometry(shape)},"properties":{json.dumps({"class": kind} if kind else {})}}}'.encode()

    def changed(self, subject, one, before, after, got, told, success):
        """Keeps what a change was answered."""
        if got is None or got.status == 503:
            self.lost(got, subject, (one,), before, told)
            return
        self.log.count(f'{one[0]}: {got.status}')
        told += f': {got.status}'
        if got.status == success:
            version = int(got.fields['etag'].strip('"')) if 'etag' in got.fields else None
            if (version is None) != (one[0] == 'delete') or got.body:
                self.log.wrong.append(f'{told}: tag {version}, body {got.body[:200]}')
            self.keep('applied', subject, (one,), before, after, version, told)
            if version:
                self.saw(one[1], version, one[4])
            return
        said = json.loads(got.body)
        status = {'denied': 403, 'absent': 404, 'exists': 409, 'stale': 412}.get(said['code'])
        if status != got.status or said['code'] == 'stale' and got.fields.get('etag') != f'"{said.get("current")}"' or \
                ('rule' in said) != (said['code'] == 'denied'):
            return self.log.wrong.append(f'{told}: {said}')
        self.keep('refused', subject, ((one,), 1, said['code'], said.get('current')), before, after, said.get('rule'), told)
        if said['code'] == 'stale':
            self.saw(one[1], said['current'])

    def post(self):
        subject, fields = self.who()
        number, kind, shape = self.number(), self.dice.choice(CLASSES), self.shape()
        layer = kind if kind in self.run.layers and self.dice.random() < 0.3 else 'features'
        body = self.feature(shape, number, None if layer == kind and self.dice.random() < 0.5 else kind)
        path = f'/collections/{layer}/items'
        before, after, got = self.once(path, 'POST', {**fields, 'content-type': GEOJSON}, body, True)
        self.changed(subject, change('add', number, None, kind, shape), before, after, got, f'POST {path} {body.decode()}', 201)

    def reshape(self):
        subject, fields = self.who()
        number, shape, method = self.number(), self.shape(), self.dice.choice(('PUT', 'PUT', 'PATCH'))
        version = self.version(number)
        fields |= {'content-type': GEOJSON, 'if-match': f'"{version}"'}
        path = f'/collections/features/items/{number}'
        before, after, got = self.once(path, method, fields, self.feature(shape, number if self.dice.random() < 0.5 else None, 'another'), True)
        self.changed(subject, change('reshape', number, version, None, shape), before, after, got, f'{method} {path} {shape}, version {version}', 204)

    def delete(self):
        subject, fields = self.who()
        number = self.number()
        version = self.version(number)
        path = f'/collections/features/items/{number}'
        before, after, got = self.once(path, 'DELETE', {**fields, 'if-match': f'"{version}"'}, leaving=True)
        self.changed(subject, change('delete', number, version), before, after, got, f'DELETE {path}, version {version}', 204)

    def err(self):
        """Requests that are refused before a session is asked: none of them has a record."""
        own, number = dict(self.run.own), self.number()
        tag, body = {'if-match': '"1"'}, {'content-type': GEOJSON}
        items, item = '/collections/features/items', f'/collections/features/items/{number}'
        good = self.feature(self.shape(), number, 'mast')
        wrong = {'authorization': 'Basic ' + base64.b64encode(f'{self.run.name}:wrong'.encode()).decode()}
        far = good.replace(b'"coordinates":', b'"coordinates":[999,999],"was":')
        dent = self.feature('POINT (0 0)', number, 'mast').replace(b'"Point"', b'"Polygon"')
        at = [f'[{self.degrees((0, x))},{self.degrees((1, y))}]' for x, y in ((0, 0), (9, 0), (1, 1), (0, 9), (0, 0))]
        dent = re.sub(rb'"coordinates":\[[^\]]*\]', ('"coordinates":[[' + ','.join(at) + ']]').encode(), dent)
        method, path, fields, sent, status, code = self.dice.choice((
            ('GET', items + '?limit=0', {}, None, 400, 'U4'), ('GET', items + '?colour=red', {}, None, 400, 'U2'), ('GET', items + '?bbox=1,2,3', {}, None, 400, 'U4'),
            ('GET', items + '?limit=1&limit=1', {}, None, 400, 'U3'), ('GET', items + '/x7', {}, None, 404, 'U1'), ('GET', '/collections/nowhere/items', {}, None, 404, 'U1'),
            ('GET', item, wrong, None, 401, 'H1'), ('DELETE', item, {**wrong, **tag}, None, 401, 'H1'), ('POST', items, body, b'{', 400, 'J1'),
            ('POST', items, body, self.feature(self.shape(), None, 'mast'), 422, 'id'), ('POST', items, body, self.feature(self.shape(), number), 422, 'class'),
            ('POST', items, body, far if b'"Point"' in good else b'null', 400, '(M3|J[23])'), ('POST', items, body, dent, 422, 'P8'),
            ('POST', items, {'content-type': 'text/plain'}, good, 415, 'media'), ('POST', items + '?limit=1', body, good, 400, 'U2'),
            ('PUT', item, body, good, 428, 'version'), ('PATCH', item, {**body, 'if-match': '*'}, good, 428, 'version'), ('DELETE', item, {}, None, 428, 'version'),
            ('DELETE', item, {'if-match': '"x"'}, None, 412, 'stale'), ('PUT', item, {**body, **tag}, self.feature(self.shape(), number + 1), 422, 'id'),
            ('PUT', items, {**body, **tag}, good, 405, 'method'), ('DELETE', item, {**tag, 'origin': 'http://evil.example'}, None, 403, 'origin')))
        got = self.once(path, method, {**own, **fields}, sent)[2]
        self.log.count('ill-formed' if got is not None else 'broken off')
        if got is not None and got.status != 503:
            said = json.loads(got.body) if got.body else {}
            told = f'{got.status} {said.get("code")}' + (f' current {said["current"]}' if 'current' in said else '')
            self.log.formed.append((f'{method} {path} {fields} {sent}', told, f'{status} {code}'))
