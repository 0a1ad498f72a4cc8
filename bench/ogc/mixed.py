#!/usr/bin/env python3
"""Clients over HTTP and over session lines at once: mixed.py BASE SOCKET WRITER READER [SECONDS [STEWARD CONFIG]]

BASE is the address of a server by HTTP, SOCKET its socket of session lines, WRITER a subject that may add, reshape, delete and read
features of the classes `mast` and `parcel` in its own office, READER the one that the configuration names as `anonymous`. Eight clients
change features of their own by session lines, eight read by HTTP: boxes, pages of kept answers, single features. Each answer is looked
at by itself: it may not be older than what anybody had been answered before it was asked for. At the end the rows by HTTP have to be
those of a SEARCH by READER. With a steward's name and the server's configuration, the steward puts its policies in force meanwhile, in
turn with the same ones behind a set that closes the class `survey`, asks EXPLAIN after each, and rolls the trail.
Prints what was done, and `N passed, M failed` as the last line.
"""
import json
import os
import random
import re
import sys
import threading
import time
import urllib.parse
from decimal import Decimal

sys.path.insert(0, os.path.join(os.path.dirname(os.path.abspath(__file__)), '../../examples'))
from client import Session  # noqa: E402
from conformance import Client, relations  # noqa: E402
from shapes import corners, meets  # noqa: E402

GONE = float('inf')
WHOLE = 'POLYGON ((-10000000 -10000000, 10000000 -10000000, 10000000 10000000, -10000000 10000000, -10000000 -10000000))'


class Run:
    def __init__(self, base, path, writer, reader, seconds=20, steward=None, config=None):
        self.base, self.path, self.writer, self.reader = base, path, writer, reader
        self.steward, self.config = steward, config
        self.end = time.time() + float(seconds)
        self.wrong, self.counts, self.lock = [], {}, threading.Lock()
        self.newest = {}  # id: the least version that may be shown from now on, by all answers so far; GONE where it was deleted
        west, south, east, north = (Decimal(number) for number in self.extent())
        self.decimals = -west.as_tuple().exponent
        self.origin = (west + east) / 2, (south + north) / 2

        session = Session(path)
        session.ask(f'HELLO {writer}')
        self.first = max((int(row.split()[0]) for row in session.ask(f'SEARCH {WHOLE}')[1:]), default=0) + 1
        session.ask('BYE')

    def extent(self):
        told = Client(self.base).ask('/collections/features')
        return json.loads(told.body, parse_float=str, parse_int=str)['extent']['spatial']['bbox'][0]

    def count(self, word, more=1):
        with self.lock:
            self.counts[word] = self.counts.get(word, 0) + more

    def fail(self, told):
        with self.lock:
            self.wrong.append(told)

    # ---- session lines

    def shape(self, dice):
        x, y = dice.randint(-900_000, 900_000), dice.randint(-900_000, 900_000)
        if dice.random() < 0.5:
            return 'mast', f'POINT ({x} {y})'
        a, b = dice.randint(1, 20_000), dice.randint(1, 20_000)
        return 'parcel', f'POLYGON (({x} {y}, {x + a} {y}, {x + a} {y + b}, {x} {y + b}, {x} {y}))'

    def write(self, number):
        dice, session = random.Random(number), Session(self.path)
        if session.ask(f'HELLO {self.writer}') != [f'hello {self.writer}']:
            return self.fail('no session')
        own, fresh = {}, self.first + number * 100_000
        while time.time() < self.end:
            changes, after = [], dict(own)
            for key in dice.sample(sorted(own), min(len(own), dice.randint(0, 4))):
                if dice.random() < 0.3:
                    changes.append(f'DELETE {key} {own[key][0]}')
                    del after[key]
                else:
                    shape = self.shape(dice)[1]
                    changes.append(f'RESHAPE {key} {own[key][0]} {shape}')
                    after[key] = None, own[key][1]
            for _ in range(dice.randint(1, 8)):
                kind, shape = self.shape(dice)
                fresh += 1
                changes.append(f'ADD {fresh} {kind} {shape}')
                after[fresh] = None, kind
            got = session.commit(changes)
            self.count(f'COMMIT: {got[0]}')
            if got[0] == 'applied':
                with self.lock:
                    self.newest.update({key: GONE for key in own if key not in after})
                    self.newest.update({key: int(got[1]) for key, (version, _) in after.items() if version is None})
                own = {key: (int(got[1]) if version is None else version, kind) for key, (version, kind) in after.items()}
            elif got[0] in ('held', 'memory'):
                session.ask('ABORT')
            else:
                return self.fail(f'COMMIT: {got}')
        session.ask('BYE')

    # ---- the steward

    def govern(self):
        with open(self.config, encoding='utf-8') as file:
            usual = json.load(file)['policies']
        closing = {'policy': 'surveys', 'combine': 'first-applicable', 'rules': [
            {'rule': 'no-surveys', 'effect': 'deny', 'target': [[[{'class': 'survey'}]]]}]}
        closed = {**usual, 'root': {'set': 'closed', 'combine': 'first-applicable', 'of': [closing, usual['root']]}}
        session, given, rolled, last = Session(self.path), [], [], 0
        session.ask(f'HELLO {self.steward}')
        while time.time() < self.end:
            for document in (closed, usual):
                told = session.ask('POLICY ' + json.dumps(document))[0]
                if not re.fullmatch(r'edition \d+', told) or given and told != f'edition {given[-1] + 1}':
                    return self.fail(f'POLICY behind edition {given[-1:]}: {told}')
                given.append(int(told.split()[1]))
                ruling = session.ask('EXPLAIN read roads survey POINT (0 0)')[0]
                if (ruling.startswith('denied rule no-surveys ') is not (document is closed)) or not ruling.endswith(' ' + told):
                    return self.fail(f'EXPLAIN by {told}: {ruling}')
                self.count('POLICY and EXPLAIN')
            records = [json.loads(line) for line in session.ask('ROLL')[1:]]
            numbers = [record['number'] for record in records]
            # Where the hall changed meanwhile, what nobody had rolled out is gone.
            if numbers and (numbers[0] <= last or numbers != list(range(numbers[0], numbers[-1] + 1))):
                return self.fail(f'ROLL behind record {last}: {numbers[:1]} to {numbers[-1:]}, {len(numbers)} records')
            last = numbers[-1] if numbers else last
            rolled += [record['edition'] for record in records if record['kind'] == 'governed']
            self.count('record rolled', len(records))
            time.sleep(0.2)
        ours = [edition for edition in rolled if edition >= given[0]]
        if ours != sorted(set(ours)) or not set(ours) <= set(given):
            self.fail(f'the trail has the editions {ours[:3]} to {ours[-3:]}, put in force were {given[:3]} to {given[-3:]}')
        session.ask('BYE')

    # ---- HTTP

    def look(self, features, least, box=None):
        for feature in features:
            told = feature['properties']
            if told['id'] != feature['id'] or box and not meets(feature['geometry'], box):
                self.fail(f'{feature} does not meet {box}')
            if told['version'] < least.get(feature['id'], 0):
                self.fail(f'feature {feature["id"]} is shown in version {told["version"]}, and was in {least[feature["id"]]} before')
        with self.lock:
            for feature in features:
                self.newest[feature['id']] = max(feature['properties']['version'], self.newest.get(feature['id'], 0))

    def read(self, number):
        dice, client = random.Random(number), Client(self.base)
        unit = Decimal(1).scaleb(-self.decimals)
        while time.time() < self.end:
            with self.lock:
                least = dict(self.newest)
            kind = dice.random()
            if kind < 0.5:
                x, y = (self.origin[n] + dice.randint(-1_000_000, 900_000) * unit for n in (0, 1))
                box = x, y, x + 100_000 * unit, y + 100_000 * unit
                got = client.ask('/collections/features/items?limit=10000&bbox=' + ','.join(map(str, box)))
                self.page(got, least, box)
            elif kind < 0.8:
                self.pages(client, dice.choice(['features', 'mast', 'parcel']), dice.choice([20, 100, 1000]), least)
            else:
                known = dice.choice(sorted(least)) if least else 1
                got = client.ask(f'/collections/features/items/{known}')
                self.count(f'item: {got.status}')
                if got.status == 200:
                    self.look([got.json()], least)
                elif got.status != 404 and not (got.status == 503 and 'retry-after' in got.fields):
                    self.fail(f'item {known}: {got.status} {got.body[:200]}')

    def page(self, got, least, box=None):
        self.count(f'page: {got.status}')
        if got.status != 200:
            if not (got.status == 503 and 'retry-after' in got.fields):
                self.fail(f'{got.status} {got.body[:200]}')
            return None
        page = got.json()
        ids = [feature['id'] for feature in page['features']]
        if page['numberReturned'] != len(ids) or ids != sorted(set(ids)):
            self.fail(f'a page of {len(ids)}, told as {page["numberReturned"]}, in the order {ids[:9]}')
        self.look(page['features'], least, box)
        return page

    def pages(self, client, name, limit, least):
        page = self.page(client.ask(f'/collections/{name}/items?limit={limit}'), least)
        if page is None:
            return
        matched, ids = page['numberMatched'], [feature['id'] for feature in page['features']]
        while following := relations(page).get('next'):
            got = client.follow(following['href'])
            self.count(f'further page: {got.status}')
            if got.status == 410:  # sixteen others have kept answers meanwhile
                return
            page = got.json()
            if got.status != 200 or page['numberMatched'] != matched:
                return self.fail(f'a further page: {got.status}, {page.get("numberMatched")} of {matched}')
            ids += [feature['id'] for feature in page['features']]
            self.look(page['features'], least)
        if len(ids) != matched or ids != sorted(set(ids)):
            self.fail(f'pages of {len(ids)} features, told as {matched}')

    # ---- the end

    def steps(self, place):
        return tuple(int((number - origin).scaleb(self.decimals)) for number, origin in zip(place, self.origin))

    def line(self, feature):
        """The row of a SEARCH that says the same as a GeoJSON feature."""
        told, places = feature['properties'], [self.steps(place) for place in corners(feature['geometry'])]
        kind = feature['geometry']['type']
        if kind == 'Point':
            shape = 'POINT ({} {})'.format(*places[0])
        elif kind == 'LineString':
            shape = 'LINESTRING ({})'.format(', '.join('{} {}'.format(*place) for place in places))
        else:
            shape = 'POLYGON (({}))'.format(', '.join('{} {}'.format(*place) for place in places + places[:1]))
        return f"{feature['id']} {told['version']} {told['office']} {told['class']} {shape}"

    def compare(self):
        session = Session(self.path)
        session.ask(f'HELLO {self.reader}')
        rows = session.ask(f'SEARCH {WHOLE}')
        client, by_http = Client(self.base), []
        answer = client.ask('/collections/features/items?limit=10000')
        while True:
            page = answer.json()
            by_http += [self.line(feature) for feature in page['features']]
            following = relations(page).get('next')
            if not following:
                break
            answer = client.follow(following['href'])
        differing = [(ours, theirs) for ours, theirs in zip(by_http, rows[1:]) if ours != theirs]
        right = len(by_http) == len(rows) - 1 and not differing
        return right, f'{len(by_http)} rows by HTTP, {rows[0]} by a line' + (f'; {differing[0]}' if differing else '')

    def run(self):
        threads = [threading.Thread(target=work, args=(number,)) for number in range(8) for work in (self.write, self.read)]
        threads += [threading.Thread(target=self.govern)] if self.steward else []
        for thread in threads:
            thread.start()
        for thread in threads:
            thread.join()
        right, told = self.compare()
        print(', '.join(f'{count} {word}' for word, count in sorted(self.counts.items())))
        print(('passed  ' if not self.wrong else 'FAILED  ') + f'each answer by itself: {self.wrong[:3] or "all right"}')
        print(('passed  ' if right else 'FAILED  ') + f'the rows at the end: {told}')
        print(f'{(not self.wrong) + right} passed, {bool(self.wrong) + (not right)} failed')
        return 1 if self.wrong or not right else 0


if __name__ == '__main__':
    if len(sys.argv) not in (5, 6, 8):
        sys.exit(__doc__)
    sys.exit(Run(*sys.argv[1:]).run())
