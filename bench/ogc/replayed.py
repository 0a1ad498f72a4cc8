#!/usr/bin/env python3
"""Mixed requests by many clients at once, and the trail as their judge: replayed.py BASE SOCKET --as NAME:SECRET --steward NAME [--secret NAME:SECRET]..

BASE is the address of a running server by HTTP, SOCKET its socket of session lines, NAME a subject with a secret, and the steward one.
Session lines say secrets too, since the server's configuration has keys: --secret has that of the steward, and of `anonymous`.
Half of the clients ask by HTTP, half by session lines: searches, pages, single features, changes, explanations, policies, rolls, and
requests that are ill-formed or stale on purpose. Each keeps what it asked, what it was answered, and when. The steward puts policies of
this script in force, so nobody else may use the server meanwhile, and its own policy is gone afterwards.
At the end the trail is rolled out, and a plain model is led along its records. Each answer has to be the one of a record, and each
record that of an answer; their order has to fit the times at which was asked and answered; and the features of the model are those that
are there at the end. A server lets go of records that nobody has rolled out where its hall changes: behind 262,144 records, which some
300,000 requests leave, or 256 MiB of replies. The steward rolls now and then, but what came since is missing then, and the looks fail: ask
less, of a server that has just begun.
Prints a line for each look, and `N passed, M failed` as the last one. With --planted the same answers and records are looked at again
with one fault in each, and each fault has to be found.
"""
import argparse
import base64
import json
import sys
import threading
import time
from decimal import Decimal

from askers import CLASSES, ByHttp, ByLine, Log
from client import Session
from conformance import GEOJSON, Client, relations
from planted import FAULTS, planted
from shapes import corners
from trail import OPEN, WHOLE, Judge, Row, printed


class Run:
    def __init__(self, told):
        self.told, self.base, self.path = told, told.base.rstrip('/'), told.socket
        self.name, self.steward = told.asker.split(':')[0], told.steward
        self.secrets = dict(text.split(':', 1) for text in [told.asker, *told.secret])
        self.own = {'authorization': 'Basic ' + base64.b64encode(told.asker.encode()).decode()}
        self.log = Log()

    def hello(self, name):
        """The line by which a session of this subject begins."""
        return f'HELLO {name} {self.secrets[name]}' if name in self.secrets else f'HELLO {name}'

    def begin(self):
        """Puts a policy in force by which all is permitted, and learns what the model begins with."""
        http = Client(self.base)
        self.front = http.public_front().lstrip('/')
        west, south, east, north = (Decimal(number) for number in json.loads(
            http.ask('/collections/features').body, parse_float=str, parse_int=str)['extent']['spatial']['bbox'][0])
        self.unit, self.origin = Decimal(1).scaleb(west.as_tuple().exponent), ((west + east) / 2, (south + north) / 2)
        self.layers = [one['id'] for one in http.ask('/collections').json()['collections'] if one['id'] in CLASSES]
        chief = Session(self.path)
        chief.ask(self.hello(self.steward))
        governed = chief.ask('POLICY ' + json.dumps(OPEN))[0]
        asked = http.ask('/collections/features/items?limit=1', fields=self.own).status
        if not governed.startswith('edition ') or asked != 200:
            sys.exit(f'POLICY of {self.steward} is answered {governed}, a search of {self.name} by HTTP {asked}')
        self.edition = int(governed.split()[1])
        self.first = max((int(row.split()[0]) for row in chief.ask(f'SEARCH {WHOLE}')[1:]), default=0) + 10
        chief.commit([f'ADD {self.first - 1} mast POINT (0 0)'])
        other = Session(self.path)
        other.ask(self.hello(self.name))
        other.commit([f'ADD {self.first - 2} mast POINT (1 1)'])
        self.rolls_too = other.ask('ROLL')[0].startswith('rolled')
        other.ask('BYE')
        chief.ask('ROLL')
        self.anonymous = None
        body = f'{{"type":"Feature","id":{self.first - 3},"geometry":{{"type":"Point","coordinates":[{self.origin[0]},{self.origin[1]}]}},"properties":{{"class":"mast"}}}}'
        if http.ask('/collections/features/items', 'POST', {'content-type': GEOJSON}, body.encode()).status == 201:
            self.anonymous = json.loads(chief.ask('ROLL')[1])['subject']
        self.version = int(chief.commit([f'DELETE {self.first - 2} {self.now(chief, self.first - 2).version}'])[1])
        self.rows = self.all(chief)
        self.offices = {self.steward: self.office(self.first - 1), self.name: self.gone.office}
        if self.anonymous:
            self.offices[self.anonymous] = self.office(self.first - 3)
        self.offices_known = sorted(set(self.offices.values()))
        self.subjects = sorted({self.steward, self.name, self.anonymous} - {None})
        self.number = json.loads(chief.ask('ROLL')[-1])['number'] + 1
        chief.ask('BYE')

    @staticmethod
    def all(session):
        rows = [row.split(' ', 4) for row in session.ask(f'SEARCH {WHOLE}')[1:]]
        return [Row(int(row[0]), int(row[1]), *row[2:]) for row in rows]

    def now(self, session, number):
        self.gone = next(row for row in self.all(session) if row.id == number)
        return self.gone

    def office(self, number):
        return next(row.office for row in self.rows if row.id == number)

    def ask(self):
        clients = [ByHttp(self, self.told.seed * 1000 + n) if n % 2 else ByLine(self, self.told.seed * 1000 + n, n == 0) for n in range(self.told.clients)]

        def work(n):
            try:
                clients[n].work(self.told.requests // self.told.clients + (n < self.told.requests % self.told.clients))
            except Exception as wrong:  # noqa: BLE001
                self.log.wrong.append(f'client {n} ends: {type(wrong).__name__} {wrong}')

        threads = [threading.Thread(target=work, args=(n,)) for n in range(len(clients))]
        for thread in threads:
            thread.start()
        for thread in threads:
            thread.join()

    def finish(self):
        """All may be read again: the rows at the end by lines and by HTTP, and the last piece of the trail."""
        time.sleep(1)  # what clients sent before they left
        chief = ByLine(self, self.told.seed)
        chief.timed = chief.whole
        chief.begin(self.steward)
        chief.govern(OPEN)
        self.last_by_line = chief.search(WHOLE)
        http, self.last_by_http = ByHttp(self, self.told.seed), []
        path, first = '/collections/features/items?limit=30', True
        while path:
            before, after, got = http.once(path, fields=self.own)
            page = json.loads(got.body, parse_float=Decimal)
            if first:
                http.keep('answered', self.name, (WHOLE,), before, after, ('head',), f'GET {path}')
            first = False
            self.last_by_http += [self.row(feature) for feature in page['features']]
            following = relations(page).get('next')
            path = following and '/' + following['href'].split('/', 3)[3].removeprefix(self.front)
        chief.roll()
        chief.end()

    def row(self, feature):
        """The row of a SEARCH that says the same as a GeoJSON feature."""
        told = feature['properties']
        places = [tuple(int((number - origin) / self.unit) for number, origin in zip(place, self.origin)) for place in corners(feature['geometry'])]
        return f"{feature['id']} {told['version']} {told['office']} {told['class']} {printed(places)}"

    def run(self):
        self.begin()
        begun = time.monotonic()
        self.ask()
        took = time.monotonic() - begun
        self.finish()
        print(f'{self.told.requests} requests by {self.told.clients} clients in {took:.0f} s, seed {self.told.seed}: '
              + ', '.join(f'{count} {word}' for word, count in sorted(self.log.counts.items())), flush=True)
        looks = Judge(self, self.log).run_all()
        if self.told.planted:
            looks += [planted(self, fault) for fault in FAULTS]
        for told, wrong, more in looks:
            print(('FAILED  ' if wrong else 'passed  ') + told + (f': {more}' if more else '') + ''.join(f'\n        {one}' for one in wrong[:3])
                  + (f'\n        and {len(wrong) - 3} more' if len(wrong) > 3 else ''))
        failed = sum(bool(wrong) for _, wrong, _ in looks)
        print(f'{len(looks) - failed} passed, {failed} failed')
        return 1 if failed else 0


def main():
    parser = argparse.ArgumentParser(description=__doc__, formatter_class=argparse.RawDescriptionHelpFormatter)
    parser.add_argument('base')
    parser.add_argument('socket')
    parser.add_argument('--as', dest='asker', required=True, metavar='NAME:SECRET')
    parser.add_argument('--steward', required=True, metavar='NAME')
    parser.add_argument('--secret', action='append', default=[], metavar='NAME:SECRET')
    parser.add_argument('--requests', type=int, default=100_000, metavar='N')
    parser.add_argument('--clients', type=int, default=16, metavar='N')
    parser.add_argument('--seed', type=int, default=1, metavar='N')
    parser.add_argument('--planted', action='store_true', help='plant faults in what was answered and recorded, and look whether each is found')
    sys.setrecursionlimit(10_000)
    sys.exit(Run(parser.parse_args()).run())


if __name__ == '__main__':
    main()
