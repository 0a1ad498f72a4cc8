#!/usr/bin/env python3
"""Tries a server with lists of changes, questions to the policy, policies, the trail and metrics, by HTTP.

    calls.py BASE --as NAME:SECRET [--other NAME:SECRET] [--class NAME] [--denied NAME] [--policies FILE] [--metrics]

BASE is the server's address. NAME is a steward who may read, add, reshape and delete features of the class (`mast`), and is denied to
add one of the class --denied (`zone`); --other is somebody who is no steward. FILE has the policies of the configuration: they are put in
force again at the end of each test that replaces them. With --metrics NAME is also the subject of the configuration's key `metrics`.
Prints a line for each test, and `N passed, M failed` as the last one.
"""
import argparse
import base64
import json
import re
import sys
import urllib.parse

import changes
from conformance import want, want_status

JSON = 'application/json'
NOBODY_READS = {'root': {'policy': 'closed', 'combine': 'first-applicable', 'rules': [{'rule': 'nobody', 'effect': 'deny'}]}}
LINE = re.compile(r'([a-z_]+)(?:\{([^}]*)\})? (\d+(?:\.\d+)?(?:e-?\d+)?)')


class Tests(changes.Tests):
    def __init__(self, told):
        super().__init__(told)
        self.other = {'authorization': 'Basic ' + base64.b64encode(told.other.encode()).decode()} if told.other else None
        self.name, self.metrics = told.asker.split(':')[0], told.metrics
        self.policies = json.load(open(told.policies)) if told.policies else None

    # ---- what the tests ask

    def _list(self, *changes, media=JSON, query='', fields=None):
        body = ('{"changes":[' + ','.join(changes) + ']}').encode()
        return self._ask('/transactions' + query, 'POST', {'content-type': media, **(fields or {})}, body)

    def _add(self, number, geometry=None, kind=None):
        feature = self._feature(geometry or self._point(), number, {'class': kind or self.kind}).decode()
        return f'{{"action":"add","feature":{feature}}}'

    def _reshape(self, number, version, geometry=None):
        return f'{{"action":"reshape","id":{number},"version":{version},"geometry":{geometry or self._point(7, 7)}}}'

    @staticmethod
    def _delete(number, version):
        return f'{{"action":"delete","id":{number},"version":{version}}}'

    def _explain(self, fields=None, **words):
        words = {'action': 'add', 'office': 'nobody', 'class': self.kind, 'geometry': self._point(), **words}
        query = urllib.parse.urlencode({name: value for name, value in words.items() if value is not None})
        return self._ask('/explain?' + query, fields=fields)

    def _policy(self, document, fields=None):
        text = document if isinstance(document, bytes) else json.dumps(document).encode()
        return self._ask('/policy', 'PUT', {'content-type': JSON, **(fields or {})}, text)

    def _roll(self, fields=None):
        return self._ask('/trail', 'POST', fields)

    def _let_all_go(self):
        """Lets the pieces go that an earlier run may have left."""
        for number in range(1, 100):
            self._ask(f'/trail/{number}', 'DELETE')

    # ---- tests

    def commits_a_list(self):
        """POST /transactions: 200, one version for all changes; then they are all there"""
        one, two = self._number(), self._number()
        got = self._list(self._add(one), self._add(two, self._line((0, 0), (5, 7))))
        want_status(got, 200, 'two features')
        said = got.json()
        want(said['changes'] == 2 and got.media() == JSON, said)
        for number in (one, two):
            want(self._read(number).json()['properties']['version'] == said['version'], 'another version')
        got = self._list(self._reshape(one, said['version']), self._delete(two, said['version']))
        want_status(got, 200, 'a feature moves, another one goes')
        want(self._read(one).json()['properties']['version'] == got.json()['version'], 'it did not move')
        want(self._ask(f'/collections/features/items/{two}').status == 404, 'it is still there')

    def commits_whole_or_not_at_all(self):
        """a list with a change that is stale, absent, in use or denied has no effect: 409 or 403, and which change it was"""
        number, tag = self._added()
        version = int(tag.strip('"'))
        new = self._number()
        for change, status, code, member in (
                (self._reshape(number, version + 1000), 409, 'stale', ('current', version)),
                (self._delete(new + 10 ** 6, 1), 409, 'absent', None),
                (self._add(number), 409, 'exists', None),
                (self._add(self._number(), kind=self.denied), 403, 'denied', None)):
            said = self._refused(self._list(self._add(new), change), status, code, change)
            want(said['change'] == 2, said)
            want(member is None or said[member[0]] == member[1], said)
            want(status != 403 or 'rule' in said, said)
            want(self._ask(f'/collections/features/items/{new}').status == 404, f'{code}: half a list')

    def takes_sixteen(self):
        """1 to 16 changes, no feature twice: else 422"""
        numbers = [self._number() for _ in range(17)]
        want_status(self._list(*map(self._add, numbers[:16])), 200, 'sixteen')
        self._refused(self._list(*map(self._add, [self._number() for _ in range(17)])), 422, '.+', 'seventeen')
        self._refused(self._list(), 422, '.+', 'none')
        twice = self._number()
        said = self._refused(self._list(self._add(twice), self._add(twice)), 422, '.+', 'a feature twice')
        want(said['place'].startswith('/changes/1'), said)

    def says_where_a_list_is_wrong(self):
        """a list that cannot be read: 400, 415, 422 with the place"""
        self._refused(self._list(self._add(self._number()), media='text/plain'), 415, '.+', 'another type')
        self._refused(self._list(self._add(self._number()), query='?a=1'), 400, '.+', 'a query')
        for body in (b'', b'{', b'[]', b'{"changes":{}}', b'{"changes":[1]}', b'{"changes":[{"action":"move"}]}', b'\xff'):
            got = self._ask('/transactions', 'POST', {'content-type': JSON}, body)
            self._refused(got, 400, '.+', body)
        said = self._refused(self._list(self._add(self._number()), self._add(self._number(), '{"type":"Point","coordinates":["x",1]}')), 400, '.+', 'no number')
        want(said['place'].startswith('/changes/1/feature/geometry'), said)
        bow = self._region(((0, 0), (9, 9), (9, 0), (0, 9), (0, 0)))
        said = self._refused(self._list(self._add(self._number(), bow)), 422, 'P[1-9]', 'a bow')
        want(said['place'].startswith('/changes/0'), said)
        for method in ('GET', 'PUT', 'DELETE'):
            got = self._ask('/transactions', method, {'content-type': JSON}, b'{}' if method != 'GET' else None)
            self._refused(got, 405, 'method', method)
            want(got.fields['allow'] == 'POST', got.fields)
        self._refused(self._list(self._add(self._number()), fields={'origin': 'https://elsewhere.example'}), 403, 'origin', 'another origin')

    def explains(self):
        """GET /explain: the decision, its rule and the edition, as a change is decided then"""
        edition = None
        for kind, decision in ((self.kind, 'permit'), (self.denied, 'deny')):
            got = self._explain(**{'class': kind})
            want_status(got, 200, kind)
            said = got.json()
            want(said['decision'] == decision and set(said) == {'decision', 'rule', 'edition'}, said)
            want(edition in (None, said['edition']), 'another edition')
            edition = said['edition']
        for shape in (self._line((0, 0), (3, 3)), self._region(((0, 0), (9, 0), (9, 9), (0, 0)))):
            for action in ('read', 'reshape', 'delete'):
                want_status(self._explain(action=action, geometry=shape), 200, f'{action} {shape}')
        want(self._ask('/explain?' + urllib.parse.urlencode({'action': 'add', 'office': 'x', 'class': self.kind, 'geometry': self._point()}), 'HEAD').status == 200, 'HEAD')

    def says_where_a_question_is_wrong(self):
        """a question without one of its words, with a word twice, or one that is none: 400; another method: 405"""
        for name in ('action', 'office', 'class', 'geometry'):
            self._refused(self._explain(**{name: None}), 400, '.+', f'no {name}')
        for name, value in (('action', 'move'), ('office', 'Not A Name'), ('class', ''), ('geometry', 'POINT(1 2)'), ('more', '1')):
            self._refused(self._explain(**{name: value}), 400, '.+', f'{name} {value}')
        self._refused(self._ask('/explain?action=add&action=add'), 400, '.+', 'twice')
        got = self._ask('/explain', 'DELETE')
        self._refused(got, 405, 'method', 'DELETE')
        want(got.fields['allow'] == 'GET, HEAD', got.fields)

    def governs(self):
        """PUT /policy: the edition; what it denies is denied from then on; nobody but a steward, and no text that is none"""
        if self.policies is None:
            return
        number, _ = self._added()
        first = self._explain().json()['edition']
        try:
            got = self._policy(NOBODY_READS)
            want_status(got, 200, 'a policy')
            want(got.json() == {'edition': first + 1}, got.body)
            want(self._ask(f'/collections/features/items/{number}').status == 404, 'it is still read')
            want(self._explain(action='read').json() == {'decision': 'deny', 'rule': 'nobody', 'edition': first + 1}, 'another ruling')
        finally:
            want_status(self._policy(self.policies), 200, 'the policy of the configuration')
        self._read(number)
        self._refused(self._policy(b'{'), 400, 'D1', 'no JSON')
        self._refused(self._policy(b'{"root":{}}'), 422, 'D[2-8]', 'no policy')
        if self.other:
            self._refused(self._policy(self.policies, self.other), 403, 'X7', 'no steward')
        got = self._ask('/policy')
        self._refused(got, 405, 'method', 'GET')
        want(got.fields['allow'] == 'PUT', got.fields)
        want(self._explain().json()['edition'] == first + 2, 'more editions')

    def rolls(self):
        """POST /trail: 201 and where; GET: as many records as said, the last change among them; DELETE: 204, then 404"""
        self._let_all_go()
        number, tag = self._added()
        got = self._roll()
        want_status(got, 201, 'a roll')
        said = got.json()
        want(got.fields['location'].endswith(f'/trail/{said["piece"]}'), got.fields)
        path = f'/trail/{said["piece"]}'
        piece = self._ask(path)
        want_status(piece, 200, path)
        want(piece.media() == 'application/x-ndjson', piece.fields)
        records = [json.loads(line) for line in piece.body.decode().splitlines()]
        want(len(records) == said['records'] > 0, f'{len(records)} records, and {said}')
        want(any(str(number) in json.dumps(record) for record in records), 'the change is not among them')
        want(self._ask(path).body == piece.body, 'another piece at the second look')
        if self.other:
            self._refused(self._ask(path, fields=self.other), 404, 'absent', 'somebody else')
            self._refused(self._ask(path, 'DELETE', self.other), 404, 'absent', 'somebody else')
            self._refused(self._roll(self.other), 403, 'X7', 'no steward')
        self._refused(self._roll({'origin': 'https://elsewhere.example'}), 403, 'origin', 'another origin')
        got = self._ask('/trail')
        self._refused(got, 405, 'method', 'GET')
        want(got.fields['allow'] == 'POST', got.fields)
        want_status(self._ask(path, 'DELETE'), 204, 'it is let go')
        self._refused(self._ask(path), 404, 'absent', 'it is gone')
        self._refused(self._ask(path, 'DELETE'), 404, 'absent', 'it is gone')
        for path in ('/trail/0', '/trail/x', '/trail/01', '/trail/'):
            want(self._ask(path).status == 404, path)

    def keeps_four_pieces(self):
        """POST /trail: a fifth piece gets 409 and takes nothing out, until one is let go"""
        self._let_all_go()
        pieces = [self._roll().json()['piece'] for _ in range(4)]
        want(pieces == list(range(pieces[0], pieces[0] + 4)), pieces)
        self._added()
        self._refused(self._roll(), 409, 'pieces', 'a fifth')
        want_status(self._ask(f'/trail/{pieces[1]}', 'DELETE'), 204, 'one is let go')
        got = self._roll()
        want_status(got, 201, 'a fifth, then')
        want(got.json()['records'] > 0, 'the records are gone')
        self._let_all_go()

    def is_watched(self):
        """GET /metrics: Prometheus' text for its subject alone; what was asked is counted"""
        if not self.metrics:
            want(self._ask('/metrics').status == 404, 'there is a page')
            return
        def readings():
            got = self._ask('/metrics')
            want_status(got, 200, 'metrics')
            want(got.fields['content-type'] == 'text/plain; version=0.0.4; charset=utf-8', got.fields)
            lines = got.body.decode().splitlines()
            want(all(line.startswith('# ') or LINE.fullmatch(line.replace('+Inf', '0')) for line in lines), lines)
            return {line.rsplit(' ', 1)[0]: float(line.rsplit(' ', 1)[1]) for line in lines if not line.startswith('#')}
        before = readings()
        self._added()
        self._ask('/collections/features/items?limit=1')
        after = readings()
        for name, grown in (('landmap_commits_total', 1), ('landmap_searches_total', 1), ('landmap_records_total', 2),
                            ('landmap_http_requests_total{status="201"}', 1), ('landmap_http_request_seconds_count', 3)):
            want(after[name] - before[name] >= grown, f'{name}: {before[name]}, then {after[name]}')
        counts = [value for name, value in after.items() if name.startswith('landmap_http_request_seconds_bucket')]
        want(counts == sorted(counts) and counts[-1] == after['landmap_http_request_seconds_count'], counts)
        want(2 ** 20 < after['process_resident_memory_bytes'] < 2 ** 40, after)
        if self.other:
            self._refused(self._ask('/metrics', fields=self.other), 403, 'metrics', 'somebody else')

    def run(self):
        own = [name for name in vars(Tests) if not name.startswith('_') and name != 'run']
        return self._run_all(own)


def main():
    parser = argparse.ArgumentParser(description=__doc__.splitlines()[0])
    parser.add_argument('base')
    parser.add_argument('--class', dest='kind', default='mast')
    parser.add_argument('--denied', default='zone')
    parser.add_argument('--as', dest='asker', required=True)
    parser.add_argument('--other')
    parser.add_argument('--policies')
    parser.add_argument('--metrics', action='store_true')
    parser.add_argument('--seed', type=int, default=5)
    parser.add_argument('--count', type=int, default=1000)
    sys.exit(1 if Tests(parser.parse_args()).run() else 0)


if __name__ == '__main__':
    main()
