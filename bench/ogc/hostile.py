#!/usr/bin/env python3
"""Tries a server with ill-formed requests, random bytes and clients that behave badly: hostile.py ADDRESS [--seed N] [--count N]

ADDRESS is HOST:PORT or the path of a Unix socket. Each ill-formed request has to get its status, or the connection its end; at the end
the server has to answer as at the beginning. Prints a line for each part, and `N passed, M failed` as the last one.
"""
import argparse
import random
import re
import socket
import threading
import time

H = b'Host: localhost\r\n'
ITEMS = b'GET /collections/features/items?limit=1 HTTP/1.1\r\nHost: localhost\r\n\r\n'

# Each with the statuses that it may get, of which 0 is the end of the connection without any.
ILL_FORMED = [
    ('no host', b'GET / HTTP/1.1\r\n\r\n', {400}),
    ('two hosts', b'GET / HTTP/1.1\r\nHost: a\r\nHost: b\r\n\r\n', {400}),
    ('a host that is none', b'GET / HTTP/1.1\r\nHost: a/b\r\n\r\n', {400}),
    ('length and coding', b'POST / HTTP/1.1\r\n' + H + b'Content-Length: 5\r\nTransfer-Encoding: chunked\r\n\r\n0\r\n\r\n', {400}),
    ('two lengths', b'POST / HTTP/1.1\r\n' + H + b'Content-Length: 5\r\nContent-Length: 6\r\n\r\nhello', {400}),
    ('a length that is none', b'POST / HTTP/1.1\r\n' + H + b'Content-Length: 5x\r\n\r\nhello', {400}),
    ('a length below zero', b'POST / HTTP/1.1\r\n' + H + b'Content-Length: -5\r\n\r\n', {400}),
    ('a length above 2^64', b'POST / HTTP/1.1\r\n' + H + b'Content-Length: 18446744073709551617\r\n\r\n', {400, 413}),
    ('a chunk whose length is none', b'POST / HTTP/1.1\r\n' + H + b'Transfer-Encoding: chunked\r\n\r\nzz\r\n\r\n', {400}),
    ('a chunk that is longer than told', b'POST / HTTP/1.1\r\n' + H + b'Transfer-Encoding: chunked\r\n\r\n2\r\nabcd\r\n0\r\n\r\n', {400}),
    ('bare line feeds', b'GET / HTTP/1.1\nHost: localhost\n\n', {400}),
    ('a blank before the colon', b'GET / HTTP/1.1\r\nHost : h\r\n\r\n', {400}),
    ('a folded field', b'GET / HTTP/1.1\r\n' + H + b'A: b\r\n c\r\n\r\n', {400}),
    ('a field without a name', b'GET / HTTP/1.1\r\n' + H + b': b\r\n\r\n', {400}),
    ('a zero byte in a field', b'GET / HTTP/1.1\r\n' + H + b'A: \x00\r\n\r\n', {400}),
    ('a blank in the path', b'GET /a b HTTP/1.1\r\n' + H + b'\r\n', {400}),
    ('no path', b'GET HTTP/1.1\r\n' + H + b'\r\n', {400}),
    ('an authority of nobody', b'GET h:80 HTTP/1.1\r\n' + H + b'\r\n', {421}),
    ('a star', b'GET * HTTP/1.1\r\n' + H + b'\r\n', {400, 404}),
    ('CONNECT', b'CONNECT h:80 HTTP/1.1\r\n' + H + b'\r\n', {421}),
    ('a long path', b'GET /' + b'a' * 20_000 + b' HTTP/1.1\r\n' + H + b'\r\n', {414, 431}),
    ('a long query', b'GET /?' + b'a' * 15_000 + b' HTTP/1.1\r\n' + H + b'\r\n', {400, 414, 431}),
    ('a long field', b'GET / HTTP/1.1\r\n' + H + b'A: ' + b'b' * 40_000 + b'\r\n\r\n', {431}),
    ('300 fields', b'GET / HTTP/1.1\r\n' + H + b'A: b\r\n' * 300 + b'\r\n', {431}),
    ('a field without an end', b'GET / HTTP/1.1\r\n' + H + b'A' * 100_000, {400, 431}),
    ('a long body', b'POST / HTTP/1.1\r\n' + H + b'Content-Length: 700000000\r\n\r\n', {413}),
    ('a coding that nobody knows', b'POST / HTTP/1.1\r\n' + H + b'Transfer-Encoding: gzip, chunked\r\n\r\n0\r\n\r\n', {501}),
    ('HTTP/2.0', b'GET / HTTP/2.0\r\n' + H + b'\r\n', {400, 505}),
    ('the beginning of HTTP/2', b'PRI * HTTP/2.0\r\n\r\nSM\r\n\r\n', {400, 505}),
    ('HTTP/1.10', b'GET / HTTP/1.10\r\n' + H + b'\r\n', {400, 505}),
    ('HTTP/0.9', b'GET /\r\n\r\n', {400}),
    ('TLS', b'\x16\x03\x01\x02\x00\x01\x00\x01\xfc\x03\x03' + bytes(64) + b'\r\n\r\n', {400}),
    ('a session line', b'HELLO north\n\n', {400}),
    ('another host', b'GET / HTTP/1.1\r\nHost: rebound.example\r\n\r\n', {421}),
    ('a host that begins as its own', b'GET / HTTP/1.1\r\nHost: localhost.example\r\n\r\n', {421}),
    ('a target of another host', b'GET http://rebound.example/ HTTP/1.1\r\n' + H + b'\r\n', {421}),
    ('HTTP/1.0 without a host', b'GET / HTTP/1.0\r\n\r\n', {421}),
    ('half a request', b'GET / HTTP/1.1\r\nHo', {0, 400}),
    ('half a body', b'POST / HTTP/1.1\r\n' + H + b'Content-Length: 5\r\n\r\nhe', {0, 400}),
    ('nothing', b'', {0}),
]
# Odd, and yet to be answered.
WELL_FORMED = [
    ('absolute form', b'GET http://localhost/conformance HTTP/1.1\r\nHost: x\r\n' + b'\r\n', {200}),
    ('a blank line in front', b'\r\nGET /conformance HTTP/1.1\r\n' + H + b'\r\n', {200}),
    ('HTTP/1.0', b'GET /conformance HTTP/1.0\r\n' + H + b'\r\n', {200}),
    ('TRACE', b'TRACE / HTTP/1.1\r\n' + H + b'\r\n', {405}),
    ('a method of nobody', b'BREW / HTTP/1.1\r\n' + H + b'\r\n', {405}),
    ('a body with GET', b'GET /conformance HTTP/1.1\r\n' + H + b'Content-Length: 2\r\n\r\nhm', {200}),
    ('chunks', b'POST / HTTP/1.1\r\n' + H + b'Transfer-Encoding: chunked\r\n\r\n2\r\nhm\r\n0\r\n\r\n', {405}),
    ('dots in the path', b'GET /collections/../api HTTP/1.1\r\n' + H + b'\r\n', {404}),
    ('escapes in the path', b'GET /%61pi HTTP/1.1\r\n' + H + b'\r\n', {404}),
    ('two slashes', b'GET //api HTTP/1.1\r\n' + H + b'\r\n', {404}),
    ('a path of script', b"GET /collections/%3Cscript%3E/items HTTP/1.1\r\n" + H + b'\r\n', {404}),
]
STATUS = re.compile(rb'HTTP/1\.[01] (\d{3}) ')


class Tries:
    def __init__(self, address, seed, count):
        self.address, self.seed, self.count = address, seed, count
        self.dice = random.Random(seed)
        self.passed = self.failed = 0

    def connect(self):
        if '/' in self.address:
            peer = socket.socket(socket.AF_UNIX)
            peer.settimeout(20)
            peer.connect(self.address)
            return peer
        host, _, port = self.address.rpartition(':')
        return socket.create_connection((host.strip('[]'), int(port)), timeout=20)

    def speak(self, text, ends=True):
        """All that comes back until the server ends the connection, and whether it did."""
        got = b''
        with self.connect() as peer:
            try:
                peer.sendall(text)
                if ends:
                    peer.shutdown(socket.SHUT_WR)
            except OSError:
                pass
            try:
                while piece := peer.recv(1 << 16):
                    got += piece
            except TimeoutError:
                return got, False
            except OSError:
                pass
        return got, True

    def look(self, name, right, told=''):
        self.passed, self.failed = self.passed + bool(right), self.failed + (not right)
        print(('passed  ' if right else 'FAILED  ') + name + (f': {told}' if told else ''), flush=True)

    def table(self, rows):
        for name, text, wanted in rows:
            got, ended = self.speak(text)
            status = int(match[1]) if (match := STATUS.match(got)) else 0 if not got else -1
            self.look(name, status in wanted and ended, status or 'the end')

    def are_answers(self, got):
        """Whether bytes are nothing, or begin as an answer does."""
        return not got or STATUS.match(got)

    def random_bytes(self):
        bad = []
        for number in range(self.count):
            text = self.dice.randbytes(self.dice.choice([1, 10, 200, 5000, 40_000]))
            got, ended = self.speak(text)
            if not ended or not self.are_answers(got):
                bad.append((number, got[:80]))
        self.look(f'{self.count} times random bytes, seed {self.seed}', not bad, bad[:3])

    def bent_requests(self):
        bad, answered = [], 0
        for number in range(self.count):
            text = bytearray(ITEMS * 2)
            for _ in range(self.dice.randint(1, 4)):
                at = self.dice.randrange(len(text))
                what = self.dice.randrange(3)
                if what == 0:
                    text[at] = self.dice.randrange(256)
                elif what == 1:
                    del text[at:at + self.dice.randint(1, 20)]
                else:
                    text[at:at] = self.dice.choice([b'\r\n', b'\n', b'\x00', b' ', b'%', b'&&', b'Host: x\r\n', b'9' * 30])
            got, ended = self.speak(bytes(text))
            answered += got.startswith(b'HTTP/1.1 200')
            if not ended or not self.are_answers(got):
                bad.append((number, got[:80]))
        self.look(f'{self.count} times a request that is bent here and there ({answered} were answered all the same)', not bad, bad[:3])

    def queries(self):
        """Queries of all kinds get 200, 400 or 410, and the next request of the connection its answer."""
        values = ['', '7,46,8,47', '7,46,7,46', '7,46,0,8,47,1', '8,46,7,47', '7,46,8', '1e9,1e9,1e9,1e9', '7%2C46%2C8%2C47', '1', '0', '3', '10000', '99999999', '-1',
                  '2026-11-28', '2026-11-28/..', '../..', 'x', '%zz', '18446744073709551616']
        bits = ['bbox', 'limit', 'datetime', 'kept', 'after', '=', '&', ',', '7', '46', '-1', '1e9', '1e-9', '1e99999', '.', '..', '/',
                '%2C', '%00', '%', '%zz', '+', 'x', '2026-11-28', '0', '9' * 40, '7,46,8,47', '\u00e9']
        bad, counts = [], {}
        for _ in range(self.count * 3):
            if self.dice.random() < 0.7:
                names = self.dice.sample(['bbox', 'limit', 'datetime', 'kept', 'after', 'Limit'], self.dice.choice([1, 1, 1, 2]))
                query = '&'.join(f'{name}={self.dice.choice(values)}' for name in names).encode()
            else:
                query = ''.join(self.dice.choice(bits) for _ in range(self.dice.randint(1, 12))).encode()
            got, ended = self.speak(b'GET /collections/features/items?' + query + b' HTTP/1.1\r\n' + H + b'\r\nGET /conformance HTTP/1.1\r\n' + H + b'\r\n')
            statuses = [int(status) for status in re.findall(rb'HTTP/1\.1 (\d{3}) ', got)]
            counts[statuses[:1] and statuses[0]] = counts.get(statuses[:1] and statuses[0], 0) + 1
            if not ended or not statuses or statuses[0] not in (200, 400, 410) or statuses[0] != 400 and statuses[-1] != 200:
                bad.append((query, statuses))
        self.look(f'{self.count * 3} queries', not bad, bad[:3] or counts)

    def pipeline(self):
        paths = [self.dice.choice(['/conformance', '/nowhere', '/collections/features/items?limit=1', '/collections']) for _ in range(60)]
        got, _ = self.speak(b''.join(f'GET {path} HTTP/1.1\r\nHost: localhost\r\n\r\n'.encode() for path in paths))
        wanted = [404 if path == '/nowhere' else 200 for path in paths]
        self.look('60 requests at once are answered in order', [int(status) for status in re.findall(rb'HTTP/1\.1 (\d{3}) ', got)] == wanted)

    def slowly(self):
        with self.connect() as peer:
            for byte in b'GET /conformance HTTP/1.1\r\nHost: localhost\r\nConnection: close\r\n\r\n':
                peer.sendall(bytes([byte]))
                time.sleep(0.005)
            got = peer.recv(100)
        self.look('a request byte by byte', got.startswith(b'HTTP/1.1 200'), got[:20])

    def leaving(self):
        for _ in range(self.count):
            with self.connect() as peer:
                peer.sendall(ITEMS[:self.dice.randrange(len(ITEMS) + 1)] * self.dice.choice([1, 1, 3]))
                if self.dice.random() < 0.5:
                    peer.setsockopt(socket.SOL_SOCKET, socket.SO_LINGER, b'\x01\x00\x00\x00\x00\x00\x00\x00')
        self.look(f'{self.count} clients that leave without a word', True)

    def never_reading(self):
        """Clients that ask much and read nothing, until the system's buffers are full."""
        peers = []
        for _ in range(4):
            peer = self.connect()
            peer.settimeout(1)
            try:
                for _ in range(2000):
                    peer.sendall(b'GET /api HTTP/1.1\r\nHost: localhost\r\n\r\n' * 10)
            except OSError:
                pass
            peers.append(peer)
        begun = time.time()
        got, _ = self.speak(b'GET /conformance HTTP/1.1\r\nHost: localhost\r\nConnection: close\r\n\r\n')
        self.look('another client is served beside four that never read', got.startswith(b'HTTP/1.1 200'), f'{time.time() - begun:.1f} s')
        for peer in peers:
            peer.close()

    def silent(self):
        """How long a request waits while others are silent: no worker is free before the first of them is let go."""
        peers = [self.connect() for _ in range(40)]
        begun = time.time()
        got, _ = self.speak(b'GET /conformance HTTP/1.1\r\nHost: localhost\r\nConnection: close\r\n\r\n')
        for peer in peers:
            peer.close()
        self.look('a request beside 40 silent clients', got.startswith(b'HTTP/1.1 200'), f'{time.time() - begun:.1f} s')

    def at_once(self):
        """Many of the parts above at the same time."""
        wrong = []
        def run(seed):
            dice = random.Random(seed)
            for _ in range(self.count // 4):
                try:
                    got, ended = self.speak(dice.choice([row[1] for row in ILL_FORMED + WELL_FORMED] + [dice.randbytes(300), ITEMS * 3]))
                except OSError as error:
                    wrong.append(error)
                    continue
                if not ended or not self.are_answers(got):
                    wrong.append(got[:80])
        threads = [threading.Thread(target=run, args=(self.seed + n,)) for n in range(16)]
        for thread in threads:
            thread.start()
        for thread in threads:
            thread.join()
        self.look(f'16 clients at once, {self.count // 4} requests each', not wrong, wrong[:3])

    def some_pages(self):
        pages = []
        for path in (b'/', b'/collections', b'/api'):
            got, _ = self.speak(b'GET ' + path + b' HTTP/1.1\r\n' + H + b'Connection: close\r\n\r\n')
            pages.append(got.split(b'\r\n\r\n', 1)[1])
        return pages

    def run(self):
        before = self.some_pages()
        self.table(ILL_FORMED)
        self.table(WELL_FORMED)
        for part in (self.random_bytes, self.bent_requests, self.queries, self.pipeline, self.slowly, self.leaving, self.never_reading, self.silent,
                     self.at_once):
            part()
        after = self.some_pages()
        self.look('at the end the server answers as at the beginning', before == after and all(before))
        print(f'{self.passed} passed, {self.failed} failed')
        return self.failed


if __name__ == '__main__':
    parser = argparse.ArgumentParser(description=__doc__, formatter_class=argparse.RawDescriptionHelpFormatter)
    parser.add_argument('address')
    parser.add_argument('--seed', type=int, default=1)
    parser.add_argument('--count', type=int, default=200)
    words = parser.parse_args()
    raise SystemExit(1 if Tries(words.address, words.seed, words.count).run() else 0)
