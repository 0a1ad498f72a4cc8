#!/usr/bin/env python3
"""Tries the map page in a headless Chromium, by its DevTools protocol: browser.py [--changes CLASS] BASE [FOLDER]

BASE is the address of a server, as http://127.0.0.1:8080; its map should have some features. FOLDER, if it is given, gets pictures of
the page. With --changes the page also adds points of this class, moves and deletes them: then whoever asks there without a name has to be
permitted to. Prints a line for each look, and `N passed, M failed` as the last one.
"""
import argparse
import base64
import json
import os
import shutil
import socket
import struct
import subprocess
import sys
import tempfile
import time
import urllib.error
import urllib.request


KEYS = {'Enter': 13, 'Tab': 9, 'Escape': 27, 'ArrowLeft': 37, 'ArrowUp': 38, 'ArrowRight': 39, 'ArrowDown': 40}


class Socket:
    """A WebSocket (RFC 6455), as far as the protocol needs it."""

    def __init__(self, port, path):
        self.peer = socket.create_connection(('127.0.0.1', port), timeout=30)
        key = base64.b64encode(os.urandom(16)).decode()
        self.peer.sendall((f'GET {path} HTTP/1.1\r\nHost: 127.0.0.1:{port}\r\nUpgrade: websocket\r\nConnection: Upgrade\r\n'
                           f'Sec-WebSocket-Key: {key}\r\nSec-WebSocket-Version: 13\r\n\r\n').encode())
        self.left = b''
        while b'\r\n\r\n' not in self.left:
            self.left += self.peer.recv(4096)
        self.left = self.left.split(b'\r\n\r\n', 1)[1]

    def read(self, count):
        while len(self.left) < count:
            piece = self.peer.recv(1 << 20)
            if not piece:
                raise EOFError
            self.left += piece
        got, self.left = self.left[:count], self.left[count:]
        return got

    def receive(self):
        text = b''
        while True:
            first, second = self.read(2)
            size = second & 127
            if size == 126:
                (size,) = struct.unpack('>H', self.read(2))
            elif size == 127:
                (size,) = struct.unpack('>Q', self.read(8))
            text += self.read(size)
            if first & 128:
                return text.decode()

    def send(self, text):
        data, mask = text.encode(), os.urandom(4)
        if len(data) < 126:
            size = bytes([128 | len(data)])
        elif len(data) < 65536:
            size = bytes([254]) + struct.pack('>H', len(data))
        else:
            size = bytes([255]) + struct.pack('>Q', len(data))
        self.peer.sendall(b'\x81' + size + mask + bytes(byte ^ mask[n % 4] for n, byte in enumerate(data)))


class Browser:
    def __init__(self):
        self.folder = tempfile.mkdtemp()
        self.program = subprocess.Popen(
            ['chromium', '--headless=new', '--no-sandbox', '--disable-gpu', '--hide-scrollbars', '--remote-debugging-port=0', '--no-first-run',
             '--disable-background-networking', f'--user-data-dir={self.folder}', 'about:blank'],
            stdout=subprocess.DEVNULL, stderr=subprocess.DEVNULL)
        port_file = os.path.join(self.folder, 'DevToolsActivePort')
        for _ in range(300):
            if os.path.exists(port_file) and os.path.getsize(port_file):
                break
            time.sleep(0.1)
        with open(port_file, encoding='utf-8') as file:
            self.port = int(file.readline())
        pages = json.load(urllib.request.urlopen(f'http://127.0.0.1:{self.port}/json'))
        page = next(page for page in pages if page['type'] == 'page')
        self.socket = Socket(self.port, page['webSocketDebuggerUrl'].split(str(self.port), 1)[1])
        self.number, self.events = 0, []
        for domain in ('Page', 'Runtime', 'Network', 'Log'):
            self.call(domain + '.enable')

    def call(self, method, **words):
        self.number += 1
        self.socket.send(json.dumps({'id': self.number, 'method': method, 'params': words}))
        while True:
            got = json.loads(self.socket.receive())
            if got.get('id') == self.number:
                if 'error' in got:
                    raise RuntimeError(got['error'])
                return got['result']
            self.events.append(got)

    def run(self, text):
        got = self.call('Runtime.evaluate', expression=text, awaitPromise=True, returnByValue=True)
        if 'exceptionDetails' in got:
            raise RuntimeError(json.dumps(got['exceptionDetails'])[:500])
        return got['result'].get('value')

    def wait(self, text, seconds=10):
        end = time.time() + seconds
        while time.time() < end:
            got = self.run(text)
            if got:
                return got
            time.sleep(0.05)
        return None

    def go(self, address):
        self.call('Page.navigate', url=address)
        time.sleep(0.3)

    def size(self, width, height, mobile=False):
        self.call('Emulation.setDeviceMetricsOverride', width=width, height=height, deviceScaleFactor=2 if mobile else 1, mobile=mobile)
        self.call('Emulation.setTouchEmulationEnabled', enabled=mobile, maxTouchPoints=5 if mobile else 1)

    def dark(self, on):
        self.call('Emulation.setEmulatedMedia', features=[{'name': 'prefers-color-scheme', 'value': 'dark' if on else 'light'}])

    def mouse(self, kind, x, y, **words):
        self.call('Input.dispatchMouseEvent', type=kind, x=x, y=y, **words)

    def click(self, x, y):
        self.mouse('mousePressed', x, y, button='left', clickCount=1)
        self.mouse('mouseReleased', x, y, button='left', clickCount=1)

    def drag(self, x0, y0, x1, y1):
        self.mouse('mousePressed', x0, y0, button='left', clickCount=1)
        for n in range(1, 6):
            self.mouse('mouseMoved', x0 + (x1 - x0) * n / 5, y0 + (y1 - y0) * n / 5, button='left', buttons=1)
        self.mouse('mouseReleased', x1, y1, button='left', clickCount=1)

    def touch(self, kind, *places):
        self.call('Input.dispatchTouchEvent', type=kind, touchPoints=[{'x': x, 'y': y, 'id': n} for n, (x, y) in enumerate(places)])

    def key(self, key, code=None, text=None):
        words = {'key': key, 'code': code or key, 'windowsVirtualKeyCode': KEYS.get(key, ord(key[0]))}
        self.call('Input.dispatchKeyEvent', type='keyDown', **words, **({'text': text} if text else {}))
        self.call('Input.dispatchKeyEvent', type='keyUp', **words)

    def picture(self, path):
        with open(path, 'wb') as file:
            file.write(base64.b64decode(self.call('Page.captureScreenshot', format='png')['data']))

    def close(self):
        try:
            self.call('Browser.close')
        except (OSError, EOFError):
            pass
        self.program.wait(timeout=20)
        shutil.rmtree(self.folder, ignore_errors=True)


STATE = 'document.getElementById("state").textContent'
IDLE = '!document.body.hasAttribute("aria-busy") && /feature/.test(' + STATE + ') && ' + STATE
ERROR = '(document.getElementById("error").hidden ? "" : document.querySelector("#error p").textContent)'
PANEL = '!document.getElementById("panel").hidden && document.querySelector("#panel h2").textContent'
EDIT = '!document.getElementById("edit").hidden && document.getElementById("title").textContent'
WHY = 'document.getElementById("edit").hidden ? "" : document.getElementById("why").textContent'
FOCUS = 'document.activeElement.id'


class Looks:
    def __init__(self, base, folder, kind):
        self.base, self.folder, self.kind, self.browser = base.rstrip('/'), folder, kind, Browser()
        self.passed = self.failed = self.told = 0

    def look(self, name, right, told=''):
        self.passed, self.failed = self.passed + bool(right), self.failed + (not right)
        print(('passed  ' if right else 'FAILED  ') + name + (f': {told}' if told else ''), flush=True)
        return right

    def picture(self, name):
        if self.folder:
            self.browser.picture(os.path.join(self.folder, name + '.png'))

    def asked(self):
        """The addresses that were asked for since the last call."""
        events, self.told = self.browser.events[self.told:], len(self.browser.events)
        return [event['params']['request']['url'] for event in events if event.get('method') == 'Network.requestWillBeSent']

    def settle(self):
        time.sleep(1)
        return self.browser.wait(IDLE)

    def opens(self):
        page = self.browser
        page.size(1200, 800)
        page.dark(False)
        page.go(self.base + '/map')
        state = page.wait(IDLE, 20)
        self.look('opens and fits what there is', state, state)
        asked = self.asked()
        self.look('asks no other host', all(address.startswith((self.base + '/', 'data:', 'about:')) for address in asked), f'{len(asked)} requests')
        self.look('each class has a box in the legend', page.run('document.querySelectorAll("#legend input:checked").length') > 0,
                  page.run('[...document.querySelectorAll("#legend span")].map(e => e.textContent).join(", ")'))
        bar = page.run('document.getElementById("bar").textContent')
        self.look('has a scale bar', bar.endswith('m'), bar)
        self.picture('light')

    def moves(self):
        page = self.browser
        before = page.run('location.hash')
        page.drag(600, 400, 450, 330)
        state = self.settle()
        asked = [address for address in self.asked() if 'bbox=' in address]
        self.look('a drag asks for the new view', len(asked) == 1 and 'limit=1000' in asked[0], asked[:1])
        self.look('the view is in the address', page.run('location.hash') not in ('', before), state)
        page.mouse('mouseWheel', 600, 400, deltaX=0, deltaY=-240)
        self.settle()
        self.look('the wheel zooms', any('bbox=' in address for address in self.asked()))
        page.run('document.getElementById("map").focus()')
        for key in ('ArrowLeft', 'ArrowUp', '+', '-', 'ArrowRight', 'ArrowDown'):
            before = page.run('location.hash')
            page.key(key)
            self.settle()
            self.look(f'key {key} moves the view', page.run('location.hash') != before)
        page.key('0')
        self.settle()
        self.look('key 0 shows all', any('bbox=' not in address and 'items' in address for address in self.asked()))

    def cancels(self):
        """Behind a slow line, three moves at once: the first two asks are given up."""
        page = self.browser
        page.call('Network.emulateNetworkConditions', offline=False, latency=900, downloadThroughput=-1, uploadThroughput=-1)
        before = len(page.events)
        for _ in range(3):
            page.key('ArrowLeft')
            time.sleep(0.4)
        time.sleep(1.5)
        self.settle()
        given_up = [event for event in page.events[before:] if event.get('method') == 'Network.loadingFailed' and event['params'].get('canceled')]
        self.look('asks that are out of date are given up', len(given_up) == 2, f'{len(given_up)} of 3')
        page.call('Network.emulateNetworkConditions', offline=True, latency=0, downloadThroughput=-1, uploadThroughput=-1)
        page.run('document.getElementById("again").click()')
        told = page.wait(ERROR)
        self.look('a server that does not answer is told of', told, told)
        page.call('Network.emulateNetworkConditions', offline=False, latency=0, downloadThroughput=-1, uploadThroughput=-1)
        self.look('and asked again by itself', page.wait('document.getElementById("error").hidden', 9))
        page.run('document.getElementById("whole").click()')
        self.settle()

    def tells(self):
        page = self.browser
        self.asked()
        page.run('document.getElementById("list").open = true')
        self.settle()
        self.look('a list that takes room asks for the smaller view', any('bbox=' in address for address in self.asked()))
        name = page.wait('document.querySelector("#list li button")?.textContent')
        self.look('the list has features', name, name)
        page.run('document.querySelector("#list li button").focus()')
        page.key('Enter', text='\r')
        self.look('Enter in the list tells of a feature', page.wait(PANEL), page.run('document.querySelector("#panel dl").innerText').replace('\n', ' '))
        link = page.run('document.getElementById("alone").href')
        alone = json.load(urllib.request.urlopen(link))
        self.look('its link is its GeoJSON', alone['type'] == 'Feature', link)
        page.key('Escape')
        self.look('Escape closes, and the focus goes back',
                  page.run('document.getElementById("panel").hidden && document.activeElement.closest("#list") !== null'))
        page.run('document.getElementById("list").open = false')
        self.settle()
        page.run('document.getElementById("map").focus()')
        page.key('Enter', text='\r')
        told = page.wait(PANEL)
        self.look('Enter on the map tells of the nearest feature', told and page.run('document.activeElement.id') == 'panel', told)
        leave = page.wait('/reshape: (permit|deny)[^]*edition/.test(document.querySelector("#panel dl").textContent) && /delete: (permit|deny)/.test(document.querySelector("#panel dl").textContent)', 5)
        self.look('it tells what the policy says to a change of it', leave, page.run('document.querySelector("#panel dl").innerText').replace('\n', ' '))
        self.picture('chosen')
        page.key('Escape')
        self.click_on_a_point()

    def click_on_a_point(self):
        """Clicks where a feature lies, by the view that the page's address tells."""
        page = self.browser
        page.key('+')
        self.settle()
        x, y, high = map(float, page.run('location.hash').lstrip('#').split('/'))
        box = page.run('JSON.stringify(document.getElementById("map").getBoundingClientRect())')
        box = json.loads(box)
        ask = [address for address in self.asked() if 'bbox=' in address][-1]
        west, _, east, _ = map(float, ask.split('bbox=')[1].split('&')[0].split(','))
        for feature in json.load(urllib.request.urlopen(ask))['features']:
            if feature['geometry']['type'] == 'Point':
                px, py = feature['geometry']['coordinates']
                at = box['x'] + (px - west) / (east - west) * box['width'], box['y'] + box['height'] / 2 - (py - y) / high * box['height']
                if 350 < at[0] < 800 and 200 < at[1] < 600:
                    page.click(*at)
                    told = page.wait(PANEL, 3)
                    return self.look('a click tells of the feature there', told == f"{feature['properties']['class']} {feature['id']}", told)
        return self.look('a click tells of the feature there', False, 'no point in the view')

    def hides(self):
        page = self.browser
        count = 'document.querySelectorAll("#list li").length'
        page.run('document.getElementById("list").open = true')
        self.settle()
        before = page.run(count)
        name = page.run('document.querySelector("#legend label span").textContent')
        page.run('document.querySelector("#legend input").focus()')
        page.key(' ', 'Space', text=' ')
        time.sleep(0.3)
        begin = json.dumps(name.split(' ')[0] + ' ')
        gone = page.run(f'[...document.querySelectorAll("#list li button")].every(e => !e.textContent.startsWith({begin}))')
        self.look('a class can be switched off by a key', gone, f'{name}: {before} in the list, then {page.run(count)}')
        page.key(' ', 'Space', text=' ')
        page.run('document.getElementById("list").open = false')

    def errs(self):
        """Errors are told in plain words. The answers are made up in the browser."""
        page = self.browser
        for status, body, wanted in ((503, {'code': 'X10'}, 'X10'), (403, {'code': 'H1'}, 'H1'), (502, 'a proxy', '502')):
            page.run('window.asIs ??= fetch; window.fetch = async () => new Response('
                     + json.dumps(json.dumps(body) if isinstance(body, dict) else body) + ', {status: ' + str(status) + '})')
            page.run('document.getElementById("again").click()')
            told = page.wait(f'{ERROR}.includes("{wanted}") && {ERROR}')
            self.look(f'status {status} is told', told, told)
        self.picture('error')
        page.run('window.fetch = asIs')
        page.run('document.querySelector("#error button").click()')
        self.settle()
        self.look('and asked again by a button', page.run('document.getElementById("error").hidden'))

    def pages(self):
        """Pages of 20 in place of 1,000: five are followed, five more by a button, and where the rest is gone the view is asked for anew."""
        page = self.browser
        page.run('window.asIs ??= fetch; window.fetch = (address, words) => asIs(address.replace("limit=1000", "limit=20"), words)')
        # Where a message goes, the map gets higher, and its view is asked for anew.
        time.sleep(0.6)
        self.settle()
        self.asked()
        page.run('document.getElementById("again").click()')
        self.settle()
        told = page.run(STATE)
        self.look('says how many of how many are shown', told.startswith('100 of '), told)
        time.sleep(0.6)
        asked = [address for address in self.asked() if 'bbox=' in address]
        self.look('and does not ask for it twice', len(asked) == 1, asked)
        whole = int(told.split()[2].replace(',', ''))
        page.run('document.getElementById("more").click()')
        self.settle()
        told = page.run(STATE)
        self.look('shows more by a button', told.startswith('200 of ' if whole > 200 else f'{whole} features'), told)
        page.run('window.gone = 0; window.fetch = (address, words) => address.includes("kept=") && !gone++'
                 ' ? new Response(JSON.stringify({code: "gone"}), {status: 410}) : asIs(address.replace("limit=1000", "limit=20"), words)')
        page.run('document.getElementById("again").click()')
        self.settle()
        self.look('a list that is pushed out is asked for once more', page.run('document.getElementById("error").hidden && gone > 1'), page.run(STATE))
        page.run('gone = 0')
        page.run('document.getElementById("more").click()')
        self.settle()
        told = page.run(STATE)
        self.look('asks anew where the rest of a list is gone', told.startswith('100 of ') and page.run('document.getElementById("error").hidden && gone > 1'), told)
        page.run('window.fetch = asIs')

    def fits_a_phone(self):
        page = self.browser
        page.size(390, 780, mobile=True)
        page.go('about:blank')
        page.go(self.base + '/map')
        page.wait(IDLE, 20)
        self.look('nothing is wider than a phone', page.run('document.documentElement.scrollWidth <= innerWidth'))
        small = page.run('[...document.querySelectorAll("button, summary, input, footer a")].filter(e => e.offsetParent'
                         ' && Math.max(e.offsetHeight, e.parentElement.offsetHeight) < 30).map(e => e.id || e.textContent).join()')
        self.look('what is touched is large enough', small == '', small)
        self.picture('phone')
        before = page.run('location.hash')
        page.touch('touchStart', (150, 400), (250, 400))
        for n in range(1, 8):
            page.touch('touchMove', (150 - 10 * n, 400), (250 + 10 * n, 400))
        page.touch('touchEnd')
        self.settle()
        self.look('two fingers zoom', page.run('location.hash') != before, page.run('location.hash'))
        before = page.run('location.hash')
        page.touch('touchStart', (200, 400))
        for n in range(1, 8):
            page.touch('touchMove', (200 + 10 * n, 400 + 5 * n))
        page.touch('touchEnd')
        self.settle()
        self.look('a finger moves the map', page.run('location.hash') != before)
        page.dark(True)
        time.sleep(0.3)
        self.picture('phone_dark')

    def is_dark(self):
        page = self.browser
        page.size(1200, 800)
        page.dark(True)
        page.go('about:blank')
        page.go(self.base + '/map')
        page.wait(IDLE, 20)
        self.look('is dark where that is wished', page.run('getComputedStyle(document.body).backgroundColor') == 'rgb(18, 23, 27)')
        self.picture('dark')

    def keeps_its_policy(self):
        page = self.browser
        wrong = [event for event in page.events if event.get('method') == 'Runtime.exceptionThrown'
                 or event.get('method') == 'Log.entryAdded' and event['params']['entry']['source'] != 'network']
        said = [json.dumps(event['params'])[:300] for event in wrong]
        self.look('nothing is thrown or refused by its policy', not said, said[:3])
        page.run('document.body.append(Object.assign(document.createElement("script"), {textContent: "window.got = 1"}))')
        self.look('no script runs but its own', page.run('window.got') is None)

    def click_on(self, name):
        """A click on a part of the page, by its id."""
        place = self.browser.run(f'JSON.stringify(document.getElementById("{name}").getBoundingClientRect())')
        box = json.loads(place)
        self.browser.click(box['x'] + box['width'] / 2, box['y'] + box['height'] / 2)

    def place(self):
        """The place that a click has said, once the page has painted it."""
        self.browser.wait(FOCUS + ' == "do"')
        return self.browser.run('new Promise((done) => requestAnimationFrame(() => requestAnimationFrame(() => done(document.getElementById("where").textContent))))')

    def stored(self, number):
        """The feature of this id, as the server has it; None where it has none."""
        try:
            with urllib.request.urlopen(f'{self.base}/collections/features/items/{number}') as answer:
                return json.load(answer)
        except urllib.error.HTTPError as error:
            return error.code == 404 and None

    def sent(self):
        """Method, fields and body of the changes that were sent since the last call."""
        events, self.told = self.browser.events[self.told:], len(self.browser.events)
        asked = [event['params']['request'] for event in events if event.get('method') == 'Network.requestWillBeSent']
        return [one for one in asked if one['method'] not in ('GET', 'HEAD')]

    def adds(self):
        """By mouse: a point at a click."""
        page = self.browser
        page.size(1200, 800)
        page.dark(False)
        page.go('about:blank')
        page.go(self.base + '/map')
        page.wait(IDLE, 20)
        self.sent()
        self.click_on('add')
        self.look('a button begins a new point', page.wait(EDIT) == 'Add a point')
        number = int(page.run('document.getElementById("number").value'))
        page.run(f'document.getElementById("kind").value = "{self.kind}"')
        self.look('its class can be chosen among those that are shown', page.run('document.getElementById("kind").value') == self.kind)
        page.click(560, 380)
        place = self.place()
        self.look('a click is its place, and sends nothing', place and not self.sent() and page.run(FOCUS) == 'do', place)
        self.picture('add')
        self.click_on('do')
        told = page.wait(PANEL)
        self.look('it is added, and told of', told == f'{self.kind} {number}', f'{told}; {page.run(STATE)}')
        feature, (sent,) = self.stored(number), self.sent()
        self.look('at the place that was shown, by as many decimals as the others',
                  feature and '[' + place.replace(', ', ',') + ']' in sent['postData'], sent['postData'])
        self.settle()
        return number

    def moves_a_point(self, number):
        page = self.browser
        self.click_on('shift')
        self.look('a button moves it', page.wait(EDIT) == f'Move {self.kind} {number}', page.run('document.getElementById("how").textContent'))
        page.click(500, 300)
        place = self.place()
        self.picture('move')
        self.click_on('do')
        page.wait(PANEL)
        feature, (sent,) = self.stored(number), self.sent()
        self.look('to where was clicked, if it is of the version that was seen',
                  [f'{n:.9f}' for n in feature['geometry']['coordinates']] == [f'{float(n):.9f}' for n in place.split(', ')] and 'if-match' in sent['headers'], sent['headers'].get('if-match'))
        self.settle()

    def is_stale(self, number):
        """Somebody else moves the point before this page does."""
        page = self.browser
        self.click_on('shift')
        page.wait(EDIT)
        feature = self.stored(number)
        feature['geometry']['coordinates'][0] += 0.001
        body = json.dumps({'type': 'Feature', 'id': number, 'properties': {},
                           'geometry': {'type': 'Point', 'coordinates': [round(n, 6) for n in feature['geometry']['coordinates']]}})
        request = urllib.request.Request(f'{self.base}/collections/features/items/{number}', body.encode(), method='PUT', headers={
            'content-type': 'application/geo+json', 'if-match': f'"{feature["properties"]["version"]}"'})
        urllib.request.urlopen(request).close()
        page.click(540, 420)
        self.click_on('do')
        told = page.wait(WHY)
        self.look('that somebody else has changed it is told', told and told.startswith('Somebody else'), told)
        self.picture('stale')
        self.sent()
        self.click_on('do')
        page.wait(PANEL)
        self.look('and it can be moved all the same', len(self.sent()) == 1 and self.stored(number)['properties']['version'] > feature['properties']['version'] + 1)
        self.settle()

    def deletes(self, number):
        page = self.browser
        self.click_on('drop')
        self.look('a button asks whether to delete it', page.wait(EDIT) == f'Delete {self.kind} {number}' and page.run(FOCUS) == 'leave')
        self.picture('delete')
        page.key('Escape')
        self.look('Escape leaves it', page.wait(PANEL) and page.run(FOCUS) == 'drop' and self.stored(number) and not self.sent())
        self.click_on('drop')
        page.wait(EDIT)
        self.click_on('do')
        self.settle()
        self.look('it is deleted', not self.stored(number) and len(self.sent()) == 1, page.run(STATE))

    def changes_by_keys(self):
        """A point is added, moved and deleted without a mouse; the id that is proposed first is in use."""
        page = self.browser
        page.run('document.getElementById("add").focus()')
        page.key('Enter', text='\r')
        self.look('a key begins a new point, and the focus goes to the map', page.wait(EDIT) == 'Add a point' and page.run(FOCUS) == 'map')
        page.run('document.getElementById("list").open = true')
        used = page.wait('document.querySelector("#list li button")?.textContent').split(',')[0].split()[-1]
        page.run('document.getElementById("list").open = false')
        self.settle()
        page.run(f'document.getElementById("kind").value = "{self.kind}"')
        page.run(f'document.getElementById("number").value = "{used}"')
        page.key('ArrowLeft')
        self.settle()
        page.key('Enter', text='\r')
        page.wait(FOCUS + ' == "do"')
        page.key('Enter', text='\r')
        told = page.wait(WHY)
        number = page.run('document.getElementById("number").value')
        self.look('an id in use is told, and another one proposed', told and told.startswith('This id is in use') and number != used, told)
        page.key('Enter', text='\r')
        told = page.wait(PANEL)
        self.look('and is taken', told == f'{self.kind} {number}' and self.stored(number) is not None, told)
        self.settle()
        for button, label, wanted in (('shift', 'Move', 'map'), ('drop', 'Delete', 'leave')):
            for _ in range(12):
                page.key('Tab')
                if page.run(FOCUS) == button:
                    break
            page.key('Enter', text='\r')
            self.look(f'the key Tab leads to the button {label}', page.wait(EDIT) == f'{label} {self.kind} {number}' and page.run(FOCUS) == wanted, page.run(FOCUS))
            if wanted == 'map':
                page.key('ArrowUp')
                self.settle()
                before = self.stored(number)
                page.key('Enter', text='\r')
                page.wait(FOCUS + ' == "do"')
                page.key('Enter', text='\r')
                page.wait(PANEL)
                self.settle()
                self.look('Enter is the middle as its new place', self.stored(number)['geometry'] != before['geometry'])
            else:
                for _ in range(12):
                    page.call('Input.dispatchKeyEvent', type='keyDown', key='Tab', code='Tab', windowsVirtualKeyCode=9, modifiers=8)
                    if page.run(FOCUS) == 'do':
                        break
                page.key('Enter', text='\r')
                self.settle()
                self.look('it is deleted by keys', self.stored(number) is None, page.run(STATE))

    def is_refused(self):
        """What a server may say, made up in the browser."""
        page = self.browser
        for status, problem, wanted in ((403, {'code': 'denied', 'rule': 'zones-stay'}, 'The rule "zones-stay" denies it.'),
                                        (403, {'code': 'denied', 'rule': None}, 'No rule'), (403, {'code': 'origin'}, 'address'),
                                        (405, {'code': 'method'}, 'no changes'), (401, {'code': 'H1'}, 'H1'), (400, {'code': 'M3', 'place': ''}, 'M3'),
                                        (422, {'code': 'class'}, 'class'), (503, {'code': 'held'}, 'busy'), (507, {'code': 'X11'}, 'X11'),
                                        (404, {'code': 'absent'}, 'no such feature'), (502, 'a proxy', '502'), (0, None, 'No answer came')):
            answer = ('throw new TypeError("no way")' if not status else
                      'return new Response(' + json.dumps(json.dumps(problem) if isinstance(problem, dict) else problem) + ', {status: ' + str(status) + '})')
            page.run('window.asIs ??= fetch; window.fetch = async (address, words) => { if ((words.method ?? "GET") === "GET") return asIs(address, words); ' + answer + ' }')
            self.click_on('add')
            page.wait(EDIT)
            self.click_on('do')
            told = page.wait(WHY)
            self.look(f'{status} {problem} is told', told and wanted in told, told)
            page.key('Escape')
        page.run('window.fetch = asIs')
        self.click_on('add')
        page.wait(EDIT)
        for wrong in ('', '-1', '1.5', '007', '1e3', 'x'):
            page.run(f'document.getElementById("number").value = "{wrong}"')
            page.run('document.getElementById("why").textContent = ""')
            self.sent()
            self.click_on('do')
            self.look(f'the id "{wrong}" is not sent', page.wait(WHY) and not self.sent())
        page.key('Escape')

    def changes_on_a_phone(self):
        page = self.browser
        page.size(390, 780, mobile=True)
        page.dark(True)
        page.go('about:blank')
        page.go(self.base + '/map')
        page.wait(IDLE, 20)
        page.run('document.getElementById("add").click()')
        page.wait(EDIT)
        page.run(f'document.getElementById("kind").value = "{self.kind}"')
        time.sleep(0.5)
        self.look('nothing is wider than a phone, with a point to add', page.run('document.documentElement.scrollWidth <= innerWidth'))
        small = page.run('[...document.querySelectorAll("#edit button, #edit select, #edit input")].filter(e => e.offsetParent && e.offsetHeight < 40).map(e => e.id).join()')
        self.look('what is touched there is large enough', small == '', small)
        self.look('the middle of the map is not covered', page.run('(() => { const a = document.getElementById("map").getBoundingClientRect(),'
                  ' b = document.getElementById("edit").getBoundingClientRect(); return a.y + a.height / 2 < b.y; })()'))
        self.picture('phone_add')
        page.touch('touchStart', (200, 250))
        page.touch('touchEnd')
        page.wait(FOCUS + ' == "do"')
        number = page.run('document.getElementById("number").value')
        page.run('document.getElementById("do").click()')
        told = page.wait(PANEL)
        self.look('a touch adds a point', told == f'{self.kind} {number}' and self.stored(number) is not None, told)
        self.settle()
        self.picture('phone_added')
        page.run('document.getElementById("drop").click()')
        page.wait(EDIT)
        page.run('document.getElementById("do").click()')
        self.settle()
        self.look('and it is deleted there', self.stored(number) is None)

    def changes(self):
        number = self.adds()
        self.moves_a_point(number)
        self.is_stale(number)
        self.deletes(number)
        self.changes_by_keys()
        self.is_refused()
        self.changes_on_a_phone()

    def all(self):
        try:
            for part in (self.opens, self.moves, self.cancels, self.tells, self.hides, self.pages, self.errs, self.fits_a_phone, self.is_dark,
                         *([self.changes] if self.kind else []), self.keeps_its_policy):
                part()
        finally:
            self.browser.close()
        print(f'{self.passed} passed, {self.failed} failed')
        return self.failed


if __name__ == '__main__':
    parser = argparse.ArgumentParser()
    parser.add_argument('base')
    parser.add_argument('folder', nargs='?')
    parser.add_argument('--changes', metavar='CLASS')
    told = parser.parse_args()
    sys.exit(1 if Looks(told.base, told.folder, told.changes).all() else 0)
