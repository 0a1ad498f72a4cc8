"""The trail of a server as the judge of what clients were answered: a plain model is led along its records."""
import bisect
import collections
import functools
import json
import os
import re
import sys

sys.path.insert(0, os.path.join(os.path.dirname(os.path.abspath(__file__)), '../histories'))
from histories import decided  # noqa: E402
from shapes import touch  # noqa: E402

EDGE = 10_000_000
OPEN = {'root': {'policy': 'open', 'combine': 'first-applicable', 'rules': [{'rule': 'all', 'effect': 'permit'}]}}

Row = collections.namedtuple('Row', 'id version office kind shape')


# ---- shapes, as texts and as corners

def printed(places):
    """A shape as the server prints it: from the corner of least x, then least y, on; a polygon counter-clockwise."""
    places = list(dict.fromkeys(places))
    if len(places) == 1:
        return 'POINT ({} {})'.format(*places[0])
    if len(places) == 2:
        return 'LINESTRING ({} {}, {} {})'.format(*min(places), *max(places))
    if sum(places[n - 1][0] * places[n][1] - places[n][0] * places[n - 1][1] for n in range(len(places))) < 0:
        places.reverse()
    at = places.index(min(places))
    places = places[at:] + places[:at]
    return 'POLYGON ((' + ', '.join('{} {}'.format(*place) for place in places + places[:1]) + '))'


@functools.lru_cache(maxsize=400_000)
def places_of(text):
    """The corners of a shape's text."""
    numbers = [int(number) for number in re.findall(r'-?\d+', text)]
    places = list(zip(numbers[::2], numbers[1::2]))
    return tuple(places[:-1] if text.startswith('POLYGON') else places)


def frame(west, south, east, north):
    return [(west, south), (east, south), (east, north), (west, north)]


WHOLE = printed(frame(-EDGE, -EDGE, EDGE, EDGE))


# ---- what was asked

class Asked:
    """A request that has a record: `key` is what the record has to say, `reply` what has to be true at it. Where the connection is
    broken off, there may be a record or none, and `key` has the subject, and the window, the changes or the document."""

    def __init__(self, kind, subject, key, before, after, reply, told, broken=False):
        self.kind, self.subject, self.key, self.before, self.after = kind, subject, key, before, after
        self.reply, self.told, self.broken = reply, told, broken


def change(what, number, version=None, kind=None, shape=None):
    return what, number, version, kind, shape


# ---- the model

class Among:
    """The names of zones that a shape meets; a test for one of them compares its name with this."""

    def __init__(self, names):
        self.names = names

    def __eq__(self, name):
        return name in self.names


class Model:
    """The features and the policy that the records lead to, one after another."""

    def __init__(self, rows, version, edition, document, offices):
        self.features = {row.id: row for row in rows}
        self.version, self.edition, self.documents, self.offices = version, edition, {edition: document}, offices
        self.known, self.within = {}, {}

    def ruled(self, subject, action, owner, kind, shape, edition=None):
        """The effect, and the rule's name, that a document gives."""
        edition = edition or self.edition
        document = self.documents[edition]
        zones = document.get('zones', [])
        if zones:
            within = self.within.get((edition, shape))
            if within is None:
                within = frozenset(zone['zone'] for zone in zones if touch(places_of(zone['shape']), places_of(shape)))
                self.within[edition, shape] = within
        else:
            within = frozenset()
        key = edition, subject, action, owner, kind, within
        if key not in self.known:
            question = {'office': self.offices.get(subject), 'owner': owner, 'class': kind, 'action': action, 'zone': Among(within)}
            self.known[key] = decided(document['root'], question)
        return self.known[key]

    def shown(self, subject, window):
        """The rows of a search."""
        places = places_of(window)
        whole = window == WHOLE
        return [row for _, row in sorted(self.features.items())
                if (whole or touch(places, places_of(row.shape))) and self.ruled(subject, 'read', row.office, row.kind, row.shape)[0] == 'permit']

    def fault(self, subject, one):
        """Why a change is refused, as cause, rule, current version; or None."""
        what, number, version, kind, shape = one
        there = self.features.get(number)
        if what == 'add':
            asked = [(self.offices.get(subject), kind, shape)]
        elif there is None:
            return 'absent', None, None
        else:
            asked = [(there.office, there.kind, there.shape)] + ([(there.office, there.kind, shape)] if what == 'reshape' else [])
        for question in asked:
            effect, rule = self.ruled(subject, what, *question)
            if effect != 'permit':
                return 'denied', rule, None
        if what == 'add':
            return ('exists', None, None) if there else None
        return None if there.version == version else ('stale', None, there.version)

    def judged(self, subject, changes):
        """What becomes of a list: the place of the first change that fails, with its fault; or None."""
        return next(((place, *fault) for place, one in enumerate(changes, 1) if (fault := self.fault(subject, one))), None)

    def apply(self, subject, changes, version):
        self.version = version
        for what, number, _, kind, shape in changes:
            if what == 'delete':
                self.features.pop(number, None)
            elif what == 'add':
                self.features[number] = Row(number, version, self.offices.get(subject), kind, shape)
            elif number in self.features:
                self.features[number] = self.features[number]._replace(version=version, shape=shape)

    def explained(self, subject, action, owner, kind, shape, edition):
        effect, rule = self.ruled(subject, action, owner, kind, shape, edition)
        return f'{"permit" if effect == "permit" else "denied"} {f"rule {rule}" if rule else "none"} edition {edition}'


def rules_of(node):
    """The names of a document's rules, in their order."""
    return [node['rule']] if 'effect' in node else [name for child in node.get('rules', node.get('of', [])) for name in rules_of(child)]


# ---- the judge

class Record:
    """A record: what it says as the key of a request, and what the model has at it."""

    def __init__(self, number, kind, subject, key, more):
        self.number, self.kind, self.subject, self.key, self.more = number, kind, subject, key, more


def changes_of(record):
    return tuple(change(one['what'], one['id'], one.get('version'), one.get('class'), one.get('shape')) for one in record['changes'])


class Judge:
    def __init__(self, run, log):
        self.run, self.log, self.looks = run, log, []

    def look(self, told, wrong, more=''):
        self.looks.append((told, list(wrong), more))

    def run_all(self):
        records = [json.loads(line) for _, _, piece in self.log.rolls for line in piece]
        self.numbers(records)
        self.seats(records)
        self.model = Model(self.run.rows, self.run.version, self.run.edition, OPEN, self.run.offices)
        self.records, wrong = [], []
        for record in records:
            fault = self.replay(record)
            if fault:
                wrong.append(f'record {record["number"]}: {fault}')
        self.look('each record is what the model gives at its place', wrong, f'{len(records)} records')
        self.fit()
        self.explanations()
        self.look('what is ill-formed, or dropped, is answered as its form says', [
            f'{told} is answered {answer}, not {due}' for told, answer, due in self.log.formed if not re.fullmatch(due, answer)], str(len(self.log.formed)))
        self.look('no answer is wrong by itself, and each client came to its end', self.log.wrong)
        self.end()
        return self.looks

    def numbers(self, records):
        wrong, due = [], self.run.number
        for record in records:
            if record['number'] != due:
                wrong.append(f'record {record["number"]} stands where {due} is due')
            due = record['number'] + 1
        self.look('the records of all pieces follow one another', wrong, f'{len(self.log.rolls)} pieces, numbers {self.run.number} to {due - 1}')

    def seats(self, records):
        wrong, seats = [], {}
        for record in records:
            subject = record.get('subject', self.run.steward)
            if seats.setdefault(record['seat'], subject) != subject:
                wrong.append(f'record {record["number"]} of {subject} has seat {record["seat"]} of {seats[record["seat"]]}')
        self.look('each seat is one subject\'s', wrong, f'{len(seats)} seats')

    def replay(self, record):
        """Leads the model along a record, and says what it does not agree with."""
        kind, model = record['kind'], self.model
        if kind == 'governed':
            document, edition = record['document'], record['edition']
            fault = None if edition == model.edition + 1 else f'edition {edition} behind {model.edition}'
            model.edition, model.documents[edition] = edition, document
            self.keep(record, self.run.steward, (edition, json.dumps(document, sort_keys=True)), None)
            return fault
        subject = record['subject']
        if kind == 'answered':
            rows = model.shown(subject, record['window'])
            self.keep(record, subject, (record['window'],), rows)
            ids = [row.id for row in rows]
            return None if ids == record['ids'] else f'{subject} is shown {record["ids"]} of {record["window"]}, not {ids}'
        changes = changes_of(record)
        due = model.judged(subject, changes)
        if kind == 'applied':
            version = record['version']
            fault = f'{changes} of {subject} is applied, and {due} is due' if due else \
                None if version == model.version + 1 else f'version {version} behind {model.version}'
            model.apply(subject, changes, version)
            self.keep(record, subject, changes, version)
            return fault
        names = rules_of(model.documents[model.edition]['root'])
        number = record.get('rule')
        rule = names[number - 1] if number and number <= len(names) else None
        self.keep(record, subject, (changes, record['change'], record['cause'], record.get('current')), rule)
        said = record['change'], record['cause'], rule, record.get('current')
        return None if said == due else f'{changes} of {subject} is refused by {said}, and {due} is due'

    def keep(self, record, subject, key, more):
        self.records.append(Record(record['number'], record['kind'], subject, (record['kind'], subject, *key), more))

    @staticmethod
    def agrees(asked, record):
        """Whether an answer is what the model has at a record with the same key."""
        if record.kind == 'applied':
            return asked.reply in (None, record.more)
        if record.kind in ('refused', 'governed'):
            return asked.reply == record.more
        form, rows = asked.reply[0], record.more
        if form == 'rows':
            return asked.reply[1] == '\n'.join('{} {} {} {} {}'.format(*row) for row in rows)
        if form == 'head':
            return True
        kind = asked.reply[1]
        if form == 'item':
            _, _, number, version = asked.reply
            at = bisect.bisect_left(rows, number, key=lambda row: row.id)
            there = rows[at] if at < len(rows) and rows[at].id == number and kind in (None, rows[at].kind) else None
            return version == (there and there.version)
        _, _, matched, shown, whole = asked.reply
        pairs = [(row.id, row.version) for row in rows if kind in (None, row.kind)]
        return matched == len(pairs) and shown == (pairs if whole else pairs[:len(shown)])

    # ---- which record is which request's

    def fit(self):
        asked, records = collections.defaultdict(list), collections.defaultdict(list)
        loose = collections.Counter()
        for one in self.log.asked:
            if one.broken:
                loose[one.key] += 1
            else:
                asked[one.key].append(one)
        for record in self.records:
            records[record.key].append(record)
        self.pairs, self.unfit, self.orphans, self.differing = [], [], [], []
        several, self.shared = [], 0
        for key in asked.keys() | records.keys():
            ours, theirs = asked.get(key, []), records.get(key, [])
            if len(ours) == len(theirs) == 1:
                self.pairs.append((ours[0], theirs[0]))
                if not self.agrees(ours[0], theirs[0]):
                    self.differing.append((ours[0], theirs[0]))
            elif ours and theirs:
                several.append((ours, theirs))
            else:
                self.unfit += ours
                self.orphans += theirs
        self.order()
        for ours, theirs in several:
            self.share(ours, theirs)
        self.count(loose)

    def order(self):
        """Of requests that have a record of their own: none was asked after a later record's was answered."""
        events = sorted([(record.number, asked.before, asked.after, asked.told) for asked, record in self.pairs] + self.rolled())
        wrong, latest, by = [], 0, ''
        self.at, self.least, self.most = [], [], []
        for number, before, after, told in events:
            if after < latest:
                wrong.append(f'record {number}, {told}, was answered before {by} was asked, whose record is before it')
            if before > latest:
                latest, by = before, told
            self.at.append(number)
            self.least.append(latest)
        soonest = float('inf')
        for _, _, after, _ in reversed(events):
            soonest = min(soonest, after)
            self.most.append(soonest)
        self.most.reverse()
        turned = sum(after > other for (*_, after, _), (*_, other, _) in zip(events, events[1:]))
        self.look('the order of records fits the times of requests', wrong, f'{len(events)} requests with a record of their own, of which '
                  f'{turned} were answered behind the next one')

    def rolled(self):
        """Each ROLL stands behind its last record."""
        events, last = [], self.run.number - 1
        for before, after, piece in self.log.rolls:
            last = max([last] + [json.loads(line)['number'] for line in piece[-1:]])
            events.append((last + 0.5, before, after, 'ROLL'))
        return events

    def share(self, ours, theirs):
        """Requests of one key: each needs a record of its own, that it agrees with, and whose neighbours fit its times."""
        theirs.sort(key=lambda record: record.number)
        spans = []
        for record in theirs:
            at = bisect.bisect_right(self.at, record.number)
            spans.append((self.least[at - 1] if at else 0, self.most[at] if at < len(self.most) else float('inf')))
        starts, ends = [span[0] for span in spans], [span[1] for span in spans]
        options = {}
        for asked in ours:
            between = range(bisect.bisect_left(ends, asked.before), bisect.bisect_right(starts, asked.after))
            options[asked] = [n for n in between if self.agrees(asked, theirs[n])]
        taken = {}

        def settle(asked, tried):
            for n in options[asked]:
                if n not in tried and n not in taken:
                    taken[n] = asked
                    return True
            for n in options[asked]:
                if n not in tried:
                    tried.add(n)
                    if settle(taken[n], tried):
                        taken[n] = asked
                        return True
            return False

        for asked in sorted(ours, key=lambda one: one.after):
            if not settle(asked, set()):
                self.unfit.append(asked)
        self.orphans += [record for n, record in enumerate(theirs) if n not in taken]
        self.shared += len(taken)

    def count(self, loose):
        """The looks at what fits: by kind, and the numbers by kind and subject."""
        left, taken = [], 0
        for record in self.orphans:  # what a connection that broke off may have left
            what = record.key[2:] if record.kind == 'applied' else record.key[3] if record.kind == 'governed' else record.key[2]
            key = record.subject, what
            if loose[key]:
                loose[key] -= 1
                taken += 1
                record.kind = 'loose'
            else:
                left.append(record)
        for kind, told in (('applied', 'each change that was applied is one record of its version, subject and change'),
                           ('refused', 'each change that was refused is a record of its cause, rule and present version'),
                           ('answered', 'each search has the rows of a record of its subject and window'),
                           ('governed', 'each policy is a record of its edition')):
            wrong = [f'{asked.told} by {asked.subject}: record {record.number} has {str(record.more)[:300]}' for asked, record in self.differing if record.kind == kind]
            wrong += [f'{asked.told} by {asked.subject} has no record' for asked in self.unfit if asked.kind == kind]
            self.look(told, wrong, str(sum(asked.kind == kind for asked in self.log.asked)))
        self.look('no record is without a request', [f'record {record.number}: {str(record.key)[:300]}' for record in left])
        ours = collections.Counter((asked.kind, asked.subject) for asked in self.log.asked if not asked.broken)
        theirs = collections.Counter((record.kind, record.subject) for record in self.records if record.kind != 'loose')
        wrong = [f'{kind} of {subject}: {ours[kind, subject]} requests, {theirs[kind, subject]} records'
                 for kind, subject in sorted(ours.keys() | theirs.keys()) if ours[kind, subject] != theirs[kind, subject]]
        self.look('as many records as requests, by kind and subject', wrong,
                  ', '.join(f'{count} {kind} {subject}' for (kind, subject), count in sorted(ours.items()))
                  + f'; {self.shared} told apart by time; {sum(asked.broken for asked in self.log.asked)} broken off, {taken} of them with a record')

    # ---- the rest

    def explanations(self):
        """Each EXPLAIN is ruled by the edition that it names, which is none that was gone before it was asked, nor one to come."""
        turns = sorted((asked.key[2], asked.before, asked.after) for asked in self.log.asked if asked.kind == 'governed')
        known, done = [self.run.edition] + [turn[0] for turn in turns], [turn[2] for turn in turns]
        begun = sorted(asked.before for asked in self.log.asked if asked.kind == 'governed' or asked.broken and asked.told.startswith('POLICY'))
        wrong = []
        for *question, before, after, reply in self.log.explained:
            edition = reply.rpartition(' ')[2]
            least, most = known[bisect.bisect_left(done, before)], self.run.edition + bisect.bisect_left(begun, after)
            if not edition.isdigit() or not least <= int(edition) <= most:
                wrong.append(f'{question}: {reply}, where edition {least} to {most} was in force')
            elif int(edition) not in self.model.documents or reply != self.model.explained(*question, int(edition)):
                wrong.append(f'{question}: {reply}')
        self.look('each EXPLAIN is ruled by the edition that it names, one in force meanwhile', wrong, str(len(self.log.explained)))

    def end(self):
        features = ['{} {} {} {} {}'.format(*row) for _, row in sorted(self.model.features.items())]
        for told, rows in (('by lines', self.run.last_by_line), ('by HTTP', self.run.last_by_http)):
            differing = [f'{ours}, not {theirs}' for ours, theirs in zip(features + ['none'] * len(rows), rows + ['none'] * len(features)) if ours != theirs]
            self.look(f'the features of the model are those at the end {told}', differing, f'{len(rows)} rows')
