"""Faults that are planted in what clients kept and in the records, to see that each look of the judge can fail."""
import copy
import json
import re

from trail import OPEN, WHOLE, Judge


def alter(log, wanted, work):
    """Changes the first record, from the middle of the trail on, of which `wanted` holds; `work` returns it, or None to drop it."""
    rolls = [(before, after, list(piece)) for before, after, piece in log.rolls]
    total, passed = sum(len(piece) for _, _, piece in rolls), 0
    for _, _, piece in rolls:
        for n, line in enumerate(piece):
            passed += 1
            record = json.loads(line)
            if passed > total // 2 and wanted(record):
                record = work(record)
                piece[n:n + 1] = [json.dumps(record)] if record else []
                log.rolls = rolls
                return
    raise ValueError('no such record')


def of(kind, **more):
    return lambda record: record['kind'] == kind and all(record.get(name) == value for name, value in more.items())


def with_rows(record):
    return record['kind'] == 'answered' and len(record['ids']) > 2 and record['window'] != WHOLE


def swapped(log):
    """Two searches a thousand records apart change places, with their numbers left as they stand."""
    flat = [(place, n) for place, (_, _, piece) in enumerate(log.rolls) for n in range(len(piece))]
    log.rolls = [(before, after, list(piece)) for before, after, piece in log.rolls]
    found = [(place, n) for place, n in flat if (record := json.loads(log.rolls[place][2][n]))['kind'] == 'answered' and not record['ids']]
    (p, m), (q, n) = found[len(found) // 3], found[2 * len(found) // 3]
    one, other = json.loads(log.rolls[p][2][m]), json.loads(log.rolls[q][2][n])
    one['number'], other['number'] = other['number'], one['number']
    log.rolls[p][2][m], log.rolls[q][2][n] = json.dumps(other), json.dumps(one)


def answer(log, wanted, work):
    """Changes an answer that a client kept."""
    at = next(n for n, asked in enumerate(log.asked) if n > len(log.asked) // 3 and wanted(asked))
    log.asked[at] = copy.copy(log.asked[at])
    work(log.asked[at])


def explained(log):
    at = next(n for n, one in enumerate(log.explained) if one[-1].startswith('permit'))
    log.explained[at] = *log.explained[at][:-1], log.explained[at][-1].replace('permit', 'denied')


def formed(log):
    log.formed = list(log.formed)
    told, answer, due = log.formed[len(log.formed) // 2]
    log.formed[len(log.formed) // 2] = told, answer + '0', due


def twice(log):
    """A record stands there once more, and all behind it have the next number."""
    place = len(log.rolls) // 2
    before, after, piece = log.rolls[place]
    piece = piece[:len(piece) // 2] + piece[len(piece) // 2 - 1:]
    log.rolls[place] = before, after, piece
    number = json.loads(log.rolls[0][2][0])['number']
    for n, (before, after, piece) in enumerate(log.rolls):
        log.rolls[n] = before, after, [re.sub(r'"number":\d+', f'"number":{number + m}', line) for m, line in enumerate(piece)]
        number += len(piece)


def early(log):
    """A piece is rolled out a second before its records came."""
    place = len(log.rolls) // 2
    before, after, piece = log.rolls[place]
    log.rolls[place] = before - 10 ** 9, after - 10 ** 9, piece


def one_less(rows):
    return rows[:len(rows) // 2] + rows[len(rows) // 2 + 1:]


def one_newer(rows):
    return rows[:-1] + [re.sub(r'^(\d+) (\d+)', lambda found: f'{found[1]} {int(found[2]) + 1}', rows[-1])]


SEATS, FORMS = 'each seat', 'as its form says'
NUMBERS, PLACES, APPLIED, REFUSED, SEARCHES, LEFT, COUNTS, ORDER, EXPLAINED, LINES, HTTP, GOVERNED = (
    'follow one another', 'model gives', 'was applied', 'was refused', 'each search', 'without a request', 'as many records', 'order of records',
    'EXPLAIN', 'end by lines', 'end by HTTP', 'each policy')
FAULTS = [
    ('a search is dropped from the trail', (NUMBERS, SEARCHES, COUNTS), lambda log: alter(log, with_rows, lambda record: None)),
    ('an applied list is dropped', (NUMBERS, PLACES, APPLIED, COUNTS), lambda log: alter(log, of('applied'), lambda record: None)),
    ('a refusal is dropped', (NUMBERS, REFUSED, COUNTS), lambda log: alter(log, of('refused'), lambda record: None)),
    ('a policy is dropped', (NUMBERS, GOVERNED, COUNTS), lambda log: alter(log, of('governed'), lambda record: None)),
    ('a version is one more', (PLACES, APPLIED), lambda log: alter(log, of('applied'), lambda record: {**record, 'version': record['version'] + 1})),
    ('a search has one id less', (PLACES,), lambda log: alter(log, with_rows, lambda record: {**record, 'ids': record['ids'][1:]})),
    ('a search has another subject', (SEARCHES, LEFT, COUNTS), lambda log: alter(log, with_rows, lambda record: {**record, 'subject': 'nobody'})),
    ('a search of the whole map has another subject', (SEARCHES, LEFT, COUNTS),
     lambda log: alter(log, of('answered', window=WHOLE), lambda record: {**record, 'subject': 'nobody'})),
    ('a search has another window', (SEARCHES, LEFT), lambda log: alter(log, with_rows, lambda record: {**record, 'window': 'POINT (7 7)'})),
    ('a change has another shape', (APPLIED, LEFT), lambda log: alter(
        log, lambda record: record['kind'] == 'applied' and 'shape' in record['changes'][0],
        lambda record: {**record, 'changes': [{**record['changes'][0], 'shape': 'POINT (7 7)'}] + record['changes'][1:]})),
    ('a denial has another rule', (PLACES, REFUSED), lambda log: alter(
        log, lambda record: record.get('rule') is not None, lambda record: {**record, 'rule': record['rule'] + 1})),
    ('a present version is one more', (PLACES, REFUSED, LEFT), lambda log: alter(log, of('refused', cause='stale'), lambda record: {**record, 'current': record['current'] + 1})),
    ('a refusal has another cause', (PLACES, REFUSED, LEFT), lambda log: alter(log, of('refused', cause='exists'), lambda record: {**record, 'cause': 'absent'})),
    ('two searches change places', (ORDER,), swapped),
    ('a client was told one row less', (SEARCHES,), lambda log: answer(
        log, lambda asked: asked.kind == 'answered' and asked.reply[0] == 'rows' and '\n' in asked.reply[1], lambda asked: setattr(
            asked, 'reply', ('rows', asked.reply[1].split('\n', 1)[1])))),
    ('a page has an older version', (SEARCHES,), lambda log: answer(
        log, lambda asked: asked.kind == 'answered' and asked.reply[0] == 'page' and asked.reply[3], lambda asked: setattr(
            asked, 'reply', (*asked.reply[:3], [(asked.reply[3][0][0], asked.reply[3][0][1] - 1)] + asked.reply[3][1:], asked.reply[4])))),
    ('a page is of one feature more', (SEARCHES,), lambda log: answer(
        log, lambda asked: asked.kind == 'answered' and asked.reply[0] == 'page', lambda asked: setattr(
            asked, 'reply', (*asked.reply[:2], asked.reply[2] + 1, *asked.reply[3:])))),
    ('a single feature has an older version', (SEARCHES,), lambda log: answer(
        log, lambda asked: asked.kind == 'answered' and asked.reply[0] == 'item' and asked.reply[3], lambda asked: setattr(
            asked, 'reply', (*asked.reply[:3], asked.reply[3] - 1)))),
    ('a single feature was not there', (SEARCHES,), lambda log: answer(
        log, lambda asked: asked.kind == 'answered' and asked.reply[0] == 'item' and asked.reply[3], lambda asked: setattr(
            asked, 'reply', (*asked.reply[:3], None)))),
    ('a client was told another version', (APPLIED,), lambda log: answer(
        log, lambda asked: asked.kind == 'applied' and asked.reply, lambda asked: setattr(asked, 'reply', asked.reply + 1))),
    ('a client was told another rule', (REFUSED,), lambda log: answer(
        log, lambda asked: asked.kind == 'refused' and asked.reply, lambda asked: setattr(asked, 'reply', 'another'))),
    ('an answer was forgotten', (LEFT, COUNTS), lambda log: log.asked.pop(len(log.asked) // 2)),
    ('an answer came a second too early', (ORDER,), lambda log: answer(
        log, lambda asked: asked.kind == 'applied', lambda asked: (setattr(asked, 'before', asked.before - 10 ** 9), setattr(asked, 'after', asked.after - 10 ** 9)))),
    ('a single feature was asked for five seconds later', (SEARCHES,), lambda log: answer(
        log, lambda asked: asked.kind == 'answered' and asked.reply[0] == 'item', lambda asked: (
            setattr(asked, 'before', asked.before + 5 * 10 ** 9), setattr(asked, 'after', asked.after + 5 * 10 ** 9)))),
    ('an EXPLAIN permits what is denied', (EXPLAINED,), explained),
    ('an edition is one more', (PLACES, GOVERNED, LEFT), lambda log: alter(log, of('governed'), lambda record: {**record, 'edition': record['edition'] + 1})),
    ('a document is another', (GOVERNED, LEFT), lambda log: alter(
        log, lambda record: record['kind'] == 'governed' and record['document'] != OPEN, lambda record: {**record, 'document': OPEN})),
    ('a record has another subject\'s seat', (SEATS,), lambda log: alter(
        log, with_rows, lambda record: {**record, 'seat': next(one['seat'] for _, _, piece in log.rolls for line in piece
                                                              if (one := json.loads(line)).get('subject') not in (None, record['subject']))})),
    ('a record stands there twice', (LEFT, COUNTS), twice),
    ('a piece is rolled out before its records came', (ORDER,), early),
    ('an ill-formed request is answered otherwise', (FORMS,), formed),
    ('a row is missing at the end by lines', (LINES,), lambda log: ('last_by_line', one_less)),
    ('a row is newer at the end by lines', (LINES,), lambda log: ('last_by_line', one_newer)),
    ('a row is missing at the end by HTTP', (HTTP,), lambda log: ('last_by_http', one_less)),
    ('a row is newer at the end by HTTP', (HTTP,), lambda log: ('last_by_http', one_newer)),
]


def planted(run, fault):
    """Looks again with one fault in what is looked at: each look that is about it has to fail."""
    told, due, work = fault
    spoilt, log = copy.copy(run), copy.copy(run.log)
    log.asked, log.explained, log.rolls = list(log.asked), list(log.explained), list(log.rolls)
    try:
        if isinstance(rows := work(log), tuple) and isinstance(rows[0], str):
            setattr(spoilt, rows[0], rows[1](getattr(run, rows[0])))
    except (StopIteration, ValueError, IndexError):
        return f'planted: {told}', ['there is nothing to plant it in: more requests are needed'], ''
    looks = Judge(spoilt, log).run_all()
    failed = [one for one, wrong, _ in looks if wrong]
    missed = [part for part in due if not any(part in one for one in failed)]
    return f'planted: {told}', [f'the look "{part}" did not fail' for part in missed], f'{len(failed)} looks fail'
