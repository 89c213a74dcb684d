"""Counts of earlier runs: read and checked, merged into one night, compared with another night. Used by tools/nightly."""
import json
import re
from collections import Counter

from casefile import HARTS, WRITERS
from nightlyboards import is_board, number_of, settings_of
from nightlycases import FORMAT, seal, totals
from nightlyfolder import board, contents_hash, is_log, list_hash
from nightlylogs import possible_stop
from nightlypage import all_rows, case_failed, failed, verdict
from nightlyrows import KINDS
from nightlysheet import alike, log_reason, logs_of, printable, seconds

SHAPE = {'format': str, 'night': str, 'part': int, 'parts': int, 'folder': str, 'only': bool, 'list': str, 'contents': str, 'of': int, 'others': list,
         'logs': int, 'strays': list, 'replay': str, 'replay_sha256': str, 'settings': str, 'settings_sha256': str, 'boards': list,
         'program': str, 'sha256': str, 'expect': bool, 'started': str, 'began': float, 'seconds': float, 'time': str, 'counts': dict, 'beside': list,
         'cases': list, 'seal': str}
TEXT = (str, type(None))
ROW = {'name': str, 'sha256': str, 'expected': str, 'uncompared': bool, 'outcome': str, 'what': TEXT, 'different': TEXT, 'refusal': TEXT, 'counts': dict,
       'seconds': float, 'kept': list, 'unkept': TEXT, 'logs': list, 'unlogged': bool}
LOG = {'name': str, 'board': str, 'settings': (list, type(None)), 'sha256': str, 'bytes': (int, type(None)), 'outcome': str, 'what': TEXT, 'refusal': TEXT,
       'stop': (dict, type(None)), 'counts': dict, 'seconds': float, 'kept': list, 'unkept': TEXT, 'uncontrolled': TEXT}
STOP = {'row': int, 'field': str, 'board': TEXT, 'model': TEXT, 'line': str, 'form': TEXT, 'xlen': int}
BROKE = {'broke %s %s' % (writer, loser) for writer in WRITERS for loser in HARTS if writer != loser}         # a hart doesn't break its own
APART = 24 * 3600         # seconds between the starts of two parts that may be of one night, if it has no name


def shaped(value, shape):
    return type(value) is dict and all(key in value and isinstance(value[key], kind) for key, kind in shape.items())


def well_shaped(record):
    return shaped(record, SHAPE) and all(shaped(row, ROW) for row in record['cases']) and all(
        shaped(log, LOG) and (log['stop'] is None or shaped(log['stop'], STOP)) for _, log in logs_of(record)) and all(
        type(n) is int and n >= 0 for counts in [record['counts']] + [row['counts'] for row in all_rows(record)] for n in counts.values()) and all(
        type(row) is list and [type(x) for x in row] == [str, str] for row in record['beside']) and all(
        type(x) is str for texts in [record['others']] + [row['kept'] for row in all_rows(record)] for x in texts) and all(
        map(is_board, record['boards'] + [log['settings'] for _, log in logs_of(record) if log['settings'] is not None]))


def broke_agrees(c):
    """Whether the counts of broken reservations agree with each other and with those of the events. A write that breaks any breaks at most one of each
    loser: so a writer has at least as many such writes as one loser lost to it, and at most as many as all lost to it. Those of harts are retired steps
    and no failed SC."""
    if any(key.startswith('broke ') and key not in BROKE for key in c):
        return False
    lost = {writer: [c['broke %s %s' % (writer, loser)] for loser in HARTS] for writer in WRITERS}
    ranges = [(sum(max(lost[writer]) for writer in writers), min(sum(sum(lost[writer]) for writer in writers), writes))
              for writers, writes in ((HARTS, c['retired'] - c['sc 1']), (('d',), c['device']))]
    return all(least <= most for least, most in ranges) and sum(least for least, _ in ranges) <= c['broke'] <= sum(most for _, most in ranges)


def agrees(row):
    """Whether a case's row agrees with itself: each event of a performed case is a step retired or trapped, a device write or a yield."""
    c = Counter(row['counts'])
    if not broke_agrees(c):
        return False
    parts = c['retired'] + c['device'] + c['yield'] + sum(n for key, n in c.items() if key.startswith('trap '))
    if row['outcome'] == 'performed':
        return c['asked'] == c['events'] == parts and c['sc 0'] + c['sc 1'] <= c['retired'] and not row['what'] and not row['refusal']
    if row['outcome'] == 'refused':
        return not c['asked'] + c['events'] + parts and not row['what'] and bool(re.fullmatch(r'(7|8|9|10|11) \d+', row['refusal'] or ''))
    return row['outcome'] in ('missing', 'wrong') and not c['events'] + parts and bool(row['what'])


def log_agrees(log, case):
    """Whether a log's row agrees with itself and its case's name: each row of the log is in one count of what it came to, and in one of what it holds."""
    outcomes = ('agreed', 'stopped', 'refused', 'wrong', 'missing', 'unset') if case else ('stray',)
    if log['settings'] and (log['outcome'] in ('unset', 'stray') or number_of(log['board']) is None):
        return False
    if not is_log(log['name']) or case and not (log['name'].startswith(case[:-4]) and log['board'] == board(log['name'], case)):
        return False
    c, kinds = Counter(log['counts']), {key: sum(log['counts'].get('%s %s' % (key, kind), 0) for kind in KINDS) for key in ('row', 'agreed')}
    rows, agreed, ends = c['log rows'], c['rows agreed'], c['rows differ'] + c['rows malformed']
    if c['logs'] != 1 or rows != -(-(log['bytes'] or 0) // 48) or rows != kinds['row'] or agreed != kinds['agreed'] or log['outcome'] not in outcomes:
        return False
    if rows != agreed + ends + c['rows behind'] + c['rows unanswered'] or any(c['agreed ' + kind] > c['row ' + kind] for kind in KINDS):
        return False
    if log['outcome'] == 'agreed':
        return rows == agreed > 0 and log['bytes'] == 48 * rows and not log['stop'] and not log['what'] and not log['refusal']
    if log['outcome'] == 'stopped':
        return bool(ends == 1 and log['stop'] and possible_stop(log['stop']) and log['stop']['row'] == agreed and c['rows unanswered'] == 0
                    and not log['what'] and not log['refusal'])
    right = re.fullmatch(r'(7|8|9|1[0-3]) \d+', log['refusal'] or '') if log['outcome'] == 'refused' else log['what'] and not log['refusal']
    return rows == c['rows unanswered'] and not log['stop'] and bool(right)


def logs_agree(record):
    """Whether the logs of a record agree with themselves, with their cases and with the number of logs in the folder; a case has none twice."""
    return all(log_agrees(log, case) for case, log in logs_of(record)) and len({log['name'] for _, log in logs_of(record)}) <= record['logs'] and all(
        row['unlogged'] == (record['logs'] > 0 and not row['logs']) and len({log['name'] for log in row['logs']}) == len(row['logs'])
        for row in record['cases'])


def boards_agree(record):
    """Whether the settings of a record agree with its logs: each log has those of its board, or has no board of the settings file and says so. Of a merged
    night that isn't asked: its parts may have had several files, which is then its fault."""
    if bool(record['boards']) != bool(record['settings_sha256']) or bool(record['settings']) != bool(record['settings_sha256']):
        return False
    return not record['part'] or all(
        log['settings'] == settings_of(record['boards'], log['board']) and (log['outcome'] == 'unset') == bool(record['boards'] and not log['settings'])
        for row in record['cases'] for log in row['logs'])


def load(path):
    """A record, or a sentence that says why the file is none."""
    try:
        with open(path, encoding='utf-8') as file:
            record = json.load(file)
    except OSError as error:
        return 'cannot be read: %s' % error.strerror
    except (ValueError, RecursionError) as error:
        return 'is no whole counts file: %s' % error
    if not isinstance(record, dict) or not str(record.get('format')).startswith(FORMAT[:-1]):
        return 'is no counts file of tools/nightly'
    if record['format'] != FORMAT:
        return 'is no counts file of this version of tools/nightly: its format is %s, not %s' % (ascii(str(record['format'])[:60]), ascii(FORMAT))
    if not well_shaped(record):
        return 'is no counts file of this version of tools/nightly'
    if record['seal'] != seal(record):
        return 'was changed after it was written: its hash is another'
    if record['counts'] != totals(record['cases'], record['strays']):
        return 'does not agree with itself: its counts are not the sums of its cases'
    wrong = [row['name'] for row in record['cases'] if not agrees(row)]
    if wrong or not 0 <= record['part'] <= record['parts'] or not logs_agree(record) or not boards_agree(record):
        return 'does not agree with itself' + (': the counts of %s' % ascii(wrong[0]) if wrong else '')
    return record


# ---- parts

def strangers(records):
    """Parts that are not of the first one's night. records: (path, record)."""
    first, wrong = records[0][1], []
    for path, r in records:
        if r['only'] or not r['part']:
            wrong.append([path, 'is no part: it is of %s' % ('cases that were run again' if r['only'] else 'a whole night, merged')])
        wrong += [[path, 'this part has another %s than %s' % (what, records[0][0])] for key, what in (
            ('night', 'night'), ('parts', 'number of parts'), ('list', 'list of cases'), ('sha256', 'program'), ('replay_sha256', 'program of --replay'),
            ('settings_sha256', 'settings file'), ('expect', '--expect')) if r[key] != first[key]]
        if r['list'] == first['list'] and r['contents'] != first['contents'] and r['expect'] == first['expect']:
            wrong.append([path, 'this part has the same names as %s, but the files have other contents' % records[0][0]])
    return wrong


def apart(records):
    """Parts of a night without a name that began more than a day apart."""
    (early, a), (late, b) = (pick(records, key=lambda record: record[1]['began']) for pick in (min, max))
    if a['night'] or b['began'] - a['began'] <= APART:
        return []
    return [[late, 'this part began on %s and %s on %s: parts of one night begin within a day, or --night names it' % (b['started'], early, a['started'])]]


def merge_faults(records, by_part):
    """What the parts lack together. records: (path, record) of each file that could be read; by_part: the same under each part's number."""
    first, wrong, by_case, by_log, hashes = records[0][1], strangers(records) + apart(records), {}, {}, {}
    wrong += [['part %d of %d' % (k, first['parts']), 'is missing'] for k in range(1, first['parts'] + 1) if k not in by_part]
    wrong += [['part %d' % k, 'is there %d times: %s' % (len(same), ', '.join(path for path, _ in same))]
              for k, same in sorted(by_part.items()) if len(same) > 1]
    for (path, r), *_ in by_part.values():
        for row in r['cases']:
            by_case.setdefault(row['name'], []).append(path)
            hashes[row['name']] = (row['sha256'], row['expected'])
            for log in row['logs']:
                by_log.setdefault(log['name'], []).append(row['name'])
    logs = {log['name']: log['sha256'] for (_, r), *_ in by_part.values() for _, log in logs_of(r)}
    wrong += [[name, 'is in more than one part: %s' % ', '.join(files)] for name, files in sorted(by_case.items()) if len(files) > 1]
    wrong += [[name, 'is the log of more than one case: %s' % ', '.join(cases)] for name, cases in sorted(by_log.items()) if len(set(cases)) > 1]
    if len(by_case) < first['of']:
        wrong.append([first['folder'], '%d of its %d cases are in no part' % (first['of'] - len(by_case), first['of'])])
    elif list_hash(by_case, logs) != first['list']:
        wrong.append([first['folder'], 'the cases of the parts are not the cases of the folder, or their logs are not its logs'])
    elif contents_hash(hashes, logs) != first['contents']:
        wrong.append([first['folder'], 'the contents of the cases are not those of the folder, or those of their logs are not'])
    return wrong


def merge(paths):
    """One record of the parts' files. A part that is there twice counts once."""
    loaded = [(path, load(path)) for path in paths]
    wrong = [[path, what] for path, what in loaded if isinstance(what, str)]
    records = [(path, r) for path, r in loaded if not isinstance(r, str)]
    if not records:
        none = {key: kind() for key, kind in SHAPE.items() if key != 'seal'}
        return dict(none, format=FORMAT, parts=1, folder='unknown', program='unknown', beside=wrong, since=None)
    by_part = {}
    for path, r in records:
        by_part.setdefault(r['part'], []).append((path, r))
    wrong += merge_faults(records, by_part)
    parts = [same[0][1] for same in by_part.values()]
    wrong += [row for r in parts for row in r['beside']]
    times = [r['seconds'] for r in parts]
    earliest = min(parts, key=lambda r: r['began'])
    record = dict(parts[0], part=0, started=earliest['started'], began=earliest['began'], beside=[list(row) for row in dict.fromkeys(map(tuple, wrong))],
                  seconds=sum(times), time='%s in all parts together, the longest %s' % (seconds(sum(times)), seconds(max(times))),
                  others=sorted({name for r in parts for name in r['others']}), since=None, **together(parts))
    del record['seal']
    return record


def together(parts):
    """The cases and logs of all parts. Where they are not of one folder, one of them may have had logs and another none: then all cases need theirs."""
    strays = sorted({log['name']: log for r in parts for log in r['strays']}.values(), key=lambda log: log['name'])
    logs = max(len({log['name'] for r in parts for _, log in logs_of(r)}), *(r['logs'] for r in parts))
    rows = sorted((dict(row, unlogged=logs > 0 and not row['logs']) for r in parts for row in r['cases']), key=lambda row: row['name'])
    return {'cases': rows, 'strays': strays, 'logs': logs, 'counts': totals(rows, strays)}


# ---- against an earlier night

def notes(old, new):
    """What a reader of a comparison has to know of the earlier night."""
    word, numbers = verdict(old)
    if old['beside'] or old['strays'] or alike(old):
        yield 'that night was %s: %s' % (word, numbers)
    if old['folder'] != new['folder']:
        yield 'that night was of another folder: %s' % printable(old['folder'])
    if old['part'] and old['parts'] > 1 and old['list'] != new['list']:
        yield 'that part was of another list of cases or logs: what is new or gone here may be in another part'
    if old['expect'] != new['expect']:
        yield 'only %s night compared with expected outputs' % ('that' if old['expect'] else 'this')
    if bool(old['logs']) != bool(new['logs']):
        yield 'only %s night compared boards' % ('that' if old['logs'] else 'this')
    if bool(old['settings']) != bool(new['settings']):
        yield 'only %s night compared boards under a settings file' % ('that' if old['settings'] else 'this')
    elif old['settings_sha256'] != new['settings_sha256']:
        yield 'that night had another settings file: %s' % printable(old['settings'])


def units(record):
    """name: (whether it fails, its row) of each case and each log. A case without a log fails where the folder has logs."""
    found = {row['name']: (case_failed(row) or row['unlogged'], row) for row in record['cases']}
    found.update((log['name'], (log_reason(log) is not None, log)) for _, log in logs_of(record))
    return found


def changed(old, new, expect):
    return old['sha256'] != new['sha256'] or expect and old.get('expected') != new.get('expected')


def again(record, old, new):
    """Of an earlier night, the names that a night of cases that are run again can tell of: these cases, those that failed and are gone, the logs of
    both, and the logs that had no case."""
    cases = {row['name'] for row in record['cases']} | {row['name'] for row in old['cases'] if failed(row)}
    logs = {log['name'] for case, log in logs_of(old) if case is None or case in cases}
    return cases | logs | set(new)


def compare(old, new):
    """What is new and what is gone since an earlier record, of cases and logs; of cases that are run again, only these are compared."""
    before, after = units(old), units(new)
    if new['only']:
        before = {name: before[name] for name in before if name in again(new, old, after)}
    both, expect = sorted(before.keys() & after.keys()), old['expect'] and new['expect']
    right = [name for name in both if before[name][0] and not after[name][0]]
    wrong = {row['name'] for row in old['cases'] if case_failed(row)}
    unseen = [name for name in right if name in wrong] if old['expect'] and not new['expect'] else []
    unlogged = [name for name in right if before[name][1].get('unlogged') and name not in wrong and not new['logs']]
    stopped = [name for name in both if before[name][1].get('stop') and after[name][1].get('stop')]
    hidden = any('cannot be re' in what for _, what in new['beside'])
    groups = [
        ('fail now, and did not', [name for name in both if after[name][0] and not before[name][0]]),
        ('new, and fail', sorted(name for name in after.keys() - before.keys() if after[name][0])),
        ('fail still', [name for name in both if after[name][0] and before[name][0]]),
        ('stop still, but in another way', [name for name in stopped if before[name][1]['stop'] != after[name][1]['stop']]),
        ('failed, and are not compared now', unseen),
        ('had no log, and no board is compared now', unlogged),
        ('fail no more', [name for name in right if name not in unseen + unlogged]),
        ('new, and right', sorted(name for name in after.keys() - before.keys() if not after[name][0])),
        ('gone, or where it could not be looked' if hidden else 'gone', sorted(before.keys() - after.keys())),
        ('have other contents, or their expected outputs have' if expect else 'have other contents',
         [name for name in both if changed(before[name][1], after[name][1], expect)]),
        ('are compared under other settings', [name for name in both if before[name][1].get('settings') != after[name][1].get('settings')]),
    ]
    return {'night': old['night'], 'started': old['started'], 'program': old['sha256'], 'notes': list(notes(old, new)),
            'groups': [[what, names] for what, names in groups if names]}
