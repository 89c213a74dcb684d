"""The program's answer to each case, and the record of a night. Used by tools/nightly.

A record is what the page, the counts and the JUnit file are made of. It has one row for each case:
  name, sha256 (of the bytes that were run), expected (the SHA-256 of its .out, with --expect), uncompared (it has an .out, which wasn't looked at),
  outcome, what (is missing or wrong), different (from the .out), refusal (`NUMBER PLACE`), counts, seconds, kept (the paths of what it wrote, if it
  failed), unkept (why that couldn't be kept), logs (a row for each log of a board, see nightlylogs.py), unlogged (the folder has logs, but none of it)
and `beside`, what is missing of the folder, the programs or the parts: [name, what]; `strays`, the rows of logs that have no case; `logs`, the number
of logs in the whole folder; `settings`, `settings_sha256` and `boards`, the settings file, its hash and the boards that it has.
"""
import json
import os
import sys
import time
from collections import Counter
from concurrent.futures import ThreadPoolExecutor, wait
from itertools import zip_longest

from casefile import count, faults
from nightlyfolder import all_logs, contents, contents_hash, file_hash, find, hash_of, list_hash, log_like, opened, plain
from nightlylogs import one_log, stray_log
from nightlypage import case_failed, failed, seconds
from nightlyrun import kill_all, run, stop

FORMAT = 'floecavern nightly counts 6'


# ---- one case

def judge(case, refusal, text):
    """What is wrong with an answer."""
    if case is None:
        right = 'refused %s\n' % refusal
        return [] if text == right else ['the last line has no line feed'] if text + '\n' == right else ['the answer is %r, not %r' % (text[:60], right)]
    if text.startswith('refused '):
        return ['the answer is %r, but the file is a case of %d events' % (text[:60], len(case.events))]
    return faults(case, text)


def short(wrong):
    return '; '.join(wrong[:3]) + ('; and %d more' % (len(wrong) - 3) if len(wrong) > 3 else '')


def quoted(line):
    return ascii(line.decode('ascii', 'backslashreplace')[:60])


def first_difference(output, expected):
    """The first line in which two texts differ; None if they don't. Either may end before the other, or without a line feed."""
    if output == expected:
        return None
    got, wanted = (text.split(b'\n') for text in (output, expected))
    ends = [lines[-1] == b'' for lines in (got, wanted)]
    got, wanted = (lines[:-1] if end else lines for lines, end in zip((got, wanted), ends))
    for line, (mine, other) in enumerate(zip_longest(got, wanted), 1):
        if mine != other:
            return 'line %d is %s, expected %s' % (line, 'missing' if mine is None else quoted(mine), 'no more lines' if other is None else quoted(other))
    return 'line %d ends in %s' % (len(got), 'a line feed, expected none' if ends[0] else 'no line feed, expected one')


def difference(path, output, limit):
    """The first difference from the expected output, of which no more is read than an answer may have."""
    try:
        plain(path[:-5] + '.out')
        with open(path[:-5] + '.out', 'rb') as file:
            return first_difference(output, file.read(limit + 1))
    except OSError as error:
        raise OSError(error.errno, 'its expected output cannot be read: %s' % error.strerror)


def answer(args, path, row, wrote):
    """Runs one case and fills its row; what the program wrote goes to `wrote`."""
    try:
        plain(path)
    except FileNotFoundError:
        raise OSError(0, 'vanished during the run' if row['sha256'] else 'no file is behind this name')
    with open(path, 'rb') as file:
        case, refusal = opened(file)
        row['counts'] = Counter(asked=len(case.events) if case else 0)
        os.lseek(file.fileno(), 0, os.SEEK_SET)         # of the file itself, which the program goes on to read
        start = time.monotonic()
        wrote['got'], wrote['err'], row['what'] = run(args.program, file, args.timeout, args.output_limit)
        row['seconds'] = time.monotonic() - start
    if row['what']:
        return
    text = wrote['got'].decode('ascii', 'backslashreplace')
    row['what'] = short(judge(case, refusal, text)) or None
    row['outcome'] = 'wrong' if row['what'] else 'performed' if case else 'refused'
    if row['outcome'] == 'performed':
        row['counts'] += count(case, text)
    elif row['outcome'] == 'refused':
        row['refusal'] = refusal
    row['different'] = difference(path, wrote['got'], args.output_limit) if args.expect else None


def one(args, name, hashes, kept, logs=None):
    """The row of one file. Whatever goes wrong with it, the night goes on, and what the program itself did wrong is still told. `logs` are the hashes of
    its logs by their names; None in a folder without logs."""
    path, wrote = os.path.join(args.folder, name), {'got': b'', 'err': b''}
    row = {'name': name, 'sha256': hashes[0], 'expected': hashes[1], 'uncompared': not args.expect and os.path.lexists(path[:-5] + '.out'),
           'outcome': 'missing', 'what': None, 'different': None, 'refusal': None, 'counts': Counter(), 'seconds': 0.0, 'kept': [], 'unkept': None,
           'unlogged': logs == {}}
    try:
        answer(args, path, row, wrote)
        if contents(args.folder, [name], args.expect)[name] != hashes:
            gone = not os.path.lexists(path)
            raise OSError(0, 'vanished during the run' if gone else 'the case or its expected output was changed during the run')
    except Exception as fault:
        what = fault.strerror if isinstance(fault, OSError) and fault.strerror else 'this tool failed on the case: %s: %s' % (type(fault).__name__, fault)
        row.update(outcome='wrong' if row['outcome'] == 'wrong' else 'missing', what='; '.join(filter(None, (row['what'], what))), refusal=None,
                   counts=Counter(asked=row['counts']['asked']))
    if case_failed(row):
        try:
            row['kept'] = kept.keep(name, wrote)
        except OSError as fault:
            row['unkept'] = fault.strerror or str(fault)
    row['counts'] = {key: n for key, n in row['counts'].items() if n}
    row['logs'] = [one_log(args, name, hashes[0], log, sha256, kept) for log, sha256 in (logs or {}).items()]
    return row


# ---- all of them

def tell(text, end='\n'):
    """A line on standard error; where that can't be written, the night goes on without it."""
    try:
        if sys.stderr:         # None if it is closed; print would then take standard output
            print(text, end=end, file=sys.stderr, flush=True)
    except (OSError, ValueError):
        pass


class Progress:
    """One line on standard error: rewritten on a terminal, else a new one every ten seconds."""

    def __init__(self, total):
        self.total, self.done, self.bad, self.start = total, 0, 0, time.monotonic()
        self.shown = self.start
        self.terminal = bool(sys.stderr) and sys.stderr.isatty()

    def tick(self, bad):
        self.done, self.bad = self.done + 1, self.bad + bad
        now = time.monotonic()
        if self.done == self.total or now - self.shown >= (0.1 if self.terminal else 10):
            self.shown = now
            text = '%d of %d files, %d missing, wrong, different or not clean, %s' % (self.done, self.total, self.bad, seconds(now - self.start))
            tell(*(('\r%s\033[K' % text, '' if self.done < self.total else '\n') if self.terminal else (text,)))


def run_cases(args, mine, hashes, kept, logs):
    """The rows of cases. `logs`: name: the hashes of its logs; None in a folder without logs."""
    rows, progress, pool = [], Progress(len(mine)), ThreadPoolExecutor(args.jobs)
    try:
        stop.looked_at = True
        for future in [pool.submit(one, args, name, hashes[name], kept, logs and logs[name]) for name in mine]:
            while wait([future], 0.2).not_done and not stop.flag.is_set():
                pass
            if stop.flag.is_set():
                raise KeyboardInterrupt
            rows.append(future.result())
            progress.tick(failed(rows[-1]))
    except BaseException:
        pool.shutdown(wait=False, cancel_futures=True)
        kill_all()
        raise
    finally:
        pool.shutdown(cancel_futures=True)
        stop.looked_at = False
    if stop.flag.is_set():         # a signal behind the last case: the logs without a case are still to be read
        raise KeyboardInterrupt
    return rows


def beside(args, before, after, rows, sha256):
    """What is missing of the folder, the programs and the settings file themselves. sha256: the programs' hashes by their paths."""
    wrong, told = list(before.unreadable), {row['name'] for case in rows for row in (case, *case['logs']) if row['outcome'] == 'missing'}
    there, here = ({*found.names, *all_logs(found)} for found in (before, after))
    if not before.names:
        wrong.append([os.path.abspath(args.folder), 'no *.case file is in this folder'])
    if args.expect:
        cases = {name[:-5] for name in before.names}
        wrong += [[name[:-4] + '.case', 'its .out is here, but not the case'] for name in sorted(before.outputs) if name[:-4] not in cases]
    late = set(log_like(after.others)).difference(before.others) if all_logs(before) else set()         # a log that is still being copied, perhaps
    wrong += [[name, 'appeared during the run, and was not run'] for name in sorted(here - there | late)]
    wrong += [[name, 'vanished during the run'] for name in sorted(there - here - told)]
    wrong += [row for row in after.unreadable if row not in wrong]
    wrong += [[path, 'the program was replaced during the run'] for path, before in sha256.items() if file_hash(path) != before]
    if args.settings and file_hash(args.settings) != args.settings_sha256:
        wrong.append([args.settings, 'the settings file was changed during the run'])
    return wrong


def totals(rows, strays):
    """The sums of the rows of cases, of their logs and of logs without a case."""
    counts = Counter()
    for row in (*rows, *(log for row in rows for log in row['logs']), *strays):
        counts.update(row['counts'])
    counts.update(files=len(rows), **Counter(row['outcome'] for row in rows))
    counts['different'] = sum(row['outcome'] in ('performed', 'refused') and row['different'] is not None for row in rows)
    counts['uncompared'] = sum(row['uncompared'] for row in rows)
    counts['unlogged'] = sum(row['unlogged'] for row in rows)
    return {key: n for key, n in counts.items() if n}


def run_all(args, found, kept):
    """The record of a run."""
    hashes, logs = contents(args.folder, found.names, args.expect), {log: file_hash(os.path.join(args.folder, log)) for log in all_logs(found)}
    sha256 = {path: file_hash(path) for path in ([args.program, args.replay] if found.logs else [args.program])}
    of_case = {name: {log: logs[log] for log in found.logs.get(name, ())} for name in found.names} if logs else None
    mine = [name for name in found.names if name in args.only] if args.only is not None else found.names[args.part - 1::args.parts]
    start, began, stamp = time.monotonic(), time.time(), time.strftime('%Y-%m-%d %H:%M:%S %Z')
    rows = run_cases(args, mine, hashes, kept, of_case)
    strays = [stray_log(args.folder, log, logs[log]) for log in found.strays]
    taken = time.monotonic() - start
    wrong = beside(args, found, find(args.folder), rows, sha256)
    if args.only is not None:
        wrong += args.carried + [[name, 'is not in the folder any more'] for name in sorted(args.only.difference(found.names))]
    return {
        'format': FORMAT, 'night': args.night, 'part': args.part, 'parts': args.parts, 'folder': os.path.abspath(args.folder),
        'only': args.only is not None, 'list': list_hash(found.names, logs), 'contents': contents_hash(hashes, logs), 'of': len(found.names),
        'logs': len(logs), 'others': found.others, 'program': args.program, 'sha256': sha256[args.program],
        'replay': args.replay if found.logs else '', 'replay_sha256': sha256.get(args.replay, '') if found.logs else '',
        'settings': args.settings or '', 'settings_sha256': args.settings_sha256, 'boards': [list(board) for board in args.boards],
        'expect': args.expect, 'started': stamp, 'began': began, 'seconds': taken,
        'time': '%s with %d at once' % (seconds(taken), args.jobs), 'counts': totals(rows, strays), 'beside': wrong, 'since': None, 'strays': strays,
        'cases': rows,
    }


# ---- a record as JSON

def seal(record):
    """The hash of all that a record holds, so that a change of it shows."""
    return hash_of([json.dumps({key: value for key, value in record.items() if key != 'seal'}, sort_keys=True)])


def as_json(record):
    """The record with its seal, one line for each key and for each case."""
    record = dict(record, seal=seal(record))
    rows = ',\n'.join('  ' + json.dumps(row) for row in record['cases'])
    lines = [' %s: %s' % (json.dumps(key), '[\n%s\n ]' % rows if key == 'cases' and rows else json.dumps(value)) for key, value in record.items()]
    return '{\n' + ',\n'.join(lines) + '\n}\n'
