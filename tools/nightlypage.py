"""The page of a nightly run: what there is to say, and the page as text. Used by tools/nightly."""
import os
from textwrap import wrap

from casefile import CAUSES, HARTS, REFUSALS, WRITERS
from nightlysheet import (NOT_IN_ROWS, SHORT, board_text, boards, held, log_reason, logs_counted, logs_of, never_held, no_board, not_compared, number, of,
                          printable, seconds, sheet_verdict, short_logs, stop_text, stops, uncontrolled)

TITLES = {'missing': 'Missing', 'wrong': 'Wrong', 'different': 'Different from the expected output'}


# ---- what there is to say

def fault(row):
    """A row's kind (missing, wrong, different) and what is at fault; None of a case with nothing to say."""
    if row['outcome'] in ('missing', 'wrong'):
        return row['outcome'], row['what']
    return ('different', row['different']) if row['different'] is not None else None


def case_failed(row):
    return fault(row) is not None


def unclean(row):
    """Whether a case has a log that didn't agree in every row, or none where the folder has logs."""
    return row['unlogged'] or any(map(log_reason, row['logs']))


def failed(row):
    return case_failed(row) or unclean(row)


def groups(record):
    """kind: {what: the names that have this fault}, the fault that most have first."""
    found = {kind: {} for kind in TITLES}
    for name, what in record['beside']:
        found['missing'].setdefault(what, []).append(name)
    for row in record['cases']:
        if fault(row):
            kind, what = fault(row)
            found[kind].setdefault(what, []).append(row['name'])
    return {kind: dict(sorted(same.items(), key=lambda item: -len(item[1]))) for kind, same in found.items()}


def of_the_model(record):
    """What the night of the model alone is (`complete` only if nothing is missing, wrong or different), and behind it how much of what."""
    sizes = {kind: sum(map(len, same.values())) for kind, same in groups(record).items()}
    word = 'not complete' if sizes['missing'] or sizes['wrong'] else 'different' if sizes['different'] else 'complete'
    bad = ', '.join('%s %s' % (number(n), kind) for kind, n in sizes.items() if n)
    c = record['counts']
    done = which(record, of(c.get('files', 0), 'file')) + (['%s of them refused' % number(c['refused'])] if c.get('refused') else [])
    done.append(of(c.get('events', 0), 'event') + (' each with its line' if word == 'complete' else ''))
    done += ['%s not compared' % of(c['uncompared'], 'expected output')] if c.get('uncompared') else []
    return word, '; '.join(filter(None, (bad, ', '.join(done))))


def which(record, files=None):
    """Which part of the folder a record is of; of a whole one, only how many files."""
    some = 'only %s of %s' % (number(record['counts'].get('files', 0)), of(record['of'], 'file')) if record['only'] else files
    return ([part(record)] if record['parts'] > 1 and record['part'] else []) + ([some] if some else [])


def verdict(record):
    """The page's word and why: of a folder with logs `clean`, `partly clean` or `not clean`, and then what the night of the model is."""
    word, why = of_the_model(record)
    if not record['logs']:
        return word, why + '; no board was compared'
    clean, numbers = sheet_verdict(record, word, which(record))
    return clean, '%s; %s: %s' % (numbers, word, why)


def good(record):
    """Whether a night is as it should be: complete and, of a folder with logs, clean, or partly clean if it is of a part of it."""
    return verdict(record)[0] in (('clean', 'partly clean') if record['logs'] else ('complete',))


def part(record):
    return 'part %d of %d' % (record['part'], record['parts']) if record['part'] else '%d parts' % record['parts']


def all_rows(record):
    """The rows of all cases and all logs."""
    return record['cases'] + [log for _, log in logs_of(record)]


def title(record):
    night, date = record['night'], record['started'][:10]
    parts = [date] if date else []
    parts += ['night ' + printable(night)] if night and night != date else []
    if record['parts'] > 1:
        parts.append(part(record))
    if record['only']:
        parts.append('only %s of %s, run again' % (number(len(record['cases'])), of(record['of'], 'file')))
    return ', '.join(['Floecavern nightly'] + parts)


def counted(record):
    c, rows = record['counts'], record['cases']
    trapped = sum(n for key, n in c.items() if key.startswith('trap '))
    table = [(c.get('files', 0), 'files'), (c.get('performed', 0), '.. cases, performed'), (c.get('refused', 0), '.. no cases, refused'),
             (c.get('missing', 0) + c.get('wrong', 0), '.. without a right answer'), (len(record['others']), 'other files, not run'),
             (c.get('asked', 0), 'events in the files'), (c.get('events', 0), '.. performed, each with its line'), (c.get('retired', 0), 'steps retired'),
             (c.get('sc 0', 0), '.. SC that stored'), (c.get('sc 1', 0), '.. SC that failed'), (trapped, 'steps trapped'),
             (c.get('device', 0), 'device writes'), (c.get('yield', 0), 'yields'), (c.get('broke', 0), 'writes that broke a reservation')]
    if record['expect']:
        table.append((sum(fault(row) is None and not row['uncompared'] for row in rows), 'outputs equal to the expected ones'))
    if c.get('uncompared'):
        table.append((c['uncompared'], 'expected outputs, not compared'))
    return [[number(n), what] for n, what in table]


def traps(record):
    c = record['counts']
    rows = [[number(c['trap %d' % cause]), str(cause), what] for cause, what in CAUSES.items() if c.get('trap %d' % cause)]
    return rows or [['0', '', 'none']]


def losses(record):
    """The heads and rows of who broke whose reservations: a row for each writer and a column for each loser that there were, and the sums of both; no
    rows if none was broken."""
    broke = {writer: {loser: record['counts'].get('broke %s %s' % (writer, loser), 0) for loser in HARTS} for writer in WRITERS}
    losers = [loser for loser in HARTS if any(mine[loser] for mine in broke.values())]
    rows = [([mine[loser] for loser in losers], writer) for writer, mine in broke.items() if any(mine.values())]
    rows += [([sum(column) for column in zip(*(mine for mine, _ in rows))], 'in all')] if rows else []
    return ['writer'] + [loser + ' lost' for loser in losers] + ['in all'], [[name, *map(number, mine), number(sum(mine))] for mine, name in rows]


def refused(record):
    """number, place, what and name of each refused file."""
    rows = sorted((*map(int, row['refusal'].split()), row['name']) for row in record['cases'] if row['refusal'])
    return [[str(k), str(place), REFUSALS[k], name] for k, place, name in rows]


def folders(record):
    """Of each folder: its files, events and faults."""
    found = {}
    for row in record['cases']:
        files, events, bad = found.setdefault(os.path.dirname(row['name']) or '.', [0, 0, {}])
        kind = (fault(row) or [None])[0]
        found[os.path.dirname(row['name']) or '.'][:2] = files + 1, events + row['counts'].get('events', 0)
        for what in filter(None, (kind, 'not clean' if unclean(row) else None)):
            bad[what] = bad.get(what, 0) + 1
    return [[number(files), number(events), printable(name), ', '.join('%s %s' % (number(bad[kind]), kind) for kind in (*TITLES, 'not clean') if kind in bad)]
            for name, (files, events, bad) in sorted(found.items())]


def since_title(since):
    return 'Since %s%s' % (since['started'], ', night ' + printable(since['night']) if since['night'] else '')


def about(record):
    rows = [('night', printable(record['night']))] if record['night'] else []
    rows += [('folder', printable(record['folder'])), ('program', printable(record['program'])), ('SHA-256', record['sha256'] or 'unknown'),
             ('started', record['started'] or 'unknown'), ('time', record['time'] or 'unknown')]
    for key in ('replay', 'settings'):
        rows[-2:-2] = [(key, printable(record[key])), ('SHA-256', record[key + '_sha256'] or 'unknown')] if record[key] else []
    slowest = sorted(((row['seconds'], row['name']) for case in record['cases'] for row in (case, *case['logs'])), reverse=True)[:3]
    if slowest:
        rows.append(('slowest', ', '.join('%s %s' % (printable(name), seconds(s)) for s, name in slowest)))
    if record['others']:
        more = len(record['others']) - 10
        rows.append(('not run', ', '.join(map(printable, record['others'][:10])) + (' and %s more' % number(more) if more > 0 else '')))
    return rows


# ---- as text

def text_table(heads, rows, left=(), name_first=False):
    """Lines of columns. Numbers stand to the right; `left` and the last column, or the first if the name is there, to the left."""
    rows = ([heads] if heads else []) + rows
    widths = [max(len(row[k]) for row in rows) for k in range(len(rows[0]))]
    named = {*left, 0 if name_first else len(widths) - 1}
    return [('  ' + '  '.join(cell.ljust(w) if k in named else cell.rjust(w) for k, (cell, w) in enumerate(zip(row, widths)))).rstrip() for row in rows]


def text_list(what, names):
    return ['  %s: %s' % (number(len(names)), what)] + ['      ' + printable(name) for name in names]


def text_sheet(record):
    """What keeps a night from being clean: what was not compared, then each stop."""
    lines, missed, found = [], not_compared(record), stops(record)
    if missed:
        lines += ['', 'Not compared: %s' % number(sum(map(len, missed.values())))]
        lines += [line for what, names in missed.items() for line in text_list(what, names)]
    if found:
        lines += ['', 'Stops: %s' % number(len(found))]
        lines += ['  %s%s: %s' % (printable(case), board_text(log), stop_text(log)) for case, log in found]
    return lines


def text_boards(record):
    """Rows and boards; of a folder without logs, that there are none."""
    if not record['logs']:
        return ['', 'Boards', '  ' + no_board(record)]
    lines = ['', 'Boards'] + text_table(None, logs_counted(record))
    lines += [line for what in (never_held(record), NOT_IN_ROWS) for line in wrap(what, 140, initial_indent='  ', subsequent_indent='    ')]
    lines += text_list(SHORT[1], short_logs(record)) if short_logs(record) else []
    lines += [line for why, names in uncontrolled(record).items() for line in text_list('no control row was tried: ' + why, names)]
    rows = boards(record)
    return lines + (['', 'By board'] + text_table(['logs', 'cases without', 'rows', 'agreed', 'not compared', 'stops', 'board'], rows) if rows else [])


def text_groups(record):
    lines = []
    for kind, same in groups(record).items():
        if same:
            lines += ['', '%s: %s' % (TITLES[kind], number(sum(map(len, same.values()))))]
        lines += [line for what, names in same.items() for line in text_list(what, names)]
    unkept = [row for row in all_rows(record) if row['unkept']]
    lines += ['', 'Outputs that could not be kept: %s' % number(len(unkept))] if unkept else []
    return lines + ['  %s: %s' % (printable(row['name']), row['unkept']) for row in unkept]


def text_losses(record):
    heads, rows = losses(record)
    return ['', 'Who broke whose reservations'] + (text_table(heads, rows, name_first=True) if rows else ['  none'])


def text_page(record):
    lines = [title(record), '', ': '.join(verdict(record))] + text_sheet(record) + text_groups(record)
    if record['since']:
        lines += ['', since_title(record['since'])] + ['  ' + what for what in record['since']['notes']]
        for what, names in record['since']['groups'] or [['nothing is new and nothing is gone', []]]:
            lines += ['  %s %s' % (number(len(names)), what) if names else '  ' + what] + ['      ' + printable(name) for name in names]
    lines += text_boards(record) + ['', 'Counts'] + text_table(None, counted(record))
    lines += ['', 'Traps by cause'] + text_table(['traps', 'cause', ''], traps(record)) + text_losses(record)
    rows = [[k, place, what, printable(name)] for k, place, what, name in refused(record)]
    lines += ['', 'Refused files'] + (text_table(['number', 'place', 'what is wrong', 'file'], rows, left=(2,)) if rows else ['  none'])
    lines += ['', 'By folder'] + text_table(['files', 'events', 'folder', 'faults'], folders(record), left=(2,))
    if record['logs']:
        lines += ['', 'Rows by instruction'] + text_table(['agreed', 'in the logs', 'instruction'], held(record))
    lines += ['', 'This run'] + ['  %-8s %s' % row for row in about(record)]
    return '\n'.join(lines) + '\n'
