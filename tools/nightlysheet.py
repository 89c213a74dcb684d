"""What the page of a night says of boards' logs, and how it writes numbers and names. Used by tools/nightly."""
from collections import Counter

from casefile import CAUSES, REFUSALS
from nightlyboards import NO_BOARD, number_of, settings_text
from nightlyfolder import log_like
from nightlylogs import LOG_REFUSALS, STRAY, width
from nightlyrows import ALWAYS_TRAP, KINDS, split
from riscv import INSTRUCTIONS, decode, disassemble

NO_LOG, NO_CASE, EMPTY, ALIKE = 'cases without a log', 'logs without a case', 'empty logs', "files with names like a log's"
SHORT = 'log with fewer rows than its case has steps', 'logs with fewer rows than their cases have steps'
NOT_IN_ROWS = 'In no row, and seen only where a later row shows them: memory, the second register of an amocas.q, and steps that trap on a board'
# Why a night isn't clean, as its verdict counts it: of one, of more.
REASONS = {'stopped': ('stop', 'stops'), 'unlogged': ('case without a log', NO_LOG), 'stray': ('log without a case', NO_CASE),
           'unset': ('log without a board of the settings file', 'logs without a board of the settings file'),
           'empty': ('empty log', EMPTY), 'alike': ("file with a name like a log's", ALIKE),
           'missing': ('log without an answer', 'logs without an answer'),
           'wrong': ('log with a wrong answer', 'logs with a wrong answer'), 'refused': ('log refused', 'logs refused')}


# ---- numbers and names

def number(n):
    return '{:,}'.format(n)


def of(n, what):
    return '%s %s%s' % (number(n), what, '' if n == 1 else 's')


def seconds(s):
    s = round(s, 3 if s < 0.1 else 1) if s < 60 else round(s)
    return '%g s' % s if s < 60 else '%d min %d s' % divmod(s, 60) if s < 3600 else '%d h %d min' % (s // 3600, s % 3600 // 60)


def printable(name):
    return name if name.isprintable() else ascii(name)


def short(value):
    """A number of a row: up to 9 as it is, else in hex."""
    return str(value) if value < 10 else hex(value)


# ---- logs and their outcomes

def logs_of(record):
    """(the name of its case or None, the log's row) of each log."""
    return [(row['name'], log) for row in record['cases'] for log in row['logs']] + [(None, log) for log in record['strays']]


def log_reason(log):
    """Why a log isn't clean, as a key of REASONS; None of one that agreed."""
    return None if log['outcome'] == 'agreed' else 'empty' if log['refusal'] == '13 0' else log['outcome']


def log_fault(log):
    """What a page says of a log that isn't clean; None of one that agreed."""
    if log['outcome'] in ('agreed', 'stopped'):
        return stop_text(log) if log['stop'] else None
    if log['refusal']:
        k = int(log['refusal'].split()[0])
        wide = k in (9, 10) and log['settings'] and log['settings'][0] > 64         # then it may be one on another board
        return 'refused %s: %s' % (log['refusal'], LOG_REFUSALS.get(k) or 'the case file is none%s: %s%s' % (
            ' on a board with sets of %d bytes' % log['settings'][0] if wide else '', REFUSALS[k], '; the log is empty' if log['bytes'] == 0 else ''))
    return log['what']


def reasons(record):
    """How often each reason of REASONS keeps a night from being clean."""
    found = {key: 0 for key in REASONS}
    for _, log in logs_of(record):
        if log_reason(log):
            found[log_reason(log)] += 1
    found['unlogged'] = sum(row['unlogged'] for row in record['cases'])
    found['alike'] = len(alike(record))
    return found


def why_not_compared(log):
    """Why a log was not compared, its place in the list of reasons before it; None of one that agreed or stopped."""
    reason = log_reason(log)
    if reason in (None, 'stopped'):
        return None
    what = log_fault(log)
    return {'stray': (1, NO_CASE + what[len(STRAY):]), 'unset': (2, what), 'empty': (3, EMPTY), 'missing': (5, 'no answer: ' + what),
            'wrong': (6, 'a wrong answer: ' + what), 'refused': (7, what)}[reason]


def alike(record):
    """The names of files that are like logs', of a folder with logs: their rows, if they are some, were not looked at."""
    return log_like(record['others']) if record['logs'] else []


def not_compared(record):
    """{what: names}, of a folder with logs: cases without a log, logs without a case, logs without a board of the settings file, empty logs, files that
    are like logs, and logs that were not compared for another reason."""
    found = {(0, NO_LOG): [row['name'] for row in record['cases'] if row['unlogged']], (4, ALIKE): alike(record)}
    for _, log in logs_of(record):
        if why_not_compared(log):
            found.setdefault(why_not_compared(log), []).append(log['name'])
    return {what: found[rank, what] for rank, what in sorted(found) if found[rank, what]}


def stops(record):
    """(the name of its case, the log's row) of each log that stopped."""
    return [(case, log) for case, log in logs_of(record) if log['outcome'] == 'stopped']


def short_logs(record):
    """Logs that agreed, but have fewer rows than the model retires steps in their case: a board that hangs leaves such a log."""
    return [log['name'] for row in record['cases'] for log in row['logs']
            if log['outcome'] == 'agreed' and log['counts']['log rows'] < row['counts'].get('retired', 0)]


def uncontrolled(record):
    """{why no control row was tried: names of logs}."""
    found = {}
    for _, log in logs_of(record):
        if log['uncontrolled']:
            found.setdefault(log['uncontrolled'], []).append(log['name'])
    return found


# ---- a stop

def word_text(word, xlen):
    return disassemble(int(word, 16), xlen) or '%s, no instruction of the model' % word


def cause_text(cause, value, word, xlen):
    """What a cause means, of a trap with this value at a word. On a board whose misaligned atomics give 5 and 7 these may be such."""
    name, form = decode(int(word, 16), xlen) or (None, None)
    if cause in (5, 7) and form in ('lr', 'amo') and value % width(name):
        return 'misaligned LR' if form == 'lr' else 'misaligned SC or AMO'
    return CAUSES[cause]


def difference_text(stop, row):
    """The field in which board and model differ, and both values."""
    field, board, model = stop['field'], stop['board'], stop['model']
    if field == 'trap':
        cause, value = int(model[0]), int(model[2:], 16)
        return 'trap: board x%d = %s, model cause %d (%s), value %s' % (
            int(row.rd), short(int(row.value, 16)), cause, cause_text(cause, value, row.word, stop['xlen']), short(value))
    if field == 'word':
        return 'word: board %s, model %s (%s)' % (board, model, word_text(model, stop['xlen']))
    base = 10 if field == 'rd' else 16
    return '%s: board %s, model %s' % (field, *(str(int(n)) if field == 'rd' else short(int(n, base)) for n in (board, model)))


def stop_text(log):
    """A stop in one line: row, hart, pc, the board's word, the field and both values, and how many rows behind it were not compared."""
    stop = log['stop']
    behind = '; %s behind it not compared' % of(log['counts'].get('rows behind', 0), 'row')
    if stop['field'] == 'form':
        return 'row %s: badly formed: %s; the row is %s%s' % (number(stop['row']), stop['form'], ascii(stop['line']), behind)
    row = split(stop['line'].encode())
    return 'row %s, h%s at %#x: %s: %s%s' % (
        number(stop['row']), row.hart, int(row.pc, 16), word_text(row.word, stop['xlen']), difference_text(stop, row), behind)


def board_text(log):
    """What stands behind the name of a log's case: its board, if it has a name, and what that is set to, if there is a settings file."""
    return (', board ' + printable(log['board']) if log['board'] else '') + (' (%s)' % settings_text(log['settings']) if log['settings'] else '')


# ---- the verdict and the tables

def unread(record):
    """How many logs couldn't be read: nobody knows how many rows they have."""
    return sum(log['bytes'] is None for _, log in logs_of(record))


def rows_text(record):
    """How many rows of the logs came to what; where not all logs of the folder are in the record, of how many they are."""
    logs, rows, agreed, differ = (record['counts'].get(key, 0) for key in ('logs', 'log rows', 'rows agreed', 'rows differ'))
    some = '%s of ' % number(logs) if logs < record['logs'] else ''
    unknown = ', and the rows of %s that cannot be read' % of(unread(record), 'log') if unread(record) else ''
    return '%s with %s, %s compared, %s agreed, %s not compared%s' % (
        some + of(record['logs'], 'log'), of(rows, 'row'), number(agreed + differ), number(agreed), number(rows - agreed - differ), unknown)


def agreed_instructions(record):
    return [name for name in INSTRUCTIONS if record['counts'].get('agreed ' + name)]


def sheet_verdict(record, word, which):
    """`clean` or `not clean`, and why; what isn't of every log of the folder is never clean, but `partly clean`. word: what the night of the model is;
    which: the part of the folder that the record is of."""
    cut = len(short_logs(record))
    held = ['%s %s' % (number(cut), SHORT[cut != 1])] if cut else []
    held.append('%s of %s instructions in agreed rows' % (number(len(agreed_instructions(record))), number(len(INSTRUCTIONS))))
    bad = ['%s %s' % (number(n), REASONS[key][n != 1]) for key, n in reasons(record).items() if n]
    bad += ["the model's own night is " + word] if word != 'complete' else []
    whole = (record['counts'].get('files', 0), record['counts'].get('logs', 0)) == (record['of'], record['logs'])
    return 'not clean' if bad else 'clean' if whole else 'partly clean', '; '.join(filter(None, (', '.join(bad), ', '.join(which + [rows_text(record)] + held))))


def logs_counted(record):
    """(number, what) of logs and rows: each log is in one line below the first, and each row in one below `rows in the logs`."""
    c, why = record['counts'], reasons(record)
    logs = c.get('logs', 0)
    unanswered = why['missing'] + why['wrong'] + why['refused'] + why['empty'] + why['stray'] + why['unset']
    table = [(logs, 'logs'), (logs - unanswered - why['stopped'], '.. agreed in every row'), (why['stopped'], '.. stopped'),
             (unanswered, '.. not compared'), (c.get('unlogged', 0), NO_LOG), (c.get('log rows', 0), 'rows in the logs'),
             (c.get('rows agreed', 0), '.. compared, and agreed'), (c.get('rows differ', 0), '.. compared, and differ or trap: a stop'),
             (c.get('rows malformed', 0), '.. badly formed: a stop, not compared'), (c.get('rows behind', 0), '.. behind a stop, not compared'),
             (c.get('rows unanswered', 0), '.. in logs that were not compared'), (unread(record), 'logs that cannot be read: their rows are in no number'),
             (c.get('controls', 0), 'control rows: changed in a copy of a log, and found')]
    return [[number(n), what] for n, what in table]


def no_board(record):
    """Why a night compared no board."""
    if not record['list']:
        return 'No board was compared: no counts could be read.'
    n = len(log_like(record['others']))
    return 'No board was compared: no log was found in the folder%s.' % (', but %s %s' % (number(n), REASONS['alike'][n != 1]) if n else '')


def board_key(log):
    """What the logs of one board have in common, so that boards sort by it: those of a settings file by their number and what they are set to, others
    by their name, those that a settings file hasn't last."""
    if log['settings']:
        return 0, number_of(log['board']), *log['settings']
    return 2 if log['outcome'] == 'unset' else 1, log['board']


def board_label(rank, name, *settings):
    """The board of a key as the table names it."""
    if settings:
        return '%d: %s' % (name, settings_text(settings))
    return (printable(name) if name else '(no name)') + (': ' + NO_BOARD if rank == 2 else '')


def boards(record):
    """Of each board: its logs, the cases of which it has none, its rows, agreed rows, rows that were not compared, stops, and its name. Those of a
    settings file are there also without any log."""
    found, cases = {}, Counter(key for row in record['cases'] for key in {board_key(log) for log in row['logs']})
    for k, settings in enumerate(record['boards'] if record['logs'] else ()):
        found[(0, k, *settings)] = [0] * 6
    for row in record['cases']:
        for log in row['logs']:
            mine, c = found.setdefault(board_key(log), [0] * 6), log['counts']
            rows, agreed = c.get('log rows', 0), c.get('rows agreed', 0)
            for k, n in enumerate((1, 0, rows, agreed, rows - agreed - c.get('rows differ', 0), log['outcome'] == 'stopped')):
                mine[k] += n
    for key, mine in found.items():
        mine[1] = len(record['cases']) - cases[key]
    return [[*map(number, numbers), board_label(*key)] for key, numbers in sorted(found.items())]


def held(record):
    """Of each instruction of the model, in the order of its tables: the rows that agreed, the rows in the logs, and its name. Behind them the rows
    that hold none."""
    c = record['counts']
    return [[number(c.get('agreed ' + kind, 0)), number(c.get('row ' + kind, 0)), kind] for kind in KINDS]


def never_held(record):
    """A sentence on the instructions that no agreed row holds."""
    names = [name for name in INSTRUCTIONS if name not in agreed_instructions(record)]
    always = [name for name in names if name in ALWAYS_TRAP]
    note = ' (%s always trap%s, so no row of %s can agree)' % (
        ' and '.join(always), 's' if len(always) == 1 else '', 'it' if len(always) == 1 else 'them') if always else ''
    return '%s of the %s instructions of the model in no agreed row: %s%s' % (
        number(len(names)), number(len(INSTRUCTIONS)), ', '.join(names) or 'none', note)
