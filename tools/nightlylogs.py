"""A board's step log, and the answer of `replay CASE LOG` to it, or with a settings file of `replay CASE LOG SETTINGS BOARD`, which is judged and not
believed. Used by tools/nightly.

A log has a row in the record:
  name, board, settings (what its board is set to; None without a settings file), sha256, bytes (None if it couldn't be read: nobody knows its rows),
  outcome, what (is wrong or missing), refusal (`NUMBER PLACE`), stop, counts, seconds, kept, unkept, uncontrolled (why no control row was tried)
Its outcome is
  agreed     every row was compared, and agrees
  stopped    a row is badly formed, differs or traps: `stop` has row, field, board's and model's value, the row itself and how its form is wrong
  refused    the case file or the log is none, so nothing was compared
  wrong      the program's answer can't be right
  missing    there is no answer
  stray      there is no case for it
  unset      its name has no board of the settings file, so nobody knows under what to compare it
Every row of it is counted once: `rows agreed`, `rows differ` (the row of a stop), `rows malformed` (the same, badly formed), `rows behind` a stop,
`rows unanswered` (of a log with another outcome); and by what it holds: `row KIND`, and `agreed KIND` of those that agreed.
"""
import os
import re
import shutil
import tempfile
import time
from collections import Counter, namedtuple

from casefile import WIDTHS
from nightlyboards import name_fault, number_of, settings_of
from nightlyfolder import board, file_hash, opened, plain
from nightlyrows import ALWAYS_TRAP, ROW, Rows, cannot_agree, form_fault, in_memory, rd_of, split, well_formed, width_of
from nightlyrun import run
from riscv import decode, target
from settingsfile import DEFAULT, Board

ROWS_A_SECOND = 100000         # a log has a second more for every so many rows
STRAY = 'there is no case for it'
LOG_REFUSALS = {12: 'the length of the log is no multiple of 48', 13: 'the log is empty'}
HEX16, HEX8 = '[0-9a-f]{16}', '[0-9a-f]{8}'
STOPS = {'form': '()()', 'pc': ' (%s) (%s)' % (HEX16, HEX16), 'word': ' (%s) (%s)' % (HEX8, HEX8), 'trap': '() ([0-8] %s)' % HEX16,
         'rd': ' ([0-9]{2}) ([0-9]{2})', 'value': ' (%s) (%s)' % (HEX16, HEX16)}
Answer = namedtuple('Answer', 'rows row field board model end')         # row: those that agreed; field: None if all did


# ---- the program's lines

def parsed(text):
    """The program's answer, if it has the form of one that isn't a refusal; else None."""
    match = re.fullmatch(r'log (N) rows\n(agreed|row) (N)(?: ([a-z]+)(.*))?\nend (N)\n'.replace('N', '0|[1-9][0-9]{0,15}'), text)
    if not match or (match[2] == 'row') != bool(match[4]):
        return None
    values = re.fullmatch(STOPS[match[4]], match[5]) if match[4] in STOPS else None
    if match[4] and not values:
        return None
    return Answer(int(match[1]), int(match[3]), match[4], *(values.groups() if values else (None, None)), int(match[6]))


def due_refusal(refusal, size):
    """The refusal that a case's and a log's bytes must get; None if they are in order."""
    return refusal or ('12 0' if size % ROW else None if size else '13 0')


def width(name):
    """The bytes that a load, a store or an atomic touches."""
    letter = name[-1] if '.' in name else name.rstrip('u')[-1]
    return {'b': 1, 'h': 2, 'w': 4, 'd': 8, 'q': 16}[letter]


def access_causes(form, misaligned):
    """The cause of a misaligned access, and that of one outside memory. misaligned: of the board, by which only those of atomics go."""
    outside = 5 if form in ('load', 'lr') else 7
    return outside if misaligned and form in ('lr', 'amo') else outside - 1, outside


def causes_of(name, form, misaligned):
    """The causes by which a step of an instruction can trap, but for 1."""
    alone = {None: (2,), 'ebreak': (3,), 'ecall': (8,), 'jalr': (0,)}.get(name)
    return alone or ((0,) if form in ('jump', 'branch') else access_causes(form, misaligned) if form in ('load', 'lr', 'store', 'amo') else ())


def access_fault(case, found, cause, address):
    """Why an access can't trap by this cause of its own at an address; None if it can."""
    (skewed, outside), size = access_causes(found[1], case.board.misaligned), width(found[0])
    if address % size:
        return None if cause == skewed else 'the address is misaligned'
    if cause != outside:
        return 'the address is aligned'
    return 'the address is in memory' if in_memory(case, address, size) else None


def trap_fault(case, row, cause, value):
    """Why a row's step can't trap in this way; None if it can."""
    pc, word, xlen = int(row.pc, 16), int(row.word, 16), width_of(case)
    found = decode(word, xlen) or (None, None)
    if (cause == 1) != (not in_memory(case, pc, 4)):
        return 'pc %#x is %s memory' % (pc, 'in' if cause == 1 else 'not in')
    if cause != 1 and cause not in causes_of(*found, case.board.misaligned):
        return '%s has no such trap%s' % (found[0] or 'a word that is no instruction', ' on its board' if cause in causes_of(*found, 0) else '')
    exact = {1: pc, 2: word, 3: 0, 8: 0, 0: (pc + target(word)) % 2 ** xlen if target(word) is not None else value}.get(cause, value)
    if value != exact or value >> xlen:
        return 'its value would be %016x' % exact if value != exact else 'its value has more than %d bits' % xlen
    if cause == 0 and value % 4 == 0:
        return 'the address is aligned'
    return access_fault(case, found, cause, value) if cause in (4, 5, 6, 7) else None


def stop_fault(case, answer, row):
    """Why a stop can't be right for its row, which is well formed; None if it can."""
    pc, word, found = int(row.pc, 16), int(row.word, 16), decode(int(row.word, 16), width_of(case))
    if answer.field == 'trap':
        return trap_fault(case, row, int(answer.model[0]), int(answer.model[2:], 16))
    if answer.board != getattr(row, answer.field):
        return 'the row has the %s %s' % (answer.field, getattr(row, answer.field))
    if answer.board == answer.model:
        return 'the two values are equal'
    if answer.field in ('pc', 'value') and int(answer.model, 16) >> width_of(case):
        return 'the %s of a model has no more than %d bits' % (answer.field, width_of(case))
    if answer.field == 'pc':
        return 'the pc of a model is a multiple of 4' if int(answer.model, 16) % 4 else None
    if answer.field == 'word':
        return None if in_memory(case, pc, 4) else 'pc %#x is not in memory' % pc
    if answer.field == 'value':
        why = cannot_agree(row._replace(value='0'), case)
        return why or ('x0 is zero' if row.rd == '00' and int(answer.model, 16) else None)
    if not in_memory(case, pc, 4) or not found or found[0] in ALWAYS_TRAP:
        return 'the row traps'
    return None if int(answer.model) == rd_of(word) else 'its word has rd %02d' % rd_of(word)


def answer_fault(answer, case, found):
    """Why an answer to a case and a log that are in order can't be right; None if it can."""
    k, rows = answer.row, found.rows
    if answer.rows != rows:
        return 'it says `log %d rows`, but the log has %d' % (answer.rows, rows)
    if answer.end != k:
        return 'it says `end %d`, but %d rows agreed' % (answer.end, k)
    if k > rows or (k == rows) != (answer.field is None):
        return 'it says `%s %d`, but the log has %d rows' % ('row' if answer.field else 'agreed', k, rows)
    if found.bad is not None and found.bad < k:
        return 'it passes over row %d, which is badly formed' % found.bad
    if found.odd:
        return 'it says that row %d agreed, with which no model can agree: %s' % found.odd
    if answer.field is None:
        return None
    if (answer.field == 'form') != (found.bad == k):
        return 'it says `row %d %s`, but the row is %s formed' % (k, answer.field, 'badly' if found.bad == k else 'well')
    why = stop_fault(case, answer, split(found.at)) if answer.field != 'form' else None
    return 'it says `row %d %s %s`, which cannot be: %s' % (k, answer.field, ' '.join(filter(None, answer[3:5])), why) if why else None


def judged(text, case, due, found):
    """An answer's outcome (agreed, stopped, refused, wrong) and, of a wrong one, what is wrong."""
    if due:
        return ('refused', None) if text == 'refused %s\n' % due else ('wrong', 'the answer is %r, not %r' % (text[:80], 'refused %s\n' % due))
    answer = parsed(text)
    if not answer:
        return 'wrong', 'the answer is %r, %s' % (text[:80], 'but case and log are in order' if text.startswith('refused') else 'which is none')
    why = answer_fault(answer, case, found)
    return ('wrong', why) if why else ('stopped' if answer.field else 'agreed', None)


def possible_stop(stop):
    """Whether a stop of a record has the form of one, so that a page can show it."""
    if stop['field'] not in STOPS:
        return False
    if stop['field'] == 'form':
        return stop['form'] is not None
    values = ''.join(' ' + value for value in (stop['board'], stop['model']) if value is not None)
    line = stop['line'].encode('utf-8', 'backslashreplace') + b'\n'
    return stop['xlen'] in WIDTHS and bool(re.fullmatch(STOPS[stop['field']], values)) and well_formed(line, 8)


def stop_of(answer, found):
    """A stop as the record has it."""
    line = (found.at[:-1] if found.at.endswith(b'\n') else found.at).decode('latin-1')
    return {'row': answer.row, 'field': answer.field, 'board': answer.board or None, 'model': answer.model or None, 'line': line,
            'form': form_fault(found.at, found.harts) if answer.field == 'form' else None, 'xlen': found.xlen}


# ---- control rows

def altered(row):
    """A row with another value: the lowest bit is turned."""
    return b'%s%016x\n' % (row[:31], int(row[31:47], 16) ^ 1)


def replay_arguments(args, case_path, path, row):
    """What the program of --replay is given for a log, or for a copy of it."""
    return (case_path, path) + ((args.settings, str(number_of(row['board']))) if row['settings'] else ())


def control(args, given, k, rows, limit):
    """Changes the value of row k in a copy of a log, which agreed up to there, and asks the program: it must stop there. Gives what is wrong, or None."""
    with open(given[1], 'r+b', buffering=0) as file:
        file.seek(k * ROW)
        row = file.read(ROW)
        other = altered(row)
        file.seek(k * ROW)
        file.write(other)
        output, _, why = run(args.replay, None, limit, args.output_limit, given)
        file.seek(k * ROW)
        file.write(row)
    right = 'log %d rows\nrow %d value %s %s\nend %d\n' % (rows, k, split(other).value, split(row).value, k)
    if why or output != right.encode():
        return 'the value of row %d (%s) was changed in a copy of the log, and the program %s' % (
            k, split(row).word, 'gave no answer: ' + why if why else 'answers %s' % ascii(output[:80].decode('ascii', 'backslashreplace')))
    return None


def controls(args, case_path, path, row, found, agreed, limit):
    """Tries the program on one row of each instruction that agreed, and on the last row that did. Gives how many rows it tried, what is wrong with
    an answer (or None), and why no row could be tried (or None)."""
    if not agreed or not args.controls:
        return 0, None, 'not asked for' if agreed else None
    tried, folder = sorted({agreed - 1, *found.first.values()}), None
    try:
        try:
            folder = tempfile.mkdtemp(prefix='nightly-')
            copy = shutil.copyfile(path, os.path.join(folder, os.path.basename(path)))
        except OSError as error:
            return 0, None, 'no copy of the log can be made: %s' % (error.strerror or error)
        given = replay_arguments(args, case_path, copy, row)
        wrong = next(filter(None, (control(args, given, k, found.rows, limit) for k in tried)), None)
        return len(tried), wrong, None
    finally:
        if folder:
            shutil.rmtree(folder, ignore_errors=True)


# ---- one log

def row_counts(found, outcome, k, field):
    """How many rows came to what."""
    counts = Counter({'logs': 1, 'log rows': found.rows})
    counts.update({'row ' + kind: n for kind, n in found.all.items()})
    if outcome not in ('agreed', 'stopped'):
        counts['rows unanswered'] = found.rows
        return counts
    counts.update({'agreed ' + kind: n for kind, n in found.agreed.items()})
    counts['rows agreed'] = k
    if outcome == 'stopped':
        counts['rows malformed' if field == 'form' else 'rows differ'] = 1
        counts['rows behind'] = found.rows - k - 1
    return counts


def readable(*files):
    """Raises OSError where a case, a log or a settings file is no plain file, can't be opened, or is there no more. files: (path, what it is, its hash
    before the night)."""
    for name, what, sha256 in files:
        try:
            plain(name)
            open(name, 'rb').close()
        except FileNotFoundError:
            raise OSError(0, what + (' vanished during the run' if sha256 else ' is a link whose end cannot be reached'))
        except OSError as error:
            raise OSError(0, '%s cannot be read: %s' % (what, error.strerror))


def answer_log(args, case_path, case_hash, path, row, wrote):
    """Runs the program over one log and fills its row."""
    files = [(case_path, 'its case', case_hash), (path, 'the log', row['sha256'])]
    files += [(args.settings, 'the settings file', args.settings_sha256)] if row['settings'] else []
    readable(*files)
    with open(case_path, 'rb') as file:
        case, refusal = opened(file, Board(*(row['settings'] or DEFAULT)))
    limit, start = args.timeout + os.stat(path).st_size // ROW // ROWS_A_SECOND, time.monotonic()
    wrote['got'], wrote['err'], row['what'] = run(args.replay, None, limit, args.output_limit, replay_arguments(args, case_path, path, row))
    row['seconds'] = time.monotonic() - start
    readable(*files)
    text = wrote['got'].decode('ascii', 'backslashreplace')
    answer = None if row['what'] else parsed(text)
    found = Rows(path, case, answer.row if answer else 0)
    row.update(bytes=found.size, counts=row_counts(found, 'missing', 0, None))
    still(files, found.sha256)
    if not row['what']:
        take_answer(args, case_path, path, row, (text, answer, case, due_refusal(refusal, found.size), found, limit))
        still(files, file_hash(path) if row['what'] else found.sha256)


def still(files, log_hash):
    """Raises OSError where the case, the log or the settings file isn't what it was before the night. log_hash: the log's, from its latest reading."""
    readable(*files)
    (case_path, _, case_hash), (_, _, before), *settings = files
    if file_hash(case_path) != case_hash or log_hash != before:
        raise OSError(0, 'the case or the log was changed during the run')
    if any(file_hash(path) != sha256 for path, _, sha256 in settings):
        raise OSError(0, 'the settings file was changed during the run')


def take_answer(args, case_path, path, row, given):
    """Fills a log's row by what the program wrote."""
    text, answer, case, due, found, limit = given
    outcome, row['what'] = judged(text, case, due, found)
    if outcome in ('agreed', 'stopped'):
        tried, row['what'], row['uncontrolled'] = controls(args, case_path, path, row, found, answer.row, limit)
    row['outcome'] = 'wrong' if row['what'] else outcome
    if row['outcome'] in ('agreed', 'stopped'):
        row['counts'] = row_counts(found, outcome, answer.row, answer.field) + Counter(controls=tried)
        row['stop'] = stop_of(answer, found) if answer.field else None
    row['refusal'] = due if outcome == 'refused' else None


def new_row(name, board_name, sha256, settings=None):
    return {'name': name, 'board': board_name, 'settings': settings, 'sha256': sha256, 'bytes': None, 'outcome': 'missing', 'what': None, 'refusal': None,
            'stop': None, 'counts': Counter(logs=1), 'seconds': 0.0, 'kept': [], 'unkept': None, 'uncontrolled': None}


def only_count(row, path):
    """Counts the rows of a log of which none is compared. Gives what is wrong with it, or None."""
    try:
        plain(path)
        found = Rows(path, None, 0)
    except Exception as error:         # it is at fault already, and the night goes on
        return 'it cannot be read: %s' % (getattr(error, 'strerror', None) or repr(error))
    row.update(bytes=found.size, counts=row_counts(found, row['outcome'], 0, None))
    return 'it was changed during the run' if found.sha256 != row['sha256'] else None


def one_log(args, case_name, case_hash, name, sha256, kept):
    """The row of one log. Whatever goes wrong with it, the night goes on."""
    board_name = board(name, case_name)
    if name_fault(args.boards, board_name):
        return uncompared(args.folder, new_row(name, board_name, sha256), 'unset', name_fault(args.boards, board_name))
    row, wrote = new_row(name, board_name, sha256, settings_of(args.boards, board_name)), {'got': b'', 'err': b''}
    case_path, path = (os.path.abspath(os.path.join(args.folder, file)) for file in (case_name, name))
    try:
        answer_log(args, case_path, case_hash, path, row, wrote)
    except Exception as fault:
        what = fault.strerror if isinstance(fault, OSError) and fault.strerror else 'this tool failed on the log: %s: %s' % (type(fault).__name__, fault)
        if row['bytes'] is None:
            only_count(row, path)
        unanswered = {key: n for key, n in row['counts'].items() if key in ('logs', 'log rows') or key.startswith('row ')}
        row.update(outcome='missing', what='; '.join(filter(None, (row['what'], what))), stop=None, refusal=None, uncontrolled=None,
                   counts=Counter(unanswered, **{'rows unanswered': unanswered.get('log rows', 0)}))
    if row['outcome'] in ('missing', 'wrong'):
        try:
            row['kept'] = kept.keep(name, wrote)
        except OSError as fault:
            row['unkept'] = fault.strerror or str(fault)
    row['counts'] = {key: n for key, n in row['counts'].items() if n}
    return row


def uncompared(folder, row, outcome, why):
    """The row of a log for which no program is asked: its rows are counted, and none is compared."""
    row['outcome'] = outcome
    row['what'] = ', and '.join(filter(None, (why, only_count(row, os.path.join(folder, row['name'])))))
    row['counts'] = {key: n for key, n in row['counts'].items() if n}
    return row


def stray_log(folder, name, sha256):
    """The row of a log that has no case."""
    return uncompared(folder, new_row(name, '', sha256), 'stray', STRAY)
