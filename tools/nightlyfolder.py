"""The folder of a night: its cases, expected outputs and logs, and hashes of what they hold. Used by tools/nightly."""
import hashlib
import os
import re
import stat
from collections import namedtuple

from casefile import Refused, read
from settingsfile import DEFAULT

Found = namedtuple('Found', 'names outputs others unreadable logs strays')


def is_log(name):
    """Whether a name is a log's. Some boards write it in capitals, and no log may be left out for that."""
    return name.lower().endswith('.log')


def log_like(names):
    """Names that are no logs', but those of what may have been one, or will be: packed, numbered, or not yet wholly there, as x.log.gz, x.log.1 and
    .x.log.Ab3. What this tool itself keeps of a log's answer is none."""
    return [name for name in names if re.search(r'\.log(?![a-z])(?!\.(got|err)$)', os.path.basename(name).lower())]


def leads_nowhere(path, name):
    """Whether a name is a link whose end can't be reached: whatever is behind it, perhaps a folder of cases, isn't run. A case or a log tells that
    itself."""
    here = os.path.join(path, name)
    return os.path.islink(here) and not os.path.exists(here) and not name.endswith('.case') and not is_log(name)


def owner(log, names):
    """The case that a log belongs to: of NAME.log and NAME.BOARD.log the longest NAME that has a case in the same folder; None if there is none."""
    folder, stem = os.path.split(log[:-4])
    while os.path.join(folder, stem + '.case') not in names:
        if '.' not in stem:
            return None
        stem = stem.rpartition('.')[0]
    return os.path.join(folder, stem + '.case')


def board(log, case):
    """The board's name in the name of a log; '' if it has none."""
    return log[len(case) - 4:-4]


def found_logs(files, names):
    """The logs of each case that has some, by the order of their names, and the logs that have no case."""
    logs, strays = {}, []
    for log in sorted(filter(is_log, files)):
        case = owner(log, names)
        if case:
            logs.setdefault(case, []).append(log)
        else:
            strays.append(log)
    return logs, strays


def all_logs(found):
    """The names of all logs of a folder."""
    return sorted(found.strays + [log for logs in found.logs.values() for log in logs])


def find(folder):
    """What is below a folder: the cases by the order of their names, the expected outputs, all other files, what can't be looked into, the logs of
    each case, and the logs that have none. Links to folders are followed behind all else, so that a folder has its own name and is looked into once."""
    files, unreadable, seen, later = [], [], set(), [folder]

    def named(path, name):
        return os.path.normpath(os.path.join(os.path.relpath(path, folder), name))

    def note(error):
        unreadable.append([named(error.filename, ''), 'the folder cannot be read: %s' % error.strerror])

    while later:
        for path, folders, here in os.walk(later.pop(0), onerror=note):
            if os.path.realpath(path) in seen:
                folders.clear()
                continue
            seen.add(os.path.realpath(path))
            folders.sort()
            later += [os.path.join(path, name) for name in folders if os.path.islink(os.path.join(path, name))]
            lost = [name for name in here if leads_nowhere(path, name)]
            unreadable += [[named(path, name), 'a link whose end cannot be reached'] for name in lost]
            unreadable += [[named(path, name), 'a folder has the name of a ' + ('log' if is_log(name) else 'case')] for name in folders
                           if is_log(name) or name.endswith('.case')]
            files += [named(path, name) for name in here if name not in lost]
    names = {name for name in files if name.endswith('.case')}
    outputs = {name for name in files if name.endswith('.out')}
    others = {name for name in files if not is_log(name)} - names - {name for name in outputs if name[:-4] + '.case' in names}
    return Found(sorted(names), outputs, sorted(others), unreadable, *found_logs(files, names))


def file_hash(path):
    """The SHA-256 of a file; '' of one that can't be read."""
    sha = hashlib.sha256()
    try:
        if not os.path.isfile(path):
            return ''
        with open(path, 'rb') as file:
            for block in iter(lambda: file.read(1 << 20), b''):
                sha.update(block)
    except OSError:
        return ''
    return sha.hexdigest()


def hash_of(values):
    return hashlib.sha256('\0'.join(values).encode('utf-8', 'surrogateescape')).hexdigest()


def contents(folder, names, expect):
    """name: (the hash of the case, with --expect the hash of its expected output)."""
    return {name: (file_hash(os.path.join(folder, name)), file_hash(os.path.join(folder, name[:-5] + '.out')) if expect else '') for name in names}


def contents_hash(hashes, logs):
    """One hash of the contents of all cases (as contents() has them) and of all logs (name: hash)."""
    return hash_of([text for name in sorted(hashes) for text in (name, *hashes[name])] + [text for name in sorted(logs) for text in (name, logs[name])])


def list_hash(names, logs):
    """One hash of the names of all cases and all logs."""
    return hash_of(sorted(names) + sorted(logs))


def opened(file, board=DEFAULT):
    """An open file's case on a board (None if it is none) and its refusal (None, or `NUMBER PLACE`)."""
    try:
        return read(file.read(65537), board), None         # a longer file is refused for its length, whatever it holds
    except Refused as refused:
        return None, '%d %d' % (refused.number, refused.place)


def plain(path):
    """Raises OSError where no plain file is at a path: a pipe or a device might never end."""
    if not stat.S_ISREG(os.stat(path).st_mode):
        raise OSError(0, 'it is no plain file')
