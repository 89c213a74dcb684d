"""Where a night writes: which names it may take, files written whole, and the outputs that are kept. Used by tools/nightly.

A night replaces only what is recognisably its own. Whatever else stands at a name is left alone, and the night isn't started.
"""
import fcntl
import hashlib
import json
import os
import re
import secrets
import stat
import threading

from nightlyfolder import is_log

# A whole file of an earlier night, from its first byte to its last, by what is to be written there: what a user added at its end is a user's.
OWN = {
    'text': rb'Floecavern nightly[^\n]*\n\n(clean|partly clean|not clean|complete|not complete|different)\b[^\n]*\n.*\nCounts\n.*\nThis run\n'
            rb'(  (night|folder|program|replay|settings|SHA-256|started|time|slowest|not run) +[^\n]*\n)+',
    'html': rb'<!doctype html>\n<html lang="en"><head><meta charset="utf-8">\n(<meta [^\n]*>\n)*<title>Floecavern nightly.*</main></body></html>\n',
    'counts': rb'\{\s*"format": "floecavern nightly counts \d+".*\}\n',
    'junit': rb'<\?xml [^\n]*\?>\n<testsuites name="floecavern nightly".*</testsuites>\n',
}
INDEX, INDEX_HEAD = 'index.txt', 'Floecavern nightly outputs'


def is_own(path, kind):
    with open(path, 'rb') as file:
        data = file.read()
    try:
        ends = b'</html>' if kind == 'html' else b'</testsuites>' if kind == 'junit' else None
        whole = data.count(ends) == 1 if ends else kind != 'counts' or isinstance(json.loads(data), dict)
    except (ValueError, RecursionError):
        return False
    return whole and re.fullmatch(OWN[kind], data, re.DOTALL) is not None


def identity(path):
    """What two names of one file have in common; None if nothing is there."""
    try:
        found = os.stat(path)
    except OSError:
        return None
    return found.st_dev, found.st_ino


def occupied(path, kind):
    """Why what stands at a name may not be replaced; None if nothing stands there or it is a night's own."""
    try:
        mode = os.stat(path).st_mode
    except FileNotFoundError:
        return None
    if kind == 'outputs':
        return None if stat.S_ISDIR(mode) and old_outputs(path) is not None else 'is there already, and is no folder of outputs that tools/nightly kept'
    if not stat.S_ISREG(mode):
        return 'is there already, and is no plain file'
    return None if is_own(path, kind) else 'is there already, and is no page or counts that tools/nightly wrote'


def cannot_write(path):
    """Tries the place: why no file can be made beside a name; None if one can."""
    folder = os.path.dirname(os.path.realpath(path))
    trial = os.path.join(folder, '.nightly-' + secrets.token_hex(8))
    try:
        with open(trial, 'x'):
            pass
        os.remove(trial)
    except OSError as error:
        return 'cannot be written: %s: %s' % (folder, error.strerror)
    return None


def meetings(outputs, inputs):
    """Outputs that are one file with another output or with an input, also through links. outputs: (path, kind); inputs: (path, what)."""
    wrong, seen = [], {}
    for path, _ in outputs:
        for key in filter(None, (os.path.realpath(path), identity(path))):
            if seen.setdefault(key, path) != path or [p for p, _ in outputs].count(path) > 1:
                wrong.append('%s: two outputs would have this name' % path)
                break
    for path, what in inputs:
        keys = [os.path.realpath(path)] + ([identity(path)] if any(isinstance(key, tuple) for key in seen) else [])
        wrong += ['%s: is %s' % (seen[key], what) for key in keys if key in seen][:1]
    return list(dict.fromkeys(wrong))


def refusals(outputs, inputs, folder):
    """Why a night may not write to its outputs: sentences, empty if it may. Nothing is changed."""
    wrong = meetings(outputs, inputs)
    for path, kind in outputs:
        real = os.path.realpath(path)
        taken = real.endswith(('.case', '.out')) or is_log(real)
        if folder and taken and os.path.commonpath([real, os.path.realpath(folder)]) == os.path.realpath(folder):
            wrong.append('%s: would be taken for a case, an expected output or a log of the folder' % path)
        else:
            try:
                why = occupied(path, kind) or cannot_write(path)
            except OSError as error:
                why = 'cannot be looked at: %s' % error.strerror
            wrong += ['%s: %s' % (path, why)] if why else []
    return wrong


def clear(outputs):
    """Removes what earlier nights wrote, so that a night that breaks off leaves no page. Only after refusals() had nothing to say."""
    for path, kind in outputs:
        if kind == 'outputs':
            remove_outputs(path)
        elif os.path.exists(path):
            os.remove(os.path.realpath(path))


def put(path, kind, text):
    """Writes a file whole or not at all; a link stays, and what it leads to is written."""
    path = os.path.realpath(path)
    why = occupied(path, kind)
    if why:
        raise OSError(0, why, path)
    put_whole(path, text.encode('utf-8', 'backslashreplace'))


def put_whole(path, data):
    new = os.path.join(os.path.dirname(path), '.nightly-' + secrets.token_hex(8))
    try:
        with open(new, 'xb') as file:
            file.write(data)
        os.replace(new, path)
    except BaseException:
        if os.path.lexists(new):
            os.remove(new)
        raise


class Held:
    """The names of a night's outputs, held against any other night: by a lock on a file beside each, which goes with the night."""

    def __init__(self, outputs):
        self.locks = []
        for path in sorted({os.path.realpath(path) for path, _ in outputs}):
            self.hold(path)

    def hold(self, path):
        """Takes the lock of one name. Where a place has no locks (as some network folders), the night goes on without."""
        name = hashlib.sha256(os.fsencode(os.path.basename(path))).hexdigest()[:16]
        beside = os.path.join(os.path.dirname(path), '.nightly-%s.lock' % name)
        while True:
            try:
                file = open(beside, 'a')
                self.locks.append((beside, file))
                fcntl.flock(file, fcntl.LOCK_EX | fcntl.LOCK_NB)
            except BlockingIOError:
                self.locks.pop()[1].close()
                self.free()
                raise ValueError('%s: another night is writing there now' % path)
            except OSError:
                return
            if identity(beside) == (os.fstat(file.fileno()).st_dev, os.fstat(file.fileno()).st_ino):
                return
            self.locks.pop()[1].close()         # the night before has just ended and removed it

    def free(self):
        for beside, file in self.locks:
            if os.path.exists(beside) and os.path.getsize(beside) == 0:
                os.remove(beside)
            file.close()
        self.locks = []


# ---- outputs of failing cases

def old_outputs(folder):
    """The files that an earlier night kept in a folder, by its index; None if the folder has no such index and isn't empty. A last line without
    its line feed is one that a full disk cut off: nothing was written for it."""
    try:
        there = os.listdir(folder)
        if not there or there == [INDEX] and not os.path.getsize(os.path.join(folder, INDEX)):
            return []         # a full disk let a night make these, and no more
        with open(os.path.join(folder, INDEX), encoding='utf-8') as file:
            head, *lines = file.read().split('\n')[:-1]
        names = [json.loads(line) for line in lines]
    except (OSError, ValueError):
        return None
    safe = all(type(name) is str and not os.path.isabs(name) and '..' not in name.split('/') for name in names)
    return names if head == INDEX_HEAD and safe else None


def remove_outputs(folder):
    """Removes what an earlier night kept, and leaves whatever else is in the folder."""
    names = old_outputs(folder)
    if names is None:
        return
    inside = os.path.join(os.path.realpath(folder), '')
    for path in (os.path.join(folder, name) for name in names):
        if os.path.isfile(path) and not os.path.islink(path) and os.path.realpath(path).startswith(inside):
            os.remove(path)
    above = {os.path.dirname(name) for name in names}
    while any(above):
        above |= {os.path.dirname(name) for name in above}
        name = max(above, key=len)
        above.remove(name)
        remove_empty(os.path.join(folder, name))
    if os.listdir(folder) in ([], [INDEX]):
        if os.path.exists(os.path.join(folder, INDEX)):
            os.remove(os.path.join(folder, INDEX))
        remove_empty(folder)
    else:         # the index stays, empty, beside what a user put there: the folder is still a night's own
        with open(os.path.join(folder, INDEX), 'w', encoding='utf-8') as index:
            index.write(INDEX_HEAD + '\n')


def remove_empty(folder):
    try:
        os.rmdir(folder)
    except OSError:         # something of a user is in it, or it is a link
        pass


class Kept:
    """The folder for what failing cases wrote. It is made with the first of them; without a folder, nothing is kept."""

    def __init__(self, folder):
        self.folder, self.lock = folder and os.path.abspath(folder), threading.Lock()

    def keep(self, name, wrote):
        """Writes what the program wrote to standard output (NAME.got; of a log NAME.log.got) and standard error (.err), and gives the paths."""
        stem = os.path.join(self.folder or '', name[:-len('.case')] if name.endswith('.case') else name)
        paths = [(stem + '.' + end, data) for end, data in wrote.items() if data] if self.folder else []
        with self.lock:
            for path, data in paths:
                self.keep_one(path, data)
        return [path for path, _ in paths]

    def keep_one(self, path, data):
        """One file, and before it a line of the index, by which a later night knows what it may remove; both or none. Never a file of a user."""
        if os.path.lexists(path):
            raise FileExistsError(17, 'File exists', path)
        os.makedirs(self.folder, exist_ok=True)
        index = os.path.join(self.folder, INDEX)
        size = os.path.getsize(index) if os.path.exists(index) else 0
        try:
            with open(index, 'a', encoding='utf-8') as file:
                file.write((INDEX_HEAD + '\n' if size == 0 else '') + json.dumps(os.path.relpath(path, self.folder)) + '\n')
            os.makedirs(os.path.dirname(path), exist_ok=True)
            put_whole(path, data)
        except BaseException:
            if size:
                os.truncate(index, size)
            elif os.path.exists(index):
                os.remove(index)
            raise
