"""What tools/case and tools/settings share: texts and files that are read, outputs that are written whole or not at all and never over an input, and
standard streams that may be closed or full."""
import argparse
import errno
import os
import shutil
import signal
import stat
import sys


class TextError(Exception):
    """What is wrong with a text, and the line, from 1."""

    def __init__(self, line, what):
        super().__init__(what)
        self.line = line


# ---- what is read

def opened(stream):
    """A standard stream. Python has None for one that is closed, and print then writes nothing and says nothing."""
    if stream is None:
        raise OSError(errno.EBADF, os.strerror(errno.EBADF))
    return stream


def input_name(path):
    return 'standard input' if path == '-' else path


def take(path):
    """All that a file has, or standard input for -."""
    try:
        if path == '-':
            return opened(sys.stdin).buffer.read()
        with open(path, 'rb') as file:
            return file.read()
    except OSError as error:
        raise OSError(error.errno, error.strerror, input_name(path))


def made(path, make):
    """What a function makes of the text at a path. Ends the command, with the line, if there is no text or it is wrong."""
    given = take(path)
    try:
        return make(given.decode())
    except UnicodeDecodeError as error:
        line, what = given.count(b'\n', 0, error.start) + 1, 'no text: the byte %#x at %d is not UTF-8' % (given[error.start], error.start)
    except TextError as error:
        line, what = error.line, error
    sys.exit('%s:%d: %s' % (input_name(path), line, what))


# ---- what is written; None is standard output

def identity(file):
    """What tells a plain file from every other, whatever name or open number leads to it; None of anything else."""
    try:
        found = os.stat(file)
    except OSError:
        return None
    return (found.st_dev, found.st_ino) if stat.S_ISREG(found.st_mode) else None


def keep_inputs(tool, text, files, output):
    """Ends the command if its output would replace what it is made of, by whatever name: the text, or one of the files, which are (path, what it is)."""
    mine = identity(1 if output is None else output)
    for file, what in [(0 if text == '-' else text, 'the text'), *files]:
        if mine is not None and identity(file) == mine:
            sys.exit('%s: %s: it is %s, and stays as it is' % (tool, 'standard output' if output is None else output, what))


def put(tool, path, data):
    """Writes a file whole or not at all: beside it under another name first, so that a full disk leaves what was there."""
    if os.path.exists(path):
        if not os.path.isfile(path):                         # a device or a pipe can't be renamed over
            with open(path, 'wb') as file:
                file.write(data)
            return
        open(path, 'r+b').close()                            # a file that may not be written stays
    path = os.path.realpath(path)                            # the file that a link leads to, not the link
    beside = os.path.join(os.path.dirname(path), '.%s.%d.part' % (os.path.basename(tool), os.getpid()))
    try:
        with open(beside, 'xb') as file:
            file.write(data)
        if os.path.exists(path):
            shutil.copymode(path, beside)
        os.replace(beside, path)
    except BaseException:
        if os.path.exists(beside):
            os.remove(beside)
        raise


def give(tool, output, data):
    """Writes what a command made."""
    if output is None:
        opened(sys.stdout).buffer.write(data)
        return
    try:
        put(tool, output, data)
    except OSError as error:
        raise OSError(error.errno, error.strerror, output)


# ---- the command

class Parser(argparse.ArgumentParser):
    def print_help(self, file=None):
        """As argparse does, which from Python 3.12 on takes no notice of a full disk."""
        print(self.format_help(), end='', file=file or opened(sys.stdout))


def run(arguments):
    """The command, with all of its output written."""
    try:
        args = arguments()
        return args.run(args)
    finally:
        if sys.stdout is not None:
            sys.stdout.flush()                               # here, so that a full disk is told like any other fault, also of --help


def main(tool, arguments):
    """Runs the command that `arguments` reads; what can't be read or written is told in one line."""
    signal.signal(signal.SIGPIPE, signal.SIG_DFL)
    if sys.stderr is None:
        sys.stderr = open(os.devnull, 'w')                   # else a warning would be printed to standard output, into what is made
    try:
        return run(arguments)
    except OSError as error:
        if error.filename is None and sys.stdout is not None:    # what is still held back can't be written either, and Python would say so once more
            os.dup2(os.open(os.devnull, os.O_WRONLY), sys.stdout.fileno())
        name = 'standard output' if error.filename is None else error.filename
        return '%s: %s: %s' % (tool, name, os.strerror(error.errno) if error.errno else error)
