"""One run of the program under test, with a limit of time and one of output. Used by tools/nightly.

Each program is the leader of a process group of its own. Whatever ends the run, the whole group is killed then: a process that the program left
behind can neither hold its output open beyond the limit of time nor stay.
"""
import os
import selectors
import signal
import subprocess
import threading
import time

OUTPUT_LIMIT = 1 << 20        # bytes; the longest right answer, of a file of 65,536 bytes, has less than a tenth of it
alive, lock = set(), threading.Lock()


class Stop:
    """Whether the night is to be broken off, and whether somebody looks at that."""

    def __init__(self):
        self.flag, self.looked_at = threading.Event(), False

    def check(self):
        """Raises OSError if the night is to be broken off: a long log isn't read to its end then."""
        if self.flag.is_set():
            raise OSError(0, 'the night is broken off')


stop = Stop()


def kill_group(pid):
    try:
        os.killpg(pid, signal.SIGKILL)
    except (ProcessLookupError, PermissionError):
        pass


def kill_all():
    """Ends every program that still runs, and each that is being started: they are in groups of their own, so a Ctrl-C doesn't reach them."""
    stop.flag.set()
    with lock:
        for pid in alive:
            kill_group(pid)


def collect(process, deadline, limit):
    """What the program writes, up to the end of both its outputs: (standard output, standard error, None or which limit it met)."""
    got, met = {process.stdout: bytearray(), process.stderr: bytearray()}, None
    with selectors.DefaultSelector() as selector:
        for pipe in got:
            selector.register(pipe, selectors.EVENT_READ)
        while selector.get_map() and not met:
            left = deadline - time.monotonic()
            for key, _ in selector.select(min(left, 3600)) if left > 0 else ():         # a selector takes no longer ones
                chunk = os.read(key.fd, 1 << 16)
                got[key.fileobj] += chunk
                if not chunk:
                    selector.unregister(key.fileobj)
            met = 'time' if left <= 0 else 'output' if sum(map(len, got.values())) > limit else None
    return bytes(got[process.stdout]), bytes(got[process.stderr]), met


def has_ended(process):
    """Whether the program has ended. It isn't waited for yet: while it isn't, no other process can have its number, nor its group's."""
    return os.waitid(os.P_PID, process.pid, os.WEXITED | os.WNOHANG | os.WNOWAIT) is not None


def ends_by(process, deadline):
    pause = 0.0005
    while not has_ended(process):
        if time.monotonic() >= deadline:
            return False
        time.sleep(pause)
        pause = min(2 * pause, 0.05)
    return True


def complaint(process, met, ended, error, timeout, limit):
    """Why a run gave no answer, apart from what it wrote to standard output; None if there is nothing to say."""
    said = ': %s' % ascii(error.decode('ascii', 'backslashreplace').strip()[:80]) if error.strip() else ''
    if met == 'output':
        return 'the program wrote more than {:,} bytes'.format(limit)
    if met == 'time' and ended:
        return 'no whole answer within %g s: the program ended, but a process that it left behind holds its output open' % timeout
    if not ended:
        return 'no answer within %g s' % timeout
    if process.returncode:
        return 'the program ended with %s %d%s' % ('status' if process.returncode > 0 else 'signal', abs(process.returncode), said)
    return 'the program wrote to standard error' + said if error else None


def run(program, given, timeout, limit=OUTPUT_LIMIT, arguments=()):
    """Runs the program with the file `given` (None: an empty one) as its standard input: (standard output, standard error, None or why this is no
    answer)."""
    deadline, given = time.monotonic() + timeout, subprocess.DEVNULL if given is None else given
    process = subprocess.Popen([program, *arguments], stdin=given, stdout=subprocess.PIPE, stderr=subprocess.PIPE, start_new_session=True)
    with lock:
        alive.add(process.pid)
        if stop.flag.is_set():
            kill_group(process.pid)
    try:
        output, error, met = collect(process, deadline, limit)
        ended = has_ended(process) if met else ends_by(process, deadline)
    finally:
        with lock:
            kill_group(process.pid)
            alive.discard(process.pid)
        process.stdout.close()
        process.stderr.close()
        try:
            process.wait(10)
        except subprocess.TimeoutExpired:         # a process that can't be killed (of another user, or in the kernel) doesn't hold the night
            pass
    why = complaint(process, met, ended, error, timeout, limit)
    return output, error, why or (None if output else 'the program wrote nothing')
