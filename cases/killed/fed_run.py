"""A run of `ofxbank answer` that is given its whole input at once, and may be killed at any time."""
import fcntl
import os
import resource
import select
import signal
import subprocess
import time

from killed.stream import Wrong
from written.frames import answers

MAX_SECONDS = 20  # from the start or from what was read last
MAX_SECONDS_TO_DIE = 60  # a process that waits for its disk can't die before that answers
ONE_PAGE = 4096  # the least that a pipe holds
LOOK = 0.002  # seconds
LOOKS_ASLEEP = 5
UNLIMITED = resource.RLIM_INFINITY


class Run:
    """A run of the program that has been given its whole input, and waits for more of it until it is closed. No file
    may have more bytes than the room. A narrow run has to wait until somebody reads once it has written a page."""

    def __init__(self, program, folder, at, stream, room=UNLIMITED, is_narrow=False, records="records"):
        words = [program, "answer", "setup", records, "--at", at.strftime("%Y%m%d%H%M%S")]
        pipes = {"stdin": subprocess.PIPE, "stdout": subprocess.PIPE, "stderr": subprocess.PIPE, "bufsize": 0}
        # What restores signals would have a write past the room end the program.
        self.child = subprocess.Popen(words, cwd=folder, restore_signals=False, preexec_fn=limit(room), **pipes)
        if is_narrow:
            fcntl.fcntl(self.child.stdout, fcntl.F_SETPIPE_SZ, ONE_PAGE)
        self.end = time.monotonic() + MAX_SECONDS
        self.written = b""
        try:
            self.child.stdin.write(stream)
        except BrokenPipeError:
            pass  # what it has written tells why

    def read(self, seconds):
        """Reads what is there within this time. Whether anything was."""
        ready, _, _ = select.select([self.child.stdout], [], [], max(0, seconds))
        more = os.read(self.child.stdout.fileno(), 1 << 20) if ready else b""
        self.written += more
        if more:
            self.end = max(self.end, time.monotonic() + MAX_SECONDS)
        return bool(more)

    def wait_for(self, count):
        """Waits for so many answers. A run that says nothing more in time is killed."""
        while len(whole(answers(self.written))) < count:
            if not self.read(self.end - time.monotonic()):
                state = state_of(self.child.pid)
                status, told = self.kill() if time.monotonic() >= self.end else self.close()
                count = len(whole(answers(self.written)))
                raise Wrong("%d answers came, and no more, and the program was in state %s%s: status %d with %r" % (
                    count, state, ", waiting for a disk" * (state == "D"), status, told[:80]))

    def wait_until_asleep(self):
        """Waits, reading nothing, until the program sleeps for some looks in a row, as it does where it waits for its
        input or output, or until it has ended."""
        asleep = 0
        while asleep < LOOKS_ASLEEP and time.monotonic() < self.end:
            time.sleep(LOOK)
            asleep = asleep + 1 if state_of(self.child.pid) in "SZ" else 0

    def kill(self):
        """Kills it where it hasn't ended. The status, and the error stream. Its input stays open until it is dead, so
        it has no reason to have ended before. Its output isn't read until then, which would let a held-up answer out.
        """
        self.child.send_signal(signal.SIGKILL)
        self.end = time.monotonic() + MAX_SECONDS_TO_DIE
        self.wait()
        return self.close()

    def close(self):
        """Ends its input, and reads the rest of its output. The status, and the error stream."""
        self.child.stdin.close()
        try:
            while self.read(self.end - time.monotonic()):
                pass
            return self.wait(), self.child.stderr.read()
        finally:
            self.child.stdout.close()
            self.child.stderr.close()

    def wait(self):
        """The status, once it has ended."""
        try:
            return self.child.wait(max(0, self.end - time.monotonic()))
        except subprocess.TimeoutExpired:
            self.child.kill()
            raise Wrong("it doesn't end")


def limit(room):
    return lambda: resource.setrlimit(resource.RLIMIT_FSIZE, (room, room))


def state_of(pid):
    """The letter by which the system says what the process does."""
    with open("/proc/%d/stat" % pid) as f:
        return f.read().rpartition(")")[2].split()[0]


def whole(some):
    """The answers without the last where that is cut."""
    return some[:-1] if some and is_cut(some[-1]) else some


def is_cut(one):
    line, _, file = one.partition(b"\n")
    return not one.endswith(b"\n") or (line.startswith(b"FILE ") and len(file) < int(line[5:]))
