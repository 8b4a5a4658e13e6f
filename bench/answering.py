"""A run of `ofxbank answer` that stays open and is asked batch after batch."""
import subprocess
import threading
import time

from resident import resident_now


class Late(Exception):
    """A run that wasn't done in the time it had."""


class Answering:
    """A run over a file of records, and the processor's time that it takes."""

    def __init__(self, program, setup, path, at, most_seconds):
        words = [program, "answer", setup, path, "--at", at]
        self.child = subprocess.Popen(words, stdin=subprocess.PIPE, stdout=subprocess.PIPE, stderr=subprocess.DEVNULL)
        self.most_seconds = most_seconds

    def seconds(self):
        """The processor's seconds so far."""
        with open("/proc/%d/schedstat" % self.child.pid) as f:
            return int(f.read().split()[0]) / 1e9

    def held(self):
        """The largest resident size in bytes."""
        return 1024 * (resident_now(self.child.pid) or 0)

    def answers(self, frames):
        """The answers to these frames, and the processor's seconds that they took."""
        before = self.seconds()
        late = threading.Timer(self.most_seconds, self.child.kill)
        feeder = threading.Thread(target=self.feed, args=(b"".join(frames),))
        late.start()
        feeder.start()
        answers = [self.answer() for _ in frames]
        late.cancel()
        feeder.join()
        return answers, self.seconds() - before

    def waits(self, frames):
        """How long each of these frames takes, asked one after another: the seconds by the clock until its answer, and those of
        the processor."""
        late = threading.Timer(self.most_seconds, self.child.kill)
        late.start()
        waits = []
        for frame in frames:
            begun, used = time.perf_counter(), self.seconds()
            self.feed(frame)
            self.answer()
            waits.append((time.perf_counter() - begun, self.seconds() - used))
        late.cancel()
        return waits

    def feed(self, text):
        try:
            self.child.stdin.write(text)
            self.child.stdin.flush()
        except BrokenPipeError:
            pass

    def answer(self):
        """The bytes of the next answer: a file, or the line for a frame that is none."""
        line = self.child.stdout.readline()
        if not line:
            self.child.wait()
            raise Late()
        return self.child.stdout.read(int(line[5:])) if line.startswith(b"FILE ") else line

    def __enter__(self):
        return self

    def __exit__(self, *_):
        self.child.kill()
        self.child.communicate()


def opened(program, setup, path, at, most_seconds):
    """A run that has opened its records, and the processor's seconds that it took."""
    run = Answering(program, setup, path, at, most_seconds)
    _, seconds = run.answers([b"FILE 1\nx"])
    return run, seconds
