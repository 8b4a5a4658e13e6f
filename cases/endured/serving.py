"""A server of a case, and what it is asked."""
import re
import subprocess
import time

from operated.case import Wrong, wants
from served.link import Link
from served.requests import asking
from served.server import LISTENS, MAX_SECONDS, bear_limits, free_port


class Serving:
    """A run of `serve` in the folder of a case, which listens once it is entered, and is killed where it still runs in the
    end."""

    def __init__(self, place, records, environment=None, workers=2):
        self.place, self.records, self.environment, self.workers = place, records, environment, workers
        self.port = free_port()

    def __enter__(self):
        words = [self.place.program, "serve", "setup", self.records, str(self.port), str(self.workers), "0"]
        with open(self.place.path("told"), "wb") as told:
            self.child = subprocess.Popen(words, cwd=self.place.folder, stdin=subprocess.DEVNULL, stdout=subprocess.DEVNULL,
                                          stderr=told, preexec_fn=bear_limits, env=self.environment)
        self.wait_until(lambda: LISTENS.search(self.told()) or self.child.poll() is not None, "it doesn't listen")
        wants(self.child.poll() is None, "it ended with %r, and told %r" % (self.child.returncode, self.told()))
        return self

    def __exit__(self, *_):
        self.child.kill()
        self.child.wait()

    def told(self):
        with open(self.place.path("told"), "rb") as f:
            return f.read()

    def lines(self):
        return self.told().decode("latin-1").splitlines()

    def wait_until(self, holds, what, seconds=MAX_SECONDS):
        end = time.monotonic() + seconds
        while not holds():
            if time.monotonic() > end:
                raise Wrong("%s within %d seconds; it told %r" % (what, seconds, self.told()))
            time.sleep(0.01)

    def ask(self, *asks, **parts):
        """The HTTP status and the body of the reply to a file with these asks and parts, on a connection of its own."""
        with Link(self.port) as link:
            link.send(asking(*asks, **parts))
            head = b""
            while not head.endswith(b"\r\n\r\n"):
                some = link.read(1)
                if not some:
                    raise Wrong("no reply: %r; it told %r" % (head, self.told()))
                head += some
            return int(head.split(b" ")[1]), link.read(int(re.search(rb"Content-Length: (\d+)", head)[1]))

    def transfers(self, name, status=200):
        """A transfer of 0.01 of this name gets this HTTP status."""
        found, body = self.ask("transfer %s 1001 1002 0.01" % name)
        wants(found == status, "transfer %s: HTTP status %d, wanted %d; %r; it told %r" % (
            name, found, status, body[:80], self.told()))

    def ends(self, status, line, seconds=3):
        """It ends by itself with this status, soon, and its last line is this one."""
        self.wait_until(lambda: self.child.poll() is not None, "it doesn't end", seconds)
        wants(self.child.returncode == status, "status %d, wanted %d; it told %r" % (self.child.returncode, status, self.told()))
        wants(self.lines()[-1] == line, "its last line is %r, wanted %r" % (self.lines()[-1], line))
