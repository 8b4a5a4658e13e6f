"""A run of `ofxbank serve` on a free port."""
import os
import re
import signal
import socket
import subprocess
import time

from written.pieces import sample

MAX_SECONDS = 20
LOOK = 0.01  # seconds
LISTENS = re.compile(rb"^listens at .*\n(?:.*\n)*records .*\n", re.MULTILINE)


class Wrong(Exception):
    """What is wrong with the program, in words."""


def free_port():
    with socket.create_server(("127.0.0.1", 0)) as door:
        return door.getsockname()[1]


def bear_limits():
    """A write past the greatest size of a file fails, and doesn't end the program that this process becomes."""
    signal.signal(signal.SIGXFSZ, signal.SIG_IGN)


class Server:
    """A run of the program over a setup and a file of records in a folder, which listens once it is made. It is killed
    where it still runs in the end. It tells of no exchange, where nothing else is said. `environment` are further variables,
    and `prepare` is called in the process before it becomes the program."""

    def __init__(self, program, folder, records="-", workers=1, connections=0, setup=sample("setup"), port=None,
                 log="off", environment=None, prepare=bear_limits):
        self.port = port or free_port()
        self.told_in = os.path.join(folder, "told")
        with open(os.path.join(folder, "setup"), "wb") as f:
            f.write(setup)
        os.chmod(f.name, 0o600)
        words = [program, "serve", "setup", records, str(self.port), str(workers), str(connections)]
        with open(self.told_in, "wb") as told:
            self.child = subprocess.Popen(
                words, cwd=folder, stdin=subprocess.DEVNULL, stdout=subprocess.DEVNULL, stderr=told,
                preexec_fn=prepare, env={**os.environ, "OFXBANK_LOG": log, **(environment or {})})
        self.await_listening()

    def await_listening(self):
        end = time.monotonic() + MAX_SECONDS
        while not LISTENS.search(self.told()):
            if self.child.poll() is not None:
                raise Wrong("the server ended with status %d and %r" % (self.child.returncode, self.told()))
            if time.monotonic() > end:
                self.kill()
                raise Wrong("the server doesn't say that it listens: %r" % self.told())
            time.sleep(LOOK)

    def told(self):
        """What it has said on its error stream."""
        with open(self.told_in, "rb") as f:
            return f.read()

    def lines(self):
        return self.told().decode("latin-1").splitlines()

    def url(self):
        return "http://127.0.0.1:%d/ofx" % self.port

    def runs(self):
        return self.child.poll() is None

    def wait(self):
        """The status with which it ends by itself."""
        try:
            return self.child.wait(MAX_SECONDS)
        except subprocess.TimeoutExpired:
            raise Wrong("the server doesn't end")

    def kill(self):
        if self.runs():
            self.child.send_signal(signal.SIGKILL)
        self.child.wait()

    def __enter__(self):
        return self

    def __exit__(self, *_):
        self.kill()
