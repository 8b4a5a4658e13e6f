"""What a case of `cases/operator` has: a folder with the sample's setup, and a program to run there."""
import os
import shutil
import subprocess
import tempfile
from contextlib import contextmanager

SAMPLES = os.path.join(os.path.dirname(os.path.abspath(__file__)), "..", "..", "samples")
MAX_SECONDS = 60
AT = ("--at", "20240131120000")

CASES = []


class Wrong(Exception):
    """What is wrong, in words."""


def case(function):
    """Adds a case, whose first line of words says what it shows."""
    CASES.append(function)
    return function


def wants(holds, what):
    if not holds:
        raise Wrong(what)


class Place:
    """A folder with a setup in it, and the program."""

    def __init__(self, program, folder):
        self.program, self.folder = program, folder
        shutil.copyfile(os.path.join(SAMPLES, "setup"), self.path("setup"))
        os.chmod(self.path("setup"), 0o600)

    def path(self, name):
        return os.path.join(self.folder, name)

    def text(self, name):
        with open(self.path(name)) as f:
            return f.read()

    def write(self, name, text, mode=0o600):
        with open(self.path(name), "w") as f:
            f.write(text)
        os.chmod(self.path(name), mode)

    def change(self, old, new):
        """Puts a text in the place of another in the setup."""
        was = self.text("setup")
        wants(old in was, "the setup hasn't %r" % old)
        self.write("setup", was.replace(old, new))

    def files(self):
        return sorted(os.listdir(self.folder))

    def mode(self, name):
        return os.stat(self.path(name)).st_mode & 0o777

    def run(self, *words, stream=b"", **options):
        return subprocess.run([self.program, *words], input=stream, stdout=subprocess.PIPE, stderr=subprocess.PIPE,
                              cwd=self.folder, timeout=MAX_SECONDS, **options)

    @contextmanager
    def running(self, *words):
        """A run whose input is open meanwhile."""
        pipes = {"stdin": subprocess.PIPE, "stdout": subprocess.PIPE, "stderr": subprocess.DEVNULL}
        with subprocess.Popen([self.program, *words], cwd=self.folder, **pipes) as child:
            yield child
            child.stdin.close()

    def ends(self, status, *words, stream=b"", **options):
        """The lines on the error stream of a run that ends with this status."""
        done = self.run(*words, stream=stream, **options)
        told = done.stderr.decode()
        wants(done.returncode == status, "%s: status %d, wanted %d; told %r" % (" ".join(words), done.returncode, status, told))
        return told.split("\n")[:-1]

    def tells(self, status, lines, *words, stream=b"", **options):
        """A run ends with this status, and tells these lines first."""
        told = self.ends(status, *words, stream=stream, **options)
        wants(told[:len(lines)] == lines, "%s: told %r, wanted %r" % (" ".join(words), told, lines))

    def answers(self, records, sample="transfer"):
        """Answers the request of a sample over a file of records, and gives what came out."""
        done = self.run("answer", "setup", records, *AT, stream=request(sample))
        wants(done.returncode == 0, "status %d; told %r" % (done.returncode, done.stderr))
        return done.stdout


def request(sample):
    with open(os.path.join(SAMPLES, sample + ".request"), "rb") as f:
        return f.read()


def judge(program, one):
    with tempfile.TemporaryDirectory() as folder:
        try:
            one(Place(program, folder))
        except subprocess.TimeoutExpired:
            raise Wrong("no end in %d seconds" % MAX_SECONDS)


KINDS = ("bank.db", "disk:bank.ofx")
