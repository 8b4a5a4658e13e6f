"""What the tests of `cases/installed` share: programs that tools/install has put into a new folder."""
import os
import subprocess

from customers.tools import path_of
from served.server import Wrong

ROOT = os.path.abspath(os.path.join(os.path.dirname(os.path.abspath(__file__)), "..", ".."))
MAX_SECONDS = 600


class Skipped(Exception):
    """Why a test isn't made."""


def need(tool):
    if path_of(tool) is None:
        raise Skipped("%s isn't there" % tool)


def said(words, **options):
    """What a command prints. It ends with status 0."""
    done = subprocess.run(words, stdin=subprocess.DEVNULL, capture_output=True, timeout=MAX_SECONDS, **options)
    if done.returncode != 0:
        raise Wrong("%s ends with status %d: %r" % (" ".join(words[:3]), done.returncode, done.stderr[-300:]))
    return done.stdout.decode()


def tool(name):
    return os.path.join(ROOT, "tools", name)


def text_of(path):
    with open(path, encoding="utf-8") as f:
        return f.read()


class Trial:
    """Built programs by their names, and the folder in which they are installed."""

    def __init__(self, programs, folder, root):
        self.folder, self.root, self.package = folder, root, None
        self.programs = {said([path, "--version"]).split()[0]: path for path in programs}
        self.prefix = os.path.join(folder, "prefix")
        said([tool("install"), self.prefix, *programs])

    def at(self, path):
        return os.path.join(self.prefix, path)

    def document(self, path):
        """Where a file of the repository is that a page names."""
        return self.at(os.path.join("share/doc/ofxbank", path))
