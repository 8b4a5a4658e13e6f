"""A bad day: a folder from which faults are set for the programs that are started with its environment."""
import os
import shutil
import subprocess

from operated.case import Wrong

FAULTS = os.path.join(os.path.dirname(os.path.abspath(__file__)), "faults.c")


class Skipped(Exception):
    """Why a case can't be tried here."""


class Day:
    """The faults of a day. At first there are none."""

    def __init__(self, place):
        if shutil.which("cc") is None:
            raise Skipped("there is no cc")
        self.folder = os.path.join(place.folder, "day")
        os.mkdir(self.folder)
        library = os.path.join(self.folder, "faults.so")
        done = subprocess.run(["cc", "-shared", "-fPIC", "-O1", "-o", library, FAULTS], stderr=subprocess.PIPE)
        if done.returncode != 0:
            raise Wrong("the faults can't be built: %r" % done.stderr[:300])
        # A program that is built with checks of its memory is preloaded all the same.
        self.environment = {**os.environ, "LD_PRELOAD": library, "BAD_DAY": self.folder,
                            "ASAN_OPTIONS": "verify_asan_link_order=0"}

    def path(self, name):
        return os.path.join(self.folder, name)

    def set(self, name, text=""):
        """Sets a fault."""
        with open(self.path(name) + ".new", "w") as f:
            f.write(text)
        os.rename(self.path(name) + ".new", self.path(name))

    def end(self, name):
        """Ends a fault."""
        os.remove(self.path(name))

    def calls(self):
        """The writes and the syncs since `calls` was set."""
        with open(self.path("calls")) as f:
            return f.read().splitlines()
