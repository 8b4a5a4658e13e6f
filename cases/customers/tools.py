"""Programs of this machine, run with a limit of time."""
import os
import shutil
import subprocess

from served.server import Wrong

MAX_SECONDS = 60
PATHS = os.environ.get("PATH", "") + ":/usr/sbin:/sbin"


def path_of(tool):
    """Where the tool is. None where the machine hasn't got it."""
    return shutil.which(tool, path=PATHS)


def run(words, folder, **environment):
    """The finished run of a tool in a folder."""
    words = [path_of(words[0]), *words[1:]]
    try:
        return subprocess.run(words, cwd=folder, stdin=subprocess.DEVNULL, stdout=subprocess.PIPE,
                              stderr=subprocess.PIPE, env={**os.environ, **environment}, timeout=MAX_SECONDS)
    except subprocess.TimeoutExpired:
        raise Wrong("%s doesn't end" % os.path.basename(words[0]))


def said(words, folder, **environment):
    """What a tool prints. It ends with status 0."""
    done = run(words, folder, **environment)
    if done.returncode != 0:
        raise Wrong("%s ends with status %d: %r" % (words[0], done.returncode, done.stderr[-300:]))
    return done.stdout.decode("latin-1")
