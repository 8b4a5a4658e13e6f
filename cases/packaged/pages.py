"""The installed pages, and what they name."""
import os
import re
import subprocess

from packaged.trial import Skipped, text_of
from served.server import Wrong
from written.disk_file import file_of

LINK = re.compile(r"\[[^\]]*\]\(([^)\s]+)\)")
# Files of these folders that a page names are for whoever reads the installed pages. All else of a path is in the repository.
NAMED = re.compile(r"(?<![\w/.])((?:samples|package|docs)/[\w./-]*\w|cases/(?:disk-records|customers/\w+\.py))")
# Pages for those who work on the repository.
OTHERS = {"README.md", "CONTRIBUTING.md", "CHANGELOG.md", "docs/checking.md", "docs/proving.md", "docs/map.md",
          "docs/DECISIONS.md", "docs/promises.md"}


def pages(trial):
    """The installed pages, each by its path in the repository."""
    top = trial.document("")
    found = [os.path.join(folder, name) for folder, _, names in os.walk(top) for name in names if name.endswith(".md")]
    return sorted(os.path.relpath(path, top) for path in found)


def links(trial):
    """each link of an installed page leads to an installed file"""
    if len(pages(trial)) < 10:
        raise Wrong("there are just the pages %r" % pages(trial))
    for page in pages(trial):
        for link in LINK.findall(text_of(trial.document(page))):
            file = link.partition("#")[0]
            path = os.path.normpath(os.path.join(os.path.dirname(page), file))
            if file and "://" not in link and not os.path.exists(trial.document(path)):
                raise Wrong("%s leads to %s, which isn't installed" % (page, link))


def named(trial):
    """what the pages of operators and customers name is installed"""
    for page in pages(trial):
        for path in set(NAMED.findall(text_of(trial.document(page)))) if page not in OTHERS else ():
            if not os.path.exists(trial.document(path)):
                raise Wrong("%s names %s, which isn't installed" % (page, path))


def disk_records(trial):
    """the installed disk-records shows a file, and leaves nothing in its folder"""
    path = os.path.join(trial.folder, "bank.ofx")
    with open(path, "wb") as f:
        f.write(file_of([b"one", b"other"]))
    tool = trial.document("cases/disk-records")
    before = sorted(os.walk(os.path.dirname(tool)))
    try:
        done = subprocess.run([tool, path], capture_output=True, timeout=60)
    except FileNotFoundError:
        raise Skipped("python3 isn't there")
    if done.returncode != 0 or not done.stdout.startswith(b"2 records\n"):
        raise Wrong("it ends with status %d: %r, %r" % (done.returncode, done.stdout, done.stderr))
    if sorted(os.walk(os.path.dirname(tool))) != before:
        raise Wrong("it left files in its folder")


TESTS = links, named, disk_records
