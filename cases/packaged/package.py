"""The Debian package."""
import os

from packaged.trial import ROOT, need, said, text_of, tool
from served.server import Wrong


def package(trial):
    """the package is the same twice, has each program, and names the commit"""
    need("dpkg-deb")
    files = []
    for name in "one", "other":
        folder = os.path.join(trial.folder, name)
        os.mkdir(folder)
        files.append(said([tool("package"), folder, *trial.programs.values()]).strip())
    one, other = (open(path, "rb").read() for path in files)
    if one != other:
        raise Wrong("it differs from the first")
    own = text_of(os.path.join(ROOT, "VERSION")).strip()
    for name, program in trial.programs.items():
        if said([program, "--version"]).split()[1] != own:
            raise Wrong("%s has another version than %s" % (name, own))
        if "./usr/bin/%s\n" % name not in said(["dpkg-deb", "-c", files[0]]):
            raise Wrong("%s isn't in it" % name)
    want = own + "+git" + said([tool("commit")]).strip()
    version = said(["dpkg-deb", "-f", files[0], "Version"]).strip()
    if version != want:
        raise Wrong("its version is %r, wanted %r" % (version, want))
    trial.package = files[0]


TESTS = (package,)
