"""The systemd units and the proxy's configuration, which docs/serve.md shows."""
import os
import subprocess

from packaged.trial import ROOT, need, text_of
from served.server import Wrong

UNITS = "ofxbank.service", "ofxbank-midnight.timer", "ofxbank-midnight.service"
SHOWN = (("ofxbank.service", "ini"), ("ofxbank-midnight.timer", "ini"), ("nginx.conf", "nginx"))
PLACES = (("@PROGRAM@", "bin/ofxbank"), ("@LIBRARY@", "lib/ofxbank"), ("@DOCUMENTS@", "share/doc/ofxbank"))
MAX_EXPOSURE = 20  # tenths


def shown(trial):
    """docs/serve.md shows the units and the proxy's configuration as they are"""
    page = text_of(os.path.join(ROOT, "docs/serve.md"))
    for name, kind in SHOWN:
        text = text_of(os.path.join(ROOT, "package", name))
        for place, path in PLACES:
            text = text.replace(place, "/usr/" + path)
        if "```%s\n%s```" % (kind, text) not in page:
            raise Wrong("it shows another %s" % name)


def verified(trial):
    """systemd accepts the units"""
    need("systemd-analyze")
    paths = [trial.at("lib/systemd/system/" + name) for name in UNITS]
    done = subprocess.run(["systemd-analyze", "verify", *paths], capture_output=True, timeout=60)
    # The man page is where `man` doesn't look for it.
    lines = done.stderr.decode().splitlines()
    wrong = [line for line in lines if "ofxbank" in line and "man ofxbank(1)" not in line]
    if wrong:
        raise Wrong("it says %r" % wrong[:3])


def confined(trial):
    """systemd rates what the services may do below 2"""
    need("systemd-analyze")
    for name in UNITS:
        if name.endswith(".service"):
            words = ["systemd-analyze", "security", "--offline=true", "--threshold=%d" % MAX_EXPOSURE]
            done = subprocess.run([*words, trial.at("lib/systemd/system/" + name)], capture_output=True, timeout=60,
                                  env={**os.environ, "SYSTEMD_PAGER": "cat"})
            if done.returncode != 0:
                raise Wrong("%s: %r" % (name, (done.stdout + done.stderr)[-200:]))


TESTS = shown, verified, confined
