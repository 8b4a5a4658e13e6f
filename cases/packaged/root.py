"""The package in a new copy of Debian, without systemd."""
import os
import shutil
import signal
import subprocess
import time
import urllib.request

from packaged.trial import MAX_SECONDS, Skipped, said
from served.server import Wrong, free_port
from written.pieces import sample, sample_file

SETUP, RECORDS = "etc/ofxbank/setup", "var/lib/ofxbank/bank.ofx"
CLIENT = "alice.store c1 alice secret 121099999".split()


def copied(trial, name):
    """A copy of the Debian root, in which the package is installed."""
    if trial.root is None:
        raise Skipped("no --root")
    if trial.package is None:
        raise Skipped("there is no package")
    copy = os.path.join(trial.folder, name)
    said(["cp", "-a", trial.root, copy])
    shutil.copyfile(trial.package, os.path.join(copy, "ofxbank.deb"))
    said(["chroot", copy, "dpkg", "-i", "/ofxbank.deb"])
    return copy


def set_up(copy, text=sample("setup")):
    """Writes the setup, as docs/install.md says."""
    with open(os.path.join(copy, SETUP), "wb") as f:
        f.write(text)
    said(["chroot", copy, "chown", "ofxbank:ofxbank", "/" + SETUP])
    said(["chroot", copy, "chmod", "600", "/" + SETUP])


def is_left(copy):
    """After the purge the setup and the records are there, and the programs aren't."""
    for path, there in ((SETUP, True), (RECORDS, True), ("usr/bin/ofxbank", False), ("usr/share/doc/ofxbank", False)):
        if os.path.exists(os.path.join(copy, path)) != there:
            raise Wrong("%s is%s there after the purge" % (path, "n't" if there else ""))


def asked(url, server):
    """The reply to the sample request, once the server listens."""
    end = time.monotonic() + MAX_SECONDS
    while True:
        try:
            with urllib.request.urlopen(urllib.request.Request(url, sample_file("statement.request"))) as reply:
                return reply.read()
        except OSError as error:
            if server.poll() is not None or time.monotonic() > end:
                server.kill()
                raise Wrong("no reply: %s; %r" % (error, server.stderr.read()[-300:]))
            time.sleep(0.1)


def serve(trial, copy):
    """The bank's user serves the setup, and a customer syncs where the other program is installed too."""
    port = free_port()
    words = ["chroot", "--userspec=ofxbank:ofxbank", copy, "/usr/bin/ofxbank", "serve", "/" + SETUP, "disk:/" + RECORDS,
             str(port), "2", "0"]
    server = subprocess.Popen(words, stdin=subprocess.DEVNULL, stdout=subprocess.DEVNULL, stderr=subprocess.PIPE)
    try:
        reply = asked("http://127.0.0.1:%d/ofx" % port, server)
        if b"<BALAMT>100.00\r\n" not in reply:
            raise Wrong("the reply is %r" % reply[:300])
        if "ofxclient" in trial.programs:
            told = said(["chroot", copy, "/usr/bin/ofxclient", str(port), *CLIENT, "sync", "1001", "CHECKING"])
            if "100.00" not in told:
                raise Wrong("ofxclient says %r" % told)
    finally:
        server.send_signal(signal.SIGTERM)
        server.wait()


def clean_root(trial):
    """the package's programs work in a new copy of Debian, and leave the records there"""
    copy = copied(trial, "root")
    set_up(copy)
    serve(trial, copy)
    said(["chroot", copy, "dpkg", "--purge", "ofxbank"])
    is_left(copy)


TESTS = (clean_root,)
