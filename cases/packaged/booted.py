"""The units of the package in a copy of Debian whose systemd runs, with what the pages say of them."""
import os
import time
from contextlib import contextmanager
from datetime import datetime, timedelta, timezone

from packaged.machine import Machine
from packaged.root import RECORDS, SETUP, copied, is_left, set_up
from packaged.trial import ROOT, Skipped, need, said
from served.server import Wrong
from written.disk_file import file_of, read
from written.pieces import sample, sample_file
from written.record_file import moment_of

ASKED = "curl -sS --data-binary @/root/statement.ofx "
PLAIN = "http://127.0.0.1:8080/ofx"
OFFSET = "/etc/ofxbank-offset"  # of the bank's clock, in seconds
CLIENT = "cd /root && ofxclient 8080 alice.store c1 alice secret 121099999 "
BUSY = """import socket
door = socket.create_server(("127.0.0.1", 8080))
print("listens", flush=True)
while True:
    door.accept()[0].close()
"""


@contextmanager
def replaced(path, text):
    """A file has another text meanwhile."""
    with open(path, "rb+") as f:
        was = f.read()
        f.seek(0)
        f.truncate()
        f.write(text)
    try:
        yield
    finally:
        with open(path, "rb+") as f:
            f.truncate()
            f.write(was)


def serves(machine, url=PLAIN, options=""):
    reply = machine.said(ASKED + options + url)
    if "<BALAMT>" not in reply:
        raise Wrong("the reply is %r" % reply[:300])


def without_setup(machine):
    """without a setup `systemctl start` fails"""
    if machine.run("systemctl start ofxbank").returncode == 0:
        raise Wrong("it doesn't")


def refused(machine, status, again):
    """`systemctl start` fails, and the bank is tried again or isn't."""
    if machine.run("systemctl start ofxbank").returncode == 0:
        raise Wrong("`systemctl start` ends with 0 where the bank ends with %d" % status)
    time.sleep(3)
    end, found, times = time.monotonic() + 60, None, 0
    # While the bank is tried again, it has no status.
    while found != str(status) and time.monotonic() < end:
        found, times = machine.shown("ofxbank", "ExecMainStatus"), int(machine.shown("ofxbank", "NRestarts"))
        time.sleep(0.1)
    machine.run("systemctl stop ofxbank; systemctl reset-failed ofxbank")
    if found != str(status) or (times > 0) != again:
        raise Wrong("status %s, wanted %d; %d times again" % (found, status, times))


def refusals(machine):
    """`systemctl start` fails where the bank doesn't come to listening, and only status 5 is tried again"""
    machine.said("systemctl start ofxbank && systemctl stop ofxbank")
    setup, records, default = (machine.path(path) for path in (SETUP, RECORDS, "etc/default/ofxbank"))
    with replaced(default, b"PORT=99999\n"):
        refused(machine, 2, again=False)
    with replaced(setup, sample("setup").replace(b"LEAD 5", b"LEAD 55")):
        refused(machine, 3, again=False)
    with replaced(setup, sample("setup").replace(b"LEAD 5", b"LEAD 6")):
        refused(machine, 8, again=False)
    with replaced(records, file_of([b"x"])):
        refused(machine, 9, again=False)
    with open(machine.path("/root/busy.py"), "w") as f:
        f.write(BUSY)
    machine.said("systemd-run --unit=busy python3 /root/busy.py; until curl -s %s; [ $? -eq 52 ]; do sleep 0.1; done" % PLAIN)
    try:
        refused(machine, 5, again=True)
    finally:
        machine.said("systemctl stop busy")


def starts(machine):
    """after `systemctl start` the bank answers at once, and `systemctl stop` stops the timer too"""
    machine.said("systemctl start ofxbank")
    serves(machine)
    machine.said("systemctl is-active ofxbank ofxbank-midnight.timer")
    machine.said("systemctl stop ofxbank")
    states = machine.run("systemctl is-active ofxbank ofxbank-midnight.timer").stdout.split()
    if states != [b"inactive", b"inactive"] or machine.shown("ofxbank", "Result") != "success":
        raise Wrong("after the stop they are %r" % states)


def killed(machine):
    """a bank that is killed starts again, with its timer"""
    machine.said("systemctl start ofxbank && systemctl kill --signal=KILL ofxbank")
    end = time.monotonic() + 60
    active = "systemctl is-active ofxbank ofxbank-midnight.timer"
    while machine.run(active).returncode != 0 or machine.shown("ofxbank", "NRestarts") != "1":
        if time.monotonic() > end:
            raise Wrong("it doesn't")
        time.sleep(0.5)
    serves(machine)


def confined(machine):
    """the bank's process has no rights of root, and sees none of the users' folders"""
    pid = machine.shown("ofxbank", "MainPID")
    status = dict(line.split(":\t", 1) for line in machine.said("cat /proc/%s/status" % pid).splitlines() if ":\t" in line)
    if int(status["CapBnd"], 16) or status["NoNewPrivs"] != "1" or status["Seccomp"] != "2":
        raise Wrong("its rights are %r" % status)
    if machine.run("nsenter --target %s --mount ls /root/statement.ofx" % pid).returncode == 0:
        raise Wrong("it sees /root")
    if machine.said("grep core /proc/%s/limits" % pid).split()[4:6] != ["0", "0"]:
        raise Wrong("it may leave a core")


def expected(machine):
    """a bank whose records are gone doesn't start as a new one"""
    machine.said("systemctl stop ofxbank && mv /%s /root/gone" % RECORDS)
    refused(machine, 8, again=False)
    if machine.has("/" + RECORDS):
        raise Wrong("it made a file")
    machine.said("mv /root/gone /%s && systemctl start ofxbank" % RECORDS)
    serves(machine)


def sqlite(machine):
    """a bank whose records are an SQLite file is created and opened again within the same bounds"""
    machine.said("""set -e
rm /etc/ofxbank/begun
mkdir -p /run/systemd/system/ofxbank.service.d
cat > /run/systemd/system/ofxbank.service.d/records.conf <<'END'
[Service]
ExecStart=
ExecStart=/usr/bin/ofxbank serve /etc/ofxbank/setup bank.db ${PORT} ${WORKERS} 0
END
systemctl daemon-reload
systemctl restart ofxbank""")
    machine.said(CLIENT.replace("alice.store", "sqlite.store") + "transfer 1001 CHECKING 1002 SAVINGS 10.00")
    machine.said("systemctl restart ofxbank")
    if "balance 1001 CHECKING 90.00" not in machine.said(CLIENT.replace("alice.store", "sqlite.store") + "sync 1001 CHECKING"):
        raise Wrong("the transfer isn't there")
    machine.said("rm -r /run/systemd/system/ofxbank.service.d && systemctl daemon-reload && systemctl restart ofxbank")


def midnight(machine):
    """the timer connects at midnight GMT, after which a transfer due that day is posted with that day's stamp"""
    need("cc")
    said(["cc", "-shared", "-fPIC", "-DOFFSET=\"%s\"" % OFFSET, "-o", machine.path("/usr/lib/clock.so"),
          os.path.join(ROOT, "cases/packaged/clock.c")])
    os.chmod(machine.path("/usr/lib/clock.so"), 0o755)
    machine.said("""set -e
mkdir -p /run/systemd/system/ofxbank.service.d
printf '[Service]\\nEnvironment=LD_PRELOAD=/usr/lib/clock.so\\n' > /run/systemd/system/ofxbank.service.d/clock.conf
systemctl daemon-reload
systemctl restart ofxbank""")
    line = machine.said("systemctl show --property=NextElapseUSecRealtime --value ofxbank-midnight.timer")
    if " 00:00:00 " not in line:
        raise Wrong("the timer's next moment is %r" % line)
    now = datetime.now(timezone.utc)
    day = (now + timedelta(days=1)).date()
    machine.said(CLIENT + "transfer 1001 CHECKING 1002 SAVINGS 10.00 %s" % day.strftime("%Y%m%d"))
    count = len(read(machine.path(RECORDS)))
    due = datetime(day.year, day.month, day.day, tzinfo=timezone.utc)
    with open(machine.path(OFFSET), "w") as f:
        f.write("%d" % ((due - datetime.now(timezone.utc)).total_seconds() + 1))
    machine.said("systemctl start ofxbank-midnight.service")
    end = time.monotonic() + 10
    while len(read(machine.path(RECORDS))) == count and time.monotonic() < end:
        time.sleep(0.1)
    records = read(machine.path(RECORDS))
    if len(records) != count + 1:
        raise Wrong("there are %d records more" % (len(records) - count))
    late = moment_of(records[-1].bytes) - due.timestamp()
    if not 0 <= late < 3600:
        raise Wrong("it is posted %d seconds after midnight" % late)
    machine.said("rm -r /run/systemd/system/ofxbank.service.d && systemctl daemon-reload && systemctl restart ofxbank")


def proxied(machine):
    """nginx takes the file for conf.d, and hands requests on from https"""
    if not machine.has("/usr/sbin/nginx"):
        raise Skipped("nginx isn't in the root")
    machine.said("""set -e
folder=/etc/letsencrypt/live/bank.example
mkdir -p $folder
openssl req -x509 -newkey rsa:2048 -nodes -days 30 -subj /CN=bank.example -addext subjectAltName=DNS:bank.example \
    -keyout $folder/privkey.pem -out $folder/fullchain.pem
cp /usr/share/doc/ofxbank/package/nginx.conf /etc/nginx/conf.d/ofxbank.conf
nginx -t
systemctl restart nginx""")
    serves(machine, "https://bank.example/ofx",
           "--cacert /etc/letsencrypt/live/bank.example/fullchain.pem --resolve bank.example:443:127.0.0.1 ")


def rotated(machine):
    """logrotate takes the file for logrotate.d, and the bank goes on with its log"""
    if not machine.has("/usr/sbin/logrotate"):
        raise Skipped("logrotate isn't in the root")
    machine.said("""set -e
install -d -m 750 -g adm /var/log/ofxbank
mkdir -p /etc/systemd/system/ofxbank.service.d
cat > /etc/systemd/system/ofxbank.service.d/log.conf <<'END'
[Service]
StandardError=append:/var/log/ofxbank/bank.log
END
cp /usr/share/doc/ofxbank/package/logrotate.conf /etc/logrotate.d/ofxbank
systemctl daemon-reload
systemctl restart ofxbank""")
    serves(machine)
    machine.said("logrotate --force /etc/logrotate.d/ofxbank")
    serves(machine)
    logs = machine.path("/var/log/ofxbank")
    texts = [open(os.path.join(logs, name), "rb").read() for name in ("bank.log.1", "bank.log")]
    if b"listens at" not in texts[0] or not texts[1].startswith(b"at=") or texts[1].count(b"\n") != 1:
        raise Wrong("the files have %r" % texts)


def purged(machine):
    """the package stops the bank where it is removed, and leaves the records"""
    machine.said("systemctl enable ofxbank && systemctl start ofxbank && dpkg --purge ofxbank")
    is_left(machine.root)
    if machine.run("systemctl is-active ofxbank").returncode == 0:
        raise Wrong("the bank runs on")


def booted(trial):
    """the units work under a systemd of their own"""
    copy = copied(trial, "booted")
    for name in "statement.ofx", "setup":
        with open(os.path.join(copy, "root", name), "wb") as f:
            f.write(sample_file("statement.request") if name != "setup" else sample("setup"))
    with Machine(copy) as machine:
        yield without_setup, machine
        set_up(copy)
        for test in refusals, starts, killed, confined, expected, sqlite, midnight, proxied, rotated, purged:
            yield test, machine
