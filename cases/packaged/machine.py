"""A copy of Debian whose systemd runs in namespaces of its own: a machine without a network but the loopback. It can't set the
clock, load modules or write to what the kernel shows of this machine. This has to be root."""
import os
import subprocess
import time

from packaged.trial import Skipped, need
from served.server import Wrong

MAX_SECONDS = 120
NAMESPACES = ["--mount", "--uts", "--ipc", "--net", "--pid", "--cgroup"]
DROPPED = "-sys_time,-sys_module,-sys_rawio,-sys_boot,-syslog"
BOOT = """set -e
mount --make-rprivate /
mount --bind "$0" "$0"
cd "$0"
mkdir -p old
mount -t proc proc proc
mount --bind proc/sys proc/sys
mount -o remount,ro,bind proc/sys
mount -t sysfs -o ro sysfs sys
mount -t cgroup2 cgroup2 sys/fs/cgroup
mount -t tmpfs -o mode=755 tmpfs run
mount -t tmpfs -o mode=1777 tmpfs tmp
mount -t tmpfs -o mode=755 tmpfs dev
for one in null zero full random urandom tty; do
    touch "dev/$one"
    mount --bind "/dev/$one" "dev/$one"
done
mkdir dev/pts dev/shm
mount -t devpts -o newinstance,ptmxmode=0666,mode=620 devpts dev/pts
ln -s pts/ptmx dev/ptmx
ln -s /proc/self/fd dev/fd
pivot_root . old
cd /
umount -l /old
exec env -i container=other PATH=/usr/sbin:/usr/bin:/sbin:/bin setpriv "--bounding-set=$1" /sbin/init --show-status=no
"""
PATH = "PATH=/usr/local/sbin:/usr/local/bin:/usr/sbin:/usr/bin:/sbin:/bin"


def control_groups():
    """Where the second kind of control groups is mounted."""
    with open("/proc/mounts") as f:
        found = [line.split()[1] for line in f if line.split()[2] == "cgroup2"]
    if not found:
        raise Skipped("there are no control groups of the second kind")
    return found[0]


class Machine:
    def __init__(self, root):
        if not os.path.exists(os.path.join(root, "sbin/init")):
            raise Skipped("there is no systemd in the root")
        if os.geteuid() != 0:
            raise Skipped("this isn't root")
        for tool in "unshare", "nsenter", "setpriv":
            need(tool)
        self.root, self.group = root, os.path.join(control_groups(), "ofxbank-case-%d" % os.getpid())
        os.mkdir(self.group)
        self.child = subprocess.Popen(["unshare", *NAMESPACES, "--fork", "--kill-child", "sh", "-c", BOOT, root, DROPPED],
                                      stdin=subprocess.DEVNULL, stdout=subprocess.DEVNULL, stderr=subprocess.PIPE,
                                      preexec_fn=self.enter)
        self.init = None
        self.await_running()

    def enter(self):
        with open(os.path.join(self.group, "cgroup.procs"), "w") as f:
            f.write(str(os.getpid()))

    def await_running(self):
        end = time.monotonic() + MAX_SECONDS
        while time.monotonic() < end and self.child.poll() is None:
            with open("/proc/%d/task/%d/children" % (self.child.pid, self.child.pid)) as f:
                self.init = next(iter(f.read().split()), None)
            if self.init and self.run("systemctl is-system-running").stdout.strip() in (b"running", b"degraded"):
                return
            time.sleep(0.5)
        self.stop()
        raise Skipped("its systemd doesn't run: %r" % self.child.stderr.read()[-300:])

    def run(self, script, **options):
        """The finished run of a script of bash."""
        words = ["nsenter", "--target", self.init, "--all", "env", "-i", PATH, "HOME=/root", "LC_ALL=C.UTF-8",
                 "SYSTEMD_COLORS=0", "SYSTEMD_PAGER=cat", "bash", "-c", script]
        return subprocess.run(words, stdin=subprocess.DEVNULL, capture_output=True, timeout=MAX_SECONDS, **options)

    def said(self, script):
        """What a script prints. It ends with status 0."""
        done = self.run(script)
        if done.returncode != 0:
            raise Wrong("%s ends with status %d: %r" % (script[:80], done.returncode, (done.stdout + done.stderr)[-300:]))
        return done.stdout.decode("latin-1")

    def path(self, name):
        return os.path.join(self.root, name.lstrip("/"))

    def has(self, name):
        return os.path.exists(self.path(name))

    def shown(self, unit, name):
        """A property of a unit."""
        return self.said("systemctl show --property=%s --value %s" % (name, unit)).strip()

    def stop(self):
        self.child.kill()
        self.child.wait()
        end = time.monotonic() + MAX_SECONDS
        while os.path.exists(self.group) and time.monotonic() < end:
            for folder, _, _ in os.walk(self.group, topdown=False):
                try:
                    os.rmdir(folder)
                except OSError:
                    time.sleep(0.05)

    def __enter__(self):
        return self

    def __exit__(self, *_):
        self.stop()
