"""What the processes below one have used of the processor, as /proc tells it."""
import os

TICKS = os.sysconf("SC_CLK_TCK")


class Process:
    """A process as it stood at one look: its parent, when it began, in seconds since the machine did, and the processor's
    seconds that it and those of its children that it has waited for have used."""

    def __init__(self, pid):
        with open("/proc/%d/stat" % pid) as f:
            fields = f.read().rpartition(")")[2].split()
        self.pid = pid
        self.parent = int(fields[1])
        self.processor = sum(int(it) for it in fields[11:15]) / TICKS
        self.start = int(fields[19]) / TICKS

    def words(self):
        """The words that it was started with, none where it has ended."""
        try:
            with open("/proc/%d/cmdline" % self.pid, "rb") as f:
                return f.read().decode(errors="replace").split("\0")
        except OSError:
            return []

    def folder(self):
        """The folder that it runs in, empty where it has ended."""
        try:
            return os.readlink("/proc/%d/cwd" % self.pid)
        except OSError:
            return ""


def look():
    """Every process by its number."""
    found = {}
    for name in os.listdir("/proc"):
        if name.isdigit():
            try:
                found[int(name)] = Process(int(name))
            except (OSError, IndexError, ValueError):
                pass
    return found


def children_of(processes):
    """The children of each process that has some."""
    children = {}
    for it in processes.values():
        children.setdefault(it.parent, []).append(it)
    return children


def used_below(process, children):
    """The processor's seconds that a process and all below it have used."""
    return process.processor + sum(used_below(it, children) for it in children.get(process.pid, []))


def now():
    """The seconds since the machine began."""
    with open("/proc/uptime") as f:
        return float(f.read().split()[0])
