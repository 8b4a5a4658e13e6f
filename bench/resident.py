"""How much memory a running process has held."""


def resident_now(pid):
    """The largest resident size of a process so far, in KiB. None where it is no longer told."""
    try:
        with open("/proc/%d/status" % pid) as f:
            return next((int(line.split()[1]) for line in f if line.startswith("VmHWM:")), None)
    except OSError:
        return None
