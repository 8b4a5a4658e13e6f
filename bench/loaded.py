"""Load on an HTTP server by `wrk`."""
import os
import re
import subprocess
from typing import NamedTuple

# The same request again and again.
ONE = """wrk.method = "POST"
wrk.headers["Content-Type"] = "application/x-ofx"
local f = io.open("body", "rb")
wrk.body = f:read("*a")
f:close()
"""
# The number of the request in the place of each `@` in its TRNUID.
NUMBERED = ONE + """local before, rest = wrk.body:match("^(.-<TRNUID>)@(.*)$")
local number = 0
request = function()
    number = number + 1
    return wrk.format(nil, nil, nil, before .. "x" .. number .. rest)
end
"""
UNITS = {"us": 1e-6, "ms": 1e-3, "s": 1, "m": 60}


class Load(NamedTuple):
    """What a load came to."""

    requests: int
    rate: float  # requests a second
    mean: float  # seconds that one waits for its reply
    faults: str  # what wrk says went wrong; empty where nothing did


def start(folder, url, body, connections, seconds, script=ONE):
    """wrk, which has begun to send the body from so many connections."""
    for name, text in (("body", body), ("script.lua", script.encode())):
        with open(os.path.join(folder, name), "wb") as f:
            f.write(text)
    words = ["wrk", "-t1", "-c%d" % connections, "-d%ds" % seconds, "--timeout", "30s", "-s", "script.lua", url]
    return subprocess.Popen(words, cwd=folder, stdout=subprocess.PIPE, stderr=subprocess.STDOUT)


def result(child):
    """What it came to, once it has ended."""
    said = child.communicate()[0].decode()
    rate = re.search(r"Requests/sec: +([0-9.]+)", said)
    if child.returncode != 0 or rate is None:
        raise SystemExit("wrk ended with status %d: %s" % (child.returncode, said[-300:]))
    mean = re.search(r"Latency +([0-9.]+)(us|ms|s|m)", said)
    faults = re.findall(r"Socket errors.*|Non-2xx.*", said)
    requests = int(re.search(r"([0-9]+) requests in", said)[1])
    return Load(requests, float(rate[1]), float(mean[1]) * UNITS[mean[2]], "; ".join(faults))


def load(folder, url, body, connections, seconds, script=ONE):
    return result(start(folder, url, body, connections, seconds, script))
