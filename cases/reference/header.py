"""The header of a file: nine lines `TAG:VALUE` in one order, each ended by its LF."""
from typing import NamedTuple, Optional

from .fault import Fault
from .text import trimmed

# A uid's line allows NONE, or 1 to 36 bytes of which none is below 0x20.
UID = None
LINES = (
    (b"OFXHEADER", (b"100",)),
    (b"DATA", (b"OFXSGML",)),
    (b"VERSION", (b"102", b"103", b"151", b"160")),
    (b"SECURITY", (b"NONE",)),
    (b"ENCODING", (b"USASCII",)),
    (b"CHARSET", (b"1252", b"ISO-8859-1", b"NONE")),
    (b"COMPRESSION", (b"NONE",)),
    (b"OLDFILEUID", UID),
    (b"NEWFILEUID", UID),
)


class Header(NamedTuple):
    version: bytes
    older: Optional[bytes]  # OLDFILEUID, None for NONE
    newer: Optional[bytes]  # NEWFILEUID, None for NONE
    lines: tuple  # where each line begins
    size: int  # the body begins after it


def is_uid(value):
    return 1 <= len(value) <= 36 and min(value) >= 0x20


def read_header(file):
    """A line is judged only where its LF stands in the file. A wrong tag comes before a wrong value, and the place of
    both is the line's beginning."""
    values, lines, at = [], [], 0
    for tag, allowed in LINES:
        end = file.find(b"\n", at)
        if end < 0:
            raise Fault("Cut", len(file))
        line = file[at:end]
        if not line.startswith(tag + b":"):
            raise Fault("Line", at)
        # The CR of a CRLF is white space at the value's end.
        value = trimmed(line[len(tag) + 1:])
        if not (is_uid(value) if allowed is UID else value in allowed):
            raise Fault("Value", at)
        values.append(value)
        lines.append(at)
        at = end + 1
    older, newer = (None if value == b"NONE" else value for value in values[7:])
    return Header(values[2], older, newer, tuple(lines), at)


def written_header(version, newer, older=None):
    """A header as it is written. That of a reply releases nothing."""
    values = (
        b"100", b"OFXSGML", version, b"NONE", b"USASCII", b"1252", b"NONE", older or b"NONE", newer or b"NONE",
    )
    return b"".join(tag + b":" + value + b"\r\n" for (tag, _), value in zip(LINES, values)) + b"\r\n"
