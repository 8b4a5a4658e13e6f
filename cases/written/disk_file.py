"""Files of records on a disk, as `ofxbank` keeps them with `disk:PATH`: the mark, then for each record a gate of 1, its
length in eight bytes with the most significant first, and its bytes; then a gate that isn't 1. What stands after that
gate is left of an append that failed, and counts for nothing."""
import fcntl
import os
from collections import namedtuple
from contextlib import contextmanager

FRONT = b"disk:"  # of the word that names such a file
MARK, OPEN, SHUT = b"OFXKEEP1", b"\x01", b"\x00"
SIZE = 8  # bytes of a length
SETUP = ".setup"  # after the path of a file, that of the setup to which it is bound

Record = namedtuple("Record", "place bytes")  # where its gate stands


class NoFile(Exception):
    """Why the bytes are no file of records."""


def file_of(records):
    """The bytes of a file with these records."""
    return front_of(records) + SHUT


def front_of(records):
    """The bytes of such a file in front of its last gate."""
    return MARK + b"".join(OPEN + len(one).to_bytes(SIZE, "big") + one for one in records)


def records_of(data):
    """The records, in order."""
    if not data:
        raise NoFile("it is empty, and the next run makes a file with no records of it")
    if data[:len(MARK)] != MARK:
        raise NoFile("the first %d bytes aren't %s" % (len(MARK), MARK.decode()))
    found, place = [], len(MARK)
    while data[place:place + 1] == OPEN:
        start = place + 1 + SIZE
        size = int.from_bytes(data[place + 1:start], "big")
        if start + size > len(data):
            raise NoFile("record %d, at byte %d, passes the end" % (len(found) + 1, place))
        found.append(Record(place, data[start:start + size]))
        place = start + size
    if place >= len(data):
        raise NoFile("gate %d, at byte %d, passes the end" % (len(found) + 1, place))
    return found


def read(path):
    """The records in the file at this path, in order."""
    with open(path, "rb") as f:
        return records_of(f.read())


def write_rows(path, rows):
    """Makes a file of records with these rows, which are numbered from 1."""
    with open(path, "wb") as f:
        f.write(file_of(record for _, record in rows))


def rows_at(path):
    """The records in the file, each with its number; none where there is no file, or an empty one. What is no file of
    records is its bytes, None where it has none."""
    if not os.path.isfile(path):
        return None if os.path.exists(path) else []
    with open(path, "rb") as f:
        data = f.read()
    try:
        return list(enumerate((one.bytes for one in records_of(data)), 1)) if data else []
    except NoFile:
        return data


def unbind(path):
    """Takes away the setup to which a file of records is bound."""
    if os.path.exists(path + SETUP):
        os.remove(path + SETUP)


@contextmanager
def held(path):
    """Another program has the file locked meanwhile."""
    with open(path, "rb") as f:
        fcntl.flock(f, fcntl.LOCK_EX)
        yield
