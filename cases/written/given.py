"""What a case gives as its file of records. It is one of these:

    [RECORD, ..]            a file with these records, numbered from 1
    {"cut": [[RECORD, ..], BYTES]}
                            a file with these records, of which only so many bytes are left
    {"bytes": PIECES}       a file of these bytes
    {"folder": 1}           a folder
    {"link": PATH}          a symbolic link to this path

and of SQLite alone

    {"rows": [ROW, ..]}     a file with these rows, each a number and a RECORD, or a number and {"text": TEXT}
    {"database": [SQL, ..]} a database that these statements make

and of `disk:PATH` alone

    {"ends": [[RECORD, ..], HEX]}
                            a file with these records, that has these bytes in place of the last gate

A RECORD is in hex, or a list of parts in hex, of which one in a list with a number stands so many times.
"""
import os

from written import disk_file, record_file
from written.frames import place
from written.pieces import whole
from written.record_file import CLOCKS, in_hex

FILES = {False: record_file, True: disk_file}  # by whether they are of `disk:PATH`
OF_SQLITE = ("rows", "database", "cut")  # what makes no file of the other kind, or another one


class Given:
    """What a case gives as a file of records."""

    def __init__(self, what):
        self.kind, self.what = ("records", what) if isinstance(what, list) else next(iter(what.items()))

    def is_of_sqlite(self):
        """Whether it is told for an SQLite file alone."""
        return self.kind in OF_SQLITE

    def make(self, path, file):
        """Makes it at this path, where nothing is, as a file of this module."""
        if self.kind == "folder":
            os.mkdir(path)
        elif self.kind == "link":
            os.symlink(self.what, path)
        elif self.kind == "bytes":
            with open(path, "wb") as f:
                f.write(whole(self.what))
        elif self.kind == "cut":
            records, size = self.what
            Given(records).make(path, file)
            os.truncate(path, size)
        elif self.kind == "ends":
            with open(path, "wb") as f:
                f.write(self.ended())
        elif self.kind == "database":
            file.make_database(path, self.what)
        else:
            file.write_rows(path, self.rows())

    def rows(self):
        """Pairs of a number and bytes, or a text that stands in place of bytes."""
        numbered = enumerate(self.what, 1) if self.kind == "records" else self.what
        return [(number, one["text"] if isinstance(one, dict) else bytes_of(one)) for number, one in numbered]

    def ended(self):
        """The bytes of a file that ends otherwise."""
        records, end = self.what
        return disk_file.front_of(map(bytes_of, records)) + bytes.fromhex(end)

    def records(self):
        """The records from the first on, up to one that can't be read, which is None. In what is no file of records
        that is the first."""
        if self.kind == "ends":
            try:
                return [one.bytes for one in disk_file.records_of(self.ended())]
            except disk_file.NoFile:
                return [None]
        if self.kind not in ("records", "rows"):
            return [] if self.kind == "bytes" and not whole(self.what) else [None]
        rows, found = dict(self.rows()), []
        while len(found) < max(rows, default=0) and None not in found:
            one = rows.get(len(found) + 1)
            found.append(one if isinstance(one, bytes) else None)
        return found


def bytes_of(record):
    return bytes.fromhex(digits_of(record))


def digits_of(record):
    """The hex of a RECORD in one piece."""
    parts = [record] if isinstance(record, str) else record
    return "".join(part if isinstance(part, str) else part[0] * part[1] for part in parts)


def unlike(kept, wanted):
    """In which record those that are kept are unlike the wanted ones, in words. Nothing where they are the same."""
    wanted = list(map(digits_of, wanted))
    kept = [in_hex(one, CLOCKS in want) for one, want in zip(kept, wanted)] + [one.hex() for one in kept[len(wanted):]]
    number = place(kept, wanted)
    if kept == wanted:
        return []
    one, want = ("".join(some[number:number + 1]) or "none" for some in (kept, wanted))
    return ["record %d is %s, wanted %s" % (number + 1, one, want)]
