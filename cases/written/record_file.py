"""Files of records, as `ofxbank` makes them: SQLite files with a table in which each record has a row, and one that has the
setup to which they are bound."""
import os
import shutil
import sqlite3
import tempfile
from contextlib import closing, contextmanager

TABLE = "CREATE TABLE records (number INTEGER PRIMARY KEY, bytes BLOB NOT NULL) STRICT"
SETUP = "CREATE TABLE setup (lines TEXT NOT NULL) STRICT"
# A table for rows that TABLE refuses; it gets the text of TABLE after them.
LOOSE_TABLE = "CREATE TABLE records (number INTEGER PRIMARY KEY, bytes)"
INSERT = "INSERT INTO records VALUES (?, ?)"
FRONT = b""  # of the word that names such a file
BESIDE = ("", "-wal", "-journal")  # the file, and what SQLite keeps beside it

# Where the moment stands in a record, and what stands there in hex where it is the clock's.
MOMENT, CLOCKS = slice(2, 10), "*" * 16


def make_database(path, statements):
    """Makes a database by these statements."""
    with closing(sqlite3.connect(path)) as database:
        database.executescript(";".join(statements))


def write_rows(path, rows):
    """Makes a file of records with these rows."""
    in_order = all(isinstance(value, bytes) for _, value in rows)
    with closing(sqlite3.connect(path)) as database:
        database.execute("PRAGMA synchronous = OFF")
        database.execute(TABLE if in_order else LOOSE_TABLE)
        database.executemany(INSERT, rows)
        if not in_order:
            database.execute("PRAGMA writable_schema = ON")
            database.execute("UPDATE sqlite_master SET sql = ?", (TABLE,))
        database.commit()


def unbind(path):
    """Takes away the setup to which a file of records is bound."""
    with closing(sqlite3.connect(path)) as database:
        database.execute("DROP TABLE IF EXISTS setup")
        database.commit()


def remove(path):
    """Leaves nothing at this path."""
    if os.path.isdir(path):
        os.rmdir(path)
    for one in files_of(path) + [path + ".setup"]:
        if os.path.lexists(one):
            os.remove(one)


def files_of(path):
    return [path + beside for beside in BESIDE]


def rows_at(path):
    """The rows in the table of records, in order; none where there is no file, or no table in it. What is no file of
    records is its bytes, None where it has none."""
    if not os.path.isfile(path):
        return None if os.path.exists(path) else []
    with copied(path) as copy:
        try:
            return rows_in(copy)
        except sqlite3.DatabaseError:
            with open(path, "rb") as f:
                return f.read()


@contextmanager
def copied(path):
    """The path of a copy of the file, which is read in its place, so that it stays as the program left it."""
    with tempfile.TemporaryDirectory() as folder:
        for beside in BESIDE:
            if os.path.exists(path + beside):
                shutil.copyfile(path + beside, os.path.join(folder, "copy" + beside))
        yield os.path.join(folder, "copy")


def rows_in(path):
    with closing(sqlite3.connect(path)) as database:
        tables = [text for text, in database.execute("SELECT sql FROM sqlite_master")]
        if tables and tables not in ([TABLE], [TABLE, SETUP]):
            raise sqlite3.DatabaseError("another program's")
        return list(database.execute("SELECT number, bytes FROM records ORDER BY number")) if tables else []


def are_numbered(rows):
    """Whether the numbers of the rows are 1, 2 and so on."""
    return [number for number, _ in rows] == list(range(1, len(rows) + 1))


@contextmanager
def held(path):
    """Another program has the file open meanwhile, so that nobody else can."""
    with closing(sqlite3.connect(path, isolation_level=None)) as database:
        database.execute("BEGIN EXCLUSIVE")
        yield


def moment_of(record):
    """The moment of a record, in seconds since 1970."""
    return int.from_bytes(record[MOMENT], "big", signed=True)


def in_hex(record, at_the_clock=False):
    digits = record.hex()
    return digits[:4] + CLOCKS + digits[20:] if at_the_clock else digits
