"""A case as it stands in a line of a file of answers/.

    name     what it shows
    words    the words after the program's name; SETUP stands for the path of the case's setup, and RECORDS for that of
             its file of records. Without them they are answer SETUP - --at 20240131120000
    setup    the setup's text, in pieces (pieces.py says which there are), null where there is no such file; without it
             the setup is samples/setup
    input    the standard input, in pieces, null where it can't be read
    output   the standard output that is wanted, in pieces, null where it takes nothing
    frames   in place of input and output: a list of pairs, the pieces of a frame and those of the answer that it gets
    status   the status that is wanted; without it 0
    note     the first line of the error stream that is wanted; without it the stream is empty
    given    what the file of records is before the run (given.py says what it may be); without it it is what the
             run before has left, and there is none at first
    unbound  true where that file has lost the setup to which it was bound, as one from before files were bound
    held     true where another program has that file open meanwhile
    barred   true where the program may neither read nor write that file
    records  the records in that file in the end, in hex as they are given, with `*` for each digit of a moment that is
             the clock's; without it no run adds anything to the file
    disk     true where that file is one of `disk:PATH`, and RECORDS stands for that word; false where it can be none
    runs     a list of runs over the one file of records, one after the other. Each has the parts above but for name,
             disk and records; what it lacks of them is that of the case. Without words they are
             answer SETUP RECORDS --at 20240131120000
"""
import json
import os

from written.given import Given
from written.pieces import sample, whole

ANSWERS = os.path.join(os.path.dirname(os.path.abspath(__file__)), "..", "answers")
WORDS = ["answer", "SETUP", "-", "--at", "20240131120000"]
WORDS_OVER_FILE = ["answer", "SETUP", "RECORDS", "--at", "20240131120000"]
OF_THE_CASE = ("name", "records", "disk", "runs")


def path_of(name):
    return os.path.join(ANSWERS, name + ".jsonl")


def all_names():
    return sorted(f[:-6] for f in os.listdir(ANSWERS) if f.endswith(".jsonl"))


def maybe_whole(pieces):
    return None if pieces is None else whole(pieces)


class Run:
    """One run of the program."""

    def __init__(self, parts, words=None):
        self.parts = parts
        self.asked_words = parts.get("words", words or WORDS)

    def words(self, **paths):
        """The words, with these in place of their names."""
        return [paths[word] if word in paths else word.encode("latin-1") for word in self.asked_words]

    def is_over_file(self):
        """Whether it runs over the case's file of records, and can open it."""
        return self.asked_words[2:3] == ["RECORDS"] and not self.is_held() and not self.is_barred()

    def reads_clock(self):
        """Whether its moments are the clock's."""
        return not any(word.strip() == "--at" for word in self.asked_words)

    def setup(self):
        return maybe_whole(self.parts["setup"]) if "setup" in self.parts else sample("setup")

    def input(self):
        parts = self.parts
        return maybe_whole([pair[0] for pair in parts["frames"]] if "frames" in parts else parts["input"])

    def output(self):
        parts = self.parts
        return maybe_whole([pair[1] for pair in parts["frames"]] if "frames" in parts else parts["output"])

    def status(self):
        return self.parts.get("status", 0)

    def note(self):
        return self.parts.get("note")

    def given(self):
        """What takes the place of the file of records before this run. None where nothing does."""
        return Given(self.parts["given"]) if "given" in self.parts else None

    def is_unbound(self):
        return self.parts.get("unbound", False)

    def is_held(self):
        return self.parts.get("held", False)

    def is_barred(self):
        return self.parts.get("barred", False)


class Case:
    def __init__(self, line):
        self.parts = json.loads(line)

    def name(self):
        return self.parts["name"]

    def runs(self):
        parts = self.parts
        if "runs" not in parts:
            return [Run(parts)]
        shared = {key: value for key, value in parts.items() if key not in OF_THE_CASE}
        return [Run({**shared, **own}, WORDS_OVER_FILE) for own in parts["runs"]]

    def records(self):
        return self.parts.get("records")

    def is_on_disk(self):
        """Whether its file of records is one of `disk:PATH`."""
        return self.parts.get("disk", False)

    def can_be_on_disk(self):
        """Whether its file of records is one of `disk:PATH`, or can as well be one."""
        if "disk" in self.parts:
            return self.is_on_disk()
        runs = self.runs()
        return any("RECORDS" in run.asked_words for run in runs) and not any(
            run.given().is_of_sqlite() for run in runs if run.given() is not None)


def read_cases(name):
    with open(path_of(name)) as f:
        return [Case(line) for line in f]
