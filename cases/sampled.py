"""The requests of finance programs in samples/clients/, and the table of samples/README.md that tells of them."""
import os
import re

from reference.answer import answer
from written.frames import answers
from written.pieces import SAMPLES, sample

FOLDER = os.path.join(SAMPLES, "clients")
MOMENT = "20261231120000"  # of each answer, after the days of the recording
WORDS = ["answer", "setup", "-", "--at", MOMENT]
ROW = re.compile(r"^\| `([a-z-]+)` \| [^|]* \| ([0-9,; ]+) \|", re.MULTILINE)
CODE = re.compile(rb"^<CODE>([0-9]+)\r$", re.MULTILINE)


def second_reading(stream):
    """The answers of a new bank to a stream, by reference/."""
    return answer([word.encode() for word in WORDS], sample("setup"), stream, True, []).output


def table():
    """The codes that the page tells of each errand: of each reply, from the signon's on."""
    with open(os.path.join(SAMPLES, "README.md")) as f:
        rows = ROW.findall(f.read())
    return {name: [reply.split(", ") for reply in codes.split("; ")] for name, codes in rows}


def codes(output):
    return [[code.decode() for code in CODE.findall(reply)] for reply in answers(output)]


def names(end):
    """The errands that have a file with this ending."""
    return {name[:-len(end)] for name in os.listdir(FOLDER) if name.endswith(end)}


def read(name):
    with open(os.path.join(FOLDER, name), "rb") as f:
        return f.read()
