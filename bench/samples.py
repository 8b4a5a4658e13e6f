"""The files in samples/, from which streams are made."""
import os

ROOT = os.path.join(os.path.dirname(os.path.abspath(__file__)), "..")
SETUP = os.path.join(ROOT, "samples", "setup")
PROGRAM = os.path.join(ROOT, "crates/ofxbank/out/ofxbank")


def sample_file(name="statement"):
    """The file in the frame of a sample request."""
    with open(os.path.join(ROOT, "samples", name + ".request"), "rb") as f:
        return f.read().split(b"\n", 1)[1]


def aggregate(file, name):
    """The first aggregate of this name in a file, with its line ends."""
    start, end = file.index(b"<%s>" % name), b"</%s>\r\n" % name
    return file[start:file.index(end) + len(end)]


def answer_words(program, setup=SETUP):
    """The words of a run without a file of records, at noon of 31 January 2024."""
    return [program, "answer", setup, "-", "--at", "20240131120000"]
