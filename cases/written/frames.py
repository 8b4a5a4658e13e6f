"""Frames as they go into `ofxbank answer`, and the answers as they come out."""
import re

# A line, or the rest of one that has no end.
LINE = re.compile(rb"[^\n]*\n|[^\n]+\Z")
FILE_LINE = re.compile(rb"FILE ([0-9]+)\n")

DUE = b"DUE\n"


def frame(file):
    return b"FILE %d\n" % len(file) + file


def answers(output):
    """The answers in an output: lines, each `FILE n` with as many of the n bytes after it as there are."""
    found, at = [], 0
    while at < len(output):
        end = LINE.match(output, at).end()
        head = FILE_LINE.fullmatch(output, at, end)
        if head:
            end = min(end + int(head[1]), len(output))
        found.append(output[at:end])
        at = end
    return found


def place(one, other):
    """The first index at which two sequences differ or one has ended."""
    return next((i for i, (x, y) in enumerate(zip(one, other)) if x != y), min(len(one), len(other)))


def difference(got, want):
    """Two outputs that differ, in words: the first answer that isn't the wanted one, from where it differs."""
    got, want = answers(got), answers(want)
    number = place(got, want)
    got, want = (b"".join(some[number:number + 1]) for some in (got, want))
    at = place(got, want)
    near = slice(max(0, at - 20), at + 40)
    return "answer %d differs at its byte %d: %r, wanted %r" % (number + 1, at, got[near], want[near])
