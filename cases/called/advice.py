"""What people are told after the first line of the error stream."""
import os

from reference.client_text import client_in
from reference.client_waiting import waiting
from reference.client_words import order_of
from reference.text import trimmed
from served.server import Wrong

PORT, STORE = "127.0.0.1:%s", "%s"
SECOND = {  # by status what the second line names, and what it may say of it
    2: (STORE, ("another client's",)), 5: (PORT, ("broke the connection off",)),
    6: (PORT, ("nobody answers", "took no more of the file")), 8: (STORE, ("can't be",)),
    11: (PORT, ("said the bank",)), 12: (PORT, ("isn't the answer",)), 13: (PORT, ("isn't the answer",)),
    14: (PORT, ("USER and PASS",)), 15: (STORE, ("put it back",)), 16: (PORT, ("isn't the answer",)),
    17: (PORT, ("gave no whole reply",)), 18: (STORE, ("show prints the rows",)),
}
OUTPUT = "the standard output took no more"  # with status 6, where the bank took all
CUT_SHORT = 5, 6, 11, 12, 13, 14, 16, 17  # with which a file may wait
USAGE = "Usage: ofxclient "


def judge_advice(words, status, told, text):
    """Judges what stands after the first line, for a run with these words after which this text is kept. With 2 that is the
    usage, and what is wrong stands last; with others it is a line, and a line for each deed that waits."""
    words = [os.fsencode(word) for word in words]
    has_form = order_of(words) is not None
    if status == 2:
        judge_usage(words, told.decode("utf-8", "replace"), has_form)
    elif status in SECOND:
        named, said = SECOND[status]
        named %= trimmed(words[0 if named == PORT else 1]).decode("utf-8", "replace")
        line, *others = told.decode("utf-8", "replace").split("\n")[1:]
        if not (named in line and any(one in line for one in said)) and not (status == 6 and OUTPUT in line):
            raise Wrong("with status %d %r is told after the first line, wanted %r and one of %r" % (
                status, line, named, said))
        waits = []
        if status in CUT_SHORT and OUTPUT not in line and trimmed(words[1]) != b"-" and text:
            waits = [one.decode() for one in waiting(client_in(text))]
        if others != waits + [""]:
            raise Wrong("with status %d %r is told of what waits, wanted %r" % (status, others, waits))


def judge_usage(words, told, has_form):
    if not any(line.startswith(USAGE) for line in told.split("\n")[1:]):
        raise Wrong("the usage isn't told of %.200r" % (words,))
    last = told.rpartition("\n\n")[2]  # a word that is told may hold a line's end
    if not (last.strip() and last.endswith("\n")):
        raise Wrong("after the usage %r is told, wanted a line" % last)
    said = SECOND[2][1][0] if has_form else "word "
    if said not in last:
        raise Wrong("after the usage %r is told, wanted %r" % (last, said))
