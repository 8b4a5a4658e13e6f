"""The second reading of what happens to a bank over many runs, each of which may end at any time."""
from collections import Counter

from killed.fed_run import whole
from killed.stream import Wrong
from reference.answer import answered
from reference.due import next_due
from reference.happening import happen, opened
from reference.setup import read_setup
from written.frames import DUE, answers, difference


class Witness:
    """A bank of the second reading, to which happens what has landed. What landed last may be taken back by the next
    start where `may_go_back` says so."""

    def __init__(self, setup_text, may_go_back):
        self.setup, self.may_go_back = read_setup(setup_text), may_go_back
        self.bank = opened(self.setup, [])
        self.figures = Counter()
        self.is_unsettled = False  # whether the next start may take back what landed last

    def judge(self, at, frames, written, records):
        """Judges what a run has written for these frames, and the records after it. The answers."""
        self.look_back(records)
        got = whole(answers(written))
        for one, got_one in zip(frames, got):
            want = answered(self.bank, content(one), at)
            if got_one != want:
                raise Wrong(difference(got_one, want))
        if len(got) > len(frames):
            raise Wrong("more answers than frames")
        more = records[len(self.bank.records):]
        cut = written[len(b"".join(got)):]
        # An answer is begun once its records are kept for good. And what the start of a run found is what it goes on
        # with; but a run that has written nothing may have been killed before it found anything.
        is_unsettled = not cut if more else self.is_unsettled and not written
        self.is_unsettled = self.may_go_back and is_unsettled
        if len(got) < len(frames) and (more or cut):
            self.land(at, frames[len(got)], more, cut)
        if records != self.bank.records:
            raise Wrong("%d records are kept, and %d events have happened" % (len(records), len(self.bank.records)))
        self.figures.update(answers=len(got), cut=bool(cut), kept=bool(more))
        return got

    def look_back(self, records):
        """What landed, and of whose answer nothing came, may be taken back by the next start, where only the stock
        SQLite took the commit for whole. What is before it stays."""
        known = self.bank.records
        if self.is_unsettled and records[:len(known)] != known and records[:len(known) - 1] == known[:-1]:
            self.bank = opened(self.setup, known[:-1])
            self.is_unsettled = False
            self.figures["back"] += 1

    def land(self, at, frame, records, cut):
        """What these records of the frame say has happened, of which an answer may have been begun."""
        if frame == DUE and not cut:
            for _ in records:
                event = next_due(self.bank, at)
                if event is None:
                    raise Wrong("a record is kept of due work, and nothing was due")
                happen(self.bank, event, at)
        elif not answered(self.bank, content(frame), at).startswith(cut):
            raise Wrong("an answer was begun by %r" % cut[:80])


def content(frame):
    return None if frame == DUE else frame.split(b"\n", 1)[1]
