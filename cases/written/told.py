"""What the second reading in reference/ says of a case."""
from reference.answer import answer
from written.record_file import in_hex


class Told:
    """The outcome of each run; the records in the end, in hex; and whether any run has added one."""

    def __init__(self, case):
        self.outcomes, self.records, self.adds = [], [], False
        kept = []
        for run in case.runs():
            if run.given() is not None:
                kept = run.given().records()
                self.records = [in_hex(one) for one in kept if one is not None]
            outcome = outcome_of(run, kept)
            self.outcomes.append(outcome)
            if run.is_over_file() and outcome.records is not None:
                more = outcome.records[len(kept):]
                self.records += [in_hex(one, run.reads_clock()) for one in more]
                kept, self.adds = outcome.records, self.adds or bool(more)


def outcome_of(run, kept):
    """The outcome of a run, over these records where it is over the case's file."""
    words = run.words(SETUP=b"setup", RECORDS=b"records")
    return answer(words, run.setup(), run.input(), takes_output(run.parts), kept if run.is_over_file() else others(run))


def others(run):
    """The records at another path. They can't be read where another program has the case's file open, where it is the
    path of the setup, and where it is none or in a folder that isn't there; otherwise there are none."""
    word = "".join(run.asked_words[2:3]).strip().removeprefix("disk:")
    return [None] if word in ("RECORDS", "SETUP", "") or "/" in word else []


def takes_output(parts):
    return parts.get("output", "") is not None
