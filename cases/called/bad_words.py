"""Words that have no form, one by one: nothing is sent, printed, made or saved."""
import os

from called.desk import expect
from called.relay import swallows
from reference.client_words import order_of

TESTS = []
with open(os.path.join(os.path.dirname(os.path.abspath(__file__)), "../../VERSION")) as f:
    VERSION = f.read()
COMMANDS = {
    "sync": "1001 CHECKING", "check": "1001 CHECKING", "transfer": "1001 CHECKING 1002 SAVINGS 10.00 20990131",
    "modify": "1 1002 SAVINGS 10.00 20990131", "cancel": "1", "stop": "1", "mail": "Hello Hi", "show": "",
    "repeat": "1001 CHECKING 1002 SAVINGS 10.00 20990131 MONTHLY 12",
}
ACCOUNT = {"number": ("", " ", "n" * 33, "n\x01"), "kind": ("", "checking", "CHECK", "CHECKING1", "SAVINGS CHECKING")}
BAD = {
    "port": ("", " ", "-1", "+1", "00", "080", "65536", "99999999999", "x", "1x", "0x1", "1.0"),
    "client": ("", "c" * 13, "c-1", "c 1", "c_1", "\u00e9", "c1\n2"), "user": ("", "u" * 33, "a\x01", " "),
    "password": ("", "p" * 65, "a\x1f", "\t"), "bank": ("", "b" * 33, "\x02"), **ACCOUNT,
    "amount": ("", ".", "1.005", "1e3", "--1", "1,0,0", "$1", "100000000000.00", "0" * 33),
    "day": ("", "2099013", "209901311", "20990230", "20991301", "18991231", "2099-01-31", "20990131120000", "2099013x",
            "20990131[0]"),
    "id": ("", "x", "-1", "+1", "12345678901", "1.0", "0x1"), "count": ("", "01", "1000", "-1", "+1", "x", "00"),
    "frequency": ("", "weekly", "DAILY", "MONTH"), "subject": ("", " ", "s" * 65, "s\x01"),
    "body": ("", "\n", "b" * 10001, "\x0c"),
}
PARTIES = ["port", "store", "client", "user", "password", "bank", "command"]
KINDS = {
    "sync": ["number", "kind"], "check": ["number", "kind"], "cancel": ["id"], "stop": ["id"],
    "transfer": ["number", "kind", "number", "kind", "amount", "day"],
    "modify": ["id", "number", "kind", "amount", "day"], "mail": ["subject", "body"], "show": [],
    "repeat": ["number", "kind", "number", "kind", "amount", "day", "frequency", "count"],
}
LEAST = {"transfer": 5}  # words of a command that may have more


def test(function):
    TESTS.append(function)
    return function


def words_of(desk, command):
    c1 = desk.new_customer()
    return c1, c1.words(desk.relay.port, [command, *COMMANDS[command].split()])


def usage(desk, customer, words):
    """The words are refused as usage."""
    done = customer.run_words(words)
    talk = desk.relay.last()
    got = done.status, done.note(), done.output, talk.sent, os.path.exists(customer.store)
    expect(got, (2, "usage", b"", b"", False), "the end of the words %.200r" % (words,))
    raw = [os.fsencode(word) for word in words]
    expect(order_of(raw), None, "what the second reading makes of the words %.200r" % (words,))


@test
def one_by_one(desk):
    """each word of each command that has no form is refused"""
    for command in COMMANDS:
        for place, kind in enumerate(PARTIES + KINDS[command]):
            for bad in BAD.get(kind, ()):
                if place < len(PARTIES) and command != "sync":
                    continue  # the parties are read alike
                c1, words = words_of(desk, command)
                words[place] = bad
                usage(desk, c1, words)


@test
def too_few_or_many(desk):
    """a word too few or too many is refused"""
    for command, kinds in KINDS.items():
        c1, words = words_of(desk, command)
        for count in range(len(PARTIES) + len(kinds)):
            if count < len(PARTIES) + LEAST.get(command, len(kinds)):
                usage(desk, c1, words[:count])
        usage(desk, c1, words + ["x"])
        usage(desk, c1, words + [""])


@test
def no_command(desk):
    """what is no command is refused"""
    for command in ("", "Show", "SHOW", "shows", "sho", "import", "help", "--help", "serve", "-"):
        c1, words = words_of(desk, "show")
        usage(desk, c1, words[:-1] + [command])


@test
def no_text(desk):
    """a word that isn't UTF-8, or is longer than every text, is refused"""
    for bad in (b"\xff", b"\xc3", b"\xed\xa0\x80", b"x" * 10001):
        for place in range(len(PARTIES)):
            c1, words = words_of(desk, "show")
            words[place] = os.fsdecode(bad)
            usage(desk, c1, words)


FREQUENCIES = "WEEKLY, BIWEEKLY, TWICEMONTHLY, MONTHLY, FOURWEEKS, BIMONTHLY, QUARTERLY, SEMIANNUALLY or ANNUALLY"
WORDS = "sync, transfer, modify, cancel, repeat, stop, mail, check or show; --help says what each does"
PORT, KIND = "a number from 0 to 65535", "CHECKING, SAVINGS, MONEYMRKT or CREDITLINE"
NAMED = (  # a command, the offset of a word, the word in its place, or None where the words end there, and what is told
    ("sync", 0, "x", "word 1, PORT, is 'x'; it has to be " + PORT),
    ("sync", 0, "080", "word 1, PORT, is '080'; it has to be " + PORT),
    ("sync", 2, "c-1", "word 3, CLIENT, is 'c-1'; it has to be 1 to 12 letters and digits"),
    ("sync", 4, "p" * 65, "word 5, PASS, has to be 1 to 64 bytes"), ("sync", 0, None, "word 1, PORT, is missing"),
    ("sync", 6, None, "word 7, COMMAND, is missing"), ("sync", 7, None, "word 8, NUMBER, is missing"),
    ("sync", 6, "sink", "word 7, COMMAND, is 'sink'; it has to be " + WORDS),
    ("sync", 8, "checking", "word 9, KIND, is 'checking'; it has to be " + KIND),
    ("transfer", 10, "44.00", "word 11, KIND, is '44.00'; it has to be " + KIND),
    ("transfer", 11, "1.001", "word 12, AMOUNT, is '1.001'; it has to be an amount of dollars, as 10.00"),
    ("modify", 11, "20240230", "word 12, DAY, is '20240230'; it has to be a date, as 20240131"),
    ("repeat", 13, "DAILY", "word 14, FREQ, is 'DAILY'; it has to be " + FREQUENCIES),
    ("repeat", 14, "1000", "word 15, COUNT, is '1000'; it has to be a number from 0 to 999"),
    ("cancel", 7, "x", "word 8, ID, is 'x'; it has to be 1 to 10 digits"),
    ("mail", 7, "s" * 65, "word 8, SUBJECT, is '%s'; it has to be 1 to 64 bytes" % ("s" * 65)),
)


@test
def the_word_is_named(desk):
    """the last line names the word that is wrong, or missing, or one too many, and little stands before it"""
    for command, offset, word, told in NAMED:
        c1, words = words_of(desk, command)
        words[offset:] = [] if word is None else [word, *words[offset + 1:]]
        lines = c1.run_words(words).told.decode().split("\n")
        expect((lines[-2], len(lines) < 8), (told, True), "the last line of %.200r, and that there are few" % words)
    c1, words = words_of(desk, "show")
    expect(c1.run_words(words + ["x"]).told.decode().split("\n")[-2], "word 8, 'x', is one too many", "the last line of a word too many")


@test
def at_their_limits(desk):
    """words at their limits are taken, and blanks at their ends are dropped"""
    c1 = desk.new_customer()
    for place, good in ((2, "c"), (2, "C23456789012"), (3, "u" * 32), (3, "\u00fc b"), (4, "p" * 64), (5, "b" * 32),
                        (0, "0"), (0, "65535"), (0, " 80 "), (2, "c1\t"), (6, " show\n")):
        words = c1.words(desk.relay.port, "show")
        words[place] = good
        done = c1.run_words(words)
        name = words[2].strip()
        expect((done.status, done.output.decode()), (0, "client %s next 1 done NONE\n" % name), "the end of %r" % words)
    for command in (["mail", "s" * 64, "b" * 10000], ["cancel", "0000000001"],
                    ["repeat", *COMMANDS["repeat"].split()[:-1], "999"], ["sync", "n" * 32, "CREDITLINE"],
                    ["transfer", "1001", "CHECKING", "1002", "SAVINGS", "+99999999999,99", "19000101"],
                    ["transfer", "1001", "CHECKING", "1002", "SAVINGS", "1.50000", "99991231"]):
        c1 = desk.new_customer()
        done, _ = desk.run_whole(c1, command, swallows)
        expect(done.status, 18 if command[0] == "cancel" else 17, "the status of %.80r" % (command,))


@test
def help_and_version(desk):
    """help and the version go to the standard output, and the program's usage stands in the help"""
    c1 = desk.new_customer()
    for words, front in ((["--help"], "Keeps what a customer knows"), (["--version"], "ofxclient %s" % VERSION),
                         (["--help", "x"], "Keeps what a customer knows")):
        done = c1.run_words(words)
        expect((done.status, done.told, done.output.decode()[:len(front)]), (0, b"", front), "the end of %r" % words)
    told = c1.run_words(["--help"]).output.decode()
    for word in (*COMMANDS, "PORT", "STORE", "CLIENT", "USER", "PASS", "BANK", "WEEKLY", "MONEYMRKT"):
        expect(word in told, True, "that the help tells of %s" % word)
