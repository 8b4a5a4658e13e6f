"""Help, the version, and words that have no form."""
from operated.case import AT, case, wants

COMMANDS = ("answer", "check", "due", "mail", "rehearse", "serve")


def form_of(command):
    return {"answer": "answer SETUP RECORDS [--at DATE]", "check": "check SETUP [RECORDS]", "due": "due SETUP RECORDS",
            "mail": "mail SETUP RECORDS USER SUBJECT", "rehearse": "rehearse SEED",
            "serve": "serve SETUP RECORDS PORT WORKERS CONNECTIONS"}[command]


@case
def help_of_the_program(place):
    """help of the program: -h, --help and help"""
    for words in (["-h"], ["--help"], ["help"]):
        done = place.run(*words)
        wants((done.returncode, done.stderr) == (0, b""), "%s: %r" % (words, done))
        for command in COMMANDS:
            wants("ofxbank %s" % form_of(command) in done.stdout.decode(), "%s hasn't %s" % (words, command))


@case
def version(place):
    """the version: -V and --version"""
    for word in ("-V", "--version"):
        done = place.run(word)
        wants((done.returncode, done.stderr) == (0, b"") and done.stdout.startswith(b"ofxbank "), "%s: %r" % (word, done))


@case
def help_of_a_command(place):
    """help of a command, by any of its ways"""
    for command in COMMANDS:
        for words in (["help", command], ["--help", command], [command, "--help"], [command, "-h"],
                      [command, "setup", "--help"], [command, "setup", "bank.db", "--help"], [command, "--help", "x"]):
            if command == "mail" and len(words) > 4:
                continue
            done = place.run(*words)
            wants((done.returncode, done.stderr) == (0, b""), "%s: %r" % (words, done))
            wants("\nUsage: ofxbank %s\n" % form_of(command) in done.stdout.decode(), "%s: %r" % (words, done.stdout))
    wants(place.files() == ["setup"], "files were made: %s" % place.files())


def refuses(place, words, told):
    """The words are refused: the line `usage`, the program's whole usage, and in the last line what is wrong."""
    lines = place.ends(2, *words)
    wants((lines[0], lines[-1]) == ("usage", told), "%s: told %r, wanted %r" % (words, lines[-1], told))
    wants("\n".join(lines[1:-2]) + "\n" == place.run("--help").stdout.decode(), "%s: told %r as the usage" % (words, lines[1:-2]))


@case
def no_path(place):
    """a word that begins with - is no path, and no file is made"""
    for words, name, word in ((["answer", "setup", "-x"], "RECORDS", "-x"), (["answer", "-x", "bank.db"], "SETUP", "-x"),
                              (["due", "setup", "--at"], "RECORDS", "--at"),
                              (["answer", "setup", "--at"], "RECORDS", "--at"), (["check", "setup", "--fast"], "RECORDS", "--fast"),
                              (["serve", "setup", "-1", "80", "1", "0"], "RECORDS", "-1")):
        refuses(place, words, "%s is '%s', which is no path; a file of that name is ./%s" % (name, word, word))
    wants(place.files() == ["setup"], "files were made: %s" % place.files())


@case
def path_with_a_dash(place):
    """./-x is a path, and - keeps nothing"""
    place.tells(0, [], "answer", "setup", "./-x", *AT)
    place.tells(0, [], "answer", "setup", "-", *AT)
    wants("-x" in place.files(), "files: %s" % place.files())


@case
def bad_words(place):
    """the word that is wrong is told, behind the program's usage"""
    for words, told in (
            (["sevre", "setup"], "there is no command 'sevre'"),
            (["help", "sevre"], "there is no command 'sevre'"),
            ([], "a command is missing"),
            (["answer"], "SETUP is missing"),
            (["answer", "setup"], "RECORDS is missing"),
            (["answer", "setup", "-", "x"], "'x' is no option of this command"),
            (["answer", "setup", "-", "--at"], "DATE is missing"),
            (["answer", "setup", "-", "--at", "20240230"],
             "DATE is '20240230', which is no date; one is 20240131 or 20240131120000, perhaps with a zone as [-5:EST]"),
            (["answer", "setup", "-", "--at", "20240131", "x"], "'x' is one word too many"),
            (["due", "setup", "-", "x"], "'x' is one word too many"),
            (["mail", "setup", "-", "bob"], "SUBJECT is missing"),
            (["mail", "setup", "-", "bob", "s" * 65], "SUBJECT is '%s', which has not 1 to 64 bytes" % ("s" * 65)),
            (["mail", "setup", "-", "bob", "Hi", "x"], "'x' is one word too many"),
            (["rehearse"], "SEED is missing"),
            (["rehearse", "07"], "SEED is '07'; it is a number from 0 to 18446744073709551615"),
            (["rehearse", "7", "8"], "'8' is one word too many"),
            (["serve", "setup", "-", "80", "1"], "CONNECTIONS is missing"),
            (["serve", "setup", "-", "x", "1", "0"], "PORT is 'x'; it is a number from 1 to 65535"),
            (["serve", "setup", "-", "080", "1", "0"], "PORT is '080'; it is a number from 1 to 65535"),
            (["serve", "setup", "-", "80", "65", "0"], "WORKERS is '65'; it is a number from 1 to 64"),
            (["serve", "setup", "-", "80", "1", "y"], "CONNECTIONS is 'y'; it is a number from 0 to 4294967295"),
            (["check"], "SETUP is missing"),
            (["check", "setup", "bank.db", "x"], "'x' is one word too many"),
            (["answer", "setup", "b" * 10001],
             "word 3 has a byte that no word may have, or has more than 10000 bytes")):
        refuses(place, words, told)
    done = place.run("answer", b"\xff", "-")
    lines = done.stderr.decode().split("\n")
    wants((lines[0], lines[-2]) == ("usage", "a word isn't UTF-8"), repr(done))


@case
def letter_about_help(place):
    """a letter may be about --help"""
    done = place.run("mail", "setup", "-", "bob", "--help", stream=b"Hi")
    wants((done.returncode, done.stdout, done.stderr) == (0, b"MAIL 1\n", b""), repr(done))
