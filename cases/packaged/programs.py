"""The installed programs, with their man pages and completions."""
import os
import re
import subprocess

from packaged.trial import need, said, text_of, tool
from served.server import Wrong

COMPLETE = """source "$1"; shift; COMP_WORDS=("$@" ""); COMP_CWORD=$#; "_$1"; printf '%s\\n' "${COMPREPLY[@]}" """
LISTED = re.compile(r"^Commands:\n((?:  .*\n)+)", re.MULTILINE)


def forms(program, name):
    """The forms of the commands, as the help shows them."""
    return re.findall(r"^(?:Usage:)? +(%s .*)$" % name, said([program, "--help"]), re.MULTILINE)


def plain(roff):
    """The text of a man page's source, in words."""
    text = re.sub(r"^\.[A-Za-z]+ ?", "", roff, flags=re.MULTILINE)
    return text.replace("\\-", "-").replace("\\e", "\\").replace("\\&", "").split()


def installed(trial):
    """each program is at its place, and the version's file names them and the source"""
    told = text_of(trial.document("version"))
    for name, program in trial.programs.items():
        want = said([program, "--version"])
        if said([trial.at("bin/" + name), "--version"]) != want:
            raise Wrong("%s has another version" % name)
        if want.strip() not in told:
            raise Wrong("%s isn't in %r" % (want.strip(), told))
    if said([tool("commit")]).strip() not in told:
        raise Wrong("the commit isn't in %r" % told)


def manuals(trial):
    """each man page has the forms and the words of the help, and shows without a warning"""
    for name, program in trial.programs.items():
        path = trial.at("share/man/man1/%s.1" % name)
        page = text_of(path)
        synopsis = plain(page.split(".SH SYNOPSIS\n")[1].split(".SH ")[0])
        if synopsis != " ".join(forms(program, name)).split() or not synopsis:
            raise Wrong("the synopsis of %s is %r" % (name, " ".join(synopsis)))
        words = set(plain(page))
        lost = [word for word in said([program, "--help"]).split() if word.strip(":") and word not in words]
        if [word for word in lost if word.lower() != "usage:"]:
            raise Wrong("the page of %s hasn't the words %r of its help" % (name, lost[:5]))
        need("man")
        done = subprocess.run(["man", "--warnings", "-l", path], capture_output=True, timeout=60,
                              env={**os.environ, "LC_ALL": "C.UTF-8", "MANWIDTH": "80"})
        if done.returncode != 0 or done.stderr:
            raise Wrong("man says %r of %s" % (done.stderr[-300:], name))


def offered(trial, *words):
    """What is offered after these words of a command line, which begin with the program's name."""
    script = trial.at("share/bash-completion/completions/" + words[0])
    return said(["bash", "-c", COMPLETE, "bash", script, *words]).split()


def completions(trial):
    """the completions offer each command"""
    need("bash")
    for name, program in trial.programs.items():
        commands = [form.split()[1] for form in forms(program, name)]
        commands = {one for one in commands if re.fullmatch("[a-z]+", one)}
        listed = LISTED.search(said([program, "--help"]))
        places = [((name,), commands)]
        if listed and name == "ofxclient":
            places.append(((name, "8080", "store", "c1", "alice", "secret", "bank"),
                           {line.split()[0] for line in listed[1].splitlines() if line[2] != " "}))
        for words, wanted in places:
            found = set(offered(trial, *words))
            if not wanted or not wanted <= found:
                raise Wrong("after %r they offer %r, the help has %r" % (" ".join(words), found, wanted))


TESTS = installed, manuals, completions
