"""Programs over the crates' own calls, which are made for a measurement."""
import os
import shutil
import subprocess
import sys
import tempfile

from samples import ROOT

NEEDS = "ofx_types ofx_ports ofx_file bank_model bank_shared bank_signon bank_samples"


def copy_tree(to):
    """Copies the files that crates are built from, as they stand."""
    words = ["git", "ls-files", "-z", "--cached", "--others", "--exclude-standard", "crates", "crates.txt", "HANDLES"]
    listed = subprocess.run(words, cwd=ROOT, check=True, capture_output=True).stdout.decode().split("\0")
    for path in filter(None, listed):
        if os.path.isfile(os.path.join(ROOT, path)) and "/must-fail/" not in path:
            os.makedirs(os.path.dirname(os.path.join(to, path)), exist_ok=True)
            shutil.copyfile(os.path.join(ROOT, path), os.path.join(to, path))


def put_program(name, to):
    """Copies the tree with the program of this name in bench/, as one more crate of it. Its folder."""
    copy_tree(to)
    with open(os.path.join(to, "crates.txt"), "a", encoding="utf-8") as f:
        f.write("\n%s: %s\n" % (name, NEEDS))
    folder = os.path.join(to, "crates", name)
    os.makedirs(os.path.join(folder, "src"))
    for source in os.listdir(os.path.join(ROOT, "bench", name)):
        # The gate wants a crate for each .rt file, so these have one more ending.
        shutil.copyfile(os.path.join(ROOT, "bench", name, source), os.path.join(folder, "src", source.removesuffix(".in")))
    return folder


def lines_of(name):
    """What the program of this name in bench/ prints, with lines of `rt try`, which builds it unproved and with checks of memory."""
    with tempfile.TemporaryDirectory(prefix=name + "-") as to:
        done = subprocess.run(["rt", "try", "--seconds", "3600", "--steps", "1000"], cwd=put_program(name, to),
                              stdin=subprocess.DEVNULL, stdout=subprocess.PIPE, text=True)
    if done.returncode != 0:
        sys.exit("rt try ended with the status %d" % done.returncode)
    return done.stdout.split("\n")
