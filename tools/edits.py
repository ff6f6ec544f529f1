"""Wrong edits of a crate, as `rt` has its must-fail edits: pairs of old and new text, each in the file named last before it.
And what the tools that try them share: copies of crates, and checks of them."""
import os
import re
import shutil
import subprocess


class Broken(Exception):
    """The edit could not be made."""


def make(crate_dir, edit, folders=("src", "specs")):
    """Makes the edit in a crate's folder, in files of the folders that may be edited."""
    file = old = None
    pairs = 0
    for line in edit.read_text("utf-8").split("\n"):
        if line.startswith("file: "):
            file = line[len("file: "):]
        elif line.startswith("old: "):
            old = line[len("old: "):]
        elif line.startswith("new:"):
            new = line[len("new:"):].removeprefix(" ")
            if not file or not re.match(rf"({'|'.join(folders)})/", file) or ".." in file or not (crate_dir / file).is_file():
                raise Broken(f"no file of {'/ or '.join(folders)}/: {file}")
            text = (crate_dir / file).read_text("utf-8")
            times = text.count(old) if old else 0
            if times != 1:
                raise Broken(f"the old text stands {times} times in {file}: {old}")
            (crate_dir / file).write_text(text.replace(old, new), "utf-8")
            old = None
            pairs += 1
    if not pairs:
        raise Broken("no pair of old and new")


def libraries_of(root):
    """The crates of crates.txt in its order, each with those that it uses."""
    found = {}
    for line in (root / "crates.txt").read_text("utf-8").splitlines():
        name, colon, below = line.partition(":")
        if colon and not line.startswith("#"):
            found[name.strip()] = below.split()
    return found


def copied(source, to):
    """A copy of a file, by a link where that is what a check replaces and never changes."""
    if source.endswith(".oantt"):
        try:
            return os.link(source, to)
        except OSError:
            pass
    return shutil.copy2(source, to)


def check(root, crate, jobs):
    """Runs `rt check` in a crate's folder, with one job if several checks run at a time; its status, and what it said."""
    words = ["rt", "check"] + (["--jobs", "1"] if jobs > 1 else [])
    done = subprocess.run(words, cwd=root / "crates" / crate, stdin=subprocess.DEVNULL, stdout=subprocess.PIPE,
                          stderr=subprocess.STDOUT, text=True, errors="replace")
    return done.returncode, done.stdout


# What a check says of declarations that it did not come to, since another was refused.
FOLLOWS = re.compile(r"which was (rejected|not admitted), (was|were) not checked|was not admitted \(it has holes")
# Errors in a proof file that are none of a fact: it names what is not there, or cannot be read.
NO_FACT = re.compile(r"has no field|has no `|is not in scope|is no name|can be named here|exports no `|operand is missing"
                     r"|expected the end|cannot continue|expected a field name")


def errors(log):
    """The errors of a check's log that do not follow from another: file, line, and what is said."""
    found = re.findall(r"^(?:\./)?(\S+?\.(?:antt|rt)):(\d+):\d+: error(?:\[[\w-]+\])?: (.*)$", log, re.M)
    return [(file, int(line), said) for file, line, said in found if not FOLLOWS.search(said)]


def of_fact(file, said):
    """Whether an error says that a fact does not hold: it stands in a proof file, of a declaration that could be read."""
    return file.startswith("proofs/") and said.startswith("`") and not NO_FACT.search(said)
