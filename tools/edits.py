"""The stored edits of the crates: wrong programs that the prover must refuse.

A file crates/CRATE/must-fail/NAME.edit or crates/CRATE/mutants/NAME.edit is one edit, called NAME: after a line
`file: PATH` each pair of lines `old: TEXT` and `new: TEXT` replaces a text that is in the file exactly once. A file may hold
several edits, each begun by the two lines `wrong: LABEL` and `refused: FUNCTION`. Each is of another function, and no proof
of one function looks into another, so one check of the crate shows for each whether it is refused: the function has an error
of its own.
"""

import contextlib
import pathlib
import re
import shutil
import tempfile

FOLDERS = ("must-fail", "mutants")
# A line for each edit: CRATE/LABEL, a space, the fact that fails first, and after a colon what it means.
FIRST_ERRORS = "docs/first-errors.txt"
# What a check of a crate reads and writes; what is proved already is copied too.
COPIED = ("crates.txt", "crates")
# What only follows from an error elsewhere.
FOLLOWS = re.compile(r"was not (admitted|checked)")
ERROR = re.compile(r"(?:\./)?(\S+?):\d+:\d+: error: (`[^`]*`: )?(.*)")
NO_NAME = re.compile(
    r"is not in scope|has no field|can be named from here|is no name|operand is missing|expected the end|cannot continue|needs a type here"
)


class Edit:
    """One wrong program: what it changes, and the function that is then refused, where several stand in one file."""

    def __init__(self, path, label, function=None):
        self.path, self.label, self.function = path, label, function
        # For each pair the file within the crate, the old text and the new one.
        self.pairs = []

    @property
    def crate(self):
        return self.path.parent.parent.name

    @property
    def name(self):
        return f"{self.crate}/{self.label}"

    def __str__(self):
        return f"{self.path.parent}/{self.path.name}: {self.label}"

    def changed(self, folder):
        """Each file of the crate in that folder which the edit changes, with its text as it was and as it becomes."""
        texts = {}
        for name, old, new in self.pairs:
            path = folder / name
            was, now = texts.setdefault(path, [path.read_text(encoding="utf-8")] * 2)
            if now.count(old) != 1:
                raise ValueError(f"{self}: its old text does not stand once in {name}")
            texts[path] = [was, now.replace(old, new)]
        return texts


def edits_in(path):
    """The edits of one file."""
    edits, file, old = [], None, None
    for line in path.read_text(encoding="utf-8").splitlines():
        word, _, text = line.partition(":")
        # One space parts the word from the text, which may begin with more.
        text = text[1:]
        if word == "wrong":
            edits.append(Edit(path, text))
        elif word == "refused":
            edits[-1].function = text
        elif word == "file":
            file = text
        elif word == "old":
            old = text
        elif word == "new":
            if not edits:
                edits.append(Edit(path, path.stem))
            edits[-1].pairs.append((file, old, text))
    return edits


def edits_of(crate_folder, folder):
    """The edits of a crate in one of the folders."""
    return [edit for path in sorted((crate_folder / folder).glob("*.edit")) for edit in edits_in(path)]


def all_edits(root=pathlib.Path(".")):
    crates = sorted(path for path in (root / "crates").iterdir() if path.is_dir())
    return [edit for folder in FOLDERS for crate in crates for edit in edits_of(crate, folder)]


def read_first_errors():
    """The fact that fails first under each edit, by CRATE/LABEL."""
    with open(FIRST_ERRORS, encoding="utf-8") as facts:
        return dict(line.rstrip("\n").split(" ", 1) for line in facts)


@contextlib.contextmanager
def scratch_folder():
    """A folder that is gone at the end, however that comes."""
    folder = pathlib.Path(tempfile.mkdtemp(prefix="edits-"))
    try:
        yield folder
    finally:
        # What a prover that was ended had begun may still appear.
        while folder.exists():
            shutil.rmtree(folder, ignore_errors=True)


def copy_below(root, folder, crate):
    """A copy of one crate and of those that it is built on, in a new folder, in which they can be changed and checked."""
    lines = (root / "crates.txt").read_text(encoding="utf-8").splitlines()
    built_on = {line.split()[0].rstrip(":"): line.partition(":")[2].split() for line in lines if ":" in line and line[0] != "#"}
    wanted, left = set(), [crate]
    while left:
        name = left.pop()
        if name not in wanted:
            wanted.add(name)
            left += built_on[name]
    (folder / "crates").mkdir(parents=True)
    kept = [line for line in lines if line.split() and line.split()[0].rstrip(":") in wanted]
    (folder / "crates.txt").write_text("\n".join(kept) + "\n", encoding="utf-8")
    for name in wanted:
        shutil.copytree(root / "crates" / name, folder / "crates" / name, symlinks=True)


def copy_crates(root, folder):
    """A copy of the crates in a new folder, in which they can be changed and checked."""
    folder.mkdir()
    for part in COPIED:
        if (root / part).is_dir():
            shutil.copytree(root / part, folder / part, symlinks=True)
        else:
            shutil.copy(root / part, folder / part)


def is_unread(line):
    """Whether the prover says here that it could not read a text of src/ or specs/: that refuses no program."""
    error = ERROR.match(line)
    if not error or not error[1].startswith(("src/", "specs/")) or FOLLOWS.search(line):
        return False
    # A statement that is only false is told by its name.
    return not error[2] or bool(NO_NAME.search(re.sub(r"`[^`]*`", "", error[3])))
