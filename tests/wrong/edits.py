"""The wrong programs: where they stand, how one is applied, and what rt says of one."""

import re
from pathlib import Path


class Bad(Exception):
    """What is wrong with an edit itself."""


class Edit:
    """A file `LABEL.edit`: one wrong program, as texts of a crate's files and what replaces them. A line `by: ` names the file of laws or
    of a proof whose fact refuses it; it is there to be read alone."""

    def __init__(self, path, crate):
        self.path, self.crate, self.label = path, crate, path.stem
        self.name = f"{crate}/{self.label}"

    def pairs(self):
        """Each file, old text and new one. A line `file: ` holds for each `old: ` and `new:` after it."""
        pairs, file, old = [], "", ""
        for line in self.path.read_text().split("\n"):
            if line.startswith("file: "):
                file = line[len("file: ") :]
            elif line.startswith("old: "):
                old = line[len("old: ") :]
            elif line.startswith("new:"):
                pairs.append((file, old, line[len("new:") :].removeprefix(" ")))
                old = ""
        if not pairs:
            raise Bad("it has no text and what replaces it")
        return pairs

    def applied(self, folder):
        """The files of the crate in this folder that the edit changes, each with its text then."""
        texts = {}
        for file, old, new in self.pairs():
            path = Path(folder, file)
            if file.split("/")[0] not in ("src", "specs", "proofs") or ".." in path.parts or not path.is_file():
                raise Bad(f"no file {file} in the crate")
            text = texts[path] if path in texts else path.read_text()
            stands = text.count(old) if old else 0
            if stands != 1:
                raise Bad(f"a text stands {stands} times in {file}: {old[:80]}")
            texts[path] = text.replace(old, new)
        return texts


def beside(root):
    """The edits beside this file."""
    return [Edit(path, path.parts[-2]) for path in sorted(root.glob("tests/wrong/*/*.edit"))]


def standing(root):
    """Every edit of the tree: those of must-fail, which rt ci tries itself, and those beside this file."""
    edits = [Edit(path, path.parts[-3]) for path in sorted(root.glob("crates/*/must-fail/*.edit"))] + beside(root)
    names = [edit.name for edit in edits]
    for name in names:
        if names.count(name) > 1:
            raise Bad(f"{name} stands in both places")
    return sorted(edits, key=lambda edit: edit.name)


def exceptions(root):
    """The edits that a proof which no longer fits may refuse, each with the reason."""
    lines = (root / "tests/wrong/exceptions").read_text().split("\n")
    return dict(line.split(": ", 1) for line in lines if line and not line.startswith("#"))


# What rt must-fail says where a theorem of specs/ does not hold and another one rests on it: to rt such an edit is bad.
RESTS = re.compile(
    r"BAD EDIT: the prover cannot read the edited text, so no contract was tried: "
    r"(\./)?specs/\S+:\d+:\d+: error: \d+ declarations? that depends? on `[^`]+`, which was (rejected|not admitted), w(as|ere) not checked: "
)

# The first words of an answer, and what it comes to.
ANSWERS = {
    "refused, as it must be (only because a proof file names what the edit took away": "unfit",
    "refused, as it must be (only by a limit of the prover": "no verdict",
    "refused, as it must be": "refused",
    "NOT REFUSED": "proved",
    "NOT TRIED": "no verdict",
    "BAD EDIT": "bad",
}


def answers(said):
    """What `rt must-fail` says of each edit, by its name: in one word, and in its own."""
    found = {}
    for name, words in re.findall(r"^(?:rt: )?must-fail (\w+/\S+)\.edit: (.*)", said, re.M):
        word = next((word for start, word in ANSWERS.items() if words.startswith(start)), "no verdict")
        found[name] = "refused" if RESTS.match(words) else word, words
    return found
