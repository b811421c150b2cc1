"""Reads the mutants of this repository and applies them, for `tools/wrong-bodies` and `tools/test wrong-texts`.

A mutant has a file of its crate, and pairs of an old text and of the new one that replaces it. For example, this one counts labels from
the outermost block instead of the innermost one. It is a file `NAME.edit`, as `rt` reads those of `crates/CRATE/must-fail/`:

    file: src/labels.rt
    old: Some((self.open.len() - 1 - place) as u32)
    new: Some(place as u32)

All others are rows of `crates/CRATE/wrong-bodies.tsv`. Tabs separate its columns, as no source has a tab: the name, the verdict on the
mutant, the function whose proof fails, the goal that is open, checksums of the mutant and of the contracts of its crate, the file,
the old text and the new one. A row with several pairs has more columns.
"""

import collections
import re
import shutil
import subprocess

import entry

ROOT = entry.ROOT

LINE = re.compile(r"(file|old|new): ?(.*)")

# A mutant: the name of its crate, its own, its file within the crate, and its pairs.
Mutant = collections.namedtuple("Mutant", "crate name file pairs")

# What a table says of a mutant; the last two are checksums.
Trial = collections.namedtuple("Trial", "verdict function goal edit contracts")

HEAD = ["mutant", *Trial._fields, "file", "old", "new"]


class BadEdit(Exception):
    """Why an edit cannot be applied."""


def crate_of(mutant):
    """The folder of the crate that a mutant changes."""
    return ROOT / "crates" / mutant.crate


def table_of(crate):
    """The table of a crate's mutants."""
    return ROOT / "crates" / crate / "wrong-bodies.tsv"


def of_file(path):
    """The mutant of a file `NAME.edit`."""
    lines = [LINE.fullmatch(line) for line in path.read_text(encoding="utf-8").rstrip("\n").split("\n")]
    words = [line.group(1) if line else None for line in lines]
    if len(words) < 3 or words != ["file"] + ["old", "new"] * (len(words) // 2):
        raise BadEdit("expected a line `file:`, and then pairs of lines `old:` and `new:`")
    texts = [line.group(2) for line in lines]
    if any("\t" in text for text in texts):
        raise BadEdit("it has a tab")
    return Mutant(path.relative_to(ROOT).parts[1], path.stem, texts[0], tuple(zip(texts[1::2], texts[2::2])))


def text_of(mutant):
    """A mutant as the text of a file."""
    pairs = [f"old: {old}\nnew: {new}\n" for old, new in mutant.pairs]
    return "".join([f"file: {mutant.file}\n", *pairs])


def row_of(crate, line):
    """A mutant and what a table says of it, from a row."""
    name, *cells = line.split("\t")
    trial, file, texts = cells[:5], cells[5:6], cells[6:]
    if not texts or len(texts) % 2:
        raise entry.Failed(f"{table_of(crate).relative_to(ROOT)}: {name}: expected the columns {', '.join(HEAD)}, and pairs of the last two")
    return Mutant(crate, name, *file, tuple(zip(texts[::2], texts[1::2]))), Trial(*trial)


def stored(crate):
    """The mutants in the table of a crate, with what it says of each."""
    lines = table_of(crate).read_text(encoding="utf-8").split("\n")[1:-1] if table_of(crate).exists() else []
    return dict(row_of(crate, line) for line in lines)


def all_stored():
    """The mutants in all tables, with what these say of each."""
    return {mutant: trial for path in sorted(ROOT.glob("crates/*/wrong-bodies.tsv")) for mutant, trial in stored(path.parent.name).items()}


def store(crate, new):
    """Writes mutants to the table of a crate, in place of those of the same names; another run may have written others meanwhile."""
    rows = {mutant.name: (mutant, trial) for mutant, trial in [*stored(crate).items(), *new.items()]}
    lines = [[name, *trial, mutant.file, *(text for pair in mutant.pairs for text in pair)] for name, (mutant, trial) in sorted(rows.items())]
    table_of(crate).write_text("".join("\t".join(line) + "\n" for line in [HEAD, *lines]), encoding="utf-8")


def replaced(text, right, old, new):
    """A text after one pair of an edit; `right` is the text as it is in the source, without the pairs before."""
    for stage, place in ((right, ""), (text, " after the pairs before it")):
        if stage.count(old) != 1:
            raise BadEdit(f"`old: {old}` occurs {stage.count(old)} times{place}, expected once")
    return text.replace(old, new)


def applied(mutant, over=None):
    """The texts of the files that a mutant changes, by their paths within the crate; `over` has those that other mutants changed."""
    file = crate_of(mutant) / mutant.file
    if not file.is_file():
        raise BadEdit(f"no such file: {mutant.file}")
    texts, right, path = dict(over or {}), file.read_text(encoding="utf-8"), file.relative_to(crate_of(mutant))
    for old, new in mutant.pairs:
        texts[path] = replaced(texts.get(path, right), right, old, new)
    if texts[path] == right:
        raise BadEdit("it changes nothing")
    return texts


def copy_of_tree(folder):
    """Copies what git would commit to a folder, as it is in the working tree, and makes a repository of it."""
    for name in entry.files_of_clone():
        (folder / name).parent.mkdir(parents=True, exist_ok=True)
        shutil.copy(ROOT / name, folder / name)
    subprocess.run(["git", "init", "--quiet"], cwd=folder, check=True)
