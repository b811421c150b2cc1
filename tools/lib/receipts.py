"""Reads and compares the receipts: for each crate the checksum of the sources that CI proved, for `tools/receipts`, `tools/build` and `tools/install`.

`tools/data/receipts.tsv` has the kit, and a line for each crate. A receipt holds if the checksum of the crate is the same and the kit here is the
one that is named. For example, `lacking(["wat"], ROOT)` is empty if the receipts of `wat` and of all crates below it hold. A proof of a crate rests on
these crates, on its own files and on the kit, so what holds was proved as it is.
"""

import hashlib

import entry
import unproved

ROOT = entry.ROOT
FILE = ROOT / "tools/data/receipts.tsv"

# Where what is built was proved, as the words behind a version: on this machine, by CI, or nowhere.
HERE, BY_CI, NOWHERE = "", "proved by CI, not on this machine", "UNPROVED"

# The folders of a crate that a proof reads. Tests of the folder `tests` are not proved, and mutants are no part of the crate.
PARTS = ("src", "specs", "proofs", "c")

HEAD = """# What CI proved: the kit, and for each crate the checksum of its sources. `tools/receipts --write` writes this file, `tools/lib/receipts.py` reads it.
"""


def behind(kind):
    """What is written behind a version."""
    return f" ({kind})" if kind else ""


def lines_of_crates(folder=None):
    """
    The line of each crate in the crates.txt of this repository, or of a folder with a copy of the sources, which may have lines of tests that are
    not proved: these are left out.
    """
    lines = [line.strip() for line in ((folder or ROOT) / "crates.txt").read_text(encoding="utf-8").splitlines()]
    found = {line.split(":")[0].split()[0]: line for line in lines if line and not line.startswith("#")}
    return {name: line for name, line in found.items() if name not in unproved.crates_of_tests()}


def checksum(name, folder=None):
    """The checksum of a crate: of its line in crates.txt, and of the names and bytes of its files."""
    found, crate = hashlib.sha256(f"{lines_of_crates(folder)[name]}\n".encode()), (folder or ROOT) / "crates" / name
    for path in sorted(path for part in PARTS for path in (crate / part).rglob("*") if not path.is_dir()):
        data = path.read_bytes()
        found.update(f"{path.relative_to(crate).as_posix()} {len(data)}\n".encode() + data)
    return found.hexdigest()


def read():
    """The kit that the receipts name, and the checksum of each crate that has one."""
    lines = FILE.read_text(encoding="utf-8").splitlines() if FILE.is_file() else []
    found = dict(line.split("\t", 1) for line in lines if "\t" in line and not line.startswith("#"))
    return found.pop("kit", ""), found


def text_of(kit, sums):
    """The text of the file for a kit and the checksums of crates."""
    return HEAD + "".join(f"{name}\t{value}\n" for name, value in {"kit": kit, **sums}.items())


def changed(names, folder=None):
    """Those of some crates that have no receipt, or another checksum."""
    sums = read()[1]
    return [name for name in names if sums.get(name) != checksum(name, folder)]


def lacking(names, folder):
    """What has no receipt that holds, of some crates of a folder and all crates below them: the kit is named if it is another."""
    needed = dict.fromkeys(it for name in names for it in (name, *unproved.below(name, folder)))
    return ["the kit"] * (read()[0] != entry.version_of_kit()) + changed(needed, folder)
