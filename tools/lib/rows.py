"""Reads the example modules that `wastrow` encodes, and prints each with its line, for `tools/show rows`, `tools/pages` and `tools/check-docs`.

A line of tools/data/rows.tsv is a number, a module, and what the module has that its text does not say, if anything. The line of a row is
the one that crates/wastrow has to print. For example, row 2 is `(module (func))`. `crates/wast_rows_samples` reads the texts. It builds rows 25, 56 and
58 to 64 by hand, because no text gives them: 25 and 56 have an `end` without a block, which `wat` rejects, and the others are not well formed.
"""

import typing

import entry

ROOT = entry.ROOT
TABLE = ROOT / "tools/data/rows.tsv"


class Row(typing.NamedTuple):
    """An example module: its number, its text, what the text does not say, and the line of `wastrow`."""

    number: str
    text: str
    more: str
    line: str


def rows():
    """Each example module."""
    asked, lines = ((ROOT / "crates/wastrow" / name).read_text(errors="replace").split("\n") for name in ("stdin", "stdout"))
    told = dict(zip(asked, lines))
    for line in TABLE.read_text(encoding="utf-8").splitlines():
        number, text, *more = line.split("\t")
        yield Row(number, text, *(more or [""]), told.get(number, ""))


def problems():
    """The rows that `wastrow` does not print."""
    for row in rows():
        if not row.line:
            yield f"{TABLE.relative_to(ROOT)}: crates/wastrow does not print row {row.number}"


def main(words):
    """Prints all rows, or those with these numbers."""
    found = list(rows())
    unknown = set(words) - {row.number for row in found}
    if unknown:
        raise entry.WrongWords(f"no such row: {sorted(unknown)[0]}")
    for row in found:
        if not words or row.number in words:
            print(f"{row.number}: {row.text}{', ' + row.more if row.more else ''}\n    {row.line}")
    return 0
