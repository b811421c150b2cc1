"""Reads the texts whose error has another position in the Rust crate, for `tools/pages`.

A line of tools/data/places.tsv is a group, a rule, a text, the words of its error, its line and column here and in the crate, and how many of
the texts that were tried have it by this rule. A text is a JSON string, so that no character of it is unseen. For example, the string of
`(module (data "a))` has no end: 1:15 here, its opening quote, and 1:19 in the crate, the end of the text. docs/DIFFERENCES.md has the rules.
"""

import json
import pathlib
import re
import subprocess
import typing

TABLE = pathlib.Path(__file__).resolve().parent.parent / "data/places.tsv"

# How many texts were tried with the crate `wast` 239, and how many of them have one position.
TRIED, SAME = 1427, 1221


class Row(typing.NamedTuple):
    """A line of the table."""

    group: str
    rule: str
    text: str
    words: str
    here: str
    crate: str
    texts: int


def rows():
    """The lines of the table."""
    for line in TABLE.read_text(encoding="utf-8").splitlines():
        group, rule, text, words, here, crate, count = line.split("\t")
        yield Row(group, rule, json.loads(text), words, here, crate, int(count))


def written(text):
    """A text as crates/wat_golden reads it: with escapes, if a character of it is not of ASCII or not seen."""
    if all(" " <= letter <= "~" for letter in text):
        return text
    return "\\" + "".join(chr(byte) if 0x20 <= byte < 0x7F and byte != 0x5C else f"\\{byte:02x}" for byte in text.encode())


def lines():
    """The texts with their answers: the offset and the words of the error."""
    for row in rows():
        line, column = map(int, row.here.split(":"))
        before = row.text.encode().split(b"\n")[: line - 1]
        yield written(row.text), f"not read at {sum(len(it) + 1 for it in before) + column - 1}: {row.words}"


def problems(program):
    """What is wrong with the table: its counts, and the positions and words that the command prints of its texts."""
    total = sum(row.texts for row in rows())
    if total != TRIED - SAME:
        yield f"{TABLE.name}: {total} texts differ, and not {TRIED - SAME}"
    for row in rows():
        ran = subprocess.run([program], input=row.text.encode(), stdout=subprocess.DEVNULL, stderr=subprocess.PIPE, check=False, timeout=60)
        printed = ran.stderr.decode()
        place = re.search(r"^ +--> <stdin>:(\d+:\d+)$", printed, re.M)
        if f"error: {row.words}" not in printed or place is None or place[1] != row.here:
            yield f"{TABLE.name}: {row.text!r} is at {place and place[1]}, and not {row.here}: {printed.splitlines()[:1]}"
        if row.here == row.crate:
            yield f"{TABLE.name}: {row.text!r} has one position"
