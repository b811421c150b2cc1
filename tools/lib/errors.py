"""Reads the errors that `wat --explain` knows, and writes docs/ERRORS.md and bindings/js/explanations.js from them, for `tools/pages`.

The command `wat`, as `rt ci` builds it, runs the example of each entry: its message has to begin with the words of the entry, and `--explain` has
to find each entry by its number and by its words. So it is with the texts whose error has another position in the Rust crate (`tools/lib/places.py`).
"""

import json
import re
import subprocess
import types
import typing

import places
from entry import ROOT, Failed

SOURCE = ROOT / "crates/wat/src/explanations.rt"
PROGRAM = ROOT / "crates/wat/out/wat"
PAGE = ROOT / "docs/ERRORS.md"
SCRIPT = ROOT / "bindings/js/explanations.js"

HEAD_OF_SCRIPT = """// What errors mean, for `wat.js --explain`. `tools/pages explanations` writes this file from crates/wat/src/explanations.rt.

/** Each error: its number, the words that its messages begin with, what is wrong, a text that has it, and what to do. */
export const ENTRIES = [
"""

HEAD = """# Errors

For users of `wat` and of the libraries: what each error means, a module that has it, and what to
do. `tools/pages` writes this page, and CI runs its examples. `wat --explain` prints an entry, by
its number or by a message:

```
$ wat --explain E13
E13: components are not encoded

The module is a component. Only a tree that a program builds can be one.

Pass a core module.
```

A message begins with the words of its entry. After them it says what was found, and what is
allowed.

## Errors of a module

These have a number, E1 to E13. E1 to E9 are checks of resolving, and the first that fails is
returned. Each has one name in all languages. That of E4 is `Fault::Unknown` of `wast_tree` in
Rattle, `rigyomad::Kind::Unknown` in Rust, `RIGYOMAD_E4_UNKNOWN` in C, and `kind` `"Unknown"` in
Python and JavaScript. [ARCHITECTURE.md](ARCHITECTURE.md), "Where do I look?", has the definition of
each check.
"""

UNSUPPORTED = """
The position is that of the first unsupported token. If it is not found, as in
`(module quote "(func i64.add128)")`, it is the closest one known. The words after `uncovered form:`
are one of these:

| FORM | example |
|---|---|
| `stack switching` | `(module (func cont.new 0))` |
| `compact import group` | `(module (import "a" (item "b" (func))))` |
| `shared type` | `(module (func) (func (local (ref null (shared any)))))` |
| `target architecture` | `(module (@dylink.0 (target-arch "x")))` |
| `memory ordering` | `(module (func) (func atomic.fence acq_rel))` |
| `instruction beyond the table` | `(module (func i64.add128))` |
| `descriptor or exact type` | `(module (func (param (ref (exact 0)))))` |
| `array memory argument` | only in a tree |
| `atomic of a global, table, struct or array` | `(module (func global.atomic.get seq_cst 0))` |
"""

OTHERS = """
## Errors of the text

These have no number, because the text is not a module. For callers the number is 0, and the kind is
`Malformed`. A tab in an example is `<tab>`.

| message | example | what to do |
|---|---|---|
"""


class Entry(typing.NamedTuple):
    """An entry of the table."""

    number: str
    words: str
    cause: str
    example: str
    fix: str


def value(literal):
    """The text of a literal of the sources."""
    if literal.startswith('r#"'):
        return literal[3:-2]
    escapes = {"t": "\t", "n": "\n", "\\": "\\", '"': '"'}
    return re.sub(r"\\(.)", lambda it: escapes[it[1]], literal[1:-1])


def entries():
    """The entries of the table."""
    table = SOURCE.read_text(encoding="utf-8").split("const ENTRIES", 1)[1].split("\n];", 1)[0]
    for entry in table.split("    Entry {")[1:]:
        found = dict(re.findall(r'^        (\w+):\s+(r#".*?"#|"(?:[^"\\]|\\.)*"),$', entry, re.M))
        yield Entry(**{name: value(literal) for name, literal in found.items()})


def diagnostic(text):
    """What the command prints of a text."""
    return subprocess.run([program()], input=text.encode(), stdout=subprocess.PIPE, stderr=subprocess.PIPE, check=False, timeout=60).stderr.decode()


def shown(text):
    """A text in a page. A tab would not be seen."""
    return text.replace("\t", "<tab>")


def example_of(entry):
    """The lines of an example: the text, and what the command prints of it."""
    if not entry.example:
        return ""
    return f"\n```\n{shown(diagnostic(entry.example))}```\n"


def section(entry):
    """The section of an error with a number."""
    more = UNSUPPORTED if entry.number == "E11" else ""
    return f"\n### {entry.number}, `{name_of(entry.number)}`: {entry.words}\n\n{entry.cause}\n{example_of(entry)}{more}\n{entry.fix}\n"


def span(text):
    """A code span, of text that may have backquotes."""
    return f"`` {text} ``" if "`" in text else f"`{text}`"


def row(entry):
    """The row of an error without a number."""
    return f"| {span('error: ' + entry.words)} | {span(shown(entry.example))} | {entry.fix} |\n"


def name_of(number):
    """The name of an error in the enum `Fault`."""
    return re.search(rf"/// {number}: .*\n    (\w+)", (ROOT / "crates/wast_base/src/faults.rt").read_text(encoding="utf-8"))[1]


def program():
    """The command `wat`."""
    if not PROGRAM.is_file():
        raise Failed(f"{PROGRAM} is not found: `rt ci` or `tools/build wat {PROGRAM.parent}` builds it")
    return PROGRAM


def written():
    """The page, and its text."""
    found = list(entries())
    numbered = "".join(section(entry) for entry in found if entry.number)
    others = "".join(row(entry) for entry in found if not entry.number)
    return {PAGE: HEAD + numbered + OTHERS + others}


def script():
    """The script with the entries, and its text."""
    rows = (f"  {json.dumps(entry, ensure_ascii=False)},\n" for entry in entries())
    return {SCRIPT: f"{HEAD_OF_SCRIPT}{''.join(rows)}];\n"}


# What writes the script, for `tools/pages`: it needs no program.
EXPLANATIONS = types.SimpleNamespace(written=script)


def problems():
    """What is wrong with the examples."""
    for entry in entries():
        printed = diagnostic(entry.example) if entry.example else f"error: {entry.words}"
        if not printed.startswith(f"error: {entry.words}"):
            yield f"{entry.number or entry.words}: the example is printed as {printed.splitlines()[:1]}"
        names = [name for name in (entry.number, entry.words) if name]
        explained = [subprocess.run([program(), "--explain", name], stdout=subprocess.PIPE, check=False, timeout=60).stdout.decode() for name in names]
        wanted = f"{entry.number}: {entry.words}\n" if entry.number else f"{entry.words}\n"
        if any(not it.startswith(wanted) or not it.endswith(f"\n{entry.fix}\n") for it in explained):
            yield f"{entry.number or entry.words}: --explain prints {explained}"
    yield from places.problems(program())
