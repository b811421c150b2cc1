"""Reads the texts of crates/wat_golden whose answers other tools told, for `tools/pages`, `tools/bindings`, `tools/test doors` and `tools/javascript`.

They are the first lines of its stdin, and their answers are those of its stdout. `tools/pages` keeps them, and writes the lines after them.
"""

import entry

FOLDER = entry.ROOT / "crates/wat_golden"
COUNT = 500


def told():
    """These texts, each with its answer."""
    texts, answers = ((FOLDER / name).read_text(encoding="utf-8").split("\n")[:COUNT] for name in ("stdin", "stdout"))
    return list(zip(texts, answers))
