"""Reads scripts of tests with the commands that the archive returns, for `tools/bindings`, `tools/converter` and `tools/test wrong-texts`.

`tools/data/scripts.txt` has them: after a line `====` a script, and after a line `----` what `bindings/c/scripts.c` prints of it, without
offsets of places. The offset of a place is that of its line and column, so `without_offsets` checks it by the text.
"""

import re

import entry

PATH = entry.ROOT / "tools/data/scripts.txt"

# A script with carriage returns, which end no line.
CARRIAGES = (
    '(module)\r(register "m")\r\n \r(module (func $f) (start\r$g))\r\n',
    """1:2 module [1:2 fields 0+8 0061736d01000000]
1:11 register "m"
2:4 module [2:4 fields 27+29 E4 2:28+2 unknown func: failed to find name `$g`]
""",
)

# Scripts with a fault that is found by reading a text again. Once refused memory there gave other faults.
READ_AGAIN = [
    "(module)\n(module (func nop i64.add128))",
    "(module (start $q))(module (func i64.add128))",
    "(module)\n(module definition $M (func i64.add128))",
    '(module)\n(module definition quote "(func i64" ".add128)")',
]


def listed():
    """The scripts, each with the lines that are printed."""
    parts = PATH.read_text(encoding="utf-8").split("====\n")[1:]
    return [*((text.removesuffix("\n"), lines) for text, lines in (part.split("----\n") for part in parts)), CARRIAGES]


def without_offsets(text, lines):
    """What is printed of a text without the offset of each place, if that is the one of its line and column."""
    starts = [0, *(at + 1 for at, byte in enumerate(text.encode()) if byte == ord("\n"))]

    def shown(place):
        line, column, offset = map(int, place.groups())
        is_right = 0 < line <= len(starts) and starts[line - 1] + column - 1 == offset
        return f"{line}:{column}" if is_right else place[0]

    return re.sub(r"\b(\d+):(\d+)@(\d+)", shown, lines)
