"""Turns modules in the text format of WebAssembly into the bytes of the binary format.

    >>> import rigyomad
    >>> rigyomad.parse("(module)")
    b'\\x00asm\\x01\\x00\\x00\\x00'
    >>> rigyomad.parse("(module (start $f))")
    Traceback (most recent call last):
    rigyomad.WatError: 1:16: unknown func: failed to find name `$f`
    >>> rigyomad.names("(module (func) (func $f))")
    [Name(space='func', index=1, name='f', offset=21)]

The encoder is a shared library whose code is proved against contracts. No call keeps state, so threads may call at any time; a call
lets other threads run.
"""

import re
from typing import List, NamedTuple, Union

from rigyomad import _archive, _binary

__all__ = ["KINDS", "SPACES", "Name", "NameWithin", "Text", "WatError", "names", "names_within", "parse", "version"]

#: A module in the text format. Bytes are UTF-8. Offsets and columns count characters of a string, and bytes otherwise.
Text = Union[str, bytes, bytearray, memoryview]

#: The kinds of errors, by their numbers (docs/ERRORS.md of Rigyomad).
KINDS = (
    "Malformed",
    "ImportAfter",
    "Duplicate",
    "DuplicateField",
    "Unknown",
    "NotFunc",
    "OutOfBounds",
    "NoMatch",
    "Labels",
    "NoNamedFields",
    "TooLarge",
    "Uncovered",
    "Memory",
    "Component",
)

#: The index spaces, by their numbers.
SPACES = ("func", "table", "memory", "global", "tag", "elem", "data", "type")

# What binary modules begin with.
_MAGIC = b"\0asm"

# At most so many characters of a line are shown on each side of an error.
_HALF_LINE = 60

# What could send a command to a terminal, begin a line of a log, or change the order of a line.
_CONTROLS = re.compile("[\0-\x1f\x7f-\x9f\u061c\u200e\u200f\u2028-\u202e\u2066-\u2069]")


def _escaped(message: str) -> str:
    """A message as the command `wat` prints it: a line feed as `\\n`, and an escape character as `\\u{1b}`."""
    letters = {"\t": "\\t", "\n": "\\n", "\r": "\\r"}
    return _CONTROLS.sub(lambda it: letters.get(it[0], f"\\u{{{ord(it[0]):x}}}"), message)


def _snippet(before: str, after: str, line: int, column: int) -> str:
    """The line of an error and a caret below it, as the command `wat` prints them: with escapes, but tabs as they are."""
    left, right = ("\t".join(map(_escaped, part.split("\t"))) for part in (before[-_HALF_LINE:], after[:_HALF_LINE]))
    head = ("..." if len(before) > _HALF_LINE else "") + left
    tail = right + ("..." if len(after) > _HALF_LINE else "")
    margin, blanks = " " * len(str(line)), re.sub(r"[^\t]", " ", head)
    return f"{margin}--> {line}:{column}\n{margin} |\n{line} | {head}{tail}\n{margin} | {blanks}^"


class WatError(ValueError):
    """Why a text has no bytes. It is printed in one line, with control characters as escapes."""

    #: 1 to 13 for E1 to E13; 0 if the text is not a module.
    number: int
    #: What the number says, as `KINDS` has it.
    kind: str
    #: What is wrong, without the position. A name in it is as in the text, without escapes.
    message: str
    #: From 1; 0 if the error has no position, as E10 and E12.
    line: int
    #: From 1; 0 if the error has no position.
    column: int
    #: Where the error is in the text; 0 if the error has no position.
    start: int
    #: Where the token at `start` ends.
    end: int
    #: The position, the line and a caret below it, as the command `wat` prints them; empty if the error has no position.
    snippet: str

    def __init__(self, number: int, message: str, line: int = 0, column: int = 0, start: int = 0, end: int = 0, snippet: str = "") -> None:
        super().__init__(number, message, line, column, start, end, snippet)
        self.number, self.kind, self.message = number, KINDS[number], message
        self.line, self.column, self.start, self.end, self.snippet = line, column, start, end, snippet

    def __str__(self) -> str:
        return f"{self.line}:{self.column}: {_escaped(self.message)}" if self.line else _escaped(self.message)


class Name(NamedTuple):
    """A name of a text, and what it denotes."""

    #: One of `SPACES`.
    space: str
    index: int  # type: ignore[assignment]
    #: Without the `$` of its id, and without escapes.
    name: str
    #: Where its id begins in the text.
    offset: int


class NameWithin(NamedTuple):
    """A name within a function or a type."""

    #: `local`, `label` or `field`.
    kind: str
    #: The index of the function, or of the type of a field.
    owner: int
    #: The index within the owner: that of a local or a field, or of a block in the order of the text.
    index: int  # type: ignore[assignment]
    #: Without the `$` of its id, and without escapes.
    name: str


def _decoded(part: bytes) -> str:
    return part.decode(errors="replace")


def _error_at(text: Text, given: bytes, offset: int, end: int, number: int, message: str) -> WatError:
    """An error at a range of the bytes of a text. Lines end at a line feed."""
    first = given.rfind(b"\n", 0, offset) + 1
    end = max(offset, end)
    line, before = given.count(b"\n", 0, offset) + 1, _decoded(given[first:offset])
    feed = given.find(b"\n", offset)
    rest = given[offset : len(given) if feed < 0 else feed].removesuffix(b"\r")
    snippet = _snippet(before, _decoded(rest), line, len(before) + 1)
    if not isinstance(text, str):
        return WatError(number, message, line, offset - first + 1, offset, end, snippet)
    start = len(_decoded(given[:offset]))
    return WatError(number, message, line, len(before) + 1, start, start + len(_decoded(given[offset:end])), snippet)


def _given(text: Text) -> bytes:
    """The bytes of a text. A lone surrogate has none."""
    if not isinstance(text, str):
        return memoryview(text).tobytes()
    try:
        return text.encode()
    except UnicodeEncodeError as error:
        offset = len(text[: error.start].encode())
        raise _error_at(text, text.encode(errors="replace"), offset, offset + 1, 0, "lone surrogate in a string") from None


def _error(text: Text, given: bytes, status: int) -> Exception:
    """Why a text has no bytes, by the status of a call."""
    found = _archive.fault(given) if status in (_archive.FAULT, _archive.UTF8) else None
    if found is None:
        return WatError(12, "allocation failed")
    at, message = found
    if status == _archive.UTF8:  # the byte at the offset begins no character
        return _error_at(text, given, at.offset, at.offset + 1, at.number, _decoded(message))
    if at.line:
        return _error_at(text, given, at.offset, at.end_offset, at.number, _decoded(message))
    return WatError(at.number, _decoded(message))


def parse(text: Text) -> bytes:
    """Returns the bytes of the module of a text. Bytes that begin with `\\0asm` are a binary module already, and are returned as they are.

    Raises WatError if the text has none.
    """
    given = _given(text)
    if not isinstance(text, str) and given.startswith(_MAGIC):
        return given
    status, module = _archive.encode(given)
    if status != _archive.DONE:
        raise _error(text, given, status)
    return module


def names(text: Text) -> List[Name]:
    """Returns the names that items of a text have, by index space and index. Raises WatError if they do not resolve."""
    given = _given(text)
    status, found = _archive.names(given)
    if status != _archive.DONE:
        raise _error(text, given, status)
    is_same = not isinstance(text, str) or len(text) == len(given)
    characters = {}  # how many characters are before an offset
    at = count = 0
    for offset in sorted(offset for _, _, offset, _ in found) if not is_same else ():
        count, at = count + len(_decoded(given[at:offset])), offset
        characters[offset] = count
    return [Name(SPACES[space], index, name.decode(), characters.get(offset, offset)) for space, index, offset, name in found]


def names_within(text: Text) -> List[NameWithin]:
    """Returns the names of locals, labels and fields that the name section of the module of a text has: by kind, then by owner, then by
    index. If the text has a custom section `name` of its own, they are those in it, and none if it is not well formed.

    Raises WatError as `parse`.
    """
    return [NameWithin(*name) for name in _binary.names_within(parse(text))]


def version() -> str:
    """Returns the version of the archive: `0.1.0`, or for example `0.1.0 (UNPROVED)` if it was built without proofs."""
    return _archive.version()
