"""The names in the name section of a binary module (binary format: modules, name section)."""

from typing import Iterator, List, Optional, Tuple

# How many bytes the magic number and the version have.
_HEADER = 8

# The id of a custom section.
_CUSTOM = 0

# What has a name within a function or a type, by the part of the name section that has it.
_WITHIN = {2: "local", 3: "label", 10: "field"}

# A name: what has it, the index of its owner, its own, and the name.
_Name = Tuple[str, int, int, str]


class _Malformed(Exception):
    """The bytes are not what is read."""


class _Reader:
    """Bytes that are read one after another."""

    def __init__(self, data: bytes) -> None:
        self.data, self.at = data, 0

    def byte(self) -> int:
        if self.at >= len(self.data):
            raise _Malformed
        self.at += 1
        return self.data[self.at - 1]

    def number(self) -> int:
        """A number of 32 bits in LEB128, which has at most five bytes."""
        value = 0
        for shift in (0, 7, 14, 21, 28):
            byte = self.byte()
            value |= (byte & 0x7F) << shift
            if byte < 0x80:
                return value
        raise _Malformed

    def part(self) -> bytes:
        """The bytes after their size."""
        size = self.number()
        start, self.at = self.at, self.at + size
        if self.at > len(self.data):
            raise _Malformed
        return self.data[start : self.at]

    def sections(self) -> Iterator[Tuple[int, "_Reader"]]:
        """The sections, or the parts of a name section: each with its id and its contents."""
        while self.at < len(self.data):
            section = self.byte()
            yield section, _Reader(self.part())


def _name_section(module: bytes) -> Optional[_Reader]:
    for section, contents in _Reader(module[_HEADER:]).sections():
        if section == _CUSTOM and contents.part() == b"name":
            return contents
    return None


def _names_of(kind: str, part: _Reader) -> Iterator[_Name]:
    for _ in range(part.number()):
        owner = part.number()
        for _ in range(part.number()):
            yield kind, owner, part.number(), part.part().decode(errors="replace")


def names_within(module: bytes) -> List[_Name]:
    """The names of locals, labels and fields in the name section of a module; none if it is not well formed."""
    try:
        section = _name_section(module)
        parts = section.sections() if section else ()
        return [name for part, contents in parts if part in _WITHIN for name in _names_of(_WITHIN[part], contents)]
    except _Malformed:
        return []
