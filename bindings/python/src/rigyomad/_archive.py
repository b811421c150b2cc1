"""The calls of the archive, by the declarations of rigyomad.h."""

import ctypes
import pathlib
from typing import List, Optional, Tuple

# RIGYOMAD_VERSION
_DECLARATIONS = 2

# enum rigyomad_status
DONE, SHORT, FAULT, UTF8, MEMORY = 0, 1, 2, 3, 4


class Diagnosis(ctypes.Structure):
    """struct rigyomad_diagnosis"""

    number: int
    offset: int
    line: int
    column: int
    size: int
    end_offset: int
    _fields_ = [
        ("number", ctypes.c_uint32),
        ("offset", ctypes.c_size_t),
        ("line", ctypes.c_size_t),
        ("column", ctypes.c_size_t),
        ("size", ctypes.c_size_t),
        ("end_offset", ctypes.c_size_t),
    ]


class _Name(ctypes.Structure):
    """struct rigyomad_name"""

    _fields_ = [
        ("space", ctypes.c_uint32),
        ("number", ctypes.c_uint32),
        ("offset", ctypes.c_size_t),
        ("start", ctypes.c_size_t),
        ("size", ctypes.c_size_t),
    ]


class _Room(ctypes.Structure):
    """struct rigyomad_names_room"""

    _fields_ = [("names", ctypes.c_size_t), ("bytes", ctypes.c_size_t)]


def _loaded(path: pathlib.Path) -> ctypes.CDLL:
    """The library, with the declarations of its calls, each of which returns a number of 32 bits."""
    library = ctypes.CDLL(str(path))
    text, out = [ctypes.c_char_p, ctypes.c_size_t], [ctypes.c_void_p, ctypes.c_size_t]
    for call, arguments in [
        ("version", []),
        ("encode", [*text, *out, ctypes.POINTER(ctypes.c_size_t)]),
        ("fault", [*text, *out, ctypes.POINTER(Diagnosis)]),
        ("names", [*text, *out, *out, ctypes.POINTER(_Room)]),
    ]:
        function = getattr(library, f"rigyomad_c_{call}")
        function.argtypes, function.restype = arguments, ctypes.c_uint32
    if library.rigyomad_c_version() != _DECLARATIONS:
        raise ImportError(f"{path} has other declarations than number {_DECLARATIONS}")
    return library


_LIBRARY = _loaded(pathlib.Path(__file__).with_name("librigyomad.so"))


def encode(text: bytes) -> Tuple[int, bytes]:
    """The status, and the bytes of the module of a text."""
    room = len(text) + 64
    while True:
        out, size = ctypes.create_string_buffer(room), ctypes.c_size_t()
        status = _LIBRARY.rigyomad_c_encode(text, len(text), out, room, ctypes.byref(size))
        if status != SHORT:
            return status, ctypes.string_at(out, size.value)
        room = size.value


def fault(text: bytes) -> Optional[Tuple[Diagnosis, bytes]]:
    """The position and the message of the error of a text; None if allocation failed."""
    room = 256
    while True:
        out, at = ctypes.create_string_buffer(room), Diagnosis()
        if _LIBRARY.rigyomad_c_fault(text, len(text), out, room, ctypes.byref(at)) not in (FAULT, UTF8):
            return None
        if at.size <= room:
            return at, ctypes.string_at(out, at.size)
        room = at.size


def names(text: bytes) -> Tuple[int, List[Tuple[int, int, int, bytes]]]:
    """The status, and the names of a text: index space, index, offset and name."""
    # no text has more names, or more bytes of them
    most, size = len(text) // 8, len(text)
    records, letters, room = (_Name * most)(), ctypes.create_string_buffer(size + 1), _Room()
    status = _LIBRARY.rigyomad_c_names(text, size, records, most, letters, size, ctypes.byref(room))
    found = records[: room.names] if status == DONE else []
    at = ctypes.addressof(letters)
    return status, [(it.space, it.number, it.offset, ctypes.string_at(at + it.start, it.size)) for it in found]


def version() -> str:
    """The version of the archive."""
    return ctypes.string_at(ctypes.addressof(ctypes.c_char.in_dll(_LIBRARY, "rigyomad_c_version_text"))).decode()
