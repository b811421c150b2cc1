"""Reads scripts of tests (`.wast`): their commands as objects of JSON, with the bytes of their modules.

    >>> from rigyomad import scripts
    >>> scripts.commands('(assert_return (invoke "f" (i32.const 1)) (i32.const -1))')[0]["expected"]
    [{'type': 'i32', 'value': '4294967295'}]

The objects are those that `wast2json` writes, with these differences:

- `module` has the bytes of a module in place of `filename`, and is None if the module has none; then `error` says why.
- `quoted` has the text of a quoted module, and `source` the text of any module in the script.
- `line` and `column` are those of the command. An action has its own.
- `expected` is only that of `assert_return`, and has each `either` as a value that has `values`.
- A reference to a function by its index or its id, which `wast2json` does not read, has the value `{"index": 5}` or `{"id": "$f"}`.
"""

import ctypes
import struct
from typing import Any, Dict, List, Optional

import rigyomad
from rigyomad import _archive

__all__ = ["Script", "commands"]

# The types of commands, by their numbers.
_TYPES = (
    "module",
    "module",
    "instance",
    "register",
    "action",
    "assert_return",
    "assert_trap",
    "assert_exhaustion",
    "assert_exception",
    "assert_suspension",
    "assert_malformed",
    "assert_malformed_custom",
    "assert_invalid",
    "assert_invalid_custom",
    "assert_unlinkable",
    "thread",
    "end",
    "wait",
)
_MODULE, _DEFINITION, _INSTANCE, _REGISTER, _TRAP, _THREAD, _END, _WAIT = 0, 1, 2, 3, 6, 15, 16, 17

# The types of values, by their numbers.
_VALUES = ("i32", "i64", "f32", "f64", "v128", "ref.null", "externref", "anyref", "funcref", "ref", "either")
_V128, _NULL, _FUNC, _REF, _EITHER = 4, 5, 8, 9, 10

# The lanes of shapes, and NaNs, by their numbers.
_LANES = ("i8", "i16", "i32", "i64", "f32", "f64")
_NUMBERS = ("", "nan:canonical", "nan:arithmetic")

# The types of references, by the numbers of their heap types.
_REFERENCES = (
    "funcref",
    "externref",
    "exnref",
    "nullexnref",
    "anyref",
    "eqref",
    "structref",
    "arrayref",
    "nullfuncref",
    "nullexternref",
    "nullref",
    "i31ref",
    "contref",
    "nullcontref",
)

# What is written for the start of a string, or the number of a record, that is absent.
_NONE = 2**64 - 1

# The words of each record, and where the header has the offset of its table.
_COMMAND, _MODULES, _ACTION, _VALUE, _LANE, _STRINGS = (14, 1), (20, 3), (10, 5), (4, 7), (2, 9), 11

# What the records begin with: the number of their layout.
_LAYOUT = struct.pack("<Q", 2)


def _error(text: rigyomad.Text, given: bytes, status: int, at: _archive.Diagnosis, message: str) -> rigyomad.WatError:
    """The error of a script, as that of a module. Bytes that are not UTF-8 have no line in the diagnosis."""
    end = at.end_offset if status == _archive.FAULT else at.offset + 1
    return rigyomad._error_at(text, given, at.offset, end, at.number, message)


def _records(text: rigyomad.Text, given: bytes) -> bytes:
    """The records of a script. Raises WatError if there are none."""
    call = _archive._LIBRARY.rigyomad_c_script
    call.restype = ctypes.c_uint32
    room, most, at = 8 * len(given) + 4096, 256, _archive.Diagnosis()
    while True:
        out, size, message = ctypes.create_string_buffer(room), ctypes.c_size_t(), ctypes.create_string_buffer(most)
        sizes = ctypes.c_size_t(len(given)), ctypes.c_size_t(room), ctypes.c_size_t(most)
        status = call(given, sizes[0], out, sizes[1], ctypes.byref(size), message, sizes[2], ctypes.byref(at))
        if status != _archive.SHORT and at.size <= most:
            break
        room, most = max(room, size.value), max(most, at.size)
    if status == _archive.MEMORY:
        raise rigyomad.WatError(12, "allocation failed")
    if status != _archive.DONE:
        raise _error(text, given, status, at, rigyomad._decoded(message.raw[: at.size]))
    records = ctypes.string_at(out, size.value)
    if records[:8] != _LAYOUT:
        raise ImportError("the archive writes another layout of records")
    return records


class Script:
    """A script that was read: its records. `commands` returns them as objects."""

    def __init__(self, text: rigyomad.Text) -> None:
        """Reads a script. Raises WatError if the text is none."""
        given = rigyomad._given(text)
        self._given, self._text, self._bytes = text, given, _records(text, given)
        self._header = struct.unpack_from("<13Q", self._bytes)

    def _record(self, table: Any, number: int) -> Any:
        words, place = table
        return struct.unpack_from(f"<{words}Q", self._bytes, self._header[place] + 8 * words * number)

    def _part(self, start: int, size: int) -> Optional[bytes]:
        return None if start == _NONE else self._string(start, size)

    def _string(self, start: int, size: int) -> bytes:
        first = self._header[_STRINGS] + start
        return self._bytes[first : first + size]

    def _id(self, start: int, size: int) -> Optional[str]:
        name = self._part(start, size)
        return None if name is None else f"${name.decode()}"

    def _value(self, number: int) -> Dict[str, Any]:
        kind, form, first, second = self._record(_VALUE, number)
        if kind < 4:
            return {"type": _VALUES[kind], "value": _NUMBERS[form] or str(first)}
        if kind == _V128:
            lanes = [self._record(_LANE, lane) for lane in range(first, first + second)]
            return {"type": "v128", "lane_type": _LANES[form], "value": [_NUMBERS[nan] or str(bits) for nan, bits in lanes]}
        if kind == _NULL:
            return {"type": _REFERENCES[first] if form in (1, 2) else "ref", "value": "null"} if form else {"type": "refnull"}
        if kind == _REF:
            return {"type": _REFERENCES[first]}
        if kind == _FUNC:
            return {"type": _VALUES[kind], "value": {"index": first} if form == 3 else {"id": self._id(first, second)} if form == 4 else "0"}
        return {"type": _VALUES[kind], "value": str(first)} if form == 3 else {"type": _VALUES[kind]}

    def _values(self, first: int, count: int) -> List[Dict[str, Any]]:
        """The values of a part. The alternatives of `either` are the values after it."""
        found, number = [], first
        while number < first + count:
            kind, _, alternatives, _ = self._record(_VALUE, number)
            number += 1
            if kind == _EITHER:
                found.append({"type": "either", "values": [self._value(number + it) for it in range(alternatives)]})
                number += alternatives
            else:
                found.append(self._value(number - 1))
        return found

    def _action(self, number: int) -> Dict[str, Any]:
        kind, _, line, column, module, size, name, length, first, count = self._record(_ACTION, number)
        action: Dict[str, Any] = {"type": "get" if kind else "invoke", "line": line, "column": column}
        if module != _NONE:
            action["module"] = self._id(module, size)
        action["field"] = self._string(name, length).decode()
        if not kind:
            action["args"] = self._values(first, count)
        return action

    def _module(self, number: int) -> Dict[str, Any]:
        form, _, _, _, name, size, start, length, quoted, quoted_size, status, *rest = self._record(_MODULES, number)
        first, count, error, offset, error_line, _, end, message, message_size = rest
        module: Dict[str, Any] = {"source": self._text[start : start + length].decode()}
        if name != _NONE:
            module["name"] = self._id(name, size)
        if form == 2:
            module["quoted"] = self._part(quoted, quoted_size)
        module["module"] = self._part(first, count)
        if status:
            said = rigyomad._decoded(self._string(message, message_size))
            is_placed = error_line != 0
            module["error"] = rigyomad._error_at(self._given, self._text, offset, end, error, said) if is_placed else rigyomad.WatError(error, said)
        return module

    def _command(self, number: int) -> Any:
        """The number of a command's type, and the object."""
        kind, _, line, column, own, own_size, of, of_size, text, text_size, module, action, first, count = self._record(_COMMAND, number)
        found: Dict[str, Any] = {"type": _TYPES[kind], "line": line, "column": column}
        own_id, of_id = self._id(own, own_size), self._id(of, of_size)
        if module != _NONE:
            found.update(self._module(module))
            if kind not in (_MODULE, _DEFINITION):
                found["module_type"] = "text" if "quoted" in found else "binary"
        if action != _NONE:
            found["action"] = self._action(action)
        if kind == _DEFINITION:
            found["definition"] = "true"
        if kind == _TRAP and module != _NONE:
            found["type"] = "assert_uninstantiable"
        if kind == 5:
            found["expected"] = self._values(first, count)
        if text != _NONE:
            found["as" if kind == _REGISTER else "text"] = self._string(text, text_size).decode()
        keys = {_INSTANCE: ("instance", "definition"), _REGISTER: ("", "name"), _THREAD: ("name", "shared_module"), _WAIT: ("thread", "")}
        for key, value in zip(keys.get(kind, ("", "")), (own_id, of_id)):
            if key and value is not None:
                found[key] = value
        return kind, found

    def commands(self) -> List[Dict[str, Any]]:
        """Returns the commands. Those of a thread are its `commands`."""
        lists: List[List[Dict[str, Any]]] = [[]]
        for number in range(self._header[2]):
            kind, found = self._command(number)
            if kind == _END:
                lists.pop()
                continue
            lists[-1].append(found)
            if kind == _THREAD:
                found["commands"] = []
                lists.append(found["commands"])
        return lists[0]


def commands(text: rigyomad.Text) -> List[Dict[str, Any]]:
    """Returns the commands of a script. Raises WatError if the text is none."""
    return Script(text).commands()
