"""Makes symbols of an object file local, for `tools/build`: what a linker with an option for it, as `llvm-objcopy`, would do."""

import struct

# The parts of an ELF file of 64 bits with the lowest byte first (System V ABI, object files): a section header and a symbol.
SECTION = struct.Struct("<IIQQQQIIQQ")
SYMBOL = struct.Struct("<IBBHQQ")

# The types of sections that name symbols by their numbers. In an entry that relocates, the number is bytes 12 to 15.
TABLE, NUMBERS, GROUP = 2, 18, 17
ENTRIES = {4: 24, 9: 16}


class Unreadable(Exception):
    """The file has a section that this module does not read."""


def name_at(data, strings, place):
    """The name at a place of a table of strings."""
    start = strings[4] + place
    return data[start : data.index(b"\0", start)].decode()


def is_global(data, strings, symbol, prefix):
    """Whether a symbol stays global: one that is not defined here, or whose name begins with the prefix."""
    name, info, _, section, _, _ = symbol
    return info >> 4 != 0 and (section == 0 or name_at(data, strings, name).startswith(prefix))


def localize(path, prefix):
    """Makes all symbols that an object file defines local, but those with this prefix. Local symbols come first, so numbers change."""
    data = bytearray(path.read_bytes())
    (start,), (count,) = struct.unpack_from("<Q", data, 0x28), struct.unpack_from("<H", data, 0x3C)
    sections = [SECTION.unpack_from(data, start + SECTION.size * number) for number in range(count)]
    (table,) = [number for number, section in enumerate(sections) if section[1] == TABLE]
    place, size, strings = sections[table][4], sections[table][5], sections[sections[table][6]]
    symbols = [SYMBOL.unpack_from(data, place + at) for at in range(0, size, SYMBOL.size)]
    stays = [is_global(data, strings, symbol, prefix) for symbol in symbols]
    order = sorted(range(len(symbols)), key=stays.__getitem__)
    numbers = {old: new for new, old in enumerate(order)}
    for new, old in enumerate(order):
        name, info, *rest = symbols[old]
        SYMBOL.pack_into(data, place + SYMBOL.size * new, name, info if stays[old] else info & 15, *rest)
    struct.pack_into("<I", data, start + SECTION.size * table + 44, stays.count(False))
    for number, (_, kind, _, _, place, size, link, info, _, _) in enumerate(sections):
        if kind == NUMBERS:
            raise Unreadable(f"{path}: more than 65,000 sections")
        if kind == GROUP:
            struct.pack_into("<I", data, start + SECTION.size * number + 44, numbers[info])
        if kind in ENTRIES and link == table:
            for at in range(place + 12, place + size, ENTRIES[kind]):
                struct.pack_into("<I", data, at, numbers[struct.unpack_from("<I", data, at)[0]])
    path.write_bytes(data)
