"""Checks what the docs claim of the repository in figures and in relations, for `tools/check-docs`.

A claim is a pattern in the text of a page, and what it must say. For example, "which has 571 entries" must give the number of rows of
the opcode table, "`wast_resolve_labels` (on `wast_base` alone)" must agree with crates.txt, and "E1 to E13" with the enum `Fault`. A page is
read as one text, so that a claim may go over the end of a line; shell blocks and other code are part of it.
"""

import functools
import re

import sources

ROOT = sources.ROOT

WORDS = ["no", "one", "two", "three", "four", "five", "six", "seven", "eight", "nine", "ten", "eleven", "twelve"]
NUMBER = r"(\d+|" + "|".join(WORDS[1:]) + r")"

# A number that pages use for the crates that callers meet alone.
SEVERAL = r"(five|six|seven|eight|nine|ten)"

# The names of crates in a row: `a`, `b` and `c`.
CRATES = r"((?:`\w+`(?:, | and )?)+)"


def value(word):
    """The number that a word says."""
    return int(word) if word.isdigit() else WORDS.index(word.lower())


def rows_of_table():
    """How many rows the opcode table has: the rows of instructions, those with two indices, and the keys that the table has itself."""
    rows, keys, table = ((ROOT / "crates" / path).read_text(encoding="utf-8") for path in ("wat_grammar/specs/InstrRows.antt", "wasm_ops/specs/Keys.antt", "wasm_ops/specs/Table.antt"))
    own = re.search(r"Written by tools/ops from here\.$(.*?)-- To here", table, re.S | re.M)[1]
    return len(re.findall(r"^row_of_.* = ", rows, re.M)) + len(re.findall(r"^index_pair_key .* = 0x", keys, re.M)) + len(re.findall(r"\b0x", own))


@functools.lru_cache(maxsize=None)
def figures():
    """Patterns of the docs, with the numbers that their groups must say, and the name of what is counted."""
    faces, rows = len(sources.FACES), rows_of_table()
    return [
        (rf"{NUMBER} entries\b(?= is written once)", [rows], "entries of the opcode table"),
        (rf"\btable(?: of instructions)?(?:,\s+which)?\s+has\s+{NUMBER}\s+entries\b", [rows], "entries of the opcode table"),
        (rf"\bcallers meet (?:these )?{NUMBER}\b", [faces], "crates that callers meet"),
        (rf"\b(?:beside|of) the {SEVERAL}\b|\bthe {SEVERAL} crates\b", [faces], "crates that callers meet"),
    ]


@functools.lru_cache(maxsize=None)
def dependencies():
    """Of each crate those of this repository that it depends on, directly and in turn."""
    lines = re.findall(r"^(\w+)[^:\n]*: *(.*)$", (ROOT / "crates.txt").read_text(encoding="utf-8"), re.M)
    direct = {name: [other for other in below.split() if other in sources.crates()] for name, below in lines}
    found = {}
    for name, _ in lines:
        found[name] = set(direct[name]).union(*(found[other] for other in direct[name]))
    return found


def is_told_right(crate, names):
    """Whether a crate depends on these, on all that they depend on, and on nothing else of this repository."""
    below = dependencies()
    known = [name for name in names if name in below]
    return len(known) == len(names) and below[crate] == set(known).union(*(below[name] for name in known))


@functools.lru_cache(maxsize=None)
def fault_numbers():
    """The numbers of the faults, and those of them that have a position, by the texts of `Fault`."""
    text = (ROOT / "crates/wast_base/src/faults.rt").read_text(encoding="utf-8")
    numbers = [int(number) for number in re.findall(r"^    /// E(\d+):", text, re.M)]
    placed = int(re.search(r"an error of E1 to E(\d+), which has a position\.", text).group(1))
    return numbers, placed


# What only one fault can be told by, with its number.
FAULT_WORDS = [
    (r"E(\d+),? (?:where|if) memory was refused", 12),
    (r"E(\d+) \(\"out of memory\"\)", 12),
    (r"memory was refused[^.|(]{0,60}\(E(\d+)\)", 12),
    (r"allocation failed \(E(\d+)\)", 12),
    (r"no encoder\s+covers[^.|(]{0,40}\(E(\d+)\)", 11),
    (r"a component is E(\d+)", 13),
    (r"2\^32[^.|()]{0,60}\(E(\d+)\)", 10),
    (r"too large(?: to be \w+(?: out)?)? \(E(\d+)\)", 10),
    (r"\bE(\d+) `(?:\w+)`", 4),
]


def fault_claims(text):
    """What a page says of faults, each with whether it holds and what is wrong."""
    numbers, placed = fault_numbers()
    ranges = [(numbers[0], numbers[-1]), (numbers[0], placed), (placed + 1, numbers[-1])]
    for match in re.finditer(r"\bE(\d+)\b", text):
        yield match, int(match.group(1)) in numbers, f"{match.group()} is not the number of a fault"
    for match in re.finditer(r"\bE(\d+) to E(\d+)\b", text):
        said = tuple(int(number) for number in match.groups())
        yield match, said in ranges, f"{match.group()} is none of {', '.join('E%d to E%d' % it for it in ranges)}"
    for pattern, number in FAULT_WORDS:
        for match in re.finditer(pattern, text):
            yield match, int(match.group(1)) == number, f"expected E{number}: {' '.join(match.group().split())}"


def relation_claims(text):
    """What a page says of dependencies: "`a` (on `b` and `c`)", "`a` stands on `b` alone", "`a` depends on `b`"."""
    for match in re.finditer(rf"`(\w+)`(?: \(on|\s+stands\s+on|\s+depends\s+on)\s+{CRATES}", text):
        crate, names = match.group(1), re.findall(r"`(\w+)`", match.group(2))
        if crate in sources.crates():
            yield match, is_told_right(crate, names), f"crates.txt differs: {crate} depends on {', '.join(sorted(dependencies()[crate]))}"


def picture_claims(text):
    """A picture of crates in mermaid: each arrow is a dependency, and the arrows lead to all that a crate of the picture depends on."""
    for match in re.finditer(r"^```mermaid\n(.*?)^```", text, re.M | re.S):
        arrows = {}
        for line in match.group(1).splitlines():
            names = [name.strip() for name in line.split("-->")]
            for name, below in zip(names, names[1:]):
                arrows.setdefault(name, set()).add(below)
        known = dependencies()
        drawn = set(arrows).union(*arrows.values())
        for name in sorted(drawn):
            found, left = set(), [name]
            while left:
                for below in arrows.get(left.pop(), set()) - found:
                    found.add(below)
                    left.append(below)
            right = known.get(name, set()) & drawn
            yield match, name in known and found == right, f"crates.txt differs: {name} depends on {', '.join(sorted(right))}, the picture has {', '.join(sorted(found))}"
        for name in sorted(sources.FACES):
            yield match, name in drawn, f"the picture lacks {name}"


def table_claims(text):
    """A table of public crates: each depends on the internal crates in its row, and each public crate has a row."""
    for table in re.finditer(r"^\| public crate \|.*\n\|[-|]+\n((?:\|.*\n)+)", text, re.M):
        rows = [[re.findall(r"`(\w+)`", cell) for cell in line.split("|")[1:3]] for line in table.group(1).splitlines()]
        yield table, sorted(name for crate, _ in rows for name in crate) == sorted(sources.FACES), "the table has other public crates"
        for crate, internal in rows:
            for name in internal:
                if name in sources.crates():
                    yield table, name in dependencies()[crate[0]], f"crates.txt differs: {crate[0]} does not depend on {name}"


def figure_claims(text):
    """What a page says in figures."""
    return compared(text, figures())


def compared(text, figures):
    """What a page says in these figures, each with whether it is what was counted."""
    for pattern, numbers, name in figures:
        for match in re.finditer(pattern, text, re.I):
            said = [value(word) for word in match.groups() if word]
            yield match, said == numbers, f"{name}: {', '.join(map(str, said))} told, {', '.join(map(str, numbers))} counted"


def claims(text):
    """Each claim of a page: the number of its line, whether it holds, and what is wrong."""
    for found in (figure_claims, relation_claims, picture_claims, table_claims, fault_claims):
        for match, holds, problem in found(text):
            yield text.count("\n", 0, match.start()) + 1, holds, problem
