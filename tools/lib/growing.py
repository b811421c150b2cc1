"""Counts the places that name a variant of the tree, which one more of its kind touches, for `tools/show growing`.

A variant is of an instruction, a field, a type (`V128`, or `HeapType::Exact` where several enums have the variant), a fault (`E11`) or a word of the
text format. Each line of code, of definitions and of proofs that names it is printed, and a count for each crate and in all. For a fault
bindings/ counts too, and for a word `tools/data/instructions.txt`. Worked examples, samples and tests do not count, because nothing depends on
them.
"""

import functools
import re

import entry
import definitions
import sources

ROOT = entry.ROOT

# How a variant is named in code, in definitions and in the names of answers.
PATTERNS = {
    "instruction": [r"\bInstruction::{0}\b", r"\binstr\.{0}\b", r"\binstruction\.{0}\b", r"\breturns(?:-\w+)*-in-{0}\b", r"^    {0}\("],
    "field": [r"\bModuleField::{0}\b", r"\bfield\.{0}\b", r"\breturns(?:-\w+)*-in(?:-\w+)?-{0} :", r"^    {0}\({0}<"],
}

# Crates and files in which worked modules, samples and tests stand.
ASIDE = re.compile(r"_tests$|_samples$|_rows$|^wastrow$|^wast_core_example$")
WORKED = re.compile(r"Worked|Examples|examples|tests|/Private/")

# The folders of a crate: its code, its definitions and its proofs.
PARTS = ("src", "specs", "proofs")

# The types of the tree, and those of the binary format.
TYPES = {
    "wast_tree_nodes": ("ValType", "HeapType", "AbstractHeapType", "StorageType", "InnerTypeKind"),
    "wasm_ops": ("ValType", "HeapType", "AbstractHeapType", "StorageType", "CompositeInnerType"),
}

# One of each kind.
EXAMPLES = [("instruction", "ref_func"), ("field", "Tag"), ("type", "V128"), ("fault", "E8"), ("text", "pagesize")]


class Unknown(Exception):
    """Nothing has this name."""


def sources_of(folder):
    """The files of a folder that count."""
    for path in sorted(folder.rglob("*")):
        if path.suffix in (".rt", ".antt", ".rs", ".h") and not WORKED.search(str(path.relative_to(ROOT))):
            yield path


def lines_that(path, is_named):
    """The lines of a file that name something, without those that bring names and without comments."""
    for number, line in enumerate(sources.lines_of(path), 1):
        if not line.startswith(("use ", "ghost use ", "--", "///")) and is_named(number, line):
            yield path.relative_to(ROOT), number, line.strip()


@functools.lru_cache(maxsize=None)
def places(kind, name):
    """The lines that name the variant, by crate."""
    naming, aside = namings(kind, name)
    found = {}
    for crate in sorted((ROOT / "crates").iterdir()):
        for part in PARTS if not ASIDE.search(crate.name) else ():
            for path in sources_of(crate / part):
                found.setdefault(crate.name, []).extend(lines_that(path, naming(crate.name, path)))
    for path, patterns in aside:
        found.setdefault(path.relative_to(ROOT).parts[0], []).extend(lines_that(path, by_patterns(patterns)))
    return {crate: lines for crate, lines in found.items() if lines}


def by_patterns(patterns):
    """Whether a line has one of these."""
    patterns = [re.compile(pattern) for pattern in patterns]
    return lambda number, line: any(pattern.search(line) for pattern in patterns)


def namings(kind, name):
    """How a variant is named: a function that gives the test of a file, and files outside of crates/, each with its patterns."""
    if kind in PATTERNS:
        return lambda crate, path: by_patterns([pattern.format(name) for pattern in PATTERNS[kind]]), []
    if kind == "type":
        (enums, variant), aside = type_variants(name), []
    elif kind == "fault":
        enums, variant, aside = fault_variant(name)
    else:
        enums, variant, aside = word_variant(name)
    declared = {(item.path, part.line) for _, item in enum_items(enums) for part in item.members if part.name == variant}
    return lambda crate, path: by_enums(crate, path, enums, variant, declared), aside


def enum_items(enums):
    """The enums of these names that have the variant, by crate and name."""
    for crate, item in sources.all_items():
        if item.kind == "enum" and (crate, item.name) in enums:
            yield crate, item


def type_variants(name):
    """The enums of types that have a variant, and the variant."""
    of, _, variant = name.rpartition("::")
    enums = {(crate, enum) for crate, names in TYPES.items() for enum in names if of in ("", enum)}
    having = {(crate, item.name) for crate, item in enum_items(enums) if any(part.name == variant for part in item.members)}
    if not having:
        raise Unknown(f"no type: {name}")
    return having, variant


def fault_variant(name):
    """The enum of faults, the variant that has the number, and where bindings name it."""
    text = "\n".join(sources.lines_of(ROOT / "crates/wast_base/src/faults.rt"))
    match = re.search(rf"/// {re.escape(name)}: .*\n    (\w+)", text)
    if match is None:
        raise Unknown(f"no fault: {name}")
    patterns = [rf"\bKind::{match[1]}\b", rf"\b{match[1]} = {name[1:]},", rf"\bRIGYOMAD_{name}_"]
    aside = [(path, patterns) for path in sources_of(ROOT / "bindings")]
    return {("wast_base", "Fault"), ("wast_base", "Cause")}, match[1], aside


def word_variant(name):
    """The enum of words that has a word, its variant, and where the table of `tools/ops` has it."""
    rows = [("crates/wat_tokens/specs/Words.antt", r'\(codes "{}", .*?(\w+)\.(\w+)[ )\d]*$'), ("crates/wat_grammar/specs/InstrRows.antt", r'(\w+)\.(\w+)\)? = \(codes "{}", ')]
    found = [(ROOT / path, re.search(row.format(re.escape(name)), "\n".join(sources.lines_of(ROOT / path)), re.M)) for path, row in rows]
    table, match = next(((table, match) for table, match in found if match), (None, None))
    if match is None:
        raise Unknown(f"no word: {name}")
    enums = {(crate, scope_of(table).modules[match[1]][-2]) for crate in ("wat_tokens", "wast_base")}
    return {(crate, item.name) for crate, item in enum_items(enums)}, match[2], [(ROOT / "tools/data/instructions.txt", [rf"(?<![\w.#]){re.escape(name)}(?![\w.])"])]


@functools.lru_cache(maxsize=None)
def scope_of(path):
    """What the `use` lines of a file bring."""
    scope = definitions.Scope()
    for line in sources.lines_of(path):
        match = re.match(r" *(?:pub |unfoldable )*(?:ghost )?use (Rattle\.[^;]*);?$", line)
        if match:
            scope.bring(match[1])
    return scope


def by_enums(crate, path, enums, variant, declared):
    """The test of a file: a line names the variant of one of these enums, or declares it."""
    scope = scope_of(path)
    patterns = [rf"\b{enum}::{variant}\b" for _, enum in enums]
    patterns += [rf"\b{word}\.{variant}\b" for word, steps in scope.modules.items() if is_module_of(steps, enums)]
    if is_constructor(scope.items.get(variant), enums) or is_own_constructor(crate, path, enums, variant):
        patterns.append(rf"(?<![\w.]){variant}(?!\w)")
    test = by_patterns(patterns)
    return lambda number, line: (path, number) in declared or test(number, line)


def is_module_of(steps, enums):
    """Whether a path leads to the variants of one of these enums."""
    try:
        module = definitions.follow_module(steps)
    except definitions.Missing:
        return False
    return isinstance(module, definitions.Declared) and module.parts[-1] == "TheVariants" and (module.crate, module.parts[-2]) in enums


def is_constructor(steps, enums):
    """Whether a path leads to a variant or a constructor of one of these."""
    try:
        target = definitions.follow(steps) if steps else None
    except definitions.Missing:
        return False
    return isinstance(target, (definitions.CodeItem, definitions.Definition)) and (target.crate, target.name) in enums


def is_own_constructor(crate, path, enums, variant):
    """Whether a file of definitions has the data type of that constructor itself."""
    folder = ROOT / "crates" / crate / "specs"
    if not path.is_relative_to(folder):
        return False
    made = definitions.spec_module(crate, path.relative_to(folder).with_suffix("").parts).made
    return variant in made and (crate, made[variant].name) in enums


def part_of(path):
    """The part of a crate that a file is in; else the folder at the root."""
    return path.parts[2] if path.parts[0] == "crates" else path.parts[0]


def count(found, part=None):
    """How many lines there are, or how many of one part of the crates."""
    return sum(1 for lines in found.values() for path, _, _ in lines if part in (None, part_of(path)))


def files(found):
    """How many files the lines are in."""
    return len({path for lines in found.values() for path, _, _ in lines})


def tell(kind, name):
    found = places(kind, name)
    if not count(found):
        raise Unknown(f"no line names {kind} {name}")
    print(f"{kind} {name}")
    for crate, lines in found.items():
        for path, number, line in lines:
            print(f"  {path}:{number}: {line[:110]}")
    print("  by crate: " + ", ".join(f"{crate} {len(lines)}" for crate, lines in found.items()))
    for part in (*PARTS, "bindings", "tools"):
        if part in PARTS or count(found, part):
            print(f"  {part}: {count(found, part)}")
    print(f"  in all: {count(found)}, in {files(found)} files")


def main(arguments):
    try:
        if not arguments:
            for kind, name in EXAMPLES:
                tell(kind, name)
        elif len(arguments) == 2 and arguments[0] in {kind for kind, _ in EXAMPLES}:
            tell(*arguments)
        else:
            raise entry.WrongWords(f"unexpected words: {' '.join(arguments)}")
    except Unknown as why:
        raise entry.Failed(why)
    return 0
