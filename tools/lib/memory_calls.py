"""Finds public functions that may allocate and that no test calls, for `tools/lint`. A function may allocate if it returns a list or a Result, or grows a list.

No contract says that a call gets the memory it asks for, so a body that always answers E12 would be proved: one call of each
with ample memory shows that it does not. It reads texts alone. A function is named by a test that calls it, one of a module by
its path, one of a type as `Type::name(`, and a method as `.name(` in a file that names its type. A call whose result is ignored
does not count, because it passes whatever the call returns: `let _ = f();`, `let _unused = f();`, `drop(f());`, `f().ok();`.
"""

import re

from entry import ROOT

INTO_A_SINK = "the sink takes the memory, and tests name what appends to each sink"
BY_A_MAKER = "a call of `TreeBuilder`, which tests name, takes memory by it"
BY_CALLERS = "what it takes is up to who implements the trait"
NO_E12 = "its clauses permit no E12"

# Calls that no test has to name, and why.
EXCEPTIONS = {
    "length_of": NO_E12,
    "Names::resolve_func": NO_E12,
    "Names::resolve_memory": NO_E12,
    "Names::resolve_table": NO_E12,
    "Names::resolve_global": NO_E12,
    "Names::resolve_tag": NO_E12,
    "Names::resolve_type": NO_E12,
    "Names::resolve_elem": NO_E12,
    "Names::resolve_data": NO_E12,
    "Resolver::resolve": NO_E12,
    "Resolver::number": NO_E12,
    "EncodeWith::spell": INTO_A_SINK,
    "Sink::push_bytes": INTO_A_SINK,
    "PutHints::put_hints": INTO_A_SINK,
    "put_names": INTO_A_SINK,
    "PutNames::put_map_names": INTO_A_SINK,
    "ResolveCoreType::resolve_type_name": BY_CALLERS,
    "CoreType::resolve_with": BY_CALLERS,
    "resolve_type": BY_CALLERS,
    "resolve_type_def": BY_CALLERS,
    "resolve_type_func": BY_CALLERS,
    "key_in": "types::expand, which tests name, makes each key by it",
    "put_key": "types::expand, which tests name, puts each key by it",
    "expand_with": "types::expand, which tests name, does nothing else",
    "put_fields": "encode_module, which tests name, writes sections by it",
    "encode_covered": "encode_module, which tests name, writes sections by it",
    "filled": "names::resolve, which tests name, fills each index space by it",
    "gather_one": "names::resolve, which tests name, gathers each id by it",
    "gather_each": "names::resolve, which tests name, gathers ids by it",
    "type_shapes": "names::resolve, which tests name, reads types by it",
    "walk_fields": "names::resolve, which tests name, walks the fields by it",
    "name_spaces": "early_fault, which a test names, does nothing else that takes memory",
    "push_instruction": BY_A_MAKER,
    "push_type": BY_A_MAKER,
    "push_expression": BY_A_MAKER,
    "push_data": BY_A_MAKER,
    "push_subsection": BY_A_MAKER,
    "boxed_block": BY_A_MAKER,
    "sample_fields": "sample, which tests name, hands on what it gives",
    "twin_fields": "twin, which tests name, hands on what it gives",
    "records_of": "rigyomad_c_script, which tools/bindings calls, writes records by it",
    "form_fields": "form_sample, which tests name, hands on what it gives",
    "first_violation": "`first_violation_of`, which `wat --check` calls, goes through a body by the same calls",
    "read_module_tokens": "Script::read, which tests name, reads each module by it",
}

# Crates whose calls the stored answers of programs show: the reader of texts, by `wat_golden`, the fields of rows, by `wastrow`, and
# scripts as JSON, by `tools/converter`, and as records, by `tools/bindings`;
# and the validator, by the checks of `tools/command`.
READ = ["wat_text", "wast_rows_samples", "wast_script_json", "wast_script_records", "wast_valid_machine", "wast_valid", "wast_valid_tree"]

# What a call that may take memory answers.
GROWS = re.compile(r"\b(Result|Vec|Seq|String)<|\bString\b")

# A function that others can call, with what it takes and what it answers.
FUNCTION = re.compile(r"^( *)(pub )?fn (\w+)(<[^{;]*?>)?\(([^{]*?)\)(?: -> ([^{;]*?))?\s*(?:$|\{|;|where|requires|ensures)", re.M | re.S)

# What the comment of a call says that takes none.
TAKES_NONE = re.compile(r"[Tt]akes\s+no\s+memory|[Dd]oes\s+not\s+allocate")

# A statement that ignores what a call returns.
IGNORED = re.compile(r"(?<![\w.])(?:(?:let )?_\w* = [^;{}]*;|drop\([^;{}]*\);|[^;{}]*\.ok\(\);)")

# What functions stand in.
HOLDER = re.compile(r"^(?:pub )?(impl|trait)\b(?:<[^{]*?>(?= ))? ([^{]*?)\s*\{$", re.M)


def tests_of():
    """The text of each file that holds tests, or is of a program or of READ, without comments, names of what it defines, and calls whose results are ignored."""
    programs = [main.parent for main in ROOT.glob("crates/*/src/main.rt")]
    folders = [*ROOT.glob("crates/*_tests/src"), *programs, *(ROOT / "crates" / name / "src" for name in READ)]
    files = [*ROOT.glob("crates/*/src/tests.rt"), *ROOT.glob("tests/*/src/*.rs"), *(file for folder in folders for file in folder.glob("*.rt"))]
    texts = {str(file.relative_to(ROOT)): re.sub(r"//.*|\bfn \w+", "", file.read_text(encoding="utf-8")) for file in sorted(files)}
    return {name: IGNORED.sub("", text) for name, text in texts.items()}


def holder_at(text, place):
    """The kind and the name of what a function at this place stands in, if in anything."""
    found = None
    for it in HOLDER.finditer(text, 0, place):
        found = it
    if found is None or "\n}" in text[found.end() : place]:
        return None, None
    kind, name = found.groups()
    if kind == "impl" and " for " in name:
        return "implementation", name
    return kind, re.match(r"\w+", name).group()


def comment_before(text, place):
    """The comment above what begins at this place, as one line."""
    lines = []
    for line in reversed(text[:place].splitlines()):
        if not re.match(r" *(///|#\[)", line):
            break
        lines.append(line.strip().lstrip("/"))
    return " ".join(reversed(lines))


def calls():
    """Each public call of a library that may take memory, as its comment does not deny: its crate, file, holder and name, and whether it takes `self`."""
    for lib in sorted(ROOT.glob("crates/*/src/lib.rt")):
        crate = lib.parent.parent.name
        if crate.endswith("_tests"):
            continue
        paths = dict((f, m) for m, body in re.findall(r"^pub mod (\w+) \{(.*?)^\}", lib.read_text(encoding="utf-8"), re.M | re.S) for f in re.findall(r"(\w+)[,;}]", body))
        modules = set(re.findall(r"^pub mod (\w+);", lib.read_text(encoding="utf-8"), re.M))
        for file in sorted(lib.parent.glob("*.rt")):
            text = file.read_text(encoding="utf-8")
            for it in FUNCTION.finditer(text):
                kind, holder = holder_at(text, it.start())
                is_public = it[2] or kind == "trait"
                if file.stem == "tests" or not is_public or kind == "implementation" or not (GROWS.search(it[6] or "") or "&mut Seq<" in it[5]):
                    continue
                if kind is None:
                    holder = paths.get(it[3]) or (file.stem if file.stem in modules else None)
                if TAKES_NONE.search(comment_before(text, it.start())):
                    continue
                yield crate, file.stem, holder, it[3], bool(re.match(r"\s*(&('\w+ )?(mut )?|mut )?self\b", it[5]))


def naming(tests, holder, name, takes_self):
    """The first test file that names the call."""
    generics = r"(?:::<[^()]*>)?\("
    for file, text in tests.items():
        if takes_self:
            is_named = re.search(rf"\.\s*{name}{generics}", text) and re.search(rf"\b{holder}\b", text)
        elif holder:
            is_named = re.search(rf"\b{holder}(?:<[^()]*?>)?(?:::<[^()]*>)?>?::{name}{generics}", text)
        else:
            is_named = re.search(rf"(?<![\w.]){name}{generics}", text)
        if is_named or (takes_self and re.search(rf"\b{holder}::{name}{generics}", text)):
            return file
    return None


def problems():
    """A line for each call that no test names and that is no exception, and nothing for each other one."""
    tests = tests_of()
    for crate, file, holder, name, takes_self in calls():
        call = f"{holder}::{name}" if holder else name
        is_named = call in EXCEPTIONS or naming(tests, holder, name, takes_self)
        yield "" if is_named else f"crates/{crate}/src/{file}.rt:1: no test names {call}, which may take memory"
