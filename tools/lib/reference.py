"""Prints what the crates for callers have, from their sources, for `tools/show reference`.

Each public type, variant, trait, function and constant has its signature, the first sentence of its text and the names of its clauses,
by crate and by file. What a crate passes on of the crates below it is listed with it.

It is a problem if a public call is missing. `problems` searches the lines of the sources for `pub fn`, without what reads the sources for the list,
because that may skip a call. For example, `pub fn rec` in `impl TypeSection` must be listed below the type `TypeSection`.
"""

import functools
import re

import entry
import sources

# The crates that callers meet: the seven public ones, those that begin with a text or a script, and the calls for C.
CRATES = [*sources.FACES, "wat_tokens", "wat_text", "wat_bytes", "wast_script", "rigyomad_c"]


def shown(signature):
    """A signature without what all of them begin with."""
    return re.sub(r"^pub ", "", re.sub(r"\bpub(?:\([a-z]+\))? ", "", signature))


def sentence(doc):
    text = sources.first_sentence(doc)
    return f": {text}" if text else ""


def clauses(item):
    """The names of the clauses of a function."""
    named = dict.fromkeys(f"`{name}`" for kind, name in item.clauses if kind == "ensures" and name)
    return f" Clauses: {', '.join(named)}." if named else ""


@functools.lru_cache(maxsize=None)
def hidden_traits():
    """The traits of this repository that no caller of the seven crates meets."""
    met = {item.name for crate in CRATES for _, item in sources.surface(crate) if item.kind == "trait"}
    return {item.name for _, item in sources.all_items() if item.kind == "trait"} - met


def traits_of(item):
    """The traits that a type has: those that are derived, and those that it is given."""
    derived = [name.strip() for line in item.attributes for name in re.findall(r"derive\((.*)\)", line)[:1] for name in name.split(",")]
    found = [name for name in derived if name and name not in ("Drop",)]
    found += [name for name in item.traits if name not in found and name not in hidden_traits() and name != "Model"]
    return f" ({', '.join(dict.fromkeys(found))})" if found else ""


def is_named_by_text(item):
    """Whether all that is said of the variants of an enum is their text, so that a list of names says as much."""
    parts = [m for m in item.members if m.kind == "part"]
    return len(parts) > 3 and all(re.fullmatch(r"`[^`]+`", " ".join(m.doc)) and m.signature.split(" = ")[0] == m.name for m in parts)


def lines_of_item(prefix, item):
    """The lines of an item."""
    path = "".join(f"{module}::" for module in prefix)
    if item.kind == "fn":
        return [f"- `{path_in(path, shown(item.signature))}`{sentence(item.doc)}{clauses(item)}"]
    if item.kind == "const":
        return [f"- `{shown(item.signature)}`{sentence(item.doc)}"]
    lines = [f"- `{head_of(path, item)}`{traits_of(item)}{sentence(item.doc)}"]
    parts = [m for m in item.members if m.kind == "part"]
    if item.kind == "enum" and is_named_by_text(item):
        lines.append(f"  - variants, each with the name of its text: {', '.join(f'`{m.name}`' for m in parts)}")
    elif item.kind == "enum":
        lines += [f"  - `{m.signature}`{sentence(m.doc)}" for m in parts]
    calls = [m for m in item.members if m.kind != "part" and m.is_public]
    lines += [f"  - `{shown(m.signature)}`{sentence(m.doc)}{clauses(m) if m.kind == 'fn' else ''}" for m in calls]
    return lines


def path_in(path, signature):
    return re.sub(r"^fn ", f"fn {path}", signature)


def head_of(path, item):
    """The first line of a type, with the fields that callers see."""
    head = re.sub(rf"^(struct|enum|trait) {item.name}", rf"\1 {path}{item.name}", shown(item.signature).rstrip(" {"))
    if item.kind != "struct":
        return head
    fields = [m for m in item.members if m.kind == "part"]
    seen = [shown(m.signature) for m in fields if m.is_public]
    hidden = ".." if len(seen) < len(fields) else ""
    return f"{head} {{ {', '.join([*seen, *([hidden] if hidden else [])])} }}" if fields else head


def text_of(crates):
    """The text of these crates."""
    out = []
    for crate in crates:
        files = {}
        for prefix, item in sources.surface(crate):
            files.setdefault(item.path, []).append((prefix, item))
        about = [line[4:] for line in sources.lines_of(sources.module_file(crate, [])) if line.startswith("//! ")]
        out.append(f"{chr(10) if out else str()}## {crate}\n\n{sources.first_sentence(about)}\n")
        own = sources.ROOT / "crates" / crate
        for path in sorted(files, key=lambda p: (own not in p.parents, str(p))):
            out.append(f"\n### {path.relative_to(sources.ROOT)}\n\n")
            found = sorted(files[path], key=lambda pair: pair[1].line)
            for prefix, item in found:
                out.append("\n".join(lines_of_item(prefix, item)) + "\n")
    return "".join(out)


def calls_on_page(text):
    """The functions that a page lists, each with its crate and the type that it is a call of, or None."""
    found, crate, holder = set(), None, None
    for line in text.split("\n"):
        heading = re.match(r"### crates/(\w+)/", line)
        item = re.match(r"- `(?:struct|enum|trait|type) (?:\w+::)*(\w+)", line)
        call = re.match(r"(  )?- `(?:const )?fn (?:\w+::)*(\w+)", line)
        if heading:
            crate = heading.group(1)
        elif item:
            holder = item.group(1)
            found.add((crate, holder, None))
        elif call:
            found.add((crate, holder if call.group(1) else None, call.group(2)))
    return found


def calls_in_text(text):
    """The public functions of a source file, each with the type or trait that it is a call of, or None, and its line number."""
    holder, is_trait = None, False
    for number, line in enumerate(text.split("\n"), 1):
        begin = re.match(r"(impl|pub trait)(?:<[^{]*?>(?= ))? (?:[^{]* for )?&?(?:\w+::)*(\w+)", line)
        call = re.match(r"(?P<indent>    )?(?P<pub>pub )?(?:const )?fn (?P<name>\w+)", line)
        if begin:
            is_trait, holder = begin.group(1) == "pub trait", begin.group(2)
        elif line == "}":
            is_trait, holder = False, None
        elif call and (call.group("pub") or is_trait):
            yield holder if call.group("indent") else None, call.group("name"), number


def names_passed_on():
    """Each item or module that a `pub use` names in the root of a crate that callers meet."""
    roots = [sources.module_file(crate, []).read_text(encoding="utf-8") for crate in CRATES]
    uses = [use for root in roots for use in re.findall(r"^ *pub use ([^;]*);", root, re.M)]
    return {name for use in uses for name in re.findall(r"\b(\w+)\b(?!::)", use)}


def calls_missing(text):
    """The calls that callers reach and a page lacks, each as a line: those of a type that it lists, and functions passed on."""
    listed, reached = calls_on_page(text), names_passed_on()
    for crate in sorted({crate for crate, _, _ in listed}):
        for path in sorted((sources.ROOT / "crates" / crate / "src").rglob("*.rt")):
            for holder, name, number in calls_in_text(path.read_text(encoding="utf-8")):
                is_met = (crate, holder, None) in listed if holder else name in reached or path.stem in reached
                if is_met and (crate, holder, name) not in listed:
                    call = f"{holder}::{name}" if holder else name
                    yield f"{path.relative_to(sources.ROOT)}:{number}: {call} is missing from the reference"


def problems():
    """The calls that the list lacks."""
    return calls_missing(text_of(CRATES))


def main(words):
    """Prints all crates, or these."""
    unknown = [word for word in words if word not in CRATES]
    if unknown:
        raise entry.WrongWords(f"no such crate for callers: {unknown[0]}")
    print(text_of(words or CRATES), end="")
    return 0
