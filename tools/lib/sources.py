"""Reads the sources of this repository: what each file declares, what each crate passes on, which clauses a function has.

tools/check-docs, tools/show and tools/pages use it. It goes by the layout that `rt fmt`
gives: what a file declares begins at the left edge, what stands in it four places further right, and it ends with a brace at the
place where it began.
"""

import functools
import pathlib
import re

ROOT = pathlib.Path(__file__).resolve().parent.parent.parent

# What callers meet, in the order of the README.
FACES = ["wast_tree", "wasm_ops", "wasm_out", "wast_expand", "wast_resolve", "wast_core", "wast_rows"]

HEAD = re.compile(
    r"^(?P<indent> *)(?P<pub>pub(?:\([a-z]+\))? )?(?:extern \"C\" )?"
    r"(?:(?P<kind>fn|struct|enum|trait|type|const|mod|use|static) )(?P<name>\w+)?"
)
IMPL = re.compile(r"^impl(?:<.*?>)? (?:(?P<trait>[\w:]+(?:<.*>)?) for )?(?P<type>&?(?:'\w+ )?[\w:]+)")


class Item:
    """What is declared: its kind, its name, its first line as it stands, its text above it, and what stands in it."""

    def __init__(self, kind, name, path, line, doc, attributes, is_public):
        self.kind, self.name, self.path, self.line = kind, name, path, line
        self.doc, self.attributes, self.is_public = doc, attributes, is_public
        self.signature, self.members, self.clauses, self.traits = "", [], [], []


@functools.lru_cache(maxsize=None)
def crates():
    """The crates of the repository."""
    return sorted(p.name for p in (ROOT / "crates").iterdir() if (p / "src").is_dir())


def files_of_tests():
    """The files of tests that are run and not proved, which end in .rs (`tools/lib/unproved.py`)."""
    return sorted((ROOT / "tests").glob("*/src/**/*.rs"))


@functools.lru_cache(maxsize=None)
def lines_of(path):
    return path.read_text(encoding="utf-8").split("\n")


def joined(lines):
    """Lines of a signature as one."""
    text = " ".join(line.strip() for line in lines)
    text = re.sub(r"\s+", " ", text).strip()
    text = re.sub(r"([(\[<]) ", r"\1", text)
    return re.sub(r",? ([)\]])", r"\1", text).replace(", }", " }")


def signature(lines, start, indent):
    """What a function takes and gives, and the number of the line behind it; of a constant its value too, if it fits the line."""
    value = re.match(r" *(pub(?:\([a-z]+\))? )?const \w+: [^=]+? = .*[{]$", lines[start])
    if value:
        return joined([lines[start].partition(" = ")[0]]), start + 1
    taken = []
    for number in range(start, len(lines)):
        line = lines[number]
        word = line.strip()
        if number > start and (re.match(r"(requires|ensures\*?|where)\b", word) or word == "{"):
            return joined(taken), number
        if word.endswith(" {"):
            return joined(taken + [word[:-2]]), number + 1
        if word.endswith("{}"):
            return joined(taken + [word[:-2]]), number + 1
        if word.endswith(";"):
            return joined(taken + [word[:-1]]), number + 1
        taken.append(line)
    return joined(taken), len(lines)


def clauses(lines, start):
    """The clauses of a function: pairs of `requires` or `ensures` and a name, which is empty where there is none."""
    found = []
    for number in range(start, len(lines)):
        word = lines[number].strip()
        if word.startswith(("#[", "//")) and not found:
            continue
        clause = re.match(r"(requires|ensures)\*? (?:(\w+) )?[{]?", word)
        if clause:
            found.append((clause.group(1), clause.group(2) or ""))
        elif word == "{" or word == "{}" or word == "}" or word == "":
            break
    return found


def doc_above(lines, number):
    """The text above a line, its attributes, and where these begin."""
    doc, attributes = [], []
    at = number - 1
    while at >= 0:
        word = lines[at].strip()
        if word.startswith("///"):
            doc.insert(0, word[3:].removeprefix(" ").rstrip())
        elif word.startswith("#["):
            attributes.insert(0, word)
        elif word.endswith("]") and not doc and re.match(r"^\s*[\w(,:]", lines[at]):
            # the end of an attribute of several lines
            while at >= 0 and not lines[at].strip().startswith("#["):
                at -= 1
            attributes.insert(0, joined(lines[at:number]))
        else:
            break
        at -= 1
    return doc, attributes


def block_end(lines, start, indent):
    """The number of the line that closes what begins at this one."""
    first = lines[start].rstrip()
    if first.endswith((";", "{}", "},", ",")) and not first.endswith("{"):
        return start
    for number in range(start + 1, len(lines)):
        if lines[number] == " " * indent + "{}":
            return number
        if re.match(rf"^ {{{indent}}}[}})]", lines[number]) and not lines[number].rstrip().endswith("{"):
            if not re.match(r"^ *\) *->", lines[number]) and lines[number].strip() not in (")",):
                return number
    return len(lines) - 1


def variants(path, lines, start, end):
    """The variants of an enum, or the fields of a struct."""
    found = []
    number = start
    while number < end:
        match = re.match(r"^    (pub(?:\([a-z]+\))? )?(\w+)\b", lines[number])
        if match and not lines[number].strip().startswith("ghost "):
            last = block_end(lines, number, 4)
            doc, attributes = doc_above(lines, number)
            item = Item("part", match.group(2), path, number + 1, doc, attributes, match.group(1) == "pub ")
            body = [it for it in lines[number:last + 1] if not it.strip().startswith(("///", "#["))]
            item.signature = joined(body).rstrip(",")
            found.append(item)
            number = last
        number += 1
    return found


@functools.lru_cache(maxsize=None)
def declared(path):
    """What a file declares, in order; inherent calls stand in their types, and so do the traits that a type has."""
    lines = lines_of(path)
    items, impls = [], []
    number = 0
    while number < len(lines):
        line = lines[number]
        head = HEAD.match(line) if not line.startswith(" ") else None
        if line.startswith("impl"):
            end = block_end(lines, number, 0)
            impls.append((number, end))
            number = end
        elif head and head.group("kind") != "use":
            end = block_end(lines, number, 0)
            doc, attributes = doc_above(lines, number)
            item = Item(head.group("kind"), head.group("name"), path, number + 1, doc, attributes, head.group("pub") == "pub ")
            item.signature, behind = signature(lines, number, 0)
            if item.kind == "fn":
                item.clauses = clauses(lines, behind)
            elif item.kind in ("enum", "struct"):
                item.members = variants(path, lines, number + 1, end)
            elif item.kind == "trait":
                item.members = calls_in(path, lines, number + 1, end, True)
            items.append(item)
            number = end if item.kind != "mod" or line.rstrip().endswith("}") else number
            if item.kind == "mod" and line.rstrip().endswith("{"):
                number = block_end(lines, number, 0)
        number += 1
    for start, end in impls:
        first, _ = signature(lines, start, 0)
        match = IMPL.match(first)
        if match is None:
            continue
        name = match.group("type").split("::")[-1].lstrip("&")
        here = [item for item in items if item.name == name]
        if not here:
            here = [Item("impl", name, path, start + 1, [], [], True)]
            items.extend(here)
        if match.group("trait"):
            here[0].traits.append(re.sub(r"^.*::", "", match.group("trait").split("<")[0]))
        else:
            here[0].members.extend(calls_in(path, lines, start + 1, end, False))
    return items


@functools.lru_cache(maxsize=None)
def gathered(crate):
    """The files of a crate; what stands in one for a type of another is given to that type."""
    files = sorted((ROOT / "crates" / crate / "src").rglob("*.rt"))
    items = [item for path in files for item in declared(path)]
    homes = {item.name: item for item in items if item.kind in ("struct", "enum", "trait", "type")}
    for item in items:
        if item.kind == "impl" and item.name in homes:
            homes[item.name].members.extend(item.members)
            homes[item.name].traits.extend(item.traits)
            item.members, item.traits = [], []
    return files


def calls_in(path, lines, start, end, in_trait):
    """The functions of an impl or a trait, with its types and constants."""
    found = []
    for number in range(start, end):
        head = re.match(r"^    (pub(?:\([a-z]+\))? )?(fn|const|type) (\w+)", lines[number])
        if not head:
            continue
        doc, attributes = doc_above(lines, number)
        item = Item(head.group(2), head.group(3), path, number + 1, doc, attributes, in_trait or head.group(1) == "pub ")
        item.signature, behind = signature(lines, number, 4)
        item.clauses = clauses(lines, behind)
        found.append(item)
    return found


def module_file(crate, module):
    """The file of a module of a crate, or None."""
    return file_of_module(crate, tuple(module))


@functools.lru_cache(maxsize=None)
def file_of_module(crate, module):
    """The same, looked up once."""
    folder = ROOT / "crates" / crate / "src"
    if not module:
        return folder / "lib.rt" if (folder / "lib.rt").exists() else folder / "main.rt"
    for path in (folder.joinpath(*module).with_suffix(".rt"), folder.joinpath(*module, "mod.rt")):
        if path.exists():
            return path
    return None


def used(text):
    """The paths of a `use`, with the name that each has: a::{b, c as d} is a::b and a::c."""
    text = re.sub(r"\s+", " ", text).strip()
    match = re.match(r"^(.*?)::\{(.*)\}$", text)
    if not match:
        path, _, name = text.partition(" as ")
        return [(path.split("::"), name or path.split("::")[-1])]
    found, depth, part = [], 0, ""
    for sign in match.group(2) + ",":
        depth += {"{": 1, "}": -1}.get(sign, 0)
        if sign == "," and depth == 0:
            if part.strip():
                found.extend((match.group(1).split("::") + path, name) for path, name in used(part))
            part = ""
        else:
            part += sign
    return found


def inline_module(lines, name):
    """The lines of a module that stands in its file, or None."""
    for number, line in enumerate(lines):
        if line.startswith(f"pub mod {name} {{"):
            return [it[4:] for it in lines[number + 1:block_end(lines, number, 0)]], doc_above(lines, number)[0]
    return None


def passed_on(lines):
    """The public `use`s among lines at the left edge, each as a path and a name, with the number of its line."""
    number = 0
    while number < len(lines):
        if lines[number].startswith("pub use "):
            start = number
            while not lines[number].rstrip().endswith(";"):
                number += 1
            text = " ".join(lines[start:number + 1]).strip()[len("pub use "):-1]
            for path, name in used(text):
                yield start, path, name
        number += 1


def find(crate, path):
    """Where an item stands: `path` is the path that a `use` in this crate gives. It gives a list of items or of modules."""
    path = list(path)
    if path[0] in ("crate", "self"):
        path = path[1:]
    elif path[0] in crates() and module_file(crate, path[:1]) is None:
        crate, path = path[0], path[1:]
    module = []
    lines = lines_of(module_file(crate, []))
    while path:
        inline = inline_module(lines, path[0])
        if inline is not None:
            if len(path) == 1:
                return [("module", crate, module + path, inline[0])]
            lines, path, module = inline[0], path[1:], module + path[:1]
            continue
        file = module_file(crate, module + path[:1])
        if file is not None and (len(path) > 1 or not names_in(file, lines, path[0])):
            if len(path) == 1:
                return [("module", crate, module + path, lines_of(file))]
            lines, path, module = lines_of(file), path[1:], module + path[:1]
            continue
        break
    if not path:
        return [("module", crate, [], lines)]
    if len(path) != 1:
        return []
    file = module_file(crate, module)
    here = [item for item in (declared(file) if file else []) if item.name == path[0] and item.kind != "impl"]
    if here:
        return [("item", crate, here[0], None)]
    for _, further, name in passed_on(lines):
        if name == path[0]:
            return find(crate, further)
        if name == "*":
            found = find(crate, further[:-1] + [path[0]])
            if found:
                return found
    return []


def names_in(file, lines, name):
    """Whether a name of a module is also one that these lines pass on."""
    return any(as_name == name and path[-1] == name and len(path) > 1 and path[-2] != name for _, path, as_name in passed_on(lines))


def surface(crate):
    """What a caller of a crate meets: pairs of the modules that stand before a name, and an item."""
    for name in crates():
        gathered(name)
    file = module_file(crate, [])
    yield from surface_of(crate, [], lines_of(file), file)


def surface_of(crate, prefix, lines, file):
    for item in declared(file) if file else []:
        if item.is_public and item.kind not in ("mod", "impl"):
            yield prefix, item
    for number, path, name in passed_on(lines):
        if name == "*":
            for found in find(crate, path[:-1]):
                yield from surface_of(found[1], prefix, found[3], module_file(found[1], found[2]))
            continue
        found = find(crate, path)
        if not found:
            raise SystemExit(f"{file}: {'::'.join(path)} is passed on, and stands nowhere")
        kind, home, what, text = found[0]
        if kind == "item":
            yield prefix, what
        else:
            yield from surface_of(home, prefix + [name], text, module_file(home, what) if inline_at(home, what) is None else None)
    for line in lines:
        match = re.match(r"^pub mod (\w+)( \{|;)", line)
        if match and match.group(2) == " {":
            yield from surface_of(crate, prefix + [match.group(1)], inline_module(lines, match.group(1))[0], None)
        elif match:
            inner = module_file(crate, prefix + [match.group(1)])
            yield from surface_of(crate, prefix + [match.group(1)], lines_of(inner), inner)


def inline_at(crate, module):
    """The lines of a module that stands in the root of its crate, or None."""
    return inline_module(lines_of(module_file(crate, [])), module[-1]) if len(module) == 1 else None


def first_sentence(doc):
    """The first sentence of a text, on one line."""
    paragraph = []
    for line in doc:
        if not line:
            break
        paragraph.append(line)
    text = " ".join(paragraph)
    text = re.sub(r"\[(`[^`]*`)\](?:\([^)]*\))?", r"\1", text)
    in_code = False
    for at, sign in enumerate(text):
        if sign == "`":
            in_code = not in_code
        elif sign == "." and not in_code and text[at + 1:at + 2] in ("", " ") and text[at - 1] != ".":
            return text[:at + 1]
    return text


@functools.lru_cache(maxsize=None)
def all_items():
    """Each item that a source file of a crate declares, with its crate."""
    found = []
    for crate in crates():
        for path in gathered(crate):
            found.extend((crate, item) for item in declared(path))
    return found


def functions(crates, path):
    """The functions of this path in some crates, or what the trait says that a type has."""
    parts = path.split("::")
    found = []
    for crate, item in all_items():
        if crate not in crates and crate not in parts[:1]:
            continue
        if item.kind == "fn" and item.name == parts[-1] and (len(parts) == 1 or parts[-2] in (crate, item.path.stem) or passes_on(crate, parts)):
            found.append(item)
        elif len(parts) > 1 and item.name == parts[-2]:
            found.extend(m for m in item.members if m.name == parts[-1] and m.kind == "fn")
    if not found and len(parts) > 1:
        for crate, item in all_items():
            if item.kind == "trait":
                called = [m for m in item.members if m.name == parts[-1]]
                if called and any(i.name == parts[-2] and item.name in i.traits for _, i in all_items()):
                    found.extend(called)
    return found


def passes_on(crate, parts):
    """Whether a crate passes the function on in a module of this name."""
    return any(prefix == parts[:-1] and item.name == parts[-1] for prefix, item in surface(crate)) if (ROOT / "crates" / crate / "src/lib.rt").exists() else False
