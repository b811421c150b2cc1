"""Reads the definitions of crates/*/specs and the contracts of crates/*/src, and tells what each of them names.

A file of specs/ has a header of `use` lines, then definitions: a signature, such as `abbrev pub name : type`, `pub data` or
`pub record`, and its clauses below it. A name in it is one that a binder gives (a pattern, `(x : A)`, `λ x.`, `let x =`, a field of a
record), one that the file defines, or one that the header brings. Binders come first, within the brackets that they are in: for
example, in `named name = name ++ []` the word `name` is the parameter, also if the header brings a definition called `name`.

A name leads to one of these, which are called targets here:

- a `Definition` of a file of specs/;
- a `CodeItem`: a type, a trait or a constant of src/, which definitions name by `specs.declared`;
- a `KitName`: a name of the kit's library, which is not followed;
- a `Lemma`: a name of proofs/ or of `specs.contracts`, which is proved or derived, so nobody has to believe it.

`Missing` is raised for a name that leads nowhere. `tools/show` uses it.
"""

import functools
import re

import sources

ROOT = sources.ROOT

NAME = r"(?:«[^»]*»|[^\s(){}.;,@\"«»]+)"
TOKEN = re.compile(rf'"(?:[^"\\]|\\.)*"|--.*|[(){{}};,@]|\.(?=\s|$)|\.?{NAME}(?:\.{NAME})*')
SIGNATURE = re.compile(
    r"^(?P<indent> *)(?:(?:pattern|unfoldable|abbrev|axiom|pub) )*"
    rf"(?:(?P<kind>data|record) (?P<type>{NAME})|(?P<value>{NAME})(?: \{{[^}}]*\}})? :(?= |$))"
)

SIGNS = {"(", ")", "{", "}", ";", ",", "@", ".", "[", "]", "|", "=", ":", "→", "×", "↦"}
OPENING, CLOSING = {"(": ")", "{": "}", "[": "]"}, {")", "}", "]"}
KEYWORDS = {*"elim let in as record where λ ∀ Type unfold unfolding pub data module abbrev unfoldable pattern axiom _".split()}

# What is in scope without a `use` line: the prelude of the language.
BUILT_IN = {*"⊥ ⊤ Unit tt absurd ¬ ↔ refl omega 𝓛".split()}

# What a file of specs/ may have beside definitions: lines that bring or pass on names.
HEADER = ("use ", "pub use ", "unfoldable pub use ", "mod ", "pub mod ")


class Missing(Exception):
    """A name that leads to nothing."""


class Definition:
    """A definition: its crate, its file, its line, its name, the names of its constructors, and its lines without comments."""

    def __init__(self, module, line, name, kind):
        self.module, self.line, self.name, self.kind = module, line, name, kind
        self.crate, self.constructors, self.lines, self.around = module.crate, set(), [], ""

    def __str__(self):
        return f"{self.module.title()} {self.name}"

    def place(self):
        return f"{self.module.path.relative_to(ROOT)}:{self.line}"

    @functools.cached_property
    def names(self):
        """What it names: targets, in the order of the text."""
        return [] if self.is_lemma else self.module.targets(self.chunks(), set(re.findall(r"\w+(?= :)", self.around)))

    @property
    def is_lemma(self):
        """Whether it is a proof: a value whose clauses no other file can unfold, so that its type alone says what it is."""
        return self.kind == "value" and not re.search(r"\b(?:abbrev|unfoldable)\b", self.lines[0].partition(":")[0])

    def chunks(self):
        """Its texts, each with whether it is a clause: a record and its fields are one text, a signature and each clause are."""
        if self.kind in ("data", "record"):
            return [("\n".join(self.lines), False)]
        indent = len(self.lines[0]) - len(self.lines[0].lstrip())
        parts = []
        for line in self.lines:
            if len(line) - len(line.lstrip()) == indent:
                parts.append([line])
            else:
                parts[-1].append(line)
        texts = ["\n".join(part) for part in parts]
        return [(self.around, False), (texts[0], False), *((text, not text.lstrip().startswith("unfolding ")) for text in texts[1:])]


class CodeItem:
    """What src/ declares: a struct, an enum, a trait, a type or a constant; its lines are those without comments and attributes."""

    def __init__(self, crate, item):
        self.crate, self.item, self.name = crate, item, item.name

    def __str__(self):
        return f"{self.crate} src {self.name}"

    def place(self):
        return f"{self.item.path.relative_to(ROOT)}:{self.item.line}"

    @functools.cached_property
    def lines(self):
        text = sources.lines_of(self.item.path)
        end = sources.block_end(text, self.item.line - 1, 0)
        return [line for line in text[self.item.line - 1:end + 1] if line.strip() and not line.strip().startswith(("//", "#["))]

    @functools.cached_property
    def names(self):
        """What the contracts see of it: what its ghost members name, and the types of its fields, if it has no view."""
        code = CodeFile(self.crate, self.item.path)
        ghosts, has_view = code.ghosts_of(self.item)
        found = [target for text, line in ghosts for target in code.clause_targets(text, line, self.item.signature)]
        if self.item.kind in ("struct", "enum") and not has_view:
            found += [target for part in parts_of(self.item) for target in code.types_in(part.signature)]
        elif self.item.kind == "type":
            found += code.types_in(self.item.signature)
        return found


class KitName:
    """A name of the kit's library."""

    def __init__(self, path):
        self.path, self.names, self.lines, self.crate = path, [], [], "kit"

    def __str__(self):
        return ".".join(self.path)


class Lemma(KitName):
    """A name of proofs/ or of `specs.contracts`."""


class SpecModule:
    """A file of specs/, or a folder of such: the names that it has, and those that it brings."""

    def __init__(self, crate, parts, path):
        self.crate, self.parts, self.path = crate, parts, path
        self.own, self.made, self.scope, self.passed = {}, {}, Scope(), set()
        if path is not None:
            self.read()

    def title(self):
        return f"{self.crate} {'/'.join(self.parts)}"

    def read(self):
        block, here = "", None
        for number, line in enumerate(sources.lines_of(self.path), 1):
            bare = line.strip()
            if line.startswith(HEADER):
                if "use " in line:
                    names = self.scope.bring(line.partition("use ")[2])
                    self.passed.update(names if "pub use " in line else [])
                here = None
            elif re.match(r"infix[lr]? ", line):
                here = None
            elif re.match(r"module \S+", line):
                block, here = line.removesuffix("where"), None
            elif bare and not bare.startswith("--"):
                if not line.startswith(" "):
                    block = ""
                at = SIGNATURE.match(line)
                if at and len(at["indent"]) <= (2 if block else 0):
                    here = Definition(self, number, unescaped(at["type"] or at["value"]), at["kind"] or "value")
                    here.around = block
                    self.own[here.name] = here
                elif here is not None and here.kind == "data" and (made := re.match(rf" +({NAME}) :", line)):
                    here.constructors.add(unescaped(made[1]))
                if here is not None:
                    here.lines.append(line)
        self.made = {name: it for it in self.own.values() for name in it.constructors}
        self.signs = {part: name for name in self.own if "◌" in name for part in name.split("◌") if part}

    def item_of(self, name):
        """What a name of this module is to others."""
        found = self.own.get(name) or self.made.get(name)
        if found is None and name in self.passed:
            return self.scope.item(name) or self.scope.module(name)
        if found is None and spec_module(self.crate, (*self.parts, name)) is not None:
            return spec_module(self.crate, (*self.parts, name))
        if found is None:
            raise Missing(f"{self.title()} has no {name}")
        return found

    def item(self, name):
        """What a name means in this file: a target, or None."""
        return self.own.get(self.signs.get(name, name)) or self.made.get(name) or self.scope.item(name)

    def targets(self, chunks, given):
        """What the names of some texts lead to, but for those that are given; a name that leads nowhere is `Missing`."""
        found = [self.target(path) for text, is_clause in chunks for path in Reading(text, self.is_constructor, is_clause, given).paths]
        return [target for target in found if target is not None]

    def is_constructor(self, path):
        """Whether a pattern that is this path is matched, and no binder."""
        if len(path) > 1 or path[0] in self.made or path[0] in BUILT_IN:
            return True
        target = None if path[0] in self.own else self.item(path[0])
        return isinstance(target, (CodeItem, KitName)) or isinstance(target, Definition) and path[0] in target.constructors

    def target(self, path):
        """What a path leads to, or None for a word of the language and for a module."""
        return resolved(self.scope, path, self.item, self.title())


def resolved(scope, path, item, where):
    """What a path leads to by a scope, and by what `item` gives of a name alone."""
    if path[0] == "Rattle":
        return follow(tuple(path))
    found, module = item(path[0]), scope.module(path[0])
    if module is not None and (found is None or len(path) > 1 and path[1] not in getattr(found, "constructors", ())):
        return walked(module, path[1:])
    if found is None and path[0] not in BUILT_IN:
        raise Missing(f"{where} names {'.'.join(path)}, which is nowhere")
    return found


class Declared:
    """A module of `specs.declared`, whose names are those that src/ declares."""

    def __init__(self, crate, parts):
        self.crate, self.parts = crate, parts

    def item_of(self, name):
        return declared_item(self.crate, (*self.parts, name))


class KitModule:
    """A module of the kit's library."""

    def __init__(self, path):
        self.path = path

    def item_of(self, name):
        return kit_name((*self.path, name))


class LemmaModule(KitModule):
    """A file of proofs/, or a module of `specs.contracts`."""

    def item_of(self, name):
        return lemma((*self.path, name))


class Reading:
    """The names of one text that are no binders: `paths`, each as its parts."""

    def __init__(self, text, is_constructor, is_clause=False, given=()):
        self.is_constructor = is_constructor
        self.tokens = [unescaped_path(it) for it in TOKEN.findall(text) if not it.startswith(("--", '"'))]
        # The frames of binders: each bracket has one, and an alternative of `elim` one of its own.
        self.frames, self.brackets, self.paths = [set(given)], [], []
        self.in_pattern, self.in_head, self.in_let = is_clause, 0, None
        # A clause begins with the name of its definition, but that of an operator such as `p >> q` with its first operand.
        is_infix = len(self.tokens) > 1 and len(self.tokens[1]) == 1 and re.fullmatch(r"[^\w\s(){}\[\]∷=.,;:]+", self.tokens[1][0])
        self.at = 1 if is_clause and not is_infix else 0
        self.binders = set(self.binders_before_colons())
        while self.at < len(self.tokens):
            self.step(self.tokens[self.at])
            self.at += 1

    def binders_before_colons(self):
        """The places of names that stand before a colon: `(x y : A)`, a field of a record, a constructor, the name of a signature."""
        for at, token in enumerate(self.tokens):
            back = at - 1
            if token == [":"]:
                if back >= 0 and self.tokens[back] == ["}"]:
                    continue
                while back >= 0 and len(self.tokens[back]) == 1 and self.tokens[back][0] not in SIGNS | KEYWORDS:
                    yield back
                    back -= 1

    def is_label(self):
        """Whether the name here is a label: `{ x = .. }`, after `;` too."""
        before = self.tokens[self.at - 1] if self.at else None
        behind = self.tokens[self.at + 1] if self.at + 1 < len(self.tokens) else None
        return before in (["{"], [";"]) and behind == ["="] and "{" in self.brackets[-1:]

    def bind(self, name, outside=False):
        """A binder: one in brackets before a colon is visible behind these."""
        depth = -2 if outside and self.brackets and self.brackets[-1] in "({" and len(self.frames) > 1 else -1
        self.frames[depth].add(name)

    def step(self, token):
        word = token[0]
        if len(token) == 1 and word in OPENING:
            self.brackets.append(word)
            self.frames.append(set())
            if word == "[":
                self.in_pattern = True
        elif len(token) == 1 and word in CLOSING:
            if self.brackets:
                self.brackets.pop()
                closed = self.frames.pop()
                if self.in_pattern or self.in_head:
                    self.frames[-1] |= closed
            if word == "]":
                self.in_pattern = False
        elif token == ["|"] and self.brackets[-1:] == ["["]:
            self.frames[-1], self.in_pattern = set(), True
        elif token == ["↦"]:
            self.in_pattern = False
        elif token == ["="] and self.brackets[-1:] != ["{"]:
            self.in_pattern, self.in_let = False, None
        elif token == ["λ"]:
            self.in_head = len(self.brackets) + 1
        elif token == ["."] and self.in_head == len(self.brackets) + 1:
            self.in_head = 0
        elif token == ["let"]:
            self.in_let = len(self.brackets)
        elif len(token) == 1 and (word in SIGNS or word in KEYWORDS) or word == "" or is_number(word):
            pass
        else:
            self.name(token)

    def name(self, token):
        word = token[0]
        if self.at in self.binders:
            self.bind(word, outside=True)
        elif len(token) == 1 and self.is_label():
            pass
        elif self.in_pattern and not self.is_constructor(token):
            self.frames[-1].add(word)
        elif self.in_head and len(token) == 1 and not self.is_behind_colon():
            self.frames[-1].add(word)
        elif self.in_let == len(self.brackets) and self.in_let is not None and not self.is_behind_colon():
            self.frames[-1].add(word)
        elif not any(word in frame for frame in self.frames):
            self.paths.append(token)

    def is_behind_colon(self):
        """Whether a colon stands before this name, since the bracket, the `λ` or the `let` that it is in."""
        for back in range(self.at - 1, -1, -1):
            if self.tokens[back] in (["("], ["{"], ["λ"], ["let"], [")"]):
                return False
            if self.tokens[back] == [":"]:
                return True
        return False


def is_number(word):
    return re.fullmatch(r"\d[\dA-Fa-fxob_]*", word) is not None


def unescaped(name):
    return name.strip("«»")


def unescaped_path(token):
    """A token as its parts; a projection, which begins with a dot, has an empty head."""
    return [token] if token in SIGNS else [unescaped(part) for part in re.findall(rf"{NAME}|^(?=\.)", token)]


class Scope:
    """What `use` lines bring: items, which are in braces, and modules; an item and a module may have the same name."""

    def __init__(self):
        self.items, self.modules, self.parts = {}, {}, {}

    def bring(self, text):
        """Adds what a `use` line brings; it gives the names."""
        text = " ".join(text.split())
        match = re.match(r"^(.*?)\.\{(.*)\}$", text)
        names = []
        for part in match[2].split(", ") if match else [text]:
            path, _, name = part.partition(" as ")
            steps = path_parts(match[1] if match else "") + path_parts(path)
            if steps[0] in self.modules:
                steps = [*self.modules[steps[0]], *steps[1:]]
            name = unescaped(name) or steps[-1]
            (self.items if match else self.modules)[name] = tuple(steps)
            names.append(name)
            if "◌" in name:
                self.parts.update(dict.fromkeys(filter(None, name.split("◌")), name))
        return names

    def has(self, name):
        return self.parts.get(name, name) in self.items or name in self.modules

    def item(self, name):
        """What a name of an item leads to, or None."""
        name = self.parts.get(name, name)
        return follow(self.items[name]) if name in self.items else None

    def module(self, name):
        """What a name of a module leads to, or None."""
        return follow_module(self.modules[name]) if name in self.modules else None


def walked(found, steps):
    """What the steps of a path behind a name lead to: through modules to an item, and then no further; None for a module."""
    for step in steps:
        if not hasattr(found, "item_of"):
            break
        found = found.item_of(step)
    return None if hasattr(found, "item_of") else found


def path_parts(path):
    """The parts of a path."""
    return [unescaped(part) for part in re.findall(NAME, path)]


@functools.lru_cache(maxsize=None)
def spec_module(crate, parts):
    """The file of specs/ with this path, or None."""
    path = (ROOT / "crates" / crate / "specs").joinpath(*parts)
    file = path.with_suffix(".antt")
    if parts and file.exists():
        return SpecModule(crate, parts, file)
    return SpecModule(crate, parts, None) if path.is_dir() else None


def is_ours(path):
    return path[0] == "Rattle" and path[1] in sources.crates()


@functools.lru_cache(maxsize=None)
def kit_name(path):
    return KitName(path)


@functools.lru_cache(maxsize=None)
def lemma(path):
    return Lemma(path)


@functools.lru_cache(maxsize=None)
def follow_module(path):
    """The module that a path leads to."""
    if not is_ours(path):
        return KitModule(path)
    if path[2] == "proofs" or path[3] == "contracts":
        return LemmaModule(path)
    if path[3] == "declared":
        return declared_item(path[1], path[3:])
    module, left = deepest(path[1], path[3:])
    found = module
    for step in left:
        found = found.item_of(step)
    return found


def deepest(crate, rest):
    """The file of specs/ that a path leads to, and what is left of the path."""
    parts = ()
    while len(parts) < len(rest) and spec_module(crate, rest[:len(parts) + 1]) is not None:
        parts = rest[:len(parts) + 1]
    return spec_module(crate, parts), rest[len(parts):]


@functools.lru_cache(maxsize=None)
def follow(path):
    """What the whole path of an item leads to."""
    if not is_ours(path):
        return kit_name(path)
    if path[2] == "proofs" or path[3] == "contracts":
        return lemma(path)
    if path[3] == "declared":
        return walked(declared_item(path[1], path[3:]), ())
    module, left = deepest(path[1], path[3:])
    if module.path is None and not left:
        raise Missing(f"{'.'.join(path)} leads to no file of specs/")
    return walked(module, left)


@functools.lru_cache(maxsize=None)
def code_item(crate, item):
    return CodeItem(crate, item)


def parts_of(item):
    """The variants of an enum, or the fields of a struct, without the calls of the type."""
    return [part for part in item.members if part.kind == "part"]


CODE_KINDS = ("struct", "enum", "trait", "type", "const", "static")


@functools.lru_cache(maxsize=None)
def declared_item(crate, parts):
    """What a path below `specs.declared` leads to: a type by its name, a variant, or a module."""
    at = next((at for at, part in enumerate(parts) if part[:1].isupper() and part != "TheConstants"), None)
    if at is None:
        return Declared(crate, parts)
    path, left = sources.module_file(crate, parts[1:at]), parts[at + 1:]
    items = [item for item in sources.declared(path) if item.name == parts[at] and item.kind in CODE_KINDS] if path else []
    if not items:
        raise Missing(f"{crate} has no {'.'.join(parts)}")
    if left in ((), ("TheVariants",)):
        return Declared(crate, parts)
    if left[0] == "TheVariants" and left[1].rstrip("'") not in {part.name for part in parts_of(items[0])}:
        raise Missing(f"{crate} has no {'.'.join(parts)}")
    return code_item(crate, items[0])


class CodeFile:
    """A file of src/: what the names in its clauses and signatures mean."""

    def __init__(self, crate, path):
        self.crate, self.path = crate, path
        self.lines = sources.lines_of(path)
        self.rust = {}
        text = "\n".join(self.lines)
        for taken in re.findall(r"^(?:pub )?use ([^;]*);", text, re.M):
            for steps, name in sources.used(taken):
                self.rust[name] = steps

    def block(self, line):
        """The first and the last line of the item around a line."""
        start = line - 1
        while start > 0 and not re.match(r"[^\s})]", self.lines[start]):
            start -= 1
        return start, sources.block_end(self.lines, start, 0)

    def scope(self, line):
        """What the `ghost use` lines bring at a line, of the file and of the block around it."""
        found = Scope()
        start, end = self.block(line)
        text = "\n".join(self.lines)
        for match in re.finditer(r"^( *)ghost use ([^;]*);", text, re.M):
            if not match[1] or start <= text.count("\n", 0, match.start()) <= end:
                found.bring(match[2])
        return found

    def ghosts_of(self, item):
        """The ghost members of a type or a trait: its own and those of its `Model`, each with its line; and whether it has a view."""
        found, has_view = [], False
        start, end = item.line - 1, sources.block_end(self.lines, item.line - 1, 0)
        found += self.ghosts_between(start, end)
        for number, line in enumerate(self.lines):
            if re.match(rf"impl(?:<.*?>)? Model for {item.name}\b", line):
                found += self.ghosts_between(number, sources.block_end(self.lines, number, 0))
                has_view = True
        return found, has_view

    def ghosts_between(self, start, end):
        """The ghost members in some lines: the text of each, and its line. The code of a view (`coded`) says nothing of values."""
        return self.braced(r"^ +(?:pub )?ghost (?!use |coded )\w+(?::| =) \{", start, end)

    def clauses_of(self, item):
        """What a function needs and promises: the text of each clause, and its line."""
        start = sources.signature(self.lines, item.line - 1, 0)[1]
        if not re.match(r" +(requires|ensures|ghost)\b", self.lines[start]):
            return []
        end = next(at for at in range(start, len(self.lines)) if re.match(r" *\{\}?$|.*\};$", self.lines[at]))
        return self.braced(r"^ +(?:requires|ensures|ghost)\*?(?: \w+:?)? \{", start, end)

    def braced(self, pattern, start, end):
        """What stands in the braces behind a pattern, in some lines."""
        text = "\n".join(self.lines[start:end + 1])
        for match in re.finditer(pattern, text, re.M):
            depth, at = 1, match.end()
            while depth:
                depth += {"{": 1, "}": -1}.get(text[at], 0)
                at += 1
            yield text[match.end():at - 1], start + text.count("\n", 0, match.start()) + 1

    def impls_of(self, name, function):
        """The ghost members of each impl of a trait for a type that has this function, with the line of each."""
        for number, line in enumerate(self.lines):
            if re.match(rf"impl\b.* for &?(?:'\w+ )?{name}\b", line):
                end = sources.block_end(self.lines, number, 0)
                if any(re.match(rf"    fn {function}\b", inner) for inner in self.lines[number:end]):
                    yield from self.ghosts_between(number, end)

    def types_in(self, signature):
        """The types and traits of this repository that a signature names."""
        found = []
        for name in re.findall(r"(?<![\w'])[A-Z]\w*", re.sub(r"/\*.*?\*/", "", signature)):
            target = self.rust_item(name)
            if target is not None:
                found.append(target)
        return found

    def rust_item(self, name):
        """What a name of Rust means in this file, if this repository declares it."""
        here = [item for item in sources.declared(self.path) if item.name == name and item.kind in CODE_KINDS]
        if here:
            return code_item(self.crate, here[0])
        steps = self.rust.get(name)
        if steps is None or steps[0] not in ("crate", "self", *sources.crates()) and sources.module_file(self.crate, steps[:1]) is None:
            return None
        for kind, crate, item, _ in sources.find(self.crate, steps):
            if kind == "item" and item.kind in CODE_KINDS:
                return code_item(crate, item)
        return None

    def clause_targets(self, text, line, signature):
        """What the names of a clause lead to: by `ghost use`, or a type or constant of Rust; the rest are parameters."""
        scope = self.scope(line)
        start, end = self.block(line)
        members = re.findall(r"\bghost (\w+)", "\n".join(self.lines[start:end + 1]))
        given = {*re.findall(r"\w+", signature), *members, *self.rust, "result", "self", "Self"}
        found = []
        parameters = re.findall(r"\b(\w+): ", signature)
        for path in Reading(text, lambda path: len(path) > 1 or scope.has(path[0]), given=parameters).paths:
            target = self.rust_item(path[0]) if not scope.has(path[0]) else None
            if target is None and (scope.has(path[0]) or path[0] not in given):
                target = resolved(scope, path, scope.item, f"{self.path.relative_to(ROOT)}:{line}")
            if target is not None:
                found.append(target)
        return found
