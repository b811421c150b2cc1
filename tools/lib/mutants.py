"""Finds which functions a mutant edits, and what a crate's contracts are, for `tools/wrong-bodies`.

It goes by the layout that `rt fmt` gives, and names a function as the prover does: `IndexFromU32::from` of the module `ids` is the
call of `impl From<u32> for Index<'_>` in src/ids.rt. For example, the mutant of `edits.py` edits `labels::Labels::number`.
"""

import collections
import functools
import hashlib
import os
import pathlib
import re
import shutil
import subprocess
import sys
import tempfile

import edits
import entry

FN = re.compile(r"( *)(?:pub(?:\([a-z]+\))? )?(?:const )?(?:unsafe )?(?:extern \"C\" )?fn (\w+)")
SCOPE = re.compile(r"( *)(?:pub(?:\([a-z]+\))? )?(?:(?:mod|trait) (\w+)|impl\b)")
TYPE = re.compile(r"^(?:pub(?:\([a-z]+\))? )?(?:struct|enum) (\w+)", re.M)
NAMED = re.compile(r"(?:pub(?:\([a-z]+\))? )?(?:(?:const|static|struct|enum|type|trait) |use (?:\w+::)*)(\w+)")

# A function: its name, its module, the number of its first line, of the line before its body, and of its last line.
Function = collections.namedtuple("Function", "name module start head end")


def parts(text):
    """What commas part at the top of a text: `A<B, C>, D` is `A<B, C>` and `D`."""
    found, depth = [""], 0
    for sign in text:
        depth += {"<": 1, "(": 1, "[": 1, ">": -1, ")": -1, "]": -1}.get(sign, 0)
        if sign == "," and not depth:
            found.append("")
        else:
            found[-1] += sign
    return [part.strip() for part in found if part.strip()]


def word(text, generic):
    """A type in a name of the prover, without parameters: `(Id<'a>, u32)` is Tuple2IdU32, and `&Seq<T>` is RefSeq."""
    text = re.sub(r"^&('\w+ )?", "&", text.strip())
    for sign, name in (("&mut ", "RefMut"), ("&", "Ref"), ("[", "Slice")):
        if text.startswith(sign):
            return name + word(text[len(sign):].rstrip("]"), generic)
    if text.startswith("("):
        inner = parts(text[1:-1])
        return f"Tuple{len(inner)}" + "".join(word(part, generic) for part in inner)
    if text in generic or text.startswith("'"):
        return ""
    head, _, rest = text.partition("<")
    names = [name[:1].upper() + name[1:] for name in head.split("::")]
    return "".join(names + [word(part, generic) for part in parts(rest[:-1])])


def impl_word(head):
    """The name of an impl, from its first lines as one."""
    text, generic = head.split(" where ")[0].rstrip(" {").replace("impl", "", 1), []
    if text.startswith("<"):
        depth, at = 0, 0
        for at, sign in enumerate(text):
            depth += {"<": 1, ">": -1}.get(sign, 0) if text[at - 1] != "-" else 0
            if not depth:
                break
        generic, text = [part.split(":")[0].strip() for part in parts(text[1:at])], text[at + 1:]
    kind, _, of = text.strip().rpartition(" for ")
    if kind:
        return word(of, generic) + word(re.sub(r"^[\w:]*::", "", kind), generic)
    head, _, rest = of.partition("<")
    return "+".join(filter(None, [word(head, generic), *(word(part, generic) for part in parts(rest[:-1]))]))


def indent(line):
    """How far a line is indented."""
    return len(line) - len(line.lstrip(" "))


def functions(text, module, homes):
    """The functions of a source file in a module; `homes` has the modules of types, by whose module their calls are named."""
    lines, found, scopes, here = text.split("\n"), [], [], TYPE.findall(text)
    for number, line in enumerate(lines):
        while scopes and line.strip() and indent(line) <= scopes[-1][0]:
            scopes.pop()
        match = SCOPE.match(line)
        if match and not line.rstrip().endswith((";", "}")):
            last = next(at for at in range(number, len(lines)) if lines[at].rstrip().endswith("{"))
            name = match.group(2) or impl_word(" ".join(part.strip() for part in lines[number:last + 1]))
            scopes.append((indent(line), name))
            continue
        match = FN.match(line)
        if not match:
            continue
        at, depth = number, len(match.group(1))
        while not lines[at].rstrip().endswith((";", "{}")) and not (lines[at].endswith("{") and indent(lines[at]) == depth):
            at += 1
        end = at
        if lines[at].endswith("{"):
            end = next(last for last in range(at + 1, len(lines)) if lines[last] == " " * depth + "}")
        names = [name for _, name in scopes]
        home = homes[names[0]] if names and names[0] in homes and names[0] not in here else module
        found.append(Function("::".join([*filter(None, [home]), *names, match.group(2)]), home, number, at, end))
    return found


def module_of(path):
    """The module of a source file, from its path within the crate: `src/a/b.rt` is a::b, and the root is empty."""
    names = list(path.with_suffix("").parts[1:])
    return "::".join(names[:-1] if names[-1] in ("lib", "main", "mod") else names)


@functools.lru_cache(maxsize=None)
def functions_of(crate):
    """The functions of each source file of a crate, by the path of the file within it."""
    folder = edits.ROOT / "crates" / crate
    texts = {path.relative_to(folder): path.read_text(encoding="utf-8") for path in sorted((folder / "src").rglob("*.rt"))}
    homes = {name: module_of(path) for path, text in texts.items() for name in TYPE.findall(text)}
    return {path: functions(text, module_of(path), homes) for path, text in texts.items()}


def users(crate, name):
    """The functions of a crate that name an item, as a constant, and those of its file that call these, whose proofs may use laws of it."""
    found, left = set(), [(name, None)]
    while left:
        name, only = left.pop()
        for path, there in functions_of(crate).items():
            lines = (edits.ROOT / "crates" / crate / path).read_text(encoding="utf-8").split("\n")
            new = {(path, it) for it in there if only in (None, path) and re.search(rf"\b{name}\b", "\n".join(lines[it.start:it.end + 1]))} - found
            found |= new
            left += [(it.name.split("::")[-1], path) for _, it in new]
    return found


@functools.lru_cache(maxsize=None)
def edited(edit):
    """The functions that a mutant edits, as pairs of a file and a function; of an item that is no function, those that name it."""
    crate, found = edits.crate_of(edit), set()
    for path, text in edits.applied(edit).items():
        right, wrong = (crate / path).read_text(encoding="utf-8").split("\n"), text.split("\n")
        for number in [at for at, (one, other) in enumerate(zip(right, wrong)) if one != other]:
            here = [it for it in functions_of(crate.name)[path] if it.start <= number <= it.end]
            if here:
                found.add((path, here[-1]))
                continue
            item = next((match for line in right[number::-1] for match in [NAMED.match(line)] if match), None)
            found |= users(crate.name, item.group(1)) if item else set()
    return frozenset(found)


def checksum(text):
    """A short checksum of a text."""
    return hashlib.sha256(text.encode()).hexdigest()[:12]


@functools.lru_cache(maxsize=None)
def contracts(crate):
    """A checksum of a crate's contracts: each function as far as its body, what is `ghost` in types and traits, and specs/, without comments."""
    folder, found = edits.ROOT / "crates" / crate, []
    for path, there in functions_of(crate).items():
        text = (folder / path).read_text(encoding="utf-8")
        lines = text.split("\n")
        for it in there:
            if "#[test]" not in lines[max(it.start - 3, 0):it.start]:
                found.append("\n".join([it.name, *lines[it.start:it.head + 1]]))
        found += re.findall(r"^ *ghost (?!use )[^;]*;", text, re.M)
    for path in sorted((folder / "specs").rglob("*.antt")):
        found.append(path.read_text(encoding="utf-8"))
    bare = [re.sub(r"(^|\s)(--|//[/!]?)(\s.*)?$", "", text, flags=re.M) for text in found]
    return checksum("\n".join(sorted(" ".join(text.split()) for text in bare)))


# Verdicts: the proof of a function that the mutant edits fails, no proof fails, the prover gives up, and it is no text that can be checked.
REFUSED, PROVED, AT_LIMIT, BROKEN = "refused", "not refused", "no verdict", "does not compile"

# The most mutants of one check, which is lost as a whole if it is interrupted.
MOST = 40

# A line of a check that says where something is wrong, and one that only says that a name is gone, in a proof file.
PLACED = re.compile(r"(?:note: )?(?:\./)?((?:src|specs|proofs)/\S+?):(\d+):\d+: (.*)")
NAME_GONE = re.compile(r"has no field|is not in scope|has no `|was not admitted")


def owner(name):
    """The function that the prover's name of it, or of a closure in it, belongs to, without the crate: `m::fn::f::map` is of m::f."""
    names = name.split("::")[1:]
    at = names.index("fn") if "fn" in names else len(names)
    return "::".join(names[:at] + names[at + 1:at + 2])


def told(said):
    """What a check says of each function: pairs of what is behind the name on its line, and the places where something is wrong in it."""
    found, above = collections.defaultdict(list), []
    placed = [it for it in map(PLACED.match, said.split("\n")) if it]
    for line in said.split("\n"):
        match, place = re.match(r"fn (\S+): (.*)", line), PLACED.match(line)
        if match:
            folder = "/".join(["proofs", *match.group(1).split("::")[1:], ""])
            places = [it for it in above if it.group(1).startswith("src/")] + [it for it in placed if it.group(1).startswith(folder)]
            found[owner(match.group(1))].append((match.group(2), places))
        above = [] if match else above + [place] * bool(place)
    return found


def verdict_of(here, is_alone):
    """The verdict on a mutant by the names of the functions that it edits and what a check says of them, or None if it has to be tried alone."""
    for name, status, places in here:
        goals = re.search(r"did not prove ([^;]*)", status)
        if goals:
            return REFUSED, name, " ".join(re.findall(r"`([^`]+)`", goals.group(1)))
        for it in places if status.startswith("not proved") else []:
            if is_alone or not NAME_GONE.search(it.group(3)):
                if NAME_GONE.search(it.group(3)):
                    return REFUSED if it.group(1).startswith("proofs/") else BROKEN, name, f"{it.group(1)}: {it.group(3)}"[:120]
                goal = re.search(r"^error: `([^`]+)`: |\(`([^`]+)`\)", it.group(3))
                return REFUSED, name, (goal.group(1) or goal.group(2)) if goal else f"{it.group(1)}: {it.group(3)}"[:120]
    for name, status, _ in here if is_alone else []:
        if status != "proved":
            return AT_LIMIT if status.startswith("could not tell") else REFUSED, name, status[:120]
    return (PROVED, "", "") if here and all(status == "proved" for _, status, _ in here) else None


class Checks:
    """Checks of copies of one crate, each over what those before it proved."""

    def __init__(self, crate, room, log):
        sys.path.insert(0, str(entry.kit() / "bin"))
        import rtlib

        self.crate, self.room, self.log, self.misfits, self.count = crate, room, log, {}, 0
        made = rtlib.Crate(str(edits.ROOT / "crates" / crate), str(edits.ROOT), {})
        lacking = [below.name for below in made.below() if not below.is_built()]
        if lacking:
            raise entry.Failed(f"crates below are not proved: {' '.join(lacking)}: run `rt check` in crates/{crate}")
        self.words = [rtlib.RATTLE, "check", *made.words(["--jobs", "1"], keeps=False), "--incremental", str(room / "incremental")]
        if os.path.isdir(f"{made.folder}/out/incremental"):
            shutil.copytree(f"{made.folder}/out/incremental", room / "incremental")

    def said(self, texts, wanted):
        """What a check of these functions, a dictionary of their modules by their names, prints of the crate with these texts."""
        for part in ("src", "specs", "proofs"):
            shutil.rmtree(self.room / part, ignore_errors=True)
            if (edits.ROOT / "crates" / self.crate / part).is_dir():
                shutil.copytree(edits.ROOT / "crates" / self.crate / part, self.room / part)
        for path, text in texts.items():
            (self.room / path).write_text(text, encoding="utf-8")
        while True:
            only = sorted({self.misfits.get(name, name) for name in wanted})
            words = [*self.words, *(word for name in only for word in ("--only", name))]
            ran = subprocess.run(words, cwd=self.room, stdin=subprocess.DEVNULL, stdout=subprocess.PIPE, stderr=subprocess.STDOUT)
            said = ran.stdout.decode(errors="replace")
            self.count += 1
            if self.log:
                os.makedirs(self.log, exist_ok=True)
                pathlib.Path(self.log, f"{self.crate}-{self.count}.log").write_text("\n".join([*only, said]), encoding="utf-8")
            if ran.returncode < 0:
                raise entry.Failed(f"a check was killed: {-ran.returncode}")
            unknown = re.search(r"error: `\w+` has no function `([^`]+)`", said)
            if not unknown or unknown.group(1) not in wanted or unknown.group(1) in self.misfits:
                return said
            self.misfits[unknown.group(1)] = wanted[unknown.group(1)]


def batch_of(left):
    """Some of these mutants, no two of which edit one function, the texts with them all, and those left over."""
    batch, texts, taken, rest = [], {}, set(), []
    for edit in left:
        try:
            fits = len(batch) < MOST and not taken & edited(edit) and (edited(edit) or not batch)
            over = edits.applied(edit, texts) if fits else None
        except edits.BadEdit:
            over = None
        if over is None:
            rest.append(edit)
        else:
            batch, texts, taken = batch + [edit], over, taken | edited(edit)
    return batch, texts, rest


def judged(crate, chosen, log=None):
    """Tries mutants of a crate, and yields each with its verdict, the function whose proof fails, and the goal that is open."""
    good = []
    for edit in chosen:
        try:
            good += [edit] if edits.applied(edit) else []
        except edits.BadEdit as why:
            yield edit, BROKEN, "", str(why)
    groups = [good] if good else []
    with tempfile.TemporaryDirectory(prefix="wrong-bodies-") as room:
        checks = Checks(crate, pathlib.Path(room), log) if good else None
        while groups:
            batch, texts, rest = batch_of(groups.pop())
            groups += [rest] if rest else []
            said = checks.said(texts, {it.name: it.module for edit in batch for _, it in edited(edit)})
            is_whole, lines, left = re.search(r"^only=\d", said, re.M), told(said), []
            for edit in batch:
                here = [(it.name, *line) for _, it in edited(edit) for line in lines.get(it.name, [])]
                verdict = verdict_of(here, len(batch) == 1) if is_whole else None
                if verdict:
                    yield (edit, *verdict)
                else:
                    left.append(edit)
            if left == batch and len(batch) == 1:
                yield batch[0], BROKEN, "", next((line for line in said.split("\n") if "error" in line), "no function was judged")[:120]
            elif left == batch:
                places = {(pathlib.Path(it.group(1)), int(it.group(2)) - 1) for it in map(PLACED.match, said.split("\n")) if it}
                near = [edit for edit in batch if any((path, n) in places for path, it in edited(edit) for n in range(it.start, it.end + 1))]
                apart = near if 0 < len(near) < len(batch) else batch[:len(batch) // 2]
                groups += [[edit for edit in batch if edit not in apart], apart]
            elif left:
                groups.append(left)
