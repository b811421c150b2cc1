"""Counts the definitions that a reader has to believe for a contract, for `tools/show trust`: those that its clauses name, and those that these name in turn.

Without a call these are the contracts of `encode_text`, `Module::resolve`, `encode_module` and the theorems: each, by crate, and all of them. With
`--chains` each definition has a shortest chain of names from the contract to it.

A contract is here what a function requires and ensures, and the ghost members of the types in its signature, because contracts see a
type by its view. Each name in it is followed to its definition in crates/*/specs. Types of src/ are counted apart, and their fields
and ghost members are followed too. Names of the kit's library are counted apart and not followed. Lemmas are not counted, because
they are proved. The lines of a definition are its signature and its clauses, without comments and blank lines. A call that names
several functions, for example `resolve`, stands for all of them. It is a problem if a name leads nowhere, because what it means would be missing
from the count.
"""

import functools

import entry
import definitions
import sources

ROOT = sources.ROOT

# The calls that carry the headlines, and the theorems that docs/PROVED.md has beside them.
HEADLINE = ("Module::resolve", "EncodeOptions::encode_module", "encode_text")
THEOREMS = ("one_result", "meaning_laws", "one_meaning", "renaming", "at_rest", "hint_places")


class NoSuchCall(Exception):
    """No contract has this name."""


class Closure:
    """What contracts lead to: `why` has for each target what named it first, a target or a call; `missing` has what leads nowhere."""

    def __init__(self):
        self.why, self.missing = {}, {}

    def add(self, call):
        """Follows the names of one more contract, nearest first, so that the chains are shortest."""
        found = [(target, call) for target in self.begin(call)]
        while found:
            behind = []
            for target, why in found:
                if target not in self.why:
                    self.why[target] = why
                    behind += [(name, target) for name in self.names(target)]
            found = behind
        return self

    def names(self, target):
        """What a target names; what leads nowhere is kept."""
        try:
            return target.names
        except definitions.Missing as missing:
            self.missing[target.place()] = str(missing)
            return []

    def begin(self, call):
        """What a contract names itself."""
        found = []
        for file, texts, signatures in contracts(call):
            for signature in signatures:
                found += file.types_in(signature)
            for text, line in texts:
                try:
                    found += file.clause_targets(text, line, " ".join(signatures))
                except definitions.Missing as missing:
                    self.missing[f"{file.path.relative_to(ROOT)}:{line}"] = str(missing)
        return found

    def definitions(self):
        return [target for target in self.why if isinstance(target, definitions.Definition) and not target.is_lemma]

    def types(self):
        return [target for target in self.why if isinstance(target, definitions.CodeItem)]

    def of_kit(self):
        return [target for target in self.why if type(target) is definitions.KitName]

    def chain(self, target):
        """From the contract to a target."""
        steps = [str(target)]
        while target in self.why:
            target = self.why[target]
            steps.insert(0, str(target))
        return steps


def contracts(call):
    """The contracts of a name: for each its file, its texts with their lines, and the signatures of the function and of its impl."""
    found = []
    name = call.split("::")
    for item in sources.functions(sources.crates(), call):
        if item.is_public:
            file = definitions.CodeFile(item.path.relative_to(ROOT).parts[1], item.path)
            start, _ = file.block(item.line)
            around = [file.lines[start]] if start != item.line - 1 else []
            found.append((file, list(file.clauses_of(item)), [item.signature, *around]))
    for crate in sources.crates() if len(name) > 1 else []:
        for path in sources.gathered(crate):
            file = definitions.CodeFile(crate, path)
            ghosts = list(file.impls_of(name[-2], name[-1]))
            if ghosts:
                found.append((file, ghosts, [file.lines[file.block(line)[0]] for _, line in ghosts]))
    if not found:
        raise NoSuchCall(f"no public contract: {call}")
    return found


def counted(targets):
    """How many there are, and how many lines they have."""
    return len(targets), sum(len(target.lines) for target in targets)


@functools.lru_cache(maxsize=None)
def all_of(calls):
    """What several contracts lead to, each definition once."""
    closure = Closure()
    for call in calls:
        closure.add(call)
    return closure


def tell(title, closure):
    """Prints how much a contract leads to, and how much of it is in each crate."""
    found = closure.definitions()
    print("%s: %d definitions with %d lines" % (title, *counted(found)))
    for crate in sorted({it.crate for it in found}):
        print("    %s: %d with %d" % (crate, *counted([it for it in found if it.crate == crate])))
    print("    types of the code: %d with %d; names of the kit: %d" % (*counted(closure.types()), len(closure.of_kit())))
    for place, problem in closure.missing.items():
        print(f"    {place}: {problem}")


def tell_chains(closure):
    """Prints each definition with a shortest chain from the contract."""
    for target in sorted(closure.definitions(), key=lambda it: (it.module.path, it.line)):
        print(f"{target.place()}: {' > '.join(closure.chain(target))}")


def problems():
    """The names that lead nowhere."""
    for place, problem in all_of(HEADLINE + THEOREMS).missing.items():
        yield f"{place}: {problem}"


def main(arguments):
    try:
        if not arguments:
            for call in HEADLINE + THEOREMS:
                tell(call, Closure().add(call))
            tell("all of these", all_of(HEADLINE + THEOREMS))
        elif not arguments[0].startswith("-") and arguments[1:] in ([], ["--chains"]):
            closure = Closure().add(arguments[0])
            tell(arguments[0], closure)
            if arguments[1:]:
                tell_chains(closure)
        else:
            raise entry.WrongWords(f"unexpected words: {' '.join(arguments)}")
    except NoSuchCall as why:
        raise entry.WrongWords(why)
    return 0
