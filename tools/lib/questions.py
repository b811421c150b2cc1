"""Prints which definition answers which question, for `tools/show definitions`: for each file of crates/*/specs its question, and the contracts
that name it. The definitions of the headline come first, then those of the tree and of what is done to it, then those of test scripts.

A definition is a function or a proposition in the folder `specs/` of a crate, and a contract names it. For example, `Labels::denotes` promises
`label_depth` of `OpenBlocks` of wast_resolve_labels: the first position of the label among the labels of the enclosing blocks.

The question of a file is the first sentence of the comment at its head. One below in `QUESTIONS` replaces it, because
not every head says what a reader looks for. For example, the head of `Faults` of wast_base is "Faults, without where their texts lie in
memory", and a reader asks for the numbers and the texts of errors.

Below a question are the public functions whose contracts name a definition of the file. If there are none, it has the files by way of
which a contract leads there. A file that no public contract leads to is not listed: only private functions and proofs use it. Nor are files that
pass names on (`Lib`, `Tree`), and examples that compute (`Worked..`), of which the names come last.

It is a problem if a question is of a file that is not listed, or if a crate with definitions has no heading in `STAGES`.
"""

import functools
import re

import entry
import definitions
import sources

ROOT = sources.ROOT

# The crates below each heading: those of the headline first, then the others in the order in which a module goes through them.
STAGES = {
    "From a text to its module": ["wat_bytes", "wat_text", "wat_syntax", "wat_grammar", "wat_tokens"],
    "Encoding": ["wast_core", "wast_core_sections", "wast_core_conv", "wast_core_name_section", "wast_core_ranges"],
    "Validation": ["wast_valid_machine", "wast_valid", "wast_valid_tree"],
    "The binary format": ["wasm_out", "wasm_ops"],
    "Checks, and the resolved module": [
        "wast_resolve", "wast_resolve_rules", "wast_resolve_names", "wast_resolve_spaces", "wast_resolve_passes", "wast_resolve_laws", "wast_resolve_core_types",
    ],
    "Theorems of the text format": ["wat_laws", "wat_ready", "wat_meaning"],
    "For C, and for the commands": ["wat_messages", "rigyomad_c", "wat_command", "wat", "wat2json"],
    "Ids, index spaces, positions and errors": ["wast_base"],
    "The AST": ["wast_tree_nodes", "wast_tree_visit", "wast_tree_build", "wast_tree"],
    "The tree map": ["wast_tree_map"],
    "Abbreviations": ["wast_expand_inline"],
    "Type uses": ["wast_expand_keys", "wast_expand_types"],
    "Namespaces and labels": ["wast_resolve_namespace", "wast_resolve_labels"],
    "Example modules and programs": ["wast_rows_samples", "wast_rows", "unit_tests"],
    "Which commands a test script has": ["wast_script"],
    "What is written of commands": ["wast_script_json", "wast_script_records"],
}

# What a reader asks, if the head of the file does not say it.
QUESTIONS = {
    "wast_base Denoted": "Which number does an index denote, and what replaces it?",
    "wast_base Faults": "Which errors are there, with which numbers and texts?",
    "wast_base Filling": "Which ids are generated, and how far does the id counter rise?",
    "wast_base FirstUnmet": "Which check fails first, and which errors may report it?",
    "wast_base Gensym": "What does the id counter return?",
    "wast_base Ids": "When are two ids the same, and what is a generated id?",
    "wast_base Lending": "What does a `Seq` or a `Boxed` hold after a `&mut` into it is returned?",
    "wast_base Lines": "On which line and in which column is a position?",
    "wast_base Order": "In which order are names sorted?",
    "wast_base Outcomes": "What does a call return that may fail with the first failed check?",
    "wast_base Spaces": "Which index spaces are there, and what does an id denote in one?",
    "wast_tree_nodes Clauses": "Which rules must the parts of a well-formed module meet?",
    "wast_tree_nodes Customs": "What is a custom section called, and where is it?",
    "wast_tree_nodes DataBytes": "What are the bytes of a data segment?",
    "wast_tree_nodes Generations": "What is the greatest generated id in a module?",
    "wast_tree_nodes Hints": "What is a function with other branch hints?",
    "wast_tree_nodes Imports": "Which signatures does an import have, and after which fields is no import allowed?",
    "wast_tree_nodes Instrs": "Which instructions have a memory argument, open or close a block, or need the data count section?",
    "wast_tree_nodes Items": "Which items does a module have, and in which order are they numbered?",
    "wast_tree_nodes Known": "What does each id of a module refer to?",
    "wast_tree_nodes Resolved": "When is a list of fields resolved?",
    "wast_tree_nodes Sites": "What is checked or looked up in a module besides its items, in which order?",
    "wast_tree_nodes Types": "Which types does a field define?",
    "wast_tree_nodes Uncovered": "Which constructs are unsupported (E11)?",
    "wast_tree_nodes WellFormed": "Which lists of fields are well formed, and which rule fails?",
    "wast_tree_nodes WrittenOut": "When is nothing inline in a list of fields?",
    "wast_tree_visit FirstUncovered": "Which unsupported construct comes first, and what is its closest position?",
    "wast_tree_visit IllFormed": "Which rule of well-formedness fails first, and what is its closest position?",
    "wast_tree_visit Surveys": "Does an index of a data segment occur in the fields?",
    "wast_tree_visit Visits": "What does a visitor see, in which order?",
    "wast_tree_build Makers": "What does a `TreeBuilder` build, and what does it keep if allocation fails?",
    "wast_tree_map Laws": "Which theorems hold of tree maps?",
    "wast_tree_map Mapped": "What does a change of indices, type uses and ids make of the tree?",
    "wast_tree_map Named": "What does a part hold after its ids are renamed?",
    "wast_expand_inline Laws": "Which theorems hold of desugared fields?",
    "wast_expand_inline Referring": "How does a desugared field refer to its item?",
    "wast_expand_inline Segments": "How large do inline data and elements make a memory or a table?",
    "wast_expand_inline WriteOut": "What does a field expand to?",
    "wast_expand_inline Written": "What is the desugared list of fields, and how many ids does it take?",
    "wast_expand_keys Completed": "What is the list of fields with the appended types, if no id is generated?",
    "wast_expand_keys EligibleTypes": "Which type definitions can a type use without an index resolve to?",
    "wast_expand_keys Expanded": "What is the list of fields in which each type use has the index that it needs?",
    "wast_expand_keys Expanders": "What do the look-ups by signature of an `Expander` return?",
    "wast_expand_keys ImpliedTypes": "Which types are appended for type uses?",
    "wast_expand_types Laws": "Which theorems hold of expanded fields?",
    "wast_expand_keys NeedingUses": "Which type uses need an index, with which signature?",
    "wast_expand_keys Numbers": "When are two signatures equal for a type use?",
    "wast_expand_keys Positioned": "What is the list of fields in which type uses have positions, and no id is generated?",
    "wast_expand_keys Signatures": "When are two signatures equal as the source has them?",
    "wast_expand_keys TypeSpace": "Which types does the module have, in which order?",
    "wast_resolve_namespace Filling": "Which ids are duplicates, and what does a filled namespace hold?",
    "wast_resolve_namespace Namespaces": "What is a namespace?",
    "wast_resolve_labels Asked": "Which number replaces a label, and when is the label of an `else` or `end` wrong?",
    "wast_resolve_labels Laws": "Which theorems tie the enclosing blocks to the instructions before them?",
    "wast_resolve_labels OpenBlocks": "What depth does a label have?",
    "wast_resolve_labels Turns": "Which blocks enclose a position in an expression?",
    "wast_resolve_core_types CoreTypes": "What does resolving a type do with a resolver of the caller?",
    "wast_resolve_rules Demands": "Which checks does resolving make, in which order?",
    "wast_resolve_rules Early": "Which errors can be found without resolving?",
    "wast_resolve_rules Explicit": "What is the list of fields with all abbreviations expanded?",
    "wast_resolve_rules Finished": "What is the resolved list of fields, with generated ids?",
    "wast_resolve_rules ImportOrder": "When is an import rejected (E1)?",
    "wast_resolve_rules Matches": "When does an inline type match the index beside it?",
    "wast_resolve_rules Resolved": "What is the resolved list of fields?",
    "wast_resolve_rules Scopes": "What do checks read of a module?",
    "wast_resolve_rules Stripped": "What is left of a resolved list without generated ids?",
    "wast_resolve_names Laws": "What does resolving a type do with the resolver of a module?",
    "wast_resolve_names LookUps": "What does a look-up require, and what does it return?",
    "wast_resolve_names Resolvers": "Which ids do the `Names` of a module know?",
    "wast_resolve_names Walking": "What does a resolving walk do to a part of the tree?",
    "wast_resolve_laws Extended": "How does a finite map of names become a map of all names?",
    "wast_resolve_laws Laws": "Do generated ids change a check, and is the result resolved?",
    "wast_resolve_laws Renaming": "What changes if all ids are renamed?",
    "wast_resolve_laws Rests": "What changes if a module is resolved again?",
    "wast_resolve Laws": "Which generated ids do the `Names` of a module know?",
    "wast_resolve_passes NumberedBodies": "In which function bodies is nothing left to number?",
    "wast_expand_types Binding": "In which function bodies does no type use need a type?",
    "wasm_ops Codes": "When is no encoding the beginning of another?",
    "wasm_ops ConstExprs": "Where does a constant expression end?",
    "wasm_ops Entities": "How are types of tables, memories, globals, tags and imports encoded?",
    "wasm_ops Leb128": "How is a number encoded?",
    "wasm_ops Memargs": "How is a memory argument encoded?",
    "wasm_ops Rooms": "What is reserved room for bytes?",
    "wasm_ops SinkLaws": "Which rules must a sink keep?",
    "wasm_ops Sinks": "What does a writer do to a sink?",
    "wasm_ops Spelling": "How are types and names encoded, and when are their numbers in range?",
    "wasm_ops Table": "Which instructions are there?",
    "wasm_out Bodies": "How is the body of a function encoded?",
    "wasm_out Built": "What does a builder do?",
    "wasm_out Hints": "How is the section of branch hints encoded?",
    "wasm_out NameSectionBytes": "How is the name section encoded?",
    "wasm_out Parts": "Which sections does a module have, with which bytes?",
    "wasm_out Readable": "When is a section supported, with instructions of the table and UTF-8 names?",
    "wasm_out Reads": "When do bytes count as a module?",
    "wast_core_conv Encodable": "What may the encoder be given?",
    "wast_core_conv FieldEntries": "What is a field as an entry of a section?",
    "wast_core_conv Hints": "What is the offset of a branch hint in the body?",
    "wast_core_conv Values": "What is a part of the AST as a value of the binary format?",
    "wast_tree_nodes Kinds": "What kind is a field of?",
    "wast_core_ranges FieldRanges": "In which range of fields are those of a kind?",
    "wast_core_name_section GivenNames": "What is the name of an item in the name section?",
    "wast_core_name_section ModuleNames": "Which subsections does the name section have?",
    "wast_core_name_section WithinItems": "Which locals, labels, fields and parameters have names?",
    "wast_core AtRest": "What do a second `resolve` and a second `encode_module` return?",
    "wast_core Bounded": "When is a module too large (E10)?",
    "wast_core_sections DataCounts": "When does a module have a data count section?",
    "wast_core FiniteNames": "Which renaming does a finite map of names give?",
    "wast_core Front": "Which sections stay the same after renaming?",
    "wast_core Headline": "What do `resolve` and `encode_module` return, and what do they leave?",
    "wast_core_sections HintPlaces": "Where do branch hints point in the bytes?",
    "wast_core_sections Hints": "Which branch hints does a module have?",
    "wast_core Laws": "Which theorems hold of meaning and size?",
    "wast_core Meaning": "What does a text module mean?",
    "wast_core Modules": "Which modules are well formed and ready to be resolved?",
    "wast_core OtherForms": "Are the same constructs unsupported after renaming?",
    "wast_core_sections Slots": "In which order are the sections?",
    "wast_core Writing": "What does `put_module` append?",
    "wast_core_sections Sections": "What do fields add to each section?",
    "wast_core_sections Writable": "When are the bytes of resolved fields in range?",
    "wast_core_sections Encoding": "What does encoding resolved fields return?",
    "wat_ready Ready": "Is what the rules of the text format read well formed, without generated ids?",
    "wat_meaning Laws": "Does a tree mean the same wherever its strings are in memory?",
    "wat_bytes Texts": "What do the bytes of a text encode?",
    "wat_bytes Names": "What do the ids of a text denote?",
    "wat_bytes OneText": "Can two calls return different bytes for one text?",
    "wast_rows Starting": "What does a start field that the caller appends change?",
}

# What comes first of its crate: the definitions of the headline.
FIRST = ["wat_bytes Texts", "wat_text Denotes", "wast_core Headline", "wasm_out Reads"]

PASSING = re.compile(r"^(Lib|Tree)$")
WORKED = re.compile(r"Worked|Examples")

# How many functions a cell has.
SHOWN = 3

# The crates for callers.
PUBLIC = [*sources.FACES, "wat_text", "wat_bytes"]

# Traits and types of the library that have contracts of this repository.
LIBRARY = {"Eq", "PartialEq", "Ord", "PartialOrd", "Hash", "Display", "Vec"}


class Contracts:
    """What public contracts name: `named` has for each file its functions, `ways` the files whose definitions name it."""

    def __init__(self):
        self.named, self.ways, self.steps = {}, {}, {}
        found = []
        for label, targets in contracts():
            for target in targets:
                if isinstance(target, definitions.Definition):
                    self.named.setdefault(target.module.path, {})[label] = True
                found.append((target, 0))
        self.follow(found)

    def follow(self, found):
        """Follows names from the contracts, nearest first."""
        seen = set()
        while found:
            behind = []
            for target, step in found:
                if target in seen:
                    continue
                seen.add(target)
                home = target.module.path if isinstance(target, definitions.Definition) else None
                if home is not None:
                    self.steps.setdefault(home, step)
                for name in target.names:
                    if home is not None and isinstance(name, definitions.Definition) and name.module.path != home:
                        self.ways.setdefault(name.module.path, {})[home] = True
                    behind.append((name, step + 1))
            found = behind

    def leads_to(self, path):
        """Whether a contract names a file, or a definition that a contract leads to."""
        return path in self.named or path in self.ways

    def cell(self, path):
        """The functions that name a file, or the files by way of which they do."""
        labels = sorted(self.named.get(path, {}), key=lambda label: (label not in public_names(), " for " in label, label))
        if labels:
            more = len(labels) - SHOWN
            return ", ".join(f"`{label}`" for label in labels[:SHOWN]) + (f" and {more} more" if more > 0 else "")
        ways = sorted(self.ways.get(path, {}), key=lambda way: (self.steps[way], way.stem != "Headline", way))
        return "by way of " + ", ".join(f"`{way.stem}` of {crate_of(way)}" for way in ways[:2])


@functools.lru_cache(maxsize=None)
def contracts_of_callers():
    """What public contracts name, read once."""
    return Contracts()


def crate_of(path):
    return path.relative_to(ROOT).parts[1]


@functools.lru_cache(maxsize=None)
def surface():
    """What callers of a crate can name: its place, with the path by which they name it; those of public crates come first."""
    found = {}
    for crate in [*PUBLIC, *sources.crates()]:
        if (ROOT / "crates" / crate / "src/lib.rt").exists():
            for prefix, item in sources.surface(crate):
                found.setdefault((item.path, item.line), "::".join([*(step for step in prefix if step != "laws"), item.name]))
    return found


@functools.lru_cache(maxsize=None)
def public_names():
    """The names of the functions of public crates."""
    found = set()
    for crate in PUBLIC:
        for prefix, item in sources.surface(crate):
            found.update([surface()[(item.path, item.line)], *(f"{item.name}::{part.name}" for part in item.members)])
    return found


def contracts():
    """Each contract that a caller meets: the function, or a type and the trait that it implements, and what the clauses name."""
    names = {path.rsplit("::", 1)[-1] for path in surface().values()}
    for crate, item in sources.all_items():
        if (item.path, item.line) not in surface():
            continue
        calls = [(item, surface()[(item.path, item.line)])] if item.kind == "fn" else [(part, f"{item.name}::{part.name}") for part in item.members if part.kind == "fn"]
        for call, label in calls:
            if call.is_public and call.clauses:
                file = definitions.CodeFile(crate, call.path)
                start, _ = file.block(call.line)
                signature = " ".join([call.signature, *([file.lines[start]] if start != call.line - 1 else [])])
                yield label, targets(file, file.clauses_of(call), signature)
    for crate in sources.crates():
        for path in sources.gathered(crate):
            file = definitions.CodeFile(crate, path)
            for number, line in enumerate(file.lines):
                match = re.match(r"impl(?:<.*?>)? (\w+)(?:<.*>)? for &?(?:'\w+ )?(\w+)", line)
                if match and match[1] != "Model" and {match[1], match[2]} <= names | LIBRARY:
                    yield f"{match[1]} for {match[2]}", targets(file, file.ghosts_between(number, sources.block_end(file.lines, number, 0)), line)


def targets(file, texts, signature):
    """What the names of some clauses lead to. What another type has by a trait is in brackets, as in `⟦<ValType<'a> as Hash>⟧.hash_input`."""
    return [target for text, line in texts for target in file.clause_targets(re.sub(r"⟦[^⟧]*⟧[.\w]*", "", text), line, signature)]


def head_of(path):
    """The first sentence of the comment at the head of a file."""
    taken = []
    for line in sources.lines_of(path):
        if not line.startswith("--"):
            break
        taken.append(line[2:].strip())
    return sources.first_sentence(taken)


def files_of(crate):
    """The files of definitions of a crate, with their titles."""
    folder = ROOT / "crates" / crate / "specs"
    for path in sorted(folder.rglob("*.antt")):
        yield path, str(path.relative_to(folder).with_suffix(""))


def rows_of(crate, contents):
    """The files of a crate that are listed, each with its key, its question and what names it."""
    for path, title in sorted(files_of(crate), key=lambda file: f"{crate} {file[1]}" not in FIRST):
        if not PASSING.match(title) and not WORKED.search(title) and contents.leads_to(path):
            key = f"{crate} {title}"
            yield key, QUESTIONS.get(key) or head_of(path), path.relative_to(ROOT), contents.cell(path)


def problems():
    """What is wrong with the tables of this module."""
    contents = contracts_of_callers()
    named = [crate for crates in STAGES.values() for crate in crates]
    keys = {row[0] for crate in named for row in rows_of(crate, contents)}
    for key in sorted(set(QUESTIONS) - keys):
        yield f"tools/lib/questions.py: the question of {key} is not listed"
    for crate in sources.crates():
        if (ROOT / "crates" / crate / "specs").is_dir() and crate not in named:
            yield f"tools/lib/questions.py: {crate} has no heading"


def main(words):
    """Prints the questions, or those that have all these words in them, in the name of the file or in what names it."""
    contents, count = contracts_of_callers(), 0
    for stage, crates in STAGES.items():
        found = [row for crate in crates for row in rows_of(crate, contents) if all(word.lower() in " ".join(map(str, row[1:])).lower() for word in words)]
        if found:
            print(f"{chr(10) if count else ''}{stage}")
        for _, question, path, cell in found:
            print(f"  {question}\n    {path}: {cell}")
        count += len(found)
    if not count:
        raise entry.Failed(f"no question has these words: {' '.join(words)}")
    worked = [f"{crate} {title}" for crates in STAGES.values() for crate in crates for _, title in files_of(crate) if WORKED.search(title)]
    if not words:
        print(f"\nExamples that compute: {', '.join(worked)}")
    return 0
