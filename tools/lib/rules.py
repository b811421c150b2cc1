"""Prints which definition states which rule of the text format, by the sections of the WebAssembly Core Specification 3.0, for `tools/show grammar`.

A rule is a function of the bytes or the tokens that are left. It returns what they mean and what is left after them, and `None` if the
rule does not produce them. For example, `limits` of `Types` of wat_syntax reads `1 2` as the minimum 1 and the maximum 2. `Tokens` of wat_syntax has
the words in which the rules are written.

A row is made of a definition whose comment has a production, such as `limits ::= n:u64`, or names a section, such as `(text format:
limits)` or `(branch hinting)`. A comment without a section belongs to the section of the text format before it in its file, or
to that of the head of the file. A definition without a comment belongs to the definition before it, and has no row.

A comment that names several sections has a row for each, because one definition may state rules of several sections. Each row has
the sentences up to the one that names the next section. For example, the comment of `tagfield` has a row for `tags` and one for
`tag types`.

It is a problem if a section is in none of the lists below.
"""

import re

import entry

ROOT = entry.ROOT

# The files: that of a whole module, and the others in the order of the specification.
FILES = [
    "wat_text/specs/Denotes",
    "wat_grammar/specs/Characters",
    "wat_grammar/specs/Tokens",
    "wat_grammar/specs/Space",
    "wat_grammar/specs/Integers",
    "wat_grammar/specs/Floats",
    "wat_grammar/specs/Strings",
    "wat_tokens/specs/Words",
    "wat_syntax/specs/Values",
    "wat_syntax/specs/Keywords",
    "wat_syntax/specs/Types",
    "wat_syntax/specs/Instructions",
    "wat_syntax/specs/Operators",
    "wat_syntax/specs/Bodies",
    "wat_syntax/specs/Modules",
    "wat_syntax/specs/Fields",
    "wat_syntax/specs/Segments",
    "wat_syntax/specs/Customs",
    "wat_syntax/specs/ModuleFields",
]

# The chapters, and the sections below each.
CHAPTERS = {
    "Modules": [
        "modules", "tags", "globals", "memories", "tables", "functions", "data segments", "element segments", "start function", "imports",
        "exports",
    ],
    "Instructions": [
        "instructions", "labels", "plain instructions", "block instructions", "control instructions", "reference instructions",
        "aggregate instructions", "parametric instructions", "variable instructions", "table instructions", "memory instructions",
        "numeric instructions", "vector instructions", "folded instructions", "expressions",
    ],
    "Types": [
        "types", "number types", "vector types", "heap types", "reference types", "value types", "composite types", "recursive types",
        "address types", "limits", "tag types", "global types", "memory types", "table types", "external types", "type uses",
    ],
    "Lexical format and values": [
        "tokens", "white space", "comments", "identifiers", "annotations", "integers", "floating-point", "strings", "names", "values",
        "indices", "conventions",
    ],
    "Custom annotations and proposals": [
        "custom annotations", "name annotations", "branch hinting", "branch hints", "producers section", "dynamic linking",
        "tool conventions", "stack switching", "shared-everything threads", "custom descriptors", "custom page sizes",
        "compact import section", "numeric values in data segments", "exceptions of the old proposal",
    ],
}

# Rules of which no comment has the production: the section, the rule, the definition and its file.
MORE = [
    ("tokens", "token ::= keyword | uN | sN | fN | string | id | '(' | ')' | reserved", "tokens", "wat_grammar/specs/Tokens"),
    ("tokens", "keyword ::= ('a' | .. | 'z') idchar*: one of the words that `words` of wat_tokens has", "word", "wat_grammar/specs/Tokens"),
    ("modules", "'(' 'module' id? 'binary' string* ')', of test scripts", "binary_module", "wat_text/specs/Denotes"),
    ("modules", "'(' 'module' id? 'quote' string* ')', of test scripts", "quotes_of", "wat_text/specs/Denotes"),
]

LAST = list(CHAPTERS)[-1]
PLACE = {section: chapter for chapter, sections in CHAPTERS.items() for section in sections}
NAMED = re.compile(r"\(([^()]*)\)")
DEFINED = re.compile(r"\s*(?:abbrev pub|unfoldable pub|pub data|pub record)\s+(\S+)")


def sections_in(comment):
    """Returns the section that a comment names, as it names it."""
    for text in NAMED.findall(comment):
        text = text.strip()
        if text.startswith("text format: "):
            return text.removeprefix("text format: ")
        if text.split(":")[0] in PLACE:
            return text
    return None


def known(section):
    """Returns the name of a section in `CHAPTERS`: that of the abbreviations of a section is the section's."""
    for part in re.split(r": |, | of ", section):
        if part in PLACE:
            return part
    return PLACE and next((it for it in PLACE if section.startswith(it)), None)


def parts_of(comment):
    """Returns the sentences of a comment in one part for each section that it names, and all of them in one part if it names none."""
    parts = []
    for sentence in re.split(r"(?<![. ])\. (?=[A-Z`(']|\S+ ::= )", comment):
        if not parts or sections_in(sentence) and sections_in(parts[-1]):
            parts.append(sentence)
        else:
            parts[-1] += ". " + sentence
    return parts


def production_in(comment):
    """Returns the production of a comment, or its first sentence."""
    found = re.search(r"(\S+ ::= .*)", comment)
    text = re.sub(r"\)\.\s*$", ")", found[1] if found else comment)
    text = NAMED.sub(lambda it: "" if it[1].startswith("text format") or it[1].split(":")[0] in PLACE else it[0], text)
    text = re.split(r"(?<![. ])\.(?= [A-Z`(]|\s*$)", text)[0]
    return re.sub(r" (?=[:,](?!:)|[.](?![.]))", "", re.sub(r"\s+", " ", text)).strip()


def rows(file):
    """Yields for each commented definition of a file its section, its production and its name."""
    path = ROOT / "crates" / f"{file}.antt"
    if not path.is_file():
        return
    comment, section, head, is_head = [], None, None, True
    for line in path.read_text(encoding="utf-8").splitlines():
        if line.lstrip().startswith("--"):
            comment.append(line.lstrip()[2:].strip())
            continue
        text = " ".join(comment)
        if is_head and comment:
            head, is_head, comment = sections_in(text), False, []
            section = head
        name = DEFINED.match(line)
        if name and comment:
            own = sections_in(text)
            if own or "::=" in text:
                parts = parts_of(text)
                for part in parts:
                    yield sections_in(part) or section, production_in(part), name[1]
            if own:
                own = sections_in(parts[-1])
                section = own if PLACE.get(known(own)) != LAST else head
        if line.strip() or not name:
            comment = []


def found_rules(problems):
    """Returns for each section its rules, each with its definition, and adds what is wrong to `problems`."""
    found = {section: [] for section in PLACE}
    for file in FILES:
        for section, production, name in rows(file):
            section_name = known(section) if section else None
            if section_name is None:
                problems.append(f"crates/{file}.antt: {name}: no section {section!r} in tools/lib/rules.py")
                continue
            found[section_name].append((production, f"{name} of crates/{file}.antt"))
    for section, production, name, file in MORE:
        path = ROOT / "crates" / f"{file}.antt"
        if not re.search(rf"^abbrev pub {name} :", path.read_text(encoding="utf-8") if path.is_file() else "", re.M):
            problems.append(f"crates/{file}.antt: no {name}, which tools/lib/rules.py names")
        found[section].append((production, f"{name} of crates/{file}.antt"))
    return found


def problems():
    """What is wrong with the lists of this module."""
    found = []
    found_rules(found)
    return found


def main(words):
    """Prints the rules, or those that have all these words in them, in the name of the section or in that of the definition."""
    shown = []
    for section, rules in found_rules([]).items():
        # the rule of a whole module comes first
        for production, definition in sorted(rules, key=lambda row: not row[0].startswith("m ::= ")):
            line = f"  {section}: {production}\n    {definition}"
            if all(word.lower() in f"{PLACE[section]} {line}".lower() for word in words):
                shown.append((PLACE[section], line))
    if not shown:
        raise entry.Failed(f"no rule has these words: {' '.join(words)}")
    for at, (chapter, line) in enumerate(shown):
        if not at or shown[at - 1][0] != chapter:
            print(f"{chr(10) if at else ''}{chapter}")
        print(line)
    return 0
