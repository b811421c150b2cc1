"""Counts wording that the docs avoid, for `tools/check-docs`: sentences over 30 words, and words that have a plainer one.

`tools/data/words.tsv` has the words: forms to avoid, what to write, and phrases in which a form is not counted. For example, "stands" has
"is; occurs; appears", and "in place" is not counted in "in place of". Code, in backticks or in a block, is not read.
"""

import functools
import re

import sources

ROOT = sources.ROOT

# A sentence with more words is long.
LONGEST = 30


@functools.lru_cache(maxsize=None)
def words():
    """The forms to avoid: a pattern for each line of the table, what to write instead, and a pattern of what is not counted."""
    found = []
    for line in (ROOT / "tools/data/words.tsv").read_text(encoding="utf-8").split("\n")[1:]:
        if line:
            avoid, write, within = line.split("\t")
            found.append((pattern(avoid), write, pattern(within) if within else None))
    return found


def pattern(forms):
    """A pattern of any of the forms, which commas separate."""
    alternatives = (r"\s+".join(re.escape(word) for word in form.split()) for form in forms.split(","))
    return re.compile(r"\b(?:" + "|".join(alternatives) + r")\b", re.I)


def paragraphs_of_page(lines):
    """The text of a page: pairs of a line number and a paragraph, an item of a list, a heading or the cell of a table."""
    start, taken, in_block = 0, [], False
    for number, line in enumerate([*lines, ""], 1):
        text = line.strip()
        is_fence = text.startswith("```")
        if is_fence or in_block or not text or text.startswith(("#", "|")) or re.match(r"[-*] |\d+\. ", text):
            if taken:
                yield start, " ".join(taken)
            taken = []
        if is_fence:
            in_block = not in_block
        elif in_block or not text or re.fullmatch(r"[|: -]+", text):
            continue
        elif text.startswith("|"):
            for cell in re.split(r"(?<!\\)\|", text.strip("|")):
                yield number, cell.strip()
        elif text.startswith("#"):
            yield number, text.lstrip("# ")
        else:
            start = start if taken else number
            taken.append(re.sub(r"^(?:[-*]|\d+\.) ", "", text))


def docs_of_code(lines):
    """The text of doc comments, with an empty line for each other line; an indented line is code."""
    docs = []
    for line in lines:
        match = re.match(r"\s*//[/!] ?(.*)$", line)
        docs.append(match.group(1) if match and not match.group(1).startswith("    ") else "")
    return docs


def paragraphs_of_code(lines):
    """The text of doc comments, as `paragraphs_of_page` gives it."""
    return paragraphs_of_page(docs_of_code(lines))


def plain(text):
    """The text with a word for each piece of code, and without the targets of links."""
    return re.sub(r"\]\([^)]*\)|\[|\]", "", re.sub(r"`[^`]*`", "CODE", text))


def sentences(text):
    """The sentences of a paragraph. Two dots end none, as in "E1 .. E9"."""
    return re.split(r"(?<=[.!?])(?<!\.\.)[\"')]*\s+", text)


def findings(paragraphs):
    """What a text has to avoid: the number of a line, whether it is a long sentence, and a description. A list of code is no sentence."""
    for number, paragraph in paragraphs:
        text = plain(paragraph)
        for sentence in sentences(text):
            found = re.findall(r"\S*\w\S*", sentence)
            length = len(found) if any("CODE" not in word for word in found) else 0
            if length > LONGEST:
                yield number, True, f"sentence of {length} words: {sentence[:60]} .."
        for avoid, write, within in words():
            for match in avoid.finditer(within.sub("", text) if within else text):
                yield number, False, f'"{match.group()}": write {write}'


def texts(pages):
    """Each page, and each file of code that has doc comments, with its findings."""
    for path in pages:
        yield path, findings(paragraphs_of_page(path.read_text(encoding="utf-8").split("\n")))
    for path in [*sorted(ROOT.glob("crates/*/src/**/*.rt")), *sorted(ROOT.glob("tests/*/src/**/*.rs"))]:
        yield path, findings(paragraphs_of_code(path.read_text(encoding="utf-8").split("\n")))


def counts(pages):
    """How many long sentences and how many words to avoid there are."""
    found = [is_long for _, items in texts(pages) for _, is_long, _ in items]
    return sum(found), len(found) - sum(found)
