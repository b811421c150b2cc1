"""Reads the examples in doc comments, for `tools/check-docs`: each is in a source that CI runs.

An example is an indented block in a doc comment. Its lines are found one after another in a test, proved or not, or in a program that CI runs. The
indentation of the block does not count, and neither does a comment at the end of a line. For example, the block `names.resolve_func(&mut read)?;  // 1`
is found in a program with the line `names.resolve_func(&mut read)?;`.
"""

import functools
import re

import sources

ROOT = sources.ROOT

# The ends of the names of crates whose whole source CI runs.
RUN = ("_tests", "_example", "_golden", "_samples", "wast_rows", "wastrow", "wat")


def blocks(lines):
    """The examples of a file: the number of the first line of each, and its lines without indentation and comments at their ends."""
    start, taken = 0, []
    for number, line in enumerate([*lines, ""], 1):
        comment = re.match(r"\s*//[/!] ?(.*)$", line)
        text = comment[1] if comment else None
        is_code = text is not None and text.startswith("    ")
        if taken and not is_code and (text is None or text.strip()):
            yield start, [bare(it) for it in taken if it.strip()]
            taken = []
        if is_code:
            start = start if taken else number
            taken.append(text)


def bare(line):
    """A line without indentation, and without a comment at its end."""
    return re.sub(r"\s*//.*$", "", line).strip()


@functools.lru_cache(maxsize=None)
def run():
    """The lines of each source that CI runs, joined."""
    found = []
    for path in [*sorted(ROOT.glob("crates/*/src/**/*.rt")), *sources.files_of_tests()]:
        lines = sources.lines_of(path)
        if path.relative_to(ROOT).parts[1].endswith(RUN) or path.name == "tests.rt" or any(it.strip() == "#[test]" for it in lines):
            code = [bare(it) for it in lines]
            found.append("\n" + "\n".join(it for it in code if it) + "\n")
    return found


def problems():
    """Each file, the number of a line, and whether the example that begins there is found."""
    for path in sorted(ROOT.glob("crates/*/src/**/*.rt")):
        for start, lines in blocks(sources.lines_of(path)):
            text = "\n" + "\n".join(lines) + "\n"
            yield path, start, any(text in source for source in run())


def has_example(item):
    """Whether the text of an item shows an example, as code or in words."""
    return any(line.startswith("    ") or re.search(r"\b[Ff]or example\b", line) for line in item.doc)


def shown():
    """How many public types and calls of the public crates show an example, and how many there are. A call may leave it to its type."""
    with_example = count = 0
    for crate in sources.FACES:
        for _, item in sources.surface(crate):
            calls = [it for it in item.members if it.kind != "part" and it.is_public]
            for it in [item, *calls]:
                count += 1
                with_example += has_example(it)
    return with_example, count
