"""Finds texts of WebAssembly in pages, and runs each through `wat`, for `tools/check-docs`.

A text is a code span or a line of a block that begins with a module or a field, as `(func $f)`, or with an instruction that has operands, as
`local.get 0`. It has to be read: what it names may be missing, because a page shows parts of modules. If it is not read, the paragraph or the row
has to say so. For example, a row with `(func (drop i32.const 0))` has the word "reject". A text with `..` is not whole. If Rust code follows, each
id of the text is in it, as `$stop` in `throw(index("stop", 388))`.
"""

import re
import subprocess

FIELDS = "module|type|rec|import|func|table|memory|global|export|start|elem|data|tag|@custom|@producers|@dylink.0"
TEXT = re.compile(rf"\((?:{FIELDS})[ )].*\)|(?:i32|i64|f32|f64|v128|local|global|table|memory|ref|struct|array|br|call)[._][a-z0-9_.]+ .*")

# What is no text: a part of one, a form of scripts, and a place for a number.
PART = re.compile(r'\(type [^ ()]+\)|\(module (?:definition|instance)\b.*|.*(?:\.\.|<|\[\d+\]|\\").*')

# What `wat` says of a text that is read, and whose names, types or sizes are wrong.
READ = re.compile(
    r"error: (?:uncovered form|inline function type|accessing a|invalid type|import after|duplicate \w+ identifier|unknown |\w+ is not a|failed to find"
    r"|reference to|cannot |.*(?:mismatch|beyond the table|not supported|unsupported)|module is|.*does not match)"
)

# How a page says that a text is not read.
SAYS = re.compile(r"reject|refus|\bnot read\b|\bno (?:module|string)\b|\berrors?\b|\bfails?\b|\bE\d+\b|\bexpected\b|\bunexpected\b|\binvalid\b|\bmust\b|\bunterminated\b|\bmalformed\b|\bill formed\b")


def units(page):
    """The parts of a page in which a text and what is said of it stand: rows of tables, paragraphs, and lines of blocks; each with its line."""
    part, start, in_block = [], 1, False
    for number, line in enumerate([*page.split("\n"), ""], 1):
        is_fence = line.startswith("```")
        in_block ^= is_fence
        if is_fence or in_block or not line.strip() or line.startswith(("|", "- ", "#")):
            if part:
                yield start, " ".join(part)
            part, start = ([], number) if is_fence or not line.strip() else ([line], number)
            if in_block or line.startswith(("|", "#")):
                yield from [(number, line)] if part and not in_block else [(number, f"`{line}`")] if line.startswith("(module ") and line.count("(") == line.count(")") else []
                part = []
        else:
            start = start if part else number
            part.append(line.strip())


def texts(unit):
    """The texts of a part."""
    return [span.strip() for span in re.findall(r"`+([^`]+)`+", unit) if TEXT.fullmatch(span.strip()) and not PART.fullmatch(span.strip())]


def answer(program, text):
    """What `wat` complains of in a text, or nothing if it reads it."""
    whole = text if text.startswith("(") else f"(module (func {text}))"
    ran = subprocess.run([str(program), "--hex"], input=whole.encode(), capture_output=True, timeout=60)
    told = ran.stderr.decode(errors="replace").split("\n")[0]
    return "" if ran.returncode == 0 or READ.match(told) else told or f"status {ran.returncode}"


def claims(program, page):
    """Each text of a page: its line, whether what the page says of it holds, and what is wrong."""
    lines = page.split("\n")
    for number, unit in units(page):
        for text in texts(unit):
            told = answer(program, text)
            yield number, not told or SAYS.search(unit) is not None, f"`{text}` is not read, and nothing says so: {told}"
            end = next((at for at in range(number - 1, len(lines)) if not lines[at].strip()), len(lines))
            if lines[end + 1 : end + 2] == ["```rust"] and lines[end - 1].endswith(":"):
                block = "\n".join(lines[end + 2 : lines.index("```", end + 2)])
                lacking = [name for name in re.findall(r"\$([\w-]+)", text) if f'"{name}"' not in block and f"${name}" not in block]
                yield number, not lacking, f"`{text}`: the code below has no ${', $'.join(lacking)}"
