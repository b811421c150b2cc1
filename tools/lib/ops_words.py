"""Writes the words of the text format, for `tools/ops`: src/words.rt and specs/Words.antt of wat_tokens.

For example, of `Index D2 ref.func Func` it writes a row of the hash table in which the lexer finds `ref.func`.
"""

import itertools
import re
import textwrap

from ops_enums import aligned_bytes, plural
from instructions import (
    CLASSES,
    Row,
    enum_of,
    enums,
    frequent,
    key_name,
    key_words,
    optional,
    others,
    reading,
    rows,
    spec_names,
    variant,
    word_enum,
    wrapped,
)

WORDS_HEAD = """//! The words of the text format. `tools/ops` writes this file.

ghost use Rattle.std.specs.Prelude.{◌≡◌, ◌<◌, ◌≤◌, ◌-◌};
ghost use Rattle.wat_tokens.specs.Buckets.{first_word_of, word_at, start_of, text_of, rows, letter, hash_of};
ghost use Rattle.wat_tokens.specs.Words.{alignment_bytes, found_in, op_of, word_named};

use wast_base::{
%s};
"""

WORD_ENUM = """
/// %s.
#[allow(non_camel_case_types)]
#[derive(Clone, Copy%s)]
pub enum %s {
%s}
"""

WORD = """
/// A word that means something of its own (text format, keywords).
///
/// For example, `i32.add` is a `Plain`, `func` is a `Key`, and `i32.sum` is none.
#[derive(Clone, Copy)]
pub enum Word {
    /// An instruction that has no immediate.
    Plain(Plain),
    /// One with a memory argument, and what it is aligned to where the text says nothing.
    Mem(MemOp, Alignment),
    /// One on a lane of a vector.
    Lane(LaneOp),
    /// A load or a store of a lane, and what it is aligned to where the text says nothing.
    MemLane(MemLaneOp, Alignment),
    /// One with an index.
    Index(IndexOp),
    /// One with an index that may be left out.
    IndexOrZero(IndexOrZeroOp),
    /// One with an index, of a form that no encoder covers.
    Uncovered(UncoveredOp),
    /// The same with an index that may be left out.
    UncoveredOrZero(UncoveredOp),
    /// One with two indices.
    Pair(PairOp),
    /// One with two indices, of which the first may be left out.
    OneOrTwo(PairOp),
    /// One with two indices, which may be left out together.
    NoneOrTwo(PairOp),
    /// One that opens a block.
    Block(BlockOp),
    /// One with immediates of its own.
    Own(OwnOp),
    /// One with an ordering and what is accessed.
    Atomic(AtomicOp),
    /// One that no encoder knows.
    Beyond,
    /// A word that is no instruction.
    Key(Key),
}
"""

WORD_FUNCTIONS = """
impl Alignment {
    /// Returns how many bytes it is. It takes no memory.
    ///
    /// For example, `Alignment::Four.bytes()` is 4.
    pub fn bytes(self) -> u64
        ensures { result ≡ alignment_bytes self }
    {
        match self {
%s        }
    }
}

impl IndexOrZeroOp {
    /// Returns the instruction as one whose index is written. It takes no memory.
    ///
    /// For example, `table.get` is `IndexOp::TableGet`, because `table.get` alone means `table.get 0`.
    pub fn op(self) -> IndexOp
        ensures { result ≡ op_of self }
    {
        match self {
%s        }
    }
}
"""

# What the enum of each class is.
WORD_CLASSES = {
    "Alignment": "A power of two that a memory access is aligned to, such as the 4 bytes of `i32.load`",
    "IndexOrZeroOp": "An instruction with an index that may be left out, as in `memory.size`",
    "UncoveredOp": "An instruction with an index, of a form that no encoder covers, as in `suspend 0`",
    "PairOp": "An instruction with two indices, as in `struct.get 0 1`",
    "BlockOp": "An instruction that opens a block, such as `loop`",
    "OwnOp": "An instruction with immediates of its own, as in `br_table 0 1`",
    "AtomicOp": "What an atomic instruction accesses, where that is no memory: a global for `global.atomic.get`",
    "Key": "A word that is no instruction, such as `func`",
}


# The alignments in bytes, each with its name.
ALIGNMENTS = {1: "One", 2: "Two", 4: "Four", 8: "Eight", 16: "Sixteen"}


def alignment(name):
    """What a memory argument is aligned to where the text says nothing."""
    return f"Alignment::{ALIGNMENTS[aligned_bytes(name)]}"


def word_value(row):
    """The word of an instruction, or of a name that is none."""
    kind, name = row.kind, row.name
    if kind == "Plain":
        return f"Word::Plain(Plain::{enum_of(row)[:-2]}({enum_of(row)}::{variant(name)}))"
    if kind == "Mem":
        return f"Word::Mem(MemOp::{variant(name)}, {alignment(name)})"
    if kind in ("Lane", "Block", "Own"):
        return f"Word::{kind}({kind}Op::{variant(name)})"
    if kind == "MemLane":
        return f"Word::MemLane(MemLaneOp::{variant(name)}, {alignment(name)})"
    if row in optional():
        return f"Word::IndexOrZero(IndexOrZeroOp::{variant(name)})"
    if kind in ("Index", "Pair"):
        return f"Word::{reading(row)}({word_enum(row)}::{variant(name, word_enum(row))})"
    if kind.endswith("Atomic"):
        return f"Word::Atomic(AtomicOp::{kind[:-6]})"
    return "Word::Beyond" if kind == "Beyond" else f"Word::Key(Key::{key_name(name)})"


# How many buckets the hash table of the words has.
BUCKETS = 1024


def hash_of(name):
    """The bucket of a name. `hash` of the sources says the same. Its numbers leave at most six names in a bucket."""
    letters = name.encode()
    at = lambda i: letters[i] if 0 <= i < len(letters) else 0
    return (len(letters) * 406 + at(1) * 907 + at(len(letters) - 1) * 362 + at(len(letters) - 3) * 360) % BUCKETS


def instructions():
    """The words of instructions, each once."""
    return list({row.name: row for row in [*rows(), *others()]}.values())


def words():
    """The words, instructions before keywords."""
    return [*instructions(), *(Row("Key", None, name, []) for name in key_words())]


def buckets():
    """The words by their buckets. What most texts are made of comes first."""
    found = [[] for _ in range(BUCKETS)]
    for row in sorted(words(), key=lambda row: row.name not in frequent()):
        found[hash_of(row.name)].append(row)
    return found


def numbers(values):
    """Numbers of an array, as they are laid out."""
    return textwrap.fill(", ".join(map(str, values)) + ",", 99, initial_indent="    ", subsequent_indent="    ") + "\n"


def starts(lengths):
    """Where each of the parts with these lengths begins, and where the last one ends."""
    return [0, *itertools.accumulate(lengths)]


def suggested():
    """The instructions, to suggest one of them."""
    lines = textwrap.wrap(" ".join(row.name for row in instructions()), 96, break_long_words=False, break_on_hyphens=False)
    letters = " \\\n".join(lines)
    return f'pub(crate) static INSTRUCTIONS: &str = "\\\n{letters}";\n'


def look_up():
    """The words by their buckets, and the function that finds one."""
    found = [row for members in buckets() for row in members]
    lines = textwrap.wrap(" ".join(row.name for row in found), 99, break_long_words=False, break_on_hyphens=False)
    letters = "\\\n".join(line.replace(" ", "") for line in lines)
    return f"""
/// Where the words of each bucket begin in `WORDS`.
static FIRSTS: [u16; {BUCKETS + 1}] = [
{numbers(starts(map(len, buckets())))}];

/// The words, bucket after bucket.
static WORDS: [Word; {len(found)}] = [
{"".join(f"    {word_value(row)},{chr(10)}" for row in found)}];

/// The texts of the words, one after another.
static LETTERS: &str = "\\
{letters}";

/// Where the text of each word begins in `LETTERS`.
static STARTS: [u16; {len(found) + 1}] = [
{numbers(starts(len(row.name) for row in found))}];

/// Returns where the words of a bucket begin.
fn first_at(bucket: usize) -> usize
    requires {{ bucket < {BUCKETS + 1} }}
    ensures {{ result ≡ first_word_of bucket }}
{{
    FIRSTS[bucket] as usize
}}

/// Returns the word with a number.
fn word_at(word: usize) -> Word
    requires {{ word < {len(found)} }}
    ensures {{ result ≡ word_at word }}
{{
    WORDS[word]
}}

/// Returns where the text of a word begins.
fn start_at(word: usize) -> usize
    requires {{ word < {len(found) + 1} }}
    ensures {{ result ≡ start_of word }}
{{
    STARTS[word] as usize
}}

/// Returns the text of a word.
fn text_at(word: usize) -> &'static [u8]
    requires {{ word < {len(found)} }}
    ensures {{ result.now ≡ text_of word }}
{{
    &LETTERS.as_bytes()[start_at(word)..start_at(word + 1)]
}}

/// Returns the byte at an index, or 0.
fn letter(name: &[u8], index: usize) -> usize
    ensures byte {{ result ≡ letter name.now index }}
    ensures small {{ result < 256 }}
{{
    match name.get(index) {{
        Some(byte) => *byte as usize,
        None => 0,
    }}
}}

/// Returns the bucket of a name. The numbers are such that no bucket has more than six words.
fn hash(name: &[u8]) -> usize
    ensures bucket {{ result ≡ hash_of name.now }}
    ensures small {{ result < {BUCKETS} }}
{{
    let length = name.len();
    let second = letter(name, 1) * 907;
    let last = letter(name, length.wrapping_sub(1)) * 362;
    let third = letter(name, length.wrapping_sub(3)) * 360;
    (length % {BUCKETS} * 406 + second + last + third) % {BUCKETS}
}}

/// Returns the word with a text among the words from `first` on and before `end`.
#[tactic(auto, using(crate::proofs::Buckets::found_here, crate::proofs::Buckets::found_on, crate::proofs::Buckets::found_none))]
fn find(first: usize, end: usize, name: &[u8]) -> Option<Word>
    requires {{ end ≤ {len(found)} }}
    ensures {{ result ≡ found_in name.now (rows first (end - first)) }}
{{
    for word in first..end {{
        if text_at(word) == name {{
            return Some(word_at(word));
        }}
    }}
    None
}}

/// Returns what a name means, if it means something of its own (text format, keywords). It takes no memory.
///
/// For example, `look_up("func")` is `Some(Word::Key(Key::Func))`, and `look_up("x")` is `None`.
pub fn look_up(name: &str) -> Option<Word>
    ensures {{ result ≡ word_named name.now }}
{{
    let name = name.as_bytes();
    let bucket = hash(name);
    find(first_at(bucket), first_at(bucket + 1), name)
}}
"""


SPEC_WORDS_HEAD = """-- The words of the text format that mean something of their own: instructions and keywords (text format: instructions, tokens).
-- tools/ops writes this file.
--
--   word_named (codes "i32.add")     Some (word.Plain (plain.I32 i32.i32_add))
--   word_named (codes "func")        Some (word.Key key.Func)
--   word_named (codes "i32.sum")     None
--
-- The texts of most instructions are in the rows of wat_grammar. A load or a store has its natural alignment there, which the text may
-- leave out.
use Rattle.std.specs.Prelude.{ℕ, nat_eq, Bool, not, List, [], ◌∷◌, ◌++◌, map, filter, find, Option, unwrap_or, bytes_eq, codes}
use Rattle.std.specs.List.{list_any}
use Rattle.std.specs.Map.{lookup}
use Rattle.wat_grammar.specs.Each.{each}
use Rattle.wat_grammar.specs.InstrRows.{row_of_plain, row_of_mem, row_of_lane, row_of_mem_lane, row_of_index, plains}
"""

SPEC_WORDS = """
-- the bytes of an alignment
abbrev pub alignment_bytes : Alignment → ℕ
{sizes}
-- the alignment of so many bytes
abbrev pub alignment_of : ℕ → Alignment
alignment_of n =
    unwrap_or (find (λ a. nat_eq (alignment_bytes a) n) ({alignments} ∷ [])) alignment.One

-- an instruction whose index may be left out, as one whose index is written
abbrev pub op_of : IndexOrZeroOp → IndexOp
{ops}
-- the instructions whose index may be left out
abbrev pub or_zeros : List IndexOrZeroOp
or_zeros = {or_zeros}

-- whether the index of an instruction may be left out
abbrev pub may_be_left_out : IndexOp → Bool
may_be_left_out op = list_any (λ o. index_ops.ghosts.eq (op_of o) op) or_zeros

-- words, by the text and the word of each thing of a list
abbrev pub texts : {{A : Type 0}} → (A → List ℕ) → (A → Word) → List A → List (List ℕ × Word)
texts text meaning things = map (λ x. (text x, meaning x)) things

-- each text with the word that it is
unfoldable pub words : List (List ℕ × Word)
words =
    texts (λ op. (row_of_plain op).0) word.Plain plains
    ++ texts (λ op. (row_of_mem op).0) (λ op. word.Mem op (alignment_of (row_of_mem op).2)) (each mems.enum)
    ++ texts (λ op. (row_of_lane op).0) word.Lane (each lanes.enum)
    ++ texts (λ op. (row_of_mem_lane op).0) (λ op. word.MemLane op (alignment_of (row_of_mem_lane op).2)) (each mem_lanes.enum)
    ++ texts (λ op. (row_of_index op).0) word.Index (filter (λ op. not (may_be_left_out op)) (each indices.enum))
    ++ texts (λ o. (row_of_index (op_of o)).0) word.IndexOrZero or_zeros
{others}
    ++ {rows}

-- the word of a text in a table
abbrev pub found_in : List ℕ → List (List ℕ × Word) → Option Word
found_in name rows = lookup (λ text. bytes_eq text name) rows

-- the word that a text is, if it means something of its own
abbrev pub word_named : List ℕ → Option Word
word_named name = found_in name words
"""


def spec_alias(enum):
    """What the variants of an enum are called by in definitions."""
    return spec_names(enum) if enum.endswith("Op") else enum.lower()


def spec_word(row):
    """The word of an instruction, or of a name that is none, as definitions have it."""
    variant, _, inner = re.sub(r"(\w+)::", lambda found: spec_alias(found[1]) + ".", word_value(row)).partition("(")
    inner = re.sub(r"^(.*)\((.*)\)$", r"(\1 \2)", inner.removesuffix(")"))
    return f"{variant} {inner}".strip().replace(", ", " ")


def filled(text, width, indent):
    """A list of texts as it is laid out, as many in a line as fit."""
    lines = textwrap.wrap(re.sub('codes "', 'codes\N{NO-BREAK SPACE}"', text), width, subsequent_indent=indent)
    return "\n".join(lines).replace("\N{NO-BREAK SPACE}", " ")


def alike():
    """The texts of words that several texts are, a list for each word; those of atomic instructions without what they begin with."""
    found = {}
    for row in words():
        if spec_word(row) == "word.Beyond" or spec_word(row).startswith("word.Atomic"):
            found.setdefault(spec_word(row), []).append(row.name)
    for word, names in found.items():
        front = re.match(r"\w+\.atomic\.|", names[0])[0]
        text = f'codes "{front}" ++ t' if front else "t"
        backs = " ∷ ".join([*(f'codes "{name.removeprefix(front)}"' for name in names), "[]"])
        yield filled(f"    ++ texts (λ t. {text}) (λ t. {word}) ({backs})", 158, "    ")


def is_apart(row):
    """Whether a word has its text in a line of its own, and no row of wat_grammar."""
    return row.kind in ("Own", "Block", "Pair", "Key") or row.kind == "Index" and word_enum(row) == "UncoveredOp"


def spec_words():
    """The words, most of them by the rows of wat_grammar."""
    out = [SPEC_WORDS_HEAD]
    for enum in ("MemOp", "LaneOp", "MemLaneOp", "IndexOp"):
        out.append(f"use Rattle.wast_base.specs.contracts.{CLASSES[enum][0]}.{enum} as {plural(enum)}\n")
    out.append("use Rattle.wast_base.specs.contracts.index_ops.IndexOpPartialEq.TheImpl as index_ops\n")
    for enum, home in [("IndexOp", "wast_base.specs.declared.index_ops"), *((enum, "wat_tokens.specs.declared.words") for enum in [*WORD_CLASSES, "Word"])]:
        if enum in ("IndexOp", "Alignment", "IndexOrZeroOp", "Word"):
            out.append(f"use Rattle.{home}.{enum}.{{{enum}}}\n")
        out.append(f"use Rattle.{home}.{enum}.TheVariants as {spec_alias(enum)}\n")
    out.append(SPEC_WORDS.format(
        sizes="".join(f"alignment_bytes alignment.{name} = {size}\n" for size, name in ALIGNMENTS.items()),
        alignments=" ∷ ".join(f"alignment.{name}" for name in ALIGNMENTS.values()),
        ops="".join(f"op_of index_or_zero.{variant(row.name)} = index.{variant(row.name, 'IndexOp')}\n" for row in optional()),
        or_zeros=filled(" ∷ ".join([*(f"index_or_zero.{variant(row.name)}" for row in optional()), "[]"]), 148, "    "),
        others="\n".join(alike()),
        rows="\n    ∷ ".join([*(f'(codes "{row.name}", {spec_word(row)})' for row in filter(is_apart, words())), "[]"]),
    ))
    return "".join(out)


def by_numbers(name):
    """The order of names in a `use`: a number counts as one letter."""
    return [(1, "", int(part)) if part.isdigit() else (2 if part[:1].islower() else 0, part, 0) for part in re.findall(r"\d+|[A-Za-z]", name)]


def rust_words():
    used = [enum for enum in enums() if enum != "IndexPairOp"] + ["Plain"]
    out = [WORDS_HEAD % wrapped(sorted(used, key=by_numbers))]
    by_class = {}
    for row in instructions():
        if row.kind in ("Block", "Own") or row.kind in ("Index", "Pair") and word_enum(row) != "IndexOp":
            enum = row.kind + "Op" if row.kind in ("Block", "Own") else word_enum(row)
            by_class.setdefault(enum, []).append((variant(row.name), f"`{row.name}`"))
    by_class["Alignment"] = [(name, f"{size} byte{'s' if size > 1 else ''}.") for size, name in ALIGNMENTS.items()]
    by_class["IndexOrZeroOp"] = [(variant(row.name), f"`{row.name}`") for row in optional()]
    by_class["AtomicOp"] = [(kind, f"A {kind.lower()}.") for kind in ("Global", "Table", "Struct")]
    by_class["AtomicOp"].append(("Array", "An array."))
    by_class["Key"] = [(key_name(name), f"`{name}`") for name in key_words()]
    out.append(WORD)
    for enum, about in WORD_CLASSES.items():
        lines = "".join(f"    /// {text}\n    {name},\n" for name, text in by_class[enum])
        out.append(WORD_ENUM % (about, ", PartialEq, Eq" if enum == "Key" else "", enum, lines))
    sizes = "".join(f"            Alignment::{name} => {size},\n" for size, name in ALIGNMENTS.items())
    ops = "".join(f"            IndexOrZeroOp::{variant(row.name)} => IndexOp::{variant(row.name, 'IndexOp')},\n" for row in optional())
    out.append(WORD_FUNCTIONS % (sizes, ops))
    out.append(look_up())
    return "".join(out)
