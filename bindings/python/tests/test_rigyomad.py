"""Tests the package that is installed: python3 -m unittest discover tests"""

import concurrent.futures
import doctest
import importlib.metadata
import pickle
import unittest
import unittest.mock

import rigyomad

EMPTY = b"\0asm\x01\0\0\0"

# An item with a name in each index space.
ITEMS = '(func $f) (table $x 1 funcref) (memory $m 1) (global $g i32 (i32.const 0)) (tag $e) (elem $s func) (data $d "") (type $t (func))'

# Texts, and the numbers and kinds of their errors.
KINDS = [
    ("(module", 0, "Malformed"),
    ('(module (func) (import "" "" (func)))', 1, "ImportAfter"),
    ("(module (func $f) (func $f))", 2, "Duplicate"),
    ("(module (type (struct (field $x i32) (field $x i32))))", 3, "DuplicateField"),
    ("(module (start $x))", 4, "Unknown"),
    ("(module (type (struct)) (func (type 0) (param i32)))", 5, "NotFunc"),
    ("(module (func (type 0) (param i32)))", 6, "OutOfBounds"),
    ("(module (type (func)) (func (type 0) (param i32)))", 7, "NoMatch"),
    ("(module (func block $a end $b))", 8, "Labels"),
    ("(module (type $s (struct (field i32))) (func struct.get $s $x))", 9, "NoNamedFields"),
    ("(module (type (func)) (type (cont 0)))", 11, "Uncovered"),
]

# Characters that are printed as escapes, and the others beside them.
CONTROLS = [*range(32), *range(0x7F, 0xA0), 0x61C, 0x200E, 0x200F, *range(0x2028, 0x202F), *range(0x2066, 0x206A)]
PLAIN = "\xa0\u061b\u061d\u200d\u2010\u2027\u202f\u2065\u206a\ufeff"


def snippet_of(text):
    """The line that the error of a text shows."""
    try:
        rigyomad.parse(text)
    except rigyomad.WatError as error:
        return error.snippet
    return None


def error_of(text):
    """The fields of the error of a text."""
    try:
        rigyomad.parse(text)
    except rigyomad.WatError as error:
        return error.number, error.kind, error.message, error.line, error.column, error.start, error.end
    return None


class Tests(unittest.TestCase):
    def test_texts_and_bytes_are_encoded(self):
        for text in ("(module)", b"(module)", bytearray(b"(module)"), memoryview(b"(module)")):
            self.assertEqual(rigyomad.parse(text), EMPTY)

    def test_module_may_be_longer_than_its_text(self):
        text = f"(module (memory 1) (data (i64{' 1' * 400})))"
        self.assertIn(b"\1\0\0\0\0\0\0\0" * 400, rigyomad.parse(text))

    def test_binary_module_is_passed_through(self):
        self.assertEqual(rigyomad.parse(EMPTY + b"rest"), EMPTY + b"rest")
        self.assertEqual(error_of("\0asm")[:2], (0, "Malformed"))

    def test_error_has_fields(self):
        wanted = (4, "Unknown", "unknown func: failed to find name `$f`", 2, 9, 16, 18)
        self.assertEqual(error_of("(module\n (start $f))"), wanted)
        self.assertEqual(error_of(b"(module\n (start $f))"), wanted)

    def test_offsets_count_what_the_text_has(self):
        text = '(module (;\U0001f389\u00e9;)\n (;\U0001f389\u00e9;) (start $"\u00e9"))'
        message = "unknown func: failed to find name `$\u00e9`"
        self.assertEqual(error_of(text), (4, "Unknown", message, 2, 16, 30, 34))
        self.assertEqual(error_of(text.encode()), (4, "Unknown", message, 2, 20, 38, 43))

    def test_carriage_return_ends_no_line(self):
        for text in ("(module\r (start $f))", b"(module\r (start $f))"):
            self.assertEqual(error_of(text)[3:], (1, 17, 16, 18))
        self.assertEqual(error_of(b"(module)\r\n\r\xff")[3:], (2, 2, 11, 12))

    def test_bytes_that_are_not_utf8_have_a_position(self):
        self.assertEqual(error_of(b"(module\n  ;;\xff\n)"), (0, "Malformed", "malformed UTF-8 encoding", 2, 5, 12, 13))

    def test_lone_surrogate_is_an_error(self):
        self.assertEqual(error_of("(module)\n;; \ud800"), (0, "Malformed", "lone surrogate in a string", 2, 4, 12, 13))

    def test_control_characters_are_printed_as_escapes(self):
        with self.assertRaises(rigyomad.WatError) as caught:
            rigyomad.parse('(module (start $"\\1b[31m\\n"))')
        self.assertEqual(str(caught.exception), r"1:16: unknown func: failed to find name `$\u{1b}[31m\n`")

    def test_snippet_shows_the_line(self):
        shown = " --> 2:9\n  |\n2 | \t(start $f))\n  | \t       ^"
        for text in ("(module\n\t(start $f))\r\n", b"(module\n\t(start $f))\r\n"):
            self.assertEqual(snippet_of(text), shown)
        self.assertEqual(snippet_of("(;\u202e\x1b;) (start $f)"), " --> 1:15\n  |\n1 | (;\\u{202e}\\u{1b};) (start $f)\n  | " + " " * 26 + "^")
        self.assertEqual(snippet_of("(module)\n;; \ud800"), " --> 2:4\n  |\n2 | ;; ?\n  |    ^")
        long = snippet_of(f"(module {' ' * 100}(start ${'n' * 100}))").split("\n")
        self.assertEqual(long[2:], [f"1 | ...{' ' * 53}(start ${'n' * 59}...", f"  | {' ' * 63}^"])
        for before, after in [(59, 59), (60, 60), (61, 61)]:
            head, tail = "." * (before > 60) * 3, "." * (after > 60) * 3
            line = f"(module{' ' * (before - 14)}(start ${'n' * (after - 3)}))"
            shown = [f"1 | {head}{line[before - min(before, 60) : before + 60]}{tail}", f"  | {' ' * (len(head) + min(before, 60))}^"]
            self.assertEqual(snippet_of(line).split("\n")[2:], shown)
        self.assertEqual(snippet_of("\n" * 99 + "(start $f)"), "   --> 100:8\n    |\n100 | (start $f)\n    |        ^")
        self.assertEqual(rigyomad.WatError(12, "allocation failed").snippet, "")

    def test_message_may_be_long(self):
        for count in (200, 219, 220, 221, 222, 3000):
            self.assertEqual(error_of(f"(module (start ${'n' * count}))")[2], f"unknown func: failed to find name `${'n' * count}`")

    def test_names_are_listed(self):
        text = '(module (;\u00e9;) (func) (func $"a b") (type $t (func)))'
        self.assertEqual(rigyomad.names(text), [("func", 1, "a b", 27), ("type", 0, "t", 41)])
        self.assertEqual([it.offset for it in rigyomad.names(text.encode())], [28, 42])
        with self.assertRaises(rigyomad.WatError):
            rigyomad.names("(module (start $f))")

    def test_spaces_have_their_names(self):
        found = [(it.space, it.index, it.name) for it in rigyomad.names(ITEMS)]
        spaces = ("func", "table", "memory", "global", "tag", "elem", "data", "type")
        self.assertEqual(found, [(space, 0, name) for space, name in zip(spaces, "fxmgesdt")])
        self.assertEqual(rigyomad.SPACES, spaces)

    def test_text_may_have_as_many_names_as_fit(self):
        letters = "abcdefghijklmnopqrstuvwxyz"
        self.assertEqual([it.name for it in rigyomad.names("".join(f"(tag ${it})" for it in letters))], list(letters))

    def test_names_of_locals_labels_and_fields_are_listed(self):
        # the text and its names are those of bindings/rust/tests/calls.rs
        text = """(module (import "" "" (func (param $p i32)))
            (type (func (param i32)))
            (type $s (struct (field $x i32) (field i32) (field $"y z" i64)))
            (func (param i32) (local $a i32) (local $b (@name "c") i64)
                block $l loop if $l end end end)
            (func (if $l (i32.const 0) (then block $m end))))"""
        local = [("local", 0, 0, "p"), ("local", 1, 1, "a"), ("local", 1, 2, "c")]
        label = [("label", 1, 0, "l"), ("label", 1, 2, "l"), ("label", 2, 0, "l"), ("label", 2, 1, "m")]
        self.assertEqual(rigyomad.names_within(text), [*local, *label, ("field", 1, 0, "x"), ("field", 1, 2, "y z")])
        self.assertEqual(rigyomad.names_within(rigyomad.parse(text)), rigyomad.names_within(text))
        self.assertEqual(rigyomad.names_within(text)[0].owner, 0)
        for other in ("(module)", "(module (func $f))"):
            self.assertEqual(rigyomad.names_within(other), [])
        with self.assertRaises(rigyomad.WatError):
            rigyomad.names_within("(module (start $f))")

    def test_names_of_a_custom_section_are_listed(self):
        def of(data):
            return rigyomad.names_within(f'(module (@custom "name" "{data}") (func (local $a i32)))')

        self.assertEqual(of(r"\02\06\01\00\01\07\01z"), [("local", 0, 7, "z")])
        for data in (r"\02\06\01", r"\02\06\01\00\01\07\01", r"\02\05\01\00\01\07\01", r"\02\05\ff\ff\ff\ff\0f", r"\02"):
            self.assertEqual(of(data), [], data)

    def test_kinds_have_their_numbers(self):
        for text, number, kind in KINDS:
            self.assertEqual(error_of(text)[:2], (number, kind), text)
        self.assertEqual([rigyomad.WatError(it, "").kind for it in (10, 12, 13)], ["TooLarge", "Memory", "Component"])

    def test_each_control_character_is_an_escape(self):
        letters = {9: "\\t", 10: "\\n", 13: "\\r"}
        for code in CONTROLS:
            self.assertEqual(str(rigyomad.WatError(4, chr(code))), letters.get(code, f"\\u{{{code:x}}}"))
        self.assertEqual(str(rigyomad.WatError(4, PLAIN)), PLAIN)

    def test_version_is_that_of_the_package(self):
        number, _, word = rigyomad.version().partition(" ")
        self.assertEqual(number, importlib.metadata.version("rigyomad"))
        self.assertIn(word, ("", "(UNPROVED)", "(proved by CI, not on this machine)", "(C, from the proved module)"))

    def test_error_can_be_pickled(self):
        error = rigyomad.WatError(4, "unknown", 1, 2, 3, 4, " --> 1:2")
        again = pickle.loads(pickle.dumps(error))
        self.assertEqual((again.kind, again.end, again.snippet, str(again)), ("Unknown", 4, " --> 1:2", "1:2: unknown"))
        self.assertEqual(error.args, (4, "unknown", 1, 2, 3, 4, " --> 1:2"))
        self.assertEqual(error.args, again.args)

    def test_refused_memory_is_an_error(self):
        for name, call in [("encode", rigyomad.parse), ("names", rigyomad.names)]:
            with unittest.mock.patch.object(rigyomad._archive, name, return_value=(rigyomad._archive.MEMORY, b"")):
                with self.assertRaises(rigyomad.WatError) as caught:
                    call("(module)")
            self.assertEqual((caught.exception.number, caught.exception.line), (12, 0))

    def test_threads_may_call(self):
        with concurrent.futures.ThreadPoolExecutor(8) as pool:
            self.assertEqual(set(pool.map(rigyomad.parse, ["(module)"] * 1000)), {EMPTY})

    def test_other_types_are_refused(self):
        for other in (None, 5, ["(module)"]):
            with self.assertRaises(TypeError):
                rigyomad.parse(other)


def load_tests(loader, tests, pattern):
    tests.addTests(doctest.DocTestSuite(rigyomad))
    return tests


if __name__ == "__main__":
    unittest.main()
