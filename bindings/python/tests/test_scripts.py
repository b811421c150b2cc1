"""Tests the scripts of the package that is installed: python3 -m unittest discover tests"""

import doctest
import time
import unittest
import unittest.mock

import rigyomad
from rigyomad import scripts

I32_7 = {"type": "i32", "value": "7"}

# The references that may be null, by their heap types, as the standard abbreviates them (text format, reference types).
REFERENCES = {
    "func": "funcref",
    "extern": "externref",
    "exn": "exnref",
    "noexn": "nullexnref",
    "any": "anyref",
    "eq": "eqref",
    "struct": "structref",
    "array": "arrayref",
    "nofunc": "nullfuncref",
    "noextern": "nullexternref",
    "none": "nullref",
    "i31": "i31ref",
    "cont": "contref",
    "nocont": "nullcontref",
}

# The shapes of vectors of integers, by how many lanes they have, and of how many bits.
SHAPES = {"i8x16": (16, 8), "i16x8": (8, 16), "i32x4": (4, 32), "i64x2": (2, 64)}


def one(text):
    """The only command of a script, without its positions."""
    (command,) = scripts.commands(text)
    return without_places(command)


def without_places(found):
    """An object without lines and columns."""
    if isinstance(found, list):
        return [without_places(it) for it in found]
    if isinstance(found, dict):
        return {key: without_places(value) for key, value in found.items() if key not in ("line", "column")}
    return found


def invoke(*args, **others):
    """The object of an action."""
    return {"type": "invoke", **others, "field": "f", "args": list(args)}


def fields(error):
    """All that an error has."""
    return error.number, error.message, error.line, error.column, error.start, error.end, error.snippet


def error_of(call, text):
    """The error of a text."""
    try:
        call(text)
    except rigyomad.WatError as error:
        return error
    raise AssertionError(f"{text} has no error")


# Modules with errors.
WRONG = [
    "(module (start $f))",
    "(module (func $f)\n (func $f))",
    "(module (func $first) (start $fist))",
    "(module (func i32.ad))",
    "(module (func (block (func))))",
    "(module (; é ;) (func i64.add128))",
    '(module quote "(fnu" "c)")',
    "(module\t(type $t (struct)) (func (type $t) (param i32)))",
]


def seconds(text):
    """The processor time that a script takes, in seconds."""
    times = []
    for _ in range(2):
        before = time.process_time()
        scripts.Script(text)
        times.append(time.process_time() - before)
    return min(times)


def expected(results):
    """What results are read as."""
    return one(f'(assert_return (invoke "f") {results})')["expected"]


class Tests(unittest.TestCase):
    def test_commands_have_lines_and_columns(self):
        text = '(module)\n(register "m" $M)\n  (assert_return\n (invoke "f"))'
        found = [(it["type"], it["line"], it["column"]) for it in scripts.commands(text)]
        self.assertEqual(found, [("module", 1, 2), ("register", 2, 2), ("assert_return", 3, 4)])
        self.assertEqual(scripts.commands(text)[2]["action"]["line"], 4)

    def test_modules_have_their_bytes(self):
        first, second = "(module $m (func $f))", "(module (memory 1))"
        for found, text in zip(scripts.commands(f"{first} {second}"), (first, second)):
            self.assertEqual((found["module"], found["source"]), (rigyomad.parse(text), text))
        self.assertEqual(one("(module definition $d)")["definition"], "true")
        self.assertEqual(one("(module $m)")["name"], "$m")
        self.assertEqual(one(b'(module binary "\\00asm")')["module"], b"\0asm")

    def test_module_without_bytes_has_an_error(self):
        found = scripts.commands('(assert_malformed (module quote "(func") "a")\n(assert_invalid\n (module (start $f)) "b")')
        self.assertEqual([it["module"] for it in found], [None, None])
        self.assertEqual([it["text"] for it in found], ["a", "b"])
        self.assertEqual([(it.get("quoted"), it["module_type"]) for it in found], [(b"(func", "text"), (None, "binary")])
        self.assertEqual(one('(module quote "")').keys(), {"type", "source", "quoted", "module"})
        self.assertEqual(str(found[1]["error"]), "3:17: unknown func: failed to find name `$f`")
        self.assertEqual(found[1]["error"].number, 4)

    def test_error_of_a_module_is_that_of_its_text(self):
        for wrong in WRONG:
            for text in (f"  (module) ;; é\n\t{wrong}", f"  (module) ;; é\n\t{wrong}".encode()):
                # the same place, without what is before it
                alone = text.replace("(module) ;; é", "             ", 1) if isinstance(text, str) else text.replace(b"(module) ;; \xc3\xa9", b" " * 14, 1)
                found = fields(scripts.commands(text)[1]["error"])
                self.assertEqual(found, fields(error_of(rigyomad.parse, alone)), text)
        found = scripts.commands("(module)\n(module definition $M (func i64.add128))")[1]["error"]
        self.assertEqual(str(found), "2:29: uncovered form: instruction beyond the table: `i64.add128`")
        self.assertEqual((found.start, found.end), (37, 47))
        self.assertEqual(found.snippet.splitlines()[-1], f"  | {' ' * 28}^")

    def test_error_of_a_script_is_as_that_of_a_module(self):
        text = "(module) ;; é\n é (assert_foo)"
        error = error_of(scripts.commands, "(module) (; é ;) (assert_foo)")
        self.assertEqual(str(error), "1:19: expected a command, found `assert_foo`")
        self.assertEqual((error.start, error.end, error.snippet.splitlines()[-1]), (18, 28, f"  | {' ' * 18}^"))
        self.assertEqual(fields(error_of(scripts.commands, text)), fields(error_of(rigyomad.parse, text)))
        long = f'(module) (invoke "f" (i32.const {"1" * 1000}x))'
        self.assertGreater(error_of(scripts.commands, long).end, 1000)

    def test_time_is_linear_in_modules_with_errors(self):
        for wrong in ("(module definition $M (func i64.add128))", "(module (func $f) (func $f))", '(module quote "(fnuc)")'):
            for end in (" ", "\n"):
                few, many = seconds((wrong + end) * 500), seconds((wrong + end) * 4_000)
                self.assertLess(many, 20 * max(few, 0.01), wrong)

    def test_commands_are_objects(self):
        for text, wanted in [
            ('(register "a b" $m)', {"type": "register", "name": "$m", "as": "a b"}),
            ("(module instance $i $m)", {"type": "instance", "instance": "$i", "definition": "$m"}),
            ("(wait $t)", {"type": "wait", "thread": "$t"}),
            ('(invoke $m "f" (i32.const 7))', {"type": "action", "action": invoke(I32_7, module="$m")}),
            ('(get "g")', {"type": "action", "action": {"type": "get", "field": "g"}}),
            ('(assert_return (invoke "f") (i32.const 7))', {"type": "assert_return", "action": invoke(), "expected": [I32_7]}),
            ('(assert_trap (invoke "f") "a")', {"type": "assert_trap", "action": invoke(), "text": "a"}),
            ('(assert_exhaustion (invoke "f") "a")', {"type": "assert_exhaustion", "action": invoke(), "text": "a"}),
            ('(assert_exception (invoke "f"))', {"type": "assert_exception", "action": invoke()}),
            ('(assert_suspension (invoke "f") "a")', {"type": "assert_suspension", "action": invoke(), "text": "a"}),
        ]:
            self.assertEqual(one(text), wanted, text)
        for word in ("malformed", "malformed_custom", "invalid", "invalid_custom", "unlinkable"):
            found = one(f'(assert_{word} (module) "a")')
            self.assertEqual((found["type"], found["text"]), (f"assert_{word}", "a"))
        self.assertEqual(one('(assert_trap (module) "a")')["type"], "assert_uninstantiable")

    def test_values_are_those_of_wast2json(self):
        self.assertEqual(expected("(i32.const -1) (i64.const -1)"), [{"type": "i32", "value": str(2**32 - 1)}, {"type": "i64", "value": str(2**64 - 1)}])
        self.assertEqual(expected("(f32.const -0) (f64.const nan:canonical)"), [{"type": "f32", "value": str(2**31)}, {"type": "f64", "value": "nan:canonical"}])
        self.assertEqual(expected("(v128.const i64x2 1 -1)"), [{"type": "v128", "lane_type": "i64", "value": ["1", str(2**64 - 1)]}])
        self.assertEqual(
            expected("(v128.const f32x4 0 nan:canonical nan:arithmetic 1)"),
            [{"type": "v128", "lane_type": "f32", "value": ["0", "nan:canonical", "nan:arithmetic", "1065353216"]}],
        )
        self.assertEqual(
            expected("(ref.null) (ref.null any) (ref.null $t) (ref.extern) (ref.extern 3) (ref.host 4) (ref.func) (ref.func 5) (ref.func $f) (ref.i31)"),
            [
                {"type": "refnull"},
                {"type": "anyref", "value": "null"},
                {"type": "ref", "value": "null"},
                {"type": "externref"},
                {"type": "externref", "value": "3"},
                {"type": "anyref", "value": "4"},
                {"type": "funcref", "value": "0"},
                {"type": "funcref", "value": {"index": 5}},
                {"type": "funcref", "value": {"id": "$f"}},
                {"type": "i31ref"},
            ],
        )
        self.assertEqual(expected("(either (i32.const 7) (i32.const 7)) (i32.const 7)"), [{"type": "either", "values": [I32_7, I32_7]}, I32_7])

    def test_each_heap_type_has_its_reference(self):
        for heap, name in REFERENCES.items():
            self.assertEqual(expected(f"(ref.null {heap}) (ref.null (shared {heap}))"), [{"type": name, "value": "null"}] * 2)
        for heap in ("any", "eq", "array", "struct", "i31", "i31_shared"):
            self.assertEqual(expected(f"(ref.{heap})"), [{"type": REFERENCES[heap.split("_")[0]]}])

    def test_each_shape_has_its_lanes(self):
        for shape, (count, bits) in SHAPES.items():
            lanes = [*map(str, range(1, count)), str(2**bits - 1)]
            wanted = [{"type": "v128", "lane_type": f"i{bits}", "value": lanes}]
            self.assertEqual(expected(f"(v128.const {shape} {' '.join(lanes)})"), wanted)
        wanted = [{"type": "v128", "lane_type": "f64", "value": [str(1023 << 52), "nan:canonical"]}]
        self.assertEqual(expected("(v128.const f64x2 1 nan:canonical)"), wanted)

    def test_either_has_each_alternative(self):
        for count in (1, 2, 3):
            wanted = [{"type": "either", "values": [I32_7] * count}, I32_7, {"type": "either", "values": [I32_7]}]
            self.assertEqual(expected(f"(either {'(i32.const 7)' * count}) (i32.const 7) (either (i32.const 7))"), wanted)

    def test_ids_and_names_may_have_any_character(self):
        text = '(module $"\u65e5") (register "\u00e9" $"\u65e5") (invoke $"\u65e5" "\u00e9") (assert_trap (invoke "") "\u00e9") (thread $"\u65e5")'
        module, register, action, trap, thread = scripts.commands(text)
        self.assertEqual((module["name"], module["source"]), ("$\u65e5", '(module $"\u65e5")'))
        self.assertEqual((register["name"], register["as"], trap["text"], thread["name"]), ("$\u65e5", "\u00e9", "\u00e9", "$\u65e5"))
        self.assertEqual((action["action"]["module"], action["action"]["field"]), ("$\u65e5", "\u00e9"))

    def test_script_may_have_many_commands(self):
        self.assertEqual(len(scripts.commands("(wait $t)" * 1000)), 1000)

    def test_threads_have_their_commands(self):
        first, second = scripts.commands('(thread $T (shared (module $M)) (register "m" $M) (thread $U (invoke "f"))) (wait $T)')
        self.assertEqual((first["name"], first["shared_module"], second["thread"]), ("$T", "$M", "$T"))
        self.assertEqual([it["type"] for it in first["commands"]], ["register", "thread"])
        self.assertEqual([it["type"] for it in first["commands"][1]["commands"]], ["action"])

    def test_text_that_is_no_script_has_an_error(self):
        for text, message in [("(module)\n (assert_foo)", "2:3: expected a command, found `assert_foo`"), (b"(module)\n;; \xff", "2:4: malformed UTF-8 encoding")]:
            with self.assertRaises(rigyomad.WatError) as raised:
                scripts.commands(text)
            self.assertEqual(str(raised.exception), message)

    def test_refused_memory_is_an_error(self):
        with unittest.mock.patch.object(rigyomad._archive, "_LIBRARY") as library, self.assertRaises(rigyomad.WatError) as raised:
            library.rigyomad_c_script.return_value = rigyomad._archive.MEMORY
            scripts.commands("(module)")
        self.assertEqual((raised.exception.number, raised.exception.line), (12, 0))

    def test_examples(self):
        self.assertEqual(doctest.testmod(scripts).failed, 0)


if __name__ == "__main__":
    unittest.main()
