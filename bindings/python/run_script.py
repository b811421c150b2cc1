"""Runs scripts of tests in the engine of node, and prints each command that fails, and how many passed, failed and were skipped.

    python3 run_script.py SCRIPT..

The status is 1 if a command fails, as one with a module that does not encode, or if a script is not read. Each command is a line of JSON
for run_script.js beside this file, with the bytes of its module in base 64. That is where another engine plugs in: it reads lines, and
answers each with `passed`, `failed` or `skipped`.
"""

import base64
import json
import pathlib
import subprocess
import sys

import rigyomad
from rigyomad import WatError, scripts

ENGINE = ["node", str(pathlib.Path(__file__).with_name("run_script.js"))]

# The integers of 64 bits that have the bits of a value, by its type.
WORDS = {
    "i32": ["(i64.extend_i32_u {})"],
    "i64": ["{}"],
    "f32": ["(i64.extend_i32_u (i32.reinterpret_f32 {}))"],
    "f64": ["(i64.reinterpret_f64 {})"],
    "v128": ["(i64x2.extract_lane 0 {})", "(i64x2.extract_lane 1 {})"],
}

# The constants of types, by their bits.
CONSTANTS = {
    "i32": "(i32.const {})",
    "i64": "(i64.const {})",
    "f32": "(f32.reinterpret_i32 (i32.const {}))",
    "f64": "(f64.reinterpret_i64 (i64.const {}))",
}
SHAPES = {"i8": "i8x16", "i16": "i16x8", "i32": "i32x4", "i64": "i64x2", "f32": "i32x4", "f64": "i64x2"}


def constant(value):
    """An argument in the text format."""
    if value["type"] == "v128":
        return f"(v128.const {SHAPES[value['lane_type']]} {' '.join(value['value'])})"
    return CONSTANTS[value["type"]].format(value["value"])


def type_of(value):
    """The type of a value; None if it is one of several types."""
    types = {it["type"] for it in value.get("values", [value])}
    return types.pop() if len(types) == 1 else None


def caller(action, expected):
    """A module that calls a function, and returns the bits of its results as integers, because JavaScript has no vectors, and of a
    NaN not each bit. None if it reads a global, or if there are references."""
    if action["type"] == "get":
        return None
    parameters, results = [it["type"] for it in action["args"]], [type_of(it) for it in expected]
    if not WORDS.keys() >= {*parameters, *results}:
        return None
    arguments = " ".join(map(constant, action["args"]))
    stores = " ".join(f"(local.set {number})" for number in reversed(range(len(results))))
    words = [word.format(f"(local.get {number})") for number, it in enumerate(results) for word in WORDS[it]]
    return rigyomad.parse(
        f"""(module (import "" "f" (func $f (param {' '.join(parameters)}) (result {' '.join(results)})))
        (func (export "f") (result {'i64 ' * len(words)}) (local {' '.join(results)})
            {arguments} (call $f) {stores} {' '.join(words)}))"""
    )


def written(value):
    """What JSON does not have: bytes, and why a module has none."""
    return base64.b64encode(value).decode() if isinstance(value, bytes) else str(value)


def line_of(command):
    """A command as a line for the engine."""
    if "action" in command and "expected" in command:
        command["action"]["caller"] = caller(command["action"], command["expected"])
    return json.dumps(command, default=written) + "\n"


def run(name, text):
    """Runs a script. Whether nothing failed."""
    try:
        commands = scripts.commands(text)
    except WatError as error:
        print(f"{name}:{error}")
        return False
    lines = "".join(map(line_of, commands))
    answers = subprocess.run(ENGINE, input=lines, capture_output=True, text=True, check=True).stdout.split()
    for command, answer in zip(commands, answers):
        if answer == "failed":
            why = f": {command['error']}" if "error" in command else ""
            print(f"{name}:{command['line']}:{command['column']}: {command['type']}{why}")
    counts = [answers.count(word) for word in ("passed", "failed", "skipped")]
    print("{} passed, {} failed, {} skipped".format(*counts))
    return len(answers) == len(commands) and not counts[1]


if __name__ == "__main__":
    if len(sys.argv) < 2:
        sys.exit(__doc__)
    results = [run(file, pathlib.Path(file).read_bytes()) for file in sys.argv[1:]]
    sys.exit(not all(results))
