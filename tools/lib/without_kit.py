"""What `tools/install` and `tools/test` do on a machine without the Rattle kit: they use C of the committed module (`tools/c`) in place of what the kit builds.

For example, `tools/install ~/.local` puts there the library that `cc` compiles, its headers, and the command `wat` over node, if node is there.
"""

import pathlib
import shutil
import subprocess
import tempfile

import entry
import receipts
import wasm

ROOT = entry.ROOT
JS = ROOT / "bindings/js"

# The command over node, in a folder of its own, and the program that calls it.
LIBRARY = "lib/rigyomad"
PARTS = ["wat.js", "index.js", "binary.js", "scripts.js", "explanations.js", wasm.NARROW, wasm.RECORD, "package.json"]
WAT = f"""#!/bin/sh
# The command `wat` over node, which `tools/install` of Rigyomad puts here on a machine without the Rattle kit.
exec node "$(dirname "$(readlink -f "$0")")/../{LIBRARY}/wat.js" "$@"
"""

# The tests that need no kit, with the programs that each needs. The last ones need a folder of `tools/c --archive`, which is put for {}.
TESTS = [
    (["tools/c", "--test"], ["cc", "node"]),
    (["tools/command", "bindings/js/wat.js"], ["node"]),
    (["tools/javascript", "--built", "bindings/js"], ["node"]),
    (["tools/bindings", "--archive", "{}"], ["cc", "c++", "node"]),
    (["tools/pages", "--check", "explanations", "manual", "tree-names"], []),
    (["tools/lint"], []),
]


def is_needed():
    """Whether there is no kit."""
    return shutil.which("rt") is None


def say():
    """Says in one line what is done without the kit."""
    print("rt is not found: without the Rattle kit, C of the module bindings/js/rigyomad.wasm is compiled, which was made of the proved code", flush=True)


def install(tool, prefix):
    """Installs what needs no kit. The tool is `tools/install`, which has the files and where they go."""
    say()
    if shutil.which("cc") is None:
        raise entry.Failed("cc is not found: a C compiler is needed")
    prefix.mkdir(parents=True, exist_ok=True)
    has_node, kind = shutil.which("node") is not None, wasm.kind_of(wasm.recorded(JS))
    with tempfile.TemporaryDirectory(prefix="install-") as room:
        room = pathlib.Path(room)
        has_script = entry.tool("c").archive(room)
        tool.build.describe(room, kind, is_installed=True)
        if has_node:
            (room / "wat").write_text(WAT, encoding="utf-8")
        left_out = ["wat2json"] + ["/wat"] * (not has_node)
        for name, place, is_program in tool.FILES:
            if tool.source_of(name, room).is_file() and not any(word in place for word in left_out):
                tool.put(tool.source_of(name, room), prefix / place, is_program)
        for name in PARTS if has_node else []:
            tool.put(JS / name, prefix / LIBRARY / name, name == "wat.js")
    if kind != receipts.NOWHERE:
        (prefix / tool.UNPROVED).unlink(missing_ok=True)
    missing = ["wat2json"] + ["wat, because node is not found"] * (not has_node) + ["the calls of scripts"] * (not has_script)
    print(f"not installed without the kit: {', '.join(missing)}")


def test():
    """Runs the tests that need no kit, and returns how many passed and failed."""
    say()
    passed = failed = 0
    with tempfile.TemporaryDirectory(prefix="test-") as room:
        for words, needed in TESTS:
            missing = [program for program in needed if shutil.which(program) is None]
            if missing:
                print(f"{words[0]}: skipped: {missing[0]} not found")
                continue
            if "{}" in words:
                entry.tool("c").archive(pathlib.Path(room))
            ran = subprocess.run([ROOT / words[0], *(word.format(room) for word in words[1:])], cwd=ROOT, capture_output=True, text=True)
            last = (ran.stdout + ran.stderr).strip().splitlines()[-20 if ran.returncode else -1 :]
            print(f"{'failed' if ran.returncode else 'passed'}: {' '.join(words)}: " + "\n".join(last), flush=True)
            passed, failed = passed + (not ran.returncode), failed + bool(ran.returncode)
    return passed, failed
