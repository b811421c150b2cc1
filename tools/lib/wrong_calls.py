"""Calls each tool as it is not meant to be called, and where it cannot run, for `tools/test tools`.

Each has to print its usage for `--help` with status 0, and to refuse an unknown word with status 2. On Python 3.8, on a full disk, without
git, outside a clone, with another kit, and if it ran nothing, it has to say so in one line and to fail. For example, `tools/test no_such_crate` is
`tools/test: no such crate: no_such_crate`.
"""

import concurrent.futures
import os
import pathlib
import resource
import shutil
import subprocess
import sys
import tempfile

import entry

ROOT = entry.ROOT

# A call that has to run nothing, and to fail: its words, its status and a word of what it says.
NOTHING = [
    ("tests/arm64 --built /no/folder", 1, "/no/folder"),
    ("bindings --archive /no/folder", 1, "/no/folder"),
    ("build no_such", 2, "no_such"),
    ("build wat /proc/no/folder", 1, "/proc/no"),
    ("build wat --compare", 2, "--compare"),
    ("build tests --target aarch64-unknown-linux-gnu", 2, "--target"),
    ("build wat --target no_such", 2, "no_such"),
    ("build wasm --compare /no/folder", 1, "/no/folder"),
    ("check-docs --wording /no/page", 1, "/no/page"),
    ("ci-times --table /no/folder", 1, "/no/folder"),
    ("command /no/program", 1, "/no/program"),
    ("converter /no/program", 1, "/no/program"),
    ("tests/doors --built /no/folder", 1, "/no/folder"),
    ("tests/engine /no/folder", 1, "/no/folder"),
    ("tests/engine docs/decisions", 1, "no text"),
    ("first-proof no_such_crate", 2, "no_such_crate"),
    ("first-proof wat_grammar", 1, "no mutants"),
    ("tests/first-steps --only no_such_command", 1, "no_such_command"),
    ("install /proc/no/folder", 1, "/proc/no"),
    ("install -q -v {room}", 2, "-v"),
    ("javascript --built /no/folder", 1, "/no/folder"),
    ("pages no_such", 2, "no_such"),
    ("pages --check no_such", 2, "no_such"),
    ("tests/peers --wat /no/program", 1, "/no/program"),
    ("tests/peers --rounds 0", 2, "rounds"),
    ("receipts", 2, "--check"),
    ("receipts --check --write", 2, "--check"),
    ("tests/refused-memory /no/program", 1, "/no/program"),
    ("show", 2, "definitions"),
    ("show no_such", 2, "no_such"),
    ("show grammar no_such", 1, "no_such"),
    ("show growing instruction no_such", 1, "no_such"),
    ("show growing text no_such", 1, "no_such"),
    ("show growing no_such call", 2, "no_such"),
    ("show reference no_such", 2, "no_such"),
    ("show rows 20", 2, "20"),
    ("show trust no_such", 2, "no_such"),
    ("tests/speed /no/program", 1, "/no/program"),
    ("tests/suite /no/folder", 1, "/no/folder"),
    ("tests/suite docs/decisions", 1, "no text"),
    ("take wast_core", 2, "FOLDER"),
    ("take no_such_crate {room}", 2, "no_such_crate"),
    ("take wat_grammar /proc/no/folder", 1, "/proc/no"),
    ("test no_such_crate", 2, "no_such_crate"),
    ("test wat_grammar", 1, "wat_grammar"),
    ("wrong-bodies no_such_crate", 2, "no_such_crate"),
    ("tests/wrong-texts no_such", 2, "no_such"),
]

# Calls that write a file of the repository: on a full disk they have to say which.
WRITING = ["pages manual", "ops"]

# Calls that need git, the kit, or both.
OF_GIT = ["build wat {room}", "install {room}", "lint", "test wat_golden", "tests/first-steps --only hex", "tests/wrong-texts"]
OF_KIT = [
    "bindings", "build wat {room}", "first-proof", "install {room}", "test wat_golden", "receipts --check", "receipts --write", "tests/refused-memory",
    "tests/wrong-texts", "wrong-bodies wast_base",
]

# A script, and a program in place of `wat2json`, which plants a fault in what `wast2json` writes: what both tools that compare them have to say of it.
SCRIPT = """(module $m (func $f (param $x i32) (local $y i64)) (export "f" (func $f)))
(assert_malformed (module quote "(module \\"a\\")") "unexpected token")
(assert_return (invoke "f" (i32.const 1)))
"""
CONVERTER = """#!/usr/bin/env python3
import os, pathlib, subprocess, sys
if {old!r} == "rejects": sys.exit("rejected")
subprocess.run(["wast2json", "--enable-all", "--no-check", "--debug-names", sys.argv[1], "-o", sys.argv[3]], check=True)
for path in pathlib.Path(sys.argv[3]).parent.iterdir():
    path.write_bytes(path.read_bytes().replace({old!r}, {new!r}))
"""
PLANTS = [("rejects", "", "rejected"), (b'"a"', b'"b"', "the text differs"), (b"\0\1x\1\1y", b"\0\1z\1\1y", "the names differ"), (b"\1\1\x7e\x0b", b"\1\1\x7f\x0b", "by no rule")]
COMPARING = [f"tests/{name} {words}--wat2json" for name, words in (("engine", ""), ("suite", "--wat /bin/false "))]

# Runs a tool as if Python were older.
OLDER = "import runpy, sys; sys.version_info = (3, 8, 18); sys.argv = sys.argv[1:]; sys.path[0] = '';  runpy.run_path(sys.argv[0], run_name='__main__')"

SECONDS = 300


def called(words, folder=ROOT, path=None, most=None, out=subprocess.PIPE):
    """Runs a command in a folder: its status, what it printed, and what it complained of. Its files have at most so many bytes."""
    environment = {**os.environ, "PATH": path or os.environ["PATH"], "GIT_CEILING_DIRECTORIES": str(folder.parent)}
    limit = None if most is None else lambda: resource.setrlimit(resource.RLIMIT_FSIZE, (most, most))
    ran = subprocess.run([str(word) for word in words], cwd=folder, env=environment, preexec_fn=limit, stdin=subprocess.DEVNULL, stdout=out, stderr=subprocess.PIPE, timeout=SECONDS)
    return ran.returncode, (ran.stdout or b"").decode(errors="replace"), ran.stderr.decode(errors="replace")


def faults(ran, status, word, lines=1):
    """What is not right in a call that has to fail: it complains in so many lines at most, and has this word there."""
    code, _, told = ran
    if code != status:
        yield f"status {code}, and not {status}"
    if word not in told:
        yield f"expected `{word}` in: {told.strip()[-300:]}"
    if "Traceback" in told or lines and len(told.splitlines()) > lines:
        yield f"expected {lines or 'no traceback, some'} line: {told.strip()[-300:]}"


def links(folder, names):
    """A folder for PATH with those of these programs that are there alone."""
    folder.mkdir()
    for name in names:
        path = sys.executable if name == "python3" else shutil.which(name)
        if path:
            (folder / name).symlink_to(path)
    return folder


def copied(folder):
    """Copies the working tree, without what git and builds keep, to a folder."""
    return shutil.copytree(ROOT, folder, ignore=shutil.ignore_patterns("out", ".git", "target"), symlinks=True)


def named(tool):
    """A tool as it names itself: `tests/suite` is `tools/test suite`."""
    return f"tools/{tool}".replace("tools/tests/", "tools/test ")


def cases(room, chosen):
    """Each call: its name, and what is wrong with it."""
    folder = ROOT / "tools"
    tools = [str(path.relative_to(folder)) for path in sorted([*folder.iterdir(), *(folder / "tests").iterdir()]) if path.is_file() and path.suffix == ""]
    unknown = [name for name in chosen if name not in tools]
    if unknown:
        raise entry.WrongWords(f"no such tool: {unknown[0]}")
    is_chosen = lambda call: not chosen or call.split()[0] in chosen
    words_of = lambda call, top=ROOT: [top / "tools" / call.split()[0], *(word.format(room=room / "out") for word in call.split()[1:])]
    copy = copied(room / "copy")
    without_git = links(room / "without-git", ["env", "python3", "sh", "rt", "cc"])
    other_kit = links(room / "other-kit", ["env", "python3", "sh", "git", "cc"])
    (other_kit / "rt").write_text("#!/bin/sh\necho rattle-kit-99 logic 0123456789abcdef\n", encoding="utf-8")
    (other_kit / "rt").chmod(0o755)
    for name in filter(is_chosen, tools):
        path = ROOT / "tools" / name

        def help_faults(path=path, name=name):
            code, told, complained = called([path, "--help"])
            if code or complained or f"    {named(name)}" not in told:
                yield f"status {code}: {(complained or told).strip()[-300:]}"

        def full_faults(path=path):
            with open("/dev/full", "wb") as full:
                yield from faults(called([path, "--help"], out=full), 1, "No space left on device")

        yield f"tools/{name} --help", help_faults
        yield f"tools/{name} --help, on a full disk", full_faults
        yield f"tools/{name} --no-such-word", lambda path=path, name=name: faults(called([path, "--no-such-word"]), 2, named(name), 0)
        yield f"tools/{name} by Python 3.8", lambda path=path: faults(called([sys.executable, "-c", OLDER, path, "--help"]), 1, "Python 3.9")
    has_wabt = shutil.which("wast2json") and shutil.which("spectest-interp")
    for call, status, word in NOTHING:
        if is_chosen(call) and (has_wabt or not call.startswith("tests/engine ")):
            yield f"tools/{call}", lambda call=call, status=status, word=word: faults(called(words_of(call)), status, word, 1 if status == 1 else 0)
    for number, call in filter(lambda it: is_chosen(it[1]), enumerate(WRITING)):

        def disk_faults(call=call, folder=room / f"copy{number}"):
            copied(folder)
            yield from faults(called(words_of(call, folder), folder, most=0), 1, "File too large")
            shutil.rmtree(folder)

        yield f"tools/{call}, on a full disk", disk_faults
    if not has_wabt:
        print("tools/test engine, and plants of tools/test suite: skipped: wast2json or spectest-interp not found")
    for number, (old, new, word) in enumerate(PLANTS if has_wabt else ()):
        (room / f"plant{number}/scripts").mkdir(parents=True)
        (room / f"plant{number}/scripts/a.wast").write_text(SCRIPT, encoding="utf-8")
        planted = room / f"plant{number}/converter"
        planted.write_text(CONVERTER.format(old=old, new=new), encoding="utf-8")
        planted.chmod(0o755)
        for call in filter(is_chosen, COMPARING):

            def plant_faults(words=[*words_of(call), planted, planted.parent / "scripts"], word=word):
                code, told, complained = called(words)
                if code != 1 or word not in told:
                    yield f"status {code}, expected `{word}` in: {(complained or told).strip()[-300:]}"

            yield f"tools/{call} of a plant: {word}", plant_faults
    for call in filter(is_chosen, OF_GIT):
        yield f"tools/{call}, without git", lambda call=call: faults(called(words_of(call), path=str(without_git)), 1, "git")
        yield f"tools/{call}, outside a clone", lambda call=call: faults(called(words_of(call, copy), copy), 1, "git")
    for call in filter(is_chosen, OF_KIT):
        yield f"tools/{call}, with another kit", lambda call=call: faults(called(words_of(call), path=str(other_kit)), 1, "kit")


def main(words):
    """Tries all tools, or these, and returns the status."""
    passed, failed = 0, 0
    with tempfile.TemporaryDirectory(prefix="wrong-calls-") as room, concurrent.futures.ThreadPoolExecutor(os.cpu_count()) as pool:
        every = list(cases(pathlib.Path(room), words))
        for (name, _), found in zip(every, pool.map(lambda case: list(case[1]()), every)):
            passed, failed = passed + (not found), failed + bool(found)
            if found:
                print(f"{name}: {' '.join('; '.join(found).split())}")
    print(f"{passed} passed, {failed} failed")
    return 1 if failed else 0
