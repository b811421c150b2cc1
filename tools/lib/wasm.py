"""Builds the archive for WebAssembly, from the module of LLVM that the kit makes of it, for `tools/build wasm`.

The kit's compiler compiles the module for a memory of 64 bits, because its addresses have 64, and `wasm-ld` links it with `bindings/js/runtime.c`. Binaryen's
`wasm-opt` lowers the result to a memory of 32 bits, which every engine has. For example, `build(text, folder, "0.1.0", True, room)` writes
`rigyomad.wasm`, `rigyomad64.wasm` and `rigyomad.json` of a proved module into a folder.
"""

import hashlib
import json
import pathlib
import re
import shutil
import subprocess

import entry
import receipts
import unproved

ROOT = entry.ROOT
RUNTIME = ROOT / "bindings/js/runtime.c"

# What a module is built of.
SOURCES = ["crates", "crates.txt", "bindings/js/runtime.c", "tools/build", "tools/lib/unchecked.py", "tools/lib/unproved.py", "tools/lib/wasm.py"]

# The modules, by the width of their memory, and the file that tells how they were built.
NARROW, WIDE, RECORD = "rigyomad.wasm", "rigyomad64.wasm", "rigyomad.json"

# Where Debian's emscripten has dlmalloc.c, and where its libclang-rt-N-dev-wasm64 has the functions that LLVM calls for numbers of 128 bits.
EMSCRIPTEN = pathlib.Path("/usr/share/emscripten/system")
BUILTINS = "llvm-*/lib/clang/*/lib/*/libclang_rt.builtins-wasm64.a"

# The headers that dlmalloc.c includes; the kit's compiler has none.
HEADERS = {
    "stddef.h": "typedef __SIZE_TYPE__ size_t;\ntypedef __PTRDIFF_TYPE__ ptrdiff_t;\n#define NULL ((void *)0)\n",
    "stdint.h": "typedef __INT32_TYPE__ int32_t;\n",
    "stdbool.h": "",
}

COMPILED = "--target=wasm64-unknown-unknown -O2 -ffunction-sections -fdata-sections -Wno-override-module -c".split()

# Without `--stack-first` a stack that is too small overwrites data, and calls return status 0 with wrong bytes; with it they trap.
LINKED = "-mwasm64 --no-entry --gc-sections --stack-first --strip-all -z stack-size=65536".split()
EXPORTED = [f"rigyomad_c_{call}" for call in ("version", "encode", "fault", "note", "width", "resolve", "names", "script")]
EXPORTED += ["rigyomad_take", "rigyomad_give", "rigyomad_version_text", "rigyomad_is_proved"]

LOWERED = """-O2 --memory64-lowering --enable-memory64 --enable-bulk-memory --enable-sign-ext --enable-mutable-globals --enable-nontrapping-float-to-int
--enable-multivalue""".split()


def tools():
    """The programs and files of others that a build needs, by their packages of Debian: None for one that is missing."""
    builtins = max(pathlib.Path("/usr/lib").glob(BUILTINS), default=None, key=lambda it: [int(word) for word in re.findall(r"\d+", str(it))])
    dlmalloc = EMSCRIPTEN / "lib/dlmalloc.c"
    return {"lld": shutil.which("wasm-ld"), "binaryen": shutil.which("wasm-opt"), "emscripten": dlmalloc if dlmalloc.exists() else None, "libclang-rt-14-dev-wasm64": builtins}


def missing():
    """The packages that have what is missing. Without binaryen the module of 64 bits alone is built."""
    return [f"Debian's package {package}" for package, path in tools().items() if path is None and package != "binaryen"]


def owner(path):
    """The package of Debian that a file belongs to, and its version; the checksum of another file."""
    how = {"capture_output": True, "text": True}
    package = shutil.which("dpkg") and subprocess.run(["dpkg", "-S", pathlib.Path(path).resolve()], **how).stdout.split(": ")[0]
    if not package:
        return hashlib.sha256(pathlib.Path(path).read_bytes()).hexdigest()
    return subprocess.run(["dpkg-query", "-W", "-f", "${Package} ${Version}", package], **how).stdout


def commit():
    """
    The last commit that changed a source, with a word if there are changes since: the commit that adds what is built does not change it.
    A copy of the sources may have no commits.
    """
    git = lambda *words: subprocess.run(["git", *words], cwd=ROOT, check=True, capture_output=True, text=True).stdout.strip()
    if subprocess.run(["git", "rev-parse", "--verify", "--quiet", "HEAD"], cwd=ROOT, capture_output=True).returncode:
        return "none"
    return git("log", "-1", "--format=%H", "--", *SOURCES) + (" and changes" if git("status", "--porcelain", *SOURCES) else "")


def called(words):
    """Runs a program of others."""
    ran = subprocess.run([str(word) for word in words], capture_output=True, text=True)
    if ran.returncode:
        raise unproved.NotBuilt(f"{pathlib.Path(words[0]).name}: {(ran.stderr or ran.stdout).strip()[-2000:]}")


def portable(path):
    """A module of LLVM without what is of x86-64 alone: the layout, and attributes such as the processor, frame pointers and checks of addresses."""
    text = path.read_text(encoding="utf-8")
    text = re.sub(r'^(?:target \w+|source_filename) = .*\n|^; ModuleID.*\n', "", text, flags=re.M)
    # a group of attributes must not be empty
    attributes = lambda line: re.sub(r' (?:sanitize_address|"[\w-]+"="[^"]*")(?= )', "", line[0]).replace("{ }", '{ "frame-pointer"="none" }')
    path.write_text(re.sub(r"^attributes .*$", attributes, text, flags=re.M), encoding="utf-8")
    return path


def build(text, folder, version, is_proved, room):
    """Builds both modules of the text of a module of LLVM into a folder; the lowered one only if `wasm-opt` is there."""
    found, clang = tools(), entry.kit() / "toolchain/bin/clang"
    for name, header in HEADERS.items():
        (room / name).write_text(header, encoding="utf-8")
    archive, runtime, wide, narrow = room / "archive.o", room / "runtime.o", folder / WIDE, folder / NARROW
    called([clang, *COMPILED, "-x", "ir", portable(text), "-o", archive])
    include = [f"-I{it}" for it in (room, EMSCRIPTEN / "include", EMSCRIPTEN / "lib")]
    called([clang, *COMPILED, "-ffreestanding", "-nostdinc", *include, f'-DVERSION_TEXT="{version}"', f"-DIS_PROVED={int(is_proved)}", RUNTIME, "-o", runtime])
    called([found["lld"], *LINKED, *(f"--export={name}" for name in EXPORTED), archive, runtime, found["libclang-rt-14-dev-wasm64"], "-o", wide])
    narrow.unlink(missing_ok=True)
    if found["binaryen"]:
        called([found["binaryen"], *LOWERED, wide, "-o", narrow])
    else:
        print(f"{NARROW}: skipped: wasm-opt not found, which Debian's package binaryen has")
    record = {
        "version": version,
        "proved": is_proved,
        "commit": commit(),
        "kit": subprocess.run(["rt", "version"], capture_output=True, text=True).stdout.strip(),
        "tools": sorted({owner(path) for path in found.values() if path}),
        "sha256": {path.name: hashlib.sha256(path.read_bytes()).hexdigest() for path in (narrow, wide) if path.exists()},
    }
    (folder / RECORD).write_text(json.dumps(record, indent=2) + "\n", encoding="utf-8")


def recorded(folder):
    """What `rigyomad.json` of a folder has."""
    return json.loads((folder / RECORD).read_text(encoding="utf-8"))


def kind_of(record):
    """Where the code of a module was proved, by what `rigyomad.json` has."""
    return receipts.HERE if record["proved"] else receipts.BY_CI if receipts.BY_CI in record["version"] else receipts.NOWHERE


def differences(kept, built):
    """What differs between the modules of two folders. Prints the modules that are the same, and which of the tools are others."""
    records = [recorded(folder) for folder in (kept, built)]
    for key in ("version", "commit", "kit", "tools"):
        if records[0][key] != records[1][key]:
            print(f"{key}: {records[0][key]}, and here {records[1][key]}")
    for name, checksum in records[0]["sha256"].items():
        one, other = ((folder / name).read_bytes() if (folder / name).exists() else None for folder in (kept, built))
        if one is None:
            print(f"{name}: skipped: it is not in {kept}")
        elif hashlib.sha256(one).hexdigest() != checksum:
            yield f"{name}: its checksum is not that of {RECORD}"
        elif one != other:
            yield f"{name}: not what is built here"
        else:
            print(f"{name}: the same {len(one)} bytes")
