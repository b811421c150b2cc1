"""Compiles programs of this repository without proofs, for `tools/build`, `tools/test` and those that run the tests of the folder `tests`.

`rt try` compiles a program with run-time checks, runs it once and keeps nothing: it hands a module of LLVM to the compiler of the
kit. Here it runs in a folder of links to the kit, in which that compiler is a script that keeps the module. For example,
`module(copy / "crates/wat", room, is_test=False)` is the path of the module of the command `wat`. Modules are kept in the folder `out`,
by a checksum of all that they are made of, so that `tools/build wat` after `tools/install` compiles no source again.
"""

import concurrent.futures
import gzip
import hashlib
import os
import pathlib
import re
import shutil
import stat
import subprocess
import sys
import tempfile
import zlib

import entry
import symbols
from entry import kit

ROOT = entry.ROOT

# What `rt try` is made of, which looks for the kit beside itself: copied, so that it finds the folder of links.
SCRIPTS = ("rt", "rtlib.py")

# The script in place of the compiler, of `rt lib`: it keeps the module, and compiles it.
KEEPER = """for word in "$@"; do
    case "$word" in *.bc) cp "$word" '{module}' ;; esac
done
exec '{compiler}' "$@"
"""

# That of `rt try`: it keeps the module that is to have checks of addresses, which is the program, and then fails, so that nothing is
# run. Another module, of settings, is compiled.
KEEPER_OF_TRY = """case " $* " in
    *" -fsanitize=address "*)
        for word in "$@"; do
            case "$word" in *.bc) cp "$word" '{module}' ;; esac
        done
        exit 1 ;;
esac
exec '{compiler}' "$@"
"""

# Words of the kit's compiler for each module, as `rt try` has them, but optimized.
COMPILED = """--target=x86_64-unknown-linux-gnu -march=x86-64 -mllvm -no-trap-after-noreturn -ffunction-sections -fdata-sections
-mllvm -trap-unreachable -mllvm -no-x86-call-frame-opt -mllvm -disable-machine-licm -mllvm -disable-postra-machine-licm
-mllvm -sink-common-insts=false --no-default-config -no-canonical-prefixes -fintegrated-cc1 -fno-crash-diagnostics""".split()

# The target of the kit's own archives of C, and one for which C is compiled by Debian's cross compiler.
HOST, ARM = "x86_64-unknown-linux-gnu", "aarch64-unknown-linux-gnu"
CROSS = "aarch64-linux-gnu-gcc"

# Words of the kit's compiler for arm64. Modules for x86-64 serve: both have the same layout of data, and the kit asks C for the same things.
COMPILED_FOR_ARM = f"--target={ARM} -Wno-override-module -fPIC -ffunction-sections -fdata-sections -mno-outline-atomics -c".split()

# What the kit has compiled for x86-64 alone, in C: memory, and what programs ask the system.
HEAP, SYSTEM = ROOT / "tools/lib/heap.c", ROOT / "tools/lib/system.c"

# A test that calls each function of the archive: `rt try` compiles what a test reaches.
CALLS = """
#[cfg(test)]
mod calls {
    use crate::diagnosis::Diagnosis;
    use crate::lists::Room;
    use crate::*;

    #[test]
    fn each_function_is_called(rt: HostRuntime) {
        let (mut size, mut number) = (0, rigyomad_c_version());
        let (mut diagnosis, mut room) = (Diagnosis::none(), Room::none());
        let _ = rigyomad_c_encode(rt.alloc(), b"", &mut [], &mut size);
        let _ = rigyomad_c_fault(rt.alloc(), b"", &mut [], &mut diagnosis);
        let _ = rigyomad_c_note(rt.alloc(), b"", 0, &mut [], &mut diagnosis);
        let _ = rigyomad_c_width(0);
        let _ = rigyomad_c_resolve(rt.alloc(), b"", 0, b"", &mut number);
        let _ = rigyomad_c_names(rt.alloc(), b"", &mut [], &mut [], &mut room);
        let _ = rigyomad_c_script(rt.alloc(), b"", &mut [], &mut size, &mut [], &mut diagnosis);
    }
}
"""

# No program takes longer to compile.
SECONDS = 1_200

# The folder of tests that are run and not proved, and the file that has what each depends on, in the form of crates.txt. `rt ci` stops at a
# file .rt that is not in crates/, and at a second crates.txt. So these files end in .rs, and this one has another name.
TESTS, DEPENDENCIES = "tests", "dependencies.txt"

# Where modules are kept, and how many of each crate.
KEPT, MOST_KEPT = ROOT / "out", 3


class NotBuilt(entry.Failed):
    """Why a program was not built."""


def copy_of_sources(folder):
    """Copies the files of the working tree that git knows, or would add, to a folder, in which the tests of `tests` are crates too."""
    for name in entry.files_of_clone():
        (folder / name).parent.mkdir(parents=True, exist_ok=True)
        shutil.copy2(ROOT / name, folder / name)
    make_crates_of_tests(folder)


def lines_of_tests(folder=ROOT):
    """The lines of crates.txt that the tests of `tests` would have."""
    return (folder / TESTS / DEPENDENCIES).read_text(encoding="utf-8").splitlines()


def crates_of_tests():
    """The crates of tests that are run and not proved."""
    return [line.split(":")[0] for line in lines_of_tests()]


def make_crates_of_tests(folder):
    """Makes crates of the tests of `tests` in a copy of the sources, unless the copy is of one that has them."""
    crates = folder / "crates.txt"
    lines = dict.fromkeys(crates.read_text(encoding="utf-8").splitlines() + lines_of_tests(folder))
    crates.write_text("".join(f"{line}\n" for line in lines), encoding="utf-8")
    for path in sorted((folder / TESTS).glob("*/src/**/*.rs")):
        place = (folder / "crates" / path.relative_to(folder / TESTS)).with_suffix(".rt")
        place.parent.mkdir(parents=True, exist_ok=True)
        shutil.copy2(path, place)


def script(path, text):
    """Writes a script of the shell."""
    path.write_text(f"#!/bin/sh\n{text}\n", encoding="utf-8")
    path.chmod(path.stat().st_mode | stat.S_IXUSR)


def linked_kit(folder, module, is_proving=False):
    """A folder of links to the kit, whose compiler keeps the module that it is handed at this path. Without the prover, it is for `rt try`."""
    for part in kit().iterdir():
        if part.name not in ("bin", "toolchain"):
            (folder / part.name).symlink_to(part)
    for inner in ("bin", "toolchain", "toolchain/bin"):
        (folder / inner).mkdir()
        for part in (kit() / inner).iterdir():
            place = folder / inner / part.name
            if inner == "bin" and part.name in SCRIPTS:
                shutil.copy2(part, place)
            elif inner == "bin" and part.name == "rattle" and not is_proving:
                # `rt try` asks the prover beside it for hints, which take as long as the program.
                script(place, "exit 1")
            elif part.name not in ("bin", "clang") or inner == "bin":
                place.symlink_to(part)
    keeper = KEEPER if is_proving else KEEPER_OF_TRY
    script(folder / "toolchain/bin/clang", keeper.format(module=module, compiler=kit() / "toolchain/bin/clang"))


def below(name, folder=ROOT):
    """The crates that a crate depends on, by the file crates.txt of a folder, without those of the kit."""
    lines = (line.split(":") for line in (folder / "crates.txt").read_text(encoding="utf-8").splitlines() if ":" in line)
    depends = {head.split()[0]: names.split() for head, names in lines}
    found, left = [], [name]
    while left:
        more = [it for it in depends[left.pop()] if it in depends and it not in found]
        found += more
        left += more
    return sorted(set(found))


def key_of(crate, is_test):
    """A checksum of all that a module is made of: the kit, this file, and the files of the crate and of those below it."""
    top = crate.parent.parent
    found = hashlib.sha256(f"{entry.version_of_kit()} {is_test}".encode() + pathlib.Path(__file__).read_bytes())
    for name in [crate.name, *below(crate.name, top)]:
        for path in sorted(path for path in (top / "crates" / name).rglob("*") if path.is_file() and "out" not in path.parts[len(top.parts) :]):
            data = path.read_bytes()
            found.update(f"{path.relative_to(top)} {len(data)}\n".encode() + data)
    return found.hexdigest()[:24]


def keep(path, name, key, kind="bc"):
    """Keeps a module or a program, and removes the oldest ones of its crate. What another run writes at the same time is the same. Where
    nothing can be written, nothing is kept."""
    try:
        KEPT.mkdir(exist_ok=True)
        number, beside = tempfile.mkstemp(prefix=".", dir=KEPT)
        with open(number, "wb") as file:
            file.write(gzip.compress(path.read_bytes(), 1))
        os.replace(beside, KEPT / f"{name}-{key}.{kind}.gz")
        for old in sorted(KEPT.glob(f"{name}-*.{kind}.gz"), key=lambda it: it.stat().st_mtime)[:-MOST_KEPT]:
            old.unlink(missing_ok=True)
    except OSError:
        return


def is_taken(path, name, key, kind="bc"):
    """Whether a module or a program is kept, which is then written to a path."""
    kept = KEPT / f"{name}-{key}.{kind}.gz"
    try:
        data = gzip.decompress(kept.read_bytes())
    except (OSError, EOFError, zlib.error):
        data = b""
    if not data:
        # none is kept, or one that was cut
        return False
    path.write_bytes(data)
    os.utime(kept)
    return True


def module(crate, room, is_test=False, is_anew=False):
    """The module of LLVM of a program, or of the tests of a crate, whose folder is `crate`: the kept one, unless it is to be made anew."""
    name, key = f"{crate.name}{'_tests' * is_test}", key_of(crate, is_test)
    path = pathlib.Path(tempfile.mkdtemp(prefix="module-", dir=room)) / "module.bc"
    if not is_anew and is_taken(path, name, key):
        return path
    made = made_module(crate, room, is_test)
    keep(made, name, key)
    return made


def made_module(crate, room, is_test):
    """The same, compiled from the sources."""
    folder = pathlib.Path(tempfile.mkdtemp(prefix="kit-", dir=room))
    path = folder / "module.bc"
    (folder / "kit").mkdir()
    linked_kit(folder / "kit", path)
    words = [sys.executable, folder / "kit/bin/rt", "try", *["--test"] * is_test, "--steps", "1"]
    ran = subprocess.run(
        [str(word) for word in words], cwd=crate, stdin=subprocess.DEVNULL, stdout=subprocess.DEVNULL, stderr=subprocess.PIPE, timeout=SECONDS
    )
    if not path.is_file():
        raise NotBuilt(f"{crate.name}: {ran.stderr.decode(errors='replace').strip()}")
    return path


def run(words, **how):
    """Runs a program that builds something."""
    ran = subprocess.run([str(word) for word in words], capture_output=True, **how)
    if ran.returncode:
        raise NotBuilt(f"{words[0]}: {ran.stderr.decode(errors='replace').strip()}")


def called(tool, words, **how):
    """Runs a tool of the kit."""
    run([kit() / tool, *words], **how)


def compiled(path, level, target=HOST):
    """The object file of a module, beside it, optimized at a level."""
    out = path.with_suffix(".o")
    if target == ARM:
        called("toolchain/bin/clang", [*COMPILED_FOR_ARM, f"-O{level}", "-x", "ir", path, "-o", out])
        return out
    called("toolchain/bin/clang", [*COMPILED, f"-O{level}", f"--sysroot={kit() / 'toolchain'}", "-c", "-x", "ir", path, "-o", out, "-fPIE"])
    return out


def linked(path, out, level, target=HOST):
    """Builds the program of a module as the file `out`."""
    if target == ARM:
        run([CROSS, "-O2", "-Wall", "-Werror", "-o", out, compiled(path, level, ARM), SYSTEM, HEAP])
        return
    words = ["--target", "x86_64-unknown-linux-gnu", "--toolchain", kit() / "toolchain", "-o", out]
    called("bin/rattle-link", [*words, compiled(path, level), kit() / "c/libos_c.a", kit() / "c/liblibc_c.a"])


def program(crate, out, room, is_test=False, level=2):
    """Builds a program, or the tests of a crate, as the file `out`."""
    linked(module(crate, room, is_test), out, level)


def program_of_tests(crate, out, room):
    """Builds the tests of a crate as the file `out`. Of tests that are not proved the program is kept, because CI runs it in several tools."""
    is_kept, name, key = crate.name in crates_of_tests(), f"{crate.name}_tests", key_of(crate, True)
    if is_kept and is_taken(out, name, key, "program"):
        out.chmod(0o755)
        return
    program(crate, out, room, True, 1)
    if is_kept:
        keep(out, name, key, "program")


def programs_of_tests(names, room):
    """The program of the tests of each of these crates: what `rt ci` built of it, or `tools/test` in its copy. For tests that are not proved
    it is built here, unless it is kept."""
    found = {name: ROOT / "crates" / name / "out" / f"{name}_tests" for name in names if (ROOT / "crates" / name / "src").is_dir()}
    built = {name: room / f"{name}_tests" for name in names if name not in found}
    if built:
        copy = room / "sources"
        copy.mkdir()
        copy_of_sources(copy)
        with concurrent.futures.ThreadPoolExecutor(os.cpu_count()) as pool:
            for it in [pool.submit(program_of_tests, copy / "crates" / name, out, room) for name, out in built.items()]:
                it.result()
    return {**found, **built}


def printed(path):
    """The text of a module, beside it."""
    text = path.with_suffix(".ll")
    called("toolchain/bin/clang", ["-S", "-emit-llvm", "-Xclang", "-disable-llvm-passes", "-x", "ir", path, "-o", text])
    return text


def exported(path, crate):
    """Gives the functions of a crate that C calls their own names in a module, and takes `main` away, so that they alone are left."""
    text = printed(path)
    source = (crate / "src/lib.rt").read_text(encoding="utf-8")
    names = re.findall(r"#\[unsafe\(no_mangle\)\]\npub extern \"C\" fn (\w+)", source)
    lines = text.read_text(encoding="utf-8")
    for name in names:
        inner = f'@"{crate.name}::{name}"'
        lines = re.sub(rf"^define internal (.*{re.escape(inner)}\()", r"define \1", lines, flags=re.M).replace(inner, f"@{name}")
    text.write_text(re.sub(r"^define (i32 @main\(\))", r"define internal \1", lines, flags=re.M), encoding="utf-8")
    return text


def archive_module(crate, room, is_anew=False):
    """The text of the module of a crate of functions for C."""
    source = crate / "src/lib.rt"
    source.write_text(source.read_text(encoding="utf-8") + CALLS, encoding="utf-8")
    return exported(module(crate, room, True, is_anew), crate)


def together(objects, out, version, target=HOST):
    """Puts object files, what they want of the kit beside `malloc`, `realloc` and `free`, and the text of the version into one
    archive. Only the names that the header declares are global, so that a program may have any others of its own."""
    with tempfile.TemporaryDirectory() as room:
        room = pathlib.Path(room)
        told, whole = room / "version.ll", room / "rigyomad.o"
        told.write_text(f'@rigyomad_c_version_text = constant [{len(version) + 1} x i8] c"{version}\\00"\n', encoding="utf-8")
        called("toolchain/bin/clang", [f"--target={target}", "-c", "-x", "ir", told, "-o", told.with_suffix(".o")])
        if target == HOST:
            called("toolchain/bin/llvm-ar", ["x", kit() / "c/liblibc_c.a"], cwd=room)
        else:
            called("toolchain/bin/clang", [*COMPILED_FOR_ARM, "-O2", "-ffreestanding", HEAP, "-o", room / "heap.o"])
        called("toolchain/bin/ld.lld", ["-r", *objects, *sorted(room.glob("*.o")), "-o", whole])
        symbols.localize(whole, "rigyomad_c_")
        out.unlink(missing_ok=True)
        called("toolchain/bin/llvm-ar", ["rcs", out, whole])
