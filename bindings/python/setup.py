"""Builds the package: a shared library of the encoder is part of the wheel.

If `RIGYOMAD_LIB` names a folder with the archive `librigyomad.a`, or pkg-config finds it, the library is linked of it: `tools/build archive FOLDER` and
`tools/install PREFIX` of Rigyomad write it. Otherwise C is compiled that is made of the compiled module in `bindings/js`: a source distribution has it in
its folder `c`, and in the repository `tools/c` writes it. The compiler and linker are those of `CC`, or `cc`.
"""

import concurrent.futures
import os
import pathlib
import shlex
import shutil
import subprocess
import sys
import tempfile

import setuptools
from setuptools.command.build_py import build_py
from setuptools.command.sdist import sdist

try:
    from setuptools.command.bdist_wheel import bdist_wheel
except ImportError:
    from wheel.bdist_wheel import bdist_wheel

HERE = pathlib.Path(__file__).resolve().parent

# The licences of the code that the library contains, which go with it; in the repository, and in a source distribution.
NOTICES = [HERE.parent / "NOTICES.md", HERE / "c/NOTICES.md"]

# The C, with its header, in a source distribution; and the tool of the repository that makes it, which compiles in so many parts.
PACKED, TOOL, PARTS = HERE / "c", HERE.parent.parent / "tools/c", 8

CC = shlex.split(os.environ.get("CC") or "cc")


def archive():
    """The path of the archive, if there is one."""
    folder = os.environ.get("RIGYOMAD_LIB")
    if folder and not (pathlib.Path(folder) / "librigyomad.a").is_file():
        sys.exit(f"error: {folder}/librigyomad.a is not found: `tools/build archive FOLDER` of Rigyomad writes it")
    if not folder and shutil.which("pkg-config"):
        folder = subprocess.run(["pkg-config", "--variable=libdir", "rigyomad"], capture_output=True, text=True).stdout.strip().replace("\\ ", " ")
    path = pathlib.Path(folder or ".") / "librigyomad.a"
    return path if folder and path.is_file() else None


def write_c(folder):
    """Writes the C of the repository into a folder."""
    subprocess.run([sys.executable, TOOL, folder], check=True, stdout=subprocess.DEVNULL)


def compiled(room):
    """Objects of the C, whose parts are compiled in parallel."""
    source = PACKED
    if not source.is_dir():
        source = room
        write_c(room)
    objects = [room / f"rigyomad_{part}.o" for part in range(PARTS)]

    def compile_part(part):
        subprocess.run([*CC, "-std=c99", "-O1", "-fPIC", f"-DRIGYOMAD_PART={part}", "-c", source / "rigyomad.c", "-o", objects[part]], check=True)

    with concurrent.futures.ThreadPoolExecutor(os.cpu_count()) as pool:
        list(pool.map(compile_part, range(PARTS)))
    return objects


class Build(build_py):
    """Puts the shared library and the notices beside the modules."""

    def run(self):
        super().run()
        folder, found = pathlib.Path(self.build_lib) / "rigyomad", archive()
        with tempfile.TemporaryDirectory() as room:
            if found:
                words = ["-Wl,-Bsymbolic", "-Wl,--whole-archive", found, "-Wl,--no-whole-archive"]
            else:
                words = compiled(pathlib.Path(room))
            subprocess.run([*CC, "-shared", "-o", folder / "librigyomad.so", *words], check=True)
        for path in NOTICES:
            if path.is_file():
                shutil.copy2(path, folder)


class Sources(sdist):
    """A source distribution, with the C."""

    def make_release_tree(self, base_dir, files):
        super().make_release_tree(base_dir, files)
        packed = pathlib.Path(base_dir) / "c"
        if PACKED.is_dir():
            shutil.copytree(PACKED, packed, dirs_exist_ok=True)
        else:
            write_c(packed)


class Wheel(bdist_wheel):
    """A wheel for one system and each version of Python."""

    def finalize_options(self):
        super().finalize_options()
        self.root_is_pure = False

    def get_tag(self):
        return "py3", "none", super().get_tag()[2]


setuptools.setup(cmdclass={"build_py": Build, "sdist": Sources, "bdist_wheel": Wheel})
