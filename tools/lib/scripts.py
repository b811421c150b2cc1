"""Converts scripts of tests to JSON, for `tools/test suite` and `tools/test engine`.

`wat2json` and, if it is installed, `wast2json` of wabt convert a script in folders of their own. For example, `converted("wat2json", path,
folder)` has the commands of the script at `path`, whose module files are then in `folder`.
"""

import json
import pathlib
import re
import subprocess

import entry

ROOT = entry.ROOT

# The tools of wabt whose tests are a script.
OF_SCRIPTS = {"wast2json", "run-interp-spec", "run-objdump-spec", "run-gen-spec-js", "run-spec-wasm2c"}

# No script takes longer to convert.
SECONDS = 300


class Conversion:
    """What a program made of a script: its commands, or `None` and the first line of its message."""

    def __init__(self, folder, commands, message):
        self.folder, self.commands, self.message = folder, commands, message

    @property
    def json(self):
        """The JSON file."""
        return self.folder / "script.json"


def converted(program, path, folder, words=()):
    """Converts a script in an empty folder."""
    folder.mkdir(parents=True, exist_ok=True)
    for old in folder.iterdir():
        old.unlink()
    conversion = Conversion(folder, None, "")
    ran = subprocess.run([str(program), *words, str(path), "-o", str(conversion.json)], capture_output=True, timeout=SECONDS)
    if ran.returncode:
        conversion.message = ran.stderr.decode(errors="replace").split("\n")[0] or f"status {ran.returncode}"
    else:
        text = conversion.json.read_text(encoding="utf-8", errors="surrogateescape")
        conversion.commands = json.loads(text)["commands"]
    return conversion


def by_wabt(path, folder):
    """Converts a script by `wast2json`, which writes names, and is not to look whether modules are valid."""
    return converted("wast2json", path, folder, ["--enable-all", "--no-check", "--debug-names"])


def is_script(path):
    """Whether a file is a script: a .wast file, or a test of a tool of wabt that reads scripts."""
    if path.suffix == ".wast":
        return True
    if path.suffix != ".txt":
        return False
    text = path.read_bytes().decode("utf-8", "replace")
    tool = re.match(r";;; TOOL: ([\w-]+)", text)
    return bool(tool) and tool[1] in OF_SCRIPTS and "STDIN_FILE" not in text


def files(folders):
    """The files of folders that may be texts, in order; there has to be one."""
    for folder in folders:
        if not folder.is_dir():
            raise entry.Failed(f"{folder} is not found")
    found = {path for folder in folders for path in pathlib.Path(folder).rglob("*") if path.suffix in (".wat", ".wast", ".txt") and path.is_file()}
    if not found:
        raise entry.Failed(f"no text is in {' '.join(map(str, folders))}")
    return sorted(found)


def inner(commands):
    """The commands, with those of threads after the thread."""
    for command in commands:
        yield command
        yield from inner(command.get("commands", []))


def has_to_be_read(path, theirs):
    """Whether a script has to be read: by its name, and unless `wast2json`, if it is there, rejects it too."""
    return not path.name.endswith(".fail.wast") and (theirs is None or theirs.commands is not None)


def files_of(ours, theirs):
    """The files of two conversions whose commands are the same: the line of each, its content in both, and whether it is a text."""
    for mine, other in zip(ours.commands, theirs.commands):
        name = mine.get("filename", "")
        if name and difference(mine, other) == "":
            yield mine["line"], (ours.folder / name).read_bytes(), (theirs.folder / other["filename"]).read_bytes(), not name.endswith(".wasm")


def difference(ours, theirs):
    """The rule by which two commands differ: `""` if they do not, `None` if no rule has it. A module whose names are wrong is left as a
    text here, and `wast2json` writes bytes for it."""
    if ours == theirs:
        return ""
    names = {"filename", "module_type"}
    rest = [{key: value for key, value in command.items() if key not in names} for command in (ours, theirs)]
    is_text = ours.get("module_type") == "text" and theirs.get("module_type") == "binary"
    return "text of wrong names" if rest[0] == rest[1] and is_text else None
