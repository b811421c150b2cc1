"""What each tool has in common: the version of Python, `--help`, words that it does not know, and one line for what keeps it from running.

A tool imports this first and ends with `entry.run(main, __doc__)`. For example, `tools/take --help` prints the text at the top of the tool, `tools/take`
alone has status 2, and on a full disk it prints `tools/take: cannot write output: No space left on device` and has status 1.
"""

import sys

if sys.version_info < (3, 9):
    sys.exit("tools: Python 3.9 or later is needed, and this is Python %d.%d" % sys.version_info[:2])

import functools
import importlib.machinery
import importlib.util
import os
import pathlib
import re
import shutil
import subprocess

ROOT = pathlib.Path(__file__).resolve().parent.parent.parent

# What `rt version` ends with: proofs are of this logic.
LOGIC = "logic dac8208d650f15bf"


class WrongWords(Exception):
    """Why a tool is not called so."""


class Failed(Exception):
    """Why a tool cannot do what it was called for."""


@functools.lru_cache(maxsize=None)
def version_of_kit():
    """What `rt version` prints, which has to name the logic of the proofs."""
    rt = shutil.which("rt")
    if rt is None:
        raise Failed("rt is not found: it comes with the Rattle kit")
    said = subprocess.run([rt, "version"], stdin=subprocess.DEVNULL, capture_output=True, text=True, errors="replace").stdout.strip()
    if not said.endswith(LOGIC):
        raise Failed(f"another kit: `rt version` says `{said[-80:]}`, and not `{LOGIC}`")
    return said


def kit():
    """The folder of the kit that `rt` belongs to."""
    return version_of_kit() and pathlib.Path(shutil.which("rt")).resolve().parent.parent


def tool(name):
    """Another tool, as a module."""
    loader = importlib.machinery.SourceFileLoader(name.replace("-", "_"), str(ROOT / "tools" / name))
    found = importlib.util.module_from_spec(importlib.util.spec_from_loader(loader.name, loader))
    loader.exec_module(found)
    return found


def files_of_clone():
    """The files of the working tree that git knows, or would add."""
    words = ["git", "ls-files", "-z", "--cached", "--others", "--exclude-standard"]
    listed = subprocess.run(words, cwd=ROOT, check=True, capture_output=True).stdout.decode()
    # (git names a file that is being merged several times)
    return [name for name in dict.fromkeys(listed.split("\0")) if name and (ROOT / name).is_file()]


def usage(doc):
    """The lines of a tool's text that show how it is called."""
    return "\n".join(line for line in doc.splitlines() if line.startswith("    tools/"))


def why_of(error):
    """What kept a tool from running, in one line."""
    if isinstance(error, subprocess.CalledProcessError):
        told = (error.stderr or b"").decode(errors="replace") if not isinstance(error.stderr, str) else error.stderr
        words = error.cmd if isinstance(error.cmd, str) else " ".join(str(word) for word in error.cmd[:2])
        return f"`{words}` ended with status {error.returncode}{': ' + told.strip().splitlines()[0] if told.strip() else ''}"
    if isinstance(error, FileNotFoundError) and "/" not in str(error.filename or "/"):
        return f"{error.filename} is not found"
    if isinstance(error, OSError) and error.strerror:
        return f"{error.filename or 'cannot write output'}: {error.strerror}"
    return str(error)


def run(main, doc):
    """Calls a tool with its words, and ends with its status: 2 if its words are wrong, 1 if something keeps it from running."""
    path, words = pathlib.Path(sys.argv[0]).resolve(), sys.argv[1:]
    name = f"tools/test {path.name}" if path.parent.name == "tests" else f"tools/{path.name}"
    options = set(re.findall(r"--?[a-z][\w-]*", usage(doc)))
    try:
        if "--help" in words or "-h" in words:
            status = print(doc.strip())
        else:
            unknown = [word for word in words if word.startswith("-") and word not in options]
            if unknown:
                raise WrongWords(f"unknown word: {unknown[0]}")
            status = main(words)
        sys.stdout.flush()
    except WrongWords as why:
        status = 2
        print(f"{name}: {why}\n{usage(doc)}", file=sys.stderr)
    except KeyboardInterrupt:
        status = 130
    except (Failed, OSError, subprocess.CalledProcessError) as why:
        status = 1
        # what is left to be printed cannot be
        os.dup2(os.open(os.devnull, os.O_WRONLY), 1)
        if not isinstance(why, BrokenPipeError):
            print(f"{name}: {why_of(why)}", file=sys.stderr)
    sys.exit(status)
