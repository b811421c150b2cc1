"""Ends what a tool started, if the tool is told to end: by SIGTERM, SIGHUP or SIGINT.

A compiler that a tool started would otherwise run on for minutes, and keep files in a folder that the tool removes. For example, after
`ending.with_children()` at its start, `kill` of `tools/install` ends each compiler, removes the folders, and has status 143.
"""

import ctypes
import os
import pathlib
import signal
import sys
import threading
import time

# The signals, and how long what is told to end may take, in seconds.
SIGNALS = (signal.SIGTERM, signal.SIGHUP, signal.SIGINT)
PATIENCE = 3

# The number of the call of prctl by which a process becomes the parent of what its children leave.
SUBREAPER = 36


def parents():
    """The parent of each process that runs."""
    found = {}
    for path in pathlib.Path("/proc").glob("[0-9]*/stat"):
        try:
            state, parent = path.read_text(encoding="utf-8", errors="replace").rpartition(")")[2].split()[:2]
        except (OSError, ValueError):
            continue
        if state != "Z":
            found[int(path.parent.name)] = int(parent)
    return found


def children():
    """What this process started, and what that started."""
    found, whole = {os.getpid()}, parents()
    while True:
        more = {number for number, parent in whole.items() if parent in found} - found
        if not more:
            return found - {os.getpid()}
        found |= more


def send(number):
    """Sends a signal to each child."""
    for child in children():
        try:
            os.kill(child, number)
        except OSError:
            continue


def end_children():
    """Tells each child to end, by the signal at which `rt` removes its folders, and kills those that have not ended in time."""
    send(signal.SIGINT)
    limit = time.monotonic() + PATIENCE
    while children() and time.monotonic() < limit:
        time.sleep(0.05)
    send(signal.SIGKILL)


def kill_what_starts():
    """Kills what a thread of this tool starts while the tool ends."""
    while True:
        send(signal.SIGKILL)
        time.sleep(0.5)


def stop(number, _):
    """Ends this tool and its children, so that its folders are removed on the way."""
    for it in SIGNALS:
        signal.signal(it, signal.SIG_IGN)
    end_children()
    threading.Thread(target=kill_what_starts, daemon=True).start()
    sys.exit(128 + number)


def with_children():
    """From now on, what ends this tool ends its children too."""
    ctypes.CDLL(None).prctl(SUBREAPER, 1, 0, 0, 0)
    for number in SIGNALS:
        signal.signal(number, stop)
