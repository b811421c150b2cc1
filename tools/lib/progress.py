"""Says how far a tool is: how many of its steps are done, and how long they took.

On a terminal each step that ends is a line, and the last line of the screen says each second what still runs. Elsewhere nothing is
printed, so that logs are short; `-v` prints the lines there too, and one every ten seconds while a step runs. `-q` prints none anywhere.
All of it goes to standard error, and what a tool was called for to standard output. For example, `tools/install ~/.local` prints

    [1/3] archive: built (1:05)
    [2/3] wat: built (1:17)
    [2/3] 1:20 wat2json
"""

import contextlib
import shutil
import sys
import threading
import time

# How often the last line of a terminal is written, and after how long something is printed elsewhere, in seconds.
OFTEN, SELDOM = 1, 10


def clock(seconds):
    """A time, as it is printed: minutes and seconds."""
    return f"{int(seconds) // 60}:{int(seconds) % 60:02}"


def add_words(parser):
    """Adds `-q` and `-v` to the words of a tool; which one was said is `shown`."""
    both = parser.add_mutually_exclusive_group()
    for word in ("-q", "-v"):
        both.add_argument(word, action="store_const", const=word, dest="shown")


class Step:
    """A step that runs: when it began, and what is printed of it when it ends."""

    def __init__(self, how):
        self.began, self.how = time.monotonic(), how


class Steps:
    """The steps of a tool, of which several may run in parallel."""

    def __init__(self, count, word=None):
        self.count, self.done, self.running = count, 0, {}
        # names of steps that a tool counts once, and what is said beside what runs
        self.known, self.beside = set(), ""
        self.began = self.printed = time.monotonic()
        self.is_screen = word is None and sys.stderr.isatty()
        self.is_shown = self.is_screen or word == "-v"
        self.lock, self.ended = threading.RLock(), threading.Event()

    def __enter__(self):
        self.thread = threading.Thread(target=self.tick, daemon=True)
        if self.is_shown:
            self.thread.start()
        return self

    def __exit__(self, *_):
        self.ended.set()
        if self.is_shown:
            self.thread.join()
        self.wipe()

    def wipe(self):
        """Takes the last line of a terminal away, so that another can be printed."""
        if self.is_screen:
            print("\r\033[K", end="", file=sys.stderr, flush=True)

    def show(self, line, end="\n"):
        """Prints a line about steps."""
        if self.is_shown:
            self.wipe()
            print(f"[{self.done}/{self.count}] {line}", end=end, file=sys.stderr, flush=True)
            self.printed = time.monotonic()

    def tick(self):
        """Says what runs, until the steps have ended."""
        while not self.ended.wait(OFTEN):
            with self.lock:
                now = time.monotonic()
                what = f"{clock(now - self.began)} {', '.join(self.running)}{self.beside}"
                if self.is_screen:
                    self.show(what[: shutil.get_terminal_size().columns - 12], end="")
                elif self.running and now - self.printed >= SELDOM:
                    self.show(what)

    def note(self, text):
        """Says something beside what runs."""
        self.beside = f": {text}"

    def tell(self, line):
        """Prints a line of what the tool was called for."""
        with self.lock:
            self.wipe()
            print(line, flush=True)

    def count_one(self, line):
        """A step that is known when it has ended."""
        with self.lock:
            self.done += 1
            self.show(f"{line} ({clock(time.monotonic() - self.began)})")

    @contextlib.contextmanager
    def step(self, what, how="done"):
        """A step: it is counted and printed when it ends without an error, with how it ended."""
        step = Step(how)
        with self.lock:
            self.running[what] = step
        try:
            yield step
            with self.lock:
                self.done, self.beside = self.done + 1, ""
                self.show(f"{what}: {step.how} ({clock(time.monotonic() - step.began)})")
        finally:
            with self.lock:
                del self.running[what]

    def total(self):
        """How long all took, as it is printed at the end."""
        taken = time.monotonic() - self.began
        return f"{clock(taken)} minutes" if taken >= 60 else f"{taken:.0f} s"
