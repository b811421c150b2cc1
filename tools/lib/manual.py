"""Writes the man pages of the commands `wat` and `wat2json`, and their completions for bash, zsh and fish, from the sources of the commands,
for `tools/pages`.

The options of a command are the table OPTIONS of its src/options.rt, from which `--help` prints its list. The other texts of the
help and the exit statuses are those of its src/help.rt, and the version is that of bindings/rust/Cargo.toml. For example,
an option that is added to the table of `wat` is added to four files by one run. The man pages are docs/wat.1 and docs/wat2json.1 (`man docs/wat.1`
shows it), and the completions are in crates/wat/completions and crates/wat2json/completions. It is a problem if the page of a command lacks an option.
"""

import re
import typing

import entry

ROOT = entry.ROOT


class Command(typing.NamedTuple):
    """A command: what is written of it beside the texts of its help."""

    name: str
    # The page of docs/ whose table has its options.
    page: str
    # More paragraphs of the man page. In backticks is what is typed.
    details: str
    # Examples: what they do, and what is typed.
    examples: list
    # The extensions of the files that it reads.
    extensions: list
    # What the man page points to.
    see: str

    def source(self, name):
        """A file of its sources."""
        return (ROOT / f"crates/{self.name}/src/{name}.rt").read_text(encoding="utf-8")

    @property
    def completions(self):
        """The folder of its completions."""
        return ROOT / f"crates/{self.name}/completions"


WAT = Command(
    "wat",
    "COMMANDS.md",
    """
A file of an output is written whole or not at all: the output goes to a temporary file `.wat-0.tmp` in the same folder, which gets the
name of the output when it is complete, and is removed if anything fails. If that name is taken, the next number is used. If FILE is a
device, a pipe or a symbolic link, `wat` writes to it directly.

With several files, or with `--out-dir`, the name of an output is that of its source, with the extension `.wasm` (with `--hex` `.hex`, with
`--names` `.names`) in place of `.wat` or `.wast`, or behind any other name. If two files have the same output, nothing is written. A file
that fails is reported, the others are converted all the same, and the exit status is the greatest.

Bytes are not written to a terminal without `-o -`.

With `--check` each file is read and resolved, and the types in its function bodies are checked. The first body that is not valid is
reported at its function, with the number of the instruction. An instruction that is not covered is reported as not checked, with status 1.

Diagnostics have colours if standard error is a terminal and the environment variable `NO_COLOR` is empty or unset, or as `--color` says.
With `--json` each is a line with one object: severity, message, file, number, start, end, line, column and notes.
""",
    [
        ("Convert one module:", "wat a.wat -o a.wasm"),
        ("Convert all modules of a folder into another:", "wat --out-dir build src/*.wat"),
        ("Show the bytes of a module:", "echo '(module (func))' | wat --hex"),
        ("Show which index each id has:", "wat --names a.wat"),
        ("Check the function bodies of all modules of a folder:", "wat --check src/*.wat"),
    ],
    ["wat", "wast"],
    "wat2wasm",
)

WAT2JSON = Command(
    "wat2json",
    "COMMANDS.md",
    """
The files are those of `wast2json` of wabt, so runners of tests such as `spectest-interp` read them. The modules are written first, and the
JSON is renamed last, so each file that it names is there and whole. Nothing is written of a script with an error, or if
an output is the script itself.

A module with an unsupported construct is an error. With `--skip` its command, and each command that refers to it, is written with the type
`skipped` and the reason, which a runner has to know.

With `-o -` the modules need `--out-dir`.
""",
    [
        ("Convert a script, and run it:", "wat2json a.wast && spectest-interp a.json"),
        ("Keep all files in a folder:", "wat2json --out-dir build a.wast"),
        ("Show the commands of a script:", "wat2json a.wast -o - --out-dir /tmp"),
    ],
    ["wast"],
    "wast2json",
)

COMMANDS = [WAT, WAT2JSON]


# The values of `--color`, and the errors with a number.
WHEN = "auto always never"
ERRORS = " ".join(f"E{number}" for number in range(1, 14))


class Choice(typing.NamedTuple):
    """A row of the table of options."""

    short: str
    long: str
    value: str
    help: str

    def forms(self):
        """The forms of the option, the short one first."""
        return [form for form in (self.short, self.long) if form]


def text_of(source, name):
    """A text of the sources."""
    literal = re.search(rf'^const {name}: &str =\s+"((?:[^"\\]|\\.)*)";', source, re.M)[1]
    return literal.replace('\\"', '"')


def choices(command):
    """The table of options of a command."""
    source = command.source("options")
    table = re.search(r"const OPTIONS: \[Choice<Action>; (\d+)\] = \[\n(.*?)^\];", source, re.M | re.S)
    rows = re.findall(r"    Choice \{\n(.*?)    \},\n", table[2], re.S)
    found = [Choice(**dict(re.findall(r'^ +(short|long|value|help): "([^"\\]*)",$', row, re.M))) for row in rows]
    if len(found) != int(table[1]):
        raise entry.Failed(f"{len(found)} of {table[1]} options were read")
    return found


def statuses(source):
    """The exit statuses and what they mean."""
    table = re.search(r"const STATUSES: \[\(u8, &str\); (\d+)\] = \[\n(.*?)^\];", source, re.M | re.S)
    found = re.findall(r'\(\s*(\d+),\s+"([^"\\]*)",?\s*\)', table[2])
    if len(found) != int(table[1]):
        raise entry.Failed(f"{len(found)} of {table[1]} exit statuses were read")
    return found


def version():
    """The version of the command, as the crate of Rust has it."""
    manifest = (ROOT / "bindings/rust/Cargo.toml").read_text(encoding="utf-8")
    return re.search(r'^version = "(.*)"$', manifest, re.M)[1]


def roff(text):
    """A text as a man page has it: what is typed is bold."""
    text = text.replace("\\", "\\e").replace("-", "\\-")
    text = re.sub(r"`([^`]*)`", r"\\fB\1\\fR", text)
    return re.sub(r"^([.'])", r"\\&\1", text, flags=re.M)


def sentence(text):
    """A line of the help as a sentence."""
    return f"{text[0].upper()}{text[1:]}."


def paragraphs(text):
    """The paragraphs of a text, each one line."""
    return [" ".join(part.split()) for part in text.strip().split("\n\n")]


def man_page(command, options):
    """The man page."""
    source, name = command.source("help"), command.name
    about = text_of(source, "ABOUT")
    words = re.sub(r"\b([A-Z]+)\b", r"\\fI\1\\fR", text_of(source, "USAGE").removeprefix(f"{name} "))
    out = [
        '.\\" Written by tools/pages.',
        f'.TH {name.upper()} 1 "" "{name} {version()}" "User Commands"',
        ".SH NAME",
        f"{name} \\- {roff(about[0].lower() + about[1:].rstrip('.'))}",
        ".SH SYNOPSIS",
        f".B {name}",
        words,
        ".SH DESCRIPTION",
    ]
    for number, paragraph in enumerate(paragraphs(f"{text_of(source, 'DESCRIPTION')}\n\n{command.details}")):
        out += [".PP"] * (number > 0) + [roff(paragraph)]
    out.append(".SH OPTIONS")
    for choice in options:
        value = f" \\fI{choice.value}\\fR" if choice.value else ""
        out += [".TP", ", ".join(f"\\fB{roff(form)}\\fR" for form in choice.forms()) + value, roff(sentence(choice.help))]
    out.append(".SH EXIT STATUS")
    for number, meaning in statuses(source):
        out += [".TP", f".B {number}", roff(sentence(meaning))]
    out.append(".SH EXAMPLES")
    for about, typed in command.examples:
        out += [".PP", roff(about), ".PP", ".RS", ".nf", roff(typed), ".fi", ".RE"]
    return "\n".join([*out, ".SH SEE ALSO", f".BR {command.see} (1)", ""])


def forms_with(options, value):
    """The forms of the options whose value has this name."""
    return [form for choice in options if choice.value == value for form in choice.forms()]


def bash_case(options, value, how):
    """How bash completes a value of this name, if an option has one."""
    forms = forms_with(options, value)
    return f"""            {' | '.join(forms)})
                mapfile -t COMPREPLY < <(compgen {how} -- "$word")
                return
                ;;
""" * bool(forms)


def bash(command, options):
    """The completion of bash."""
    name, forms = command.name, " ".join(form for choice in options for form in choice.forms())
    files = "".join(f"""        compgen -f -X '!*.{extension}' -- "$word"\n""" for extension in command.extensions)
    return f"""# bash completion of the command `{name}`, written by tools/pages.

_{name}() {{
    local word=${{COMP_WORDS[COMP_CWORD]}} before=${{COMP_WORDS[COMP_CWORD - 1]}} it
    local files=false
    # `--output=FILE` is three words
    if [[ $word == '=' ]]; then
        word=
    elif [[ $before == '=' ]]; then
        before=${{COMP_WORDS[COMP_CWORD - 2]}}
    fi
    for it in "${{COMP_WORDS[@]:1:COMP_CWORD - 1}}"; do
        [[ $it == -- ]] && files=true
    done
    compopt -o filenames 2> /dev/null
    if [[ $files == false ]]; then
        case $before in
{bash_case(options, "FILE", "-f")}{bash_case(options, "FOLDER", "-d")}{bash_case(options, "WHEN", f"-W '{WHEN}'")}{bash_case(options, "ERROR", f"-W '{ERRORS}'")}        esac
        if [[ $word == -* ]]; then
            mapfile -t COMPREPLY < <(compgen -W '{forms}' -- "$word")
            return
        fi
    fi
    mapfile -t COMPREPLY < <(
{files}        compgen -d -- "$word"
    )
}}

complete -F _{name} {name}
"""


def quoted(text):
    """A text in single quotes."""
    return "'" + text.replace("'", "'\\''") + "'"


# How zsh and fish complete a value.
ZSH_VALUES = {"": "", "FILE": ":FILE:_files", "FOLDER": ":FOLDER:_files -/", "WHEN": f":WHEN:({WHEN})", "ERROR": f":ERROR:({ERRORS})"}
FISH_VALUES = {
    "": "",
    "FILE": " -r -F",
    "FOLDER": " -x -a '(__fish_complete_directories)'",
    "WHEN": f" -x -a '{WHEN}'",
    "ERROR": f" -x -a '{ERRORS}'",
}


def zsh_rows(choice):
    """The rows of `_arguments` of an option. One that excludes itself is not offered again."""
    about = f"[{choice.help}]{ZSH_VALUES[choice.value]}"
    for form in choice.forms():
        sign = "=" if choice.value and form == choice.long else ""
        yield quoted(f"({' '.join(choice.forms())}){form}{sign}{about}")


def zsh(command, options):
    """The completion of zsh."""
    rows = [row for choice in options for row in zsh_rows(choice)]
    rows.append(quoted(f'*:FILE:_files -g "*.({"|".join(command.extensions)})"'))
    head = f"#compdef {command.name}\n# zsh completion of the command `{command.name}`, written by tools/pages.\n\n"
    return head + " \\\n    ".join(["_arguments -S", *rows]) + "\n"


def fish(command, options):
    """The completion of fish."""
    name = command.name
    lines = [f"# fish completion of the command `{name}`, written by tools/pages.", ""]
    for choice in options:
        short = f" -s {choice.short[1:]}" if choice.short else ""
        lines.append(f"complete -c {name}{short} -l {choice.long[2:]}{FISH_VALUES[choice.value]} -d {quoted(choice.help)}")
    return "\n".join([*lines, f"complete -c {name} -k -a '(__fish_complete_suffix .{command.extensions[0]})'", ""])


def files_of(command):
    """Each file that is written of a command, and its text."""
    options, name = choices(command), command.name
    return {
        ROOT / f"docs/{name}.1": man_page(command, options),
        command.completions / f"{name}.bash": bash(command, options),
        command.completions / f"_{name}": zsh(command, options),
        command.completions / f"{name}.fish": fish(command, options),
    }


def written():
    """Each file that is written, and its text."""
    return {path: text for command in COMMANDS for path, text in files_of(command).items()}


def problems():
    """A line for each option that the page of a command lacks."""
    for command in COMMANDS:
        page = (ROOT / "docs" / command.page).read_text(encoding="utf-8")
        for choice in choices(command):
            if not re.search(rf"^\| .*`{choice.long}[ `]", page, re.M):
                yield f"docs/{command.page} lacks `{choice.long}`"
