#!/usr/bin/env python3
"""The words of the programs, for their scripts: help, and one line on words and files that a program is going to refuse. Not proved,
and no answer rests on it.

  hint.py help PROGRAM [COMMAND]     the commands and options of a program, or of one command
  hint.py complete PROGRAM WORD..    what the last word may go on to, a line for each, for a shell
"""
from __future__ import annotations

import os
import signal
import sys

MODELS = ("sc", "tso", "pso")
LAST = 2**64 - 1


class Option:
    """An option takes one of some names, a number of a range, or the name of a file; a flag takes nothing. A fixed one is always
    among the words of its command."""

    def __init__(self, what: str, names=(), range=(), default="", is_flag=False, is_fixed=False):
        self.what, self.names, self.range, self.default = what, names, range, default
        self.is_flag, self.is_fixed = is_flag, is_fixed

    def value(self):
        return "|".join(self.names) if self.names else "N" if self.range else "FILE"

    def usage(self, name):
        return f"--{name}" if self.is_flag else f"--{name} {self.value()}"

    def refuses(self, word):
        """The values that it takes, if this word isn't one."""
        if self.names:
            return None if word in self.names else ", ".join(self.names[:-1]) + f" or {self.names[-1]}"
        if self.range:
            low, high = self.range
            digits = word[1:] if word.startswith("+") else word
            return None if digits.isascii() and digits.isdigit() and low <= int(digits) <= high else f"a number from {low} to {high}"
        return None


class Command:
    """The words that a command takes: inputs, then one that may be left out, then outputs; and options by name, of which those
    of `writes` name outputs. Where the word is left out, no option goes with the others."""

    def __init__(self, what: str, inputs=(), outputs=(), options=None, numbers=None, writes=(), optional=()):
        self.what, self.inputs, self.outputs = what, inputs, outputs
        self.options, self.numbers, self.writes, self.optional = options or {}, numbers or {}, writes, optional

    def words(self):
        return (*self.inputs, *self.optional, *self.numbers, *self.outputs)

    def usage(self):
        words = (f"[{word}]" if word in self.optional else word for word in self.words())
        options = (it.usage(name) if it.is_fixed else f"[{it.usage(name)}]" for name, it in self.options.items())
        return " ".join([*words, *options])


def model(default):
    return {"model": Option("memory model", names=MODELS, default=default)}


LOGS = ("PROGRAM", "LOG")
SEED = Option("", range=(0, LAST))
OF_LOG = model("the log's")
BUDGET = Option("how many clauses a search may learn", range=(1, 10_000_000), default="1000000")
PROGRAMS = {
    "clap_debug": {
        "record": Command("runs a program by moves that a seed chooses, and keeps the log of a run that fails or deadlocks",
                          ("PROGRAM",), ("LOG",), model("tso") | {
                              "seed": Option("chooses the moves", range=(0, LAST), default="0"),
                              "steps": Option("the most moves that are made", range=(1, 1_000_000), default="1000000")}),
        "solve": Command("writes a schedule that reproduces the log, or a refutation, which shows that none does", LOGS, ("OUT",),
                         OF_LOG | {"budget": BUDGET, "least": Option("with the fewest context switches; FILE gets a refutation of fewer")},
                         writes=("least",)),
        "replay": Command("says whether a schedule reproduces the log", (*LOGS, "SCHEDULE")),
        "check": Command("says whether a refutation shows that no schedule reproduces the log", (*LOGS, "REFUTATION")),
        "why": Command("says on which rules of the machine a refutation rests", (*LOGS, "REFUTATION")),
        "list": Command("prints the flat code of a program", ("PROGRAM",)),
        "workload": Command("makes a program of N workers (1 to 12) and a log of it, and solves it", (),
                            numbers={"N": Option("", range=(1, 12)), "SEED": SEED}),
        "migrate": Command("brings a log to the newest format", LOGS, ("OUT",)),
        "cnf": Command("writes the clauses of a log as a DIMACS text", LOGS, ("OUT",), OF_LOG),
        "import": Command("writes the schedule that another solver's answer says", (*LOGS, "ANSWER"), ("OUT",), OF_LOG),
    },
    # these have no command: the words come at once, and an option may say which command is meant
    "clap_debug_show": {
        "": Command("shows what a schedule or a log did, as text or as a page; of a program alone it says what is wrong with it, "
                    "or what it has", ("PROGRAM",), (),
                    {"moves": Option("gives each move of a schedule a row", is_flag=True), "html": Option("writes a page into FILE"),
                     "source": Option("shows the lines of this C file, as text; with --map"),
                     "map": Option("the map that tools/fromc --map kept with the program; with --source")},
                    writes=("html",), optional=("SCHEDULE or LOG",)),
    },
    "clap_debug_find": {
        "": Command("looks for a failure of a program without running it, and keeps the log of one, or a certificate that no run fails",
                    ("PROGRAM",), ("OUT",), model("tso") | {
                        "deadlock": Option("looks for a deadlock", is_flag=True),
                        "outcomes": Option("the most outcomes of branches in each thread", range=(0, 65_535), default="12"),
                        "logs": Option("the most logs that are gone through", range=(1, 2**32 - 1), default="10000"),
                        "budget": BUDGET}),
        "--check": Command("says whether a certificate shows that no run of the program fails", ("PROGRAM", "CERTIFICATE"), (),
                           {"check": Option("checks a certificate", is_flag=True, is_fixed=True)}),
    },
}
KINDS = {b"CLPL": "a log", b"clap-schedule ": "a schedule", b"clap-refutation ": "a refutation", b"clap-none ": "a certificate",
         b"p cnf ": "a list of clauses"}
WANTED = {"PROGRAM": "a program", "LOG": "a log", "SCHEDULE": "a schedule", "REFUTATION": "a refutation",
          "CERTIFICATE": "a certificate", "ANSWER": "a solver's answer",
          "SCHEDULE or LOG": "a schedule or a log"}


def split(program, words):
    """The command that words name, its positional words, and its options with their values."""
    commands = PROGRAMS[program]
    if "" not in commands:
        if not words or words[0] not in commands:
            return None, words, []
        command, rest = commands[words[0]], list(words[1:])
    else:
        command, rest = next((commands[it] for it in words if it and it in commands), commands[""]), list(words)
    plain, options = [], []
    while rest:
        word = rest.pop(0)
        if word == "--":
            return command, plain + rest, options
        if word.startswith("--"):
            name, found, value = word[2:].partition("=")
            is_flag = name in command.options and command.options[name].is_flag
            options.append((name, value if found else rest.pop(0) if rest and not is_flag else None))
        elif word.startswith("-") and word != "-":
            options.append((word[1:], None))
        else:
            plain.append(word)
    return command, plain, options


def files(command, plain, options):
    """The files that words name, each with what it is to be, and whether it is an output."""
    named = list(zip(command.words(), plain))
    yield from ((name, word, name in command.outputs) for name, word in named if name not in command.numbers)
    for name, value in options:
        if value is not None and name in command.writes:
            yield name, value, True


def is_same(one, other):
    """Whether two names are of one file, or will be. (A device or a pipe can be written by two.)"""
    if os.path.exists(one) and os.path.exists(other):
        return os.path.isfile(one) and os.path.samefile(one, other)
    return os.path.realpath(one) == os.path.realpath(other)


def clash(program, words):
    """The first output that is also an input, or another output."""
    command, plain, options = split(program, words)
    if not command:
        return None
    found = list(files(command, plain, options))
    outputs = [name for _, name, is_output in found if is_output]
    for kind, name, is_output in found:
        if not is_output and any(is_same(out, name) for out in outputs):
            return f"{name} would be written over, and is the {kind} that is read; --force does it all the same"
    twice = next((out for place, out in enumerate(outputs) if any(is_same(out, it) for it in outputs[:place])), None)
    return f"{twice} is the name of two outputs, of which the last alone would be kept; --force does it all the same" if twice else None


def nearest(word, words, sign=""):
    import difflib
    found = difflib.get_close_matches(word, words, 1, 0.5)
    return f"; did you mean {sign}{found[0]}?" if found else ""


def wrong_words(program, words):
    """The fault of words that the program doesn't take."""
    commands = PROGRAMS[program]
    command, plain, options = split(program, words)
    if not command:
        return f"there is no command {words[0]}{nearest(words[0], commands)}" if words else None
    name = words[0] if "" not in commands else " ".join([program, *(it for it in words if it and it in commands)])
    for option, value in options:
        if option not in command.options:
            is_first = command is commands.get("")
            near = [known for it in commands.values() for known in it.options] if is_first else command.options
            return f"{name} has no option --{option}{nearest(option, near, '--')}"
        if command.options[option].is_flag:
            if value is not None:
                return f"--{option} takes no value"
            continue
        if value is None:
            return f"--{option} takes a value: {command.options[option].value()}"
        wanted = command.options[option].refuses(value)
        if wanted:
            return f"--{option} takes {wanted}, and not {value}"
    twice = [it for it, _ in options if [one for one, _ in options].count(it) > 1]
    if twice:
        return f"--{twice[0]} was given twice"
    most = len(command.words())
    if not most - len(command.optional) <= len(plain) <= most:
        words = " ".join(f"[{word}]" if word in command.optional else word for word in command.words())
        given = f"{len(plain)} of these {most}" if len(plain) < most else str(len(plain))
        return f"{name} takes {words}, and {given} were given"
    if len(plain) < most and options:
        return f"--{options[0][0]} goes with a {command.optional[0]}, and none was given"
    for (word, number), given in zip(command.numbers.items(), plain):
        if number.refuses(given):
            return f"{word} is {number.refuses(given)}, and not {given}"
    return None


def kind_of(file):
    """The kind of a file by its first bytes, if these say it. (What can be read once alone, as a pipe, is left to the program.)"""
    try:
        if not os.path.isfile(file):
            return None
        with open(file, "rb") as it:
            start = it.read(16)
    except OSError:
        return None
    return next((kind for sign, kind in KINDS.items() if start.startswith(sign)), None)


def wrong_file(kind, name):
    """Why a file can't be the input of this kind: it isn't there, or is of another kind by its first bytes."""
    if not os.path.exists(name):
        return f"there is no file {name}"
    if os.path.isdir(name):
        return f"{name} is a folder"
    found, wanted = kind_of(name), WANTED[kind]
    return f"{name} is {found}, and {kind} is to be {wanted}" if found and found not in wanted.split(" or ") else None


def wrong_output(name):
    """Why nothing can be kept under the name of an output."""
    folder = os.path.dirname(os.path.realpath(name) if os.path.islink(name) else name) or "."
    if os.path.isdir(name):
        return f"{name} is a folder"
    if not os.path.isdir(folder):
        return f"there is no folder {folder}"
    if is_full(folder) and is_replaced(name, folder):
        return f"the disk of {name} is full"
    return forbidden(name, folder)


def forbidden(name, folder):
    """Why the system doesn't let us write a file, or make it in its folder."""
    if os.path.exists(name):
        return None if os.access(name, os.W_OK) else f"{name} can't be written: no permission"
    return None if os.access(folder, os.W_OK | os.X_OK) else f"{name} can't be made: its folder {folder} can't be written"


def is_replaced(name, folder):
    """Whether a new file takes the name, so that the disk must have room for it beside the old one. (docs/FORMATS.md says what is
    written in place.)"""
    if os.path.abspath(name).startswith(("/dev/", "/proc/")) or not os.access(folder, os.W_OK | os.X_OK):
        return False
    return not os.path.exists(name) or os.path.isfile(name) and os.stat(name).st_nlink == 1 and os.access(name, os.W_OK)


def is_full(folder):
    """Whether the disk has no block that this user may take. (What isn't a disk, as /proc, has no blocks at all.)"""
    disk = os.statvfs(folder)
    return disk.f_blocks > 0 and (disk.f_bfree if os.geteuid() == 0 else disk.f_bavail) == 0


def wrong_files(program, words):
    """The first file of the words that can't be what it is to be."""
    command, plain, options = split(program, words)
    found = (wrong_output(name) if is_output else wrong_file(kind, name) for kind, name, is_output in files(command, plain, options))
    return next(filter(None, found), None)


def script(name):
    """A file of the checkout, as it is named from the caller's folder."""
    import shlex
    file = os.path.relpath(os.path.join(os.path.dirname(os.path.dirname(os.path.realpath(__file__))), name))
    return shlex.quote(file if os.sep in file else os.path.join(".", file))


def is_refused(lists, name):
    """Whether a program's text is refused, as the built clap_debug says when it is to list the code."""
    flags = os.O_WRONLY, 0o600
    silent = [(os.POSIX_SPAWN_OPEN, number, os.devnull, *flags) for number in (1, 2)]
    pid = os.posix_spawn(lists, [lists, "list", "--", name], os.environ, file_actions=silent)
    ended = os.waitpid(pid, 0)[1]
    return os.WIFEXITED(ended) and os.WEXITSTATUS(ended) == 3


def explains(program, words, lists):
    """The command that says why the file is no program, unless it was this one."""
    command, plain, options = split(program, words)
    if program == "clap_debug_show" and len(plain) < 2:
        return None
    for kind, name, _ in files(command, plain, options):
        if kind == "PROGRAM" and os.path.isfile(name) and is_refused(lists, name):
            import shlex
            return f"{script('clap_debug_show')} {shlex.quote(name)} explains what is wrong with it"
    return None


def hint(program, words, lists=None):
    """What is wrong with words that the program is going to refuse, as far as that is known before it is called. `lists` is a built
    clap_debug, which says whether a text is a program."""
    if not words:
        return None
    return wrong_words(program, words) or wrong_files(program, words) or (lists and explains(program, words, lists))


def asks_help(words):
    """The word of which help is asked for: a command, or none; nothing where no help is asked for."""
    before = words[: words.index("--")] if "--" in words else words
    if before[:1] == ["help"]:
        return before[1] if len(before) > 1 else ""
    if not any(it in ("--help", "-h") for it in before):
        return None
    return next((it for it in before if not it.startswith("-")), "")


def show_command(program, name):
    command = PROGRAMS[program][name]
    word = name if "" not in PROGRAMS[program] else ""
    print(f"{' '.join(filter(None, [program, word, command.usage()]))}\n    {command.what}")
    for option, it in command.options.items():
        low_high = f", {it.range[0]} to {it.range[1]}" if it.range else ""
        default = f"; {it.default} if left out" if it.default else ""
        print(f"    --{option}: {it.what}{low_high}{default}")


def show_help(program, of=""):
    """Prints the commands and options of a program, or of one of its commands."""
    commands = PROGRAMS[program]
    is_one = of != "" and of in commands
    for name in [of] if is_one else commands:
        show_command(program, name)
    if not is_one:
        print("COMMAND --help shows one command alone" if "" not in commands else "--help and -h show this")
        print("--version says whether the program is proved, and with which kit; README.md and docs/MESSAGES.md say more")
        print("--force lets an output be written over an input; CLAP_DEBUG_QUIET=1 silences all lines about proofs and time")


def completions(program, words):
    """What the last of the words may go on to: a command, an option, or a value of one. Else files are meant."""
    commands, before, last = PROGRAMS[program], words[:-1], words[-1] if words else ""
    command = split(program, before)[0]
    if command is None:
        known = [*commands, "help", "--help", "--version"]
    elif before and before[-1].startswith("--") and before[-1][2:] in command.options:
        known = list(command.options[before[-1][2:]].names)
    else:
        used = {it.partition("=")[0] for it in before}
        every = command.options if "" not in commands else {name for it in commands.values() for name in it.options}
        known = [f"--{it}" for it in every if f"--{it}" not in used] if last.startswith("-") else []
    return [it for it in known if it.startswith(last)]


def main(what="", program="", *rest):
    if program not in PROGRAMS or what not in ("help", "complete"):
        print(__doc__, file=sys.stderr)
        return 2
    if what == "help":
        show_help(program, *rest[:1])
    else:
        print("".join(f"{it}\n" for it in completions(program, rest)), end="")
    return 0


if __name__ == "__main__":
    # (a reader may close the pipe before the end, as `head` does)
    signal.signal(signal.SIGPIPE, signal.SIG_DFL)
    sys.exit(main(*sys.argv[1:]))
