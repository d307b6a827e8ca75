#!/usr/bin/env python3
"""Runs the commands of the examples' pages, solves their logs, and compares: what a page says is what comes.

  examples.py [--rewrite] [--program P] [--show S] [FOLDER..]

It reads each page README.md below examples/, or in the folders that are given, that has a line `<!-- verdicts -->`:

- It runs each command of a block ```console, after `$ `; the block must have its output. Together these commands must write each
  log of the page's folder, by its name.
- It solves each log of the folder under each model: the table between `<!-- verdicts -->` and `<!-- end -->` must say whether the log
  is possible, and with how few context switches. It replays the schedules and checks the refutations.
- Each schedule of the folder must reproduce its log, with as few switches as any.

With --rewrite the pages get what comes, and a log without a schedule gets one with the fewest switches. P and S are the built
programs clap_debug and clap_debug_show; the default is the scripts of these names, which take longer. Ends with 1 if a page differs.
"""
import argparse
import difflib
import os
import shlex
import subprocess
import sys
import tempfile
from dataclasses import dataclass, field
from pathlib import Path

sys.dont_write_bytecode = True
import machine
import pages
import show
from kept_files import keep, run_main

TOP = Path(__file__).resolve().parent.parent
FIRST, LAST = "<!-- verdicts -->", "<!-- end -->"


class Wrong(Exception):
    """Something that a page, or a file beside it, promises and that doesn't hold."""


@dataclass
class Programs:
    """The two programs, by the names that pages call them by."""

    clap_debug: str
    clap_debug_show: str

    def run(self, words, room):
        """A command's output and status. It runs in a scratch folder."""
        name, *rest = words
        known = {"./clap_debug": self.clap_debug, "./clap_debug_show": self.clap_debug_show}
        ran = subprocess.run([known.get(name, name), *rest], cwd=room, stdout=subprocess.PIPE, text=True, check=False)
        return ran.stdout.rstrip("\n"), ran.returncode

    def wants(self, answer, words, room):
        """A command of `clap_debug` whose one line is known beforehand."""
        said, _ = self.run(["./clap_debug", *words], room)
        if said != answer:
            raise Wrong(f"clap_debug {shlex.join(map(str, words))} says {said!r}, and is to say {answer!r}")


@dataclass
class Example:
    """A folder with its page, and a scratch folder in which commands find the repository's examples and scripts."""

    folder: Path
    programs: Programs
    room: Path
    verdicts: dict = field(default_factory=dict)

    def solve(self, log, model):
        """How few switches lead to the log under a model, or None where no schedule does; the answer is tested."""
        given, out, fewer = [log.with_suffix(".tc"), log], self.room / "answer", self.room / "fewer"
        fewer.unlink(missing_ok=True)
        said, status = self.programs.run(["./clap_debug", "solve", *given, out, "--model", model, "--least", fewer], self.room)
        if status == 1 and said.startswith("impossible, "):
            self.programs.wants("accepted, impossible", ["check", *given, out], self.room)
            return None
        if status != 0:
            raise Wrong(f"solve of {log} under {model} says {said!r}")
        self.programs.wants("reproduces", ["replay", *given, out], self.room)
        switches = int(said.split()[-2])
        if switches:
            self.programs.wants(f"accepted, more than {switches - 1} switches", ["check", *given, fewer], self.room)
        return switches

    def table(self):
        """The verdicts of the folder's logs, p first."""
        rows = ["| log | sc | tso | pso |", "|---|---|---|---|"]
        for log in sorted(self.folder.glob("*.log"), key=lambda it: (it.stem == "mended", it.stem)):
            found = [self.solve(log, model) for model in machine.MODELS]
            self.verdicts[log.stem] = found
            cells = ["impossible" if it is None else f"{it} switches" for it in found]
            rows.append(f"| `{log.stem}` | {' | '.join(cells)} |")
        return rows

    def keep_schedules(self):
        """Solves each log that has no schedule beside it, and is possible under its own model."""
        for log in self.folder.glob("*.log"):
            out = log.with_suffix(".sched")
            switches = self.verdicts[log.stem][machine.MODELS.index(model_of(log))]
            if not out.exists() and switches is not None:
                given = [log.with_suffix(".tc"), log, out]
                self.programs.run(["./clap_debug", "solve", *given, "--least", self.room / "fewer"], self.room)

    def test_schedules(self):
        """Whether each schedule reproduces its log with as few switches as any."""
        for kept in self.folder.glob("*.sched"):
            log = kept.with_suffix(".log")
            self.programs.wants("reproduces", ["replay", log.with_suffix(".tc"), log, kept], self.room)
            least = self.verdicts[log.stem][machine.MODELS.index(model_of(log))]
            if switches_of(kept, log) != least:
                raise Wrong(f"{kept} has {switches_of(kept, log)} switches, and is to have {least}")

    def test_logs(self):
        """Whether the commands of the page have written the logs of the folder."""
        for name in sorted({it.name for folder in (self.room, self.folder) for it in folder.glob("*.log")}):
            written, kept = self.room / name, self.folder / name
            if not written.exists():
                raise Wrong(f"no command of the page writes {name}")
            if not kept.exists() or written.read_bytes() != kept.read_bytes():
                raise Wrong(f"a command of the page writes another {name}")

    def sessions(self, lines):
        """The lines of a page, with what each command prints."""
        made, is_session = [], False
        for line in lines:
            if line.startswith("```"):
                is_session = line == "```console"
            if not is_session or line == "```console":
                made.append(line)
            elif line.startswith("$ "):
                said, _ = self.programs.run(shlex.split(line[2:]), self.room)
                made += [line, *said.split("\n")] if said else [line]
        return made

    def page(self, text, is_rewritten):
        """The page as it is to be."""
        lines = text.split("\n")
        if lines.count(FIRST) != 1 or LAST not in lines[lines.index(FIRST):]:
            raise Wrong(f"the page wants one line {FIRST}, and {LAST} behind it")
        at = lines.index(FIRST)
        lines[at + 1 : lines.index(LAST, at)] = ["", *self.table(), ""]
        if is_rewritten:
            self.keep_schedules()
        self.test_schedules()
        made = self.sessions(lines)
        self.test_logs()
        return "\n".join(made)


def model_of(log):
    return machine.Log.read(log.read_bytes()).model


def switches_of(kept, log):
    """How often the events of a schedule go from one thread to another."""
    code = machine.Code(log.with_suffix(".tc").read_text())
    model, moves = show.moves_of(kept.read_text())
    threads = [moves[number - 1][1] for number in pages.events_of(code, model, moves)]
    return sum(one != other for one, other in zip(threads, threads[1:]))


def room_of(folder):
    """A scratch folder that shows commands what they name."""
    room = Path(folder)
    for name in ("examples", "bench"):
        (room / name).symlink_to(TOP / name)
    return room


def test(page, programs, is_rewritten):
    """Whether a page says what comes; where it doesn't, prints how they differ, or rewrites it."""
    text = page.read_text()
    with tempfile.TemporaryDirectory() as folder:
        made = Example(page.parent, programs, room_of(folder)).page(text, is_rewritten)
    if made == text:
        return True
    name = os.path.relpath(page, TOP)
    print(*difflib.unified_diff(text.split("\n"), made.split("\n"), f"{name}", f"{name}, as it comes", lineterm=""), sep="\n")
    if is_rewritten:
        keep(str(page), made)
    return False


def pages_of(folders):
    """The pages whose answers are written by this script."""
    found = [it for folder in folders for it in sorted(Path(folder).resolve().rglob("README.md"))]
    return [it for it in found if f"\n{FIRST}\n" in it.read_text()]


def main(words):
    parser = argparse.ArgumentParser(usage=__doc__)
    parser.add_argument("--rewrite", action="store_true")
    parser.add_argument("--program", default=TOP / "clap_debug")
    parser.add_argument("--show", default=TOP / "clap_debug_show")
    parser.add_argument("folders", nargs="*", default=[TOP / "examples"])
    given = parser.parse_args(words)
    for program in (given.program, given.show):
        if not os.access(program, os.X_OK):
            parser.error(f"there is no program {program}")
    programs = Programs(os.path.abspath(given.program), os.path.abspath(given.show))
    found, wrong = pages_of(given.folders), 0
    for page in found:
        try:
            wrong += not test(page, programs, given.rewrite)
        except Wrong as said:
            print(f"{os.path.relpath(page, TOP)}: {said}", file=sys.stderr)
            wrong += 1
    print(f"{len(found)} pages of examples, {wrong} {'rewritten or wrong' if given.rewrite else 'wrong'}")
    return 1 if wrong else 0


if __name__ == "__main__":
    run_main("examples.py", main)
