#!/usr/bin/env python3
"""Tries ./debug: each status, line, option and object, with the built programs, and with scripts in their place that are slow, wrong or
silent.

    test_debug.py [NAME..]      all tests, or those of these names, as unittest has them

CLAP_DEBUG, CLAP_DEBUG_FIND and CLAP_DEBUG_SHOW may name built programs; else this checkout's are used, and built if need be. Tests of C
want gcc and clang, and are skipped by name without them."""
import asyncio
import json
import os
import pty
import re
import select
import shutil
import signal
import subprocess
import sys
import tempfile
import time
import unittest
from typing import Any, Callable, Dict, List, NamedTuple, Tuple
from unittest import mock

sys.dont_write_bytecode = True
TOP = os.path.dirname(os.path.dirname(os.path.abspath(__file__)))
sys.path.insert(0, f"{TOP}/tools")
from built import build  # noqa: E402
from debug_runs import lines, reasons  # noqa: E402
from debug_runs.answers import KINDS, Excluded, Question, Unsolved  # noqa: E402
from debug_runs.asking import Asking  # noqa: E402
from debug_runs.folder import Folder  # noqa: E402
from debug_runs.programs import Programs  # noqa: E402
from debug_runs.running import Done  # noqa: E402
from debug_runs.session import Session  # noqa: E402
from debug_runs.source import CELL, Source  # noqa: E402
from kept_files import run_main  # noqa: E402

NAMES = ("clap_debug", "clap_debug_find", "clap_debug_show")
# The built programs, by the variables that name them.
BUILT: Dict[str, str] = {}
NO_NATIVE = {"CLAP_DEBUG_NATIVE": "/nowhere/native"}
# How many seconds something that must come may take: far more than it does, also on a machine that is busy.
PATIENCE = 600
HAS_C = shutil.which("gcc") and shutil.which("clang")
LOCK = """int held;
int count;

thread worker() {
    while (held) {
    }
    held = 1;
    count = count + 1;
    held = 0;
}

main {
    tid a;
    tid b;
    a = create worker();
    b = create worker();
    join(a);
    join(b);
    assert(count == 2);
}
"""
MENDED = LOCK.replace("    while (held) {\n    }\n    held = 1;\n", "    int was;\n    was = cas(held, 0, 1);\n    while (was) {\n"
                      "        was = cas(held, 0, 1);\n    }\n").replace("    held = 0;", "    stbar();\n    held = 0;")
BUFFERING = """int x;
int y;
int left_saw = 1;
int right_saw = 1;

thread left() {
    x = 1;
    left_saw = y;
}

thread right() {
    y = 1;
    right_saw = x;
}

main {
    tid l;
    tid r;
    l = create left();
    r = create right();
    join(l);
    join(r);
    assert(left_saw + right_saw > 0);
}
"""
# A thread may go round as often as it likes, so that no bound on its outcomes covers all runs.
ENDLESS = """int more = 1;
int count;

thread worker() {
    while (more) {
        count = count + 1;
    }
}

main {
    tid a;
    a = create worker();
    more = 0;
    join(a);
    assert(more == 0);
}
"""
CROSSED = """mutex one;
mutex other;

thread forth() {
    lock(one);
    lock(other);
    unlock(other);
    unlock(one);
}

main {
    tid a;
    a = create forth();
    lock(other);
    lock(one);
    unlock(one);
    unlock(other);
    join(a);
}
"""


def setUpModule() -> None:
    BUILT.update((name.upper(), os.path.abspath(build(name))) for name in NAMES)


class Came(NamedTuple):
    """The status of ./debug, and what it printed."""

    status: int
    out: str
    errors: str

    @property
    def objects(self) -> List[Dict[str, Any]]:
        return [json.loads(line) for line in self.out.splitlines()]


class Tests(unittest.TestCase):
    """A folder of its own for each test, with programs in it."""

    def setUp(self) -> None:
        folder = tempfile.TemporaryDirectory()
        self.addCleanup(folder.cleanup)
        self.room = folder.name

    def file(self, name: str, text: str, mode: int = 0o644) -> str:
        path = os.path.join(self.room, name)
        with open(path, "w", encoding="utf-8") as out:
            out.write(text)
        os.chmod(path, mode)
        return path

    def script(self, name: str, text: str) -> str:
        return self.file(name, f"#!/usr/bin/env bash\n{text}\n", 0o755)

    def environment(self, others: Dict[str, str]) -> Dict[str, str]:
        return {**os.environ, **BUILT, **NO_NATIVE, **others}

    def debug(self, *words: str, **others: str) -> Came:
        """Runs ./debug in the folder of the test; a name in upper case sets a variable of the environment."""
        done = subprocess.run([f"{TOP}/debug", *words], cwd=self.room, env=self.environment(others), stdin=subprocess.DEVNULL, text=True,
                              capture_output=True, timeout=PATIENCE, check=False)
        return Came(done.returncode, done.stdout, done.stderr)

    def refused(self, said: str, *words: str, **others: str) -> None:
        """Status 2, one reason on standard error, and nothing else."""
        came = self.debug(*words, **others)
        self.assertEqual((came.status, came.out), (2, ""), came)
        self.assertIn(said, came.errors)
        self.assertNotIn("Traceback", came.errors)
        self.assertNotIn("a fault of this script", came.errors)

    def line(self, came: Came, label: str) -> str:
        """The one line with this label."""
        found = [it for it in came.out.splitlines() if it.startswith(f"{label} ")]
        self.assertEqual(len(found), 1, came)
        return found[0][10:]

    def mounted(self, name: str) -> str:
        """A folder with a file system of 64 kilobytes."""
        folder = f"{self.room}/{name}"
        os.mkdir(folder)
        if subprocess.run(["mount", "-t", "tmpfs", "-o", "size=64k", "none", folder], capture_output=True, check=False).returncode:
            self.skipTest("no file system can be mounted here")
        self.addCleanup(subprocess.run, ["umount", folder], check=True)
        return folder

    def kept(self, folder: str) -> List[str]:
        return sorted(it for it in os.listdir(os.path.join(self.room, folder)) if not it.startswith("."))


class Answers(Tests):
    """What is said of programs."""

    def test_no_run_fails(self) -> None:
        self.file("mended.tc", MENDED)
        came = self.debug("mended.tc")
        self.assertEqual(came.status, 0, came)
        for model in ("sc", "tso", "pso"):
            self.assertRegex(self.line(came, model), r"^no run fails or deadlocks \((proved, )?certificates accepted\)$")
        certificates = [f"mended.{model}.{kind}.cert" for model in ("pso", "sc", "tso") for kind in ("deadlock", "failure")]
        self.assertEqual(self.kept("mended.debug"), sorted([*certificates, "mended.tc"]))
        for each in certificates:
            said = subprocess.run([BUILT["CLAP_DEBUG_FIND"], "mended.tc", f"mended.debug/{each}", "--check"], cwd=self.room, text=True,
                                  capture_output=True, check=False)
            self.assertEqual((said.returncode, said.stdout), (0, "accepted, none\n"))

    def test_each_model_fails(self) -> None:
        self.file("lock.tc", LOCK)
        came = self.debug("lock.tc")
        self.assertEqual(came.status, 1, came)
        for model in ("sc", "tso", "pso"):
            self.assertRegex(self.line(came, model), rf"^fails at line 19: \d+ moves, \d+ switches +lock.{model}.html$")
        self.assertIn("Thread 0.2 changes held (line 7) between thread 0.1's load of it (line 5) and its store to it (line 7).", came.out)
        self.assertEqual([it for it in self.kept("lock.debug") if ".sc." in it],
                         [f"lock.sc.{it}" for it in ("deadlock.cert", "fewer", "html", "log", "sched", "txt")])
        said = subprocess.run([BUILT["CLAP_DEBUG"], "replay", "lock.tc", "lock.debug/lock.sc.log", "lock.debug/lock.sc.sched"], cwd=self.room,
                              text=True, capture_output=True, check=False)
        self.assertEqual(said.stdout, "reproduces\n")
        with open(f"{self.room}/lock.debug/lock.sc.html", encoding="utf-8") as page:
            self.assertIn("<html", page.read())

    def test_a_weaker_model_alone_fails(self) -> None:
        self.file("p.tc", BUFFERING)
        came = self.debug("p.tc", "--model", "sc", "--model", "tso")
        self.assertEqual(came.status, 1, came)
        self.assertIn("no run fails or deadlocks", self.line(came, "sc"))
        self.assertRegex(self.line(came, "tso"), "^fails at line 23: ")
        self.assertNotIn("\npso ", came.out)
        self.assertRegex(came.out, r"Thread 0\.[12] reads [xy] \(line \d+\) while thread 0\.[12]'s store to it \(line \d+\) still waits in its buffer\.")
        came = self.debug("p.tc", "--model", "sc")
        self.assertEqual(came.status, 0, came)

    def test_deadlock(self) -> None:
        self.file("p.tc", CROSSED)
        came = self.debug("p.tc", "--model", "pso")
        self.assertEqual(came.status, 1, came)
        self.assertRegex(self.line(came, "pso"), r"^deadlocks at lines 15 and 6: \d+ moves, 1 switch +p.pso.deadlock.html$")
        self.assertIn("Thread 0 is at line 15 and waits for one, which 0.1 has.", came.out)
        self.assertIn("p.pso.deadlock.log", self.kept("p.debug"))

    def test_bounded(self) -> None:
        self.file("p.tc", ENDLESS)
        came = self.debug("p.tc", "--model", "sc", "--seconds", "2")
        self.assertEqual(came.status, 3, came)
        self.assertRegex(came.out, r"sc +no run with at most \d+ outcomes a thread fails.* \((proved, )?certificates? accepted\); with more, "
                         r"(no answer in 2 seconds: raise --seconds above 2|limit .*: make the program smaller)")

    def test_deadlock_of_a_program_that_fails(self) -> None:
        """Where a run fails, a deadlock isn't looked for with the time of a whole question."""
        self.file("p.tc", LOCK)
        slow = self.script("find", f'case "$*" in *--deadlock*) exec sleep 1000 ;; esac\nexec {BUILT["CLAP_DEBUG_FIND"]} "$@"')
        came = self.debug("p.tc", "--model", "sc", "--seconds", "600", "--json", CLAP_DEBUG_FIND=slow)
        self.assertEqual(came.status, 1, came)
        deadlock = next(it for it in came.objects if it["what"] == "deadlock")
        self.assertEqual((deadlock["answer"], deadlock["cure"]), ("open", "mend what fails, and ask again"))

    def test_deadlock_beside_a_long_search(self) -> None:
        """A deadlock is found while the search for a failure goes on."""
        self.file("p.tc", CROSSED)
        awaits = "until [ -e p.sc.deadlock.html ]; do sleep 0.1; done"
        slow = self.script("find", f'case "$*" in *--deadlock*) ;; *) {awaits} ;; esac\nexec {BUILT["CLAP_DEBUG_FIND"]} "$@"')
        came = self.debug("p.tc", "--model", "sc", "--seconds", "100", CLAP_DEBUG_FIND=slow)
        self.assertEqual(came.status, 1, came)
        self.assertRegex(self.line(came, "sc"), r"^deadlocks at lines 15 and 6: ")

    def test_time(self) -> None:
        self.file("p.tc", LOCK)
        slow = self.script("find", "exec sleep 1000")
        came = self.debug("p.tc", "--model", "sc", "--seconds", "0.5", CLAP_DEBUG_FIND=slow)
        self.assertEqual(came.status, 3, came)
        self.assertEqual(self.line(came, "sc"), "not decided whether there is a failure or a deadlock: no answer in 0.5 seconds: raise --seconds "
                         "above 0.5")

    def test_schedule_without_time(self) -> None:
        self.file("p.tc", LOCK)
        slow = self.script("solve", f'[ "$1" != solve ] || exec sleep 1000\nexec {BUILT["CLAP_DEBUG"]} "$@"')
        came = self.debug("p.tc", "--model", "sc", "--seconds", "3", CLAP_DEBUG=slow)
        self.assertEqual(came.status, 1, came)
        self.assertRegex(self.line(came, "sc"), r"^fails: no schedule in 3 seconds; raise --seconds above 3 +p.sc.log$")

    def test_what_one_model_has_the_next_has(self) -> None:
        """A search that comes to no end under TSO needs none if a run fails under SC."""
        self.file("p.tc", LOCK)
        slow = self.script("find", f'case "$*" in *tso*) exec sleep 1000 ;; esac\nexec {BUILT["CLAP_DEBUG_FIND"]} "$@"')
        came = self.debug("p.tc", "--model", "sc", "--model", "tso", "--seconds", "60", CLAP_DEBUG_FIND=slow)
        self.assertEqual(came.status, 1, came)
        self.assertRegex(came.out, r"(?m)^tso +fails at line 19: \d+ moves, \d+ switches +p.tso.html$")

    def test_without_the_fewest(self) -> None:
        """Where the search for the fewest switches takes too long, the first schedule is kept."""
        self.file("p.tc", LOCK)
        slow = self.script("solve", f'case "$*" in *--least*) exec sleep 1000 ;; esac\nexec {BUILT["CLAP_DEBUG"]} "$@"')
        came = self.debug("p.tc", "--model", "sc", "--seconds", "3", CLAP_DEBUG=slow)
        self.assertRegex(self.line(came, "sc"), r"^fails at line 19: \d+ moves, \d+ switches, maybe fewer +p.sc.html$")


class Asked(Tests):
    """How long each question is asked, and in which order: searches are stood in for, and what they find is solved at once."""

    def asked(self, seconds: float, says: Callable[[str, str], str]) -> Tuple[List[Tuple[str, str, float]], Dict[Question, Any]]:
        """The model, the kind and the seconds of each search in their order, and the answers. `says` gives the line of a search, or
        nothing where it comes to no end."""
        calls = []

        async def run(words: List[str], folder: str, seconds: float) -> Done:
            await asyncio.sleep(0)
            if "--check" in words:
                return Done(folder, 0, "accepted, none\n", "", 0, 0)
            calls.append((words[4], "deadlock" if "--deadlock" in words else "failure", seconds))
            line = says(*calls[-1][:2])
            if line:
                self.file(f"out/{words[2]}", "")
            return Done(folder, 0 if line else None, f"{line}\n", "", 0.25 if line else seconds, seconds)

        async def reproduce(session: Session, log: str, model: str, stem: str) -> Unsolved:
            return Unsolved(f"{log} under {model}", "")

        async def answers() -> Dict[Question, Any]:
            asking = Asking(Session(Programs("", "", "", False), folder, source, seconds, "more"), ["sc", "tso", "pso"], None)
            return {question: await task for question, task in asking.answers.items()}

        source, folder = Source("p.tc", "p", frozenset(), b"", None), Folder(f"{self.room}/out", [])
        self.addCleanup(folder.close)
        with mock.patch.dict(os.environ, NO_NATIVE), mock.patch("debug_runs.search.run", run), mock.patch("debug_runs.asking.reproduce", reproduce):
            return calls, asyncio.run(answers())

    ALL = {(model, kind) for model in ("sc", "tso", "pso") for kind in KINDS}

    def test_first_seconds_come_first(self) -> None:
        """No question is asked for longer until each was asked for five seconds; together it is the time that was given."""
        calls, answers = self.asked(20, lambda *_: "")
        self.assertEqual({it[:2] for it in calls[:6]}, self.ALL)
        self.assertEqual({it[:2] for it in calls[6:]}, self.ALL)
        self.assertEqual([it[2] for it in calls], [5.0] * 6 + [15.0] * 6)
        self.assertEqual({it.why for it in answers.values()}, {"no answer in 20 seconds"})

    def test_little_time(self) -> None:
        calls, answers = self.asked(2, lambda *_: "")
        self.assertEqual([it[2] for it in calls], [2] * 6)
        self.assertEqual({(it.why, it.cure) for it in answers.values()}, {("no answer in 2 seconds", "more")})

    def test_what_is_known_after_the_first_seconds(self) -> None:
        """A run that is found in them answers for the models that allow more, and for no deadlock more time is needed then."""
        calls, answers = self.asked(20, lambda model, kind: "found after 3 logs" if (model, kind) == ("sc", "failure") else "")
        self.assertEqual(({it[:2] for it in calls}, len(calls)), (self.ALL, 6))
        self.assertEqual([answers[Question(model, "failure")].run.why for model in ("sc", "tso", "pso")],
                         ["p.sc.log under sc", "p.sc.log under tso", "p.sc.log under pso"])
        self.assertEqual({(answers[Question(model, "deadlock")].why, answers[Question(model, "deadlock")].cure) for model in ("sc", "tso", "pso")},
                         {("no answer in 5 seconds", "mend what fails, and ask again")})

    def test_rising_bounds(self) -> None:
        """Each search begins with few outcomes and goes on where it was."""
        answered = []

        def says(model: str, kind: str) -> str:
            answered.append((model, kind))
            times = answered.count((model, kind))
            return "" if times == 3 else "none in 9 logs" if times == 5 else "none in 9 logs, 3 outcomes"

        calls, answers = self.asked(20, says)
        self.assertEqual([it[2] for it in calls if it[:2] == ("sc", "failure")], [5, 4.75, 4.5, 15, 14.75])
        self.assertEqual({(it.outcomes, it.beyond) for it in answers.values()}, {(None, None)})


class Order(Tests):
    """In which order lines come, and what else a terminal shows."""

    def test_terminal_and_pipe(self) -> None:
        """On a terminal an answer doesn't wait for a slow one before it; elsewhere the order is always the same."""
        self.file("p.tc", LOCK)
        words = ["p.tc", "--model", "sc", "--model", "tso", "--seconds", "100"]
        came = self.debug(*words, CLAP_DEBUG_FIND=self.slow_about_sc("p.tso.html"))
        self.assertLess(came.out.index("sc   "), came.out.index("tso   "), came)
        self.assertNotIn("asking: ", came.errors)
        shown = self.on_terminal(words, "tso   ", CLAP_DEBUG_FIND=self.slow_about_sc(f"{self.room}/seen"))
        self.assertLess(shown.index("tso   "), shown.index("sc   "), shown)
        self.assertIn("asking: sc failure", shown)

    def slow_about_sc(self, name: str) -> str:
        """A search that answers about SC only once there is a file of this name."""
        awaits = f"until [ -e {name} ]; do sleep 0.1; done"
        return self.script("find", f'case "$*" in *"--model sc"*) {awaits} ;; esac\nexec {BUILT["CLAP_DEBUG_FIND"]} "$@"')

    def on_terminal(self, words: List[str], awaited: str, **others: str) -> str:
        """What ./debug shows on a terminal. Once a text is there, it makes the file `seen`."""
        ours, theirs = pty.openpty()
        shown = b""
        with subprocess.Popen([f"{TOP}/debug", *words], cwd=self.room, env=self.environment(others), stdin=subprocess.DEVNULL, stdout=theirs,
                              stderr=theirs):
            os.close(theirs)
            for part in iter(lambda: read_all(ours), b""):
                shown += part
                if awaited.encode() in shown:
                    self.file("seen", "")
        os.close(ours)
        return shown.decode()

    def test_proved(self) -> None:
        """Answers of proved programs are called proved, others aren't."""
        answers = [Excluded(Question("sc", kind), None, None, "p.cert", 0.0) for kind in KINDS]
        self.assertEqual(lines.rest_lines(answers, lines.Style(True)), ["sc        no run fails or deadlocks (proved, certificates accepted)"])
        self.assertEqual(lines.rest_lines(answers, lines.Style(False)), ["sc        no run fails or deadlocks (certificates accepted)"])


def read_all(terminal: int) -> bytes:
    """What comes from a terminal next, or nothing at its end."""
    try:
        return os.read(terminal, 65536)
    except OSError:
        return b""


class InC(Tests):
    """Programs in C."""

    def setUp(self) -> None:
        super().setUp()
        if not HAS_C:
            self.skipTest("there is no gcc, or no clang")

    def test_lines_of_c(self) -> None:
        came = self.debug(f"{TOP}/examples/c/peterson.c", "--model", "sc", "--model", "tso")
        self.assertEqual(came.status, 1, came)
        self.assertIn("no run fails or deadlocks", self.line(came, "sc"))
        self.assertRegex(self.line(came, "tso"), r"^fails at line 39: \d+ moves, \d+ switches +peterson.tso.html$")
        self.assertRegex(came.out, r"Thread \S+ reads \S+ \(line (23|38|39)\) while thread \S+'s store to it \(line (21|22|38|40|30)\) still waits")
        self.assertIn("Not proved: the translation from C.", came.out)
        self.assertIn("fromc: warning: ", came.errors)
        self.assertNotIn("fromc: next: ", came.errors)
        with open(f"{self.room}/peterson.debug/peterson.tso.txt", encoding="utf-8") as text:
            self.assertRegex(text.read(), r"fails at line 39: assert\(inside == 1\);")
        self.assertIn("peterson.map", self.kept("peterson.debug"))

    def test_macro(self) -> None:
        came = self.debug(f"{TOP}/examples/c/peterson.c", "-D", "MENDED", "--quiet")
        self.assertEqual((came.status, came.errors), (0, ""), came)
        self.assertEqual(len(came.out.splitlines()), 4, came)

    def test_refused_by_the_translator(self) -> None:
        self.file("p.c", '#include <pthread.h>\nint main(void)\n{\n    __asm__("nop");\n    return 0;\n}\n')
        self.refused("p.c:4:5: ", "p.c")

    def test_deadlock(self) -> None:
        came = self.debug(f"{TOP}/examples/c/philosophers.c", "--model", "sc")
        self.assertEqual(came.status, 1, came)
        self.assertRegex(self.line(came, "sc"), r"^deadlocks at line 26: \d+ moves, \d+ switches +philosophers.sc.deadlock.html$")


class Refusals(Tests):
    """What ends with status 2."""

    def test_words(self) -> None:
        self.file("p.tc", LOCK)
        self.refused("required: FILE", "--json")
        self.refused("invalid choice: 'arm'", "p.tc", "--model", "arm")
        self.refused("--seconds", "p.tc", "--seconds", "0")
        self.refused("--seconds", "p.tc", "--seconds", "nan")
        self.refused("unrecognized arguments: --modle", "p.tc", "--modle", "sc")
        self.refused("goes with a C file", "p.tc", "-D", "X")

    def test_files(self) -> None:
        self.refused("none.tc can't be read: No such file or directory", "none.tc")
        self.refused("none.c", "none.c")
        self.file("p.tc", LOCK.replace("count = count + 1;", "count++;"))
        self.refused("program refused: Syntax at 8:10", "p.tc")
        self.refused("hint: ", "p.tc")

    def test_old_log(self) -> None:
        self.file("p.tc", LOCK)
        self.refused("none.log can't be read: No such file or directory", "p.tc", "--log", "none.log")
        self.refused("p.tc is no log", "p.tc", "--log", "p.tc")
        self.file("cut.log", "CLPL")
        self.refused("cut.log is no whole log (log refused: form at 4)", "p.tc", "--log", "cut.log")

    def test_folder_of_others(self) -> None:
        self.file("p.tc", LOCK)
        os.mkdir(f"{self.room}/mine")
        self.file("mine/diary", "dear")
        self.refused("mine has files that ./debug didn't make; name another folder with --out", "p.tc", "--out", "mine")
        self.assertEqual(self.kept("mine"), ["diary"])
        self.refused("p.tc can't be used for the results: ", "p.tc", "--out", "p.tc")

    def test_mark_that_is_a_link(self) -> None:
        """A link in the place of the mark makes no folder ours, and isn't followed."""
        self.file("p.tc", LOCK)
        self.file("mine", "diary\n")
        os.mkdir(f"{self.room}/out")
        os.symlink("../mine", f"{self.room}/out/.made-by-debug")
        self.file("out/diary", "dear")
        self.refused("out has files that ./debug didn't make; name another folder with --out", "p.tc", "--out", "out")
        self.assertEqual(self.kept("out"), ["diary"])
        with open(f"{self.room}/mine", encoding="utf-8") as file:
            self.assertEqual(file.read(), "diary\n")

    def test_no_room(self) -> None:
        """On a full disk it says so, leaves nothing half written, and uses the folder once there is room."""
        self.file("p.tc", LOCK)
        self.mounted("disk")
        self.assertRaises(OSError, self.file, "disk/rest", "x" * 2**17)
        self.refused("p.tc can't be written: No space left on device", "p.tc", "--out", "disk/out")
        self.assertEqual(os.listdir(f"{self.room}/disk/out"), [".made-by-debug"])
        os.remove(f"{self.room}/disk/rest")
        self.refused("false ended with status 1 and said: nothing", "p.tc", "--out", "disk/out", CLAP_DEBUG_FIND="/bin/false")
        self.assertEqual(self.kept("disk/out"), ["p.tc"])

    def test_input_in_the_folder(self) -> None:
        self.file("p.tc", MENDED)
        self.assertEqual(self.debug("p.tc", "--model", "sc").status, 0)
        before = self.kept("p.debug")
        self.refused("p.debug/p.tc lies in p.debug, where the results go; name another folder with --out", "p.debug/p.tc")
        os.symlink("p.debug/p.sc.failure.cert", f"{self.room}/link")
        self.refused("link lies in p.debug", "p.tc", "--log", "link")
        self.assertEqual(self.kept("p.debug"), before)

    def test_programs_that_say_nothing(self) -> None:
        self.file("p.tc", LOCK)
        for name in BUILT:
            self.refused("false ended with status 1 and said: nothing", "p.tc", "--model", "sc", **{name: "/bin/false"})
            self.refused("there is no program /nowhere", "p.tc", **{name: "/nowhere"})

    def test_parts_that_are_missing(self) -> None:
        """A start that fails isn't the answer that a run fails."""
        os.mkdir(f"{self.room}/tools")
        shutil.copy(f"{TOP}/debug", self.room)
        came = subprocess.run([f"{self.room}/debug", "p.tc"], capture_output=True, text=True, check=False)
        self.assertEqual(came.returncode, 2, came)
        self.assertRegex(came.stderr, r"^debug: it can't start with this Python, \S+: ModuleNotFoundError: ")

    def test_full_disk(self) -> None:
        """A write that the system refused, with its reason."""
        self.file("p.tc", LOCK)
        self.mounted("disk")
        fails = self.script("find", 'echo "write fault: $2"; exit 8')
        words = ["p.tc", "--model", "sc", "--out", "disk/out"]
        self.assertRegex(self.debug(*words, CLAP_DEBUG_FIND=fails).errors, r"debug: find says: write fault: \.new-\w+/p\.sc\S*\n\Z")
        fills = self.script("find", 'cat /dev/zero >>rest 2>/dev/null; echo "write fault: $2"; exit 8')
        self.refused(", since the disk of disk/out/.new-", *words, CLAP_DEBUG_FIND=fills)

    def test_certificate_that_is_refused(self) -> None:
        self.file("p.tc", MENDED)
        wrong = self.script("find", f'case "$*" in *--check*) echo "line 2 refused"; exit 1 ;; esac\nexec {BUILT["CLAP_DEBUG_FIND"]} "$@"')
        self.refused("find ended with status 1 and said: line 2 refused", "p.tc", "--model", "sc", CLAP_DEBUG_FIND=wrong)

    def test_schedule_that_does_not_reproduce(self) -> None:
        self.file("p.tc", LOCK)
        wrong = self.script("solve", f'[ "$1" != replay ] || {{ echo "no failure"; exit 1; }}\nexec {BUILT["CLAP_DEBUG"]} "$@"')
        self.refused("solve ended with status 1 and said: no failure", "p.tc", "--model", "sc", CLAP_DEBUG=wrong)


class Folders(Tests):
    """Where results go."""

    def test_out(self) -> None:
        self.file("p.tc", MENDED)
        came = self.debug("p.tc", "--model", "sc", "--out", "a/b")
        self.assertIn("The files are in a/b.", came.out)
        self.assertEqual(self.kept("a/b"), ["p.sc.deadlock.cert", "p.sc.failure.cert", "p.tc"])
        self.assertEqual(sorted(os.listdir(self.room)), ["a", "p.tc"])

    def test_again(self) -> None:
        """What an earlier call has kept goes, and what others put there stays; a link there isn't followed."""
        self.file("p.tc", LOCK)
        self.assertEqual(self.debug("p.tc", "--model", "sc").status, 1)
        self.file("p.debug/notes", "mine")
        elsewhere = self.file("elsewhere", "whole")
        os.remove(f"{self.room}/p.debug/p.tc")
        os.symlink(elsewhere, f"{self.room}/p.debug/p.tc")
        os.symlink(elsewhere, f"{self.room}/p.debug/p.sc.failure.cert")
        self.file("p.tc", MENDED)
        self.assertEqual(self.debug("p.tc", "--model", "sc").status, 0)
        self.assertEqual(self.kept("p.debug"), ["notes", "p.sc.deadlock.cert", "p.sc.failure.cert", "p.tc"])
        with open(elsewhere, encoding="utf-8") as file:
            self.assertEqual(file.read(), "whole")

    def test_mark_that_leads_elsewhere(self) -> None:
        """A mark from others takes no file out of another folder."""
        self.file("p.tc", MENDED)
        os.mkdir(f"{self.room}/p.debug")
        self.file("p.debug/.made-by-debug", "../p.tc\n..\n")
        self.assertEqual(self.debug("p.tc", "--model", "sc").status, 0)
        self.assertIn("p.tc", os.listdir(self.room))


class Objects(Tests):
    """--json."""

    def documented(self) -> Dict[str, List[str]]:
        """The names that docs/DEBUG.md lists for each kind of object."""
        with open(f"{TOP}/docs/DEBUG.md", encoding="utf-8") as page:
            rows = re.findall(r"^\| `(\w+)` \| ((?:`[^`]+`(?:, )?)+) \|", page.read(), re.M)
        return {kind: re.findall(r"`([^`]+)`", names) for kind, names in rows}

    def test_names(self) -> None:
        self.file("lock.tc", LOCK)
        self.file("end.tc", ENDLESS)
        self.debug("lock.tc", "--model", "sc", "--out", "old")
        native = self.script("native", 'echo "no failure in 7 runs, 1.0 seconds"; exit 1')
        found = self.debug("lock.tc", "--json", "--log", "old/lock.sc.log", CLAP_DEBUG_NATIVE=native)
        bounded = self.debug("end.tc", "--json", "--model", "sc", "--seconds", "2")
        slow = self.debug("end.tc", "--json", "--model", "sc", "--seconds", "0.3", CLAP_DEBUG_FIND=self.script("find", "exec sleep 1000"))
        none = self.debug("lock.tc", "--json", "--model", "sc")
        names = self.documented()
        seen: Dict[str, set] = {}
        for each in [it for came in (found, bounded, slow, none) for it in came.objects]:
            seen.setdefault(each["what"], set()).update(each)
            self.assertLessEqual(set(each), set(names[each["what"]]), each)
        self.assertEqual(set(seen), set(names))
        self.assertEqual([it["status"] for came in (found, bounded, slow) for it in came.objects if it["what"] == "end"], [1, 3, 3])

    def test_values(self) -> None:
        self.file("lock.tc", LOCK)
        came = self.debug("lock.tc", "--json", "--model", "sc")
        failure, deadlock, end = (next(it for it in came.objects if it["what"] == what) for what in ("failure", "deadlock", "end"))
        self.assertEqual((failure["model"], failure["answer"], failure["page"], failure["fewest"]), ("sc", "found", "lock.sc.html", True))
        self.assertEqual(failure["stops"], [{"thread": "0", "line": "19", "statement": "assert(count == 2);", "waits": ""}])
        self.assertEqual((deadlock["answer"], deadlock["certificate"]), ("none", "lock.sc.deadlock.cert"))
        self.assertEqual((end["status"], end["folder"], end["not proved"]), (1, "lock.debug", []))


class OldLogs(Tests):
    """--log."""

    def setUp(self) -> None:
        super().setUp()
        self.file("lock.tc", LOCK)
        self.debug("lock.tc", "--model", "sc", "--out", "old")
        self.log = "old/lock.sc.log"

    def test_still_possible(self) -> None:
        came = self.debug("lock.tc", "--log", self.log, "--model", "sc")
        self.assertEqual(came.status, 1, came)
        self.assertRegex(came.out, r"(?m)^sc +lock.sc.log is still possible: \d+ moves, \d+ switches +lock.sc.old.html$")

    def test_another_text_of_the_same_steps(self) -> None:
        """The assertion is another, so the program is, and the old failure can't be."""
        self.file("other.tc", LOCK.replace("count == 2", "count >= 1"))
        came = self.debug("other.tc", "--log", self.log, "--model", "sc")
        self.assertEqual(came.status, 0, came)
        self.assertIn("old log   lock.sc.log is of another program; its threads' steps and outcomes are tried on this one\n", came.out)
        self.assertRegex(came.out, r"(?m)^sc +lock.sc.log is impossible \(refutation accepted\) +other.sc.old.refutation$")
        self.assertIn("other.old.log", self.kept("other.debug"))

    def test_refutation_that_is_refused(self) -> None:
        self.file("other.tc", LOCK.replace("count == 2", "count >= 1"))
        wrong = self.script("solve", f'[ "$1" != check ] || {{ echo "line 2 refused"; exit 1; }}\nexec {BUILT["CLAP_DEBUG"]} "$@"')
        came = self.debug("other.tc", "--log", self.log, "--model", "sc", CLAP_DEBUG=wrong)
        self.assertEqual(came.status, 2, came)
        self.assertIn("solve ended with status 1 and said: line 2 refused", came.errors)

    def test_paths_that_are_no_more(self) -> None:
        self.file("other.tc", BUFFERING)
        came = self.debug("other.tc", "--log", self.log, "--model", "sc")
        self.assertEqual(came.status, 0, came)
        self.assertRegex(came.out, r"(?m)^old log +no thread of this program goes that way \(log refused: \w+ 0\S*\)")

    def test_possible_alone_is_status_1(self) -> None:
        """Where the search comes to no end, the old log decides."""
        slow = self.script("find", "exec sleep 1000")
        came = self.debug("lock.tc", "--log", self.log, "--model", "sc", "--seconds", "1", CLAP_DEBUG_FIND=slow)
        self.assertEqual(came.status, 1, came)


class Natively(Tests):
    """Native runs, by scripts in the place of tools/native."""

    def setUp(self) -> None:
        super().setUp()
        self.file("p.tc", BUFFERING)
        self.debug("p.tc", "--model", "tso", "--out", "old")

    def native(self, text: str) -> str:
        """A script that keeps the log of a failure under TSO, and says something."""
        return self.script("native", f"echo \"$*\" > {self.room}/asked\ncp {self.room}/old/p.tso.log \"$2\"\n{text}")

    def test_fails(self) -> None:
        native = self.native('echo "failed 0 line 23 in run 264, 15 events"')
        came = self.debug("p.tc", CLAP_DEBUG_NATIVE=native)
        self.assertEqual(came.status, 1, came)
        self.assertRegex(self.line(came, "natively"), r"^fails in run 264, \d+\.\d s: p.tc line 23, assert\(left_saw \+ right_saw > 0\) "
                         r"+p.native.html$")
        self.assertIn("Not proved: the native runs.", came.out)
        with open(f"{self.room}/asked", encoding="utf-8") as file:
            self.assertRegex(file.read(), r"^p\.tc \S+/p\.native\.log --seconds 4$")

    def test_finds_what_the_search_does_not(self) -> None:
        native, slow = self.native('echo "failed 0 line 23 in run 264, 15 events"'), self.script("find", "exec sleep 1000")
        came = self.debug("p.tc", "--model", "tso", "--seconds", "60", CLAP_DEBUG_NATIVE=native, CLAP_DEBUG_FIND=slow)
        self.assertEqual(came.status, 1, came)
        self.assertRegex(came.out, r"(?m)^tso +fails at line 23: \d+ moves, \d+ switches +p.tso.html$")

    def test_a_log_that_no_schedule_has(self) -> None:
        """A native run that the machine doesn't have is said, and changes no answer."""
        self.file("mended.tc", BUFFERING.replace("x = 1;", "x = 1; fence();").replace("y = 1;", "y = 1; fence();"))
        self.file("twice.tc", BUFFERING.replace("> 0", "> 3"))
        self.debug("twice.tc", "--model", "sc", "--out", "twice")
        native = self.native('echo "failed 0 line 23 in run 264, 15 events"')
        came = self.debug("mended.tc", CLAP_DEBUG_NATIVE=native)
        self.assertEqual(came.status, 0, came)
        self.assertIn("tools/native is wrong there, or this processor isn't TSO", self.line(came, "natively"))

    def test_other_outcomes(self) -> None:
        for text, said in [('echo "no failure in 9 runs, 4.0 seconds"; exit 1', "no failure in 9 runs, 4.0 s"),
                           ('echo "native: not on this processor" >&2; exit 2', "not run: not on this processor"),
                           ('echo "deadlock in run 12, 4 events"', "deadlocks in run 12, ")]:
            came = self.debug("p.tc", "--model", "tso", CLAP_DEBUG_NATIVE=self.script("native", f"cp {self.room}/old/p.tso.log \"$2\"\n{text}"))
            self.assertIn(said, self.line(came, "natively"))
        self.refused("tools/native ended with status 1", "p.tc", "--model", "tso", CLAP_DEBUG_NATIVE=self.script("native", "exit 1"))
        self.assertEqual(self.line(self.debug("p.tc", "--model", "tso"), "natively"), "not run: there is no tools/native here")

    def test_not_without_tso(self) -> None:
        came = self.debug("p.tc", "--model", "sc", CLAP_DEBUG_NATIVE=self.script("native", "exit 1"))
        self.assertEqual(came.status, 0, came)
        self.assertNotIn("natively", came.out)


class Stopped(Tests):
    """Signals."""

    # What a search sleeps for, as no other process on the machine does.
    SLEEP = f"sleep {10**7 + os.getpid()}"

    def stopped(self, by: int) -> Came:
        """What comes of ./debug that gets a signal once only SC's answers are still to come, whose line is the first. Standard error is a
        terminal, where it says what it asks, again and again: what it says for the second time it has taken."""
        slow = self.script("find", f'case "$*" in *"--model sc"*) {self.SLEEP} ;; esac\nexec {BUILT["CLAP_DEBUG_FIND"]} "$@"')
        words = ["p.tc", "--model", "sc", "--model", "pso", "--seconds", "600", "--out", f"out{by}"]
        ours, theirs = pty.openpty()
        going = subprocess.Popen([f"{TOP}/debug", *words], cwd=self.room, env=self.environment({"CLAP_DEBUG_FIND": slow}),
                                 stdin=subprocess.DEVNULL, stdout=subprocess.PIPE, stderr=theirs)
        os.close(theirs)
        self.addCleanup(os.close, ours)
        self.addCleanup(going.kill)
        shown = b""
        until = time.monotonic() + PATIENCE
        while shown.count(b"asking: sc failure, sc deadlock") < 2 and select.select([ours], [], [], max(0.0, until - time.monotonic()))[0]:
            more = read_all(ours)
            shown += more or self.fail(f"./debug ended: {shown.decode()}")
        going.send_signal(by)
        out = going.communicate(timeout=PATIENCE)[0]
        shown += b"".join(iter(lambda: read_all(ours), b""))
        return Came(going.returncode, out.decode(), shown.decode().replace("\r\n", "\n"))

    def test_signals(self) -> None:
        self.file("p.tc", LOCK)
        for by in (signal.SIGINT, signal.SIGTERM, signal.SIGHUP):
            with self.subTest(signal=by):
                came = self.stopped(by)
                self.assertEqual(came.status, 3, came)
                self.assertRegex(came.out, r"^pso +fails at line 19: ")
                self.assertTrue(came.errors.endswith("debug: stopped; what isn't said above isn't known\n"), came.errors)
                self.assertNotIn("Traceback", came.errors)
                self.assertEqual([it for it in os.listdir(f"{self.room}/out{by}") if it.startswith(".new")], [])
                self.ends(f"{self.room}/find", self.SLEEP)

    def ends(self, *words: str) -> None:
        """No process with one of these words is left, once those that were killed are gone."""
        until = time.monotonic() + PATIENCE
        while processes(*words) and time.monotonic() < until:
            time.sleep(0.05)
        self.assertEqual(processes(*words), [])

    def test_closed_pipe(self) -> None:
        self.file("p.tc", LOCK)
        reads, writes = os.pipe()
        os.close(reads)
        self.addCleanup(os.close, writes)
        came = subprocess.run([f"{TOP}/debug", "p.tc", "--json", "--model", "sc"], cwd=self.room, text=True, env=self.environment({}),
                              stdin=subprocess.DEVNULL, stdout=writes, stderr=subprocess.PIPE, check=False)
        self.assertEqual(came.returncode, 2)
        self.assertNotIn("Traceback", came.stderr)
        self.assertNotIn("Broken pipe", came.stderr)


def processes(*words: str) -> List[str]:
    """The processes whose command has one of these."""
    found = subprocess.run(["ps", "-eo", "pid,args"], stdout=subprocess.PIPE, text=True, check=False).stdout.splitlines()
    return [it for it in found if any(word in it for word in words)]


class Reasons(unittest.TestCase):
    """Why a run went wrong, of the schedules of the examples."""

    def sentences(self, name: str) -> List[str]:
        folder = f"{TOP}/examples/{name}"
        show = BUILT["CLAP_DEBUG_SHOW"]

        def said(*words: str) -> str:
            return subprocess.run([show, *words], cwd=folder, stdout=subprocess.PIPE, text=True, check=True).stdout

        text = said("p.tc", "p.sched", "--moves")
        model = re.search(r" under (\w+): ", text)
        run = reasons.accesses(text, frozenset(CELL.findall(said("p.tc"))))
        return reasons.reasons(run, model[1] if model else "", str)

    def test_examples(self) -> None:
        waits = "still waits in its buffer"
        self.assertEqual(self.sentences("buffering"), [f"Thread 0.1 reads y (line 9) while thread 0.2's store to it (line 13) {waits}.",
                                                       f"Thread 0.2 reads x (line 14) while thread 0.1's store to it (line 8) {waits}."])
        self.assertEqual(self.sentences("passing"), [f"Thread 0 reads message (line 16) while thread 0.1's store to it (line 6) {waits}, and "
                                                     "its later store to ready (line 7) has reached memory."])
        self.assertEqual(self.sentences("increments"), ["Thread 0.1 changes x (line 5) between thread 0.2's load of it (line 5) and its store "
                                                        "to it (line 5)."])
        self.assertEqual(self.sentences("first"), [])

    def test_a_store_of_the_same_value(self) -> None:
        """A load that misses a store of the value that it takes anyhow explains nothing."""
        issue, load = reasons.Access(1, "issue", "0.1", 5, "x", put=1), reasons.Access(2, "load", "0.2", 8, "x", took=0)
        self.assertEqual(len(reasons.reasons([issue, load], "tso", str)), 1)
        self.assertEqual(reasons.reasons([issue._replace(put=0), load], "tso", str), [])


if __name__ == "__main__":
    run_main("test_debug.py", lambda _: unittest.main())
