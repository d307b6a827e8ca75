#!/usr/bin/env python3
"""Tries tools/native: what each instruction does on this machine's processors, where threads stop, which logs come of it, and the
command. Each log is solved under TSO and replayed; what must never happen is looked for, for a short while. bench/native_trial.py tries
more, for longer.

  test_native.py [TEST..]

It wants an x86-64 with two processors and gcc, and skips each test by name without them; those of C files want clang besides. The
program is ./clap_debug, or what CLAP_DEBUG names. NATIVE_TOOLS may name a folder with another native_runs, as a spoilt copy, and
NATIVE_SHORT for how many seconds what must never happen is looked for (1.5)."""
import contextlib
import os
import random
import shutil
import signal
import subprocess
import sys
import tempfile
import time
import unittest
from pathlib import Path
from typing import Callable, Dict, List, Tuple

TOP = os.path.dirname(os.path.dirname(os.path.realpath(__file__)))
sys.path.insert(0, f"{TOP}/bench")
import machine  # noqa: E402
from kept_files import run_main  # noqa: E402
from native_trials import all_logs, faults, object_code, programs  # noqa: E402
from native_trials.lab import TOOLS, End, Lab, Ran, plan, processors, told  # noqa: E402
import native_cost  # noqa: E402

MISSING = [what for what, is_there in (("x86-64", os.uname().machine == "x86_64"), ("gcc", shutil.which("gcc")),
                                       ("second processor", len(processors()) > 1)) if not is_there]
WHY = f"there is no {', no '.join(MISSING)}"
# How long something that must come may take: much more than it does on a machine that is busy.
PATIENCE = 60
# How long something is looked for that must never come.
SHORT = float(os.environ.get("NATIVE_SHORT", "1.5"))


@unittest.skipIf(MISSING, WHY)
class Native(unittest.TestCase):
    def setUp(self) -> None:
        room = tempfile.TemporaryDirectory()
        self.addCleanup(room.cleanup)
        self.room = room.name

    def lab(self, text: str) -> Lab:
        return Lab(tempfile.mkdtemp(dir=self.room), text)

    def fails(self, text: str) -> Tuple[Lab, End]:
        """A run of the program that fails or comes to a deadlock; its log is solved and replayed."""
        lab = self.lab(text)
        end = self.first(lab)
        lab.check(end)
        return lab, end

    def first(self, lab: Lab) -> End:
        end = lab.first(plan(PATIENCE))
        assert end is not None, f"no run fails in {PATIENCE} seconds"
        return end

    def never_fails(self, text: str, seconds: float = SHORT) -> None:
        lab = self.lab(text)
        with contextlib.closing(lab.each(plan(seconds))) as ends:
            for end in ends:
                self.fail(f"no run may end so: {told(end)}")
        self.assertGreater(lab.counts.done, 0)

    def is_as_recorded(self, text: str) -> None:
        """The program, whose runs all have one path, leaves the log that `record` leaves."""
        lab = self.lab(text)
        end = self.first(lab)
        recorded = f"{self.room}/recorded"
        status, line = lab.said("record", lab.program, recorded, "--model", "tso", "--seed", "1")
        self.assertEqual((status, line.split(" after ")[0]), (0, f"failed {'.'.join(map(str, (0, *(end.failing or ()))))} line {end.line}"))
        with open(recorded, "rb") as file:
            self.assertEqual(file.read(), lab.bytes_of(end))

    def until(self, lab: Lab, is_enough: Callable[[List[End]], bool], seconds: float = PATIENCE) -> List[End]:
        """Ends, each solved and replayed, until there are enough."""
        found: List[End] = []
        with contextlib.closing(lab.each(plan(seconds))) as ends:
            for end in ends:
                lab.check(end)
                found.append(end)
                if is_enough(found):
                    return found
        self.fail(f"not enough in {seconds} seconds: {'; '.join(map(told, found[:20]))}")


class Instructions(Native):
    def test_operators_of_what_is_met(self) -> None:
        self.is_as_recorded(programs.operators(False))

    def test_operators_of_what_is_known(self) -> None:
        self.is_as_recorded(programs.operators(True))

    def test_each_instruction_alone(self) -> None:
        self.is_as_recorded(programs.ALONE)

    def test_each_site_fails(self) -> None:
        """Ten threads that fail at once, each at its line: only one of them does so."""
        self.until(self.lab(programs.SITES), lambda found: {it.line for it in found} >= set(range(2, 12)))

    def test_what_drains(self) -> None:
        self.never_fails(programs.draining(list(programs.DRAINING)), 2 * SHORT)

    def test_what_no_run_breaks(self) -> None:
        self.never_fails(programs.NEVER)

    def test_a_signal_wakes_one(self) -> None:
        lab, end = self.fails(programs.ONE_SIGNAL)
        self.assertIsNone(end.failing)

    def test_object_code(self) -> None:
        """Each access is one instruction of the processor."""
        for seed in range(3):
            text = "\n".join(["int x; int y; int z;"] + [self.plain(seed * 12 + k) for k in range(12)] + ["main { }", ""])
            with self.subTest(seed=seed):
                lab = self.lab(text)
                found = object_code.compared(lab.code, lab.room)
                self.assertEqual((found.functions, found.differing), (12, []))

    @staticmethod
    def plain(seed: int) -> str:
        """A thread of accesses alone, without jumps."""
        chance, body = random.Random(seed), []
        for _ in range(8):
            cell, other, number = chance.choice("xyz"), chance.choice("xyz"), chance.randrange(100)
            body.append(chance.choice([
                f"{cell} = {number};", f"q = {cell} + q;", f"{cell} = {other} + q;", f"q = swap({cell}, {other} + {number});",
                f"q = cas({cell}, q, {number});", f"q = add({cell}, {number});", "fence();", "stbar();", f"assert({cell} + {other} != q);"]))
        return f"thread f{seed}() {{ int q; {' '.join(body)} }}"


class Stopping(Native):
    def test_threads_that_spin_and_wait(self) -> None:
        self.fails(programs.SPINNING)

    def test_before_a_lock(self) -> None:
        self.fails(programs.BEFORE_LOCK)

    def test_while_threads_are_created(self) -> None:
        self.until(self.lab(programs.CREATING), lambda found: len({it.failing for it in found}) > 1 and len(found) > 10)

    def test_a_child_that_never_began(self) -> None:
        text = "int x; thread f() { x = 1; } main { tid t; t = create f(); assert(0); }"
        self.until(self.lab(text), lambda found: any(it.threads[(1,)].steps == 0 for it in found))


class Deadlocks(Native):
    def test_each_kind(self) -> None:
        _, end = self.fails(programs.DEADLOCKS)
        self.assertIsNone(end.failing)
        self.assertEqual({name: it.steps for name, it in end.threads.items()},
                         {(): 4, (1,): 1, (2,): 3, (2, 1): 2, (3,): 3})

    def test_a_livelock_is_none(self) -> None:
        self.never_fails(programs.LIVELOCK)

    def test_a_wait_without_a_signal(self) -> None:
        lab, end = self.fails("mutex m; cond c; main { lock(m); signal(c); wait(c, m); unlock(m); }")
        self.assertEqual((end.failing, end.run), (None, 1))


class Limits(Native):
    def within(self, text: str) -> None:
        """Each run fails, and its log is that of `record`."""
        self.is_as_recorded(text)

    def beyond(self, text: str) -> Ran:
        """Each run fails or is too long, and none has a log."""
        ran = self.lab(text).ran(plan(PATIENCE, runs=30))
        n = ran.counts
        self.assertEqual(ran.ends, [])
        self.assertEqual(n.failures + n.limits + n.lost, n.done)
        self.assertGreater(n.failures + n.limits, 0)
        return ran

    def test_threads(self) -> None:
        self.within(programs.threads(16))
        self.beyond(programs.threads(17))

    def test_depth(self) -> None:
        self.fails(programs.deep(8))
        self.beyond(programs.deep(9))

    def test_steps(self) -> None:
        self.within(programs.steps(65535))
        self.beyond(programs.steps(65536))

    def test_events(self) -> None:
        self.within(programs.events(256))
        self.assertTrue(self.beyond(programs.events(257)).too_long)


class Logs(Native):
    """Logs beside all that the machine has."""

    def test_random_programs(self) -> None:
        for seed in (3, 9, 10):
            with self.subTest(seed=seed):
                text = all_logs.drawn(seed)
                possible = all_logs.all_ends(machine.Code(text), 10**6)
                lab = self.lab(text)
                for end in lab.ran(plan(1)).ends:
                    lab.check(end)
                    self.assertIn(all_logs.as_ended(end), possible)

    def example(self, name: str, program: str = "p") -> str:
        with open(f"{TOP}/examples/{name}/{program}.tc", encoding="utf-8") as file:
            return file.read()

    def test_examples_that_fail(self) -> None:
        for name in ("increments", "deadlock"):
            with self.subTest(name=name):
                self.fails(self.example(name))

    def test_store_buffers_are_seen(self) -> None:
        lab, end = self.fails(self.example("buffering"))
        self.assertFalse(lab.is_possible(end, "sc"))

    def test_examples_that_do_not(self) -> None:
        self.never_fails(self.example("passing"))
        self.never_fails(self.example("buffering", "mended"))

    def test_shortened(self) -> None:
        """A log without the rounds that only look is a log of the machine too."""
        text = "int x; int y; thread f() { y = 5; x = 1; } main { tid t; t = create f(); while (x == 0) { } assert(y != 5); }"
        lab = self.lab(text)
        ends = lab.ran(plan(1, shorten=True)).ends
        self.assertEqual({it.threads[()].outcomes for it in ends}, {"0"})
        for end in ends:
            lab.check(end)


class Cost(Native):
    """What bench/native_cost.py measures by."""

    def compiled(self, text: str, hunts: bool) -> native_cost.Program:
        return native_cost.compiled("p", self.lab(text).code, Path(self.room), hunts)

    def test_what_is_recorded(self) -> None:
        """One outcome that the code doesn't determine; the accesses of the thread, then main's; and the mutex as often as it is taken."""
        program = self.compiled("int x; mutex m; thread f(int n) { while (n > 0) { lock(m); x = x + 1; unlock(m); n = n - 1; } } "
                                "main { tid t; t = create f(1000); join(t); if (x == 1000) { x = 0; } }", hunts=False)
        found = native_cost.measured(program, 2, PATIENCE)
        self.assertEqual((found.paths[:3], found.order[:3]), ((1, 1, 3), (3002, 3002, 9)))
        for way in native_cost.WAYS:
            self.assertEqual(len(found.rounds[way.name]), 2)
            self.assertTrue(all(it.processor > 0 and it.clock > 0 for it in found.rounds[way.name]), found)

    def test_failures_are_counted(self) -> None:
        for came in native_cost.hunted(self.compiled("int x; main { x = 1; assert(x == 2); }", hunts=True), 0.1):
            self.assertGreater(came.runs, 0)
            self.assertEqual(came.failures, came.runs)

    def test_a_run_that_fails(self) -> None:
        with self.assertRaisesRegex(native_cost.Refused, r"^p-0 is to make one run that ends well, and says: counts 1 1 0 0 0 "):
            native_cost.measured(self.compiled("main { assert(0); }", hunts=False), 1, PATIENCE)

    def test_lengths(self) -> None:
        for entries, runs in ((b"", 0), (b"\0", 1), (b"\n\n\0", 2), (b"\1" * 65535, 1), (b"\1" * 65536 + b"\0", 3)):
            with self.subTest(entries=len(entries)):
                self.assertEqual((native_cost.bytes_of_accesses(entries), native_cost.bytes_of_outcomes(entries)),
                                 (3 * runs, 2 * runs + (1 if entries else 0)))

    def test_tables(self) -> None:
        took = [native_cost.Took(*it) for it in ((1, 2), (1.5, 2.4), (3, 2), (2, 4))]
        sizes = native_cost.Size(16, 2, 3, 9), native_cost.Size(1000, 1000, 6, 12)
        found = [native_cost.Measured("p", {way.name: [it] for way, it in zip(native_cost.WAYS, took)}, *sizes)]
        self.assertEqual(native_cost.cost(found)[2:], [
            "| p | 1,000 | 1.50 | 1.20 | 2 | 3 | 2.0 | 2.0 | mutex | 1,000 | 6 |", "| geometric mean |  | 1.50 | 1.20 |  |  | 2.0 | 2.0 |  |  |  |",
            "", "On average paths save 50 percent of the processor time that recording the order adds, 80 percent of what it adds by the clock, "
            "and 100 percent of the bytes of the raw log."])
        self.assertEqual(native_cost.times(found)[3], "| p | paths | 1 | 1,500.00 (1,500.00 to 1,500.00) | 1.50 (1.50 to 1.50) | 1.20 (1.20 to 1.20) |")
        self.assertEqual(native_cost.sizes(found)[2:], ["| p | 16 | 2 | 3 | 9 | 1,000 | 1,000 | 6 | 12 |"])
        self.assertEqual(native_cost.Hidden(200, 3).shown(), "3 of 200 (1.50 %)")

    def test_pages_have_places(self) -> None:
        native_cost.refuse_pages_without_places()


@unittest.skipIf(MISSING, WHY)
class Command(Native):
    def native(self, *words: str, **more: str) -> Tuple[int, str, str]:
        """The status, and what is said on standard output and standard error."""
        done = subprocess.run([f"{TOOLS}/native", *words], stdout=subprocess.PIPE, stderr=subprocess.PIPE, text=True, check=False, cwd=self.room,
                              env={**os.environ, **more})
        return done.returncode, done.stdout, done.stderr

    def write(self, name: str, text: str) -> str:
        with open(f"{self.room}/{name}", "w", encoding="utf-8") as file:
            file.write(text)
        return name

    def read(self, name: str) -> bytes:
        with open(f"{self.room}/{name}", "rb") as file:
            return file.read()

    def replays(self, program: str) -> None:
        lab = self.lab("main { }")
        status, line = lab.said("solve", f"{self.room}/{program}", f"{self.room}/p.log", f"{self.room}/s")
        self.assertEqual((status, line.split()[0]), (0, "schedule"))
        self.assertEqual(lab.said("replay", f"{self.room}/{program}", f"{self.room}/p.log", f"{self.room}/s"), (0, "reproduces"))

    def test_a_failure(self) -> None:
        self.write("p.tc", "int x; main {\nx = 1;\nassert(x == 2); }")
        os.symlink("target", f"{self.room}/p.log")
        self.assertEqual(self.native("p.tc", "p.log"), (0, "failed 0 line 3 in run 1, 3 events\n", ""))
        self.assertTrue(os.path.islink(f"{self.room}/p.log"))
        self.replays("p.tc")

    def test_a_deadlock(self) -> None:
        self.write("p.tc", "mutex m; main { lock(m); lock(m); }")
        self.assertEqual(self.native("p.tc", "p.log"), (0, "deadlock in run 1, 1 events\n", ""))
        self.replays("p.tc")

    def test_no_failure(self) -> None:
        self.write("p.tc", "int x; main { x = 1; }")
        status, out, err = self.native("p.tc", "p.log", "--runs", "100")
        self.assertEqual((status, err), (1, ""))
        self.assertRegex(out, r"^no failure in 100 runs, \d+\.\d seconds\n$")
        self.assertFalse(os.path.exists(f"{self.room}/p.log"))

    def test_failures_that_are_too_long(self) -> None:
        self.write("p.tc", programs.events(257))
        status, out, err = self.native("p.tc", "p.log", "--runs", "20")
        self.assertEqual(status, 1)
        self.assertRegex(out, r"^no failure that a log has room for in 20 runs, \d+\.\d seconds\n$")
        self.assertRegex(err, "^native: 1 different failures had too many events")

    def test_a_C_file(self) -> None:
        if not shutil.which("clang"):
            self.skipTest("there is no clang")
        shutil.copy(f"{TOP}/examples/c/store_buffer.c", f"{self.room}/p.c")
        status, out, err = self.native("p.c", "p.log", "--seconds", str(PATIENCE))
        self.assertRegex(out, r"^failed 0 line 42 in run \d+, \d+ events\n$")
        self.assertTrue(err.endswith("native: p.tc has the program, p.map its lines in p.c\n"), err)
        self.replays("p.tc")
        self.write("p.tc", "my own")
        status, out, err = self.native("p.c", "p.log")
        self.assertEqual((status, out, err), (2, "", "native: p.tc is there and isn't a translation of p.c: name another with --keep P.tc\n"))
        status, out, err = self.native("p.c", "p.log", "--keep", "q.tc", "--seconds", str(PATIENCE))
        self.assertEqual((status, self.read("p.tc")), (0, b"my own"))
        self.replays("q.tc")

    def test_refusals(self) -> None:
        """One line each, status 2, and nothing is written."""
        self.write("p.tc", "main { assert(0); }")
        self.write("bad.tc", "main { x = 1; }")
        self.write("p.log", "as before")
        os.symlink("p.tc", f"{self.room}/link")
        os.link(f"{self.room}/p.tc", f"{self.room}/hard")
        os.mkdir(f"{self.room}/empty")
        os.symlink(sys.executable, f"{self.room}/empty/python3")
        one = str(processors()[0])
        cases: Dict[str, Tuple[List[str], Dict[str, str]]] = {
            "bad.tc: program refused: Unknown at 1:8": (["bad.tc", "p.log"], {}),
            "none.tc can't be read: No such file or directory": (["none.tc", "p.log"], {}),
            "p.tc would be written over, and is an input; give the output another name": (["p.tc", "p.tc"], {}),
            "link would be written over, and is an input; give the output another name": (["p.tc", "link"], {}),
            "hard would be written over, and is an input; give the output another name": (["p.tc", "hard"], {}),
            "empty is a folder: name a file": (["p.tc", "empty"], {}),
            "no/p.log can't be written: there is no folder ": (["p.tc", "no/p.log"], {}),
            f"native runs need two processors, and there is processor {one} alone": (["p.tc", "p.log", "--cpus", one], {}),
            "processor 999 can't be used: there are ": (["p.tc", "p.log", "--cpus", "0,999"], {}),
            "there is no gcc, which compiles the program: apt-get install gcc": (["p.tc", "p.log"], {"PATH": f"{self.room}/empty"}),
            "--keep is for C files, and p.tc is none": (["p.tc", "p.log", "--keep", "q.tc"], {}),
        }
        for line, (words, more) in cases.items():
            with self.subTest(line=line):
                status, out, err = self.native(*words, **more)
                self.assertEqual((status, out, err.count("\n")), (2, "", 1), err)
                self.assertTrue(err.startswith(f"native: {line}"), err)
        self.assertEqual(self.read("p.log"), b"as before")
        self.assertEqual(self.read("p.tc"), b"main { assert(0); }")

    def test_a_stop(self) -> None:
        """Ctrl-C ends it with a line; no process is left, and no folder."""
        self.write("p.tc", "int x; main { x = 1; }")
        os.mkdir(f"{self.room}/tmp")
        for number in (signal.SIGINT, signal.SIGTERM):
            with self.subTest(signal=number):
                process = subprocess.Popen([f"{TOOLS}/native", "p.tc", "p.log", "--seconds", "600"], stdout=subprocess.PIPE, stderr=subprocess.PIPE,
                                           text=True, cwd=self.room, env={**os.environ, "TMPDIR": f"{self.room}/tmp"})
                self.await_runs(process.pid)
                process.send_signal(number)
                out, err = process.communicate(timeout=PATIENCE)
                self.assertEqual((process.returncode, err), (128 + number, ""))
                self.assertRegex(out, r"^stopped: no failure in \d+ runs, \d+\.\d seconds\n$")
                self.assertEqual(os.listdir(f"{self.room}/tmp"), [])
                self.assertEqual(self.runs_left(), [])

    def test_a_kill(self) -> None:
        """The runs end with the command, however that ends."""
        self.write("p.tc", "int x; main { x = 1; }")
        os.mkdir(f"{self.room}/tmp")
        process = subprocess.Popen([f"{TOOLS}/native", "p.tc", "p.log", "--seconds", "600"], stdout=subprocess.DEVNULL, cwd=self.room,
                                   env={**os.environ, "TMPDIR": f"{self.room}/tmp"})
        self.await_runs(process.pid)
        process.kill()
        process.wait()
        end = time.monotonic() + PATIENCE
        while self.runs_left() and time.monotonic() < end:
            time.sleep(0.05)
        self.assertEqual(self.runs_left(), [])

    def runs_left(self) -> List[str]:
        """The processes whose program is in this test's folder."""
        found = []
        for pid in filter(str.isdigit, os.listdir("/proc")):
            with contextlib.suppress(OSError):
                found += [pid] if os.readlink(f"/proc/{pid}/exe").startswith(f"{self.room}/tmp/") else []
        return found

    def await_runs(self, pid: int) -> None:
        end = time.monotonic() + PATIENCE
        while not self.runs_left() and time.monotonic() < end:
            time.sleep(0.05)
        self.assertTrue(self.runs_left(), f"{pid} runs nothing")
        time.sleep(0.5)


@unittest.skipIf(MISSING, WHY)
@unittest.skipIf("NATIVE_TOOLS" in os.environ, "faults aren't planted in a copy")
class Faults(unittest.TestCase):
    """Three wrong recorders, each of which a test above finds. bench/native_trial.py faults plants all."""

    def test_faults(self) -> None:
        for name in ("an outcome is dropped", "a store is made twice", "a stop drops an instruction"):
            with self.subTest(fault=name):
                self.assertTrue(faults.failing(faults.FAULTS[name], faults.FAULTS[name].tests), "no test finds it")


if __name__ == "__main__":
    run_main("test_native.py", lambda _: unittest.main())
