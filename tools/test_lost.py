#!/usr/bin/env python3
"""Tries that nothing is lost: an output that is an input or another output is refused before any work, a full file system or a stop
leaves the old file whole, and no script ends with a traceback, or with status 1 where it was stopped or has a fault.

Tests that want a built clap_debug, or the right to mount a file system, are skipped by name without them. The program is what
the variable CLAP_DEBUG names, or the one that is built from these sources."""
import os
import resource
import shutil
import signal
import subprocess
import sys
import tempfile
import unittest
from typing import Dict, Iterator, List, Optional, Tuple

sys.dont_write_bytecode = True
import kept_files
from built import built
from kept_files import Refused, keep, refuse_clashes, run_main

TOP = os.path.dirname(os.path.dirname(os.path.realpath(__file__)))
PROGRAM = built("clap_debug")
OLD = "the old file\n"
# Scripts that become another program or have no `main`.
OTHERS = ("tools/hint.py", "tools/run")
# The words of calls of scripts, with the roles of their files: I is an input, O an output.
CALLS: Dict[str, List[str]] = {
    "tools/fromc": ["I", "-o", "O", "--map", "O"],
    "tools/seeds": ["I", "O", "O"],
    "tools/fewest": ["I", "I", "O", "O"],
    "tools/cubes": ["I", "I", "O"],
    "tools/refutation.py": ["drat", "I", "I", "sc", "O"],
    "tools/litmus.py": ["I", "--program", "O", "--log", "O"],
    "bench/machine.py": ["search", "I", "I", "--log", "O", "--schedule", "O"],
    "bench/long_proof.py": ["O", "O", "5"],
}


class Room(unittest.TestCase):
    """Each test has a folder of its own. A shell has a job in the background ignore SIGINT, and so do all that the job starts: then a
    script that a test stops would go on, and change the checkout."""

    def setUp(self) -> None:
        signal.signal(signal.SIGINT, signal.default_int_handler)
        folder = tempfile.TemporaryDirectory()
        self.addCleanup(folder.cleanup)
        self.room = folder.name

    def path(self, name: str, text: Optional[str] = None) -> str:
        """The path of a name in the folder, with this text in it, if one is given."""
        path = f"{self.room}/{name}"
        if text is not None:
            with open(path, "w", encoding="utf-8") as file:
                file.write(text)
        return path

    def text(self, name: str) -> str:
        with open(self.path(name), encoding="utf-8") as file:
            return file.read()

    def run_script(self, script: str, words: List[str], **options) -> "subprocess.CompletedProcess[str]":
        return subprocess.run([sys.executable, f"{TOP}/{script}", *words], cwd=self.room, capture_output=True, text=True, check=False,
                              timeout=120, **options)

    def is_old(self, name: str = "old", *others: str) -> None:
        """The old file is whole, and there is no other file but these."""
        self.assertEqual(self.text(name), OLD)
        self.assertEqual(sorted(os.listdir(self.room)), sorted([name, *others]))


def clashes(roles: List[str]) -> Iterator[Tuple[int, int]]:
    """The places of an output and of what it must not be."""
    for place, role in enumerate(roles):
        if role == "O":
            yield from ((place, other) for other, it in enumerate(roles) if it == "I" or it == "O" and other < place)


class Clashes(Room):
    def test_each_script_refuses_each_clash(self) -> None:
        for script, roles in CALLS.items():
            for number, (out, other) in enumerate(clashes(roles)):
                how = ("name", "symbolic link", "hard link")[number % 3]
                with self.subTest(script=script, words=roles, out=out, other=other, how=how):
                    self.refused(script, roles, out, other, how)

    def refused(self, script: str, roles: List[str], out: int, other: int, how: str) -> None:
        shutil.rmtree(self.room)
        os.mkdir(self.room)
        words = [self.path(f"{place}{it}", OLD) if it in "IO" else it for place, it in enumerate(roles)]
        if how != "name":
            os.unlink(words[out])
            (os.symlink if how == "symbolic link" else os.link)(words[other], words[out])
        else:
            words[out] = os.path.join(self.room, ".", os.path.basename(words[other]))
        before = sorted(os.listdir(self.room))
        done = self.run_script(script, words)
        self.assertEqual(done.returncode, 2, done.stderr)
        self.assertRegex(done.stderr, r"\A\S+: \S+ would be written (over, and is an input|twice); give .* name.*\n\Z")
        self.assertEqual((done.stdout, sorted(os.listdir(self.room))), ("", before))
        self.assertTrue(all(self.text(name) == OLD for name in before))

    def test_outputs_that_do_not_exist_yet(self) -> None:
        os.mkdir(self.path("folder"))
        os.symlink("folder", self.path("link"))
        with self.assertRaises(Refused):
            refuse_clashes([], [self.path("folder/new"), self.path("link/new")])
        refuse_clashes([], [self.path("folder/new"), self.path("folder/other"), None, None])

    def test_devices_take_all(self) -> None:
        refuse_clashes(["/dev/null"], ["/dev/null", "/dev/null"])


class Keeps(Room):
    """What `keep` of kept_files leaves."""

    def test_a_new_file(self) -> None:
        keep(self.path("new"), "text")
        mask = os.umask(0)
        os.umask(mask)
        self.assertEqual((self.text("new"), os.stat(self.path("new")).st_mode & 0o777), ("text", 0o666 & ~mask))

    def test_parts_and_bytes(self) -> None:
        keep(self.path("new"), (f"{k}\n" for k in range(3)))
        self.assertEqual(self.text("new"), "0\n1\n2\n")
        keep(self.path("new"), b"\xc3\xa9")
        self.assertEqual(self.text("new"), "\u00e9")

    def test_the_mode_and_links_stay(self) -> None:
        os.chmod(self.path("old", OLD), 0o640)
        os.symlink("old", self.path("link"))
        keep(self.path("link"), "new")
        self.assertEqual((self.text("old"), os.readlink(self.path("link"))), ("new", "old"))
        self.assertEqual(os.stat(self.path("old")).st_mode & 0o777, 0o640)
        os.link(self.path("old"), self.path("other"))
        keep(self.path("other"), "both")
        self.assertEqual(self.text("old"), "both")

    def test_a_pipe_and_devices(self) -> None:
        os.mkfifo(self.path("pipe"))
        with subprocess.Popen(["cat", self.path("pipe")], stdout=subprocess.PIPE, text=True) as reader:
            keep(self.path("pipe"), "through")
            self.assertEqual(reader.communicate(timeout=60)[0], "through")
        keep("/dev/null", "nothing")
        with self.assertRaisesRegex(Refused, "/dev/full can't be written: No space left on device"):
            keep("/dev/full", "text")

    def test_standard_output_that_is_a_file(self) -> None:
        code = "import sys; sys.path.insert(0, sys.argv[1]); import kept_files; kept_files.keep('/dev/stdout', 'text')"
        with open(self.path("out"), "w", encoding="utf-8") as out:
            subprocess.run([sys.executable, "-c", code, f"{TOP}/tools"], stdout=out, check=True, timeout=60)
            self.assertEqual(os.fstat(out.fileno()).st_ino, os.stat(self.path("out")).st_ino)
        self.assertEqual(self.text("out"), "text")

    def test_a_fault_in_the_middle(self) -> None:
        def parts() -> Iterator[str]:
            yield "a part"
            raise KeyboardInterrupt
        self.path("old", OLD)
        with self.assertRaises(KeyboardInterrupt):
            keep(self.path("old"), parts())
        self.is_old()


STOPPED = """
import os, signal, sys, time
sys.path.insert(0, sys.argv[1])
from kept_files import keep, run_main

def parts():
    yield "a part\\n" * 10000
    print("begun", flush=True)
    time.sleep(60)

run_main("stopped", lambda words: keep(words[1], parts()))
"""


class Stops(Room):
    def stop(self, number: int) -> Tuple[int, str]:
        """Sends a script this signal in the middle of a keep; its status and its standard error."""
        self.path("old", OLD)
        words = [sys.executable, self.path("script.py", STOPPED), f"{TOP}/tools", self.path("old")]
        with subprocess.Popen(words, stdout=subprocess.PIPE, stderr=subprocess.PIPE, text=True) as script:
            self.assertEqual(script.stdout.readline(), "begun\n")
            script.send_signal(number)
            said = script.communicate(timeout=60)[1]
        return script.returncode, said

    def test_a_stop_says_so_and_leaves_nothing(self) -> None:
        for number, status, line in ((signal.SIGINT, 130, "stopped"), (signal.SIGTERM, 143, "stopped by SIGTERM"),
                                     (signal.SIGHUP, 129, "stopped by SIGHUP")):
            with self.subTest(signal=number):
                self.assertEqual(self.stop(number), (status, f"stopped: {line}\n"))
                self.is_old("old", "script.py")

    def test_a_kill_leaves_the_old_file(self) -> None:
        self.assertEqual(self.stop(signal.SIGKILL), (-signal.SIGKILL, ""))
        self.assertEqual(self.text("old"), OLD)


def limit_files(is_error: bool):
    """No file of the process may have more than 4096 bytes: a longer write kills it, or is an error."""
    def limit() -> None:
        signal.signal(signal.SIGXFSZ, signal.SIG_IGN if is_error else signal.SIG_DFL)
        resource.setrlimit(resource.RLIMIT_FSIZE, (4096, 4096))
        resource.setrlimit(resource.RLIMIT_CORE, (0, 0))
    return limit


@unittest.skipUnless(PROGRAM, "clap_debug isn't built")
class Programs(Room):
    """The same for what clap_debug keeps: the clauses of a log, which are more than 4096 bytes."""

    def cnf(self, out: str, **options) -> "subprocess.CompletedProcess[str]":
        example = f"{TOP}/examples/spin/look"
        return subprocess.run([PROGRAM, "cnf", f"{example}.tc", f"{example}.log", out], capture_output=True, text=True, check=False,
                              timeout=120, **options)

    def test_a_whole_write(self) -> None:
        self.path("old", OLD)
        self.assertEqual(self.cnf(self.path("old")).returncode, 0)
        self.assertGreater(os.path.getsize(self.path("old")), 4096)
        self.assertEqual(os.listdir(self.room), ["old"])

    def test_a_failed_write(self) -> None:
        self.path("old", OLD)
        done = self.cnf(self.path("old"), preexec_fn=limit_files(True))
        self.assertEqual((done.returncode, done.stdout), (8, f"write fault: {self.path('old')}\n"))
        self.is_old()

    def test_a_failed_write_of_a_new_file(self) -> None:
        self.assertEqual(self.cnf(self.path("new"), preexec_fn=limit_files(True)).returncode, 8)
        self.assertEqual(os.listdir(self.room), [])

    def test_a_kill_in_the_middle(self) -> None:
        self.path("old", OLD)
        self.assertEqual(self.cnf(self.path("old"), preexec_fn=limit_files(False)).returncode, -signal.SIGXFSZ)
        self.assertEqual(self.text("old"), OLD)

    def test_standard_output_that_is_a_file(self) -> None:
        example = f"{TOP}/examples/spin/look"
        with open(self.path("out"), "w", encoding="utf-8") as out:
            words = [PROGRAM, "solve", f"{example}.tc", f"{example}.log", "/dev/stdout"]
            self.assertEqual(subprocess.run(words, stdout=out, check=False, timeout=120).returncode, 0)
            self.assertEqual(os.fstat(out.fileno()).st_ino, os.stat(self.path("out")).st_ino)


class FullFileSystem(Room):
    """A file system of 64 kilobytes, which is full but for a page."""

    def setUp(self) -> None:
        super().setUp()
        mounted = subprocess.run(["mount", "-t", "tmpfs", "-o", "size=64k", "none", self.room], capture_output=True, check=False)
        if mounted.returncode != 0:
            self.skipTest("no file system can be mounted here")
        self.addCleanup(subprocess.run, ["umount", self.room], check=True)
        self.path("old", OLD)
        self.path("rest", "x" * 56 * 1024)

    def test_a_script(self) -> None:
        with self.assertRaisesRegex(Refused, "old can't be written: No space left on device"):
            keep(self.path("old"), "y" * 8192)
        self.is_old("old", "rest")

    @unittest.skipUnless(PROGRAM, "clap_debug isn't built")
    def test_clap_debug(self) -> None:
        done = Programs.cnf(self, self.path("old"))
        self.assertEqual((done.returncode, done.stdout), (8, f"write fault: {self.path('old')}\n"))
        self.is_old("old", "rest")


# Stands in for clap_debug: the searches for fewer switches come to 7 and to 5, and then to 3 or to no end.
SOLVES = """#!/bin/sh
out=$4 least=$6 budget=$8
case $* in *--least*) ;; *) echo any >"$out"; echo "schedule 9 moves"; exit 0 ;; esac
case $budget in
    1000) switches=7 ;;
    10000) switches=5 ;;
    *) {last}; echo 3 >"$out"; echo closed >"$least"; echo "schedule 9 moves, 3 switches"; exit 0 ;;
esac
echo $switches >"$out"
echo open >"$least"
echo "spent after $budget conflicts, $switches switches"
exit 10
"""


class Fewest(Room):
    """What `tools/fewest` keeps, and when."""

    def begin(self, last: str, *words: str) -> "subprocess.Popen[str]":
        os.chmod(self.path("solves", SOLVES.replace("{last}", last)), 0o755)
        call = [sys.executable, f"{TOP}/tools/fewest", self.path("p", ""), self.path("l", ""), self.path("out"), self.path("less"), *words]
        return subprocess.Popen(call, stdout=subprocess.PIPE, stderr=subprocess.PIPE, text=True, env=dict(os.environ, CLAP_DEBUG=self.path("solves")))

    def holds(self, schedule: str, refutation: str) -> None:
        self.assertEqual((self.text("out"), self.text("less")), (f"{schedule}\n", f"{refutation}\n"))

    def test_to_the_end(self) -> None:
        with self.begin(":") as script:
            lines = script.communicate(timeout=60)[0].splitlines()
        self.assertEqual((script.returncode, len(lines), lines[-1]), (0, 4, "schedule 9 moves, 3 switches"))
        self.holds("3", "closed")

    def test_a_stop(self) -> None:
        with self.begin("exec sleep 60") as script:
            while not script.stdout.readline().endswith("5 switches\n"):
                self.assertIsNone(script.poll())
            script.send_signal(signal.SIGINT)
            said = script.communicate(timeout=60)[1]
        self.assertEqual((script.returncode, said), (130, "fewest: stopped\n"))
        self.holds("5", "open")

    def test_the_time_is_over(self) -> None:
        with self.begin("exec sleep 600", "--seconds", "20") as script:
            lines = script.communicate(timeout=120)[0].splitlines()
        self.assertEqual((script.returncode, lines[-1]), (10, f"given up: {self.path('out')} has a schedule with 5 switches, and one with fewer may exist"))
        self.holds("5", "open")

    def test_the_budget_is_spent(self) -> None:
        with self.begin(":", "--budget", "1000") as script:
            script.communicate(timeout=60)
        self.assertEqual(script.returncode, 10)
        self.holds("7", "open")


def scripts() -> Iterator[str]:
    """The Python scripts of tools/ and bench/."""
    for folder in ("tools", "bench"):
        for name in sorted(os.listdir(f"{TOP}/{folder}")):
            path = f"{folder}/{name}"
            if os.path.isfile(f"{TOP}/{path}") and path not in OTHERS:
                with open(f"{TOP}/{path}", encoding="utf-8") as file:
                    if file.readline() == "#!/usr/bin/env python3\n":
                        yield path


# What is done before a script: a stop, or a fault, as soon as its main is called.
FIRST_CALL = """
import os, signal, sys

def look(frame, event, _):
    caller = frame.f_back and frame.f_back.f_code.co_name
    if event == "call" and caller == "status_of":
        sys.settrace(None)
        if os.environ["BREAK"] == "fault":
            raise ValueError("a value\\nof two lines")
        os.kill(os.getpid(), signal.SIGINT)

sys.settrace(look)
"""


class Ends(Room):
    """How scripts end that are stopped, or have a fault, as soon as they begin."""

    def broken(self, script: str, how: str) -> "subprocess.CompletedProcess[str]":
        self.path("sitecustomize.py", FIRST_CALL)
        env = dict(os.environ, PYTHONPATH=self.room, BREAK=how, PYTHONDONTWRITEBYTECODE="1")
        return self.run_script(script, [], env=env, stdin=subprocess.DEVNULL)

    def test_each_script_is_stopped(self) -> None:
        for script in scripts():
            with self.subTest(script=script):
                done = self.broken(script, "stop")
                self.assertEqual(done.returncode, 130, done.stderr)
                self.assertRegex(done.stderr, r"\A\S+: stopped.*\n\Z")

    def test_each_script_has_a_fault(self) -> None:
        for script in scripts():
            with self.subTest(script=script):
                done = self.broken(script, "fault")
                self.assertEqual(done.returncode, 125, done.stderr)
                self.assertRegex(done.stderr, r"\A\S+: a fault of this script, at \S+ line \d+: ValueError: a value of two lines\n\Z")

    def ends(self, body: str, **options) -> "subprocess.CompletedProcess[str]":
        """How a script with this main ends."""
        text = f"import sys\nsys.path.insert(0, {TOP + '/tools'!r})\nfrom kept_files import *\n\ndef main(words):\n    {body}\n\nrun_main('it', main)\n"
        # (what isn't written at once is flushed at the end)
        env = {name: value for name, value in os.environ.items() if name != "PYTHONUNBUFFERED"}
        return subprocess.run([sys.executable, self.path("it.py", text)], stderr=subprocess.PIPE, text=True, check=False, timeout=60,
                              env=env, **options)

    def test_ends(self) -> None:
        for body, status, said in (("return 1", 1, ""), ("pass", 0, ""), ("raise SystemExit(3)", 3, ""), ("raise SystemExit('why')", 2, "it: why\n"),
                                   ("raise Refused('why')", 2, "it: why\n"), ("raise MemoryError", 125, "it: out of memory\n"),
                                   ("open('/none/x')", 125, "it: /none/x: No such file or directory\n")):
            with self.subTest(body=body):
                done = self.ends(body, stdout=subprocess.DEVNULL)
                self.assertEqual((done.returncode, done.stderr), (status, said))

    def test_standard_output_that_is_full(self) -> None:
        with open("/dev/full", "w", encoding="utf-8") as full:
            for body in ("print('x')", "print('x' * 100000)", "print('x'); raise Refused('why')"):
                with self.subTest(body=body):
                    done = self.ends(body, stdout=full)
                    self.assertEqual(done.returncode, 2 if "why" in body else 125, done.stderr)
                    self.assertEqual(done.stderr, "it: why\n" if "why" in body else "it: standard output: No space left on device\n")

    def test_standard_output_that_nobody_reads(self) -> None:
        reads, writes = os.pipe()
        os.close(reads)
        for body in ("print('x' * 100000)", "print('x'); sys.exit(2)"):
            with self.subTest(body=body):
                done = self.ends(body, stdout=writes)
                self.assertEqual((done.returncode, done.stderr), (141, ""))
        os.close(writes)

    def test_the_fault_of_an_import(self) -> None:
        text = f"import sys\nsys.path.insert(0, {TOP + '/tools'!r})\nimport kept_files\nraise KeyboardInterrupt\n"
        done = subprocess.run([sys.executable, self.path("it.py", text)], capture_output=True, text=True, check=False, timeout=60)
        self.assertEqual((done.returncode, done.stderr), (130, "it.py: stopped\n"))


if __name__ == "__main__":
    run_main("test_lost.py", lambda _: unittest.main())
