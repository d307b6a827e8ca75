#!/usr/bin/env python3
"""Tries cubes on logs of examples/, and what may go wrong: each fault is brought about, and the run ends with a clear line and goes on
from what is done, or ends as it should all the same. Skipped where there is no parallel, no cadical or no g++. The program is
./clap_debug, or what the variable CLAP_DEBUG names.
"""
import glob
import os
import shutil
import signal
import subprocess
import sys
import tempfile
import time
import unittest
from typing import List, Tuple

from kept_files import run_main

TOP = os.path.dirname(os.path.dirname(os.path.abspath(__file__)))
MISSING = [it for it in ("parallel", "cadical", "g++") if not shutil.which(it)]

# A stand-in for cadical: its first TIMES calls do DOES, later ones run cadical. The last word is
# the proof's name.
STANDS_IN = """#!/bin/bash
for proof; do :; done
count=$(ls "{room}" | grep -c '^call')
touch "{room}/call.$$"
[ "$count" -ge {times} ] || {{ {does}; }}
exec {cadical} "$@"
"""


@unittest.skipIf(MISSING, f"there is no {', no '.join(MISSING)}")
class Cubes(unittest.TestCase):
    def setUp(self) -> None:
        room = tempfile.TemporaryDirectory()
        self.addCleanup(room.cleanup)
        self.room = room.name
        self.out = f"{self.room}/out"
        self.path = os.environ["PATH"]

    def words(self, example: str, model: str, *more: str) -> List[str]:
        log = f"{TOP}/examples/{example}"
        return [f"{TOP}/tools/cubes", f"{log}.tc", f"{log}.log", self.out, "--model", model, "--seconds", "600", "--jobs", "2",
                "--clap-debug", os.environ.get("CLAP_DEBUG", f"{TOP}/clap_debug"), *more]

    def cubes(self, example: str = "peterson/mended", model: str = "sc", *more: str) -> Tuple[int, str]:
        """The status, and all that is said."""
        ran = subprocess.run(self.words(example, model, "--depth", "2", *more), capture_output=True, text=True, check=False,
                             env={**os.environ, "PATH": self.path})
        return ran.returncode, ran.stdout + ran.stderr

    def is_refuted(self, *more: str) -> str:
        """Without the folder's being touched: `check` takes the refutation. What was said."""
        status, said = self.cubes("peterson/mended", "sc", *more)
        self.assertEqual(status, 1, said)
        self.assertIn("accepted, impossible; ", said)
        return said

    def stand_in(self, times: int, does: str) -> None:
        os.makedirs(f"{self.room}/bin")
        with open(f"{self.room}/bin/cadical", "w", encoding="ascii") as file:
            file.write(STANDS_IN.format(room=self.room, times=times, does=does, cadical=shutil.which("cadical")))
        os.chmod(f"{self.room}/bin/cadical", 0o755)
        self.path = f"{self.room}/bin:{os.environ['PATH']}"

    def is_tried_again(self) -> None:
        """The stand-in was called more often than there are cubes."""
        self.assertIn("4 cubes refuted", self.is_refuted())
        self.assertGreater(len(glob.glob(f"{self.room}/call.*")), 4)

    def results(self) -> List[str]:
        return sorted(glob.glob(f"{self.out}.cubes/clap-cubes-*/*.result"))

    def test_a_refutation(self) -> None:
        self.assertIn("4 cubes refuted, 0 split further, 0 handed out again", self.is_refuted())

    def test_a_schedule(self) -> None:
        status, said = self.cubes("buffering/p", "tso")
        self.assertEqual(status, 0, said)
        self.assertIn(" moves, reproduces; ", said)

    def test_one_cube(self) -> None:
        self.assertIn("1 cubes refuted", self.is_refuted("--depth", "0"))

    def test_nothing_to_split(self) -> None:
        """A log of whose list nothing is left to ask: unit propagation alone refutes it."""
        status, said = self.cubes("passing/mended", "sc")
        self.assertEqual(status, 1, said)
        self.assertIn("1 cubes refuted", said)

    def test_dead_paths(self) -> None:
        """A log whose paths alone say that it is impossible: the list is the empty clause."""
        with open(f"{self.room}/p.tc", "w", encoding="ascii") as file:
            file.write("mutex m;\nmain {\n    lock(m);\n    lock(m);\n    assert(0);\n}\n")
        with open(f"{self.room}/p.log", "wb") as file:
            file.write(b"CLPL\0\1\0\1\0\0\0\3\0\0")
        words = self.words("none", "sc")
        words[1:3] = [f"{self.room}/p.tc", f"{self.room}/p.log"]
        ran = subprocess.run(words, capture_output=True, text=True, check=False)
        self.assertEqual(ran.returncode, 1, ran.stdout + ran.stderr)
        self.assertIn("cnf 0 variables, 1 clauses", ran.stderr)

    def test_what_is_done_is_kept(self) -> None:
        self.is_refuted()
        os.remove(self.out)
        self.stand_in(100, "exit 9")
        self.is_refuted()

    def test_a_folder_of_another_log(self) -> None:
        self.is_refuted()
        status, said = self.cubes("dekker/mended", "sc")
        self.assertEqual(status, 2)
        self.assertIn("is of another log or model; name another --folder", said)

    def test_a_worker_that_is_killed(self) -> None:
        self.stand_in(2, "kill -9 $PPID; sleep 9")
        self.assertIn("0 handed out again", self.is_refuted())

    def test_a_worker_that_is_killed_each_time(self) -> None:
        self.stand_in(100, "kill -9 $PPID; sleep 9")
        status, said = self.cubes("peterson/mended", "sc", "--retries", "1")
        self.assertEqual(status, 2)
        self.assertIn("no worker gave anything back; ", said)
        os.remove(f"{self.room}/bin/cadical")
        self.is_refuted()

    def test_a_host_that_is_not_there(self) -> None:
        with open(f"{self.room}/hosts", "w", encoding="ascii") as file:
            file.write(":\nnobody.invalid\n")
        self.is_refuted("--hosts", f"{self.room}/hosts")

    def test_a_cube_that_is_late(self) -> None:
        self.stand_in(2, "echo c UNKNOWN; exit 0")
        self.assertIn("2 split further", self.is_refuted())

    def test_all_cubes_are_late(self) -> None:
        self.stand_in(1000, "echo c UNKNOWN; exit 0")
        status, said = self.cubes("peterson/mended", "sc", "--rounds", "2", "--further", "1")
        self.assertEqual(status, 10, said)
        self.assertIn("spent, 0 cubes refuted, 12 split further", said)

    def test_a_truncated_proof(self) -> None:
        self.stand_in(2, '{ %s "$@"; truncate -s 1000 "$proof"; exit 20; }' % shutil.which("cadical"))
        self.is_tried_again()

    def test_no_room_for_a_proof(self) -> None:
        self.stand_in(2, "trap '' XFSZ; ulimit -f 1")
        self.is_tried_again()

    def test_no_room_for_what_is_joined(self) -> None:
        os.symlink("/dev/full", f"{self.out}.part")
        status, said = self.cubes()
        self.assertEqual(status, 2)
        self.assertIn("the pieces can't be joined: can't be used: ", said)
        self.assertIn("No space left on device", said)
        self.stand_in(100, "exit 9")
        self.is_refuted()

    def test_a_truncated_piece(self) -> None:
        self.is_refuted()
        first = self.results()[0]
        os.truncate(first, os.path.getsize(first) // 2)
        said = self.is_refuted()
        self.assertIn(f"refused: {first}: ", said)
        self.assertIn("1 handed out again", said)

    def test_a_piece_of_another_cube(self) -> None:
        self.is_refuted()
        first, *_, second = self.results()
        with open(first, encoding="ascii") as file:
            head = file.readline()
        with open(second, encoding="ascii") as file:
            rest = file.read().split("\n", 1)[1]
        with open(first, "w", encoding="ascii") as file:
            file.write(head + rest)
        self.assertIn(f"refused: {first}: ", self.is_refuted())

    def test_an_answer_that_is_none(self) -> None:
        self.stand_in(1, "echo s SATISFIABLE; echo v 1 0; exit 10")
        status, said = self.cubes()
        self.assertEqual(status, 2)
        self.assertRegex(said, "import: clause [0-9]+ false")

    def test_an_interruption(self) -> None:
        self.stand_in(4, "sleep 600")
        run = subprocess.Popen(self.words("peterson/mended", "sc", "--depth", "3"), stderr=subprocess.PIPE, text=True,
                               env={**os.environ, "PATH": self.path})
        while not glob.glob(f"{self.room}/call.*"):
            time.sleep(0.1)
        run.send_signal(signal.SIGINT)
        self.assertIn("stopped; what is done stays", run.communicate(timeout=600)[1])
        self.assertEqual(run.returncode, 2)
        self.stand_in_again()
        self.is_refuted()

    def stand_in_again(self) -> None:
        self.path = os.environ["PATH"]

    def test_bad_words(self) -> None:
        for words in ["--depth", "x"], ["--seconds", "0"], ["--model", "arm"]:
            self.assertEqual(self.cubes("peterson/mended", "sc", *words)[0], 2)
        status, said = self.cubes("peterson/none", "sc")
        self.assertEqual(status, 2)
        self.assertIn("No such file", said)


if __name__ == "__main__":
    run_main("test_cubes.py", lambda _: unittest.main(verbosity=2))
