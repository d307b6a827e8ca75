#!/usr/bin/env python3
"""Tries examples.py on copies of a folder of examples, whole and spoilt.

  test_examples.py [PROGRAM SHOW]     the built programs clap_debug and clap_debug_show; else the scripts of these names
"""
import shutil
import subprocess
import sys
import tempfile
import unittest
from pathlib import Path
from typing import List, Tuple

from kept_files import run_main

TOP = Path(__file__).resolve().parent.parent
PROGRAMS = [TOP / "clap_debug", TOP / "clap_debug_show"]


class Pages(unittest.TestCase):
    def setUp(self) -> None:
        self.room = tempfile.TemporaryDirectory()
        self.addCleanup(self.room.cleanup)
        self.folder = Path(self.room.name) / "rcu"
        shutil.copytree(TOP / "examples" / "rcu", self.folder)
        self.page = self.folder / "README.md"

    def ran(self, *words: str) -> Tuple[int, str]:
        """The status of examples.py, and what it prints."""
        command: List[str] = [f"{TOP}/bench/examples.py", "--program", str(PROGRAMS[0]), "--show", str(PROGRAMS[1])]
        ran = subprocess.run([*command, *words, str(self.folder)], capture_output=True, text=True, check=False)
        return ran.returncode, ran.stdout + ran.stderr

    def refuses(self, said: str) -> None:
        status, text = self.ran()
        self.assertEqual(status, 1)
        self.assertIn(said, text)

    def change(self, old: str, new: str) -> None:
        text = self.page.read_text()
        self.assertIn(old, text)
        self.page.write_text(text.replace(old, new))

    def test_whole(self) -> None:
        self.assertEqual(self.ran(), (0, "1 pages of examples, 0 wrong\n"))

    def test_other_verdict(self) -> None:
        self.change("| `p` | impossible | impossible | 2 switches |", "| `p` | impossible | 2 switches | 2 switches |")
        self.refuses("+| `p` | impossible | impossible | 2 switches |")

    def test_other_output(self) -> None:
        self.change("failed 0 line 21 after 17 moves", "failed 0 line 22 after 17 moves")
        self.refuses("+failed 0 line 21 after 17 moves")

    def test_seed_of_another_run(self) -> None:
        self.change("--seed 1606", "--seed 1")
        self.refuses("no command of the page writes p.log")

    def test_command_that_writes_another_log(self) -> None:
        self.change(" 0.1:6 ", " 0.1:5 ")
        self.refuses("a command of the page writes another mended.log")

    def test_no_command_for_a_log(self) -> None:
        self.change("$ bench/machine.py", "bench/machine.py")
        self.refuses("no command of the page writes mended.log")

    def test_log_of_another_program(self) -> None:
        shutil.copy(TOP / "examples" / "seqlock" / "mended.log", self.folder / "mended.log")
        self.refuses("'log refused: other program'")

    def test_schedule_with_more_switches(self) -> None:
        files = [self.folder / f"p.{it}" for it in ("tc", "log", "sched")]
        subprocess.run([PROGRAMS[0], "solve", *files], check=True, capture_output=True)
        self.refuses("has 4 switches, and is to have 2")

    def test_schedule_cut_short(self) -> None:
        kept = self.folder / "p.sched"
        kept.write_text(kept.read_text().rsplit("\n", 2)[0] + "\n")
        self.refuses("is to say 'reproduces'")

    def test_page_without_end(self) -> None:
        self.change("<!-- end -->", "")
        self.refuses("the page wants one line <!-- verdicts -->")

    def test_rewrite(self) -> None:
        self.change("2 switches", "9 switches")
        (self.folder / "p.sched").unlink()
        self.assertEqual(self.ran("--rewrite")[0], 1)
        self.assertIn("| `p` | impossible | impossible | 2 switches |", self.page.read_text())
        self.assertEqual(self.ran()[0], 0)


if __name__ == "__main__":
    if len(sys.argv) == 3:
        PROGRAMS = [Path(it).resolve() for it in sys.argv[1:]]
        del sys.argv[1:]
    run_main("test_examples.py", lambda _: unittest.main())
