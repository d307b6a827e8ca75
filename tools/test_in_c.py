#!/usr/bin/env python3
"""Tries in_c.py on the output of clap_debug_show for the examples: with a C file that has the same
lines nothing changes; with one that has other lines elsewhere, each row has these."""
import glob
import os
import sys
import unittest
from typing import Dict, Iterator, Tuple

TOP = os.path.dirname(os.path.dirname(os.path.abspath(__file__)))
sys.path.insert(0, f"{TOP}/tools")
import in_c  # noqa: E402
from kept_files import run_main  # noqa: E402


def shown() -> Iterator[Tuple[str, str, Dict[int, str]]]:
    """Of each schedule and log of the examples what is shown, and the texts of the lines there."""
    for name in sorted(glob.glob(f"{TOP}/examples/*/*.shown") + glob.glob(f"{TOP}/examples/*/*.ways")):
        with open(name, encoding="utf-8") as file:
            text = file.read()
        lines = text.splitlines()
        rows = [row for row in map(in_c.as_row, lines) if row]
        texts = {row.line: row.text[: in_c.column_of(rows)].rstrip() for row in rows}
        for line in lines:
            place = in_c.PLACE.match(line)
            step = None if rows else in_c.STEP.match(line)
            if step:
                texts[int(step[2])] = step[3]
            if place:
                texts.setdefault(int(place[2]), place[3])
        yield name, text, texts


def source(texts: Dict[int, str], behind: int) -> in_c.Source:
    """A C file with these texts, each `behind` lines further on."""
    lines = [texts.get(number - behind, "") for number in range(1, max(texts) + behind + 1)]
    return in_c.Source({"p.c": lines}, {number: ("p.c", number + behind) for number in texts})


class Shown(unittest.TestCase):
    def test_the_same_lines(self) -> None:
        found = list(shown())
        self.assertGreater(len(found), 20)
        for name, text, texts in found:
            with self.subTest(name):
                self.assertEqual(in_c.in_c(text, source(texts, 0)), text)

    def test_other_lines(self) -> None:
        for name, text, texts in shown():
            with self.subTest(name):
                made = in_c.in_c(text, source({line: f"in C {line}" for line in texts}, 1000)).splitlines()
                rows = [row for row in map(in_c.as_row, text.splitlines()) if row]
                others = [row for row in map(in_c.as_row, made) if row]
                self.assertEqual([(it.move, it.thread, it.line + 1000) for it in rows], [(it.move, it.thread, it.line) for it in others])
                for row, other in zip(rows, others):
                    happened = row.text[in_c.column_of(rows) :]
                    self.assertEqual(other.text.split("  ", 1)[0].strip(), f"in C {row.line}")
                    self.assertTrue(other.text.endswith(f"  {happened}"))

    def test_what_the_map_lacks(self) -> None:
        _, text, texts = next(shown())
        with self.assertRaises(in_c.Unknown):
            in_c.in_c(text, source(dict(list(texts.items())[1:]), 0))


if __name__ == "__main__":
    run_main("test_in_c.py", lambda _: unittest.main())
