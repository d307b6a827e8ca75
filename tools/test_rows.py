#!/usr/bin/env python3
"""Tries rows.py: how it reads rows, and that it fails where a program answers otherwise or leaves other files, on programs that are shell
scripts.

usage: tools/test_rows.py"""
import os
import sys
import tempfile
import unittest
from typing import Tuple

sys.path.insert(0, os.path.dirname(os.path.realpath(__file__)))
import rows  # noqa: E402
from kept_files import run_main  # noqa: E402


def row_of(*lines: str) -> rows.Row:
    row = rows.Row("a row", usage="usage: x\\n")
    for line in lines:
        row.take(*rows.halves(line))
    return row


class Texts(unittest.TestCase):
    def test_bytes(self) -> None:
        texts = {"a\\n\\x00\\0b": b"a\n\0\0b", "\\3'x\\#; '": b"x0; x1; x2; ", "\\2'v\\#+1'": b"v1v2", "a\\2'bc'd": b"abcbcd", "": b"",
                 "\\2'\\n'\\xff": b"\n\n\xff"}
        for text, made in texts.items():
            self.assertEqual(rows.bytes_of(text), made, text)
        self.assertRaises(rows.Wrong, rows.bytes_of, "\\q")
        self.assertRaises(rows.Wrong, rows.bytes_of, "'x'")

    def test_want(self) -> None:
        for text, status, written, is_met in (
            ('0 "a\\n"', 0, b"a\n", True), ('0 "a\\n"', 1, b"a\n", False), ('0 "a\\n"', 0, b"a\nb", False), ('0 "a\\n"', 0, b"", False),
            ('0 "n " number " x\\n"', 0, b"n 17 x\n", True), ('0 "n " number " x\\n"', 0, b"n  x\n", False),
            ('0 "n " number " x\\n"', 0, b"n 1y x\n", False), ('0 "a\\n" with "two"', 0, b"a\none\ntwo\n", True),
            ('0 "a\\n" with "two"', 0, b"a\none\ntwos\n", False), ("2 usage", 2, b"usage: x\n", True), ("2 usage", 2, b"usage: y\n", False)):
            self.assertEqual(rows.Want.read(text, "usage: x\\n").is_met(status, written), is_met, text)

    def test_all_tables_are_read(self) -> None:
        for table in rows.TABLES:
            with open(f"{rows.TOP}/crates/{table}/stdin", encoding="utf-8") as file:
                lines = file.read().splitlines()
            if table == "test_checks":
                self.assertEqual(len(rows.parts_of(table)), sum(" => " in it for it in lines))
            else:
                self.assertEqual(len(rows.rows_of(table)), sum(it.startswith("row ") for it in lines))


class Verdicts(unittest.TestCase):
    def verdict(self, script: str, *lines: str) -> Tuple[str, str]:
        """What comes of a row on a program that is this shell script."""
        with tempfile.TemporaryDirectory() as room:
            program = f"{room}/program"
            with open(program, "w", encoding="ascii") as file:
                file.write(f"#!/bin/sh\n{script}\n")
            os.chmod(program, 0o755)
            return rows.verdict_of("clap_debug", program, row_of(*lines))

    def test_answer(self) -> None:
        lines = ("words clap_debug list p", "file p x", 'want 3 "no\\n"')
        self.assertEqual(self.verdict("echo no; exit 3", *lines), ("passed", ""))
        for script in ("echo no", "echo yes; exit 3", "echo no; echo no; exit 3", "exit 3", "kill -9 $$"):
            self.assertEqual(self.verdict(script, *lines)[0], "failed", script)

    def test_files(self) -> None:
        lines = ("words clap_debug record p l", "file p x", "file q y", 'want 0 ""', 'holds l "new\\n"', "stays p q r")
        self.assertEqual(self.verdict("echo new >l", *lines), ("passed", ""))
        for script in ("echo old >l", ":", "echo new >l; rm q", "echo new >l; echo x >p", "echo new >l; echo x >r"):
            self.assertEqual(self.verdict(script, *lines)[0], "failed", script)

    def test_turns(self) -> None:
        lines = ("words clap_debug list p", "file p aXbX", 'want 0 "aXbX"', 'edit p "X" "Y"', "then clap_debug list p", 'want 0 "aYbX"', 'cut p "bX"',
                 "then clap_debug list p", 'want 0 "aY"', "stays q")
        self.assertEqual(self.verdict("cat p", *lines), ("passed", ""))
        self.assertEqual(self.verdict("printf aXbX", *lines)[0], "failed")
        self.assertEqual(self.verdict("cat p", *lines[:3], 'edit p "Z" "Y"')[0], "failed")

    def test_failing_devices(self) -> None:
        reads = ("words clap_debug list p", "file p x", "fetch 1 0", 'want 7 "read fault: p\\n"')
        self.assertEqual(self.verdict("cat p >/dev/null 2>&1 || { echo read fault: p; exit 7; }", *reads), ("passed", ""))
        self.assertEqual(self.verdict("echo read; exit 0", *reads)[0], "failed")
        puts = ("words clap_debug list p", "file p x", "put 1 3", 'want 8 "rep"')
        self.assertEqual(self.verdict("echo reproduces 2>/dev/null || exit 8", *puts), ("passed", ""))
        self.assertEqual(self.verdict("echo reproduces 2>/dev/null", *puts)[0], "failed")
        keeps = ("words clap_debug record p l", "file p x", "file l before", "keep 2 3", 'want 8 "write fault: l\\n"', 'holds l "new"')
        writes = "echo newest 2>/dev/null >l || { echo write fault: l; exit 8; }"
        self.assertEqual(self.verdict(writes, *keeps), ("passed", ""))
        self.assertEqual(self.verdict(f"mv l m; ({writes}); s=$?; [ $s = 0 ] || mv m l; exit $s", *keeps), ("passed", ""))
        self.assertEqual(self.verdict("echo newest 2>/dev/null >l; exit 0", *keeps)[0], "failed")
        self.assertEqual(self.verdict("echo other >l; echo write fault: l; exit 8", *keeps)[0], "failed")

    def test_skipped(self) -> None:
        for lines in (("words clap_debug list p", "fetch 1 2", 'want 7 "read fault: p\\n"'), ("words clap_debug list p\\0", 'want 2 "x"'),
                      ("words clap_debug record p ''", 'want 0 "x"'), ("words", 'want 2 "x"')):
            self.assertEqual(self.verdict("exit 1", *lines)[0], "skipped", lines)


if __name__ == "__main__":
    run_main("test_rows.py", lambda _: unittest.main())
