#!/usr/bin/env python3
"""Tries the C programs of tools/corpus: tools/fromc takes each, and clap_debug_find answers as tools/corpus/expected.txt has it, for the
correct version and the broken one, under each memory model.

    test_corpus.py [NAME..]      all tests, or those of these names, such as Corpus.test_mcs_lock, as unittest has them

CLAP_DEBUG_FIND may name the program. What isn't answered in 20 seconds (CORPUS_SECONDS), or up to a bound only, is skipped by name."""
import os
import re
import subprocess
import sys
import tempfile
import unittest
from typing import Callable, Dict, List, Tuple

TOP = os.path.dirname(os.path.dirname(os.path.abspath(__file__)))
sys.path.insert(0, f"{TOP}/tools")
from built import build  # noqa: E402
from kept_files import run_main  # noqa: E402

CORPUS, SECONDS = f"{TOP}/tools/corpus", float(os.environ.get("CORPUS_SECONDS", "20"))
MODELS = ("sc", "tso", "pso")
VERSIONS: Dict[str, List[str]] = {"correct": [], "broken": ["-DBROKEN"]}
# What the table calls that which is looked for, and the option that looks for it.
KINDS: Dict[str, List[str]] = {"fails": [], "deadlocks": ["--deadlock"]}
SAID: Dict[str, List[str]] = {"taken": [], "refused": []}


def expected_answers() -> Dict[Tuple[str, str, str], str]:
    """The answer of each file (without .c), version and model."""
    answers: Dict[Tuple[str, str, str], str] = {}
    with open(f"{CORPUS}/expected.txt", encoding="utf-8") as table:
        for name, *row in filter(None, (line.partition("#")[0].split() for line in table)):
            asked = [(name[:-2], version, model) for version in VERSIONS for model in MODELS]
            assert len(row) == len(asked), f"expected.txt: {name} has {len(row)} answers"
            answers.update(zip(asked, row))
    return answers


def found(program: str, out: str, words: List[str]) -> str:
    """Whether a failure, or with --deadlock a deadlock, is found: yes, no, or why neither is known."""
    try:
        done = subprocess.run([build("clap_debug_find"), program, out, *words], capture_output=True, text=True, timeout=SECONDS, check=False)
    except subprocess.TimeoutExpired:
        return f"no answer in {SECONDS:g} s"
    if done.returncode == 0 and done.stdout.startswith("found "):
        return "yes"
    assert done.returncode in (1, 6, 10), f"{program} {' '.join(words)}: status {done.returncode}: {done.stdout}{done.stderr}"
    return "no" if done.returncode == 1 and re.fullmatch(r"none in \d+ logs\n", done.stdout) else f"{done.stdout}{done.stderr}".strip()


class Corpus(unittest.TestCase):
    """A test for each file is added below."""
    def test_table(self) -> None:
        """Each file has a row; a correct version never fails, and a broken one does under PSO at least."""
        self.assertEqual({it[:-2] for it in os.listdir(CORPUS) if it.endswith(".c")}, {it[0] for it in EXPECTED})
        for (name, version, model), answer in EXPECTED.items():
            self.assertIn(answer, ["none"] if version == "correct" else ["none", *KINDS] if model != "pso" else KINDS, f"{name} {version}")

    def translate(self, name: str, version: str, out: str) -> None:
        words = [f"{CORPUS}/{name}.c", "-o", out, *VERSIONS[version]]
        done = subprocess.run([f"{TOP}/tools/fromc", *words], capture_output=True, text=True, check=False)
        said = next((it for it in done.stderr.splitlines() if "warning" not in it), f"status {done.returncode}")
        SAID["refused" if done.returncode else "taken"].append(f"{name} {version}: {said}")
        self.assertEqual(done.returncode, 0, f"{name} {version} is refused: {said}")

    def compare(self, asked: Tuple[str, str, str], program: str) -> None:
        """Asks for a failure and for a deadlock: the one of the table is found, if any, and no other."""
        bound = ["--model", asked[2], "--outcomes", "12" if asked[1] == "correct" else "16"]
        answers = {kind: found(program, f"{program}.out", [*bound, *words]) for kind, words in KINDS.items()}
        for kind, answer in answers.items():
            wrong = "no" if EXPECTED[asked] == kind else "yes"
            self.assertNotEqual(answer, wrong, f"{' '.join(asked)} {kind}, expected: {EXPECTED[asked]}")
        unknown = [f"{kind}: {answer}" for kind, answer in answers.items() if answer not in ("yes", "no")]
        if unknown:
            self.skipTest(f"{' '.join(asked)} {'; '.join(unknown)}")


def test_of(name: str) -> Callable[[Corpus], None]:
    def test(self: Corpus) -> None:
        for version in VERSIONS:
            with self.subTest(version), tempfile.TemporaryDirectory() as folder:
                self.translate(name, version, f"{folder}/p.tc")
                for model in MODELS:
                    with self.subTest(model):
                        self.compare((name, version, model), f"{folder}/p.tc")
    return test


EXPECTED = expected_answers()
for each in sorted({it[0] for it in EXPECTED}):
    setattr(Corpus, f"test_{each}", test_of(each))


def tearDownModule() -> None:
    print("\n".join(["", *SAID["refused"], ", ".join(f"{len(them)} versions {how}" for how, them in SAID.items())]), file=sys.stderr)


if __name__ == "__main__":
    run_main("test_corpus.py", lambda _: unittest.main())
