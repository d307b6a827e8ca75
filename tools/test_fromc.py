#!/usr/bin/env python3
"""Tries tools/fromc: generated C programs, run natively and translated; each construct; each refusal; what each atomic access becomes.

    test_fromc.py [NAME..]      all tests, or those of these names, as unittest has them

Translated programs are run by the clap_debug that CLAP_DEBUG names, or by the one that this checkout has built, or else by
bench/machine.py. FROMC_PROGRAMS and FROMC_MUTEXES say how many programs are generated. The tests want gcc and clang; without these each
is skipped by name."""
import os
import re
import shutil
import subprocess
import sys
import tempfile
import unittest
from typing import Dict, List, Optional, Sequence, Tuple, Union

TOP = os.path.dirname(os.path.dirname(os.path.abspath(__file__)))
sys.path[:0] = [f"{TOP}/tools", f"{TOP}/bench"]
LACKS = next((f"there is no {it}" for it in ("gcc", "clang") if not shutil.which(it)), None)

import c_programs  # noqa: E402
from built import built  # noqa: E402
from from_c.main import translation  # noqa: E402
from from_c.refusal import Refusal  # noqa: E402
from from_c.unit import Options  # noqa: E402
from kept_files import run_main  # noqa: E402
import machine  # noqa: E402

NATIVE = ["-std=gnu11", "-w", "-fwrapv", "-O0", "-pthread"]
OBSERVE = re.compile(r"^(\s*)OBSERVE\((.*)\);$", re.M)
MODELS = ("sc", "tso", "pso")
PROGRAM = built("clap_debug")
PROGRAMS = int(os.environ.get("FROMC_PROGRAMS", "200"))
MUTEXES = int(os.environ.get("FROMC_MUTEXES", "50"))


def recorded(text: str, model: str = "sc", seed: int = 0) -> Tuple[str, int]:
    """How a run of a program ends: finished, failed or deadlock, and the line of a failure or 0."""
    said = recorded_by(PROGRAM, text, model, seed) if PROGRAM else recorded_here(text, model, seed)
    found = re.match(r"failed \S+ line (\d+) |(finished|deadlock)", said)
    if not found:
        raise AssertionError(f"{said}\n{text}")
    return (found[2], 0) if found[2] else ("failed", int(found[1]))


def recorded_by(program: str, text: str, model: str, seed: int) -> str:
    with tempfile.TemporaryDirectory() as folder:
        with open(f"{folder}/p.tc", "w", encoding="utf-8") as out:
            out.write(text)
        words = [program, "record", f"{folder}/p.tc", f"{folder}/log", "--model", model, "--seed", str(seed)]
        done = subprocess.run(words, capture_output=True, text=True, check=False)
    return done.stdout or done.stderr


def recorded_here(text: str, model: str, seed: int) -> str:
    code = machine.Code(text)
    return machine.end_of(code, *machine.run(code, model, seed, 1000000))


def translated(source: str, options: Options = Options(), is_checked: bool = True) -> Tuple[str, Dict[int, int], List[str]]:
    """The program, by its lines those in C, and the warnings. Most tests know already whether gcc takes the file."""
    with tempfile.TemporaryDirectory() as folder:
        file = f"{folder}/p.c"
        with open(file, "w", encoding="utf-8") as out:
            out.write(source)
        text, lines, notes = translation(file, options, [], is_checked)
    pairs = [line.split()[:2] for line in lines.splitlines()[1:]]
    return text, {int(ours): int(theirs) for ours, theirs in pairs}, notes.lines()


def compiled(sources: List[str], folder: str, *words: str) -> None:
    """Makes one native program of some, of which the number that it is given says which one runs. What is before them is that of the
    first. Each has the lines that it has alone."""
    before, parts = sources[0], []
    for number, source in enumerate(sources[1:]):
        parts += [f"#define main main_{number}", f"#define work work_{number}", f'#line {before.count(chr(10)) + 1} "p.c"', source,
                  "#undef main", "#undef work"]
    table = ", ".join(f"main_{number}" for number in range(len(sources) - 1))
    chosen = f"int (*const all_mains[])(void) = {{{table}}};\nint main(int n, char **w)\n{{\n    return all_mains[atoi(w[1])]();\n}}\n"
    with open(f"{folder}/p.c", "w", encoding="utf-8") as out:
        out.write("\n".join([before, *parts, chosen]))
    made = subprocess.run(["gcc", *NATIVE, *words, "-include", "stdio.h", "-include", "stdlib.h", f"{folder}/p.c", "-o", f"{folder}/p"],
                          capture_output=True, text=True, check=False)
    if made.returncode:
        raise AssertionError(made.stderr)


def native(folder: str, number: int) -> Tuple[int, str, str]:
    """The status of a native program, and what it writes."""
    done = subprocess.run([f"{folder}/p", str(number)], capture_output=True, text=True, timeout=300, check=False)
    return done.returncode, done.stdout, done.stderr


def values(before: str, sources: List[str]) -> List[List[int]]:
    """The values that each program observes natively."""
    with tempfile.TemporaryDirectory() as folder:
        compiled([before, *sources], folder, "-DOBSERVE(e)=printf(\"%d\\n\",(int)(e))")
        return [list(map(int, native(folder, number)[1].split())) for number in range(len(sources))]


def outcomes(before: str, sources: List[str]) -> List[Tuple[str, int]]:
    """How a native run of each program ends, as `recorded` says it."""
    ends: List[Tuple[str, int]] = []
    with tempfile.TemporaryDirectory() as folder:
        compiled([before, *sources], folder)
        for number, source in enumerate(sources):
            status, _, said = native(folder, number)
            found = re.search(r"p\.c:(\d+): .*Assertion", said)
            if status and not found:
                raise AssertionError(f"{status} {said}\n{source}")
            ends.append(("failed", int(found[1])) if found and status else ("finished", 0))
    return ends


def asserting(source: str, observed: List[int], wrong: Optional[int] = None) -> str:
    """The program with an assertion for each thing that is observed: that it is what it was natively; of one, that it is another."""
    given = iter(enumerate(observed))

    def checked(found: "re.Match[str]") -> str:
        number, value = next(given)
        value ^= number == wrong
        return f"{found[1]}assert(({found[2]}) == ({value if value > -(1 << 31) else '-2147483647 - 1'}));"

    made = OBSERVE.sub(checked, source)
    if next(given, None) is not None:
        raise AssertionError(f"more was observed than there is\n{source}")
    return made


class Tests(unittest.TestCase):
    """Tests that want gcc and clang. (A skipped class has run no test, which Python 3.12 takes for a fault.)"""

    def setUp(self) -> None:
        if LACKS:
            self.skipTest(LACKS)


class Generated(Tests):
    """Random programs: each assertion comes out natively as it does translated."""

    def compare(self, before: str, source: str, end: Tuple[str, int], models: Tuple[str, ...], seed: int,
                options: Options = Options()) -> None:
        text, lines, _ = translated(before + source, options)
        for model in models:
            kind, line = recorded(text, model, seed)
            self.assertEqual((kind, lines.get(line, 0)), end, f"{seed} {model}\n{before}{source}\n{text}")

    def compare_all(self, made: Sequence[Union[c_programs.Programs, c_programs.FirstValues, c_programs.PointerPrograms]],
                    options: Options = Options()) -> None:
        """Programs that end in one way under every schedule; in every second one an assertion is wrong."""
        sources = [it.program() for it in made]
        observed = values(made[0].before, sources)
        wrong = [it.chance.randrange(len(found)) if seed % 2 else None for seed, (it, found) in enumerate(zip(made, observed))]
        sources = [asserting(*each) for each in zip(sources, observed, wrong)]
        ends = outcomes(made[0].before, sources)
        self.assertEqual([end[0] for end in ends], ["finished" if it is None else "failed" for it in wrong])
        for seed, (source, end) in enumerate(zip(sources, ends)):
            self.compare(made[0].before, source, end, ("sc",), seed, options)

    def test_programs_of_one_thread(self) -> None:
        self.compare_all([c_programs.Programs(seed) for seed in range(PROGRAMS)])

    def test_first_values(self) -> None:
        self.compare_all([c_programs.FirstValues(seed) for seed in range(PROGRAMS)])

    def test_programs_with_pointers(self) -> None:
        self.compare_all([c_programs.PointerPrograms(seed) for seed in range(PROGRAMS)], Options(heap=40, left_to_right=True))
        self.compare_all([c_programs.PointerPrograms(seed) for seed in range(PROGRAMS)], Options(heap=40, left_to_right=True, reuse=True))

    def test_programs_with_mutexes(self) -> None:
        made = [c_programs.MutexPrograms(seed) for seed in range(MUTEXES)]
        sources = [it.program() for it in made]
        sources = [asserting(*each) for each in zip(sources, values(made[0].before, sources))]
        ends = outcomes(made[0].before, sources)
        self.assertEqual(set(ends), {("finished", 0)})
        for seed, (source, end) in enumerate(zip(sources, ends)):
            self.compare(made[0].before, source, end, MODELS, seed)


def sections(name: str) -> List[Tuple[str, str, str]]:
    """The sections of a file beside this one: a heading, file scope, and the statements of main."""
    with open(f"{TOP}/tools/{name}", encoding="utf-8") as file:
        parts = re.split(r"^### ", file.read(), flags=re.M)[1:]
    heads = [it.partition("\n") for it in parts]
    return [(title, *map(str.strip, text.split("---\n"))) for title, _, text in heads]  # type: ignore[misc]


# The translation of each access, for all models, for sc, for tso and for pso.
STRONG = "stbar(); x = 1; fence();"
ACCESSES: List[Tuple[str, Tuple[str, ...], Tuple[str, str, str, str]]] = [
    ("r = atomic_load_explicit(&x, memory_order_{});", ("relaxed", "consume", "acquire", "seq_cst"), ("r = x;",) * 4),
    ("atomic_store_explicit(&x, 1, memory_order_{});", ("relaxed",), ("x = 1;",) * 4),
    ("atomic_store_explicit(&x, 1, memory_order_{});", ("release",), ("stbar(); x = 1;", "x = 1;", "x = 1;", "stbar(); x = 1;")),
    ("atomic_store_explicit(&x, 1, memory_order_{});", ("seq_cst",), (STRONG, "x = 1;", "x = 1; fence();", STRONG)),
    ("atomic_store(&x, 1);", ("",), (STRONG, "x = 1;", "x = 1; fence();", STRONG)),
    ("x = 1;", ("",), (STRONG, "x = 1;", "x = 1; fence();", STRONG)),
    ("r = x;", ("",), ("r = x;",) * 4),
    ("r = atomic_exchange_explicit(&x, 1, memory_order_{});", ("relaxed", "acquire", "release", "acq_rel", "seq_cst"), ("r = swap(x, 1);",) * 4),
    ("r = atomic_fetch_add_explicit(&x, 1, memory_order_{});", ("relaxed", "acquire", "release", "acq_rel", "seq_cst"), ("r = add(x, 1);",) * 4),
    ("r = __atomic_fetch_sub(&y, 2, __ATOMIC_{});", ("RELAXED", "SEQ_CST"), ("r = add(y, -2);",) * 4),
    ("x += 2;", ("",), ("old = add(x, 2);",) * 4),
    ("r = atomic_fetch_or_explicit(&x, 1, memory_order_{});", ("relaxed", "seq_cst"),
     ("old = x; seen = cas(x, old, old | 1); while (seen != old) { old = seen; seen = cas(x, old, old | 1); } r = old;",) * 4),
    ("r = atomic_compare_exchange_strong_explicit(&x, &e, 1, memory_order_{}, memory_order_relaxed);", ("relaxed", "acquire", "release", "acq_rel", "seq_cst"),
     ("seen = cas(x, e, 1); same = seen == e; e = seen; r = same;",) * 4),
    ("atomic_thread_fence(memory_order_{});", ("relaxed", "consume", "acquire"), ("",) * 4),
    ("atomic_thread_fence(memory_order_{});", ("release", "acq_rel"), ("stbar();", "", "", "stbar();")),
    ("atomic_thread_fence(memory_order_{});", ("seq_cst",), ("fence();", "", "fence();", "fence();")),
    ("atomic_signal_fence(memory_order_{});", ("seq_cst",), ("",) * 4),
    ("atomic_init(&x, 1);", ("",), ("x = 1;",) * 4),
]


def whole(globals_: str, *lines: str) -> str:
    """A C program of these globals and lines of main."""
    body = "".join(f"    {line}\n" for each in lines for line in each.splitlines())
    return f"{c_programs.HEAD}#include <stdio.h>\n#include <stdlib.h>\n{globals_}\nint main(void)\n{{\n{body}    return 0;\n}}\n"


class Constructs(Tests):
    def test_each_construct(self) -> None:
        """The program observes what the native one does; with a wrong last value it fails there."""
        for name, globals_, body in sections("test_fromc_constructs.txt"):
            with self.subTest(name):
                source = whole(globals_, body)
                observed = values("", [source])[0]
                self.assertEqual(len(observed), body.count("OBSERVE"))
                text, _, _ = translated(asserting(source, observed))
                self.assertEqual(recorded(text), ("finished", 0), source + text)
                spoilt = asserting(source, observed, len(observed) - 1)
                text, lines, _ = translated(spoilt)
                kind, line = recorded(text)
                last = max(number for number, it in enumerate(spoilt.splitlines(), 1) if it.startswith("    assert(("))
                self.assertEqual((kind, lines.get(line)), ("failed", last), spoilt + text)

    def test_threads(self) -> None:
        """A thread's argument: nothing, a number, a place; and the calls of <threads.h>."""
        for name, globals_, body in sections("test_fromc_threads.txt"):
            with self.subTest(name):
                source = whole(globals_, body)
                text, _, _ = translated(asserting(source, values("", [source])[0]))
                ends = [recorded(text, model, seed) for model in ("sc", "pso") for seed in range(3)]
                self.assertEqual(ends, [("finished", 0)] * 6, text)

    def test_indexes_outside_fail(self) -> None:
        """An element is never taken for another one."""
        for globals_, access in (
            ("int a[3];", "a[i] = 1;"), ("int a[2][3];", "a[0][i] = 1;"), ("atomic_int a[3];", "atomic_exchange(&a[i], 1);"),
            ("struct s { int b[3]; } a[2];", "a[0].b[i] = 1;"), ("pthread_mutex_t a[3];", "pthread_mutex_lock(&a[i]);"),
        ):
            for value, ends in ((2, "finished"), (3, "failed"), (-1, "failed")):
                source = whole(f"{globals_} int given = {value};", f"int i = given; {access}")
                text, lines, _ = translated(source)
                kind, line = recorded(text)
                self.assertEqual(kind, ends, text)
                self.assertTrue(line == 0 or access in source.splitlines()[lines[line] - 1], text)


STACK = """struct node { struct node *next; int value; };
_Atomic(struct node *) top;
pthread_t t, u;
static void push(struct node *n)
{
    struct node *old = top;
    do
        n->next = old;
    while (!atomic_compare_exchange_weak(&top, &old, n));
}
static struct node *pop(void)
{
    struct node *old = top;
    while (old && !atomic_compare_exchange_weak(&top, &old, old->next))
        ;
    return old;
}
"""
NEW = "push(malloc(sizeof(struct node)));"
AGAIN = "struct node *n = pop(); free(pop()); free(n); " + NEW
RUN = "pthread_create(&t, 0, f, 0); {} pthread_join(t, 0);"
TAKE = (f"struct node *old = top, *next = old->next; {RUN.format('')} "
        "bool ok = atomic_compare_exchange_strong(&top, &old, next); assert(!ok);")
# What a thread does, what main does, the options, and the access that fails in some run, or nothing.
RECLAIMED: List[Tuple[str, str, Options, str]] = [
    ("struct node *n = pop(); if (n) free(n);", NEW + RUN.format("pop();"), Options(), "old->next)"),
    ("struct node *n = pop(); (void)n;", NEW + RUN.format("pop();"), Options(), ""),
    ("free(top);", NEW + RUN.format("free(top);"), Options(), "free(top)"),
    ("top = 0;", NEW + RUN.format("int v = atomic_load(&top)->value; (void)v;"), Options(), "->value"),
    ("", NEW + NEW, Options(heap=1), NEW),
    ("", NEW + NEW, Options(heap=2), ""),
    (NEW, "static struct node here; push(&here); free(top);", Options(), "free(top)"),
    # A node that comes back at the top of a stack, with what was below it gone.
    (AGAIN, NEW + NEW + TAKE, Options(reuse=True), "assert(!ok)"),
    (AGAIN, NEW + NEW + TAKE, Options(), ""),
    ("struct node *n = pop(), *m = pop(); free(n); free(m); push(malloc(1)); push(malloc(1)); assert(top == n && m->next == 0);",
     NEW + NEW + RUN.format(""), Options(reuse=True), ""),
]


class Reclaimed(Tests):
    def test_what_is_freed(self) -> None:
        """All states of small programs: an access of what was freed, a null pointer, a second free and too much memory fail."""
        for thread, main, options, fails in RECLAIMED:
            with self.subTest(thread + main):
                spread = [it.replace(";", ";\n") for it in (thread, main)]
                source = whole(f"{STACK}void *f(void *a)\n{{\n{spread[0]}\nreturn a; }}", spread[1])
                text, lines, _ = translated(source, options)
                end, state, _, _ = machine.explore(machine.Code(text), "sc")
                self.assertEqual(end, "failed" if fails else None, text)
                if fails:
                    thread_of = state.threads[state.failed]
                    line = machine.Code(text).functions[thread_of.function].lines[thread_of.at]
                    self.assertIn(fails, source.splitlines()[lines[line] - 1], text)


class Refused(Tests):
    def test_each_refusal(self) -> None:
        for found, globals_, body in sections("test_fromc_refusals.txt"):
            with self.subTest(globals_ + body):
                source = whole(globals_, body)
                before = source.partition("@")[0]
                place = f"{before.count(chr(10)) + 1}:{len(before) - before.rfind(chr(10))}"
                with self.assertRaises(Refusal) as caught:
                    translated(source.replace("@", ""))
                said = str(caught.exception)
                self.assertIn(found, said)
                self.assertGreater(len(caught.exception.advice), 5)
                self.assertRegex(said, rf"/p\.c:{place}: ", before)

    def test_what_clang_refuses(self) -> None:
        for source, found in ((whole("", "undeclared(1);"), "implicit declaration"), (whole("#include <math.h>", ""), "only these are known: assert.h"),
                              (whole("int x = \"a\";", ""), "not a compile-time constant"), (whole("", "int x = ;"), "expected expression")):
            with self.assertRaises(Refusal) as caught:
                translated(source, is_checked=False)
            self.assertIn(found, str(caught.exception))

    def test_all_at_once(self) -> None:
        """Each refusal once, in the order of places; what follows from one isn't said."""
        source = whole("float x; int f(int n) { float q = n; return q; }",
                       "x = 2;\nf(1);\nasm(\"nop\");\nf(2);\nint a[2], i = 1; i++; a[i] = 1;")
        with self.assertRaises(Refusal) as caught:
            translated(source)
        said = [re.sub(r"^\S+/p\.c:(\d+):\d+: (.*?):.*", r"\1 \2", str(it)) for it in caught.exception.all]
        self.assertEqual(said, ["8 the type float", "8 the type float", "13 inline assembly", "15 an index of a that isn't constant"])

    def test_headers(self) -> None:
        with tempfile.TemporaryDirectory() as folder:
            for name, text in (("p.c", '#include <stdint.h>\n#include "a.h"\nint main(void) { return f(); }\n'),
                               ("a.h", '#include "b.h"\n'), ("b.h", "static int f(void)\n{\n    float x;\n    float y;\n    return 0;\n}\n")):
                with open(f"{folder}/{name}", "w", encoding="utf-8") as out:
                    out.write(text)
            done = subprocess.run([f"{TOP}/tools/fromc", f"{folder}/p.c"], capture_output=True, text=True, check=False)
        self.assertEqual(done.returncode, 1)
        self.assertRegex(done.stderr, rf"^fromc: \S*b\.h:3:11: the type float: .* \(included at {folder}/p\.c:2\)\nfromc: .*b\.h:4:1")

    def test_no_main(self) -> None:
        with self.assertRaises(Refusal) as caught:
            translated("int x;\n")
        self.assertIn("there is no main", str(caught.exception))

    def test_limits(self) -> None:
        with self.assertRaises(Refusal) as caught:
            translated(whole("int a[1025];", "a[0] = 1;"))
        self.assertIn("1025 cells, of 1024", str(caught.exception))


class Accesses(Tests):
    def test_what_each_access_becomes(self) -> None:
        """All accesses are lines of one program; what each has become is found by the map."""
        rows = [(access.format(order), wanted) for access, orders, wanted in ACCESSES for order in orders]
        lines = ["int e = 3, r = 0;", *(access for access, _ in rows), "e = r;"]
        source = whole("atomic_int x; int y;", *lines)
        first = source[: source.index(rows[0][0])].count("\n") + 1
        for number, model in enumerate((None, "sc", "tso", "pso")):
            text, places, _ = translated(source, Options(model))
            for row, (access, wanted) in enumerate(rows):
                found = [re.sub(r"\s*//.*", "", it).strip() for line, it in enumerate(text.splitlines(), 1) if places.get(line) == first + row]
                said = re.sub(r"(old|seen|same)_\d+", r"\1", " ".join(found))
                self.assertEqual(said, wanted[number].replace(" }", ""), f"{access} {model}")


class Warned(Tests):
    THREADS = "pthread_t s; void *f(void *u) {{ {} return u; }} "
    BOTH = "pthread_create(&s, 0, f, 0); {} pthread_join(s, 0);"

    def warnings(self, globals_: str, thread: str, main: str, options: Options = Options()) -> List[str]:
        return translated(whole(globals_ + self.THREADS.format(thread), self.BOTH.format(main)), options)[2]

    def test_unguarded_variables(self) -> None:
        guarded = "pthread_mutex_lock(&m); n++; pthread_mutex_unlock(&m);"
        for globals_, thread, main, warned in (
            ("int n;", "n++;", "n++;", True), ("int n;", "n++;", "", False), ("int n;", "int k = n; (void)k;", "int k = n; (void)k;", False),
            ("atomic_int n;", "n++;", "n++;", False), ("pthread_mutex_t m; int n;", guarded, guarded, False),
            ("pthread_mutex_t m; int n;", guarded, "n++;", True), ("pthread_mutex_t m, k; int n;", guarded, guarded.replace("&m", "&k"), True),
            ("pthread_mutex_t m; int n, c;", "if (c) pthread_mutex_lock(&m); n++;", guarded, True),
        ):
            said = self.warnings(globals_, thread, main)
            self.assertEqual(any("without a common mutex" in it and " n (" in it for it in said), warned, (globals_, thread, main, said))

    def test_before_and_after_a_thread(self) -> None:
        source = whole("int n; pthread_t s; void *f(void *u) { n++; return u; }", "n = 1; pthread_create(&s, 0, f, 0); pthread_join(s, 0); n = 2;")
        self.assertEqual(translated(source)[2], [])

    def test_other_kinds(self) -> None:
        self.assertIn("volatile orders nothing", self.warnings("volatile int n;", "", "")[0])
        self.assertIn("time is left out", self.warnings("#include <unistd.h>\n", "sleep(1);", "")[0])
        self.assertIn("from left to right", self.warnings("atomic_int a, b;", "int r = a + b; (void)r;", "", Options(None, True))[0])
        source = whole("pthread_t s; void *f(void *u) { return u; }", "pthread_create(&s, 0, f, 0);")
        self.assertIn("main joins fewer threads", translated(source)[2][0])
        self.assertIn("the status that main returns", translated("int main(void) { return 1; }\n")[2][0])
        said = self.warnings("pthread_mutex_t m; pthread_cond_t c;", "", "pthread_mutex_lock(&m); pthread_cond_wait(&c, &m); pthread_mutex_unlock(&m);")
        self.assertIn("a wait outside a loop", said[0])

    def test_wide(self) -> None:
        source = whole("long n;", "n++; n = (long)n - 1; assert(n == 0);")
        said = translated(source)[2]
        self.assertEqual(len(said), 1, said)
        self.assertIn("64 bits are computed with the 32 lowest", said[0])
        with self.assertRaises(Refusal) as caught:
            translated(source, Options(refuse_wide=True))
        self.assertIn("arithmetic of 64 bits", str(caught.exception))
        carried = whole("pthread_t s; void *f(void *u) { long n = (long)u; assert((int)n == 3); return u; }",
                        "pthread_create(&s, 0, f, (void *)3l); pthread_join(s, 0);")
        self.assertEqual(translated(carried, Options(refuse_wide=True))[2], [])

    def test_left_to_right(self) -> None:
        source = whole("int n = 1; int f(int k) { n = n * 10 + k; return n; }", "int r = f(2) - f(3) * n; assert(r == 12 - 123 * 123);")
        text, _, _ = translated(source, Options(None, True))
        self.assertEqual(recorded(text), ("finished", 0), text)


def main(_: List[str]) -> None:
    if not LACKS:
        print(f"test_fromc.py: translated programs are run by {PROGRAM or 'bench/machine.py'}", file=sys.stderr)
    unittest.main(verbosity=2 if LACKS else 1)


if __name__ == "__main__":
    run_main("test_fromc.py", main)
