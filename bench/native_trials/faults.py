"""Wrong recorders: each is a copy of tools/native_runs in which a text is replaced, and names tests of tools/test_native.py, one of
which at least must find it."""
import os
import re
import shutil
import subprocess
import sys
import tempfile
from typing import Dict, List, NamedTuple

TOP = os.path.dirname(os.path.dirname(os.path.dirname(os.path.realpath(__file__))))


class Fault(NamedTuple):
    """Text of a file of native_runs, what comes in its place, and tests of which some fail then."""

    file: str
    old: str
    new: str
    tests: List[str]


FAULTS: Dict[str, Fault] = {
    "an outcome is dropped": Fault("native.h", "#define OUTCOME(b) (*o++ = (b))", "#define OUTCOME(b) (*o = (b), o += jumps != 3)",
                                   ["Instructions.test_each_instruction_alone"]),
    "a jump back isn't counted": Fault("native.h", "#define JUMPS (++jumps)", "#define JUMPS (jumps += jumps != 3)",
                                       ["Instructions.test_each_instruction_alone"]),
    "a store is made twice": Fault("native.h", "ACCESS(v, CELL(c) = (e))", "ACCESS(v, CELL(c) = (e); CELL(c) = (e))",
                                   ["Instructions.test_object_code"]),
    "accesses aren't volatile": Fault("native.h", "static volatile int memory", "static int memory", ["Instructions.test_object_code"]),
    "a stop drops an instruction": Fault("native.h", "me->what = (what_); STOP(pc); }", "me->what = (what_); STOP((pc) - 1); }",
                                         ["Stopping.test_before_a_lock"]),
    "the second failure is on the path": Fault("native.h", "me->index)) STOP(pc_);", "me->index)) STOP((pc_) + 1);",
                                               ["Instructions.test_each_site_fails"]),
    "a fence is nothing": Fault("native.h", "#define FENCE EVENT; DRAIN", "#define FENCE EVENT; STBAR",
                                ["Instructions.test_what_drains", "Instructions.test_object_code"]),
    "an unlock is a plain store": Fault("native.h", "held &= ~(1ull << (m)); atomic_exchange(&mutexes[m].owner, 0); } while (0)\n#define SLEEP",
                                        "held &= ~(1ull << (m)); atomic_store_explicit(&mutexes[m].owner, 0, memory_order_release); } "
                                        "while (0)\n#define SLEEP",
                                        ["Instructions.test_what_drains"]),
    "a swap is two accesses": Fault("native.h", "(k) = __atomic_exchange_n(&CELL(c), (e), __ATOMIC_SEQ_CST)", "(k) = CELL(c); CELL(c) = (e)",
                                    ["Instructions.test_what_drains", "Instructions.test_what_no_run_breaks", "Instructions.test_object_code"]),
    "a join has no fence": Fault("native.h", "CLOSE_GATE(1) EVENT; DRAIN; AWAIT", "CLOSE_GATE(1) EVENT; AWAIT",
                                 ["Instructions.test_what_drains"]),
    "a signal has no fence": Fault("native.h", "EVENT; DRAIN; wake_one", "EVENT; wake_one", ["Instructions.test_what_drains"]),
    "a wait ends by itself": Fault("native.h", "(!(conds[c].waiting >> me->index & 1))",
                                   "(cycles() % 64 == 0 || !(conds[c].waiting >> me->index & 1))", ["Instructions.test_what_no_run_breaks"]),
    "a signal wakes all": Fault("native.h", "all & ~one)) return", "0)) return", ["Instructions.test_a_signal_wakes_one"]),
    "a cas gives what it stored": Fault("native.h", "(k) = seen; } while (0)", "(k) = seen == (e) ? (f) : seen; } while (0)",
                                        ["Instructions.test_each_instruction_alone"]),
    "a quotient is rounded down": Fault("known.py", "int32(abs(a) // abs(b) * (1 if (a < 0) == (b < 0) else -1))", "int32(a // b)",
                                        ["Instructions.test_operators_of_what_is_known"]),
    "parameters are known": Fault("known.py", 'elif word == "create":', 'elif word == "none":', ["Instructions.test_each_instruction_alone"]),
    "each run that hangs is a deadlock": Fault("native.h", "return is_each_blocked_or_exited() ? DEADLOCK : STILL;", "return DEADLOCK;",
                                               ["Deadlocks.test_a_livelock_is_none"]),
    "a deadlock is overlooked": Fault("native.h", "case 'j': return threads[it->what].how != EXITED;", "case 'j': return 0;",
                                      ["Deadlocks.test_each_kind"]),
    "a cut path is a log": Fault("log.py", "it.steps <= MOST_STEPS", "it.steps <= MOST_STEPS + 1", ["Limits.test_steps"]),
}


def planted(fault: Fault, folder: str) -> None:
    """Makes the copy in a folder."""
    shutil.copytree(f"{TOP}/tools/native_runs", f"{folder}/native_runs", ignore=shutil.ignore_patterns("__pycache__"))
    path = f"{folder}/native_runs/{fault.file}"
    with open(path, encoding="utf-8") as file:
        text = file.read()
    if text.count(fault.old) != 1:
        raise SystemExit(f"{fault.file} has {fault.old!r} {text.count(fault.old)} times: change the fault in {__file__}")
    with open(path, "w", encoding="utf-8") as file:
        file.write(text.replace(fault.old, fault.new))


def failing(fault: Fault, tests: List[str]) -> List[str]:
    """Those of some tests, as Class.test, that fail over the copy; all but those of the command if none are given. What must never happen is
    looked for longer than in a copy that is right, until it comes."""
    with tempfile.TemporaryDirectory() as folder:
        planted(fault, folder)
        ran = subprocess.run([sys.executable, f"{TOP}/tools/test_native.py", *(tests or ["Instructions", "Stopping", "Deadlocks", "Limits", "Logs"])],
                             stdout=subprocess.PIPE, stderr=subprocess.STDOUT, text=True, check=False, env={**os.environ, "NATIVE_TOOLS": folder, "NATIVE_SHORT": "20"})
    if not re.search(r"^Ran \d+ tests? in ", ran.stdout, re.M) or "ImportError" in ran.stdout:
        raise SystemExit(f"the tests don't run: {ran.stdout}")
    found = re.findall(r"^(?:FAIL|ERROR): (\w+) \(__main__\.(\w+)", ran.stdout, re.M)
    return sorted({f"{of}.{name}" for name, of in found})
