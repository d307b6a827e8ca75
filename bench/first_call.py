#!/usr/bin/env python3
"""Times a newcomer's first calls in a fresh clone, with nothing kept: ./clap_debug without a proof, and once more.

  bench/first_call.py                    on all processors
  bench/first_call.py --processors 2     on the first two alone
  bench/first_call.py --prove            then ./prove, and a call of the proved program; on a machine on which nothing else runs

Wants root. It works on a clone of the last commit, with caches of its own and an empty folder in the place of what a kit may
keep, which isn't touched. At the end it says what of the time the host of the machine took for itself."""
import argparse, os, resource, signal, subprocess, sys, tempfile, threading, time

from kept_files import run_main

STORE = "/opt/rattle-kept"
TOP = os.path.dirname(os.path.dirname(os.path.abspath(__file__)))
UNSHARED = "unshare --mount --pid --fork --kill-child --mount-proc sh -c".split()
HIDDEN = f'mount --make-rprivate / && mount --bind "$1" {STORE} && shift && exec "$@"'


def clock(seconds):
    return f"{int(seconds) // 60}:{int(seconds) % 60:02}"


def ticks():
    """How long the processors worked, and how long the host kept them from it, in ticks."""
    with open("/proc/stat", encoding="utf-8") as it:
        user, nice, system, _, _, irq, soft, steal = map(int, it.readline().split()[1:9])
    return user + nice + system + irq + soft, steal


class Watch:
    def __init__(self):
        self.start, self.taken, self.is_over = time.monotonic(), 0, threading.Event()

    def say(self, text):
        print(clock(time.monotonic() - self.start), text, flush=True)

    def look(self):
        """Sums what the host takes."""
        before = time.monotonic(), *ticks()
        while not self.is_over.wait(5):
            now = time.monotonic(), *ticks()
            passed, worked, stolen = (b - a for a, b in zip(before, now))
            self.taken, before = self.taken + passed * stolen / max(worked + stolen, 1), now


def call(watch, words, clone, kept, env):
    """Runs the words in the clone, and says each line as it comes, and how long all took."""
    start, used = time.monotonic(), resource.getrusage(resource.RUSAGE_CHILDREN)
    ran = subprocess.Popen([*UNSHARED, HIDDEN, "", kept, *words], cwd=clone, env=env, stdout=subprocess.PIPE, stderr=subprocess.STDOUT, text=True)
    try:
        for line in ran.stdout:
            watch.say(line.rstrip())
        status = ran.wait()
    finally:
        # (where it is broken off, with all that it has started)
        ran.kill()
    now = resource.getrusage(resource.RUSAGE_CHILDREN)
    worked = sum(getattr(now, it) - getattr(used, it) for it in ("ru_utime", "ru_stime"))
    watch.say(f"{' '.join(words)}: {clock(time.monotonic() - start)} by the clock, {worked / 60:.1f} processor minutes, status {status}")
    return status


def main():
    words = argparse.ArgumentParser(description=__doc__, formatter_class=argparse.RawDescriptionHelpFormatter)
    words.add_argument("--processors", type=int, default=os.cpu_count(), metavar="N")
    words.add_argument("--prove", action="store_true")
    given = words.parse_args()
    os.sched_setaffinity(0, range(given.processors))
    signal.signal(signal.SIGTERM, lambda *_: sys.exit(128 + signal.SIGTERM))
    first = ["./clap_debug", "solve", "examples/buffering/p.tc", "examples/buffering/p.log", "p.sched"]
    calls = [first, first, ["./clap_debug", "--version"]]
    if given.prove:
        calls += [["./prove"], first, calls[-1]]
    with tempfile.TemporaryDirectory(prefix="first-call-") as room:
        os.chmod(room, 0o711)
        clone, kept, home = f"{room}/clone", f"{room}/kept", f"{room}/home"
        for it in (kept, home, STORE):
            os.makedirs(it, exist_ok=True)
        subprocess.run(["git", "clone", "-q", TOP, clone], check=True)
        env = {name: it for name, it in os.environ.items() if name != "TMPDIR"} | {"HOME": home, "XDG_CACHE_HOME": f"{home}/.cache"}
        watch = Watch()
        looking = threading.Thread(target=watch.look)
        looking.start()
        try:
            statuses = [call(watch, it, clone, kept, env) for it in calls]
        finally:
            watch.is_over.set()
            looking.join()
    print(f"on {given.processors} processors; the host took {clock(watch.taken)}")
    return max(statuses)


if __name__ == "__main__":
    run_main("first_call.py", lambda _: main())
