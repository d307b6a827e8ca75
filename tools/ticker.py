"""ticker.py PROGRAM PID WORD..: says on standard error, every few seconds, how long the process PID of the program has worked with these
words; of a check also how far its last input is read. Ends as soon as its standard input does: tools/run leaves the other end to the
program. How many conflicts a search has met, and how many logs it has gone through, can't be seen from outside."""
from __future__ import annotations

import os
import select
import sys
import time

sys.path.insert(0, os.path.dirname(os.path.realpath(__file__)))
import hint  # noqa: E402

CHECKS = ("check", "why")


def last_input(program: str, words: list) -> str | None:
    """The file that a check reads piece by piece."""
    command, plain, options = hint.split(program, words)
    is_check = words[:1] and words[0] in CHECKS or any(name == "check" for name, _ in options)
    return plain[-1] if command and is_check and plain else None


def read_so_far(pid: int, name: str) -> str:
    """How much of a file a process has read, in percent, if the system says it."""
    try:
        size = os.stat(name).st_size
        for number in os.listdir(f"/proc/{pid}/fd"):
            if size and os.path.samefile(f"/proc/{pid}/fd/{number}", name):
                with open(f"/proc/{pid}/fdinfo/{number}", encoding="ascii") as file:
                    return f", {100 * int(file.readline().split()[1]) // size} % of {name} read"
    except (OSError, ValueError, IndexError):
        pass
    return ""


def pause(passed: float) -> int:
    """How many seconds pass before the next line."""
    return 5 if passed < 30 else 10 if passed < 120 else 60


def main(program: str, pid: int, words: list) -> None:
    started, name = time.monotonic(), last_input(program, words)
    while not select.select([0], [], [], pause(time.monotonic() - started))[0]:
        seconds = round(time.monotonic() - started)
        print(f"{program}: working for {seconds} seconds{read_so_far(pid, name) if name else ''}", file=sys.stderr, flush=True)


if __name__ == "__main__":
    try:
        main(sys.argv[1], int(sys.argv[2]), sys.argv[3:])
    except (KeyboardInterrupt, OSError):
        pass
