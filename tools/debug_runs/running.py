"""Runs commands side by side, each for a limited time, and leaves none behind."""
import asyncio
import math
import os
import resource
import signal
import subprocess
import tempfile
import time
from typing import List, NamedTuple, Optional

# How much longer a command may take by the clock than of the processor, on a machine with other work.
CLOCK_FACTOR = 3
POLL_SECONDS = 0.01
LONGEST_POLL = 0.05


class Done(NamedTuple):
    """What became of a command: the folder that it ran in, its status, or None where its time ended first, what it printed, and its
    seconds: of the processor, and by the clock."""

    folder: str
    status: Optional[int]
    out: str
    errors: str
    used: float
    seconds: float

    @property
    def line(self) -> str:
        """The first line that it printed."""
        return (self.out.splitlines() or [""])[0]


def kill(process: "subprocess.Popen[bytes]") -> None:
    """Ends a command that is still running, with all that it has started."""
    if process.returncode is None:
        try:
            os.killpg(process.pid, signal.SIGKILL)
        except ProcessLookupError:
            pass
        process.wait()


def ended(process: "subprocess.Popen[bytes]") -> Optional[float]:
    """The seconds of the processor that a command has used, if it has ended."""
    found, status, usage = os.wait4(process.pid, os.WNOHANG)
    if found == 0:
        return None
    process.returncode = os.WEXITSTATUS(status) if os.WIFEXITED(status) else -os.WTERMSIG(status)
    return usage.ru_utime + usage.ru_stime


async def run(words: List[str], folder: str, seconds: float) -> Done:
    """Runs a command in a folder, in a group of its own, for so many seconds of the processor, and at most thrice as long by the clock.
    It is killed too where this is cancelled."""
    start = time.monotonic()
    with tempfile.TemporaryFile() as out, tempfile.TemporaryFile() as errors:
        # (Without a step of the loop between its start and `try`, a cancellation can't leave the process behind.)
        process = subprocess.Popen(words, cwd=folder, stdin=subprocess.DEVNULL, stdout=out, stderr=errors, start_new_session=True)
        try:
            limit(process, seconds)
            used, pause = ended(process), POLL_SECONDS
            while used is None and time.monotonic() - start < seconds * CLOCK_FACTOR:
                await asyncio.sleep(pause)
                used, pause = ended(process), min(pause * 1.5, LONGEST_POLL)
        finally:
            kill(process)
        status = None if used is None or process.returncode == -signal.SIGXCPU else process.returncode
        return Done(folder, status, text_of(out), text_of(errors), used or seconds, time.monotonic() - start)


def limit(process: "subprocess.Popen[bytes]", seconds: float) -> None:
    """Has the system end the process after so many seconds of the processor, even where nobody is left to kill it."""
    soft = math.ceil(max(seconds, 1.0))
    try:
        resource.prlimit(process.pid, resource.RLIMIT_CPU, (soft, soft + 1))
    except (ProcessLookupError, PermissionError):
        pass


def text_of(file: "tempfile._TemporaryFileWrapper[bytes]") -> str:
    file.seek(0)
    return file.read().decode("utf-8", "replace")
