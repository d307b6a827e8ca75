"""Files that scripts write, and how scripts end.

A script names the files that it reads and writes before any work (`refuse_clashes`), writes each by `keep`, and is run by `run_main`:

    def main(words: List[str]) -> int:
        given = parsed(words)
        refuse_clashes([given.program], [given.out])
        ...
        keep(given.out, text)
        return 0

    if __name__ == "__main__":
        run_main("seeds", main)

So no output is written over an input, a full disk or a stop leaves the old file whole, and a script that can't go on says why in
one line and ends with a status that isn't 1."""
import contextlib
import errno
import os
import shutil
import signal
import stat
import sys
import tempfile
import traceback
from typing import BinaryIO, Callable, Iterable, List, NoReturn, Optional, Tuple, Union

# The statuses of a script that didn't do its work: words or files that can't be used, a fault, and standard output without a reader.
REFUSED, FAILED, UNREAD = 2, 125, 128 + signal.SIGPIPE
# What can be written: bytes, a text, or the parts of a text, which are taken one by one.
Data = Union[str, bytes, Iterable[str]]
# Where nothing new can be made in a folder, or not under a longer name.
NO_NEW_FILE = (errno.EACCES, errno.EPERM, errno.EROFS, errno.ENAMETOOLONG)


class Refused(Exception):
    """Why a script doesn't go on: what is wrong, where, and what to do about it, in one line."""

    def __init__(self, line: str, status: int = REFUSED) -> None:
        super().__init__(line)
        self.status = status


class Ended(BaseException):
    """A signal asks the script to end. (As with KeyboardInterrupt, no handler of faults takes it.)"""

    def __init__(self, number: int) -> None:
        super().__init__(number)
        self.number = number


# Names.


def is_one_file(one: str, other: str) -> bool:
    """Whether two names are of one file, also through links; of files that don't exist yet, whether they have one place."""
    try:
        return os.path.samefile(one, other)
    except OSError:
        return os.path.realpath(one) == os.path.realpath(other)


def keeps_nothing(name: str) -> bool:
    """Whether the name is of a device or a pipe, such as /dev/null: nothing in it can be lost."""
    try:
        mode = os.stat(name).st_mode
    except OSError:
        return False
    return not stat.S_ISREG(mode) and not stat.S_ISDIR(mode)


def refuse_clashes(inputs: Iterable[Optional[str]], outputs: Iterable[Optional[str]]) -> None:
    """Refuses an output that is one of the inputs or another output. A None stands for a name that wasn't given."""
    read = [name for name in inputs if name is not None]
    written: List[str] = []
    for out in outputs:
        if out is None or keeps_nothing(out):
            continue
        if any(is_one_file(out, name) for name in read):
            raise Refused(f"{out} would be written over, and is an input; give the output another name")
        if any(is_one_file(out, name) for name in written):
            raise Refused(f"{out} would be written twice; give each output a name of its own")
        written.append(out)


# Writing.


def keep(path: str, data: Data) -> None:
    """Puts the data under a name, instead of what it has. They are written beside it and renamed, so that a full disk or a stop
    leaves the old file whole; or in place, where a rename can't be made or would change more than the bytes."""
    target = os.path.realpath(path)
    try:
        if stays_in_place(path, target) or not write_beside(target, data):
            with open(path, "wb") as file:
                write(file, data)
    except OSError as fault:
        raise Refused(f"{path} can't be written: {fault.strerror or fault}") from None


def write(file: BinaryIO, data: Data) -> None:
    if isinstance(data, bytes):
        file.write(data)
    else:
        file.writelines(part.encode("utf-8") for part in ([data] if isinstance(data, str) else data))


def stays_in_place(path: str, target: str) -> bool:
    """Whether a rename would change more than the bytes of a file: of a device, a pipe, an open file of this process, or one with
    several names. A file that can't be written is left to its opening, which says why."""
    if os.path.abspath(path).startswith(("/dev/", "/proc/")) or os.path.islink(target):
        return True
    try:
        found = os.stat(target)
    except OSError:
        return False
    return not stat.S_ISREG(found.st_mode) or found.st_nlink > 1 or not os.access(target, os.W_OK)


def write_beside(target: str, data: Data) -> bool:
    """Writes a new file in the target's folder and renames it; False where nothing like the target can be made there. A fault after
    that is raised, once the new file is removed."""
    folder, name = os.path.split(target)
    try:
        handle, new = tempfile.mkstemp(prefix=f"{name}.new-", dir=folder)
    except OSError as fault:
        if fault.errno in NO_NEW_FILE:
            return False
        raise
    try:
        with open(handle, "wb") as file:
            if not becomes_like(target, file.fileno()):
                return False
            write(file, data)
            file.flush()
            os.fsync(file.fileno())
        move(new, target)
    finally:
        # (it has its new name by now, if all went well)
        with contextlib.suppress(FileNotFoundError):
            os.unlink(new)
    return True


def becomes_like(target: str, handle: int) -> bool:
    """Gives a new file the permissions of the target, or of any new file; False where their owners or groups differ."""
    try:
        old, new = os.stat(target), os.fstat(handle)
    except FileNotFoundError:
        mask = os.umask(0)
        os.umask(mask)
        os.fchmod(handle, 0o666 & ~mask)
        return True
    os.fchmod(handle, stat.S_IMODE(old.st_mode))
    return (old.st_uid, old.st_gid) == (new.st_uid, new.st_gid)


def move(new: str, target: str) -> None:
    """Renames; where that can't be done, as over a file that is mounted by itself, it copies."""
    try:
        os.replace(new, target)
    except OSError:
        shutil.copyfile(new, target)


# Ends.


def run_main(name: str, main: Callable[[List[str]], Optional[int]]) -> NoReturn:
    """Runs a script on the words of its call, and ends with its status. Where it fails or is stopped, a line on standard error says
    why, and the status isn't 1."""
    for number in (signal.SIGTERM, signal.SIGHUP):
        if signal.getsignal(number) == signal.SIG_DFL:
            signal.signal(number, raise_ended)
    try:
        status = status_of(main)
        flush()
    except BaseException as fault:
        status = told(name, fault)
    sys.exit(status)


def status_of(main: Callable[[List[str]], Optional[int]]) -> int:
    """The status that a script ends with by itself."""
    try:
        return main(sys.argv[1:]) or 0
    except SystemExit as end:
        if isinstance(end.code, str):
            raise Refused(end.code) from None
        return end.code or 0


def raise_ended(number: int, _: object) -> None:
    raise Ended(number)


def flush() -> None:
    if sys.stdout:
        sys.stdout.flush()


def told(name: str, fault: BaseException) -> int:
    """Says on standard error why a script ends, and gives its status. From here on no signal disturbs it."""
    for number in (signal.SIGINT, signal.SIGTERM, signal.SIGHUP):
        signal.signal(number, signal.SIG_IGN)
    try:
        flush()
    except OSError:
        # What is left has no reader or no room, and Python would try to write it again at its end.
        os.dup2(os.open(os.devnull, os.O_WRONLY), 1)
    line, status = reason(fault)
    if line and sys.stderr:
        with contextlib.suppress(OSError):
            print(f"{name}: {line}", file=sys.stderr, flush=True)
    return status


def reason(fault: BaseException) -> Tuple[str, int]:
    """The line of a fault, and its status."""
    if isinstance(fault, Refused):
        return str(fault), fault.status
    if isinstance(fault, KeyboardInterrupt):
        return "stopped", 128 + signal.SIGINT
    if isinstance(fault, Ended):
        return f"stopped by {signal.Signals(fault.number).name}", 128 + fault.number
    if isinstance(fault, BrokenPipeError):
        return "", UNREAD
    if isinstance(fault, MemoryError):
        return "out of memory", FAILED
    if isinstance(fault, OSError):
        # (a full disk without a name is that of standard output, since `keep` names its own)
        where = fault.filename or ("standard output" if fault.errno == errno.ENOSPC else "")
        return f"{where}{': ' if where else ''}{fault.strerror or fault}", FAILED
    place = traceback.extract_tb(fault.__traceback__)[-1]
    said = " ".join(f"{type(fault).__name__}: {fault}".split())
    return f"a fault of this script, at {os.path.basename(place.filename)} line {place.lineno}: {said}", FAILED


def end_in_a_line(_: object, fault: BaseException, __: object) -> NoReturn:
    """For what is raised outside of `run_main`, such as a stop while modules are still imported."""
    os._exit(told(os.path.basename(sys.argv[0]), fault))


if sys.argv and sys.argv[0] not in ("", "-c"):
    sys.excepthook = end_in_a_line
