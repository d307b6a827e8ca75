#!/usr/bin/env python3
"""The programs of this checkout: which of them are built from the sources as they are, proved or not. The scripts before the programs use
it, and scripts that run a program many times.

Whether a program is built from the sources as they are, their content says: out/NAME.sources keeps the digest of what out/NAME was built
from. To read all sources takes a while, so out/NAME.seen keeps the last digest beside the times and sizes of all files and folders, and
they are read again only where one of these differs. (Each call of a program waits for this, so nothing dear is imported.)"""
from __future__ import annotations

import os
import sys

TOP = os.path.dirname(os.path.dirname(os.path.realpath(__file__)))
OUT = os.path.join(TOP, "out")
CRATES = os.path.join(TOP, "crates")
PROGRAMS = ("clap_debug", "clap_debug_find", "clap_debug_show")
CACHE = os.path.join(os.environ.get("XDG_CACHE_HOME") or os.path.expanduser("~/.cache"), "clap_debug")
NO_SOURCES = ("out", "must-fail")
KIT = "/opt/rattle/bin"


def is_checkout() -> bool:
    """Whether the sources are here. ./install leaves programs without them."""
    return os.path.isfile(os.path.join(TOP, "crates.txt"))


def crates(programs) -> list[str]:
    """The crates that these programs depend on, lowest first, and the programs' own."""
    below = {}
    with open(os.path.join(TOP, "crates.txt"), encoding="utf-8") as lines:
        for line in lines:
            name, colon, others = line.partition("#")[0].partition(":")
            if colon:
                below[name.split()[0]] = others.split()
    found = {}

    def visit(name):
        if name in below and name not in found:
            for other in below[name]:
                visit(other)
            found[name] = True

    for name in programs:
        visit(name)
    return list(found)


def files_below(folder: str):
    """The files and folders that a proof reads, each folder before what is in it."""
    yield folder
    with os.scandir(folder) as entries:
        for entry in sorted(entries, key=lambda it: it.name):
            if entry.name in NO_SOURCES:
                continue
            if entry.is_dir():
                yield from files_below(entry.path)
            else:
                yield entry.path


def sources(program: str) -> list:
    """The files and folders that a program's proof reads, by their names in the checkout."""
    folders = [os.path.join(CRATES, crate) for crate in crates([program])]
    return ["crates.txt", *(os.path.relpath(path, TOP) for folder in folders for path in files_below(folder))]


def text_of(path: str) -> str:
    """The text of a small file, or nothing where it can't be read."""
    try:
        with open(path, encoding="utf-8") as file:
            return file.read().strip()
    except (OSError, ValueError):
        return ""


def write(path: str, text: str) -> None:
    """Keeps a small file, where the checkout can be written; what it says is found anew otherwise."""
    beside = f"{path}.{os.getpid()}"
    try:
        os.makedirs(os.path.dirname(path), exist_ok=True)
        with open(beside, "w", encoding="utf-8") as file:
            file.write(f"{text}\n")
        os.replace(beside, path)
    except OSError:
        pass


def times_of(name: str) -> str:
    """When a file or folder was changed, and its size."""
    it = os.stat(f"{TOP}/{name}")
    return f"{it.st_mtime_ns} {it.st_ctime_ns} {it.st_size}"


def content(names: list) -> str:
    """A digest of the names of files and what is in them."""
    import hashlib
    sums = hashlib.sha256()
    for name in names:
        path = os.path.join(TOP, name)
        if name != "crates.txt" and not os.path.isdir(path):
            with open(path, "rb") as file:
                sums.update(f"{hashlib.sha256(file.read()).hexdigest()} {name}\n".encode())
    return sums.hexdigest()[:16]


def is_as_seen(lines: list) -> bool:
    """Whether files and folders have the times and sizes of these lines."""
    try:
        return all(line.startswith(f"{times_of(line[line.rindex(' ') + 1:])} ") for line in lines)
    except OSError:
        return False


def digest(program: str) -> str:
    """The digest of a program's sources as they are; of an installed program, of those that it was built from."""
    if not is_checkout():
        return text_of(os.path.join(OUT, f"{program}.sources")) or text_of(os.path.join(OUT, f"{program}.unproved.sources"))
    seen = os.path.join(OUT, f"{program}.seen")
    known, *lines = text_of(seen).splitlines() or [""]
    if lines and is_as_seen(lines):
        return known
    names = sources(program)
    lines = [f"{times_of(name)} {name}" for name in names]
    found = content(names)
    write(seen, "\n".join([found, *lines]))
    return found


def keep(made: str, name: str, of: str) -> str:
    """Puts a program that was made into out/ under a name, as that of sources with this digest."""
    import shutil
    path = os.path.join(OUT, name)
    os.makedirs(OUT, exist_ok=True)
    write(f"{path}.sources", "")
    shutil.copy(made, f"{path}.{os.getpid()}")
    os.replace(f"{path}.{os.getpid()}", path)
    write(f"{path}.sources", of)
    return path


def is_program(path: str) -> bool:
    return os.path.isfile(path) and os.access(path, os.X_OK)


def is_current(name: str, now: str) -> bool:
    """Whether the program that out/ has under a name is that of sources with this digest."""
    path = os.path.join(OUT, name)
    return is_program(path) and (text_of(f"{path}.sources") == now or not is_checkout())


def by_gate(program: str, now: str) -> str | None:
    """The program that a gate has left in its crate's folder, if no source is newer. A copy of it is kept, with the digest."""
    left = os.path.join(CRATES, program, "out", program)
    if not is_program(left):
        return None
    made = os.stat(left).st_mtime_ns
    files = (path for path in (os.path.join(TOP, it) for it in sources(program)[1:]) if not os.path.isdir(path))
    if any(os.stat(path).st_mtime_ns > made for path in files):
        return None
    try:
        return keep(left, program, now)
    except OSError:
        return left


def find(program: str):
    """The program of this name that is built from the sources as they are, proved if it can be, and whether it is; or nothing."""
    now = digest(program)
    if is_current(program, now):
        return os.path.join(OUT, program), True
    left = by_gate(program, now) if is_checkout() else None
    if left:
        return left, True
    if is_current(f"{program}.unproved", now):
        return os.path.join(OUT, f"{program}.unproved"), False
    return None, False


def proved(program: str) -> str | None:
    """The proved program of this name, as ./prove or a gate left it, if no source has changed since."""
    path, is_proved = find(program)
    return path if is_proved else None


def built(program: str) -> str | None:
    """The program of this name that is built from the sources as they are, proved or not. CLAP_DEBUG may name another one than this
    checkout's, and so on for other names."""
    return os.environ.get(program.upper()) or find(program)[0]


def kit() -> str | None:
    """The folder of the kit's commands: that of `rt` on the path, or else where the kit lies mostly."""
    for folder in [*os.environ.get("PATH", "").split(os.pathsep), KIT]:
        if folder and is_program(os.path.join(folder, "rt")):
            return folder
    return None


def use_kit() -> bool:
    """Puts the kit's commands on the path, and says whether there are any."""
    folder = kit()
    if folder and folder not in os.environ.get("PATH", "").split(os.pathsep):
        os.environ["PATH"] = os.pathsep.join(filter(None, [os.environ.get("PATH", ""), folder]))
    return folder is not None


def no_program() -> str:
    """Why an installed program can't be found, and what to do."""
    return f"there is no program in {OUT}; install it again"


def build(program: str) -> str:
    """The program of this name, built first where it isn't. Where it can't be built, that was said, and the caller ends with 125."""
    found = built(program)
    if found is None and is_checkout():
        import build as builder
        builder.main([])
        found = built(program)
    elif found is None:
        print(f"{program}: {no_program()}", file=sys.stderr)
    if found is None:
        sys.exit(125)
    return found


def main(words: list) -> None:
    """Prints where a built program is, and builds it first where it isn't."""
    from kept_files import Refused
    if len(words) != 1 or words[0] not in PROGRAMS:
        raise Refused(f"a word is wanted, one of {', '.join(PROGRAMS)}")
    print(build(words[0]))


if __name__ == "__main__":
    from kept_files import run_main
    run_main("built.py", main)
