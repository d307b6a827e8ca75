"""The folder that results are kept in: made by ./debug, or empty before, and else left as it is."""
import fcntl
import glob
import os
import shutil
import tempfile
from typing import Iterable, List

from kept_files import Data, keep

from .faults import Refused

MARK = ".made-by-debug"
SCRATCH = ".new-"
OTHER = "name another folder with --out"


class Folder:
    """A folder with a mark, which lists the files that were made in it. A file is written in a scratch folder and then renamed, so
    that one of its name is there as a whole or not at all, and no link of its name is followed."""

    def __init__(self, path: str, inputs: Iterable[str]) -> None:
        self.path = path
        self.made: List[str] = []
        self.refuse_inputs(inputs)
        try:
            os.makedirs(path, exist_ok=True)
            self.lock = os.open(path, os.O_RDONLY | os.O_DIRECTORY)
            self.claim()
            self.scratch = tempfile.mkdtemp(prefix=SCRATCH, dir=path)
        except OSError as fault:
            raise Refused(f"{path} can't be used for the results: {fault.strerror}; {OTHER}") from None
        try:
            self.note()
        except BaseException:
            self.close()
            raise

    def refuse_inputs(self, inputs: Iterable[str]) -> None:
        """Refuses inputs that lie in the folder, also by a link. (Of one with a second name elsewhere nothing is lost.)"""
        here = os.path.realpath(self.path)
        for name in inputs:
            if os.path.realpath(name).startswith(os.path.join(here, "")):
                raise Refused(f"{name} lies in {self.path}, where the results go; {OTHER}")

    def claim(self) -> None:
        """Makes the folder ours, without what an earlier call made there."""
        mark = os.path.join(self.path, MARK)
        if os.listdir(self.path) and not is_mark(mark):
            raise Refused(f"{self.path} has files that ./debug didn't make; {OTHER}")
        try:
            fcntl.flock(self.lock, fcntl.LOCK_EX | fcntl.LOCK_NB)
        except BlockingIOError:
            raise Refused(f"another ./debug is writing to {self.path}; {OTHER}") from None
        for name in earlier(mark):
            if os.path.isfile(os.path.join(self.path, name)):
                os.remove(os.path.join(self.path, name))
        for name in glob.glob(os.path.join(glob.escape(self.path), f"{SCRATCH}*")):
            shutil.rmtree(name, ignore_errors=True)

    def note(self) -> None:
        """Writes the mark."""
        self.write(MARK, "".join(f"{it}\n" for it in self.made))
        self.rename(MARK)

    def write(self, name: str, content: Data) -> None:
        """Writes the draft of this name."""
        keep(os.path.join(self.scratch, name), content)

    def rename(self, name: str) -> None:
        """Gives a draft its place."""
        os.replace(os.path.join(self.scratch, name), os.path.join(self.path, name))

    def draft(self, name: str) -> str:
        """Where a file of this name is to be written first, as seen from the folder."""
        return os.path.join(os.path.basename(self.scratch), name)

    def has_draft(self, name: str) -> bool:
        return os.path.exists(os.path.join(self.scratch, name))

    def keep(self, name: str) -> str:
        """Keeps the draft of this name, and gives the name back."""
        if name not in self.made:
            self.made.append(name)
            self.note()
        self.rename(name)
        return name

    def keep_as(self, draft: str, name: str) -> str:
        """Keeps a draft under another name, and gives this back."""
        os.replace(os.path.join(self.path, draft), os.path.join(self.scratch, name))
        return self.keep(name)

    def keep_bytes(self, name: str, content: bytes) -> str:
        self.write(name, content)
        return self.keep(name)

    def file(self, name: str) -> str:
        return os.path.join(self.path, name)

    def close(self) -> None:
        shutil.rmtree(self.scratch, ignore_errors=True)
        os.close(self.lock)


def is_mark(path: str) -> bool:
    """Whether a mark is here: a file and no link, which could be of anything."""
    return os.path.isfile(path) and not os.path.islink(path)


def earlier(mark: str) -> List[str]:
    """The names that a mark lists, without any that leads out of the folder."""
    if not is_mark(mark):
        return []
    with open(mark, encoding="utf-8") as file:
        names = file.read().splitlines()
    return [it for it in names if it and os.path.basename(it) == it and it not in (".", "..")]
