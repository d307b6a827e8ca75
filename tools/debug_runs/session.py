"""What each question needs."""
from typing import List, NamedTuple

from .folder import Folder
from .programs import Programs
from .source import Source


class Session(NamedTuple):
    """The programs, the folder with the program that is asked about, how long a question may take, and what to do where that isn't
    enough."""

    programs: Programs
    folder: Folder
    source: Source
    seconds: float
    longer: str

    def solve(self, log: str, out: str, model: str) -> List[str]:
        return [self.programs.clap_debug, "solve", self.source.program, log, out, "--model", model]
