"""Whether an old failure, of which there is a log, is still possible: under each model by `solve`, whose refutation is checked."""
import hashlib
import re
import subprocess
from typing import Optional, Tuple

from .answers import Old, Run
from .faults import Refused
from .programs import ask
from .reproduce import Impossible, Misfit, reproduce
from .session import Session

SIGN = b"CLPL"
DIGEST = slice(7, 39)
FAULTY = re.compile(r"log refused: form at |limit log-bytes ")
FORMAT_WITH_DIGEST = b"\x00\x02"


def carried(log: bytes, text: bytes) -> Tuple[bytes, bool]:
    """The log with the digest of this program, and whether it had that of another one. Its steps and outcomes stay."""
    digest = hashlib.sha256(text).digest()
    if log[4:6] != FORMAT_WITH_DIGEST or log[DIGEST] == digest:
        return log, False
    return log[: DIGEST.start] + digest + log[DIGEST.stop :], True


def read(path: str) -> bytes:
    try:
        with open(path, "rb") as file:
            content = file.read()
    except OSError as fault:
        raise Refused(f"{path} can't be read: {fault.strerror}") from None
    if not content.startswith(SIGN):
        raise Refused(f"{path} is no log; --log takes one that record, clap_debug_find or ./debug has kept")
    return content


class OldLog:
    """A log in the folder, as one of this program."""

    def __init__(self, session: Session, path: str) -> None:
        self.session = session
        content, self.is_of_another = carried(read(path), session.source.text)
        self.name = session.folder.keep_bytes(f"{session.source.name}.old.log", content)
        line = self.refusal()
        if line and FAULTY.match(line):
            raise Refused(f"{path} is no whole log ({line}): it was cut or changed")

    def refusal(self) -> Optional[str]:
        """The line with which clap_debug_show refuses the log, if it does."""
        asked = [self.session.programs.show, self.session.source.program, self.name]
        done = subprocess.run(asked, cwd=self.session.folder.path, stdout=subprocess.PIPE, text=True, check=False)
        line = done.stdout.partition("\n")[0]
        return line if line.startswith(("log refused: ", "limit ")) else None

    async def under(self, model: str) -> Old:
        """What `solve` says of it."""
        stem = f"{self.session.source.name}.{model}.old"
        came = await reproduce(self.session, self.name, model, stem)
        if isinstance(came, Run):
            return Old(model, "possible", "is still possible", came.page, came)
        if isinstance(came, Impossible):
            return Old(model, "impossible", "is impossible", await self.checked(came, stem))
        if isinstance(came, Misfit):
            return Old(model, "none", came.line)
        return Old(model, "open", f"isn't decided: {came.why}: {came.cure}")

    async def checked(self, refuted: Impossible, stem: str) -> str:
        """Keeps a refutation that `check` accepts."""
        folder, programs = self.session.folder, self.session.programs
        await ask([programs.clap_debug, "check", self.session.source.program, self.name, refuted.name], "accepted, impossible", folder.path)
        return folder.keep_as(refuted.name, f"{stem}.refutation")
