"""From a C file to clang's tree of it, in which each node has its place."""
import json
import os
import re
import subprocess
from typing import Any, Dict, List, Optional, Tuple

from .refusal import Place, Refusal, Refusals

INCLUDE = os.path.join(os.path.dirname(os.path.abspath(__file__)), "include")
STRICT = ["implicit-function-declaration", "int-conversion", "incompatible-pointer-types", "return-type", "implicit-int"]
DIAGNOSTIC = re.compile(r"^(.+?):(\d+):(\d+): (?:fatal )?error: (.*)$", re.M)
Json = Dict[str, Any]


def headers() -> List[str]:
    """The headers that are known."""
    return sorted(os.path.relpath(os.path.join(folder, name), INCLUDE) for folder, _, names in os.walk(INCLUDE) for name in names)


def run_clang(words: List[str]) -> "subprocess.CompletedProcess[str]":
    try:
        return subprocess.run(["clang", "-std=gnu11", "-fsyntax-only", *(f"-Werror={it}" for it in STRICT), *words],
                              capture_output=True, text=True, check=False)
    except FileNotFoundError:
        raise Refusal(None, "there is no clang", "install it, as by apt-get install clang") from None


def refuse_diagnostics(text: str) -> None:
    faults: List[Refusal] = []
    for file, line, column, said in DIAGNOSTIC.findall(text):
        advice = "clang has to take the file first"
        if "file not found" in said:
            advice = f"of the system's headers only these are known: {', '.join(headers())}"
        faults.append(Refusal(Place(file, int(line), int(column)), said, advice))
    if not faults:
        raise Refusal(None, "clang refuses the file", text.strip().splitlines()[-1] if text.strip() else "it doesn't say why")
    raise Refusals(faults)


def parsed(path: str, defines: List[str], is_checked: bool = False) -> Json:
    """The tree of a C file. Clang first compiles it with the system's headers where that isn't known to succeed."""
    try:
        with open(path, encoding="utf-8") as file:
            file.read()
    except (OSError, UnicodeDecodeError) as fault:
        raise Refusal(None, f"{path} can't be read", str(getattr(fault, "strerror", None) or "it is no text in UTF-8")) from None
    done = run_clang(["-w", "-nostdinc", "-isystem", INCLUDE, *defines, "-Xclang", "-ast-dump=json", path])
    if done.returncode:
        refuse_diagnostics(done.stderr)
    if not is_checked:
        checked = run_clang([*defines, path])
        if checked.returncode:
            refuse_diagnostics(checked.stderr)
    tree = json.loads(done.stdout)
    Locations(path).carry_on(tree)
    return tree


class Locations:
    """Gives each location of the tree its file and line, which clang leaves out where they are those of the one before."""

    def __init__(self, file: str) -> None:
        self.file, self.line = file, 1

    def carry_on(self, node: Any) -> None:
        waiting: List[Any] = [node]
        while waiting:
            each = waiting.pop()
            if isinstance(each, dict):
                if "offset" in each:
                    self.file, self.line = each.setdefault("file", self.file), each.setdefault("line", self.line)
                waiting += reversed(list(each.values()))
            elif isinstance(each, list):
                waiting += reversed(each)


def place_of(location: Json) -> Optional[Place]:
    """A location's place in the file: of an argument of a macro where it is written, else in a macro where that is used."""
    where = location.get("expansionLoc", location)
    if where.get("isMacroArgExpansion"):
        where = location["spellingLoc"]
    return Place(where["file"], where["line"], where["col"]) if "offset" in where else None


def line_of_include(file: str, header: str) -> Optional[int]:
    """The line of a file that includes a header, itself or by another one."""
    with open(file, encoding="utf-8") as lines:
        for number, line in enumerate(lines, 1):
            found = re.match(r'\s*#\s*include\s*"(.+)"', line)
            path = os.path.join(os.path.dirname(file), found[1]) if found else ""
            if os.path.isfile(path) and (os.path.samefile(path, header) or line_of_include(path, header)):
                return number
    return None


class Sources:
    """The texts of a file and of what it includes."""

    def __init__(self) -> None:
        self.texts: Dict[str, bytes] = {}

    def between(self, begin: Json, end: Json) -> str:
        """The text from a token to another one, where these are written; in a macro, in its definition."""
        first, last = begin.get("spellingLoc", begin), end.get("spellingLoc", end)
        if not os.path.isfile(first.get("file", "")) or first["file"] != last.get("file"):
            return ""
        if first["file"] not in self.texts:
            with open(first["file"], "rb") as file:
                self.texts[first["file"]] = file.read()
        return self.texts[first["file"]][first["offset"] : last["offset"] + last["tokLen"]].decode()


def sides(node: Json) -> Tuple[Json, Json]:
    """Where a node begins and ends."""
    return node.get("range", {}).get("begin", {}), node.get("range", {}).get("end", {})
