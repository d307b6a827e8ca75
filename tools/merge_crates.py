#!/usr/bin/env python3
"""Makes a crate a module of another one, and mends everything that names it: crates.txt, Rust, definitions, proofs, edits, pages.

    tools/merge_crates.py CRATE INTO

What `INTO` is afterwards is to be proved again, with all crates above it. Run `rt fmt` in its folder, look at pages that speak of the crate as
one, and make docs/CRATES.md anew (tools/crates_page)."""
import os
import re
import shutil
import subprocess
import sys
from typing import Callable, Dict, Iterator, List

sys.path.insert(0, os.path.dirname(os.path.realpath(__file__)))
from kept_files import Refused, run_main  # noqa: E402

TOP = os.path.dirname(os.path.dirname(os.path.realpath(__file__)))


def read(path: str) -> str:
    with open(path, encoding="utf-8") as file:
        return file.read()


def write(path: str, text: str) -> None:
    os.makedirs(os.path.dirname(path) or ".", exist_ok=True)
    with open(path, "w", encoding="utf-8") as file:
        file.write(text)


def files_below(folder: str) -> Iterator[str]:
    """The files of a folder, without what rt leaves in out/."""
    for path, folders, names in os.walk(folder):
        folders[:] = [it for it in folders if it != "out"]
        yield from (f"{path}/{name}" for name in names)


class Merge:
    """A crate that becomes the module of its name in another one."""

    def __init__(self, crate: str, into: str) -> None:
        self.crate, self.into = crate, into
        self.old, self.new = f"crates/{crate}", f"crates/{into}"
        self.moved: List[str] = []

    def move(self, kind: str, root: str, change: Callable[[str], str]) -> None:
        """Moves a folder of the crate: what its root file was, the module's file is."""
        for path in files_below(f"{self.old}/{kind}"):
            inner = os.path.relpath(path, f"{self.old}/{kind}")
            ending = os.path.splitext(root)[1]
            to = f"{self.new}/{kind}/{self.crate}" + (ending if inner == root else f"/{inner}")
            write(to, change(read(path)))
            self.moved.append(to)

    def in_module(self, text: str) -> str:
        """Rust of the crate, in the module."""
        text = text.replace("#![tactic(auto)]\n", "")
        text = re.sub(r"\bcrate::proofs::", f"crate::proofs::{self.crate}::", text)
        return re.sub(r"\bcrate::(?!proofs::)", f"crate::{self.crate}::", text)

    def declare(self) -> None:
        """Names the module in the root files of the other crate. (That of proofs names no module that Rust has.)"""
        for kind in ("specs", "proofs"):
            if os.path.isfile(f"{self.new}/{kind}/{self.crate}.antt"):
                path = f"{self.new}/{kind}/Lib.antt"
                text = read(path) if os.path.isfile(path) else ""
                passed = rf"^pub use Rattle\.{self.crate}\.{kind}( as {self.crate})?\n"
                own = f"pub mod {self.crate}\n" if kind == "specs" else ""
                write(path, re.sub(passed, "", text, flags=re.M) + own)
        path = f"{self.new}/src/lib.rt"
        text = read(path)
        first = re.search(r"^(pub )?mod ", text, flags=re.M)
        at = first.start() if first else len(text)
        write(path, f"{text[:at]}pub mod {self.crate};\n{text[at:]}")

    def edit(self, text: str) -> str:
        """An edit of the crate, as one of the module."""
        text = re.sub(r"^file: src/(?!lib\.rt$)", f"file: src/{self.crate}/", text, flags=re.M)
        text = re.sub(r"^file: src/lib\.rt$", f"file: src/{self.crate}.rt", text, flags=re.M)
        return re.sub(r"^file: (specs|proofs)/", rf"file: \1/{self.crate}/", text, flags=re.M)

    def move_edits(self, old: str, new: str) -> None:
        for path in files_below(old):
            write(f"{new}/{os.path.basename(path)}", self.edit(read(path)))
        shutil.rmtree(old, ignore_errors=True)

    def names(self, path: str, text: str) -> str:
        """A source with the crate's definitions, proofs and Rust under their new names."""
        crate, into = self.crate, self.into
        text = re.sub(rf"\bRattle\.{crate}\.specs\.declared\b", f"Rattle.{into}.specs.declared.{crate}", text)
        text = re.sub(rf"\bRattle\.{crate}\.(specs|proofs)\b", rf"Rattle.{into}.\1.{crate}", text)
        if not path.endswith(".rt"):
            return text
        if path in self.moved:
            return re.sub(rf"(?<![\w:]){into}::", "crate::", text)
        return re.sub(rf"(?<![\w:]){crate}::", f"{'crate' if path.startswith(f'{self.new}/') else into}::{crate}::", text)

    def rename(self) -> None:
        for path in list(files_below("crates")):
            if path.endswith((".rt", ".antt")):
                text = read(path)
                if self.names(path, text) != text:
                    write(path, self.names(path, text))

    def depend(self) -> None:
        """Rewrites crates.txt: what the crate used, the other one uses, and who used it uses the other one."""
        lines = read("crates.txt").split("\n")
        below: Dict[str, List[str]] = {m[1]: m[2].split() for m in (re.match(r"(\w+):(.*)$", it) for it in lines) if m}
        out = []
        for line in lines:
            name = line.partition(":")[0]
            if name not in below:
                out.append(line)
            elif name != self.crate:
                used = below[name] + (below[self.crate] if name == self.into else [])
                used = list(dict.fromkeys(self.into if it == self.crate else it for it in used))
                out.append(" ".join([f"{name}:", *(it for it in used if it != name)]))
        write("crates.txt", "\n".join(out))

    def page(self, path: str, text: str) -> str:
        text = text.replace(f"crates/{self.crate}/src/lib.rt", f"crates/{self.into}/src/{self.crate}.rt")
        text = text.replace(f"crates/{self.crate}/src/", f"crates/{self.into}/src/{self.crate}/")
        text = re.sub(rf"\b{self.crate}/(specs|proofs)/", rf"{self.into}/\1/{self.crate}/", text)
        return re.sub(rf"^\| `{self.crate}`:", f"| `{self.into}`:", text, flags=re.M) if path == "bench/edits/README.md" else text

    def rewrite_pages(self) -> None:
        listed = subprocess.run(["git", "ls-files", "*.md", "bench/*.py", "tools/*.py"], stdout=subprocess.PIPE, text=True, check=True)
        for path in listed.stdout.split():
            if os.path.isfile(path) and not path.startswith("crates/"):
                text = read(path)
                if self.page(path, text) != text:
                    write(path, self.page(path, text))

    def make(self) -> None:
        self.move("src", "lib.rt", self.in_module)
        self.move("specs", "Lib.antt", str)
        self.move("proofs", "Lib.antt", str)
        self.declare()
        self.move_edits(f"{self.old}/must-fail", f"{self.new}/must-fail")
        self.move_edits(f"bench/edits/{self.crate}", f"bench/edits/{self.into}")
        shutil.rmtree(self.old)
        self.rename()
        self.depend()
        self.rewrite_pages()


def main(words: List[str]) -> int:
    os.chdir(TOP)
    if len(set(words)) != 2 or not all(os.path.isfile(f"crates/{it}/src/lib.rt") for it in words):
        raise Refused("give two libraries of crates/: CRATE INTO")
    crate, into = words
    Merge(crate, into).make()
    print(f"{crate} is a module of {into}: run rt fmt there, and prove it")
    return 0


if __name__ == "__main__":
    run_main("merge_crates", main)
