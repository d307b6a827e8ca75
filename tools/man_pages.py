#!/usr/bin/env python3
"""Makes manual pages: of each program from the table of its commands in hint.py, and clap_debug(5) and clap_debug(7) from docs/FORMATS.md
and docs/MESSAGES.md. ./install installs them.

usage: tools/man_pages.py FOLDER"""
from __future__ import annotations

import os
import re
import sys

TOP = os.path.dirname(os.path.dirname(os.path.realpath(__file__)))
sys.path.insert(0, f"{TOP}/tools")
import hint  # noqa: E402
from kept_files import Refused, keep, run_main  # noqa: E402

ABOUT = {
    "clap_debug": "record a failing run of a concurrent program, and reproduce it",
    "clap_debug_find": "look for a failure or a deadlock of a concurrent program without a run",
    "clap_debug_show": "show what a schedule or a log of a concurrent program did",
}
FROM_DOCS = {"clap_debug.5": ("docs/FORMATS.md", "commands and files of clap_debug"),
             "clap_debug.7": ("docs/MESSAGES.md", "what clap_debug prints, with its statuses")}


def escaped(text: str) -> str:
    """A text that has no signs of roff's own."""
    text = text.replace("\\", "\\e").replace("-", "\\-")
    return f"\\&{text}" if text.startswith((".", "'")) else text


def inline(text: str) -> str:
    """A piece of Markdown on one line: code and stressed words are bold, and of a link its words are left."""
    text = re.sub(r"!?\[([^\]]*)\]\([^)]*\)", r"\1", text)
    parts = re.split(r"(`[^`]*`|\*\*[^*]+\*\*)", text)
    made = "".join(f"\\fB{escaped(it.strip('`*'))}\\fR" if it[:1] in ("`", "*") and len(it) > 2 else escaped(it) for it in parts)
    return f"\\&{made}" if made.startswith((".", "'")) else made


def cells(line: str) -> list:
    """The cells of a line of a table."""
    return [it.strip().replace("\\|", "|") for it in re.split(r"(?<!\\)\|", line.strip().strip("|"))]


def table(rows: list) -> list:
    """A table as a list: the first cell of each row, and below it the others, each after its column's name."""
    head, made = cells(rows[0]), []
    for row in map(cells, rows[2:]):
        others = [f"{inline(name)}: {inline(it)}" if name and len(head) > 2 else inline(it) for name, it in zip(head[1:], row[1:]) if it]
        made += [".TP", inline(row[0]) or "\\&", "; ".join(others) or "\\&"]
    return made


def blocks_of(text: str) -> list:
    """The blocks of a page: of code, else lines up to an empty one, a heading alone."""
    blocks, is_code = [[]], False
    for line in text.split("\n"):
        if line.startswith("```"):
            is_code = not is_code
            blocks.append([line] if is_code else [])
        elif is_code:
            blocks[-1].append(line)
        elif not line.strip() or line.startswith("<!--"):
            blocks.append([])
        elif line.startswith("#"):
            blocks += [[line], []]
        else:
            blocks[-1].append(line)
    return [it for it in blocks if it]


def block(lines: list) -> list:
    """A block as lines of a manual page."""
    first = lines[0]
    if first.startswith("```"):
        return [".PP", ".nf", ".RS 4", *map(escaped, lines[1:]), ".RE", ".fi"]
    if first.startswith("#"):
        level, _, title = first.partition(" ")
        return [f"{'.SH' if len(level) == 2 else '.SS'} {inline(title)}"] if len(level) > 1 else []
    if first.startswith("|"):
        return table(lines)
    if re.match(r"(- |\d+\. )", first):
        return [it for line in lines for it in item(line)]
    return [".PP", *map(inline, lines)]


def item(line: str) -> list:
    """A line of a list, or one that goes on with the line before."""
    found = re.match(r"(- |\d+\. )(.*)", line)
    if not found:
        return [inline(line.strip())]
    sign = "\\(bu" if found[1] == "- " else found[1].strip()
    return [f".IP {sign} 4", inline(found[2])]


def head(name: str, section: str, about: str) -> list:
    return [f'.TH {name.upper()} {section} "" "clap_debug" ""', ".SH NAME", f"{name} \\- {escaped(about)}"]


def of_page(name: str, path: str, about: str) -> str:
    with open(f"{TOP}/{path}", encoding="utf-8") as file:
        made = [line for lines in blocks_of(file.read()) for line in block(lines)]
    # (what comes before the first heading is the page's own beginning)
    begin = [] if made[:1] and made[0].startswith(".SH") else [".SH DESCRIPTION"]
    return "\n".join([*head(*name.split("."), about), *begin, *made, ""])


def of_program(program: str) -> str:
    commands = hint.PROGRAMS[program]
    synopsis, described = [], []
    for name, command in commands.items():
        word = name if "" not in commands else ""
        usage = " ".join(filter(None, [word, command.usage()]))
        synopsis += [f"\\fB{program}\\fR {escaped(usage)}", ".br"]
        described += [".TP", f"\\fB{escaped(word or usage)}\\fR", escaped(command.what)]
        for option, it in command.options.items():
            low_high = f", {it.range[0]} to {it.range[1]}" if it.range else ""
            default = f"; {it.default} if left out" if it.default else ""
            described += [".RS", ".TP", f"\\fB{escaped(it.usage(option))}\\fR", escaped(f"{it.what}{low_high}{default}"), ".RE"]
    ending = [".SH SEE ALSO", *(f".BR {it} (1)," for it in ABOUT if it != program), ".BR clap_debug (5),", ".BR clap_debug (7)"]
    return "\n".join([*head(program, "1", ABOUT[program]), ".SH SYNOPSIS", *synopsis[:-1], ".SH DESCRIPTION", *described, *ending, ""])


def pages() -> dict:
    """The text of each page, by its name."""
    made = {f"{program}.1": of_program(program) for program in ABOUT}
    made.update({name: of_page(name, path, about) for name, (path, about) in FROM_DOCS.items()})
    return made


def main(words: list) -> None:
    if len(words) != 1 or words[0].startswith("-"):
        raise Refused("a word is wanted: the folder for the pages")
    os.makedirs(words[0], exist_ok=True)
    for name, text in pages().items():
        keep(os.path.join(words[0], name), text)


if __name__ == "__main__":
    run_main("man_pages.py", main)
