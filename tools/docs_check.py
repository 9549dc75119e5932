#!/usr/bin/env python3
"""Checks of README.md and docs/ what can be checked, and ends with 1 where something isn't so.

    docs_check.py [--program PATH]

It prints a line for each finding. A finding is:

- a link to a file or a heading that isn't there;
- a name in backquotes with a path (`docs/STATUS.md`, `dg_io/specs/Pieces.antt`, `src/`) that is no file or
  folder at the top, in crates/, in a crate or beside the document, and a bare name of a file
  (`Pieces.antt`) that no file has. Paths with a folder `out` or a word in capitals are passed over;
- under a heading that is the name of a crate, in a table: a name in the first column that isn't in the
  crate's src/, a small one as a function; and elsewhere under it a name that is in no crate;
- in a table whose last column is headed `File`: a name in the first column that is in none of the files;
- a line of more than 600 characters;
- a transcript that isn't what the program does.

A transcript is a fenced block. The frames of a block ```script have to be answered with the block
```replies behind it. In a block ```terminal a line `$ COMMAND` is run at the top, the lines behind a
prompt of the shell are typed, and the others are what comes back, where a line of three dots stands for
any lines. It needs Python 3.9 or later, and the built program.
"""

from __future__ import annotations

import argparse
import fnmatch
import os
import re
import shlex
import subprocess
import sys
from collections.abc import Iterator, Sequence
from dataclasses import dataclass
from functools import cached_property, partial
from pathlib import Path
from typing import Optional

TOP = Path(__file__).resolve().parent.parent
MOST = 600
SECONDS = 60
FENCE = re.compile(r"\s*```(.*)")
CODE = re.compile(r"`([^`]+)`")
LINK = re.compile(r"\]\(([^)\s]+)\)")
PATH = re.compile(r"[\w.*-]+(?:/[\w.*-]+)*/?")
FILE = re.compile(r"[\w*][\w.*-]*\.(?:antt|rt|md|py|dgs|script|expected|replies|edit|txt)")
NAME = re.compile(r"[A-Za-z_]\w*(?:::[A-Za-z_]\w*)*")
PROMPT = re.compile(r"(?:dgraph>| {3}\.\.\.>)(?: (.*))?$")
ANY = "..."


@dataclass(frozen=True)
class Block:
    """A fenced block: the number of its first line, what stands behind the fence, and its lines."""

    number: int
    info: str
    lines: list[str]


class Document:
    """A document: all its lines, the same with blank ones in the place of code, and its fenced blocks."""

    def __init__(self, path: Path) -> None:
        self.path = path
        self.all = path.read_text(encoding="utf-8").split("\n")
        self.lines: list[str] = []
        self.blocks: list[Block] = []
        block: Optional[Block] = None
        for number, line in enumerate(self.all, 1):
            fence = FENCE.fullmatch(line)
            if fence:
                block = Block(number + 1, fence[1].strip(), []) if block is None else None
                self.blocks.extend([block] if block else [])
            elif block:
                block.lines.append(line)
            self.lines.append("" if block or fence or line.startswith("    ") else line)

    @cached_property
    def slugs(self) -> set[str]:
        """The names by which links reach the headings."""
        headings = [line.lstrip("#").strip() for line in self.lines if line.startswith("#")]
        return {re.sub(r"[^\w\- ]", "", heading.lower()).replace(" ", "-") for heading in headings}

    def found(self, pattern: re.Pattern[str]) -> Iterator[tuple[int, str]]:
        """What a pattern finds in the prose, each with the number of its line. A find may go over lines."""
        text = "\n".join(self.lines)
        for match in pattern.finditer(text):
            yield text.count("\n", 0, match.start()) + 1, match[1].replace("\n", " ")


def cells_of(line: str) -> list[str]:
    """The cells of a row of a table; none where the line is no row."""
    if not line.startswith("|"):
        return []
    return [cell.strip() for cell in re.split(r"(?<!\\)\|", line)[1:-1]]


def names_in(text: str) -> list[str]:
    """The names in backquotes."""
    return [code for code in CODE.findall(text) if NAME.fullmatch(code)]


class Tree:
    """The files of a repository, and the words in them."""

    def __init__(self, top: Path) -> None:
        self.top = top
        self.crates = sorted(path for path in (top / "crates").glob("*") if path.is_dir())
        self._texts: dict[tuple[str, ...], str] = {}

    @cached_property
    def file_names(self) -> set[str]:
        """The names of all files that aren't generated."""
        names = set()
        for _, folders, files in os.walk(self.top):
            folders[:] = [folder for folder in folders if folder not in ("out", ".git")]
            names.update(files)
        return names

    def has_path(self, name: str, beside: Path) -> bool:
        """Whether a file or folder has this name, from one of the folders that documents speak from."""
        folders = [self.top, self.top / "crates", beside, *self.crates]
        return any(next(folder.glob(name.rstrip("/")), None) is not None for folder in folders)

    def text_of(self, *folders: str) -> str:
        """All that stands in the sources below these folders."""
        if folders not in self._texts:
            paths = [path for folder in folders for path in sorted(self.top.glob(folder))]
            self._texts[folders] = "\n".join(path.read_text(encoding="utf-8") for path in paths)
        return self._texts[folders]

    def declares(self, crate: str, name: str) -> bool:
        """Whether each part of a name is in the src/ of a crate, the small ones as functions."""
        text = self.text_of(f"crates/{crate}/src/**/*.rt")
        parts = name.split("::")
        return all(re.search(rf"\bfn {p}\b" if p.islower() else rf"\b{p}\b", text) for p in parts)

    def is_known(self, name: str) -> bool:
        """Whether each part of a name is a word in some crate."""
        text = self.text_of("crates/*/src/**/*.rt", "crates/*/specs/**/*.antt")
        return all(re.search(rf"\b{part}\b", text) for part in name.split("::"))


class Checker:
    """Goes through the documents, and gathers what it finds."""

    def __init__(self, top: Path, program: Path, seconds: float = SECONDS) -> None:
        self.tree = Tree(top.resolve())
        self.program = program.resolve()
        self.seconds = seconds
        self.findings: list[str] = []
        paths = [self.tree.top / "README.md", *sorted((self.tree.top / "docs").glob("*.md"))]
        self.documents = {path: Document(path) for path in paths}

    def say(self, document: Document, number: int, finding: str) -> None:
        self.findings.append(f"{document.path.relative_to(self.tree.top)}:{number}: {finding}")

    def check(self) -> list[str]:
        """All findings."""
        is_built = self.program.is_file()
        if not is_built:
            self.findings.append(f"{self.program} isn't built (README.md says how): no transcript was checked")
        for document in self.documents.values():
            self.check_lengths(document)
            self.check_links(document)
            self.check_paths(document)
            self.check_tables(document)
            if is_built:
                self.check_transcripts(document)
        return self.findings

    def check_lengths(self, document: Document) -> None:
        for number, line in enumerate(document.all, 1):
            if len(line) > MOST:
                self.say(document, number, f"a line of {len(line)} characters; {MOST} are the most")

    def check_links(self, document: Document) -> None:
        for number, target in document.found(LINK):
            name, _, heading = target.partition("#")
            if "://" in name:
                continue
            path = (document.path.parent / name).resolve() if name else document.path
            other = self.documents.get(path)
            if not path.exists():
                self.say(document, number, f"a link to {name}, which isn't there")
            elif heading and (other is None or heading not in other.slugs):
                self.say(document, number, f"a link to the heading #{heading}, which isn't there")

    def check_paths(self, document: Document) -> None:
        for number, code in document.found(CODE):
            for word in code.split():
                is_free = any(part == "out" or part.isupper() for part in word.split("/"))
                if "/" not in word or is_free or not PATH.fullmatch(word):
                    continue
                if not self.tree.has_path(word, document.path.parent):
                    self.say(document, number, f"`{word}` is no file or folder")
            if FILE.fullmatch(code) and not fnmatch.filter(self.tree.file_names, code):
                self.say(document, number, f"no file is named `{code}`")

    def check_tables(self, document: Document) -> None:
        crate, heads = "", [""]
        for number, line in enumerate(document.lines, 1):
            if line.startswith("#"):
                title = line.lstrip("#").strip()
                crate = title if (self.tree.top / "crates" / title / "src").is_dir() else ""
            cells = cells_of(line)
            heads = (heads if any(heads) else cells) if cells else [""]
            if cells and heads[-1] == "File" and cells != heads:
                self.check_owner(document, number, cells)
            elif crate:
                self.check_row(document, number, crate, cells, line)

    def check_row(self, document: Document, number: int, crate: str, cells: list[str], line: str) -> None:
        calls = names_in(cells[0]) if cells else []
        for name in calls:
            if not self.tree.declares(crate, name):
                self.say(document, number, f"`{name}` isn't in the src/ of {crate}")
        for name in names_in(line):
            if name not in calls and not self.tree.is_known(name):
                self.say(document, number, f"`{name}` is in no crate")

    def check_owner(self, document: Document, number: int, cells: list[str]) -> None:
        folder, files = Path(), []
        for code in CODE.findall(cells[-1]):
            folder = Path(code).parent if "/" in code else folder
            files.append(f"crates/{folder / Path(code).name}")
        for file in files:
            if not (self.tree.top / file).is_file():
                self.say(document, number, f"{file} is no file")
        text = self.tree.text_of(*files)
        for name in names_in(cells[0]):
            if not re.search(rf"\b{name}\b", text):
                self.say(document, number, f"`{name}` is in none of {', '.join(files)}")

    def check_transcripts(self, document: Document) -> None:
        run = [str(self.program), "run"]
        for block, behind in zip(document.blocks, [*document.blocks[1:], Block(0, "", [])]):
            if block.info == "script":
                wanted = behind.lines if behind.info == "replies" else ["(no replies stand behind the script)"]
                self.check_command(document, block.number, run, "\n".join([*block.lines, ""]), wanted)
            for command, typed, wanted in commands_of(block):
                self.check_command(document, block.number, command, typed, wanted)

    def check_command(self, document: Document, number: int, words: list[str], typed: str, wanted: list[str]) -> None:
        """Runs a command, which has to write the lines that are wanted, and to end well."""
        command = [sys.executable, "-B", *words[1:]] if words[0] == "python3" else words
        say = partial(self.say, document, number)
        top = self.tree.top
        try:
            done = subprocess.run(command, input=typed.encode(), capture_output=True, cwd=top, timeout=self.seconds)
        except (OSError, subprocess.TimeoutExpired) as fault:
            say(f"`{shlex.join(words)}` can't be run to its end: {fault}")
            return
        written = done.stdout.decode("utf-8", "replace")
        if not re.fullmatch(pattern_of(wanted), written):
            first = next(n for n in range(len(wanted), -1, -1) if re.match(pattern_of(wanted[:n]), written))
            missing = repr(wanted[first]) if first < len(wanted) else "the end of the transcript"
            say(f"`{shlex.join(words)}` writes something else where the transcript has {missing}")
        if done.returncode:
            say(f"`{shlex.join(words)}` ended with status {done.returncode}")


def commands_of(block: Block) -> Iterator[tuple[list[str], str, list[str]]]:
    """The commands of a block of a terminal, each with what is typed and what comes back."""
    if block.info != "terminal":
        return
    starts = [at for at, line in enumerate(block.lines) if line.startswith("$ ")]
    for start, end in zip(starts, [*starts[1:], len(block.lines)]):
        typed, wanted = "", []
        for line in block.lines[start + 1 : end]:
            prompt = PROMPT.fullmatch(line)
            if prompt:
                typed += f"{prompt[1] or ''}\n"
            else:
                wanted.append(line)
        yield shlex.split(block.lines[start][2:]), typed, wanted


def pattern_of(lines: Sequence[str]) -> str:
    """A pattern of these lines, where three dots stand for any lines."""
    return "".join("(?:.*\n)*?" if line == ANY else re.escape(line) + "\n" for line in lines)


def main(words: Optional[Sequence[str]] = None) -> int:
    """Does what the words say, and answers the status to end with."""
    parser = argparse.ArgumentParser(description=(__doc__ or "").split("\n")[0])
    parser.add_argument("--program", type=Path, metavar="PATH", default=TOP / "crates" / "dgraph" / "out" / "dgraph")
    checker = Checker(TOP, parser.parse_args(words).program)
    findings = checker.check()
    for finding in findings:
        print(finding)
    print(f"docs: {len(checker.documents)} documents, {len(findings)} findings")
    return 1 if findings else 0


if __name__ == "__main__":
    sys.exit(main())
