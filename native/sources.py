#!/usr/bin/env python3
"""What a program is made of: the crates of its repository, and the digests of what it is built from.

    python3 native/sources.py CRATE            prints the digest for a proved build of the program
                                               in this folder, and that for a native one
    python3 native/sources.py --crates CRATE   prints of how many crates of its repository it is made

A digest is of the program's crate and those below it, of their lines of crates.txt, and of the
toolchain; that for a native build is also of the scripts that make it. So a build stays good while
other crates of the repository change.
"""
import hashlib
import subprocess
import sys
from pathlib import Path

HERE = Path(__file__).resolve().parent
# What makes native builds.
MAKERS = ("build", "cases.py", "library", "sources.py", "toolchain.py")
PARTS = ("src", "specs", "proofs")
SOURCES = (".rt", ".antt")


class Missing(Exception):
    """What isn't there of a program, in one line."""


class Program:
    """A program's crate, or a static library's, in its repository: the nearest folder above it that
    has a crates.txt."""

    def __init__(self, folder, root="main.rt"):
        self.folder = Path(folder).resolve()
        self.name = self.folder.name
        if not (self.folder / "src" / root).is_file():
            raise Missing(f"{folder} is no crate of what is wanted: it has no src/{root}")
        above = [top for top in self.folder.parents if (top / "crates.txt").is_file()]
        if not above:
            raise Missing(f"no folder above {folder} has a crates.txt")
        self.top = above[0]
        self.lines = lines_of((self.top / "crates.txt").read_text())
        if self.name not in self.lines:
            raise Missing(f"{self.top / 'crates.txt'} has no line for {self.name}")

    def crates(self):
        """The crates of the repository of which the program is made, lowest first."""
        found = []

        def visit(name):
            if name in self.lines and name not in found:
                for below in self.lines[name].partition(":")[2].split():
                    visit(below)
                found.append(name)

        visit(self.name)
        return found

    def crate_folder(self, name):
        """Where a crate of the repository stands."""
        inner = self.top / "crates" / name
        return inner if inner.is_dir() else self.top / name

    def files(self):
        """Each source of these crates."""
        for name in self.crates():
            for part in PARTS:
                for path in sorted((self.crate_folder(name) / part).rglob("*")):
                    if path.suffix in SOURCES and path.is_file():
                        yield path

    def digests(self):
        """What a proved build of the program is known by, and what a native one is."""
        sums = hashlib.sha256(toolchain_line().encode())
        for name in self.crates():
            sums.update(f"{self.lines[name]}\n".encode())
        for path in self.files():
            add_file(sums, path.relative_to(self.top), path)
        proved = sums.hexdigest()
        for name in MAKERS:
            add_file(sums, name, HERE / name)
        return proved, sums.hexdigest()


def lines_of(text):
    """The line of each crate of a crates.txt, without comments, by its name."""
    lines = (" ".join(line.partition("#")[0].split()) for line in text.splitlines())
    return {line.replace(":", " ").split()[0]: line for line in lines if line}


def add_file(sums, name, path):
    """Adds a file to a digest, under this name."""
    data = path.read_bytes()
    sums.update(f"{name} {len(data)}\n".encode() + data)


def sum_of(path):
    """The digest of a file."""
    return hashlib.sha256(path.read_bytes()).hexdigest()


def toolchain_line():
    """What `rt version` says."""
    try:
        said = subprocess.run(["rt", "version"], stdin=subprocess.DEVNULL, capture_output=True)
    except OSError:
        raise Missing("there is no `rt` on the PATH: the toolchain has it")
    if said.returncode != 0:
        raise Missing(f"`rt version` fails: {said.stderr.decode(errors='replace').strip()}")
    return said.stdout.decode().strip()


def main():
    words = sys.argv[1:]
    counts = words[:1] == ["--crates"]
    if len(words) != 1 + counts or words[-1].startswith("-"):
        print(__doc__.strip())
        return 0 if words in (["-h"], ["--help"]) else 1
    try:
        program = Program(words[-1])
        print(*([len(program.crates())] if counts else program.digests()), sep="\n")
    except (Missing, OSError) as missing:
        print(f"sources.py: {missing}", file=sys.stderr)
        return 1
    return 0


if __name__ == "__main__":
    sys.exit(main())
