"""The repository as its tools see it: the crates of crates.txt with their tiers, the files of each, what these say, and
sums of them. tools/repository_test tests it on a small repository.

A line of crates.txt is a crate: `NAME: what it stands on`. A line `## TIER: TEXT` is a heading, and the crates below
it, up to the next heading, are of that tier; a tier may have several. No list of crates stands anywhere else.
"""
import functools
import hashlib
import itertools
import os
import re

import antt_syntax
import rt_syntax

TOP = os.path.dirname(os.path.dirname(os.path.realpath(__file__)))
# The tiers, lowest first. The product is the program and the library that users list, with all below these.
LIBRARY = ("library", "kernels")
PRODUCT = (*LIBRARY, "table", "program")
TIERS = (*PRODUCT, "examples", "benchmark", "tests")
# What is no source of a crate: what was built, and edits, which have a record of their own.
LEFT_OUT = ("out", "edits", "must-fail")


def read(path):
    with open(path, encoding="utf-8") as file:
        return file.read()


def write(path, text):
    with open(path, "w", encoding="utf-8") as file:
        file.write(text)


def files_below(folder, ends="", left_out=()):
    """The files in a folder and in those below it whose names end so, in order."""
    for at, folders, names in os.walk(folder):
        folders[:] = sorted(it for it in folders if it not in left_out)
        yield from (os.path.join(at, it) for it in sorted(names) if it.endswith(ends))


def without_comments(path, text):
    """The text of a file without its comments; that of a file of another kind as it is."""
    if path.endswith(".rt"):
        return rt_syntax.without_comments(text)
    return antt_syntax.without_comments(text) if path.endswith(".antt") else text


class Source:
    """A source file: its crate, its path in the folder of that, and from the top, and what it says."""

    def __init__(self, crate, file):
        self.crate, self.file, self.path = crate, file, f"crates/{crate.name}/{file}"

    @functools.cached_property
    def text(self):
        return self.crate.read(self.file)

    @functools.cached_property
    def lines(self):
        return self.text.splitlines()

    @functools.cached_property
    def bare(self):
        """The text without comments."""
        return without_comments(self.file, self.text)

    @functools.cached_property
    def functions(self):
        """The functions with their contracts; associated constants are left out."""
        return [it for it in rt_syntax.functions_of(self.text) if not it.is_constant]

    @functools.cached_property
    def declarations(self):
        """The types, traits and impls."""
        return rt_syntax.declarations_of(self.text)

    @functools.cached_property
    def clauses(self):
        return rt_syntax.clauses_of(self.text)

    @functools.cached_property
    def definitions(self):
        """The definitions of a file of specs/, the definitions and lemmas of one of proofs/."""
        return antt_syntax.definitions_of(self.text)

    def function_at(self, line):
        """The function in whose lines a line lies, or None."""
        return next((it for it in self.functions if it.first <= line <= it.last), None)


class Crate:
    """A crate: its name, its line of crates.txt, what it stands on, here and in the toolchain, and its tier."""

    def __init__(self, top, name, line, uses, tier):
        self.top, self.name, self.folder = top, name, f"{top}/crates/{name}"
        self.line, self.uses, self.tier = line, uses, tier

    def files(self, part, ends=""):
        """The files of one part of the crate, by their paths in its folder."""
        return [os.path.relpath(it, self.folder) for it in files_below(f"{self.folder}/{part}", ends)]

    def read(self, file):
        return read(f"{self.folder}/{file}")

    @functools.cached_property
    def code(self):
        """The files of src/."""
        return [Source(self, it) for it in self.files("src", ".rt")]

    @functools.cached_property
    def specs(self):
        return [Source(self, it) for it in self.files("specs", ".antt")]

    @functools.cached_property
    def proofs(self):
        return [Source(self, it) for it in self.files("proofs", ".antt")]

    @property
    def is_program(self):
        return os.path.isfile(f"{self.folder}/src/main.rt")

    @property
    def root(self):
        return "src/main.rt" if self.is_program else "src/lib.rt"

    @property
    def has_tests(self):
        return any(re.search(r"^\s*#\[test\]", it.text, re.M) for it in self.code)

    @property
    def about(self):
        """What the first paragraph of the comment at the head of the crate says."""
        lines = [it.removeprefix("//!").strip() if it.startswith("//!") else "" for it in self.read(self.root).splitlines()]
        return " ".join(itertools.takewhile(bool, lines))

    def sum(self):
        """A sum of the crate's line in crates.txt and of its files, but for comments, what was built, edits and manuals."""
        total = hashlib.sha256(self.line.encode())
        for path in files_below(self.folder, left_out=LEFT_OUT):
            if not path.endswith(".md"):
                with open(path, "rb") as file:
                    content = file.read()
                if path.endswith((".rt", ".antt")):
                    content = without_comments(path, content.decode()).encode()
                total.update(repr((os.path.relpath(path, self.top), content)).encode())
        return total.hexdigest()


class Section:
    """A heading of crates.txt: its tier, its text, and the crates below it."""

    def __init__(self, tier, text):
        self.tier, self.text, self.crates = tier, text, []


class Repository:
    """The crates of crates.txt by their names, in its order, and its headings."""

    def __init__(self, top=TOP):
        self.top, self.crates, self.sections = top, {}, []
        for line in read(f"{top}/crates.txt").splitlines():
            heading = re.match(r"## (\w+): (.*)", line)
            if heading:
                self.sections.append(Section(heading[1], heading[2].strip()))
            self.add(line.split("#")[0].strip())

    def add(self, line):
        head, _, uses = line.partition(":")
        if line:
            name = head.split()[0]
            tier = self.sections[-1].tier if self.sections else None
            self.crates[name] = Crate(self.top, name, line, uses.split(), tier)
            if self.sections:
                self.sections[-1].crates.append(self.crates[name])

    def of(self, *tiers):
        """The crates of some tiers, in the order of crates.txt."""
        return [it for it in self.crates.values() if it.tier in tiers]

    def below(self, names):
        """The names of these crates and of all of the repository below them, lowest first."""
        found = []

        def add(name):
            for use in self.crates[name].uses:
                if use in self.crates and use not in found:
                    add(use)
            if name not in found:
                found.append(name)

        for name in names:
            add(name)
        return found

    def needs(self, names):
        """Of each of these crates those of them that it lists and that no other of those which it lists stands on."""
        reach = {it: set(self.below([it])) - {it} for it in names}
        own = {it: [use for use in self.crates[it].uses if use in reach] for it in names}
        return {it: [use for use in uses if not any(use in reach[other] for other in uses)] for it, uses in own.items()}

    def product(self):
        """The names of the crates of the product."""
        return [it.name for it in self.of(*PRODUCT)]

    def roots(self):
        """The names of the crates of the product on which no other of it stands."""
        used = {use for it in self.of(*PRODUCT) for use in it.uses}
        return [it for it in self.product() if it not in used]

    def sources(self):
        """All source files of all crates."""
        return [it for crate in self.crates.values() for it in [*crate.code, *crate.specs, *crate.proofs]]
