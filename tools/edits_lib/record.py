"""The record edits.tsv: which edits the prover refused, over which sources, and by which goals.

The sum of an edit is over what decides whether the prover refuses it: the edit; the functions that it changes, with their
contracts, their proof files, and the lemma files that these reach; src/ of the crate without bodies, and its specs/; and of
each crate below src/ without bodies, specs/ and the lemmas for callers. Comments are left out of all. An edit outside of
functions has all of its crate in its sum."""
import hashlib
import os
import re
import threading

from repository import read, without_comments
from rt_syntax import module_of, without_bodies

HEAD = "# Edits that the prover refused: edit, sum of the sources that decide it, goals that refused it. By tools/edits --write."
OLD = "\n# A row with - for its goals stands for an edit that the gate of 1 December 2026 refused."
CITED = re.compile(r"Rattle\.(\w+)\.proofs((?:\.[^\s.{}(),;]+)*)")


def sum_of(parts):
    return hashlib.sha256(repr(parts).encode()).hexdigest()[:32]


class Sums:
    """Makes the sums of edits, and keeps what several have in common."""

    def __init__(self, known):
        self.known, self.texts, self.contracts, self.stated = known, {}, {}, {}

    def text(self, crate, file):
        """A file of a crate without comments."""
        key = crate.name, file
        if key not in self.texts:
            self.texts[key] = without_comments(file, crate.read(file))
        return self.texts[key]

    def labelled(self, crate, files):
        return [(f"crates/{crate.name}/{it}", self.text(crate, it)) for it in sorted(set(files))]

    def contract(self, crate):
        """The sum of what a crate states: src/ without bodies, and specs/."""
        if crate.name not in self.contracts:
            code = self.labelled(crate, crate.files("src", ".rt"))
            stated = [(label, without_bodies(text)) for label, text in code]
            self.contracts[crate.name] = sum_of([*stated, *self.labelled(crate, crate.files("specs"))])
        return self.contracts[crate.name]

    def below(self, crate):
        """The sum of what the crates below state, with their lemmas for callers."""
        callers = lambda it: [file for file in it.files("proofs", ".antt") if file.startswith("proofs/CallerLemmas")]
        if crate.name not in self.stated:
            stated = [(it.name, self.contract(it), self.labelled(it, callers(it))) for it in crate.below]
            self.stated[crate.name] = sum_of(stated)
        return self.stated[crate.name]

    def cited(self, crate, text):
        """The lemma files that a text names, as (crate, file)."""
        text = re.sub(r"\b(\w+)::proofs::", lambda it: f"Rattle.{crate.name if it[1] == 'crate' else it[1]}.proofs.", text)
        found = set()
        for name, path in CITED.findall(text.replace("::", ".")):
            words = path.split(".")[1:]
            files = [f"proofs/{'/'.join(words[:count])}.antt" for count in range(len(words), 0, -1)] or ["proofs/Lib.antt"]
            of = self.known.get(name)
            there = next((it for it in files if of and os.path.isfile(f"{of.folder}/{it}")), None)
            if there:
                found.add((name, there))
        return found

    def lemmas(self, crate, texts):
        """The lemma files that texts of a crate reach, through others of this crate."""
        found, left = set(), list(texts)
        while left:
            new = self.cited(crate, left.pop()) - found
            found |= new
            left += [self.text(crate, file) for name, file in new if name == crate.name]
        return found

    def function(self, edit, place):
        """A function with its contract and attributes, its proof files, and the lemma files that these reach."""
        crate, function = edit.crate, place.function
        text = without_comments(place.file, "\n".join([function.header or "", function.head, function.body]))
        proofs = [it for it in crate.files("proofs", ".antt") if is_proof_of(it, place)]
        whole = "\n".join(self.text(crate, it) for it in (crate.root, place.file))
        tactics = re.findall(r"^#!\[.*?\]$", whole, re.M | re.S)
        lemmas = self.lemmas(crate, [text, *tactics, *(self.text(crate, it) for it in proofs)])
        proofs += [it for it in edit.texts if it.startswith("proofs/")]
        others = [(name, file, self.text(self.known[name], file)) for name, file in sorted(lemmas)]
        return text, self.labelled(crate, proofs), others

    def edit(self, edit):
        crate = edit.crate
        parts = [edit.text, self.contract(crate), self.below(crate)]
        if edit.outside or not edit.places:
            parts.append(self.labelled(crate, [it for part in ("src", "specs", "proofs") for it in crate.files(part)]))
        return sum_of([*parts, *(self.function(edit, it) for it in edit.places)])


def is_proof_of(file, place):
    """Whether a file of proofs/ stands in the folder of a function, of a closure in it, or of the cycle that it is in."""
    folders = file.split("/")[1:-1]
    if any(f"+{it}" in folders for it in re.findall(r"#\[cycle\((\w+)\)\]", place.function.head)):
        return True
    folders = [it.lstrip("+") for it in folders]
    module = [it for it in module_of(place.file).split("::") if it]
    for at, name in enumerate(folders):
        is_of_owner = at > 0 and folders[at - 1] == place.owner
        is_of_module = at >= len(module) and folders[: len(module)] == module
        if name == place.function.name and (is_of_owner if place.owner else is_of_module):
            return True
    return False


class Record:
    def __init__(self, path):
        self.path, self.lock, self.rows = path, threading.Lock(), {}
        for line in read(path).splitlines() if os.path.isfile(path) else []:
            if line and not line.startswith("#"):
                name, total, goals = line.split("\t")
                self.rows[name] = total, goals

    def has(self, name, total):
        return self.rows.get(name, (None,))[0] == total

    def keep(self, name, total, goals):
        """Sets the row of an edit that was refused by some goals, or removes that of one that wasn't."""
        with self.lock:
            self.rows.pop(name, None)
            if goals:
                self.rows[name] = total, ", ".join(goals)
            self.write()

    def drop_gone(self, names):
        with self.lock:
            self.rows = {it: row for it, row in self.rows.items() if it in names}
            self.write()

    def write(self):
        head = HEAD + (OLD if any(goals == "-" for _, goals in self.rows.values()) else "")
        lines = [head, *("\t".join([name, *row]) for name, row in sorted(self.rows.items()))]
        with open(f"{self.path}.new", "w", encoding="utf-8") as file:
            file.write("\n".join(lines) + "\n")
        os.replace(f"{self.path}.new", self.path)
