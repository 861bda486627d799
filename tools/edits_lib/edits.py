"""Edits as they are read: what they replace, in which functions, and whether they change a body at all."""
import os
import re

from repository import files_below, without_comments
from rt_syntax import functions_of, items_of, module_of, without_functions

from .names import name_of, owner_of


class Place:
    """A function that an edit changes: its file, and the names that a check gives it. The names are guessed by its source,
    and set anew if a check has other ones."""

    def __init__(self, crate, file, function):
        self.file, self.function = file, function
        self.owner = owner_of(function.header)[0] if function.header else None
        self.names = [name_of(crate.name, file, function, crate.home)]
        around = (crate.name, module_of(file), "fn", self.owner, function.name)
        self.inside = "".join(f"{it}::" for it in around if it)

    def has(self, name):
        """Whether a check's name is that of the function, or of a closure in it."""
        return name in self.names or name.startswith(self.inside)


class Edit:
    """A file of texts and what replaces them. `said` is what is to be reported of it, once that is known; `goals` are those
    that refuse it."""

    def __init__(self, crate, path):
        self.crate, self.path = crate, path
        self.name = f"{crate.name}/{os.path.basename(path)[: -len('.edit')]}"
        with open(path, encoding="utf-8") as file:
            self.text = file.read()
        self.said, self.goals, self.is_recorded = None, [], False
        self.is_of_whole = False
        self.texts = {}
        self.pairs, fault = self.read_pairs()
        self.places, self.outside = ([], []) if fault else self.find_places()
        idle = None if fault else self.idle()
        if fault:
            self.said = f"can't be applied: {fault}"
        elif idle:
            self.said = f"no wrong body: it changes {idle}"

    def read_pairs(self):
        """The replacements as (file, old, new), or why the edit can't be applied. Sets `texts`: by file the old and the new."""
        file = old = None
        pairs = []
        for line in self.text.splitlines():
            word, _, rest = line.partition(":")
            rest = rest[1:] if rest.startswith(" ") else rest
            if word == "file":
                file = rest.strip()
                if not os.path.isfile(f"{self.crate.folder}/{file}"):
                    return [], f"there is no file {file}"
                text = self.crate.read(file)
                self.texts.setdefault(file, (text, text))
            elif word == "old":
                old = rest
            elif word == "new":
                if not file or not old:
                    return [], "a line 'new:' stands before 'file:' or 'old:'"
                before, now = self.texts[file]
                if now.count(old) != 1:
                    return [], f"its text is in {file} {now.count(old)} times, not once: {old.strip()}"
                self.texts[file] = before, now.replace(old, rest)
                pairs.append((file, old, rest))
                old = None
        return pairs, None if pairs else "it has no lines 'old:' and 'new:'"

    def find_places(self):
        """The functions that the replacements are in, and what is replaced outside of any, as (file, line). What a proof file
        or specs/ has is in neither, nor what only another replacement puts there."""
        places, outside = [], []
        for file, old, _ in self.pairs:
            text = self.texts[file][0]
            if not file.startswith("src/") or old not in text:
                continue
            line = text[: text.index(old)].count("\n") + 1
            inside = [it for it in functions_of(text) if it.first <= line <= it.last]
            if not inside:
                outside.append((file, line))
            elif not any(it.file == file and it.function.is_same(inside[0]) for it in places):
                places.append(Place(self.crate, file, inside[0]))
        return places, outside

    def idle(self):
        """What the edit changes instead of a body or another piece of code; None if it changes code."""
        kinds = []
        for file, texts in self.texts.items():
            before, now = (without_comments(file, it) for it in texts)
            if before == now:
                kinds += ["comments"] if texts[0] != texts[1] else []
            elif file.startswith(("specs/", "proofs/")):
                kinds.append("specs/" if file.startswith("specs/") else "a proof")
            elif code_of(before) == code_of(now):
                kinds.append("a contract")
            else:
                return None
        kinds = [it for it in dict.fromkeys(kinds) if it != "comments"] or kinds[:1]
        return f"only {' and '.join(kinds)}" if kinds else "nothing"

    def keys(self):
        """The functions that it changes; None for an edit outside of functions, which is tried alone."""
        return {(it.file, it.function.first) for it in self.places} if self.places and not self.outside else None

    def names(self):
        """What a check is to be asked for: the functions that the edit changes, and those that name what it changes outside
        of any; None if that has no name, or `is_of_whole` is set, so that the whole crate is checked."""
        if self.is_of_whole:
            return None
        named, known = [name for it in self.places for name in it.names], set()
        for file, line in self.outside:
            found = [name for name, first, last in items_of(self.texts[file][0]) if first <= line <= last]
            if not found:
                return None
            known.add(found[0])
        return list(dict.fromkeys([*named, *(functions_naming(self.crate, known) if known else [])]))


def code_of(text):
    """The code of a source file without comments: its functions' bodies, with the name of each, and what is outside of these."""
    bodies = [(it.name, it.header and owner_of(it.header)[0], it.body) for it in functions_of(text)]
    signatures = [re.split(r"\n *(?:requires|ensures|ghost)\b", it.head)[0] for it in functions_of(text)]
    signatures = [re.sub(r"^ *#\[.*?\]$\n", "", it, flags=re.M | re.S) for it in signatures]
    return bodies, signatures, without_functions(text)


def functions_naming(crate, known):
    """The functions of a crate, as a check names them, that name one of some items, or an item that does."""
    texts = {file: without_comments(file, crate.read(file)) for file in crate.files("src", ".rt")}
    is_growing = True
    while is_growing:
        pattern, count = re.compile(rf"\b(?:{'|'.join(map(re.escape, sorted(known)))})\b"), len(known)
        for text in texts.values():
            lines = text.split("\n")
            known |= {name for name, first, last in items_of(text) if pattern.search("\n".join(lines[first - 1 : last]))}
        is_growing = len(known) > count
    found = []
    for file, text in texts.items():
        for it in functions_of(text):
            if pattern.search("\n".join([it.header or "", it.head, it.body])):
                found.append(name_of(crate.name, file, it, crate.home))
    return found


def edits_of(crate):
    folders = [f"{crate.folder}/{it}" for it in ("edits", "must-fail")]
    return [Edit(crate, file) for it in folders if os.path.isdir(it) for file in files_below(it, ".edit")]
