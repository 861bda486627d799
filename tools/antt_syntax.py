"""Reads a file of specs/ or proofs/ (.antt) in `rt fmt`'s layout: its definitions and lemmas, each with its comment and
the modules around it, and what two of them have in common but for the names that they bind. tools/repository.py reads
the files."""
import re

from rt_syntax import close_of, drop_comments

# Texts, in which no comment begins, and comments.
TOKEN = re.compile(r"""(?P<text>"(?:\\.|[^"\\])*")|(?<!\S)(?P<comment>--[^\n]*)""", re.S)
KEYWORDS = r"(?:(?:abbrev|unfoldable|pub|data|record)\s+)"
# What begins a definition: a keyword and a name, or a name and its type.
HEAD = re.compile(rf"(?P<words>{KEYWORDS}+)(?P<named>[^\s:({{]+)|(?P<bare>[^\s:({{]+)\s*:(?:\s|$)")
# What is no definition, and ends one.
OTHER = re.compile(r"(?:pub )?(?:use|mod|ruleset|infix[lr]?)\b")
WORD = r"(?<![.\w-])[\w-]+"
# Signs of a claim, which a definition of a value has not.
CLAIMS = re.compile(r"[≡≤<↔⊎⊥]|\b(?:Is|Are|Fits|On|If|Has|Same)[A-Z]")


class Definition:
    """A definition or a lemma: its name, the number of its first line, its comment, its lines, and the heads of the
    modules around it, each as lines."""

    def __init__(self, name, words, line, doc, modules, depth):
        self.name, self.words, self.line, self.doc = name, words.split(), line, doc
        self.modules, self.depth, self.lines = modules, depth, []

    @property
    def is_public(self):
        return "pub" in self.words

    @property
    def text(self):
        return "\n".join(self.lines).rstrip()

    @property
    def variants(self):
        """The names of the variants, if it is a type that has these."""
        rows = "\n".join(self.lines[1:]) if "data" in self.words else ""
        return " ".join(re.findall(r"^ +((?:[\w.]+ )+):", rows, re.M)).split()

    @property
    def statement(self):
        """What a lemma says: the text between its name and its proof."""
        of_type = [self.lines[0]]
        for line in self.lines[1:]:
            if line.strip() and len(line) - len(line.lstrip()) <= self.depth:
                break
            of_type.append(line)
        return "\n".join(of_type).partition(self.name)[2].strip().removeprefix(":").strip()


def without_comments(text):
    """A file without its comments, and without the lines that hold nothing else."""
    return drop_comments(TOKEN, text)


class Reader:
    """Reads the definitions of a file line by line."""

    def __init__(self, text):
        self.rows, self.found, self.modules = text.split("\n"), [], []
        # The comment above a line, that above a module, and the definition to which further lines belong.
        self.doc, self.about, self.current = [], [], None

    def read(self):
        at = 0
        while at < len(self.rows):
            at = self.read_line(at, self.rows[at])
        return self.found

    def read_line(self, at, line):
        """Reads the line of a number, and returns the number of the line to read next."""
        depth, words = len(line) - len(line.lstrip()), line.strip()
        if not words:
            self.doc, self.about = [], []
        if not words or self.current and depth > self.current.depth:
            if self.current:
                self.current.lines.append(line)
            return at + 1
        self.modules = [it for it in self.modules if it[0] < depth]
        if words.startswith("--"):
            self.doc.append(words[2:].strip())
        elif words.startswith("module "):
            return self.open_module(at, depth)
        elif OTHER.match(words):
            self.current, self.doc = None, []
        else:
            self.read_head(at, depth, words)
        return at + 1

    def open_module(self, at, depth):
        end = next((it for it in range(at, len(self.rows)) if self.rows[it].rstrip().endswith("where")), at)
        self.modules.append((depth, self.rows[at : end + 1]))
        self.about, self.doc, self.current = self.doc, [], None
        return end + 1

    def read_head(self, at, depth, words):
        """Begins a definition, or goes on with the equations of one."""
        head = HEAD.match(words)
        if head:
            name = head["named"] or head["bare"]
            modules = [lines for _, lines in self.modules]
            self.current = Definition(name, head["words"] or "", at + 1, self.doc or self.about, modules, depth)
            self.found.append(self.current)
            self.doc, self.about = [], []
        if self.current:
            self.current.lines.append(self.rows[at])


def definitions_of(text):
    """The definitions and lemmas of a file, in their order."""
    return Reader(text).read()


def imports_of(text):
    """The names that a file imports."""
    return set(re.findall(r"[\w-]+", " ".join(re.findall(r"^use .*\.(\{[^}]*\}|[\w-]+)$", text, re.M))))


def names_within(text):
    """The names of the variants and fields in a file."""
    return set(" ".join(re.findall(r"^ +(?:pub )?((?:[\w-]+ )+):", text, re.M)).split())


def numbered(text, bound, name=""):
    """A text with a number for each of the names that it binds, as they come, and `it` for its own."""
    numbers = {name: "it"}
    named = lambda it: numbers.setdefault(it[0], f"#{len(numbers)}") if it[0] == name or it[0] in bound else it[0]
    return re.sub(r"\s+", " ", re.sub(WORD, named, text)).strip()


def meaning(definition, known):
    """What a definition says, without its name, its type, and the names that it binds, which are numbered."""
    name = definition.name
    text = re.sub(r"--.*", "", definition.text).strip()
    text = re.sub(r"^(?:(?:abbrev|unfoldable|pub)\s+)+", "", text)
    equations = re.search(rf"^\s*{re.escape(name)}(?![\w-])(?!\s*:)", text, re.M)
    if equations and not text.startswith(("record", "data")):
        text = text[equations.start() :]
    text = re.sub(r"λ \((\w+) : [^()]*\)\.", r"λ \1.", text)
    binders = re.findall(r"[{(]([\w\s-]+) :", text) + re.findall(r"λ ([^.]*)\.", text)
    patterns = re.findall(rf"^\s*{re.escape(name)}(?![\w-])([^=]*)=", text, re.M)
    bound = set(re.findall(WORD, " ".join(binders)))
    bound |= {it for it in re.findall(WORD + r"(?!\.)", " ".join(patterns)) if not it[0].isupper()}
    return numbered(text, bound - known, name)


def binders_of(text):
    """Parts the binders with which a statement begins from the rest: pairs of a name and its type, and the rest."""
    found = []
    while re.match(r"[({][\w\s'-]+ :", text):
        end = close_of(text, 0)
        names, _, of_type = text[1:end].partition(" :")
        found += [(it, of_type.strip()) for it in names.split()]
        text = re.sub(r"^\s*(?:→\s*)?", "", text[end + 1 :])
    return found, text


def needed(outside, used):
    """Of the parameters of modules those that are used, and those that say something of a used value."""
    kept = {name for name, _ in outside if name in used}
    values = {name for name, of_type in outside if not of_type.startswith("Type ")}
    is_growing = True
    while is_growing:
        count = len(kept)
        for name, of_type in outside:
            words = set(re.findall(WORD, of_type))
            if name in kept:
                kept |= words & {it for it, _ in outside}
            elif words & values & (kept | used):
                kept.add(name)
        is_growing = len(kept) > count
    return [it for it in outside if it[0] in kept]


def claim(lemma):
    """What a lemma claims, so that two which differ in names, in how arguments are given, or in the modules around
    them, claim the same; None for a definition that claims nothing."""
    outside = []
    for head in lemma.modules:
        inside = re.sub(r"\s+", " ", " ".join(head)).strip()
        outside += binders_of(re.sub(r"^module \S+ | where$", "", inside))[0]
    own, rest = binders_of(re.sub(r"\s+", " ", lemma.statement))
    if set(lemma.words) - {"pub"} or not CLAIMS.search(rest):
        return None
    used = set(re.findall(WORD, " ".join([rest, *(of_type for _, of_type in own)])))
    own = needed(outside, used) + own
    text = "".join(f"({name} : {of_type}) " for name, of_type in own) + rest
    inner = re.findall(r"[{(]([\w\s'-]+) :", rest) + re.findall(r"λ \(?([^.:]*)", rest)
    return numbered(text, {name for name, _ in own} | set(re.findall(WORD, " ".join(inner))))
