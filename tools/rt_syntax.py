"""Reads a source file (.rt) in `rt fmt`'s layout: its functions with their contracts, its types, traits and impls, the
clauses of contracts, and what is left without comments or without bodies. tools/repository.py reads the files."""
import functools
import re

# Texts and letters, in which no comment begins, and the two kinds of comments.
TOKEN = re.compile(
    r"""(?P<text>\bb?r(?P<marks>\#*)".*?"(?P=marks)|b?"(?:\\.|[^"\\])*"|b?'(?:\\[^\n']+|\\'|[^\\'\n])')"""
    r"""|(?P<comment>//[^\n]*|/\*.*?\*/)""",
    re.S,
)
VISIBLE = r"(?:pub(?:\([^)]*\))? )?"
FUNCTION = re.compile(rf'( *){VISIBLE}(?:unsafe |const )*(?:extern "C" )?fn (\w+)')
ASSOCIATED = re.compile(rf"( +){VISIBLE}const (\w+)")
BLOCK = re.compile(rf"{VISIBLE}(?:unsafe )?(?:impl|trait)\b")
DECLARATION = re.compile(rf"{VISIBLE}(?:unsafe )?(struct|enum|union|type|trait|impl)\b(?: (\w+))?")
ITEM = re.compile(rf"{VISIBLE}(?:unsafe )?(?:const|static|struct|enum|union|type|macro_rules!) (\w+)")


def drop_comments(token, text):
    """A text without what a pattern finds as a comment, and without the lines that hold nothing else."""
    gone = "\x00"
    marked = token.sub(lambda it: gone if it["comment"] else it[0], text)
    lines = [(it, it.replace(gone, "").rstrip() if gone in it else it) for it in marked.split("\n")]
    return "\n".join(left for line, left in lines if left or gone not in line)


def without_comments(text):
    """A source file without its comments, and without the lines that hold nothing else."""
    return drop_comments(TOKEN, text)


class Function:
    """A function, or an associated constant: its lines, counted from 1, with its description and attributes, which are
    `above`; its signature with its contract, both as lines; its body; and the header of the impl or trait around it,
    with the attributes of that."""

    def __init__(self, name, header, lines, above, signature, body, is_constant):
        self.name, self.header, (self.first, self.last) = name, header, lines
        self.above, self.signature, self.body, self.is_constant = above, signature, body, is_constant
        self.at = self.first + len(above)

    @functools.cached_property
    def head(self):
        """The text before the body."""
        return "\n".join([*self.above, *self.signature])

    @property
    def is_public(self):
        return re.match(r" *pub ", (self.signature or [self.body])[0]) is not None

    @functools.cached_property
    def parameters(self):
        """The parameters, `self` among them."""
        text = "\n".join(self.signature)
        rest = after_generics(text[re.search(rf"\bfn {self.name}\b", text).end() :])
        return [it.strip() for it in at_top(rest[1 : close_of(rest, 0)], ",") if it.strip()]

    @property
    def is_method(self):
        return any(re.fullmatch(r"(?:mut |&(?:'\w+ )?(?:mut )?)*self(?:: .*)?", it) for it in self.parameters[:1])

    @property
    def returned(self):
        """What the first line behind the parameters says of the result."""
        text = "\n".join(self.signature)
        rest = after_generics(text[re.search(rf"\bfn {self.name}\b", text).end() :])
        return rest[close_of(rest, 0) + 1 :].split("\n")[0].partition("->")[2]

    def is_same(self, other):
        return (self.name, self.header) == (other.name, other.header)


class Clause:
    """A clause of a contract, or a ghost member: the number of its first line, that of the line after its last, its
    keyword, its name or nothing, and what stands in its braces, on one line."""

    def __init__(self, first, end, text):
        self.first, self.end = first, end
        found = re.match(r"(requires|ensures\*?|ghost)\s*([^\s{:=]*)", text)
        self.keyword, self.name = found[1], found[2]
        self.text = text[text.index("{") + 1 : text.rindex("}")].strip()


class Member:
    """An item as a reader of its interface sees it: its kind and name, the number of its line, its description and
    attributes, and its signature with its contract, both as lines without what they are indented by."""

    def __init__(self, kind, name, at, above, code):
        self.kind, self.name, self.at = kind, name, at
        self.above, self.code = [it.strip() for it in above], code

    @property
    def is_public(self):
        return self.code[0].startswith("pub ")


class Declaration:
    """A type, a trait or an impl: its kind, its name (but of an impl), its lines, counted from 1, with its description
    and attributes; its rows, from the first of its header on; that header as lines and on one line; what stands in its
    braces, as lines, or None; its functions; and its members, in their order."""

    def __init__(self, kind, name, first, lines):
        self.kind, self.name, self.first, self.last = kind, name, first, first + len(lines) - 1
        above = next(at for at, it in enumerate(lines) if not it.startswith(("//", "#[", " ", "]", ")")))
        self.at, self.above, self.rows = first + above, lines[:above], lines[above:]
        self.header = header_of(self.rows, 0)
        opened = next((at for at, it in enumerate(self.rows) if it.rstrip().endswith("{")), None)
        self.head, self.body = self.rows[:1], [] if self.header.endswith("{}") else None
        if opened is not None:
            head = [*self.rows[:opened], self.rows[opened].rstrip()[:-1].rstrip()]
            self.head, self.body = [it for it in head if it], self.rows[opened + 1 : -1]
        self.functions, self.members = [], []

    @property
    def is_public(self):
        return self.header.startswith("pub ")


def end_of(lines, at, indent):
    """The number of lines up to the end of the item that begins in line `at`: a brace below its first letter, or the
    next item, or the end of what is around it."""
    if lines[at].rstrip().endswith((";", "{}")) or re.search(r"\{ .* \}$", lines[at]):
        return at + 1
    for later in range(at + 1, len(lines)):
        line = lines[later]
        deep = len(line) - len(line.lstrip())
        if not line.strip() or deep > len(indent):
            continue
        if deep < len(indent) or not re.match(r"[{})\]>]|where\b", line.strip()):
            return later
        if line.strip() in ("}", "};", "{}") or line.rstrip().endswith(("{}", ";")):
            return later + 1
    return len(lines)


def split_body(lines, indent):
    """Parts the lines of a function into the text before its body, and its body."""
    for at, line in enumerate(lines):
        if line in (indent + "{", indent + "{}"):
            return lines[:at], lines[at:]
    for at, line in enumerate(lines):
        opened = re.search(r"\{(?: .* )?\}?$", line)
        if opened and (at == 0 or line.startswith((indent + ")", indent + ">"))):
            return [*lines[:at], line[: opened.start()].rstrip()], [line[opened.start() :], *lines[at + 1 :]]
    return lines, []


def attributes_before(lines, at):
    """The number of the line at which the attributes and the comments of an item in line `at` begin."""
    first = at
    while first > 0:
        line = lines[first - 1].strip()
        if line.endswith("]") and not line.startswith("#["):
            begins = (it for it in range(first - 1, -1, -1) if not lines[it] or lines[it].strip().startswith("#["))
            opened = next(begins, 0)
            if not lines[opened].strip().startswith("#["):
                break
            first = opened
        elif line.startswith(("#[", "//")) and not line.startswith("//!"):
            first -= 1
        else:
            break
    return first


def header_of(lines, at):
    """The header of the impl, trait or type in line `at`, on one line, up to its opening brace."""
    end = next((it for it in range(at, len(lines)) if lines[it].rstrip().endswith(("{", "{}", ";"))), at)
    return " ".join(it.strip() for it in lines[at : end + 1])


def attributes_of(lines, at):
    """The attributes of an item in line `at`, each line by itself."""
    return [it.strip() for it in lines[attributes_before(lines, at) : at] if not it.strip().startswith("//")]


def functions_of(text):
    """The functions of a source file, in their order; those inside of a function are a part of it."""
    lines, found, header, at = text.split("\n"), [], None, 0
    while at < len(lines):
        line = lines[at]
        if BLOCK.match(line):
            header = " ".join([*attributes_of(lines, at), header_of(lines, at)])
        elif line == "}":
            header = None
        began = FUNCTION.match(line) or (header and ASSOCIATED.match(line))
        if not began:
            at += 1
            continue
        last = end_of(lines, at, began[1])
        while last > at + 1 and not lines[last - 1].strip():
            last -= 1
        first, is_function = attributes_before(lines, at), FUNCTION.match(line)
        signature, body = split_body(lines[at:last], began[1]) if is_function else ([], lines[at:last])
        around, span = header if began[1] else None, (first + 1, last)
        found.append(Function(began[2], around, span, lines[first:at], signature, "\n".join(body), not is_function))
        at = last
    return found


def declarations_of(text):
    """The types, traits and impls of a source file that stand in no module within, in their order."""
    lines, found = text.split("\n"), []
    functions = functions_of(text)
    for at, line in enumerate(lines):
        began = DECLARATION.match(line)
        if not began:
            continue
        first, last = attributes_before(lines, at), end_of(lines, at, "")
        made = Declaration(began[1], None if began[1] == "impl" else began[2], first + 1, lines[first:last])
        made.functions = [it for it in functions if first < it.first and it.last <= last]
        if made.kind in ("trait", "impl"):
            made.members = members_of(lines, made)
        found.append(made)
    return found


def statement_of(lines, at):
    """The lines of an item without a body, from its own, of this number, to the one that ends with its semicolon."""
    indent = len(lines[at]) - len(lines[at].lstrip())
    for end in range(at + 1, len(lines) + 1):
        text = "\n".join(lines[at:end])
        is_whole = all(text.count(one) == text.count(other) for one, other in ("{}", "()", "[]"))
        if text.endswith(";") and is_whole:
            return [it[indent:] for it in lines[at:end]]
    return [lines[at][indent:]]


def member_of(function):
    indent = len(function.signature[0]) - len(function.signature[0].lstrip())
    return Member("fn", function.name, function.at, function.above, [it[indent:] for it in function.signature])


def members_of(lines, declared):
    """The members of a trait or an impl: functions, types, constants and ghost items."""
    functions = {it.at: it for it in declared.functions}
    found = []
    for number in range(declared.at + 1, declared.last):
        named = re.match(r"    (?:pub )?(fn|type|const|ghost) (?!use\b|fn\b)(\w+)", lines[number - 1])
        if number in functions and not functions[number].is_constant:
            found.append(member_of(functions[number]))
        elif named:
            above = lines[attributes_before(lines, number - 1) : number - 1]
            found.append(Member(named[1], named[2], number, above, statement_of(lines, number - 1)))
    return found


def contract_parts(text):
    """The clauses, ghost members and ghost imports of a source file: of each the numbers of its first line and of the
    line after its last, and its text on one line."""
    lines, found, at = text.split("\n"), [], 0
    is_open = lambda it: it.count("{") > it.count("}") or "{" not in it and ";" not in it
    while at < len(lines):
        part, first = lines[at].strip(), at
        at += 1
        if not re.match(r"(?:ensures|requires|(?:pub )?ghost)\b", part):
            continue
        while is_open(part) and at < len(lines):
            part += " " + lines[at].strip()
            at += 1
        found.append((first + 1, at + 1, re.sub(r"^pub ", "", part)))
    return found


def clauses_of(text):
    """The clauses of contracts and the ghost members of a source file that say something in braces."""
    is_clause = lambda it: "{" in it and "}" in it and not it.startswith("ghost use ")
    return [Clause(*it) for it in contract_parts(text) if is_clause(it[2])]


def items_of(text):
    """The name and the lines, counted from 1, of what a source file declares outside of functions, impls and traits."""
    lines, found = text.split("\n"), []
    for at, line in enumerate(lines):
        began = ITEM.match(line)
        if began:
            found.append((began[1], attributes_before(lines, at) + 1, end_of(lines, at, "")))
    return found


def without_bodies(text):
    """A source file without the bodies of its functions: signatures, contracts, types, impls, constants and imports."""
    lines, made, at = text.split("\n"), [], 0
    for it in functions_of(text):
        left = [it.head, it.body] if it.is_constant else [it.head]
        made += [*lines[at : it.first - 1], *(text for text in left if text)]
        at = it.last
    return "\n".join([*made, *lines[at:]])


def without_functions(text):
    """A source file without its functions, its ghost items and attributes: types, impls, constants and imports."""
    lines, made, at = text.split("\n"), [], 0
    for it in functions_of(text):
        made += lines[at : it.first - 1]
        at = it.last
    left = "\n".join([*made, *lines[at:]])
    left = re.sub(rf"^ *{VISIBLE}ghost\b[^;]*;\n", "", left + "\n", flags=re.M)
    return re.sub(r"^ *#!?\[.*?\]$\n", "", left, flags=re.M | re.S)


def module_of(file):
    """The path of a source file's module, as src/offset/growing.rt is offset::growing."""
    path = re.sub(r"^src/|\.rt$", "", file)
    return "" if path in ("lib", "main") else re.sub(r"/mod$", "", path).replace("/", "::")


def close_of(text, at):
    """The place of the bracket that closes the one at a place."""
    depth = 0
    for later in range(at, len(text)):
        if text[later] in "<([{":
            depth += 1
        elif text[later] in ">)]}" and text[later - 1] != "-":
            depth -= 1
            if depth == 0:
                return later
    return len(text) - 1


def after_generics(text):
    """What stands behind the angle brackets with which a text begins."""
    return text[close_of(text, 0) + 1 :].strip() if text.startswith("<") else text.strip()


def at_top(text, mark):
    """Parts a text at a mark that stands outside of brackets."""
    made, depth, start = [], 0, 0
    for at, letter in enumerate(text):
        if depth == 0 and text.startswith(mark, at):
            made.append(text[start:at])
            start = at + len(mark)
        depth += (letter in "<([{") - (letter in ">)]}" and text[at - 1] != "-")
    return [*made, text[start:]]


def read_header(header):
    """Reads the header of an impl or a trait: its parameters, the trait (or None) and the type that it is for."""
    header = re.sub(r"\s+", " ", re.sub(r"^(?:#\[.*?\] )+(?=(?:pub\b|unsafe\b|impl\b|trait\b))", "", header))
    trait = re.match(rf"{VISIBLE}(?:unsafe )?trait (\w+)", header)
    if trait:
        return [], None, trait[1]
    inside = re.sub(r"^(?:unsafe )?impl\b ?", "", header)
    names = []
    if inside.startswith("<"):
        end = close_of(inside, 0)
        names = [re.sub(r"^const ", "", it.split(":")[0].strip()) for it in at_top(inside[1:end], ",")]
        inside = inside[end + 1 :].strip()
    inside = at_top(at_top(inside, "{")[0], " where ")[0].strip()
    of, *of_type = at_top(inside, " for ")
    return (names, of.strip(), of_type[0].strip()) if of_type else (names, None, of.strip())
