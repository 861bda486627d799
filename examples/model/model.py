"""A model of the program: what it prints, its exit status and its words on standard error, for the bytes of an input.

Values are plain lists. What is shared in memory is kept apart from them, by counts alone, and tells two answers only:
which side a thawed array is on, and whether an array's values may be written to.
"""

FROZEN = ("prim", "bool", "bin", "utf8")
NULLABLE = ("mprim", "mbool", "mbin", "mutf8")
VALUES = ("vbin", "vutf8")
KINDS = FROZEN + NULLABLE + VALUES
GROWING = NULLABLE + VALUES
SORTS = {"prim": "v", "bool": "b", "bin": "x", "utf8": "t"}
SORTS.update({"m" + kind: sort for kind, sort in SORTS.items()})
SORTS.update({"vbin": "x", "vutf8": "t"})
PLAIN = {"v": "prim", "b": "bool", "x": "bin", "t": "utf8"}
TYPES = (
    "Boolean Int8 Int16 Int32 Int64 UInt8 UInt16 UInt32 UInt64 Date32 Date64 Binary LargeBinary Utf8 LargeUtf8".split()
)
RIGHT_TYPES = {"v": ("Int64", "Date64"), "b": ("Boolean",), "x": ("Binary",), "t": ("Utf8",)}
WIDE_TYPES = {**RIGHT_TYPES, "x": ("LargeBinary",), "t": ("LargeUtf8",)}
DEFAULTS = {"v": 0, "b": False, "x": b"", "t": b""}

ENTRIES = 16
MOST = 2**64 - 1
# An allocation of so many bytes is refused by any machine. No input asks for one that only some machines have.
REFUSED_BYTES = 2**47

PAST_BYTES = "offsets must not exceed the values length"
NOT_AT_END = "the last offset must equal the values length"
MASK_LENGTH = "validity mask length must match the number of values"
BUILDER_MASK_LENGTH = "validity's length must be equal to the number of values"
NOT_UTF8 = "every text between two offsets must be UTF-8"
KEY_TOO_LOW = "the dictionary key must fit in a usize"
KEY_TOO_HIGH = "a dictionary key must be below the length of the dictionary values"
NO_OFFSET = "offsets must have at least one element"
NEGATIVE_OFFSET = "the first offset must not be negative"
FALLING_OFFSET = "offsets must never fall"
PAST_OFFSETS = "overflow"
ONLY = "{} can only be initialized with {}"
OF_PHYSICAL = "a DataType whose physical type is "
WRONG_TYPES = {
    "prim": ONLY.format("PrimitiveArray", OF_PHYSICAL + "Primitive"),
    "mprim": ONLY.format("PrimitiveArray", OF_PHYSICAL + "Primitive"),
    "bool": ONLY.format("BooleanArray", OF_PHYSICAL + "Boolean"),
    "mbool": ONLY.format("MutableBooleanArray", OF_PHYSICAL + "Boolean"),
    "bin": ONLY.format("BinaryArray", "DataType::Binary or DataType::LargeBinary"),
    "mbin": ONLY.format("MutableBinaryValuesArray", "DataType::Binary or DataType::LargeBinary"),
    "vbin": ONLY.format("MutableBinaryValuesArray", "DataType::Binary or DataType::LargeBinary"),
    "utf8": ONLY.format("Utf8Array", "DataType::Utf8 or DataType::LargeUtf8"),
    "mutf8": ONLY.format("MutableUtf8ValuesArray", "DataType::Utf8 or DataType::LargeUtf8"),
    "vutf8": ONLY.format("MutableUtf8ValuesArray", "DataType::Utf8 or DataType::LargeUtf8"),
}

# The second and the later bytes of a character, by its first byte: from where to where each may be.
TAIL = (0x80, 0xBF)
CHARACTERS = [
    (0x00, 0x7F, []),
    (0xC2, 0xDF, [TAIL]),
    (0xE0, 0xE0, [(0xA0, 0xBF), TAIL]),
    (0xE1, 0xEC, [TAIL, TAIL]),
    (0xED, 0xED, [(0x80, 0x9F), TAIL]),
    (0xEE, 0xEF, [TAIL, TAIL]),
    (0xF0, 0xF0, [(0x90, 0xBF), TAIL, TAIL]),
    (0xF1, 0xF3, [TAIL, TAIL, TAIL]),
    (0xF4, 0xF4, [(0x80, 0x8F), TAIL, TAIL]),
]


def is_utf8(data):
    """Tells whether the bytes are characters, one behind the other."""
    place = 0
    while place < len(data):
        for low, high, later in CHARACTERS:
            if low <= data[place] <= high:
                break
        else:
            return False
        rest = data[place + 1 : place + 1 + len(later)]
        if len(rest) < len(later) or not all(a <= byte <= b for byte, (a, b) in zip(rest, later)):
            return False
        place += 1 + len(later)
    return True


# Reading lines


class NotACommand(Exception):
    """A line, or a word of it, has not the form that it must have."""


def want(holds):
    if not holds:
        raise NotACommand


def digits(word):
    want(word != "" and all(it in "0123456789" for it in word))
    return int(word)


def number(word):
    value = digits(word)
    want(value <= MOST)
    return value


def signed(word, bits):
    value = -digits(word[1:]) if word.startswith("-") else digits(word)
    want(-(2 ** (bits - 1)) <= value < 2 ** (bits - 1))
    return value


def integer(word):
    return signed(word, 64)


def offset_of(width):
    return lambda word: signed(word, width)


def hexadecimal(word):
    want(len(word) % 2 == 0 and all(it in "0123456789abcdefABCDEF" for it in word))
    return bytes(int(word[at : at + 2], 16) for at in range(0, len(word), 2))


def item(word):
    sort, rest = word[0], word[1:]
    if sort == "v":
        return sort, integer(rest)
    if sort == "b":
        want(rest in ("0", "1"))
        return sort, rest == "1"
    if sort == "x":
        return sort, hexadecimal(rest)
    want(sort == "t")
    text = hexadecimal(rest)
    want(is_utf8(text))
    return sort, text


def slot(word):
    return None if word == "_" else item(word)


def bits(word):
    if word == ".":
        return []
    want(all(it in "01" for it in word))
    return [it == "1" for it in word]


def mask(word):
    return None if word == "-" else bits(word)


def raw_bytes(word):
    want(word.startswith("x"))
    return hexadecimal(word[1:])


def one_of(names):
    def read(word):
        want(word in names)
        return word

    return read


def turn(word):
    if word in ("f", "b"):
        return word
    want(word.startswith("s"))
    return number(word[1:])


kind, type_name = one_of(KINDS), one_of(TYPES)


# The words behind a line's first: each is one word, but for what a list holds, which may be any number of words.
FORMS = {
    "new": (number, kind),
    "null": (number, kind, number),
    "slots": (number, kind, [slot]),
    "items": (number, kind, [item]),
    "value": (number, number),
    "get": (number, number),
    "isnull": (number, number),
    "turns": (number, [turn]),
    "slice": (number, number, number),
    "clone": (number, number),
    "mask": (number, mask),
    "values": (number, [item]),
    "set": (number, number, slot),
    "write": (number, number, item),
    "push": (number, slot),
    "extend": (number, [slot]),
    "extendvalues": (number, [item]),
    "constant": (number, number, slot),
    "self": (number, number),
    "reserve": (number, number, number),
    "to": (number, type_name),
    "equal": (number, number),
    "filter": (number, number, number),
    "widen": (number, number),
    "narrow": (number, number),
    "take": (number, number, [integer]),
    "indexes": (number, [integer]),
}
ALONE = "len nulls list type held bytes offsets drop pushnull pop shrink freeze thaw nullable".split()
FORMS.update({word: (number,) for word in ALONE})


def read_words(form, words):
    read = []
    for at, reader in enumerate(form):
        if isinstance(reader, list):
            read.append([reader[0](word) for word in words[at:]])
            return read
        want(at < len(words))
        read.append(reader(words[at]))
    want(len(words) == len(form))
    return read


def read_parts(words, width):
    start = read_words((number, kind, type_name, mask), words[:4])
    pieces = (raw_bytes, [offset_of(width)])
    form = {"v": ([integer],), "b": (bits,), "x": pieces, "t": pieces}[SORTS[start[1]]]
    return start + read_words(form, words[4:])


def read_named(words):
    if words[1:] == ["reverse"]:
        return [number(words[0]), None]
    want(len(words) == 3 and words[1] == "fill")
    return [number(words[0]), item(words[2])]


def read_command(words, width):
    want(words)
    first, *words = words
    if first == "parts":
        return first, read_parts(words, width)
    if first in ("applymask", "applyvalues"):
        return first, read_named(words)
    want(first in FORMS)
    return first, read_words(FORMS[first], words)


def read_line(line):
    """Gives whether a line is about the wide table, its command's word and what the words behind that say, or None where
    the line is passed over."""
    if line.startswith(b"#") or not line.strip(b" "):
        return None
    want(all(0x20 <= byte <= 0x7E for byte in line))
    words = [word for word in line.decode("ascii").split(" ") if word]
    if words[0] != "wide":
        return False, *read_command(words, 32)
    # These two are no commands of one table.
    want(words[1:2] not in (["widen"], ["narrow"]))
    return True, *read_command(words[1:], 64)


def lines_of(data):
    lines = data.split(b"\n")
    return lines if lines[-1] else lines[:-1]


# Entries


class Shared:
    """How long a vector that arrays share is, and how many show a piece of it."""

    def __init__(self, length):
        self.length, self.owners = length, 0


class View:
    """A piece of a shared vector."""

    def __init__(self, shared, place, length):
        self.shared, self.place, self.length = shared, place, length
        shared.owners += 1

    def again(self):
        return View(self.shared, self.place, self.length)

    def give_up(self):
        self.shared.owners -= 1

    def cut(self, place, length):
        self.place, self.length = self.place + place, length

    def is_alone(self):
        return self.shared.owners == 1

    def is_whole(self):
        return self.place == 0 and self.length == self.shared.length


def view_of(length):
    return View(Shared(length), 0, length)


class Entry:
    """An array or a builder: a row (stored value, mark) for each slot, and what stands around them."""

    def __init__(self, kind, stored, marks, type_name, lead=b"", tail=b""):
        self.kind, self.stored, self.lead, self.tail = kind, list(stored), lead, tail
        self.held = marks is not None
        self.marks = list(marks) if self.held else [True] * len(self.stored)
        self.type_name = type_name
        self.views = {}
        if kind in FROZEN:
            self.share()

    @property
    def sort(self):
        return SORTS[self.kind]

    def share(self):
        """Puts the vectors of a value that owns them where arrays can share them."""
        self.views = {"values": view_of(len(self.stored))}
        if self.sort in "xt":
            self.views["offsets"] = view_of(len(self.stored) + 1)
        if self.held:
            self.views["mask"] = view_of(len(self.stored))

    def show(self, name, view):
        if name in self.views:
            self.views.pop(name).give_up()
        if view:
            self.views[name] = view

    def give_up(self):
        for view in self.views.values():
            view.give_up()
        self.views = {}

    def slots(self):
        return [(self.sort, value) if mark else None for value, mark in zip(self.stored, self.marks)]

    def bytes_and_offsets(self):
        offsets = [len(self.lead)]
        for value in self.stored:
            offsets.append(offsets[-1] + len(value))
        return self.lead + b"".join(self.stored) + self.tail, offsets

    def fits(self, it):
        return it is not None and it[0] == self.sort

    def all_fit(self, slots):
        return all(it is None or self.fits(it) for it in slots)

    def append(self, it):
        self.stored.append(DEFAULTS[self.sort] if it is None else it[1])
        self.marks.append(it is not None)
        self.held = self.held or it is None

    def copy(self):
        made = Entry(self.kind, self.stored, self.marks if self.held else None, self.type_name, self.lead, self.tail)
        if self.kind in FROZEN:
            made.views = {name: view.again() for name, view in self.views.items()}
        return made

    def cut(self, place, length):
        if self.sort in "xt":
            self.lead += b"".join(self.stored[:place])
            self.tail = b"".join(self.stored[place + length :]) + self.tail
            self.views["offsets"].cut(place, length + 1)
        else:
            self.views["values"].cut(place, length)
        if self.held:
            self.views["mask"].cut(place, length)
        self.stored = self.stored[place : place + length]
        self.marks = self.marks[place : place + length]

    def set_mask(self, marks):
        self.held = marks is not None
        self.marks = [True] * len(self.stored) if marks is None else list(marks)
        if self.kind in FROZEN:
            self.show("mask", view_of(len(self.marks)) if self.held else None)

    def set_values(self, values):
        self.stored = list(values)
        if self.kind in FROZEN:
            self.show("values", view_of(len(self.stored)))

    def freeze(self):
        if self.sort != "b" and all(self.marks):
            self.held = False
        self.kind = PLAIN[self.sort]
        self.share()

    def thaw(self):
        """Makes the array a builder if all of its vectors are its own and shown whole; tells whether it did."""
        for name, view in self.views.items():
            # A mask may end early, and the bits of booleans too.
            is_shown = view.place == 0 if name == "mask" or self.sort == "b" else view.is_whole()
            if not view.is_alone() or not is_shown:
                return False
        self.give_up()
        self.kind, self.tail = "m" + self.kind, b""
        return True


# Commands. Each gives its reply's line; where its condition fails, NotMet.


class NotMet(Exception):
    """The command's condition does not hold."""


class Refused(Exception):
    """The command is refused for a reason."""


def meet(holds):
    if not holds:
        raise NotMet


def refuse_if(fails, why):
    if fails:
        raise Refused(why)


def ask_for(size):
    refuse_if(size >= REFUSED_BYTES, "out of memory")


def item_text(it):
    if it is None:
        return "_"
    sort, value = it
    if sort == "v":
        return f"v{value}"
    return sort + ("01"[value] if sort == "b" else value.hex())


def list_text(parts):
    return "[" + " ".join(parts) + "]"


def flag(holds):
    return "true" if holds else "false"


class Table:
    """The entries over offsets of one width, and the commands on them, each named by a word."""

    def __init__(self, is_wide):
        self.entries = [None] * ENTRIES
        self.right_types = WIDE_TYPES if is_wide else RIGHT_TYPES
        self.most_offset = 2**63 - 1 if is_wide else 2**31 - 1

    def make(self, kind, stored, marks=None):
        return Entry(kind, stored, marks, self.right_types[SORTS[kind]][0])

    def entry(self, at, *kinds):
        meet(at < ENTRIES and self.entries[at] is not None)
        meet(not kinds or self.entries[at].kind in kinds)
        return self.entries[at]

    def slot_of(self, at, place, *kinds):
        entry = self.entry(at, *kinds)
        meet(place < len(entry.stored))
        return entry

    def empty(self, at):
        meet(at < ENTRIES and self.entries[at] is None)

    def do_new(self, at, kind):
        self.empty(at)
        self.entries[at] = self.make(kind, [])

    def do_null(self, at, kind, count):
        self.empty(at)
        meet(kind in FROZEN)
        ask_for(count // 8)
        self.entries[at] = self.make(kind, [DEFAULTS[SORTS[kind]]] * count, [False] * count)

    def do_parts(self, at, kind, type_name, marks, *vectors):
        self.empty(at)
        meet(kind not in VALUES or marks is None)
        if SORTS[kind] in "xt":
            made = self.byte_parts(kind, type_name, marks, *vectors)
        else:
            (values,) = vectors
            refuse_if(marks is not None and len(marks) != len(values), MASK_LENGTH)
            self.refuse_type(kind, type_name)
            made = Entry(kind, values, marks, type_name)
        self.entries[at] = made

    def refuse_type(self, kind, type_name):
        refuse_if(type_name not in self.right_types[SORTS[kind]], WRONG_TYPES[kind])

    def byte_parts(self, kind, type_name, marks, data, offsets):
        refuse_if(not offsets, NO_OFFSET)
        refuse_if(offsets[0] < 0, NEGATIVE_OFFSET)
        refuse_if(any(b < a for a, b in zip(offsets, offsets[1:])), FALLING_OFFSET)
        refuse_if(kind in FROZEN and offsets[-1] > len(data), PAST_BYTES)
        refuse_if(kind not in FROZEN and offsets[-1] != len(data), NOT_AT_END)
        stored = [data[a:b] for a, b in zip(offsets, offsets[1:])]
        refuse_if(SORTS[kind] == "t" and not all(map(is_utf8, stored)), NOT_UTF8)
        is_short = marks is not None and len(marks) != len(stored)
        if kind in FROZEN:
            refuse_if(is_short, MASK_LENGTH)
        self.refuse_type(kind, type_name)
        refuse_if(is_short, BUILDER_MASK_LENGTH)
        return Entry(kind, stored, marks, type_name, data[: offsets[0]], data[offsets[-1] :])

    def do_slots(self, at, kind, slots):
        self.empty(at)
        meet(kind not in VALUES)
        made = self.make("m" + PLAIN[SORTS[kind]], [])
        meet(made.all_fit(slots))
        for it in slots:
            made.append(it)
        made.held = made.held or made.sort == "v"
        if kind in FROZEN:
            made.freeze()
        self.entries[at] = made

    def do_items(self, at, kind, items):
        self.empty(at)
        meet(all(sort == SORTS[kind] for sort, _ in items))
        self.entries[at] = self.make(kind, [value for _, value in items])

    def do_len(self, at):
        return str(len(self.entry(at).stored))

    def do_value(self, at, place):
        entry = self.slot_of(at, place, *FROZEN, "mutf8", *VALUES)
        return item_text((entry.sort, entry.stored[place]))

    def do_get(self, at, place):
        return item_text(self.slot_of(at, place, *FROZEN).slots()[place])

    def do_isnull(self, at, place):
        return flag(not self.slot_of(at, place, *FROZEN).marks[place])

    def do_nulls(self, at):
        return str(self.entry(at, *FROZEN).marks.count(False))

    def do_list(self, at):
        return list_text(map(item_text, self.entry(at).slots()))

    def do_turns(self, at, turns):
        entry = self.entry(at)
        left, given = [(entry.sort, value) for value in entry.stored], []
        for it in turns:
            if it == "b":
                given.append(left.pop() if left else None)
                continue
            left = left[0 if it == "f" else it :]
            given.append(left.pop(0) if left else None)
        return list_text(map(item_text, given))

    def do_type(self, at):
        return self.entry(at).type_name

    def do_held(self, at):
        return flag(self.entry(at).held)

    def with_bytes(self, at):
        entry = self.entry(at)
        meet(entry.sort in "xt")
        return entry.bytes_and_offsets()

    def do_bytes(self, at):
        return item_text(("x", self.with_bytes(at)[0]))

    def do_offsets(self, at):
        return list_text(map(str, self.with_bytes(at)[1]))

    def do_slice(self, at, place, count):
        entry = self.entry(at, *FROZEN)
        meet(place <= len(entry.stored) and count <= len(entry.stored) - place)
        entry.cut(place, count)

    def do_clone(self, at, to):
        entry = self.entry(at)
        self.empty(to)
        self.entries[to] = entry.copy()

    def do_drop(self, at):
        self.entry(at).give_up()
        self.entries[at] = None

    def do_mask(self, at, marks):
        entry = self.entry(at, *FROZEN, "mprim", "mbin", "mutf8")
        meet(marks is None or len(marks) == len(entry.stored))
        entry.set_mask(marks)

    def do_applymask(self, at, fill):
        entry = self.entry(at, *FROZEN, "mbin", "mutf8")
        meet(fill is None or fill[0] == "b")
        if entry.held:
            entry.set_mask([fill[1]] * len(entry.marks) if fill else entry.marks[::-1])

    def do_values(self, at, items):
        entry = self.entry(at, "prim", "mprim", "bool")
        meet(len(items) == len(entry.stored) and entry.all_fit(items))
        entry.set_values(value for _, value in items)

    def do_applyvalues(self, at, fill):
        entry = self.entry(at, "mprim", "bool")
        meet(fill is None or entry.fits(fill))
        entry.set_values([fill[1]] * len(entry.stored) if fill else entry.stored[::-1])

    def do_set(self, at, place, it):
        entry = self.slot_of(at, place, "mprim", "mbool")
        meet(it is None or entry.fits(it))
        entry.stored[place] = DEFAULTS[entry.sort] if it is None else it[1]
        entry.marks[place] = it is not None
        entry.held = entry.held or it is None

    def do_write(self, at, place, it):
        entry = self.slot_of(at, place, "prim", "mprim")
        meet(entry.fits(it))
        if entry.kind == "prim" and not entry.views["values"].is_alone():
            return "not given"
        entry.stored[place] = it[1]

    def do_push(self, at, it):
        entry = self.entry(at, *GROWING)
        meet(entry.fits(it) or (it is None and entry.kind in NULLABLE))
        entry.append(it)

    def do_pushnull(self, at):
        entry = self.entry(at, *GROWING)
        entry.append(None if entry.kind in NULLABLE else (entry.sort, b""))

    def do_pop(self, at):
        entry = self.entry(at, *GROWING)
        last = entry.slots()[-1] if entry.stored else None
        entry.stored, entry.marks = entry.stored[:-1], entry.marks[:-1]
        return item_text(last)

    def do_extend(self, at, slots):
        entry = self.entry(at, *NULLABLE)
        meet(entry.all_fit(slots))
        for it in slots:
            entry.append(it)

    def do_extendvalues(self, at, items):
        entry = self.entry(at, *GROWING)
        meet(entry.all_fit(items))
        for it in items:
            entry.append(it)

    def do_constant(self, at, count, it):
        entry = self.entry(at, "mprim")
        meet(it is None or entry.fits(it))
        ask_for(count * 8)
        for _ in range(count):
            entry.append(it)
        entry.held = entry.held or it is None

    def do_self(self, at, of):
        entry, other = self.entry(at, *GROWING), self.entry(of)
        meet(at != of and entry.kind == other.kind)
        entry.stored += other.stored
        entry.marks += other.marks
        entry.held = entry.held or other.held

    def do_reserve(self, at, count, data):
        entry = self.entry(at, *GROWING)
        ask_for(count // 8)
        if entry.sort in "xt":
            ask_for(data)

    def do_shrink(self, at):
        self.entry(at, *GROWING)

    def do_freeze(self, at):
        self.entry(at, *GROWING).freeze()

    def do_thaw(self, at):
        return "right" if self.entry(at, *FROZEN).thaw() else "left"

    def do_nullable(self, at):
        entry = self.entry(at, *VALUES)
        entry.kind = "m" + PLAIN[entry.sort]

    def do_to(self, at, type_name):
        entry = self.entry(at, "prim", "mprim")
        meet(type_name in RIGHT_TYPES["v"])
        entry.type_name = type_name

    def do_equal(self, at, to):
        entry, other = self.entry(at, *NULLABLE), self.entry(to)
        meet(entry.kind == other.kind)
        return flag(entry.slots() == other.slots())

    def choose(self, entry, places, to):
        """Puts the rows of an array at these places into an empty entry; a mask is held only where one is null."""
        stored, marks = ([of[at] for at in places] for of in (entry.stored, entry.marks))
        refuse_if(entry.sort in "xt" and sum(map(len, stored)) > self.most_offset, PAST_OFFSETS)
        self.entries[to] = Entry(entry.kind, stored, None if all(marks) else marks, entry.type_name)

    def do_filter(self, at, by, to):
        entry, by = self.entry(at, *FROZEN), self.entry(by, "bool")
        meet(len(entry.stored) == len(by.stored))
        self.empty(to)
        places = [at for at, it in enumerate(by.slots()) if it == ("b", True)]
        self.choose(entry, places, to)
        if len(places) == len(entry.stored):
            self.share_rows(entry, self.entries[to])

    def share_rows(self, entry, made):
        """A filter that asks for every row shows the vectors of its array: a mask if it has a null, and items if no byte
        lies around them."""
        shared = {"mask"} if made.held else set()
        if not entry.lead and not entry.tail:
            shared |= {"values", "offsets"}
        for name in shared & entry.views.keys():
            made.show(name, entry.views[name].again())

    def do_take(self, at, to, keys):
        entry = self.entry(at, *FROZEN)
        self.empty(to)
        self.do_indexes(len(entry.stored), keys)
        self.choose(entry, keys, to)

    def do_indexes(self, length, keys):
        for key in keys:
            refuse_if(key < 0, KEY_TOO_LOW)
            refuse_if(key >= length, KEY_TOO_HIGH)


class Tables:
    """A table of each width, and the commands on both."""

    def __init__(self):
        self.narrow, self.wide = Table(False), Table(True)

    def reply(self, command):
        is_wide, name, arguments = command
        table = self if name in ("widen", "narrow") else self.wide if is_wide else self.narrow
        try:
            return getattr(table, "do_" + name)(*arguments) or "ok"
        except NotMet:
            return "not met"
        except Refused as why:
            return f"refused: {why}"

    def resize(self, of, at, table, to):
        """Puts an array of bytes or texts over other offsets; its bytes and its mask are shared."""
        entry = of.entry(at, "bin", "utf8")
        table.empty(to)
        refuse_if(entry.bytes_and_offsets()[1][-1] > table.most_offset, PAST_OFFSETS)
        made = entry.copy()
        made.type_name = table.right_types[made.sort][0]
        made.show("offsets", view_of(len(made.stored) + 1))
        table.entries[to] = made

    def do_widen(self, at, to):
        self.resize(self.narrow, at, self.wide, to)

    def do_narrow(self, at, to):
        self.resize(self.wide, at, self.narrow, to)


def session(data):
    """Gives the status, standard output and standard error for an input."""
    commands = []
    for at, line in enumerate(lines_of(data), 1):
        try:
            command = read_line(line)
        except NotACommand:
            return 2, b"", f"line {at}: not a command\n".encode()
        if command:
            commands.append(command)
    tables = Tables()
    return 0, "".join(tables.reply(it) + "\n" for it in commands).encode(), b""


if __name__ == "__main__":
    import sys

    status, out, err = session(sys.stdin.buffer.read())
    sys.stdout.buffer.write(out)
    sys.stderr.buffer.write(err)
    sys.exit(status)
