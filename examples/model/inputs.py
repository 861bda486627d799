"""Inputs for the program, made from a seed: random ones, most of whose commands' conditions hold, and malformed ones."""

import random

import model

BIG = 2**64 - 1
INTEGERS = [0, 1, -1, 2, 7, 10, 255, 256, -128, 2**31 - 1, -(2**31), 2**31, 2**63 - 1, -(2**63)]
COUNTS = [0, 1, 2, 3, 5, 8, 9, 64, 65, 300]
HUGE = [BIG, BIG - 1, 2**63, 2**63 - 1, 2**62]
CHARACTERS = [it.encode() for it in "aZ 0\0\x7f\x80é\u07ff\u0800€\ud7ff\ue000\uffff\U00010000😀\U000fffff\U0010ffff"]
NOT_TEXT = [bytes.fromhex(it) for it in "80 bf c3 c080 c1bf e0a0 e09f80 eda080 edbfbf f08080 f08f8080 f4908080 f5 ff fe e282 f09f98".split()]


class Words:
    """The forms that words have."""

    def __init__(self, rng):
        self.rng = rng

    def chance(self, share):
        return self.rng.random() < share

    def zeros(self):
        return "0" * self.rng.choice([1, 2, 25]) if self.chance(0.03) else ""

    def number(self, value):
        return f"{self.zeros()}{value}"

    def signed(self, value):
        sign = "-" if value < 0 or (value == 0 and self.chance(0.05)) else ""
        return f"{sign}{self.zeros()}{abs(value)}"

    def hexadecimal(self, data):
        text = data.hex()
        case = self.rng.randrange(6)
        if case == 0:
            return text.upper()
        return "".join(self.rng.choice((it, it.upper())) for it in text) if case == 1 else text

    def integer(self):
        case = self.rng.randrange(3)
        if case == 0:
            return self.rng.choice(INTEGERS)
        return self.rng.randrange(-20, 20) if case == 1 else self.rng.randrange(-(2**63), 2**63)

    def data(self, most=4):
        return bytes(self.rng.choice((0, 9, 0x61, 0x80, 0xC3, 0xFF, self.rng.randrange(256))) for _ in range(self.rng.randint(0, most)))

    def text(self):
        return b"".join(self.rng.choices(CHARACTERS, k=self.rng.choice((0, 0, 1, 1, 2, 3))))

    def item(self, sort):
        if sort == "v":
            return "v" + self.signed(self.integer())
        if sort == "b":
            return self.rng.choice(("b0", "b1"))
        return sort + self.hexadecimal(self.data() if sort == "x" else self.text())

    def slot(self, sort, nulls=0.25):
        return "_" if self.chance(nulls) else self.item(sort)

    def marks(self, count, ones=None):
        ones = self.rng.choice((0, 0.5, 0.8, 1)) if ones is None else ones
        return "".join("1" if self.chance(ones) else "0" for _ in range(count)) or "."

    def mask(self, count, wrong=0.08):
        if self.chance(0.4):
            return "-"
        return self.marks(max(0, count + self.rng.choice((-1, 1, 8))) if self.chance(wrong) else count)


class Author:
    """Writes an input, and has the model beside it so as to know what stands in the tables. A line is about one of them."""

    def __init__(self, rng, most_lines):
        self.rng, self.words, self.tables = rng, Words(rng), model.Tables()
        self.table, self.width = self.tables.narrow, []
        self.lines, self.most_lines, self.is_wrong = [], most_lines, 0.05

    def chance(self, share):
        return self.words.chance(share)

    def turn_to(self, is_wide):
        self.table, self.width = (self.tables.wide, ["wide"]) if is_wide else (self.tables.narrow, [])

    def write(self, *words):
        words = [*self.width, *words]
        gap = lambda: " " * self.rng.randint(1, 3) if self.chance(0.02) else " "
        ends = [" " * self.rng.randint(1, 3) if self.chance(0.015) else "" for _ in range(2)]
        line = ends[0] + "".join(word + gap() for word in words)[:-1].rstrip(" ") + ends[1]
        command = model.read_line(line.encode())
        self.tables.reply(command)
        self.lines.append(line.encode())

    def between(self):
        """Lines that are passed over."""
        if self.chance(0.03):
            noise = bytes(it for it in self.rng.randbytes(self.rng.randint(0, 9)) if it != 10)
            self.lines.append(self.rng.choice((b"", b" ", b"    ", b"#", b"# new 0 prim", b"#" + noise, b"#\t\xff\r")))

    def odd_number(self):
        return self.rng.choice((16, 17, 15, 0, BIG, 2**32, self.rng.randrange(16)))

    def at(self, *kinds):
        """The number of an entry of one of the kinds, mostly."""
        found = [at for at, it in enumerate(self.table.entries) if it and (not kinds or it.kind in kinds)]
        if self.chance(self.is_wrong) or not found:
            filled = [at for at, it in enumerate(self.table.entries) if it]
            return self.rng.choice(filled) if filled and self.chance(0.6) else self.odd_number()
        return self.rng.choice(found)

    def empty(self):
        found = [at for at, it in enumerate(self.table.entries) if it is None]
        if self.chance(self.is_wrong) or not found:
            return self.odd_number()
        return self.rng.choice(found[:6])

    def entry(self, at):
        return self.table.entries[at] if at < model.ENTRIES else None

    def length(self, at):
        entry = self.entry(at)
        return len(entry.stored) if entry else self.rng.randint(0, 4)

    def sort(self, at):
        """The sort of an entry's items, mostly."""
        entry = self.entry(at)
        if not entry or self.chance(self.is_wrong):
            return self.rng.choice("vbxt")
        return entry.sort

    def place(self, at):
        length = self.length(at)
        if self.chance(self.is_wrong) or not length:
            return self.rng.choice((length, length + 1, BIG, 0, 2**63))
        return self.rng.randrange(length)

    def some(self, make):
        count = self.rng.choice((65, 130, 300)) if self.chance(0.01) else self.rng.choice((0, 1, 1, 2, 3, 4, 5, 9, 17))
        return [make() for _ in range(count)]

    def number(self, value):
        return self.words.number(value)

    # Lines that make an entry

    def new(self, kind=None):
        self.write("new", self.number(self.empty()), kind or self.rng.choice(model.KINDS))

    def null(self):
        kind = self.rng.choice(model.FROZEN if self.chance(0.9) else model.KINDS)
        count = self.rng.choice(HUGE) if self.chance(0.05) else self.rng.choice(COUNTS)
        self.write("null", self.number(self.empty()), kind, self.number(count))

    def slots(self):
        kind = self.rng.choice(model.FROZEN + model.NULLABLE if self.chance(0.95) else model.KINDS)
        sort, nulls = model.SORTS[kind], self.rng.choice((0, 0.3, 0.3, 1))
        if self.chance(0.03):
            sort = self.rng.choice("vbxt")
        self.write("slots", self.number(self.empty()), kind, *self.some(lambda: self.words.slot(sort, nulls)))

    def items(self):
        kind = self.rng.choice(model.KINDS)
        sort = self.rng.choice("vbxt") if self.chance(0.03) else model.SORTS[kind]
        self.write("items", self.number(self.empty()), kind, *self.some(lambda: self.words.item(sort)))

    def parts(self):
        kind = self.rng.choice(model.KINDS)
        sort = model.SORTS[kind]
        name = self.rng.choice(model.TYPES if self.chance(0.12) else self.table.right_types[sort])
        if sort in "xt":
            vectors, count = self.pieces(kind, sort)
        else:
            values = self.some(lambda: self.words.signed(self.words.integer()) if sort == "v" else self.rng.choice("01"))
            vectors, count = values if sort == "v" else ["".join(values) or "."], len(values)
        mask = self.words.mask(count) if kind not in model.VALUES or self.chance(0.1) else "-"
        self.write("parts", self.number(self.empty()), kind, name, mask, *vectors)

    def pieces(self, kind, sort):
        """Bytes and offsets: mostly a lead, items and a tail, and else bent."""
        rng = self.rng
        lead, tail = (self.words.data() if self.chance(0.4) else b"" for _ in range(2))
        if kind not in model.FROZEN and self.chance(0.85):
            tail = b""
        items = self.some(self.words.data if sort == "x" else self.words.text)
        if sort == "t" and items and self.chance(0.15):
            items[rng.randrange(len(items))] += rng.choice(NOT_TEXT) + self.words.text()
        offsets = [len(lead)]
        for it in items:
            offsets.append(offsets[-1] + len(it))
        data = lead + b"".join(items) + tail
        if self.chance(0.25):
            self.bend(offsets, len(data))
        return ["x" + self.words.hexadecimal(data), *map(self.words.signed, offsets)], max(0, len(offsets) - 1)

    def bend(self, offsets, length):
        at, case = self.rng.randrange(len(offsets)), self.rng.randrange(10)
        if case < 3:
            # Anywhere between its neighbours, and so within a character too.
            low = offsets[at - 1] if at else 0
            high = offsets[at + 1] if at + 1 < len(offsets) else max(low, length)
            offsets[at] = self.rng.randint(low, max(low, high))
        elif case == 3:
            offsets[at] += self.rng.choice((-1, 1, 2, -3))
        elif case == 4:
            offsets[at] = self.rng.choice((-1, -(2**31), 2**31 - 1, length + 1))
        elif case == 5:
            offsets.clear()
        elif case == 6:
            offsets[:] = [self.rng.choice((0, length, length + 1, 5, -1))]
        elif case == 7:
            # More than one fault at once.
            offsets[:] = [self.rng.randint(-1, length + 2) for _ in offsets]
        elif case == 8:
            offsets[:] = sorted(self.rng.randint(0, length) for _ in offsets)
        else:
            offsets[-1] = self.rng.choice((length, length + 1, 2**31 - 1, *([2**31, 2**63 - 1] if self.width else [])))

    # Lines that tell

    def tell(self):
        word = self.rng.choice(("len", "list", "type", "held"))
        self.write(word, self.number(self.at()))

    def tell_frozen(self):
        at = self.at(*model.FROZEN)
        word = self.rng.choice(("nulls", "get", "isnull"))
        self.write(word, self.number(at), *([] if word == "nulls" else [self.number(self.place(at))]))

    def value(self):
        at = self.at(*model.FROZEN, "mutf8", *model.VALUES)
        self.write("value", self.number(at), self.number(self.place(at)))

    def tell_bytes(self):
        kinds = [kind for kind, sort in model.SORTS.items() if sort in "xt"]
        self.write(self.rng.choice(("bytes", "offsets")), self.number(self.at(*kinds)))

    def turns(self):
        far = lambda: self.rng.choice((0, 0, 1, 2, 5, BIG, 2**63))
        turn = lambda: self.rng.choice(("f", "b", "s" + self.number(far())))
        self.write("turns", self.number(self.at()), *self.some(turn))

    def equal(self):
        at = self.at(*model.NULLABLE)
        entry = self.entry(at)
        self.write("equal", self.number(at), self.number(self.at(entry.kind) if entry else self.at()))

    def twins(self):
        """Two builders of the same slots, whose stored values differ under nulls, and mostly nowhere else."""
        kind, ends = self.rng.choice(model.NULLABLE), []
        sort, count = model.SORTS[kind], self.rng.randint(1, 5)
        marks = self.words.marks(count, 0.6)
        make = {"v": self.words.integer, "b": lambda: self.rng.choice("01"), "x": self.words.data, "t": self.words.text}[sort]
        values = [make() for _ in range(count)]
        for _ in range(2):
            ends.append(self.empty())
            values = [it if mark == "1" and self.chance(0.95) else make() for it, mark in zip(values, marks)]
            if sort in "xt":
                lead = self.words.data() if self.chance(0.3) else b""
                offsets = [len(lead) + sum(map(len, values[:it])) for it in range(count + 1)]
                vectors = ["x" + self.words.hexadecimal(lead + b"".join(values)), *map(self.words.signed, offsets)]
            else:
                vectors = [*map(self.words.signed, values)] if sort == "v" else ["".join(values)]
            mask = "-" if "0" not in marks and self.chance(0.5) else marks
            self.write("parts", str(ends[-1]), kind, self.rng.choice(self.table.right_types[sort]), mask, *vectors)
        self.write("equal", *map(str, ends))

    def indexes(self):
        length = self.rng.choice((0, 1, 3, 9, BIG, 2**63))
        key = lambda: self.rng.choice((0, 0, 1, 2, 3, 8, 9, -1, self.words.integer()))
        self.write("indexes", self.number(length), *(self.words.signed(it) for it in self.some(key)))

    def filter(self):
        at = self.at(*model.FROZEN)
        filters = [it for it, of in enumerate(self.table.entries) if of and of.kind == "bool" and len(of.stored) == self.length(at)]
        if not filters and self.chance(0.8):
            filters = [self.empty()]
            nulls, ones = self.rng.choice((0, 0, 0.3)), self.rng.choice((0, 0.1, 0.5, 0.9, 1))
            asks = ["_" if self.chance(nulls) else "b1" if self.chance(ones) else "b0" for _ in range(self.length(at))]
            self.write("slots", str(filters[0]), "bool", *asks)
        by = self.rng.choice(filters) if filters and not self.chance(self.is_wrong) else self.at("bool")
        self.write("filter", self.number(at), self.number(by), self.number(self.empty()))

    def take(self):
        at = self.at(*model.FROZEN)
        length, keys = self.length(at), self.some(lambda: 0)
        if length:
            keys = [self.rng.randrange(length) for _ in keys]
        elif not self.chance(0.2):
            keys = []
        if keys and self.chance(0.12):
            keys[self.rng.randrange(len(keys))] = self.rng.choice((length, length + 1, -1, -length, 2**63 - 1, -(2**63)))
        self.write("take", self.number(at), self.number(self.empty()), *map(self.words.signed, keys))

    # Lines that lead from one table to the other

    def resize(self):
        is_wide = bool(self.width)
        at = self.at("bin", "utf8")
        self.turn_to(not is_wide)
        to = self.empty()
        self.width = []
        self.write("narrow" if is_wide else "widen", self.number(at), self.number(to))

    # Lines that change

    def slice(self):
        at = self.at(*model.FROZEN)
        length = self.length(at)
        place = 0 if self.chance(0.3) else self.rng.randint(0, length)
        count = length - place if self.chance(0.3) else self.rng.randint(0, length - place)
        if self.chance(0.06):
            place, count = self.rng.choice(((BIG, 2), (length + 1, 0), (1, length), (0, BIG), (length, 1), (1, BIG)))
        self.write("slice", self.number(at), self.number(place), self.number(count))

    def clone(self):
        at = self.at(*model.FROZEN) if self.chance(0.7) else self.at()
        self.write("clone", self.number(at), self.number(self.empty()))

    def drop(self):
        self.write("drop", self.number(self.at()))

    def mask(self):
        at = self.at(*model.FROZEN, "mprim", "mbin", "mutf8")
        self.write("mask", self.number(at), self.words.mask(self.length(at)))

    def named(self, sort):
        return ["reverse"] if self.chance(0.5) else ["fill", self.words.item(self.rng.choice("vbxt") if self.chance(0.06) else sort)]

    def applymask(self):
        masked = [at for at, it in enumerate(self.table.entries) if it and it.held and it.kind not in ("mprim", "mbool")]
        at = self.rng.choice(masked) if masked and self.chance(0.7) else self.at(*model.FROZEN, "mbin", "mutf8")
        self.write("applymask", self.number(at), *self.named("b"))

    def applyvalues(self):
        at = self.at("mprim", "bool")
        self.write("applyvalues", self.number(at), *self.named(self.sort(at)))

    def values(self):
        at = self.at("prim", "mprim", "bool")
        sort, count = self.sort(at), self.length(at) + (self.rng.choice((-1, 1)) if self.chance(0.05) else 0)
        self.write("values", self.number(at), *(self.words.item(sort) for _ in range(count)))

    def set(self):
        at = self.at("mprim", "mbool")
        self.write("set", self.number(at), self.number(self.place(at)), self.words.slot(self.sort(at)))

    def overwrite(self):
        at = self.at("prim", "prim", "mprim")
        self.write("write", self.number(at), self.number(self.place(at)), self.words.item(self.sort(at)))

    def push(self):
        at = self.at(*model.GROWING)
        entry = self.entry(at)
        nulls = 0.02 if entry and entry.kind in model.VALUES else 0.25
        self.write("push", self.number(at), self.words.slot(self.sort(at), nulls))

    def on_builder(self):
        self.write(self.rng.choice(("pushnull", "pop", "pop", "shrink")), self.number(self.at(*model.GROWING)))

    def extend(self):
        at = self.at(*model.NULLABLE)
        sort, nulls = self.sort(at), self.rng.choice((0, 0.3, 1))
        self.write("extend", self.number(at), *self.some(lambda: self.words.slot(sort, nulls)))

    def extendvalues(self):
        at = self.at(*model.GROWING)
        sort = self.sort(at)
        self.write("extendvalues", self.number(at), *self.some(lambda: self.words.item(sort)))

    def constant(self):
        at = self.at("mprim")
        count = self.rng.choice(HUGE) if self.chance(0.05) else self.rng.choice(COUNTS[:8])
        if self.chance(0.15):
            self.write("constant", self.number(at), "0", "_")
            self.write("held", self.number(at))
            return
        self.write("constant", self.number(at), self.number(count), self.words.slot(self.sort(at)))

    def join(self):
        at = self.at(*model.GROWING)
        entry = self.entry(at)
        others = [it for it, of in enumerate(self.table.entries) if it != at and of and entry and of.kind == entry.kind]
        other = self.rng.choice(others) if others and not self.chance(self.is_wrong) else self.at()
        self.write("self", self.number(at), self.number(other))

    def reserve(self):
        count, data = (self.rng.choice(HUGE) if self.chance(0.05) else self.rng.choice(COUNTS + [10000]) for _ in range(2))
        self.write("reserve", self.number(self.at(*model.GROWING)), self.number(count), self.number(data))

    def freeze(self):
        self.write("freeze", self.number(self.at(*model.GROWING)))

    def thaw(self):
        self.write("thaw", self.number(self.at(*model.FROZEN)))

    def nullable(self):
        self.write("nullable", self.number(self.at(*model.VALUES)))

    def to(self):
        name = self.rng.choice(model.TYPES) if self.chance(0.1) else self.rng.choice(("Int64", "Date64"))
        self.write("to", self.number(self.at("prim", "mprim")), name)

    def show(self):
        """All that can be told of each entry of a table."""
        for at, entry in enumerate(self.table.entries):
            if entry:
                for word in ("list", "held", "type") + (("bytes", "offsets") if entry.sort in "xt" else ()):
                    self.write(word, str(at))
                self.write("turns", str(at), *["f"] * min(len(entry.stored), 40))

    LINES = {
        new: 4, null: 2, slots: 6, items: 6, parts: 12, tell: 4, tell_frozen: 4, value: 2, tell_bytes: 2, turns: 3,
        equal: 2, twins: 1, indexes: 1, filter: 4, take: 4, resize: 4, slice: 6, clone: 5, drop: 5, mask: 5, applymask: 3, applyvalues: 3, values: 3, set: 3,
        overwrite: 4, push: 5, on_builder: 5, extend: 3, extendvalues: 4, constant: 2, join: 4, reserve: 1, freeze: 5,
        thaw: 7, nullable: 1, to: 2,
    }  # fmt: skip

    def input(self):
        lines, shares = list(self.LINES), list(self.LINES.values())
        wide = self.rng.choice((0, 0, 0.3, 0.9))
        for _ in range(self.rng.randint(1, 3)):
            self.turn_to(self.chance(wide))
            self.rng.choice((Author.slots, Author.items, Author.parts))(self)
        while len(self.lines) < self.most_lines:
            self.between()
            self.turn_to(self.chance(wide))
            filled = sum(it is not None for it in self.table.entries)
            if filled > 8 and self.chance(0.3):
                self.drop()
            else:
                self.rng.choices(lines, shares)[0](self)
        if self.chance(0.9):
            for is_wide in (False, True):
                self.turn_to(is_wide)
                self.show()
        return self.lines


def joined(rng, lines):
    """The input of the lines; the last may lack its line feed."""
    data = b"\n".join(lines)
    return data if rng.random() < 0.25 else data + b"\n"


def random_input(seed, at):
    rng = random.Random(f"random {seed} {at}")
    return joined(rng, Author(rng, rng.randint(5, 80)).input())


# Malformed inputs: one line is bent, and mostly is no command then. The model says whether it is one.

BAD_WORDS = (
    "v v- v+1 v1.0 v0x1 v1v b b2 b00 b-1 x0 xg0 x0g x000 t6 tc3 tff t80 teda080 tc080 tf4908080 t6g X00 T61 V1 B1 - -- -0 +1 "
    "1- 1a 0x1 1e3 . .. 0. 12 2 102 __ _1 *  # fill reverse rev f b s s- s-1 s18446744073709551616 sx ff "
    "18446744073709551616 99999999999999999999999 9223372036854775808 -9223372036854775809 v9223372036854775808 "
    "v-9223372036854775809 v-18446744073709551616 2147483648 -2147483649 4294967296 prim PRIM int64 INT64 Int128 Null Float64 "
    "Decimal mprims vprim vbool text bytes list lists wide narrow widen Wide"
).split()
BAD_BYTES = [b"\t", b"\r", b"\0", b"\x0b", b"\x0c", b"\x1f", b"\x7f", b"\x80", b"\xa0", b"\xff", "é".encode(), "١".encode(), b"\xc2\xa0"]
BAD_LINES = (
    b"\t", b"\r", b" \t ", b" # no remark", b"\xef\xbb\xbfnew 0 prim", b"-", b"\0", b"filters 0 1 2", b"help", b"exit", b"len", b"New 0 prim",
    b"NEW 0 prim", b"new", b"new 0", b"indexes", b"parts", b"applymask 0", b"applymask 0 fill", b"applymask 0 reverse b1",
    b"applyvalues 0 fill v1 v2", b"applymask 0 fill _", b"constant 0 1", b"push 0", b"push 0 v1 v2", b"values 0 _", b"write 0 0 _",
    b"items 0 prim _", b"extendvalues 0 _", b"parts 0 bool Boolean -", b"parts 0 bool Boolean - 1 0", b"parts 0 bool Boolean - -",
    b"parts 0 bin Binary -", b"parts 0 bin Binary - 00 0", b"parts 0 bin Binary - t00 0", b"parts 0 prim Int64", b"parts 0 prim Int64 -0 1",
    b"parts 0 prim Int64 - v1", b"slice 0 0", b"slice 0 0 0 0", b"clone 0", b"self 0", b"reserve 0 1", b"null 0 prim", b"to 0", b"to 0 Int128",
    b"turns 0 F", b"turns 0 s", b"turns 0 s-1", b"turns 0 f1", b"mask 0", b"mask 0 1 1", b"mask 0 _", b"mask 0 1-", b"equal 0", b"get 0", b"filter 0 1", b"filter 0 1 2 3",
    b"filter 0 1 -", b"filter 0 1 _", b"take 0", b"take 0 1 v1", b"take 0 1 0 _", b"take 0 -1", b"take 0 1 +1", b"takes 0 1",
    b"wide", b"wide wide len 0", b"wide widen 0 0", b"wide narrow 0 0", b"Wide len 0", b"wide # len 0", b"widen 0", b"widen 0 1 2", b"narrow", b"narrow 0",
    b"narrow 0 0 0", b"narrow len 0", b"widen v0 0", b"parts 0 bin Binary - x 2147483648", b"wide parts 0 bin LargeBinary - x 9223372036854775808",
    b"new -0 prim", b"new 0 mprim prim", b"# passed over", b"", b"   ",
)  # fmt: skip


def swap(rng, word):
    at = rng.randrange(len(word))
    return word[:at] + bytes([rng.choice(b"0123456789abcdefgxtvbs-_.ABZ")]) + word[at + 1 :]


ENDS = "18446744073709551615 18446744073709551616 18446744073709551617 36893488147419103232 9223372036854775807 9223372036854775808 \
-9223372036854775808 -9223372036854775809 -18446744073709551616 2147483647 2147483648 -2147483648 -2147483649 4294967296 -1 - -- --1 +1".split()
NO_TEXT = [it.hex() for it in NOT_TEXT] + [it.hex()[:-1] for it in CHARACTERS] + [it.hex()[:-2] + "7f" for it in CHARACTERS[7:]]
NO_BYTES = "6 666 6g g6 6-1 0x00 61. c3a \u0660".split()


def near(rng, word):
    """A word that is nearly of the same sort."""
    head, rest = word[:1], word[1:]
    if word.lstrip(b"-").isdigit():
        return rng.choice(ENDS).encode()
    if head in b"vs":
        return head + rng.choice(ENDS[4:9] if head == b"v" and rng.random() < 0.5 else ENDS).encode()
    if head in b"xt":
        return head + rng.choice((rest, b"")) + rng.choice(NO_TEXT if head == b"t" and rng.random() < 0.6 else NO_BYTES).encode()
    return word + rng.choice(BAD_WORDS).encode()


def bent_words(rng, words):
    at, case = rng.randrange(len(words)), rng.randrange(14)
    if case > 8:
        at = rng.randrange(1, len(words)) if len(words) > 1 else 0
        words[at] = near(rng, words[at])
    elif case == 0:
        del words[at]
    elif case == 1:
        words.insert(rng.randint(0, len(words)), rng.choice(words))
    elif case == 2:
        words.insert(rng.randint(1, len(words)), rng.choice(BAD_WORDS).encode())
    elif case in (3, 4):
        words[at] = rng.choice(BAD_WORDS).encode()
    elif case == 5:
        words[at] = swap(rng, words[at])
    elif case == 6:
        words[at] = rng.choice((words[at].upper(), words[at].swapcase(), words[at][:-1], words[at] + b"0", words[at] + words[at]))
    elif case == 7:
        words[at] = rng.choice((b"-", b"+", b"0", b"x", b"v")) + words[at]
    else:
        words[:] = words[: at + 1]
    return b" ".join(words)


def bent_line(rng, line):
    case = rng.randrange(12)
    if case == 0:
        return rng.choice(BAD_LINES)
    if case in (1, 2, 3):
        at = rng.choice((0, len(line), rng.randint(0, len(line))))
        return line[:at] + rng.choice(BAD_BYTES) + line[at:]
    words = [word for word in line.split(b" ") if word]
    return bent_words(rng, words) if words else rng.choice(BAD_LINES)


def malformed_input(seed, at):
    rng = random.Random(f"malformed {seed} {at}")
    lines = Author(rng, rng.randint(1, 20)).input()
    for _ in range(rng.choice((1, 1, 1, 2))):
        place = rng.randrange(len(lines))
        lines[place] = bent_line(rng, lines[place])
    return joined(rng, lines)


if __name__ == "__main__":
    import sys

    form, seed, number = sys.argv[1:]
    sys.stdout.buffer.write({"random": random_input, "malformed": malformed_input}[form](seed, int(number)))
