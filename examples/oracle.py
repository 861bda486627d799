#!/usr/bin/env python3
"""Compares the library's kernels with plain lists on random cases.

usage: examples/oracle.py PROGRAM [SEED] [COUNT]
       examples/oracle.py --lines [SEED] [COUNT]

PROGRAM is that of crates/example_kernels, which runs a kernel on the arrays of each line; main.rt says what a line is.
This makes COUNT lines (1000) from SEED, which is any word (1), and computes what each kernel returns with lists, in
which None is a null: it was written from docs/USING.md and not from the sources. It prints each line for which the
program printed something else. With --lines it prints the lines, each followed by what is expected.

Status: 0 if nothing differs, 1 if something does, 2 if the words are wrong.
"""
import operator
import os
import random
import re
import subprocess
import sys

sys.dont_write_bytecode = True
sys.path.insert(0, os.path.join(os.path.dirname(os.path.realpath(__file__)), "..", "tools"))
import script

# Lengths, among them those around words of marks; and how many slots lie before and after a slice.
LENGTHS = [7, 8, 9, 16, 17, 31, 32, 33, 63, 63, 64, 64, 65, 65, 127, 128, 129, 200]
AROUND = [0, 1, 1, 2, 3, 7, 8, 9, 13, 64, 70]
NAMES = {"i8": "Int8", "i16": "Int16", "i32": "Int32", "i64": "Int64", "i128": "Decimal(32, 32)", "u8": "UInt8", "u16": "UInt16",
    "u32": "UInt32", "u64": "UInt64", "i256": "Decimal256(32, 32)", "days_ms": "Interval(DayTime)",
    "months_days_ns": "Interval(MonthDayNano)", "bool": "BooleanArray", "binary": "BinaryArray", "large_binary": "LargeBinaryArray",
    "utf8": "Utf8Array", "large_utf8": "LargeUtf8Array"}
SIGNED, UNSIGNED = ["i8", "i16", "i32", "i64", "i128"], ["u8", "u16", "u32", "u64"]
INTEGERS, BOOLEANS = SIGNED + UNSIGNED, ["bool"]
BYTES, TEXTS, INTERVALS = ["binary", "large_binary"], ["utf8", "large_utf8"], {"days_ms": (32, 32), "months_days_ns": (32, 32, 64)}
ORDERED, ALL = INTEGERS + BOOLEANS + BYTES + TEXTS, list(NAMES)
# Bytes that a line can hold, as characters of these numbers; characters of texts; and texts that are numbers, or nearly.
LETTERS = [it for it in range(256) if chr(it) not in " ,|\n\r"]
CHARACTERS = "abz09-+_'\"\\[]éß漢😀\x7f\t"
DECIMALS = ["0", "-0", "+0", "7", "+7", "-7", "007", "127", "128", "-128", "-129", "255", "32767", "32768", "-32768", "-32769",
    "9223372036854775807", "9223372036854775808", "-9223372036854775808", "18446744073709551615", "18446744073709551616", "-", "+", "",
    "1_0", "--1", "+-1", "1a", "a1", "99999999999999999999999999999999999999999999"]


# What types hold, and how it is written.


def ends(kind):
    """The least and the greatest number of a type."""
    bits = int(kind[1:])
    return (-(2 ** (bits - 1)), 2 ** (bits - 1) - 1) if kind[0] == "i" else (0, 2**bits - 1)


def fits(kind, number):
    least, greatest = ends(kind)
    return least <= number <= greatest


def wrap(kind, number):
    least, greatest = ends(kind)
    return (number - least) % (greatest - least + 1) + least


def near(kind, number):
    least, greatest = ends(kind)
    return min(max(number, least), greatest)


def random_number(rng, kind):
    least, greatest = ends(kind)
    some = [least, least + 1, greatest, greatest - 1, 0, 0, 1, 2, 3, 10, rng.randint(least, greatest), rng.randint(0, 100)]
    return rng.choice(some + [-1, -2, -10] * (least < 0))


def random_value(rng, kind):
    if kind in INTERVALS:
        return tuple(random_number(rng, f"i{bits}") for bits in INTERVALS[kind])
    if kind == "bool":
        return rng.random() < 0.5
    if kind in BYTES:
        if rng.random() < 0.3:
            return rng.choice(DECIMALS).encode()
        return bytes(rng.choices([0, 97, 255, *rng.choices(LETTERS, k=3)], k=rng.choice([0, 1, 1, 2, 3, 8, 20])))
    if kind in TEXTS:
        return rng.choice(DECIMALS) if rng.random() < 0.3 else "".join(rng.choices(CHARACTERS, k=rng.choice([0, 1, 1, 2, 3, 8, 20])))
    return random_number(rng, kind)


def zero(kind):
    return {"bool": False, **dict.fromkeys(BYTES, b""), **dict.fromkeys(TEXTS, ""), "days_ms": (0, 0), "months_days_ns": (0, 0, 0)}.get(kind, 0)


def word_of_value(kind, value):
    """A value as a line has it."""
    if kind == "i256":
        return f"{value >> 128}:{value % 2**128}"
    if kind in INTERVALS:
        return ":".join(map(str, value))
    if kind in BYTES:
        return "'" + value.decode("latin-1")
    return "'" + value if kind in TEXTS else str(value).lower()


def quoted(text):
    """A text in quotes: quotes, backslashes and the control characters of ASCII are escaped."""
    escapes = {'"': '\\"', "\\": "\\\\", "\0": "\\0", "\t": "\\t"}
    escapes |= {chr(it): f"\\u{{{it:x}}}" for it in [*range(32), 127] if chr(it) not in escapes}
    return '"' + "".join(escapes.get(it, it) for it in text) + '"'


def shown_value(kind, value):
    """A value as it is printed."""
    if kind in INTERVALS:
        return f"{kind}({', '.join(map(str, value))})"
    if kind in BYTES:
        return str(list(value))
    return quoted(value) if kind in TEXTS else str(value).lower()


def array(kind, slots):
    """An array as it is printed."""
    return f"{NAMES[kind]}[{', '.join('None' if it is None else shown_value(kind, it) for it in slots)}]"


def option(kind, slot):
    return "None" if slot is None else f"Some({shown_value(kind, slot)})"


# Cases.


class Case:
    """Random operands of a kernel, and the line that has them."""

    def __init__(self, rng, kernel, kind):
        self.rng, self.kernel, self.kind, self.nulls = rng, kernel, kind, rng.choice([0, 0, 0.1, 0.5, 0.95, 1])
        self.pool = [random_value(rng, kind) for _ in range(rng.choice([1, 2, 3, 8, 40]))]
        length = rng.choice(LENGTHS) if rng.random() < 0.4 else rng.randint(0, 12)
        self.lhs, lhs = self.slots(kind, length, lambda: rng.choice(self.pool))
        self.rhs, rhs = self.slots(kind, length, lambda: rng.choice(self.pool))
        words = [kernel, kind, lhs, rhs]
        if kernel in ("filter", "if_then_else"):
            share = rng.choice([0, 0.02, 0.5, 0.98, 1])
            self.mask, mask = self.slots("bool", length, lambda: rng.random() < share)
            words.append(mask)
        if kernel.startswith(("take", "sort")):
            wild = rng.choice([0] * 9 + [0.1])
            self.keys, keys = self.slots("i64", rng.choice([0, 1, 2, length, length + 1]), lambda: self.key(length, wild))
            words += ["", keys]
        self.line = " ".join(words)
        self.scalar = self.rhs[0] if self.rhs and self.rhs[0] is not None else zero(kind)
        # The groups of the first operand: the slots of each, in the order in which they appear.
        self.groups = list(dict.fromkeys(self.lhs))

    def key(self, length, wild):
        """Mostly the index of a slot."""
        if self.rng.random() < wild or not length:
            return self.rng.choice([length, length + 1, -1, 2**63 - 1, -(2**63)])
        return self.rng.randrange(length)

    def slots(self, kind, length, value):
        """Random slots, and their word: some with other slots around, from which they are cut."""
        before, after = (self.rng.choice(AROUND) if self.rng.random() < 0.25 else 0 for _ in "ab")
        stored = [value() for _ in range(before + length + after)]
        nulls = [self.has_null(kind) for _ in stored]
        words = ["_" * is_null + word_of_value(kind, it) for it, is_null in zip(stored, nulls)]
        # A null stores something, or nothing of its own.
        words = ["_" if is_null and self.rng.random() < 0.5 else it for it, is_null in zip(words, nulls)]
        shown = [None if is_null else it for it, is_null in zip(stored, nulls)][before : before + length]
        return shown, ",".join(words) + f"|{before}|{length}" * (before + after > 0)

    def has_null(self, kind):
        # What a null stores is seen by these: as a key, or as bytes that are no text.
        if self.kernel == "take_keys" and kind == "i64" or self.kernel == "to_utf8" and kind in BYTES:
            return False
        return self.rng.random() < self.nulls

    def each(self, f):
        return [None if it is None else f(it) for it in self.lhs]

    def pairs(self, f):
        return [None if a is None or b is None else f(a, b) for a, b in zip(self.lhs, self.rhs)]

    def by_group(self, f):
        """What f makes of the valid slots of the second operand in each group of the first; null where there is none."""
        members = [[b for a, b in zip(self.lhs, self.rhs) if a == group and b is not None] for group in self.groups]
        return [f(it) if it else None for it in members]


# Kernels: of each name and type a function from a case to the line that is expected.

KERNELS = {}


def kernel(name, kinds, answer):
    for kind in kinds:
        KERNELS[name, kind] = answer


def same(name, kinds, slots):
    """A kernel whose result has the type of its operands."""
    kernel(name, kinds, lambda case: array(case.kind, slots(case)))


def boolean(name, kinds, slots):
    kernel(name, kinds, lambda case: array("bool", slots(case)))


def refusal(case):
    return f"kernel '{case.kernel}' does not take these operands"


# Comparisons.

for name, test in {"eq": operator.eq, "neq": operator.ne, "lt": operator.lt, "lt_eq": operator.le, "gt": operator.gt, "gt_eq": operator.ge}.items():
    kinds = ALL if name in ("eq", "neq") else ORDERED
    boolean(name, kinds, lambda case, test=test: case.pairs(test))
    boolean(f"{name}_scalar", kinds, lambda case, test=test: case.each(lambda it: test(it, case.scalar)))
    if kinds is ALL:
        boolean(f"{name}_and_validity", kinds, lambda case, test=test: list(map(test, case.lhs, case.rhs)))
        boolean(f"{name}_scalar_and_validity", kinds, lambda case, test=test: [test(it, case.scalar) for it in case.lhs])
boolean("is_null", ALL, lambda case: [it is None for it in case.lhs])
boolean("is_not_null", ALL, lambda case: [it is not None for it in case.lhs])
boolean("equal_hashes", ORDERED, lambda case: list(map(operator.eq, case.lhs, case.rhs)))
kernel("count_valid", ALL, lambda case: str(len([it for it in case.lhs if it is not None])))

# Selections.

same("filter", ALL, lambda case: [it for it, keeps in zip(case.lhs, case.mask) if keeps])
same("concatenate", ALL, lambda case: case.lhs + case.rhs + case.lhs)
same("nullif", ALL, lambda case: [None if a == b else a for a, b in zip(case.lhs, case.rhs)])
same("if_then_else", ALL, lambda case: [None if it is None else a if it else b for it, a, b in zip(case.mask, case.lhs, case.rhs)])


def take(case):
    for key in case.keys:
        if key is not None and key < 0:
            return "error: the dictionary key must fit in a usize"
        if key is not None and key >= len(case.lhs):
            return "error: a dictionary key must be below the length of the dictionary values"
    return array(case.kind, [None if key is None else case.lhs[key] for key in case.keys])


kernel("take", ALL, take)
kernel("take_keys", ALL, take)


# Sorts, least and greatest values, and groups.


def sorted_indexes(case):
    """The indexes in the order that the kernel's name says; equal slots stay in theirs."""
    valid = [i for i, it in enumerate(case.lhs) if it is not None]
    valid.sort(key=lambda i: case.lhs[i], reverse="desc" in case.kernel)
    nulls = [i for i, it in enumerate(case.lhs) if it is None]
    indexes = valid + nulls if "nulls_last" in case.kernel else nulls + valid
    limit = case.keys[0] if case.keys and case.keys[0] is not None and case.keys[0] >= 0 else len(indexes)
    return indexes[:limit]


for end in ("", "_desc", "_nulls_last", "_desc_nulls_last"):
    same(f"sort{end}", ORDERED, lambda case: [case.lhs[i] for i in sorted_indexes(case)])
    kernel(f"sort_to_indices{end}", ORDERED, lambda case: array("u64", sorted_indexes(case)))


def groups(slots):
    distinct = list(dict.fromkeys(slots))
    return f"Groups {{ first: {[slots.index(it) for it in distinct]}, indices: {[distinct.index(it) for it in slots]} }}"


def totals(kind, sums):
    return "error: overflow" if any(it is not None and not fits(kind, it) for it in sums) else array(kind, sums)


def total(case, kind):
    found = sum(it for it in case.lhs if it is not None) if any(it is not None for it in case.lhs) else None
    return option(kind, found) if found is None or fits(kind, found) else "error: overflow"


for name, best in (("min", min), ("max", max)):
    kernel(name, ORDERED, lambda case, best=best: option(case.kind, best((it for it in case.lhs if it is not None), default=None)))
    same(f"group_{name}", ORDERED, lambda case, best=best: case.by_group(best))
kernel("group", ORDERED, lambda case: groups(case.lhs))
kernel("group_refine", ORDERED, lambda case: groups(list(zip(case.lhs, case.rhs))))
kernel("group_rows", ORDERED, lambda case: array("u64", [case.lhs.count(it) for it in case.groups]))
kernel("group_count", ORDERED, lambda case: array("u64", [it or 0 for it in case.by_group(len)]))
kernel("sum", INTEGERS, lambda case: total(case, case.kind))
kernel("sum_wide", INTEGERS, lambda case: total(case, "i128"))
kernel("group_sum", INTEGERS, lambda case: totals(case.kind, case.by_group(sum)))
kernel("group_sum_wide", INTEGERS, lambda case: totals("i128", case.by_group(sum)))


# Arithmetic.


def quotient(a, b):
    """The quotient, rounded toward zero."""
    found = abs(a) // abs(b)
    return found if (a < 0) == (b < 0) else -found


def remainder(a, b):
    return a - b * quotient(a, b)


def checked(kind, f):
    """What f makes of two numbers; null if the divisor is zero, or if it, or the quotient, does not fit."""

    def compute(a, b):
        if f in (quotient, remainder) and (b == 0 or not fits(kind, quotient(a, b))):
            return None
        return f(a, b) if fits(kind, f(a, b)) else None

    return compute


def arithmetic(name, form):
    """Kernels of two arrays, and of an array and a number; form makes the function of a type."""
    same(name, INTEGERS, lambda case: case.pairs(form(case.kind)))
    same(f"{name}_scalar", INTEGERS, lambda case: case.each(lambda it: form(case.kind)(it, case.scalar)))


def division(name, f):
    """Kernels that require that no valid slot is divided by zero."""

    def compute(case, other):
        if any(a is not None and b == 0 for a, b in zip(case.lhs, other)) or (case.kernel.endswith("scalar") and case.scalar == 0):
            return refusal(case)
        pairs = zip(case.lhs, other)
        return array(case.kind, [None if a is None or b is None else wrap(case.kind, f(a, b)) for a, b in pairs])

    kernel(name, INTEGERS, lambda case: compute(case, case.rhs))
    kernel(f"{name}_scalar", INTEGERS, lambda case: compute(case, [case.scalar] * len(case.lhs)))


for name, f in {"add": operator.add, "sub": operator.sub, "mul": operator.mul}.items():
    for words in (name, f"wrapping_{name}"):
        arithmetic(words, lambda kind, f=f: lambda a, b: wrap(kind, f(a, b)))
    arithmetic(f"saturating_{name}", lambda kind, f=f: lambda a, b: near(kind, f(a, b)))
    arithmetic(f"checked_{name}", lambda kind, f=f: checked(kind, f))
for name, f in {"div": quotient, "rem": remainder}.items():
    division(name, f)
    arithmetic(f"checked_{name}", lambda kind, f=f: checked(kind, f))
same("negate", INTEGERS, lambda case: case.each(lambda it: wrap(case.kind, -it)))
same("checked_negate", INTEGERS, lambda case: case.each(lambda it: -it if fits(case.kind, -it) else None))

# Casts.

for to in INTEGERS:
    kernel(f"to_{to}", INTEGERS, lambda case, to=to: array(to, case.each(lambda it: it if fits(to, it) else None)))
    kernel(f"as_{to}", INTEGERS, lambda case, to=to: array(to, case.each(lambda it: wrap(to, it))))
boolean("to_boolean", INTEGERS, lambda case: case.each(bool))
kernel("to_utf8", INTEGERS, lambda case: array("utf8", case.each(str)))
kernel("to_binary", INTEGERS, lambda case: array("large_binary", case.each(lambda it: str(it).encode())))
for to in ("i8", "u64"):
    kernel(f"to_{to}", BOOLEANS, lambda case, to=to: array(to, case.each(int)))
kernel("to_utf8", BOOLEANS, lambda case: array("large_utf8", case.each(lambda it: str(int(it)))))
kernel("to_binary", BOOLEANS, lambda case: array("binary", case.each(lambda it: str(int(it)).encode())))
for kind, to in zip(TEXTS, BYTES):
    kernel("to_binary", [kind], lambda case, to=to: array(to, case.each(str.encode)))


def parsed(kind, text):
    """The number that a text is, as Rust reads it."""
    if not re.fullmatch(b"[+-]?[0-9]+" if kind[0] == "i" else b"[+]?[0-9]+", text):
        return None
    return int(text) if fits(kind, int(text)) else None


for to in ("i16", "u64"):
    kernel(f"to_{to}", BYTES, lambda case, to=to: array(to, case.each(lambda it: parsed(to, it))))
for to in ("i8", "i64"):
    kernel(f"to_{to}", TEXTS, lambda case, to=to: array(to, case.each(lambda it: parsed(to, it.encode()))))


def as_text(case):
    try:
        return array("large_utf8" if case.kind == "large_binary" else "utf8", case.each(bytes.decode))
    except UnicodeDecodeError:
        return "error: every text between two offsets must be UTF-8"


kernel("to_utf8", BYTES, as_text)
for kinds, size in ((BYTES, len), (TEXTS, lambda it: len(it.encode()))):
    for kind, to in zip(kinds, ("i32", "i64")):
        kernel("length", [kind], lambda case, size=size, to=to: array(to, case.each(size)))


# Logic. In three-valued logic a null is a truth that is not known.


def kleene_and(a, b):
    return False if a is False or b is False else None if a is None or b is None else True


def kleene_or(a, b):
    return True if a or b else None if a is None or b is None else False


def logic(name, f):
    """Kernels of two arrays, and of an array and the first slot of the second, which may be null."""
    boolean(name, BOOLEANS, lambda case: list(map(f, case.lhs, case.rhs)))
    boolean(f"{name}_scalar", BOOLEANS, lambda case: [f(it, case.rhs[0]) for it in case.lhs])


logic("and", lambda a, b: None if a is None or b is None else a and b)
logic("or", lambda a, b: None if a is None or b is None else a or b)
logic("kleene_and", kleene_and)
logic("kleene_or", kleene_or)
boolean("not", BOOLEANS, lambda case: case.each(operator.not_))
kernel("any", BOOLEANS, lambda case: shown_value("bool", True in case.lhs))
kernel("all", BOOLEANS, lambda case: shown_value("bool", all(case.lhs)))
kernel("kleene_any", BOOLEANS, lambda case: option("bool", True if True in case.lhs else None if None in case.lhs else False))
kernel("kleene_all", BOOLEANS, lambda case: option("bool", False if False in case.lhs else None if None in case.lhs else True))


# Comparing.

BATCH, TOLD = 2000, 20
# The types of each kernel.
TYPES = {name: [kind for other, kind in KERNELS if other == name] for name, _ in KERNELS}


def cases(seed, count):
    """Lines, each with what is expected; the nth depends on the seed and n alone."""
    for n in range(count):
        rng = random.Random(f"{seed} {n}")
        name = rng.choice(list(TYPES))
        case = Case(rng, name, rng.choice(TYPES[name]))
        yield case.line, KERNELS[case.kernel, case.kind](case)


def replies(program, lines):
    try:
        ran = subprocess.run([program], input="".join(f"{it}\n" for it in lines).encode(), stdout=subprocess.PIPE, check=False)
    except OSError as error:
        sys.exit(f"oracle.py: '{program}' can't be run: {error.strerror}")
    if ran.returncode:
        print(f"the program ended with status {ran.returncode}")
    came = ran.stdout.decode(errors="replace").split("\n")[:-1]
    return came + ["nothing"] * (len(lines) - len(came))


def compare(program, seed, count):
    made, different = cases(seed, count), 0
    for _ in range(0, count, BATCH):
        batch = [it for it, _ in zip(made, range(BATCH))]
        for (line, wanted), came in zip(batch, replies(program, [it[0] for it in batch])):
            different += came != wanted
            if came != wanted and different <= TOLD:
                print(f"{line}\n    expected {wanted}\n    but came {came}", flush=True)
    print(f"{count} cases, {different} differ")
    return different != 0


def main(words):
    if not 1 <= len(words) <= 3 or not words[0] or (words[0] != "--lines" and words[0].startswith("-")) or not all(map(str.isdecimal, words[2:])):
        raise script.WrongWords
    seed, count = (words[1:] + ["1", "1000"][len(words) - 1 :])[:2]
    if words[0] != "--lines":
        return compare(os.path.abspath(words[0]), seed, int(count))
    for line, wanted in cases(seed, int(count)):
        print(f"{line}\n    {wanted}")
    return 0


if __name__ == "__main__":
    script.run(__doc__, main)
