"""The steps of ./test: what is tried without a proof."""
import os
import shutil

from cases import OWN
from repository import TOP, Repository, read
from steps import Step

# Where the examples of a program lie, and with which ending.
EXAMPLES = {"arrow_cli": ("examples", ".txt"), "example_csv": ("examples/csv", ".csv")}
VENDOR, REFUSALS = "examples/check_vendor", "tests_refusals"
# What is neither a test nor a program, as words of a command, whose first is the step's name.
OTHERS = (
    ["tools/check_docs"],
    ["tools/contracts", "--check"],
    ["tools/check_crates"],
    ["tools/check_commits"],
    ["tools/measure"],
    ["tools/repository_test"],
    ["tools/try_test"],
    ["tools/check_scripts"],
    ["examples/check_run"],
)


def lay_cases(name, room):
    """Copies the input that a program has in its folder, and its examples, as tools/try wants them."""
    to = f"{room}/cases/{name}"
    os.makedirs(to)
    for part, ending in (("stdin", ""), ("stdout", ".stdout")):
        source = f"{TOP}/crates/{name}/{part}"
        shutil.copyfile(source if os.path.isfile(source) else os.devnull, f"{to}/{OWN}{ending}")
    folder, ending = EXAMPLES.get(name, ("", None))
    for file in sorted(os.listdir(f"{TOP}/{folder}")) if ending else ():
        if not file.endswith(ending):
            continue
        case = file[: -len(ending)]
        shutil.copyfile(f"{TOP}/{folder}/{file}", f"{to}/{case}")
        shutil.copyfile(f"{TOP}/{folder}/{case}.status", f"{to}/{case}.status")
        with open(f"{TOP}/{folder}/{case}.stdout", "rb") as wanted, open(f"{to}/{case}.stdout", "wb") as out:
            # The toolchain calls what it tries `program`.
            out.write(wanted.read().replace(f"Usage: {name} ".encode(), b"Usage: program "))
        if os.path.isfile(f"{TOP}/{folder}/{case}.args"):
            with open(f"{to}/{case}.args", "w", encoding="utf-8") as out:
                out.write("".join(f"{it}\n" for it in read(f"{TOP}/{folder}/{case}.args").split()))


def steps_of_tests(room, names):
    """The tests of these crates as one step, and those of refused memory, which take the program that it keeps."""
    title, kept = ", ".join(names), f"{room}/tests"
    if REFUSALS not in names:
        return [Step(title, ["tools/try", *names])]
    words = ["./refusals", "--unproved", kept]
    return [
        Step(title, ["tools/try", "--refusable", kept, *names]),
        Step(f"{REFUSALS} with memory refused", words, [title]),
    ]


def step_of_programs(room, names, is_vendored):
    """These programs as one step, over the copy of the library that the step of ./vendor makes, if that runs."""
    for it in names:
        lay_cases(it, room)
    title, words = ", ".join(names), ["tools/try", "--cases", f"{room}/cases"]
    if not is_vendored:
        return Step(title, [*words, *names])
    title, words = f"{title}, first program of docs/USING.md", [*words, "--over", f"{room}/vendored"]
    return Step(title, [*words, "first", *names], [VENDOR])


def all_steps(room, words=()):
    """The steps, or of them the parts whose names begin with one of these words; those first that take longest."""

    def is_chosen(name):
        return not words or name.startswith(tuple(words))

    crates = [it for it in Repository().crates.values() if is_chosen(it.name)]
    programs = [it.name for it in crates if it.is_program]
    with_tests = [it.name for it in crates if it.has_tests and not it.is_program]
    is_vendored, found = is_chosen(VENDOR), []
    if is_vendored:
        found.append(Step(VENDOR, [VENDOR, *[room] * bool(programs)]))
    if with_tests:
        found += steps_of_tests(room, with_tests)
    if programs:
        found.append(step_of_programs(room, programs, is_vendored))
    return found + [Step(it[0], it) for it in OTHERS if is_chosen(it[0])]


def names():
    """The names by which parts of the steps are chosen."""
    crates = [it.name for it in Repository().crates.values() if it.is_program or it.has_tests]
    return [VENDOR, *crates, *(it[0] for it in OTHERS)]
