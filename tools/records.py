"""What ./verify --all records: verified.tsv, the crates that it proved, and docs/costs.tsv, what its steps took."""
import os

import repository

VERIFIED, COSTS = f"{repository.TOP}/verified.tsv", f"{repository.TOP}/docs/costs.tsv"
HEAD = """# Crates of tests and examples and the benchmark, each with a sum of its files without comments when ./verify --all last proved it.
# ./verify proves those that have changed since. Written by ./verify --all.
"""
COSTS_HEAD = """# What ./verify --all took: how many processors there were, a step or a proof, its seconds of processors, and of the clock.
# A proof that was kept from an earlier run has the figure of the run that made it. Written by ./verify --all.
"""


def rows(path):
    """Returns the rows of a record; none if there is no record yet."""
    if not os.path.isfile(path):
        return []
    return [it.split("\t") for it in repository.read(path).splitlines() if it and not it.startswith("#")]


def beside_product(here):
    """Returns the crates that are no part of the product, in the order of crates.txt."""
    return [it for it in here.crates.values() if it.tier not in repository.PRODUCT]


def changed(here):
    """Returns the names of the crates beside the product whose files are others than those recorded."""
    recorded = dict(rows(VERIFIED))
    return [it.name for it in beside_product(here) if recorded.get(it.name) != it.sum()]


def write_rows(path, head, found):
    text = head + "".join("\t".join(it) + "\n" for it in found)
    with open(f"{path}.new", "w", encoding="utf-8") as out:
        out.write(text)
    os.replace(f"{path}.new", path)


def write(here, run, took, processors):
    """Records that every crate is proved, and what each step and each proof took."""
    write_rows(VERIFIED, HEAD, [(it.name, it.sum()) for it in beside_product(here)])
    found, count = {(it[0], it[1]): it for it in rows(COSTS)}, str(processors)
    for step in run.steps:
        found[count, step.name] = (count, step.name, f"{step.processor:.0f}", f"{step.seconds:.0f}")
    for name, seconds in took.items():
        found[count, f"proof of {name}"] = (count, f"proof of {name}", str(seconds), "-")
    names = {step.name for step in run.steps} | {f"proof of {of}{it}" for it in here.crates for of in ("", "tests of ")}
    write_rows(COSTS, COSTS_HEAD, [found[it] for it in sorted(found) if it[1] in names])
