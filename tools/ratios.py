"""Reads the figures of docs/ratios.svg, as tools/plot_ratios draws it, compares docs/PERFORMANCE.md with them, and
reads which lines of the comparison stand beside plain loops. tools/repository_test tries it."""
import os
import re

# The comparison's driver, and a line of it, with what it is compared with.
DRIVER = os.path.join(os.path.dirname(os.path.realpath(__file__)), "comparison/driver/src/bin/bench_rattle.rs")
SIDE = re.compile(r'\bside!\(\w+, \w+, (?:format!\()?"([a-z]+_).*?\|\w+\|', re.S)

# A row of the picture is the name of a line, and for each processor a bar, a point and the median.
MEDIAN = r"<line[^>]*>\n<circle[^>]*>\n<text[^>]*>([\d.]+)</text>\n"
ROW = re.compile(rf'<text[^>]*text-anchor="end"[^>]*>(\w+)</text>\n{MEDIAN}{MEDIAN}')
# A cell with the name of a line, or of several that have the same figures, and those of both processors.
CELLS = re.compile(r"\| (`\w+`(?:, `\w+`)*) \| ([\d.]+) \| ([\d.]+) \|")
# The document names each line beside arrow2 above this, but those of the validation of text, of which it gives ranges.
MOST, APART = 1.03, "utf8_try_new_"


def ratios_of(picture):
    """Returns the medians of each line of a picture, for both processors, as they are written there."""
    return {name: (first, second) for name, first, second in ROW.findall(picture)}


def faults_of(picture, page, loops):
    """Returns in which figures a document differs from a picture, and which lines it should name and does not. Names
    that begin with one of `loops` are of lines beside plain loops."""
    ratios, found = ratios_of(picture), []
    for names, *figures in CELLS.findall(page):
        name = re.match(r"`(\w+)`", names)[1]
        if name in ratios and ratios[name] != tuple(figures):
            found.append(f"{name} is {' and '.join(figures)}, and {' and '.join(ratios[name])} in the picture")
    named = re.findall(r"`(\w+)`", " ".join(names for names, *_ in CELLS.findall(page)))
    for name, medians in ratios.items():
        is_named = any(name == it or it.startswith("_") and name.endswith(it) for it in named)
        if max(map(float, medians)) > MOST and not name.startswith((APART, *loops)) and not is_named:
            found.append(f"names no line {name}, which is {' and '.join(medians)} in the picture")
    return found


def loops_of(driver):
    """Returns the words with which the names of those lines of a driver begin that stand beside plain loops."""
    return tuple(sorted({it[1] for it in SIDE.finditer(driver) if "plain::" in it[0]}))
