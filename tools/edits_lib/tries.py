"""Tries edits: applies those of different functions to one copy of a crate, checks these functions together, and says of
each what the check's answer means."""
import os
import re
import shutil
import subprocess
import tempfile
import threading
import time

from repository import read
from rt_syntax import functions_of

from .crates import PARTS

# A message of the prover that names something which the edit took away.
NAME_IS_GONE = re.compile(r"has no field|is not in scope|has no `|is no name|was not admitted")
# What stands for the goal of an error in a proof file that names none.
UNNAMED = "an answer"


class Stopped(Exception):
    """Raised in place of a process that is no longer wanted."""


class Runs:
    """The processes that are running, so that all of them can be stopped."""

    def __init__(self):
        self.lock, self.running, self.is_stopped = threading.Lock(), set(), False

    def output(self, words, folder):
        """Runs a command in a folder, and returns what it writes to both streams."""
        how = {"cwd": folder, "stdin": subprocess.DEVNULL, "stdout": subprocess.PIPE, "stderr": subprocess.STDOUT}
        with self.lock:
            if self.is_stopped:
                raise Stopped
            run = subprocess.Popen(words, text=True, errors="replace", **how)
            self.running.add(run)
        said = run.communicate()[0]
        with self.lock:
            self.running.discard(run)
            if self.is_stopped:
                raise Stopped
        return said, run.returncode

    def stop(self):
        with self.lock:
            self.is_stopped = True
            for run in self.running:
                run.terminate()


class Answer:
    """What a check says, function by function."""

    def __init__(self, output):
        lines = [it for it in output.splitlines() if not it.startswith("so far:")]
        faults = "\n".join(it for it in lines if it.startswith("rattle: error"))
        self.rejected = [it for it in lines if re.match(r"(?:\./)?src/\S+?:\d+:\d+: error\[", it)]
        self.unknown = re.findall(r"has no (?:function|module|type)[^`]*`([^`]+)`", faults)
        self.several = re.findall(r"several functions are named `([^`]+)`: help: write one of ([^\n]*)", faults)
        self.failed = next((it for it in lines if it.startswith(("rattle: error", "rattle: no verdict"))), None)
        self.ended = any(re.match(r"(?:only|logic)=", it) for it in lines)
        self.verdicts, self.goals, self.broken, self.notes = {}, {}, {}, []
        for at, line in enumerate(lines):
            self.read_verdict(line)
            self.read_error(line, lines[at + 1 : at + 2])
            note = re.match(r"note: (src/\S+?):(\d+):\d+: it is not proved .*?\(`([^`]+)`\)", line)
            if note:
                self.notes.append((note[1], int(note[2]), note[3]))

    def read_verdict(self, line):
        verdict = re.match(r"fn (\S+): (.*)", line)
        if verdict:
            self.verdicts[verdict[1]] = verdict[2]
            tried = verdict[2].partition("did not prove ")[2]
            self.goals.setdefault(verdict[1], []).extend([it for it in re.findall(r"`([^`]+)`", tried) if "::" not in it])

    def read_error(self, line, later):
        """Reads an error in a proof file, whose text may go on in a later line: the function's path, whether a name is gone,
        the file and the answer."""
        error = re.match(r"(?:\./)?proofs/(\S+)/(\w+)\.antt:\d+:\d+: error: (?:`([^`]+)`: )?(.*)", line)
        if error:
            is_gone = NAME_IS_GONE.search("\n".join([error[4], *(it for it in later if it.startswith("  "))]))
            path = error[1].replace("/+", "/").lstrip("+").replace("/", "::")
            self.broken.setdefault(path, []).append((bool(is_gone), error[2], error[3] or UNNAMED))

    def open_goals(self, crate, name, spans):
        """The goals of a function that its own body leaves open, by its lines (None for all of the crate), and whether a name
        that its proof cites is gone.

        Where an answer cites a gone name, the goals that have answers may be open for that alone; one without an answer is
        the edit's own. Where an invariant cites one, any goal may be open for that."""
        broken = self.broken.get(name[len(crate.name) + 2 :], [])
        gone = {file for is_gone, file, _ in broken if is_gone}
        goals = [goal for is_gone, _, goal in broken if not is_gone]
        goals += self.goals.get(name, [])
        answered = answered_goals(crate, name) if gone else set()
        if gone <= {"Answers"}:
            is_inside = lambda file, line: any(file == at and first <= line <= last for at, first, last in spans)
            noted = (goal for file, line, goal in self.notes if spans is None or is_inside(file, line))
            goals += [goal for goal in noted if goal not in answered]
        return list(dict.fromkeys(goals)), bool(gone)


def answered_goals(crate, name):
    """The goals of a function that the proof files of the unedited crate answer."""
    *folders, last = name.split("::")[1:]
    files = ("/".join([crate.folder, "proofs", *folders, mark + last, "Answers.antt"]) for mark in ("", "+"))
    return {goal for it in files if os.path.isfile(it) for goal in re.findall(r"\bgoal\.([^\s.,;(){}]+)", read(it))}


def apply(edits, folder):
    """Applies edits to a copy, and returns those that another's text leaves no place for."""
    left = []
    for edit in edits:
        texts, is_well = {}, True
        for file, old, new in edit.pairs:
            text = texts.setdefault(file, read(f"{folder}/{file}"))
            is_well = is_well and text.count(old) == 1
            texts[file] = text.replace(old, new)
        if not is_well:
            left.append(edit)
            continue
        for file, text in texts.items():
            with open(f"{folder}/{file}", "w", encoding="utf-8") as out:
                out.write(text)
    return left


def batches(edits):
    """Parts edits so that no two of a batch are in one function; an edit outside of functions is alone."""
    made = []
    for edit in edits:
        keys = edit.keys()
        fits = (it for it in made if keys and all(other.keys() and not keys & other.keys() for other in it))
        batch = next(fits, None)
        if batch is None:
            made.append([edit])
        else:
            batch.append(edit)
    return made


def refused(goals):
    return f"refused by {', '.join(goals)}"


def settle(edit, crate, answer, folder, is_alone):
    """Sets what is to be said of an edit, unless this batch doesn't settle it."""
    goals, gone, waits, proved = [], False, False, []
    if edit.outside or not edit.places:
        names = {it: None for it in answer.verdicts}
    else:
        names = {}
        for place in edit.places:
            now = [it for it in functions_of(read(f"{folder}/{place.file}")) if it.is_same(place.function)]
            spans = [(place.file, it.first, it.last) for it in now]
            names.update({it: spans for it in answer.verdicts if place.has(it)})
    for name, spans in names.items():
        opened, is_gone = answer.open_goals(crate, name, spans)
        goals += opened
        gone = gone or is_gone
        waits = waits or "which is not proved" in answer.verdicts[name] or "waits" in answer.verdicts[name]
        proved.append(answer.verdicts[name] == "proved")
    if goals:
        edit.goals = sorted(set(goals) - {UNNAMED}) or [UNNAMED]
        edit.said = refused(edit.goals)
    elif names and all(proved) and all(any(it.has(name) for name in names) for it in edit.places):
        edit.said = "proved"
    elif gone:
        edit.said = "hollow: a proof file names what the edit takes away, and no goal is shown to be false"
    elif is_alone:
        unjudged = "not judged: the check said nothing of its function"
        edit.said = "hollow: only a function that it calls fails" if waits else unjudged


def split_rejected(edits, answer, folder):
    """After the compiler's rejection: says so of the edit that a message points into, and returns the others in batches."""
    why = answer.rejected[0] if answer.rejected else answer.failed or "the check stopped without a verdict"
    if len(edits) == 1:
        edits[0].said = f"can't be applied: {why}"
        return []
    for line in answer.rejected:
        file, number = re.match(r"(?:\./)?(src/\S+?):(\d+):", line).groups()
        hit = [it for it in functions_of(read(f"{folder}/{file}")) if it.first <= int(number) <= it.last]
        for edit in edits:
            if any(place.file == file and place.function.is_same(it) for place in edit.places for it in hit):
                edit.said = edit.said or f"can't be applied: {line}"
    left = [it for it in edits if it.said is None]
    half = len(left) // 2
    return [left[:half], left[half:]] if len(left) == len(edits) else [left] if left else []


class Tries:
    """The tries of one crate's edits. `runs` starts processes, and `say` reports how far it is."""

    def __init__(self, crate, kit, jobs, runs, say):
        self.crate, self.kit, self.jobs, self.runs, self.say = crate, kit, jobs, runs, say

    def all(self, edits, is_settled):
        """Tries edits in as few checks as their functions allow, and hands each that is settled to `is_settled`."""
        left, number, began = batches(edits), 0, time.time()
        self.say(f"{self.crate.name}: {len(edits)} to try, in {len(left)} check{'s' if len(left) > 1 else ''} or more")
        with tempfile.TemporaryDirectory(prefix="edits-") as room:
            if self.crate.kept_proofs():
                shutil.copytree(self.crate.kept_proofs(), f"{room}/kept")
            while left:
                batch, number = left.pop(0), number + 1
                left += self.batch(batch, room)
                for edit in batch:
                    if edit.said is not None:
                        is_settled(edit)
                settled, seconds = sum(it.said is not None for it in edits), time.time() - began
                checks = f"{number} check{'s' if number > 1 else ''}"
                self.say(f"{self.crate.name}: {settled} of {len(edits)} settled by {checks}, {seconds:.0f} seconds")

    def batch(self, edits, room):
        """Tries edits in one check, says what is settled, and returns the others in the batches to try next."""
        with tempfile.TemporaryDirectory(dir=room) as folder:
            for part in PARTS:
                if os.path.isdir(f"{self.crate.folder}/{part}"):
                    shutil.copytree(f"{self.crate.folder}/{part}", f"{folder}/{part}")
            later = apply(edits, folder)
            tried = [it for it in edits if it not in later]
            answer = self.ask(tried, folder, f"{room}/kept")
            if not answer.ended:
                return [*split_rejected(tried, answer, folder), *batches(later)]
            for edit in tried:
                settle(edit, self.crate, answer, folder, len(tried) == 1)
        left = [it for it in tried if it.said is None]
        if len(left) == len(tried):
            return [*[[it] for it in left], *batches(later)]
        return batches([*left, *later])

    def ask(self, edits, folder, kept):
        """Checks what edits change. Where a function has another name than its source lets guess, it is asked for by its last
        word, then by those names of that end that the check lists for its module."""
        places = [place for edit in edits for place in edit.places]
        while True:
            wanted = [it.names() for it in edits]
            if None in wanted:
                self.say(f"{self.crate.name}: checks the whole crate, for an edit of what has no name")
            only = [] if None in wanted else list(dict.fromkeys(name for names in wanted for name in names))
            answer = self.check(folder, kept, only)
            if answer.ended or not self.rename(edits, answer):
                break
        for place in places:
            found = [it for it in answer.verdicts if it.endswith("::" + place.names[0])]
            place.names += found if "::" not in place.names[0] else []
        return answer

    def rename(self, edits, answer):
        """Takes other names for functions that a check doesn't know by those that were guessed, or the whole crate for an edit
        outside of functions; returns whether it did."""
        is_renamed = False
        for place in (place for edit in edits for place in edit.places):
            last = place.function.name
            if place.names[0] in answer.unknown and place.names[0] != last:
                place.names, is_renamed = [last], True
            for name, others in answer.several:
                if place.names[0] == name:
                    module = [it for it in place.file[4:-3].split("/") if it not in ("lib", "main", "mod")]
                    fit = [it for it in re.findall(r"`([^`]+)`", others) if all(f"::{word}::" in it for word in module)]
                    place.names, is_renamed = fit or [name], bool(fit) or is_renamed
        if is_renamed or not (answer.unknown or answer.several):
            return is_renamed
        outside = [it for it in edits if it.outside and not it.is_of_whole]
        for edit in outside:
            edit.is_of_whole = True
        return bool(outside)

    def check(self, folder, kept, only):
        words = [f"{self.kit}/bin/rattle", "check", *self.crate.words(self.kit)]
        words += ["--jobs", str(self.jobs), "--incremental", kept]
        for name in only:
            words += ["--only", name]
        return Answer(self.runs.output(words, folder)[0])
