"""Cases on which tools/try runs programs: of each an input, arguments, and what has to be printed; and which of them
the toolchain's interpreter runs, too."""
import os
import shutil
import subprocess

from repository import read

# Programs for which the interpreter gives no answer, and why.
NO_ANSWER = {"example_csv": "it reads its arguments", "example_laureates": "its reader seeks in standard input"}
# What a case has beside its input.
ENDINGS = (".args", ".stdout", ".status")
# The input that a program has in its own folder.
OWN = "own"
# All of the environment, as `rt try` gives it, too: a refused allocation returns null, and a fault ends by a signal.
CHECKS = {"ASAN_OPTIONS": "abort_on_error=1:allocator_may_return_null=1:symbolize=0"}


class Case:
    """A case of a program, by the path of its input."""

    def __init__(self, program, path):
        self.program, self.path, self.name = program, path, os.path.basename(path)
        self.arguments = read(f"{path}.args").splitlines() if os.path.isfile(f"{path}.args") else None
        self.status = read(f"{path}.status").strip() if os.path.isfile(f"{path}.status") else "0"
        self.output = b""
        if os.path.isfile(f"{path}.stdout"):
            with open(f"{path}.stdout", "rb") as file:
                self.output = file.read()

    @property
    def label(self):
        return f"{self.program}-{self.name}"

    @property
    def features(self):
        """What the interpreter should have seen once: the status, and the first word of each line."""
        with open(self.path, encoding="utf-8", errors="replace") as file:
            return {self.status, *(line.split()[0] for line in file if line.strip())}

    def lay(self, folder, letter):
        """Writes the case for the toolchain's runner, its input behind the letter of its program; returns the file."""
        to = f"{folder}/{self.label}"
        with open(to, "wb") as out, open(self.path, "rb") as file:
            out.write(letter.encode() + file.read())
        if self.arguments is not None:
            shutil.copyfile(f"{self.path}.args", f"{to}.args")
        with open(f"{to}.stdout", "wb") as out:
            out.write(self.output)
        return to

    def is_expected(self, came):
        """Whether a line of the toolchain's runner says that the case came out as it should, in both of its runs."""
        runners = "" if self.program in NO_ANSWER else "runners=2 "
        return came.startswith(f"run=ended status={self.status} {runners}") and " output=expected" in came

    def fault(self, program, given, seconds):
        """Runs a program on an input, and returns what was otherwise than it should be, or None."""
        how = {"stdout": subprocess.PIPE, "stderr": subprocess.PIPE, "cwd": os.path.dirname(program)}
        try:
            with open(given, "rb") as file:
                words = [program, *(self.arguments or [])]
                ran = subprocess.run(words, stdin=file, env=CHECKS, timeout=seconds, **how)
        except subprocess.TimeoutExpired:
            return f"it took more than {seconds} seconds"
        said = ran.stderr.decode(errors="replace")[-2000:]
        if str(ran.returncode) != self.status:
            return f"status {self.status} was wanted, but it was {ran.returncode}; {said}"
        return None if ran.stdout == self.output else difference(self.output, ran.stdout)


def difference(wanted, came):
    """Says where two outputs differ first."""
    wanted, came = (it.decode(errors="replace").split("\n") for it in (wanted, came))
    at = next((at for at, pair in enumerate(zip(wanted, came)) if pair[0] != pair[1]), min(len(wanted), len(came)))
    lines = [it[at] if at < len(it) else "its end" for it in (wanted, came)]
    return f"line {at + 1} was wanted as {lines[0]!r}, but it was {lines[1]!r}"


def found(folder, names):
    """The cases of programs, each in the folder of its program's name."""
    for name in names:
        for it in sorted(os.listdir(f"{folder}/{name}")):
            if not it.endswith(ENDINGS):
                yield Case(name, f"{folder}/{name}/{it}")


def for_interpreter(of_program):
    """Of the cases of a program its own, and those that have what no shorter one has; without an answer, the first."""
    chosen, met = [], set()
    for case in sorted(of_program, key=lambda it: (it.name != OWN, os.path.getsize(it.path), it.name)):
        if case.name == OWN or not case.features <= met:
            chosen.append(case)
            met |= case.features
    return chosen[:1] if chosen and chosen[0].program in NO_ANSWER else chosen
