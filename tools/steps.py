"""Runs the steps of ./test and ./verify side by side, and prints a line for each with its seconds."""
import contextlib
import os
import signal
import subprocess
import sys
import tempfile
import threading
import time

from repository import TOP

# How many lines of a step that failed are printed.
SHOWN = 30


class Step:
    """A command that runs at the top of the repository, once the steps that it waits for have passed.

    What it prints is kept until it fails; if `told` is given, each line goes there, too, as it comes.
    """

    def __init__(self, name, words, after=(), told=None, environment=None):
        self.name, self.words, self.after, self.told = name, words, after, told
        self.environment = {**os.environ, **(environment or {})}
        self.process = self.reader = self.out = self.began = None
        self.passed, self.seconds, self.processor = None, 0.0, 0.0

    def start(self):
        self.began, self.out = time.monotonic(), tempfile.TemporaryFile("w+", errors="replace")
        # A group, so that all of it can be ended; no session, since priorities count within a session alone.
        how = {"cwd": TOP, "stdin": subprocess.DEVNULL, "stderr": subprocess.STDOUT, "preexec_fn": os.setpgrp}
        output = subprocess.PIPE if self.told else self.out
        self.process = subprocess.Popen(self.words, stdout=output, env=self.environment, errors="replace", **how)
        if self.told:
            self.reader = threading.Thread(target=self.read, daemon=True)
            self.reader.start()

    def read(self):
        for line in self.process.stdout:
            self.out.write(line)
            self.told(line.rstrip("\n"))

    def end(self, status, usage):
        self.passed, self.seconds = status == 0, time.monotonic() - self.began
        self.processor = usage.ru_utime + usage.ru_stime
        if self.reader:
            self.reader.join()

    def tail(self):
        self.out.seek(0)
        return self.out.read().splitlines()[-SHOWN:]


class Run:
    """A run of steps, as many at once as there are lanes, those first that stand first."""

    def __init__(self, title, steps, lanes):
        self.title, self.steps, self.lanes = title, steps, lanes
        self.left, self.running, self.ended = list(steps), {}, 0

    def say(self, text):
        print(f"{self.title}: {text}", flush=True)

    def told_end(self, step, how):
        self.ended += 1
        self.say(f"{self.ended} of {len(self.steps)}: {step.name} {how}")

    def begin(self):
        """Starts steps while lanes are free. A step behind one that failed does not run, and counts as failed."""
        named = {it.name: it for it in self.steps}
        for step in list(self.left):
            waits = [named[it] for it in step.after if it in named]
            if any(it.passed is False for it in waits):
                self.left.remove(step)
                step.passed = False
                self.told_end(step, "did not run, since a step before it failed")
            elif len(self.running) < self.lanes and all(it.passed for it in waits):
                self.left.remove(step)
                step.start()
                self.running[step.process.pid] = step

    def wait(self):
        """Waits until a step ends, and says how."""
        number, status, usage = os.wait4(-1, 0)
        step = self.running.pop(number, None)
        if step is None:
            return
        step.process.returncode = os.waitstatus_to_exitcode(status)
        step.end(step.process.returncode, usage)
        if not step.passed:
            print("".join(f"  {line}\n" for line in step.tail()), end="", flush=True)
        word = "passed" if step.passed else "FAILED"
        self.told_end(step, f"{word}, {step.seconds:.0f} s ({step.processor:.0f} s of processors)")

    def stop(self):
        """Ends the steps that run, with all that they started."""
        for step in self.running.values():
            with contextlib.suppress(ProcessLookupError, PermissionError):
                os.killpg(step.process.pid, signal.SIGTERM)

    def run(self):
        """Runs all steps, and returns whether each passed."""
        for it in (signal.SIGHUP, signal.SIGTERM):
            signal.signal(it, lambda number, _: sys.exit(128 + number))
        try:
            while self.left or self.running:
                self.begin()
                if self.running:
                    self.wait()
        finally:
            self.stop()
        return all(it.passed for it in self.steps)


def processors():
    return len(os.sched_getaffinity(0))


def conclude(run, took=None):
    """Runs all steps, says how that ended and what it and each proof took, and returns the status of the command."""
    began, is_well = time.monotonic(), run.run()
    minutes, of_processors = (time.monotonic() - began) / 60, sum(it.processor for it in run.steps) / 60
    failed = [it.name for it in run.steps if not it.passed]
    for name, seconds in (took or {}).items():
        run.say(f"proof of {name}: {seconds / 60:.1f} minutes of processors")
    for step in sorted(run.steps, key=lambda it: -it.processor):
        run.say(f"{step.name}: {step.processor / 60:.1f} minutes of processors, {step.seconds / 60:.1f} of the clock")
    run.say(f"{minutes:.1f} minutes, {of_processors:.1f} of processors" + (f"; FAILED: {', '.join(failed)}" if failed else ""))
    print(f"{len(run.steps) - len(failed)} passed, {len(failed)} failed", flush=True)
    return 0 if is_well else 1
