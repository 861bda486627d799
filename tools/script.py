"""What scripts in Python share: `--help`, wrong words, and an end without a traceback where an output is closed or full."""
import contextlib
import errno
import os
import signal
import sys

NAME = os.path.basename(sys.argv[0])


class WrongWords(Exception):
    """The words of a command are wrong. Its text, if any, says why, and is printed before the usage."""


def refuse(words):
    """Is the `main` of a script whose words are wrong."""
    raise WrongWords


def complain(text):
    with contextlib.suppress(OSError):
        print(text, file=sys.stderr or sys.stdout)


def end_by(number):
    """Ends this process by a signal, as the signal ends programs that don't handle it."""
    signal.signal(number, signal.SIG_DFL)
    os.kill(os.getpid(), number)


def call(about, main):
    """Answers `--help` or calls `main`, and returns the status."""
    if sys.stdout is None:
        raise OSError(errno.EBADF, "standard output is closed")
    try:
        if sys.argv[1:] in (["--help"], ["-h"]):
            print(about.strip())
            return 0
        return int(main(sys.argv[1:]) or 0)
    finally:
        # Python's own flush at the end of a script would print an error of its own.
        sys.stdout.flush()


def run(about, main):
    """Calls `main` with the words of the command, and ends the script with the status that it returns.

    `--help` prints `about`, which holds the script's usage, and does not call `main`. If `main` raises `WrongWords`, the
    usage goes to standard error, and the status is 2. An error of a file or of standard output is a line on standard
    error, and the status is 1. A reader of standard output that went away, and Ctrl-C, end the script by their signal.
    """
    try:
        status = call(about, main)
    except WrongWords as why:
        complain(f"{NAME}: {why}\n{about.strip()}" if str(why) else about.strip())
        status = 2
    except BrokenPipeError:
        end_by(signal.SIGPIPE)
    except KeyboardInterrupt:
        end_by(signal.SIGINT)
    except OSError as error:
        complain(f"{NAME}: {error.filename}: {error.strerror}" if error.filename else f"{NAME}: {error.strerror or error}")
        status = 1
        if sys.stdout:
            # What could not be written is dropped.
            os.dup2(os.open(os.devnull, os.O_WRONLY), sys.stdout.fileno())
    sys.exit(status)
