"""How a tool speaks and ends: what it prints is written whole or is an error, and an error is one line, whatever the
terminal is set to and whichever streams are closed."""
from __future__ import annotations

import os
import sys
from typing import Callable


class Failure(Exception):
    """Why a command could not do its work, in one line, with the exit status for it."""

    status = 3


class MachineError(Failure):
    """The machine failed: something could not be read, written or run."""


def say(text: str) -> None:
    """The text on standard output, in UTF-8, as a plant's names are written; a file's name as the bytes it has."""
    say_bytes(text.encode("utf-8", "surrogateescape"))


def say_bytes(data: bytes) -> None:
    # Not by way of sys.stdout: it is None where the stream is closed, and may hold bytes back or write a part.
    try:
        while data:
            data = data[os.write(1, data):]
    except OSError as error:
        raise MachineError(f"standard output could not be written ({error.strerror})") from None


def complain(text: str) -> None:
    """One line on standard error, if there is one: what does not print, as a newline in a file's name, is a ?."""
    line = "".join(letter if letter.isprintable() else "?" for letter in text)
    try:
        os.write(2, f"{line}\n".encode())
    except OSError:
        pass


def run(work: Callable[[], None]) -> int:
    """Does the work and gives the exit status; an error is said in one line, and is never a traceback."""
    try:
        work()
        return 0
    except Failure as error:
        complain(str(error))
        return error.status
    except KeyboardInterrupt:
        complain("stopped")
        return 130
    except Exception as error:  # pylint: disable=broad-except
        complain(f"{os.path.basename(sys.argv[0])} failed: {type(error).__name__}: {error}")
        return 3
