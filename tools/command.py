"""What the commands that ask planbook have in common: their help, their masks, and how an answer or error is said."""
from __future__ import annotations

from typing import Callable, List, Optional, Sequence

from console import complain, run, say
from listing import MAX_MASKS, mask_from
from plant import Plant, PlantError, read_plant


def masks_from(words: Sequence[str]) -> List[int]:
    """The masks that a command's last words name."""
    if len(words) > MAX_MASKS:
        raise PlantError(f"{len(words)} masks are too many: a list has at most {MAX_MASKS}")
    masks = []
    for word in words:
        mask = mask_from(word)
        if mask is None:
            raise PlantError(f"'{word}' is no mask: give a number from 0 to 4294967295, decimal or 0x hex")
        masks.append(mask)
    return masks


def run_report(text: Optional[str], report: Callable[[Plant, List[int]], List[str]], words: List[str]) -> int:
    """Prints the lines of a report on a plant and two or more masks, and gives the exit status."""
    def work(source: str, *last: str) -> None:
        masks = masks_from(last)
        say_lines(report(read_plant(source), masks))

    return run_command(text, 3, work, words)


def say_lines(lines: List[str]) -> None:
    """The lines of a report on standard output."""
    say("".join(f"{line}\n" for line in lines))


def run_command(text: Optional[str], least: int, work: Callable[..., None], words: List[str]) -> int:
    """Does the work with the command line's words and gives the exit status; an error is one line."""
    # The text is the command's help, and has the call on its third line.
    lines = (text or "").strip().splitlines()
    if words in (["-h"], ["--help"]):
        return run(lambda: say("\n".join(lines) + "\n"))
    if len(words) < least:
        complain(f"usage: {lines[2].strip()}")
        return 2
    return run(lambda: work(*words))
