"""Shows how far a run of several steps is: by a bar on a terminal, else by a line for each step. Nothing is proved of it.

    progress = progress.Progress(("collecting", "indexing"))
    progress.begin("collecting")
    progress.at(30, 100)
"""
import sys
import time

from archive_files import BAR_AWAY, say

WIDTH = 20


class Progress:
    """The steps of a run so far. A run may leave steps out."""

    def __init__(self, steps: tuple[str, ...]) -> None:
        self.steps, self.step = steps, 0
        self.on_terminal = sys.stderr.isatty()
        self.began = self.drawn = 0.0

    def begin(self, says: str) -> None:
        self.step, self.began, self.drawn = self.steps.index(says), time.monotonic(), 0.0
        if not self.on_terminal:
            say(says)
        self.at(0, 1)

    def at(self, part: int, whole: int) -> None:
        """Draws the bar, at most ten times a second."""
        if self.on_terminal and time.monotonic() - self.drawn > 0.1:
            full = int(WIDTH * (self.step + part / max(whole, 1)) / len(self.steps))
            seconds = int(time.monotonic() - self.began)
            took = f", {seconds} s" if seconds > 1 else ""
            print(f"{BAR_AWAY}[{'#' * full:.<{WIDTH}}] {self.steps[self.step]}{took}", end="", file=sys.stderr, flush=True)
            self.drawn = time.monotonic()

    def tick(self) -> None:
        """Draws the bar again in a step of which nobody knows how long it takes."""
        self.at(0, 1)

    def end(self) -> None:
        """Takes the bar away, so that lines can follow."""
        if self.on_terminal:
            print(BAR_AWAY, end="", file=sys.stderr, flush=True)
