"""What is being done, on standard error, where more than two seconds pass; and what it took."""
from __future__ import annotations

import resource
import sys
import time
from typing import Optional

from tqdm import tqdm

SHOWN_AFTER = 2.0


class Progress:
    """Steps of a job, counted. Nothing is shown unless `shown` is set, and then only once two seconds have passed."""

    def __init__(self, steps: Optional[int] = None, shown: bool = False) -> None:
        self.begun = time.monotonic()
        self.lines = shown and not sys.stderr.isatty()
        self.bar = tqdm(
            total=steps,
            delay=SHOWN_AFTER,
            file=sys.stderr,
            leave=False,
            disable=not shown or self.lines,
            bar_format="{desc} (step {n_fmt}, {elapsed})",
        )

    def step(self, text: str) -> None:
        """The next step begins."""
        self.bar.set_description_str(text, refresh=False)
        self.bar.update()
        if time.monotonic() - self.begun > SHOWN_AFTER:
            if self.lines:
                print(f"... {text}", file=sys.stderr, flush=True)
            self.bar.refresh()

    def close(self) -> None:
        """Takes the bar from the screen, so that what is printed next has a line of its own."""
        self.bar.close()

    def end(self) -> str:
        """Ends the job: the seconds and the most memory that it took, as text."""
        self.close()
        memory = max(resource.getrusage(who).ru_maxrss for who in (resource.RUSAGE_SELF, resource.RUSAGE_CHILDREN))
        return f"{time.monotonic() - self.begun:.1f} s, {memory / 1024:.0f} MiB"
