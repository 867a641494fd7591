"""How far a run is, as a bar on the terminal."""
from __future__ import annotations

import sys
import time
from typing import Any, Optional

# A terminal is written to so often, in seconds.
OFTEN = 0.1


class Bar:
    """A bar on standard error, where that is a terminal. It is a context manager, which takes it away.

    It has no thread, since processes are forked beside it.
    """

    def __init__(self) -> None:
        self._progress: Any = None
        self._task: Any = None
        self._shown = 0.0
        if sys.stderr.isatty():
            from rich.console import Console
            from rich.progress import BarColumn, Progress, TextColumn, TimeRemainingColumn

            columns = (
                TextColumn("{task.description}"),
                BarColumn(),
                TextColumn("{task.completed:,}"),
                TimeRemainingColumn(),
            )
            console = Console(stderr=True)
            self._progress = Progress(
                *columns,
                console=console,
                transient=True,
                auto_refresh=False,
                redirect_stdout=False,
                redirect_stderr=False,
            )

    def stage(self, name: str, total: Optional[int] = None) -> None:
        """Begins a part of the run, with so many steps, where that is known."""
        if self._progress is not None:
            if self._task is not None:
                self._progress.remove_task(self._task)
            self._task = self._progress.add_task(name, total=total)
            self._progress.refresh()

    def step(self, count: int = 1) -> None:
        """So many steps are done."""
        if self._progress is not None:
            self._progress.advance(self._task, count)
            if time.monotonic() > self._shown + OFTEN:
                self._progress.refresh()
                self._shown = time.monotonic()

    def __enter__(self) -> Bar:
        if self._progress is not None:
            self._progress.start()
        return self

    def __exit__(self, *_: object) -> None:
        if self._progress is not None:
            self._progress.stop()
