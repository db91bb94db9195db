"""Progress bars: by tqdm if it is installed, by a plain line on standard error otherwise, or by a call of one's own."""

from __future__ import annotations

import contextlib
import sys
import time
from typing import Any, Callable, Optional, TextIO, Union

Progress = Union[bool, Callable[[int, Optional[int]], None]]
"""True for a bar, False for none, or a call that is told how many trees are summed, and how many there are (None if
that is not known)."""


class Silent:
    """No bar."""

    def to(self, done: int) -> None:
        """So many trees are summed."""

    def close(self) -> None:
        """The sum has ended."""


class _Told(Silent):
    def __init__(self, total: Optional[int], told: Callable[[int, Optional[int]], None]) -> None:
        self._total = total
        self._told = told

    def to(self, done: int) -> None:
        self._told(done, self._total)


class _Tqdm(Silent):
    def __init__(self, total: Optional[int], make: Any) -> None:
        self._bar = make(total=total, unit=" trees", unit_scale=True)

    def to(self, done: int) -> None:
        self._bar.update(done - self._bar.n)

    def close(self) -> None:
        self._bar.close()


class Plain(Silent):
    """A line on standard error, or on `out`, that is written over: how many trees are summed, and how long the rest
    will take if it goes on at the same pace. If it cannot be written, the sum goes on without it."""

    WIDTH = 30

    def __init__(self, total: Optional[int], out: Optional[TextIO] = None) -> None:
        self._total = total
        self._out = out or sys.stderr
        self._begun: Optional[float] = None
        self._first = 0
        self._length = 0

    def to(self, done: int) -> None:
        """So many trees are summed."""
        now = time.monotonic()
        if self._begun is None:
            self._begun, self._first = now, done
        line = self._line(done, now - self._begun)
        self._show("\r" + line.ljust(self._length))
        self._length = len(line)

    def _show(self, text: str) -> None:
        with contextlib.suppress(OSError, ValueError):
            self._out.write(text)
            self._out.flush()

    def _line(self, done: int, seconds: float) -> str:
        if not self._total:
            return f"{done:,} trees"
        filled = self.WIDTH * done // self._total
        line = f"[{'#' * filled}{'.' * (self.WIDTH - filled)}] {done:,} of {self._total:,} trees"
        if self._first < done < self._total:
            line += f", {_duration(seconds * (self._total - done) / (done - self._first))} left"
        return line

    def close(self) -> None:
        """The sum has ended: the line is left as it is."""
        if self._length:
            self._show("\n")


def bar(progress: Progress, total: Optional[int]) -> Silent:
    """The bar that is asked for, of a sum of so many trees (None if that is not known)."""
    if progress is False or (progress is True and sys.stderr is None):
        return Silent()
    if callable(progress):
        return _Told(total, progress)
    try:
        from tqdm.auto import tqdm
    except ImportError:
        return Plain(total)
    return _Tqdm(total, tqdm)


def _duration(seconds: float) -> str:
    minutes, rest = divmod(int(seconds), 60)
    hours, minutes = divmod(minutes, 60)
    return f"{hours}:{minutes:02}:{rest:02}" if hours else f"{minutes}:{rest:02}"
