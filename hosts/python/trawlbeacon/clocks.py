"""The time, though some servers lie."""

from __future__ import annotations

import threading
from ctypes import sizeof
from dataclasses import dataclass
from typing import FrozenSet

from ._lent import Octets, exactly, number
from ._raw import field, library, tb_clock
from .errors import passed
from .packets import Window, check_signed

CLOCK_SERVERS = 8
"""The most servers of a clock."""

_WINDOWS = ("low", "high", "maxt", "sent", "received")


@dataclass(frozen=True)
class Time:
    """The time at a moment: from low to high, in microseconds since 1970. stopped says that high is
    2^64 - 1 and the time may be later. counted is how many servers were counted; each of them is
    among those that agree or among the suspects. Every suspect lies, if no more than `liars` of
    the counted servers lie."""

    low: int
    high: int
    stopped: bool
    counted: int
    agree: FrozenSet[int]
    suspects: FrozenSet[int]


class Clock:
    """Windows of up to 8 servers, and what time it is by them, where some may lie.

    Its moments are microseconds of the host's own clock: one that only goes forward, and goes on
    while the machine sleeps (time.clock_gettime_ns(time.CLOCK_BOOTTIME) // 1000 on Linux). sent is
    when the first copy of a request was sent, rounded down, and received is rounded up. Threads may
    share a clock: calls wait for each other.
    """

    def __init__(self, drift: int = 100) -> None:
        """A clock with no window. drift is the most that the host's own clock goes wrong, in parts
        per million. Raises Refused with 32, where drift is a million or more."""
        self._state = tb_clock()
        self._lock = threading.Lock()
        told = field(self._state, "drift")
        passed(library.tb_clock_start_fields(told, *self._windows(), number(drift, 32)))

    def _windows(self) -> list[object]:
        return [field(self._state, name) for name in _WINDOWS]

    @classmethod
    def resume(cls, state: Octets) -> Clock:
        """Continues with a saved state. It must be from the same boot of the machine."""
        clock = cls()
        kept = exactly(sizeof(tb_clock), state, "a state")
        clock._state = tb_clock.from_buffer_copy(kept)
        return clock

    @property
    def state(self) -> bytes:
        """The state as it is, to save for resume()."""
        with self._lock:
            return bytes(self._state)

    def take(self, server: int, window: Window, sent: int, received: int) -> None:
        """Takes the window of a valid response of a server, 0 to 7. Raises Refused with 32, where
        server is above 7; or 26, where received is before sent, or before the last window that was
        taken of that server."""
        told = [window.low, window.high, window.maxt, sent, received]
        numbers = [number(one) for one in (server, *told)]
        with self._lock:
            code = library.tb_clock_take_fields(self._state.drift, *self._windows(), *numbers)
        passed(code)

    def take_signed(
        self,
        server: int,
        key: Octets,
        request: Octets,
        response: Octets,
        sent: int,
        received: int,
    ) -> Window:
        """Checks a response as check_signed does, and takes its window."""
        window = check_signed(key, request, response)
        self.take(server, window, sent, received)
        return window

    def now(self, moment: int, liars: int) -> Time:
        """The time at a moment of the host's own clock, where at most `liars` of the servers that
        are counted lie. If n are asked, pass at most (n - 1) // 2. Raises Refused with 26, where
        the moment is before the receipt of some window; 33, where no more servers are counted than
        may lie; or 34, where no time fits enough servers: more lie."""
        asked = number(moment), number(liars)
        with self._lock:
            told = library.tb_clock_now_fields(self._state.drift, *self._windows(), *asked)
        passed(told.code)
        ends = (told.low, told.high, told.stopped == 1)
        return Time(*ends, told.counted, _servers(told.agree), _servers(told.suspects))


def _servers(bits: int) -> FrozenSet[int]:
    return frozenset(server for server in range(CLOCK_SERVERS) if bits >> server & 1)
