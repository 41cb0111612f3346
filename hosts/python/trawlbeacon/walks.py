"""The measuring walk (draft 19, 8.2): servers that are asked in turn, and then again."""

from __future__ import annotations

import threading
from ctypes import create_string_buffer, sizeof
from dataclasses import dataclass
from enum import IntEnum
from typing import Any, Optional, Sequence

from ._lent import Octets, exactly, number, octets
from ._raw import field, library, tb_walk
from .codes import Refusal
from .errors import passed
from .packets import REQUEST_LENGTH, Window, window_of
from .piles import RECORD_LENGTH, Pair, Pile

FEWEST_SERVERS = 3
MOST_SERVERS = 8


class Outcome(IntEnum):
    """How a walk stands once a response is taken."""

    GOES_ON = 1
    CONSISTENT = 2
    MALFEASANCE = 3
    PILE_ALTERED = 4


@dataclass(frozen=True)
class Asked:
    """Whom to ask next, from 0 in the order of the keys, and what to send."""

    server: int
    nonce: bytes
    request: bytes


@dataclass(frozen=True)
class Taken:
    """What a walk says of a response that it took: how it stands, the window of the response and,
    on malfeasance, which two records contradict each other."""

    outcome: Outcome
    window: Window
    pair: Optional[Pair]


class Walk:
    """A walk over 3 to 8 servers: each is asked once, and then each once more in the same order.

        walk = Walk(keys, new_nonce(), longest=5)
        while (asked := walk.ask()) is not None:
            send asked.request to asked.server, and receive the response
            taken = walk.take(response, sent, received, new_nonce())

    Threads may share a walk: calls wait for each other.
    """

    def __init__(self, servers: Sequence[Octets], nonce: Octets, longest: int) -> None:
        """Starts a walk over the servers with these long-term keys, whose first request has this
        nonce. A response may take `longest` seconds. Raises Refused with 31, where the servers are
        not 3 to 8, or one is there twice."""
        keys = b"".join(exactly(32, key, "a key") for key in servers)
        pile = 2 * min(len(servers), MOST_SERVERS) * RECORD_LENGTH
        self._begun(tb_walk(), b"", pile)
        first = exactly(32, nonce, "a nonce")
        state = [field(self._state, name) for name, _ in tb_walk._fields_]
        lent = (keys, len(keys), first, number(longest), self._pile, self._room)
        passed(library.tb_walk_start_fields(*state, *lent))

    def _begun(self, state: Any, pile: bytes, room: int) -> None:
        self._state = state
        self._room = room
        self._pile = create_string_buffer(pile, room or 1)
        self._lock = threading.Lock()

    @classmethod
    def resume(cls, state: Octets, pile: Octets) -> Walk:
        """Continues with a saved state and pile. A state that no walk made does no harm, but what
        it then says means nothing."""
        walk = cls.__new__(cls)
        kept = tb_walk.from_buffer_copy(exactly(sizeof(tb_walk), state, "a state"))
        records = octets(pile)
        room = 2 * min(kept.count, MOST_SERVERS) * RECORD_LENGTH
        walk._begun(kept, records[:room], room)
        return walk

    @property
    def state(self) -> bytes:
        """The state as it is, to save for resume(), with the pile."""
        with self._lock:
            return bytes(self._state)

    @property
    def pile(self) -> Pile:
        """The records so far, one for each response that was taken."""
        with self._lock:
            return Pile(self._pile.raw[: min(self._state.step * RECORD_LENGTH, self._room)])

    def ask(self) -> Optional[Asked]:
        """Whom to ask next, and the request; None where the walk has ended. Asking changes
        nothing."""
        out = create_string_buffer(REQUEST_LENGTH)
        with self._lock:
            state = self._now("count", "step", "last", "most")
            asked = library.tb_walk_ask_fields(*state, out, REQUEST_LENGTH)
        if asked.code == Refusal.ENDED:
            return None
        passed(asked.code)
        return Asked(asked.server, bytes(asked.nonce), out.raw)

    def take(self, response: Octets, sent: int, received: int, rand: Octets) -> Taken:
        """Takes the response to the request that ask() gave, and adds its record to the pile.
        sent and received are when, in seconds by the host's own clock, the request was sent and the
        response received; rand is 32 random bytes for the next request. Raises Refused with 28,
        where the walk has ended; 26, where received is before sent, or sent before the last
        receipt; 27, where it took longer than `longest`; or 1 to 13. Then nothing changes."""
        told = octets(response)
        when = number(sent), number(received)
        lent = (exactly(32, rand, "a rand"), told, len(told))
        with self._lock:
            state = self._now("count", "most")
            lent_too = (self._pile, self._room)
            took = library.tb_walk_take_signed_fields(*state, *when, *lent, *lent_too)
        passed(took.code, at=took.at)
        outcome = Outcome(took.outcome)
        pair = Pair(took.first, took.second) if outcome is Outcome.MALFEASANCE else None
        return Taken(outcome, window_of(took), pair)

    def _now(self, *numbers: str) -> Sequence[Any]:
        """The fields of the state, lent, but for those that are told as numbers."""
        names = [name for name, _ in tb_walk._fields_]
        return [
            getattr(self._state, name) if name in numbers else field(self._state, name)
            for name in names
        ]
