"""What is raised where the library refuses."""

from __future__ import annotations

from typing import Optional

from .codes import Refusal, words

_KNOWN = frozenset(int(code) for code in Refusal)

_PLACED = frozenset(range(Refusal.FRAME, Refusal.VALUE + 1))
"""The codes that come with the byte of a packet."""


class Refused(Exception):
    """A refusal: the first code that applies.

    code is a Refusal, or a plain number where a newer library has one that is not known here. place
    is the place of the record that is to blame, counted from 0, and at is the byte at which its
    response or the packet is bad, from its first byte; each is None where there is none.
    """

    def __init__(self, code: int, place: Optional[int] = None, at: Optional[int] = None) -> None:
        at = at if code in _PLACED else None
        super().__init__(code, place, at)
        self.code: int = Refusal(code) if code in _KNOWN else code
        self.place = place
        self.at = at

    @property
    def words(self) -> str:
        """What the code says."""
        return words(self.code)

    def __str__(self) -> str:
        told = f"refused with code {int(self.code)}: {self.words}"
        if self.place is not None:
            told += f", record {self.place}"
        if self.at is not None:
            told += f", at byte {self.at}"
        return told


def passed(code: int, place: Optional[int] = None, at: Optional[int] = None) -> None:
    """Raises Refused, but for the code 0."""
    if code != 0:
        raise Refused(code, place, at)
