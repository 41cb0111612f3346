"""What a caller lends, as the library takes it."""

from __future__ import annotations

import operator
from typing import Union

Octets = Union[bytes, bytearray, memoryview]
"""Bytes in whichever form. Other objects with the buffer protocol are taken too."""

Text = Union[str, Octets]
"""A text, or its bytes in UTF-8."""


def octets(lent: Octets) -> bytes:
    """A copy, which nobody alters while the library reads it. bytes are as good as one."""
    return lent if type(lent) is bytes else memoryview(lent).tobytes()


def exactly(length: int, lent: Octets, what: str) -> bytes:
    """As many bytes as the library reads without being told how many there are."""
    copy = octets(lent)
    if len(copy) != length:
        raise ValueError(f"{what} has {length} bytes, and this has {len(copy)}")
    return copy


def encoded(text: Text) -> bytes:
    """A text that cannot be written in UTF-8 is refused by the library, not here."""
    return text.encode("utf-8", "surrogatepass") if isinstance(text, str) else octets(text)


def number(value: int, bits: int = 64) -> int:
    """A number that the library can be told: ctypes would leave out what is above."""
    whole = operator.index(value)
    if not 0 <= whole < 1 << bits:
        raise OverflowError(f"{whole} is not from 0 to 2^{bits} - 1")
    return whole
