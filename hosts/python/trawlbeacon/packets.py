"""Requests and responses: what a client sends and receives."""

from __future__ import annotations

import secrets
from ctypes import create_string_buffer
from dataclasses import dataclass
from typing import Any, Optional

from ._lent import Octets, exactly, number, octets
from ._raw import library
from .errors import passed

LONGEST_PACKET = 2000
"""Bytes of the longest packet that is read."""

REQUEST_LENGTH = 1036
"""Bytes of a request that is written."""


@dataclass(frozen=True)
class Request:
    """What a good request says. srv is None where it names no server."""

    nonce: bytes
    srv: Optional[bytes]


@dataclass(frozen=True)
class Response:
    """What a well-formed response says. Reading does not make it valid: use check_signed."""

    nonce: bytes
    root: bytes
    indx: int
    midp: int
    radi: int


@dataclass(frozen=True)
class Window:
    """What a valid response tells, in seconds since 1970: the time is from low to high.

    midp is the server's own time and radi its radius. pubk is the delegated key that signed the
    response, which is trusted from mint to maxt. It is None in a window from a walk.
    """

    midp: int
    radi: int
    low: int
    high: int
    mint: int
    maxt: int
    pubk: Optional[bytes] = None

    def may_use(self, time: int) -> bool:
        """Whether the window may still be used at a time: it is not past maxt."""
        return bool(library.tb_may_use_fields(0, self.maxt, number(time)))

    def same_delegation(self, other: Window) -> bool:
        """Whether both come from one delegation: pubk, mint and maxt are equal. You must
        also compare the long-term keys."""
        if self.pubk is None or other.pubk is None:
            raise ValueError("a window from a walk has no delegated key")
        first = (0, self.pubk, self.mint, self.maxt)
        second = (0, other.pubk, other.mint, other.maxt)
        return bool(library.tb_same_delegation_fields(*first, *second))

    def contradicts(self, later: Window) -> bool:
        """Whether this window contradicts a later one."""
        earlier = (self.midp, self.radi)
        return bool(library.tb_contradicts(*earlier, later.midp, later.radi))


def window_of(told: Any, pubk: Optional[bytes] = None) -> Window:
    """The window in an answer of the library."""
    return Window(told.midp, told.radi, told.low, told.high, told.mint, told.maxt, pubk)


def sha512(message: Octets) -> bytes:
    """The SHA-512 digest of a message."""
    lent, out = octets(message), create_string_buffer(64)
    library.tb_sha512(lent, len(lent), out)
    return out.raw


def srv_value(key: Octets) -> bytes:
    """The SRV value of a server, by which a request names it, of its long-term key."""
    out = create_string_buffer(32)
    library.tb_srv_value(exactly(32, key, "a key"), out)
    return out.raw


def new_nonce() -> bytes:
    """32 bytes that nobody can guess, for a nonce or a rand."""
    return secrets.token_bytes(32)


def link(response: Octets, rand: Octets) -> bytes:
    """The nonce that ties the next request of a chain to a response, with 32 random bytes."""
    lent, out = octets(response), create_string_buffer(32)
    library.tb_link(lent, len(lent), exactly(32, rand, "a rand"), out)
    return out.raw


def write_request(key: Octets, nonce: Octets) -> bytes:
    """The request with this nonce to the server with this long-term key."""
    out = create_string_buffer(REQUEST_LENGTH)
    named = exactly(32, key, "a key"), exactly(32, nonce, "a nonce")
    passed(library.tb_write_request(*named, out, REQUEST_LENGTH).code)
    return out.raw


def read_request(packet: Octets) -> Request:
    """Reads a request. Raises Refused with 1 to 8."""
    lent = octets(packet)
    read = library.tb_read_request(lent, len(lent))
    passed(read.code, at=read.at)
    return Request(bytes(read.nonc), bytes(read.srv) if read.with_srv == 1 else None)


def read_response(packet: Octets) -> Response:
    """Reads a response. Raises Refused with 1 to 8."""
    lent = octets(packet)
    read = library.tb_read_response(lent, len(lent))
    passed(read.code, at=read.at)
    return Response(bytes(read.nonc), bytes(read.root), read.indx, read.midp, read.radi)


def verify(key: Octets, text: Octets, signature: Octets) -> bool:
    """Whether an Ed25519 signature of a text verifies under a key."""
    lent = [octets(one) for one in (key, text, signature)]
    words = [word for one in lent for word in (one, len(one))]
    return bool(library.tb_verify(*words))


def check_signed(key: Octets, request: Octets, response: Octets) -> Window:
    """Checks a response against the request that it answers, and both of its signatures under the
    server's long-term key. Raises Refused with 14, where the request is bad, or 1 to 13."""
    asked, told = octets(request), octets(response)
    lent = (asked, len(asked), told, len(told))
    verdict = library.tb_check_signed(exactly(32, key, "a key"), *lent)
    passed(verdict.code, at=verdict.at)
    return window_of(verdict, bytes(verdict.pubk))
