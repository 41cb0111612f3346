"""Piles of records: the evidence against a server that lied."""

from __future__ import annotations

import struct
from ctypes import create_string_buffer
from dataclasses import dataclass
from typing import Iterable, Iterator

from ._lent import Octets, exactly, number, octets
from ._raw import library
from .codes import Refusal
from .errors import Refused, passed
from .packets import LONGEST_PACKET, Window, window_of

RECORD_LENGTH = 4096
"""Bytes of a record."""

MOST_RECORDS = 16
"""The most records of a pile."""

LONGEST_REPORT = 87609
"""The length of the longest text that is written of a pile."""

_RECORD = struct.Struct("<32s32sII24x2000s2000s")


@dataclass(frozen=True)
class Record:
    """A request to the server with a long-term key, and the response that answers it. rand is what
    the request's nonce was linked with; that of the first record of a report is zeros."""

    key: bytes
    request: bytes
    response: bytes
    rand: bytes = bytes(32)

    def __bytes__(self) -> bytes:
        key, rand = exactly(32, self.key, "a key"), exactly(32, self.rand, "a rand")
        asked, told = octets(self.request), octets(self.response)
        if max(len(asked), len(told)) > LONGEST_PACKET:
            raise Refused(Refusal.RECORD)
        return _RECORD.pack(key, rand, len(asked), len(told), asked, told)


@dataclass(frozen=True)
class Pair:
    """The places of two records that contradict each other."""

    first: int
    second: int


@dataclass(frozen=True)
class Cut:
    """A run that was cut out of a pile: the places of its first and last record, and its own
    pile."""

    first: int
    last: int
    pile: Pile


class Pile:
    """Records one after the other, judged by their own signatures. Places count from 0."""

    def __init__(self, records: Octets = b"") -> None:
        """A pile of bytes that hold records. What holds none is refused where it is judged."""
        self._bytes = octets(records)

    @classmethod
    def of(cls, records: Iterable[Record]) -> Pile:
        """A pile of these records."""
        return cls(b"".join(bytes(record) for record in records))

    def append(self, record: Record) -> None:
        """Adds a record at the end. Raises Refused with 15, where the pile is full."""
        if len(self) >= MOST_RECORDS:
            raise Refused(Refusal.PILE)
        self._bytes += bytes(record)

    def __bytes__(self) -> bytes:
        return self._bytes

    def __len__(self) -> int:
        return len(self._bytes) // RECORD_LENGTH

    def __getitem__(self, place: int) -> Record:
        if not 0 <= place < len(self):
            raise IndexError(f"there is no record {place}")
        start = place * RECORD_LENGTH
        key, rand, asked, told, request, response = _RECORD.unpack_from(self._bytes, start)
        if max(asked, told) > LONGEST_PACKET:
            raise Refused(Refusal.RECORD, place)
        return Record(key, request[:asked], response[:told], rand)

    def __iter__(self) -> Iterator[Record]:
        return (self[place] for place in range(len(self)))

    def __eq__(self, other: object) -> bool:
        return isinstance(other, Pile) and self._bytes == other._bytes

    def __hash__(self) -> int:
        raise TypeError("a pile can be altered, and has no hash")

    def __repr__(self) -> str:
        return f"<Pile of {len(self)} records>"

    def judge(self, place: int) -> Window:
        """What the record at a place tells. Links and rands are not checked. Raises Refused with
        15, 16, 14 or 1 to 13."""
        judged = library.tb_judge_signed(self._bytes, len(self._bytes), number(place))
        passed(judged.code, judged.place, judged.at)
        return window_of(judged, bytes(judged.pubk))

    def linked(self, place: int) -> bool:
        """Whether the record at a place is linked to the one before it."""
        return bool(library.tb_linked(self._bytes, len(self._bytes), number(place)))

    def check(self) -> Pair:
        """Checks whether the pile is a report: which two records contradict each other. Raises
        Refused with 15; with 16, 14 or 1 to 13 of a record; with 17 of a record; or with 18, where
        none contradict each other. You must look whose keys are in the records."""
        told = library.tb_check_signed_report(self._bytes, len(self._bytes))
        _report_passed(told.code, told.place, told.at)
        return Pair(told.first, told.second)

    def cut(self) -> Cut:
        """Cuts out the shortest run of records that convicts by itself, with the rand of its first
        one set to zero: a report. Raises Refused with 15, or with 18 where no run convicts."""
        out = create_string_buffer(len(self._bytes) or 1)
        cut = library.tb_cut_signed_run(self._bytes, len(self._bytes), out, len(self._bytes))
        passed(cut.code)
        records = cut.last - cut.first + 1
        return Cut(cut.first, cut.last, Pile(out.raw[: records * RECORD_LENGTH]))

    def report(self) -> str:
        """The text of the report that the pile is, in the public format (draft 19, 8.4.1). Raises
        Refused with the codes of check."""
        out = create_string_buffer(LONGEST_REPORT)
        told = library.tb_write_signed_report(self._bytes, len(self._bytes), out, LONGEST_REPORT)
        _report_passed(told.code, told.place, told.at)
        return out.raw[: told.length].decode("ascii")


def _report_passed(code: int, place: int, at: int) -> None:
    """The check of a report names a record beside the codes that are about one."""
    blames = code not in (Refusal.PILE, Refusal.NO_CONTRADICTION, Refusal.ROOM)
    passed(code, place if blames else None, at)
