"""Reports as the list maintainers take them: JSON (draft 19, 8.4.1)."""

from __future__ import annotations

from ctypes import create_string_buffer
from dataclasses import dataclass

from ._lent import Text, encoded
from ._raw import library
from .errors import passed
from .piles import LONGEST_REPORT, MOST_RECORDS, RECORD_LENGTH, Pile


@dataclass(frozen=True)
class CutText:
    """A run that was cut out of a report: the places of its first and last record there, and the
    text of the run's own report."""

    first: int
    last: int
    text: str


def read_report(text: Text) -> Pile:
    """Reads the pile of records in a report. It checks no signature and no link. Raises Refused
    with 24, where the text is no report, or 25, where it has too many entries or too few, or a
    packet is too long."""
    lent = encoded(text)
    room = MOST_RECORDS * RECORD_LENGTH
    out = create_string_buffer(room)
    read = library.tb_read_report(lent, len(lent), out, room)
    passed(read.code)
    return Pile(out.raw[: read.records * RECORD_LENGTH])


def cut_report(text: Text) -> CutText:
    """Cuts out of a report the shortest run of records that convicts by itself, and writes its own
    report. Raises Refused with 24, 25 or 18."""
    lent = encoded(text)
    out = create_string_buffer(LONGEST_REPORT)
    cut = library.tb_cut_signed_text(lent, len(lent), out, LONGEST_REPORT)
    passed(cut.code)
    return CutText(cut.first, cut.last, out.raw[: cut.length].decode("ascii"))
