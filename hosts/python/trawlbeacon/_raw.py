"""The functions of the shared library, and the structs that they answer with, as
include/trawlbeacon.h declares them and under its names. A test holds them to the header.

Every pointer that is lent is one to bytes of Python's that are kept until the call has ended, and
the length beside it is theirs. None of them is null: ctypes would make that of None alone.
"""

from __future__ import annotations

from ctypes import Structure, byref, c_bool, c_char_p, c_uint8, c_uint32, c_uint64, c_void_p
from typing import Any, Dict, Tuple

from ._library import load

_HASH = c_uint8 * 32


class tb_request(Structure):
    _fields_ = [
        ("code", c_uint32),
        ("with_srv", c_uint32),
        ("at", c_uint64),
        ("nonc", _HASH),
        ("srv", _HASH),
    ]


class tb_response(Structure):
    _fields_ = [
        ("code", c_uint32),
        ("indx", c_uint32),
        ("at", c_uint64),
        ("midp", c_uint64),
        ("radi", c_uint32),
        ("nonc", _HASH),
        ("root", _HASH),
    ]


class tb_wrote(Structure):
    _fields_ = [("code", c_uint32), ("at", c_uint64), ("length", c_uint64)]


class tb_verdict(Structure):
    _fields_ = [
        ("code", c_uint32),
        ("radi", c_uint32),
        ("at", c_uint64),
        ("midp", c_uint64),
        ("low", c_uint64),
        ("high", c_uint64),
        ("mint", c_uint64),
        ("maxt", c_uint64),
        ("pubk", _HASH),
    ]


class tb_servers(Structure):
    _fields_ = [("code", c_uint32), ("records", c_uint64), ("passed_over", c_uint64)]


class tb_addressed(Structure):
    _fields_ = [("code", c_uint32), ("tcp", c_uint32), ("length", c_uint64)]


class tb_judged(Structure):
    _fields_ = [
        ("code", c_uint32),
        ("radi", c_uint32),
        ("place", c_uint64),
        ("at", c_uint64),
        ("midp", c_uint64),
        ("low", c_uint64),
        ("high", c_uint64),
        ("mint", c_uint64),
        ("maxt", c_uint64),
        ("pubk", _HASH),
    ]


class tb_reported(Structure):
    _fields_ = [
        ("code", c_uint32),
        ("place", c_uint64),
        ("at", c_uint64),
        ("first", c_uint64),
        ("second", c_uint64),
    ]


class tb_cut(Structure):
    _fields_ = [("code", c_uint32), ("first", c_uint64), ("last", c_uint64)]


class tb_records(Structure):
    _fields_ = [("code", c_uint32), ("records", c_uint64)]


class tb_published(Structure):
    _fields_ = [
        ("code", c_uint32),
        ("place", c_uint64),
        ("at", c_uint64),
        ("length", c_uint64),
    ]


class tb_forwarded(Structure):
    _fields_ = [
        ("code", c_uint32),
        ("first", c_uint64),
        ("last", c_uint64),
        ("length", c_uint64),
    ]


class tb_walk(Structure):
    _fields_ = [
        ("keys", c_uint8 * 256),
        ("count", c_uint64),
        ("step", c_uint64),
        ("nonce", _HASH),
        ("rand", _HASH),
        ("last", c_uint64),
        ("most", c_uint64),
    ]


class tb_asked(Structure):
    _fields_ = [("code", c_uint32), ("server", c_uint64), ("nonce", _HASH)]


class tb_took(Structure):
    _fields_ = [
        ("code", c_uint32),
        ("outcome", c_uint32),
        ("at", c_uint64),
        ("first", c_uint64),
        ("second", c_uint64),
        ("midp", c_uint64),
        ("low", c_uint64),
        ("high", c_uint64),
        ("mint", c_uint64),
        ("maxt", c_uint64),
        ("radi", c_uint32),
    ]


class tb_clock(Structure):
    _fields_ = [
        ("drift", c_uint32),
        ("low", c_uint64 * 16),
        ("high", c_uint64 * 16),
        ("maxt", c_uint64 * 16),
        ("sent", c_uint64 * 16),
        ("received", c_uint64 * 16),
    ]


class tb_time(Structure):
    _fields_ = [
        ("code", c_uint32),
        ("stopped", c_uint32),
        ("low", c_uint64),
        ("high", c_uint64),
        ("counted", c_uint64),
        ("agree", c_uint64),
        ("suspects", c_uint64),
    ]


# What is lent to be read, what is lent to be written, and numbers. A length has 64 bits on every
# machine.
_READ, _OUT = c_char_p, c_void_p
_WORD, _NUMBER, _SIZE = c_uint32, c_uint64, c_uint64
_LENT = (_READ, _SIZE)
_ROOM = (_OUT, _SIZE)
_WALK = (_OUT, _NUMBER, _OUT, _OUT, _OUT, _OUT, _NUMBER)
_CLOCK = (_OUT, _OUT, _OUT, _OUT, _OUT)

# What each answers, and what it takes.
FUNCTIONS: Dict[str, Tuple[Any, Tuple[Any, ...]]] = {
    "tb_sha512": (None, (*_LENT, _OUT)),
    "tb_srv_value": (None, (_READ, _OUT)),
    "tb_link": (None, (*_LENT, _READ, _OUT)),
    "tb_read_request": (tb_request, _LENT),
    "tb_read_response": (tb_response, _LENT),
    "tb_write_request": (tb_wrote, (_READ, _READ, *_ROOM)),
    "tb_verify": (c_bool, (*_LENT, *_LENT, *_LENT)),
    "tb_check_signed": (tb_verdict, (_READ, *_LENT, *_LENT)),
    "tb_may_use_fields": (c_bool, (_WORD, _NUMBER, _NUMBER)),
    "tb_same_delegation_fields": (
        c_bool,
        (_WORD, _READ, _NUMBER, _NUMBER, _WORD, _READ, _NUMBER, _NUMBER),
    ),
    "tb_read_servers": (tb_servers, (*_LENT, *_ROOM)),
    "tb_server_name": (tb_wrote, (*_LENT, _SIZE, *_ROOM)),
    "tb_server_address": (tb_addressed, (*_LENT, _SIZE, _SIZE, *_ROOM)),
    "tb_list_source": (tb_wrote, (*_LENT, _SIZE, *_ROOM)),
    "tb_list_reports": (tb_wrote, (*_LENT, *_ROOM)),
    "tb_judge_signed": (tb_judged, (*_LENT, _SIZE)),
    "tb_linked": (c_bool, (*_LENT, _SIZE)),
    "tb_contradicts": (c_bool, (_NUMBER, _WORD, _NUMBER, _WORD)),
    "tb_check_signed_report": (tb_reported, _LENT),
    "tb_cut_signed_run": (tb_cut, (*_LENT, *_ROOM)),
    "tb_read_report": (tb_records, (*_LENT, *_ROOM)),
    "tb_write_signed_report": (tb_published, (*_LENT, *_ROOM)),
    "tb_cut_signed_text": (tb_forwarded, (*_LENT, *_ROOM)),
    "tb_walk_start_fields": (
        c_uint32,
        (_OUT, _OUT, _OUT, _OUT, _OUT, _OUT, _OUT, *_LENT, _READ, _NUMBER, *_ROOM),
    ),
    "tb_walk_ask_fields": (
        tb_asked,
        (_OUT, _NUMBER, _NUMBER, _OUT, _OUT, _NUMBER, _NUMBER, *_ROOM),
    ),
    "tb_walk_take_signed_fields": (
        tb_took,
        (*_WALK, _NUMBER, _NUMBER, _READ, *_LENT, *_ROOM),
    ),
    "tb_clock_start_fields": (c_uint32, (_OUT, *_CLOCK, _WORD)),
    "tb_clock_take_fields": (
        c_uint32,
        (_WORD, *_CLOCK, _NUMBER, _NUMBER, _NUMBER, _NUMBER, _NUMBER, _NUMBER),
    ),
    "tb_clock_now_fields": (tb_time, (_WORD, *_CLOCK, _NUMBER, _NUMBER)),
}


def field(state: Structure, name: str) -> Any:
    """Where a field of a state is, to be lent."""
    return byref(state, getattr(type(state), name).offset)


def _declared() -> Any:
    library = load()
    for name, (answer, arguments) in FUNCTIONS.items():
        function = getattr(library, name)
        function.restype = answer
        function.argtypes = arguments
    return library


library: Any = _declared()
