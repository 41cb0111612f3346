"""The codes of refusals, with their words. cargo xtask codes writes what stands between the two
marks, of the library's own table."""

from __future__ import annotations

from enum import IntEnum
from typing import Dict


# codes: begin
class Refusal(IntEnum):
    """Why something is refused."""

    # the packet has under 12 or over 2,000 bytes
    PACKET_SIZE = 1
    # the packet does not begin with ROUGHTIM
    MARK = 2
    # the packet's length field differs from the rest
    PACKET_LENGTH = 3
    # a message's length, number of tags, header or offset is wrong
    FRAME = 4
    # the tags of a message do not rise
    TAG_ORDER = 5
    # a needed tag is absent
    TAG_ABSENT = 6
    # a value's length is wrong, a version list does not rise, or RADI is 0
    VALUE = 7
    # TYPE or the version is wrong, VERS lacks it, or both sides know a higher one
    TYPE_OR_VERSION = 8
    # NONC is not the request's
    NONCE = 9
    # INDX is too large, or the path does not lead to ROOT
    PATH = 10
    # MIDP is outside MINT to MAXT
    TIME = 11
    # the delegation's signature does not verify
    DELEGATION = 12
    # the response's signature does not verify
    SIGNATURE = 13
    # the request that the response answers is bad
    REQUEST = 14
    # the pile is not 1 to 16 whole records, or its answers are not two bytes a record, each 1 or 0
    PILE = 15
    # a record's lengths are above 2,000, or a byte that must be zero is not
    RECORD = 16
    # the first rand is not zero, or a record is not linked to the one before it
    LINK = 17
    # no two records contradict each other, or no run of records convicts
    NO_CONTRADICTION = 18
    # the buffer is too short
    ROOM = 19
    # the leaves are not 1 to 1,024 whole ones, or the place is past the last
    LEAVES = 20
    # a list of servers is not whole records
    LISTS = 21
    # no list has the server
    UNKNOWN_SERVER = 22
    # the response would be longer than the request that it answers
    RESPONSE_LENGTH = 23
    # the text is no report and no server list: not JSON, too deep, or a member missing, repeated or
    # wrong
    REPORT_TEXT = 24
    # the text has no entry, too many, or one with a packet above 2,000 bytes or over 8 addresses
    ENTRIES = 25
    # a response was received before it was sent for, or a moment is before the last receipt
    CLOCK = 26
    # the response took longer than is allowed
    DELAY = 27
    # the walk has ended
    ENDED = 28
    # an old stamp's date is under 40587, or its microseconds are 86,401,000,000 or more
    OLD_STAMP = 29
    # the pieces of a message come to more than 2^64 - 1 bytes
    PIECES = 30
    # the servers of a walk are not 3 to 8 whole keys, or one key stands there twice
    WALK_SERVERS = 31
    # the server of a clock is above 7, or its drift is a million or more
    CLOCK_INPUT = 32
    # no more servers are counted than may lie
    TOO_FEW = 33
    # no time lies in the windows of enough servers
    NO_AGREEMENT = 34
    # the seed's public key is not the PUBK of CERT
    OTHER_KEY = 35
    # the list has no such server, address, source or place for reports
    LIST_PLACE = 36


WORDS: Dict[int, str] = {
    1: "the packet has under 12 or over 2,000 bytes",
    2: "the packet does not begin with ROUGHTIM",
    3: "the packet's length field differs from the rest",
    4: "a message's length, number of tags, header or offset is wrong",
    5: "the tags of a message do not rise",
    6: "a needed tag is absent",
    7: "a value's length is wrong, a version list does not rise, or RADI is 0",
    8: "TYPE or the version is wrong, VERS lacks it, or both sides know a higher one",
    9: "NONC is not the request's",
    10: "INDX is too large, or the path does not lead to ROOT",
    11: "MIDP is outside MINT to MAXT",
    12: "the delegation's signature does not verify",
    13: "the response's signature does not verify",
    14: "the request that the response answers is bad",
    15: "the pile is not 1 to 16 whole records, or its answers are not two bytes a record, each 1 "
    "or 0",
    16: "a record's lengths are above 2,000, or a byte that must be zero is not",
    17: "the first rand is not zero, or a record is not linked to the one before it",
    18: "no two records contradict each other, or no run of records convicts",
    19: "the buffer is too short",
    20: "the leaves are not 1 to 1,024 whole ones, or the place is past the last",
    21: "a list of servers is not whole records",
    22: "no list has the server",
    23: "the response would be longer than the request that it answers",
    24: "the text is no report and no server list: not JSON, too deep, or a member missing, "
    "repeated or wrong",
    25: "the text has no entry, too many, or one with a packet above 2,000 bytes or over 8 "
    "addresses",
    26: "a response was received before it was sent for, or a moment is before the last receipt",
    27: "the response took longer than is allowed",
    28: "the walk has ended",
    29: "an old stamp's date is under 40587, or its microseconds are 86,401,000,000 or more",
    30: "the pieces of a message come to more than 2^64 - 1 bytes",
    31: "the servers of a walk are not 3 to 8 whole keys, or one key stands there twice",
    32: "the server of a clock is above 7, or its drift is a million or more",
    33: "no more servers are counted than may lie",
    34: "no time lies in the windows of enough servers",
    35: "the seed's public key is not the PUBK of CERT",
    36: "the list has no such server, address, source or place for reports",
}
# codes: end


def words(code: int) -> str:
    """What a code says, in words."""
    return WORDS.get(code, "no such code")
