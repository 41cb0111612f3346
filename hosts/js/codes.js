// The refusal codes, and what each says in words.

// Between the two marks stands what cargo xtask codes makes of the library's own table.
// codes: begin
export const CODE = Object.freeze({
    PACKET_SIZE: 1,
    MARK: 2,
    PACKET_LENGTH: 3,
    FRAME: 4,
    TAG_ORDER: 5,
    TAG_ABSENT: 6,
    VALUE: 7,
    TYPE_OR_VERSION: 8,
    NONCE: 9,
    PATH: 10,
    TIME: 11,
    DELEGATION: 12,
    SIGNATURE: 13,
    REQUEST: 14,
    PILE: 15,
    RECORD: 16,
    LINK: 17,
    NO_CONTRADICTION: 18,
    ROOM: 19,
    LEAVES: 20,
    LISTS: 21,
    UNKNOWN_SERVER: 22,
    RESPONSE_LENGTH: 23,
    REPORT_TEXT: 24,
    ENTRIES: 25,
    CLOCK: 26,
    DELAY: 27,
    ENDED: 28,
    OLD_STAMP: 29,
    PIECES: 30,
    WALK_SERVERS: 31,
    CLOCK_INPUT: 32,
    TOO_FEW: 33,
    NO_AGREEMENT: 34,
    OTHER_KEY: 35,
    LIST_PLACE: 36,
});

export const WORDS = Object.freeze({
    1:
        "the packet has under 12 or over 2,000 bytes",
    2:
        "the packet does not begin with ROUGHTIM",
    3:
        "the packet's length field differs from the rest",
    4:
        "a message's length, number of tags, header or offset is wrong",
    5:
        "the tags of a message do not rise",
    6:
        "a needed tag is absent",
    7:
        "a value's length is wrong, a version list does not rise, or RADI is 0",
    8:
        "TYPE or the version is wrong, VERS lacks it, or both sides know a higher one",
    9:
        "NONC is not the request's",
    10:
        "INDX is too large, or the path does not lead to ROOT",
    11:
        "MIDP is outside MINT to MAXT",
    12:
        "the delegation's signature does not verify",
    13:
        "the response's signature does not verify",
    14:
        "the request that the response answers is bad",
    15:
        "the pile is not 1 to 16 whole records, or its answers are not two bytes a record, each " +
        "1 or 0",
    16:
        "a record's lengths are above 2,000, or a byte that must be zero is not",
    17:
        "the first rand is not zero, or a record is not linked to the one before it",
    18:
        "no two records contradict each other, or no run of records convicts",
    19:
        "the buffer is too short",
    20:
        "the leaves are not 1 to 1,024 whole ones, or the place is past the last",
    21:
        "a list of servers is not whole records",
    22:
        "no list has the server",
    23:
        "the response would be longer than the request that it answers",
    24:
        "the text is no report and no server list: not JSON, too deep, or a member missing, " +
        "repeated or wrong",
    25:
        "the text has no entry, too many, or one with a packet above 2,000 bytes or over 8 " +
        "addresses",
    26:
        "a response was received before it was sent for, or a moment is before the last receipt",
    27:
        "the response took longer than is allowed",
    28:
        "the walk has ended",
    29:
        "an old stamp's date is under 40587, or its microseconds are 86,401,000,000 or more",
    30:
        "the pieces of a message come to more than 2^64 - 1 bytes",
    31:
        "the servers of a walk are not 3 to 8 whole keys, or one key stands there twice",
    32:
        "the server of a clock is above 7, or its drift is a million or more",
    33:
        "no more servers are counted than may lie",
    34:
        "no time lies in the windows of enough servers",
    35:
        "the seed's public key is not the PUBK of CERT",
    36:
        "the list has no such server, address, source or place for reports",
});
// codes: end
