// The proved Roughtime library, for TypeScript and for people. include/trawlbeacon.h says the same
// at length: each function here calls the one of its name there, after `tb_`.
//
// Bytes are lent as Uint8Array and copied; what is given back is a copy, too. Numbers of 64 bits
// are given as BigInt, and taken as BigInt or as a number that is exact. Times are seconds since
// 1970, but for a clock's, which are microseconds. A refusal is thrown as Refusal. An argument of a
// wrong type is a TypeError, and a number or a length that cannot be one a RangeError.

/** The refusal codes, by their names. */
// Between the two marks stands what cargo xtask codes makes of the library's own table.
// codes: begin
export const CODE: {
    /** the packet has under 12 or over 2,000 bytes */
    readonly PACKET_SIZE: 1;
    /** the packet does not begin with ROUGHTIM */
    readonly MARK: 2;
    /** the packet's length field differs from the rest */
    readonly PACKET_LENGTH: 3;
    /** a message's length, number of tags, header or offset is wrong */
    readonly FRAME: 4;
    /** the tags of a message do not rise */
    readonly TAG_ORDER: 5;
    /** a needed tag is absent */
    readonly TAG_ABSENT: 6;
    /** a value's length is wrong, a version list does not rise, or RADI is 0 */
    readonly VALUE: 7;
    /** TYPE or the version is wrong, VERS lacks it, or both sides know a higher one */
    readonly TYPE_OR_VERSION: 8;
    /** NONC is not the request's */
    readonly NONCE: 9;
    /** INDX is too large, or the path does not lead to ROOT */
    readonly PATH: 10;
    /** MIDP is outside MINT to MAXT */
    readonly TIME: 11;
    /** the delegation's signature does not verify */
    readonly DELEGATION: 12;
    /** the response's signature does not verify */
    readonly SIGNATURE: 13;
    /** the request that the response answers is bad */
    readonly REQUEST: 14;
    /** the pile is not 1 to 16 whole records, or its answers are not two bytes a record, each 1 or
     * 0 */
    readonly PILE: 15;
    /** a record's lengths are above 2,000, or a byte that must be zero is not */
    readonly RECORD: 16;
    /** the first rand is not zero, or a record is not linked to the one before it */
    readonly LINK: 17;
    /** no two records contradict each other, or no run of records convicts */
    readonly NO_CONTRADICTION: 18;
    /** the buffer is too short */
    readonly ROOM: 19;
    /** the leaves are not 1 to 1,024 whole ones, or the place is past the last */
    readonly LEAVES: 20;
    /** a list of servers is not whole records */
    readonly LISTS: 21;
    /** no list has the server */
    readonly UNKNOWN_SERVER: 22;
    /** the response would be longer than the request that it answers */
    readonly RESPONSE_LENGTH: 23;
    /** the text is no report and no server list: not JSON, too deep, or a member missing, repeated
     * or wrong */
    readonly REPORT_TEXT: 24;
    /** the text has no entry, too many, or one with a packet above 2,000 bytes or over 8
     * addresses */
    readonly ENTRIES: 25;
    /** a response was received before it was sent for, or a moment is before the last receipt */
    readonly CLOCK: 26;
    /** the response took longer than is allowed */
    readonly DELAY: 27;
    /** the walk has ended */
    readonly ENDED: 28;
    /** an old stamp's date is under 40587, or its microseconds are 86,401,000,000 or more */
    readonly OLD_STAMP: 29;
    /** the pieces of a message come to more than 2^64 - 1 bytes */
    readonly PIECES: 30;
    /** the servers of a walk are not 3 to 8 whole keys, or one key stands there twice */
    readonly WALK_SERVERS: 31;
    /** the server of a clock is above 7, or its drift is a million or more */
    readonly CLOCK_INPUT: 32;
    /** no more servers are counted than may lie */
    readonly TOO_FEW: 33;
    /** no time lies in the windows of enough servers */
    readonly NO_AGREEMENT: 34;
    /** the seed's public key is not the PUBK of CERT */
    readonly OTHER_KEY: 35;
    /** the list has no such server, address, source or place for reports */
    readonly LIST_PLACE: 36;
};
// codes: end

/** What each code says, in words. */
export const WORDS: Readonly<Record<number, string>>;

/** Anything that is thrown here, but for arguments of a wrong type. */
export class TrawlbeaconError extends Error {}

/** The library refused a call: the first code that applies. */
export class Refusal extends TrawlbeaconError {
    constructor(code: number, where?: { at?: bigint; place?: bigint });
    /** Its number, which is the same in every language and never 0. */
    readonly code: number;
    /** What is wrong, in words. The message has them too, with the places. */
    readonly words: string;
    /** The byte of the packet at which it is bad, with the codes 4 to 7. */
    readonly at: number | undefined;
    /** The place of the record to which it applies, from 0, where it applies to one of a pile. */
    readonly place: number | undefined;
}

/** What was lent does not fit into the memory that WebAssembly can have here. */
export class MemoryError extends TrawlbeaconError {
    constructor(bytes: number);
    readonly bytes: number;
}

/** The compiled library stopped within a call. It never should. Later calls are not disturbed. */
export class TrapError extends TrawlbeaconError {
    constructor(operation: string, cause: unknown);
    readonly operation: string;
}

export const REQUEST_LENGTH: 1036;
export const RECORD_LENGTH: 4096;
export const MOST_RECORDS: 16;
export const MOST_PILE_LENGTH: 65536;
export const LONGEST_REPORT: 87609;
export const SERVER_LENGTH: 64;
export const LISTED_SERVERS: 64;
export const LISTED_ADDRESSES: 8;
export const CLOCK_SERVERS: 8;

/** A number of 64 bits, as it is taken. */
export type Whole = bigint | number;

/** What a valid response tells: the true time is from low to high. */
export interface Window {
    readonly midp: bigint;
    readonly radi: number;
    readonly low: bigint;
    readonly high: bigint;
    /** The first and the last second for which the delegated key is trusted. */
    readonly mint: bigint;
    readonly maxt: bigint;
    /** The delegated key that signed it. */
    readonly pubk: Uint8Array;
}

/** A run of records that convicts by itself: the places of its ends, from 0. */
export interface Run {
    readonly first: number;
    readonly last: number;
}

/** Two records that contradict each other. */
export interface Pair {
    readonly first: number;
    readonly second: number;
}

export interface ListedServer {
    /** It is for people, may hold any characters, and should not go to a terminal as it is. */
    readonly name: string;
    readonly key: Uint8Array;
    readonly srv: Uint8Array;
    readonly addresses: readonly Address[];
}

export interface Address {
    readonly protocol: "udp" | "tcp";
    /** A host, a colon and a port. */
    readonly address: string;
}

/** What a list of servers in JSON says (draft 19, section 8.3). */
export interface ServerList {
    /** Those that can be asked, in the list's order. */
    readonly servers: readonly ListedServer[];
    /** How many cannot be. */
    readonly passedOver: number;
    readonly sources: readonly string[];
    readonly reports: string | null;
}

/** The time at a moment: from low to high, in microseconds since 1970. */
export interface Time {
    readonly low: bigint;
    readonly high: bigint;
    /** Whether high is 2^64 - 1, where an end stops: the time may be later. */
    readonly stopped: boolean;
    readonly counted: number;
    /** The servers whose windows meet the time, and those whose windows do not. */
    readonly agree: readonly number[];
    readonly suspects: readonly number[];
}

/** Windows of up to 8 servers, the two newest of each, and what time it is by them. */
export interface Clock {
    /**
     * Takes the window of a valid response of a server, 0 to 7, whose request was first sent and
     * which was received at these microseconds of the host's own clock. Refusals: 32, 26.
     */
    take(
        server: Whole,
        window: Pick<Window, "low" | "high" | "maxt">,
        sent: Whole,
        received: Whole,
    ): void;
    /** The time at a moment, where at most so many servers lie. Refusals: 26, 33, 34. */
    now(moment: Whole, liars: Whole): Time;
}

/** The library. Its functions hang on no state: each may be called at any time. */
export interface Trawlbeacon {
    /** The SHA-512 digest of a message. */
    sha512(message: Uint8Array): Uint8Array;
    /** H(0x00, packet): the leaf of a request. */
    leaf(packet: Uint8Array): Uint8Array;
    /** H(0xff, key): the SRV value of a server's long-term key of 32 bytes. */
    srvValue(key: Uint8Array): Uint8Array;
    /** H(response, rand): the nonce that ties the next request to a response. */
    link(response: Uint8Array, rand: Uint8Array): Uint8Array;
    /** Whether an Ed25519 signature verifies (RFC 8032, 5.1.7). Any lengths are taken. */
    verify(key: Uint8Array, text: Uint8Array, signature: Uint8Array): boolean;

    /** The request with this nonce to the server with this long-term key, both of 32 bytes. */
    writeRequest(key: Uint8Array, nonce: Uint8Array): Uint8Array;
    /** Reads a request. Refusals: 1 to 8. */
    readRequest(packet: Uint8Array): { nonc: Uint8Array; srv: Uint8Array | null };
    /** Reads a response, which does not make it valid. Refusals: 1 to 8. */
    readResponse(packet: Uint8Array): {
        midp: bigint;
        radi: number;
        indx: number;
        nonc: Uint8Array;
        root: Uint8Array;
    };
    /** Whether the two signatures of a response verify under a server's long-term key. */
    answers(key: Uint8Array, response: Uint8Array): { delegation: boolean; signature: boolean };
    /** Checks a response and its signatures. Refusals: 14 and 1 to 13. */
    checkSigned(key: Uint8Array, request: Uint8Array, response: Uint8Array): Window;
    /** The same with answers about its signatures, of which only `true` is a yes. */
    checkResponse(
        request: Uint8Array,
        response: Uint8Array,
        delegation: boolean,
        signature: boolean,
    ): Window;
    /** Whether the earlier window contradicts the later one. */
    contradicts(
        earlier: Pick<Window, "midp" | "radi">,
        later: Pick<Window, "midp" | "radi">,
    ): boolean;
    /** Whether a window that was kept may still be used at a time: that is not past its maxt. */
    mayUse(window: Pick<Window, "maxt">, time: Whole): boolean;
    /** The window of an old MIDP and RADI (May 2021). Refusal: 29. */
    oldWindow(midp: Whole, radi: number): { low: bigint; high: bigint };

    /** Reads a report in JSON into the records of a pile. Refusals: 24, 25. */
    readReport(text: Uint8Array): Uint8Array;
    /** Judges a record by its own signatures. Refusals: 15, 16, 14, 1 to 13. */
    judgeSigned(pile: Uint8Array, place: Whole): Window;
    /** The same by answers: two bytes a record, each 1 or 0. */
    judge(pile: Uint8Array, answers: Uint8Array, place: Whole): Window;
    /** Whether a record is linked to the one before it. */
    linked(pile: Uint8Array, place: Whole): boolean;
    /** Whether the rand of the first record is all zero. */
    firstRandZero(pile: Uint8Array): boolean;
    /** The two records by which a pile is a report. Refusals: 15, 16, 14, 1 to 13, 17, 18. */
    checkSignedReport(pile: Uint8Array): Pair;
    checkReport(pile: Uint8Array, answers: Uint8Array): Pair;
    /** The shortest run that convicts by itself, and its pile. Refusals: 15, 18. */
    cutSignedRun(pile: Uint8Array): Run & { readonly pile: Uint8Array };
    cutRun(pile: Uint8Array, answers: Uint8Array): Run & { readonly pile: Uint8Array };
    /** The text of a pile that is a report. Refusals: those of checkSignedReport. */
    writeSignedReport(pile: Uint8Array): Uint8Array;
    writeReport(pile: Uint8Array, answers: Uint8Array): Uint8Array;
    /** From text to text: the shortest run that convicts by itself. Refusals: 24, 25, 15, 18. */
    cutSignedText(text: Uint8Array): Run & { readonly text: Uint8Array };
    cutText(text: Uint8Array, answers: Uint8Array): Run & { readonly text: Uint8Array };

    /** All that a list of servers in JSON says. Refusals: 24, 25. */
    serverList(list: Uint8Array): ServerList;
    /** The records of its servers: SERVER_LENGTH bytes each. Refusals: 24, 25. */
    readServers(list: Uint8Array): { records: Uint8Array; passedOver: number };
    /** One part of it. Refusals: 24, 25, and 36, where the list has no such part. */
    serverName(list: Uint8Array, place: Whole): string;
    serverAddress(list: Uint8Array, place: Whole, which: Whole): Address;
    listSource(list: Uint8Array, place: Whole): string;
    listReports(list: Uint8Array): string;
    /** Looks up an SRV value in two lists of records. Refusals: 21, 22. */
    findServer(
        owner: Uint8Array,
        shipped: Uint8Array,
        srv: Uint8Array,
    ): { list: "owner" | "shipped"; offset: number };

    /** A clock. The host's own goes wrong by at most so many parts of a million. Refusal: 32. */
    clock(drift: number): Clock;
}

/**
 * Loads the library: from these bytes, or this module, or else from trawlbeacon.wasm beside
 * trawlbeacon.js.
 */
export function load(source?: BufferSource | WebAssembly.Module): Promise<Trawlbeacon>;

/** The operations of an instance that was made of the module elsewhere. */
export function operations(instance: WebAssembly.Instance): Trawlbeacon;
