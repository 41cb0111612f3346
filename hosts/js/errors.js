// What a call throws: the library's refusals, and what keeps a call from it.

import { WORDS } from "./codes.js";

/** The codes beside which the library names the byte of a packet. */
const WITH_A_BYTE = [4, 5, 6, 7];

/** The codes beside which it names the record of a pile: all that can be said of one record. */
const WITH_A_RECORD = [1, 2, 3, 4, 5, 6, 7, 8, 9, 10, 11, 12, 13, 14, 16, 17];

/** Anything that this package throws of its own, but for arguments of a wrong type. */
export class TrawlbeaconError extends Error {
    get name() {
        return this.constructor.name;
    }
}

/** The library refused a call: its code, what that says in words, and where it applies. */
export class Refusal extends TrawlbeaconError {
    /**
     * @param {number} code
     * @param {{ at?: bigint, place?: bigint }} [where] as the library told them
     */
    constructor(code, where = {}) {
        const words = WORDS[code] ?? "no such code";
        const at = byteOf(code, where.at);
        const place = recordOf(code, where.place);
        super(
            (place === undefined ? "" : `record ${place}: `) +
                words +
                (at === undefined ? "" : `, at byte ${at}`),
        );
        this.code = code;
        this.words = words;
        this.at = at;
        this.place = place;
    }
}

function byteOf(code, at) {
    return at !== undefined && WITH_A_BYTE.includes(code) ? Number(at) : undefined;
}

function recordOf(code, place) {
    return place !== undefined && WITH_A_RECORD.includes(code) ? Number(place) : undefined;
}

/** What was lent does not fit into the memory that WebAssembly can have here. */
export class MemoryError extends TrawlbeaconError {
    constructor(bytes) {
        super(`${bytes} bytes do not fit into the memory of WebAssembly here`);
        this.bytes = bytes;
    }
}

/** The compiled library stopped within a call. It never should. */
export class TrapError extends TrawlbeaconError {
    constructor(operation, cause) {
        super(`the library stopped within ${operation}, which it never should: ${cause}`, {
            cause,
        });
        this.operation = operation;
    }
}
