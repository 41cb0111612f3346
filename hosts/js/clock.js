// The time, though a server lies.

import { Refusal } from "./errors.js";
import { state, u32, u64 } from "./lending.js";
import { passed } from "./packets.js";
import { STRUCTS } from "./structs.js";

/** The most servers of a clock, and the windows that it keeps of each. */
export const CLOCK_SERVERS = 8;
const WINDOWS = 2 * CLOCK_SERVERS;

/** The numbers of the servers whose bits are set. */
function serversOf(bits) {
    const all = Array.from({ length: CLOCK_SERVERS }, (_, server) => server);
    return all.filter((server) => (bits >> BigInt(server)) & 1n);
}

/** Windows of up to 8 servers, and what time it is by them, where some of the servers may lie. */
class Clock {
    #library;
    #drift = new Uint8Array(4);
    #windows = Array.from({ length: 5 }, () => new Uint8Array(8 * WINDOWS));

    constructor(library, drift) {
        this.#library = library;
        const lent = [state(this.#drift), ...this.#windows.map(state), u32(drift)];
        const [first, ...rest] = this.#taken("tb_clock_start_fields", lent);
        this.#drift = first;
        this.#windows = rest;
    }

    /** What a call left of the state that it was lent. */
    #taken(name, lent) {
        const { answer, outs } = this.#library.call(name, null, ...lent);
        if (answer !== 0) throw new Refusal(answer);
        return outs;
    }

    #bound() {
        return u32(new DataView(this.#drift.buffer).getUint32(0, true));
    }

    take(server, { low, high, maxt }, sent, received) {
        const numbers = [server, low, high, maxt, sent, received].map(u64);
        const lent = [this.#bound(), ...this.#windows.map(state), ...numbers];
        this.#windows = this.#taken("tb_clock_take_fields", lent);
    }

    now(moment, liars) {
        const lent = [this.#bound(), ...this.#windows.map(state), u64(moment), u64(liars)];
        const { answer } = this.#library.call("tb_clock_now_fields", STRUCTS.tb_time, ...lent);
        const { low, high, stopped, counted, agree, suspects } = passed(answer);
        return {
            low,
            high,
            stopped: stopped === 1,
            counted: Number(counted),
            agree: serversOf(agree),
            suspects: serversOf(suspects),
        };
    }
}

export const clocks = (library) => ({
    clock: (drift) => new Clock(library, drift),
});
