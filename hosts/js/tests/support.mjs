// What the tests share: the module that tools/native-lib made, the tree's files, and some numbers.

import { readFileSync } from "node:fs";
import { load } from "../trawlbeacon.js";

export const ROOT = new URL("../../../", import.meta.url);

/** The module. TRAWLBEACON_WASM names another one. */
export const WASM = process.env.TRAWLBEACON_WASM ?? new URL("build/js/trawlbeacon.wasm", ROOT);

export const wasmBytes = () => readFileSync(WASM);
export const library = () => load(wasmBytes());

/** A file of the tree, as plain bytes. */
export const file = (name) => new Uint8Array(readFileSync(new URL(name, ROOT)));
export const text = (name) => readFileSync(new URL(name, ROOT), "utf8");

export const hex = (bytes) => Buffer.from(bytes).toString("hex");
export const unhex = (digits) => new Uint8Array(Buffer.from(digits, "hex"));
export const utf8 = (letters) => new TextEncoder().encode(letters);

/** The report of draft 19, appendix B, as text, and as a pile that the proved program is run on. */
export const REPORT = file("vectors/malfeasance-report.json");
export const PILE = file("crates/trawl_alone/data/appendix.pile");

/** The same numbers on every machine (Marsaglia's xorshift). */
export function random(seed) {
    let state = BigInt(seed) | 1n;
    const next = () => {
        state ^= (state << 13n) & 0xffffffffffffffffn;
        state ^= state >> 7n;
        state ^= (state << 17n) & 0xffffffffffffffffn;
        return state;
    };
    return {
        next,
        below: (bound) => Number(next() % BigInt(bound)),
        bytes: (length) => Uint8Array.from({ length }, () => Number(next() & 0xffn)),
    };
}
