// The proved Roughtime library, for JavaScript: the compiled library as WebAssembly, and around it
// functions on Uint8Array. trawlbeacon.d.ts says what each takes and gives.
//
// Nothing here decides anything that the library decides: a function copies what it is lent, calls
// the export of its name, and turns the answer into a value or an error. No function signs: what a
// compiler at run time makes of code that holds a secret is nothing that can be looked at.

import { operations } from "./operations.js";

export { CODE, WORDS } from "./codes.js";
export { CLOCK_SERVERS } from "./clock.js";
export { MemoryError, Refusal, TrapError, TrawlbeaconError } from "./errors.js";
export { operations } from "./operations.js";
export { REQUEST_LENGTH } from "./packets.js";
export { LONGEST_REPORT, MOST_PILE_LENGTH, MOST_RECORDS, RECORD_LENGTH } from "./reports.js";
export { LISTED_ADDRESSES, LISTED_SERVERS, SERVER_LENGTH } from "./server-lists.js";

/**
 * Loads the library: from these bytes, or this module, or else from trawlbeacon.wasm beside this
 * file. It asks for nothing: the module has no imports.
 */
export async function load(source) {
    const given = source ?? (await besides());
    const made = await WebAssembly.instantiate(given, {});
    return operations(made instanceof WebAssembly.Instance ? made : made.instance);
}

/** The bytes of the file beside this one: read, or fetched from where this one came from. */
async function besides() {
    const url = new URL("./trawlbeacon.wasm", import.meta.url);
    if (url.protocol === "file:") {
        const { readFile } = await import("node:fs/promises");
        return readFile(url);
    }
    const answer = await fetch(url);
    if (!answer.ok) throw new Error(`${url} could not be fetched: status ${answer.status}`);
    return answer.arrayBuffer();
}
