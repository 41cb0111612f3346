// A first program against the installed package: checks the first response of a report under the key
// that stands beside it, and prints the window of the time.
//
//     node first.mjs PREFIX/share/trawlbeacon/js malfeasance-report.json

import { readFileSync, writeSync } from "node:fs";
import { resolve } from "node:path";
import { pathToFileURL } from "node:url";

const [folder, name] = process.argv.slice(2);
const { load } = await import(pathToFileURL(resolve(folder, "trawlbeacon.js")));
const library = await load();

/** The packet of a record that stands at a place, with its length at another. */
function packet(record, at, length) {
    return record.subarray(at, at + record[length] + 256 * record[length + 1]);
}

const record = library.readReport(new Uint8Array(readFileSync(name)));
const key = record.slice(0, 32);
const window = library.checkSigned(key, packet(record, 96, 64), packet(record, 2096, 68));
writeSync(1, `the time is from ${window.low} to ${window.high}\n`);
