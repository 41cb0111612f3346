// What is said of a report or a pile, all of it by the library: each record, the run that convicts,
// and the run's own text; and whose keys the lists know.

import { CODE } from "../codes.js";
import { Refusal } from "../errors.js";
import { RECORD_LENGTH } from "../reports.js";
import { SERVER_LENGTH } from "../server-lists.js";
import { isUtf16, meansList, noList, noReport } from "./why.js";

/** The longest list of servers that is read. For each server it is gone through once more. */
const LONGEST_LIST = 1 << 20;

/** The longest text that is looked through for what is wrong, which takes memory for its values. */
const LONGEST_LOOKED = 4 << 20;

const TOO_LONG = "the text is above 4 MiB, so the place of the error was not looked for";

/** What is no text is a pile: every record has bytes that must be zero, and JSON has none. */
const isText = (bytes) => bytes.length > 0 && !bytes.includes(0);

/** What a refusal says to people. */
const toldOf = ({ code, words, at, place }) => ({ code, words, at, place });

/** What the function gives, or its refusal. */
function orRefusal(call) {
    try {
        return { value: call() };
    } catch (why) {
        if (why instanceof Refusal) return { refusal: toldOf(why) };
        throw why;
    }
}

const isNoText = ({ refusal }) => refusal?.code === CODE.REPORT_TEXT;

/** What is wrong with a pile that is refused with 15. */
function noPile(bytes) {
    if (bytes.length === 0) return "it is empty";
    if (isUtf16(bytes)) return "it is a text in UTF-16; a report in JSON is UTF-8";
    const rest = bytes.length % RECORD_LENGTH;
    if (rest) return `it has ${bytes.length} bytes, and a record has ${RECORD_LENGTH}`;
    return `it has ${bytes.length / RECORD_LENGTH} records, and a pile has at most 16`;
}

/** What some bytes are: { list }, { pile }, or { refusal, why }. */
export function sorted(library, bytes) {
    if (!isText(bytes)) return { pile: bytes };
    const report = orRefusal(() => library.readReport(bytes));
    if (report.value) return { pile: report.value };
    const list = isNoText(report) ? orRefusal(() => listOf(library, bytes)) : report;
    if (list.value) return { list: list.value };
    if (bytes.length > LONGEST_LOOKED) return { refusal: report.refusal, why: TOO_LONG };
    if (!isNoText(report) || !meansList(bytes)) {
        return { refusal: report.refusal, why: noReport(bytes), of: "report" };
    }
    const long = bytes.length > LONGEST_LIST ? "a list may have 1 MiB here" : null;
    return { refusal: list.refusal, why: long ?? noList(bytes), of: "list" };
}

/** The names and keys of a list; addresses are of no use here. */
function listOf(library, bytes) {
    if (bytes.length > LONGEST_LIST) throw new Refusal(CODE.REPORT_TEXT);
    const { records, passedOver } = library.readServers(bytes);
    const servers = [];
    for (let place = 0; place * SERVER_LENGTH < records.length; place++) {
        const key = records.slice(place * SERVER_LENGTH, place * SERVER_LENGTH + 32);
        servers.push({ key, name: library.serverName(bytes, place) });
    }
    return { servers, passedOver };
}

const hex = (bytes) => Array.from(bytes, (byte) => byte.toString(16).padStart(2, "0")).join("");

/** The keys of the lists, with the name of each: the first list that has a key names it. */
export function namesOf(lists) {
    const names = new Map();
    for (const { servers } of lists) {
        for (const { key, name } of servers) if (!names.has(hex(key))) names.set(hex(key), name);
    }
    return names;
}

function recordOf(library, pile, place) {
    const key = hex(pile.subarray(place * RECORD_LENGTH, place * RECORD_LENGTH + 32));
    const { value, refusal } = orRefusal(() => library.judgeSigned(pile, place));
    return { place, key, window: value ?? null, refusal, linked: library.linked(pile, place) };
}

/** The servers, each once, in the order in which they come first; and each record's among them. */
function withServers(records, names) {
    const keys = [...new Set(records.map(({ key }) => key))];
    return {
        records: records.map((record) => ({ ...record, server: keys.indexOf(record.key) })),
        servers: keys.map((key) => ({ key, name: names?.get(key) ?? null })),
    };
}

/** The run that convicts, with its text; null, where none does. */
function runOf(library, pile) {
    const { value, refusal } = orRefusal(() => library.cutSignedRun(pile));
    if (!value) return { refusal };
    const { first, last } = value;
    return { run: { first, last, text: library.writeSignedReport(value.pile) } };
}

/** The verdict on a pile. `tell` is told how far it has come. */
export function judged(library, pile, names, tell) {
    const whole = orRefusal(() => library.checkSignedReport(pile));
    if (whole.refusal?.code === CODE.PILE) return { refusal: whole.refusal, why: noPile(pile) };
    const records = [];
    const count = pile.length / RECORD_LENGTH;
    for (let place = 0; place < count; place++) {
        tell({ place, count });
        records.push(recordOf(library, pile, place));
    }
    const { run = null } = runOf(library, pile);
    return { ...withServers(records, names), listed: names !== null, run, whole: whole.refusal };
}
