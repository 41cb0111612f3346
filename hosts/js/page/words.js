// What the page says in words. The program's own picture says the same
// (hosts/rust/src/picture/words.rs), but it answers no question.

import { dateOf, datesOf, span } from "./dates.js";

/** Controls, and those letters of Unicode that stand for a direction, a break or nothing at all. */
const STEERS =
    // eslint-disable-next-line no-control-regex
    /[\u0000-\u001f\u007f-\u009f\u061c\u200b-\u200f\u2028-\u202e\u2060-\u206f\ufeff\ud800-\udfff]/u;

/** A name of others, with what could steer how it is shown spelled out, and not without end. */
export function plain(name, most = 80) {
    const letters = Array.from(name);
    const shown = letters.slice(0, most).map((letter) => {
        const code = letter.codePointAt(0);
        return STEERS.test(letter) ? `\\u{${code.toString(16)}}` : letter;
    });
    return shown.join("") + (letters.length > most ? " .." : "");
}

export const counted = (count, what) => `${count} ${what}${count === 1 ? "" : "s"}`;

/** The letter by which a server is called. There are at most 16. */
export const letterOf = (server) => String.fromCharCode(65 + server);

/** What stands beside a record, in so many letters: its server's name, or the start of its key. */
export function labelOf({ key, name }, most) {
    if (name === null) return key.slice(0, 8);
    const letters = Array.from(plain(name));
    return letters.length > most ? `${letters.slice(0, most - 2).join("")}..` : letters.join("");
}

/** Why a record or a text is refused. */
export function refusalWords({ code, words, at }) {
    return `refused with code ${code}: ${words}${at === undefined ? "" : `, at byte ${at}`}`;
}

/** What a record tells, its dates and its seconds, or why it is refused. */
export function toldOf({ window, refusal }) {
    if (refusal) return [refusalWords(refusal)];
    return [datesOf(window.low, window.high), `(${window.low} to ${window.high})`];
}

/** Whether a record is linked to the one before it. */
export const linkOf = ({ place, linked }) =>
    place === 0 ? "first" : linked ? "linked" : "not linked";

/** What follows from the records: the answer to the page's question, whether a server lied. */
export function finding({ run }) {
    if (!run) return "No: nothing here proves a lie.";
    return `Yes: records ${run.first} and ${run.last} contradict each other.`;
}

/** A number of seconds, and how long that is where it is not seen at a glance. */
const long = (seconds) =>
    seconds < 60n ? span(seconds) : `${seconds} seconds (${span(seconds)})`;

/** The finding at length. */
export function verdictWords({ run, records, servers }) {
    if (!run) return ["No run of records convicts. That does not prove any server's time right."];
    const [earlier, later] = [records[run.first], records[run.last]];
    const whose = ({ place, server }) => {
        const { name } = servers[server];
        return name === null ? `${place}` : `${place} (${plain(name)})`;
    };
    const apart = earlier.window.low - later.window.high;
    return [
        `Record ${whose(earlier)} says that it was ${dateOf(earlier.window.low)} or later. ` +
            `Record ${whose(later)}, asked for after that, says that it was ` +
            `${dateOf(later.window.high)} or earlier.`,
        `The two are ${long(apart)} apart: honest servers never say both. ` +
            `Records ${run.first} to ${run.last} alone prove this.`,
    ];
}

/** Whether the whole of it is a report, too. */
export function wholeWords({ whole, run, records }) {
    if (!whole) return "The whole input is a valid report.";
    if (!run || records.length === run.last - run.first + 1) return null;
    const where = whole.place === undefined ? "" : `record ${whole.place}: `;
    const alone = `Records ${run.first} to ${run.last} alone are one.`;
    return `The whole input is not a valid report: ${where}${whole.words}. ${alone}`;
}

/** The warning about keys that nobody knows; null, where there is nothing to warn of. */
export function keyWords({ listed, servers }) {
    const end = "and anybody can make keys.";
    const add = "Add a server list that you trust.";
    if (!listed) return `These keys were not compared with any list, ${end} ${add}`;
    const unknown = ({ name }, server) => (name === null ? [letterOf(server)] : []);
    const letters = servers.flatMap(unknown);
    if (!letters.length) return null;
    const [keys, are] = letters.length === 1 ? ["key", "is"] : ["keys", "are"];
    return `The ${keys} ${letters.join(", ")} ${are} in no list that you gave, ${end}`;
}

/** What is said of what is neither a report nor a pile. */
export function refusedWords({ refusal, of }) {
    const what = of === "list" ? "This is not a server list" : "This cannot be judged";
    return `${what}: ${refusal.words} (code ${refusal.code}).`;
}
