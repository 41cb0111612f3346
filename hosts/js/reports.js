// Piles and reports: read, judged, cut and written. What takes no answers verifies the signatures
// of each record by the key that stands in it.

import { room, slice, u64 } from "./lending.js";
import { passed, windowOf } from "./packets.js";
import { STRUCTS } from "./structs.js";

/** Bytes of a record of a pile, the most records of a pile, and bytes of the largest one. */
export const RECORD_LENGTH = 4096;
export const MOST_RECORDS = 16;
export const MOST_PILE_LENGTH = MOST_RECORDS * RECORD_LENGTH;

/** The length of the longest report that is written. One that is read may be longer. */
export const LONGEST_REPORT = 87609;

/** The records that stand at the front of a room. */
const front = (out, records) => out.slice(0, Number(records) * RECORD_LENGTH);

/** A run of records, and its own pile. */
function runOf({ answer, outs }) {
    const { first, last } = passed(answer);
    return {
        first: Number(first),
        last: Number(last),
        pile: front(outs[0], last - first + 1n),
    };
}

/** A run of records, and its own text. */
function runTextOf({ answer, outs }) {
    const { first, last, length } = passed(answer);
    return { first: Number(first), last: Number(last), text: outs[0].slice(0, Number(length)) };
}

function pairOf({ answer }) {
    const { first, second } = passed(answer);
    return { first: Number(first), second: Number(second) };
}

const judgedOf = ({ answer }) => windowOf(passed(answer));

const textOf = ({ answer, outs }) => outs[0].slice(0, Number(passed(answer).length));

export const reports = (library) => ({
    readReport(text) {
        const lent = [slice(text), room(MOST_PILE_LENGTH)];
        const { answer, outs } = library.call("tb_read_report", STRUCTS.tb_records, ...lent);
        return front(outs[0], passed(answer).records);
    },

    judge(pile, answers, place) {
        const lent = [slice(pile), slice(answers), u64(place)];
        return judgedOf(library.call("tb_judge", STRUCTS.tb_judged, ...lent));
    },

    judgeSigned(pile, place) {
        const lent = [slice(pile), u64(place)];
        return judgedOf(library.call("tb_judge_signed", STRUCTS.tb_judged, ...lent));
    },

    linked(pile, place) {
        return library.call("tb_linked", null, slice(pile), u64(place)).answer !== 0;
    },

    firstRandZero(pile) {
        return library.call("tb_first_rand_zero", null, slice(pile)).answer !== 0;
    },

    checkReport(pile, answers) {
        const lent = [slice(pile), slice(answers)];
        return pairOf(library.call("tb_check_report", STRUCTS.tb_reported, ...lent));
    },

    checkSignedReport(pile) {
        return pairOf(library.call("tb_check_signed_report", STRUCTS.tb_reported, slice(pile)));
    },

    cutRun(pile, answers) {
        const lent = [slice(pile), slice(answers), room(Math.min(pile.length, MOST_PILE_LENGTH))];
        return runOf(library.call("tb_cut_run", STRUCTS.tb_cut, ...lent));
    },

    cutSignedRun(pile) {
        const lent = [slice(pile), room(Math.min(pile.length, MOST_PILE_LENGTH))];
        return runOf(library.call("tb_cut_signed_run", STRUCTS.tb_cut, ...lent));
    },

    writeReport(pile, answers) {
        const lent = [slice(pile), slice(answers), room(LONGEST_REPORT)];
        return textOf(library.call("tb_write_report", STRUCTS.tb_published, ...lent));
    },

    writeSignedReport(pile) {
        const lent = [slice(pile), room(LONGEST_REPORT)];
        return textOf(library.call("tb_write_signed_report", STRUCTS.tb_published, ...lent));
    },

    cutText(text, answers) {
        const lent = [slice(text), slice(answers), room(LONGEST_REPORT)];
        return runTextOf(library.call("tb_cut_text", STRUCTS.tb_forwarded, ...lent));
    },

    cutSignedText(text) {
        const lent = [slice(text), room(LONGEST_REPORT)];
        return runTextOf(library.call("tb_cut_signed_text", STRUCTS.tb_forwarded, ...lent));
    },
});
