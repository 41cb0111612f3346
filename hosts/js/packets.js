// Hashes, requests, responses and the check of one by the other.

import { Refusal } from "./errors.js";
import { array, place, room, slice, u32, u64 } from "./lending.js";
import { STRUCTS } from "./structs.js";

/** Bytes of the request that writeRequest writes. */
export const REQUEST_LENGTH = 1036;

/** Bytes of a key, a nonce and a hash. */
export const HASH_LENGTH = 32;

/** What was said, where it is no refusal. */
export function passed(answer) {
    if (answer.code !== 0) throw new Refusal(answer.code, answer);
    return answer;
}

/** The window of a valid response, with the key that signed it. */
export function windowOf({ midp, radi, low, high, mint, maxt, pubk }) {
    return { midp, radi, low, high, mint, maxt, pubk };
}

export const packets = (library) => ({
    sha512(message) {
        return library.call("tb_sha512", null, slice(message), place(64)).outs[0];
    },

    leaf(packet) {
        return library.call("tb_leaf", null, slice(packet), place(HASH_LENGTH)).outs[0];
    },

    srvValue(key) {
        const lent = array(key, HASH_LENGTH);
        return library.call("tb_srv_value", null, lent, place(HASH_LENGTH)).outs[0];
    },

    link(response, rand) {
        const lent = [slice(response), array(rand, HASH_LENGTH), place(HASH_LENGTH)];
        return library.call("tb_link", null, ...lent).outs[0];
    },

    verify(key, text, signature) {
        const lent = [slice(key), slice(text), slice(signature)];
        return library.call("tb_verify", null, ...lent).answer !== 0;
    },

    writeRequest(key, nonce) {
        const lent = [array(key, HASH_LENGTH), array(nonce, HASH_LENGTH), room(REQUEST_LENGTH)];
        const { answer, outs } = library.call("tb_write_request", STRUCTS.tb_wrote, ...lent);
        passed(answer);
        return outs[0];
    },

    readRequest(packet) {
        const said = library.call("tb_read_request", STRUCTS.tb_request, slice(packet)).answer;
        const { nonc, srv, with_srv } = passed(said);
        return { nonc, srv: with_srv === 1 ? srv : null };
    },

    readResponse(packet) {
        const said = library.call("tb_read_response", STRUCTS.tb_response, slice(packet)).answer;
        const { midp, radi, indx, nonc, root } = passed(said);
        return { midp, radi, indx, nonc, root };
    },

    answers(key, response) {
        const lent = [array(key, HASH_LENGTH), slice(response), place(2)];
        const [delegation, signature] = library.call("tb_answers", null, ...lent).outs[0];
        return { delegation: delegation === 1, signature: signature === 1 };
    },

    checkSigned(key, request, response) {
        const lent = [array(key, HASH_LENGTH), slice(request), slice(response)];
        const { answer } = library.call("tb_check_signed", STRUCTS.tb_verdict, ...lent);
        return windowOf(passed(answer));
    },

    checkResponse(request, response, delegation, signature) {
        const yes = (said) => u32(said === true ? 1 : 0);
        const lent = [slice(request), slice(response), yes(delegation), yes(signature)];
        const { answer } = library.call("tb_check_response", STRUCTS.tb_verdict, ...lent);
        return windowOf(passed(answer));
    },

    contradicts(earlier, later) {
        const numbers = [u64(earlier.midp), u32(earlier.radi), u64(later.midp), u32(later.radi)];
        return library.call("tb_contradicts", null, ...numbers).answer !== 0;
    },

    mayUse(window, time) {
        const numbers = [u32(0), u64(window.maxt), u64(time)];
        return library.call("tb_may_use_fields", null, ...numbers).answer !== 0;
    },

    oldWindow(midp, radi) {
        const numbers = [u64(midp), u32(radi)];
        const { low, high } = passed(
            library.call("tb_old_window", STRUCTS.tb_old, ...numbers).answer,
        );
        return { low, high };
    },
});
