// Lists of servers: the JSON of draft 19, section 8.3, read, and lists of records looked through.

import { CODE } from "./codes.js";
import { Refusal } from "./errors.js";
import { array, room, slice, u64 } from "./lending.js";
import { HASH_LENGTH, passed } from "./packets.js";
import { STRUCTS } from "./structs.js";

/** Bytes of a record of a list: a long-term key and then its SRV value. */
export const SERVER_LENGTH = 64;

/** The most servers of a list in JSON, and addresses of a server. */
export const LISTED_SERVERS = 64;
export const LISTED_ADDRESSES = 8;

/** What the function makes, or null, where the list has nothing there. */
function orAbsent(make) {
    try {
        return make();
    } catch (why) {
        if (why instanceof Refusal && why.code === CODE.LIST_PLACE) return null;
        throw why;
    }
}

/** What the function makes of the places 0, 1 and so on, up to the first that a list has not. */
function untilAbsent(make) {
    const made = [];
    let next = orAbsent(() => make(0));
    while (next !== null) {
        made.push(next);
        next = orAbsent(() => make(made.length));
    }
    return made;
}

/** Names, addresses and URLs are UTF-8: the library has seen to that. */
const letters = (bytes) => new TextDecoder("utf-8", { ignoreBOM: true }).decode(bytes);

export const serverLists = (library) => {
    /** A text that is written is at most as long as the list. */
    const text = (name, layout, list, ...places) => {
        const lent = [slice(list), ...places.map(u64), room(list.length)];
        const { answer, outs } = library.call(name, layout, ...lent);
        const { length, tcp } = passed(answer);
        return { text: letters(outs[0].subarray(0, Number(length))), tcp };
    };
    const wrote = STRUCTS.tb_wrote;
    const own = {
        readServers(list) {
            const lent = [slice(list), room(LISTED_SERVERS * SERVER_LENGTH)];
            const { answer, outs } = library.call("tb_read_servers", STRUCTS.tb_servers, ...lent);
            const { records, passed_over } = passed(answer);
            return {
                records: outs[0].slice(0, Number(records) * SERVER_LENGTH),
                passedOver: Number(passed_over),
            };
        },

        serverName: (list, place) => text("tb_server_name", wrote, list, place).text,

        serverAddress(list, place, which) {
            const layout = STRUCTS.tb_addressed;
            const told = text("tb_server_address", layout, list, place, which);
            return { protocol: told.tcp === 1 ? "tcp" : "udp", address: told.text };
        },

        listSource: (list, place) => text("tb_list_source", wrote, list, place).text,

        listReports: (list) => text("tb_list_reports", wrote, list).text,

        serverList(list) {
            const { records, passedOver } = own.readServers(list);
            const servers = [];
            for (let place = 0; place * SERVER_LENGTH < records.length; place++) {
                const at = place * SERVER_LENGTH;
                servers.push({
                    name: own.serverName(list, place),
                    key: records.slice(at, at + HASH_LENGTH),
                    srv: records.slice(at + HASH_LENGTH, at + SERVER_LENGTH),
                    addresses: untilAbsent((which) => own.serverAddress(list, place, which)),
                });
            }
            return {
                servers,
                passedOver,
                sources: untilAbsent((place) => own.listSource(list, place)),
                reports: orAbsent(() => own.listReports(list)),
            };
        },

        findServer(owner, shipped, srv) {
            const lent = [slice(owner), slice(shipped), array(srv, HASH_LENGTH)];
            const { answer } = library.call("tb_find_server", STRUCTS.tb_found, ...lent);
            const { list, offset } = passed(answer);
            return { list: list === 0 ? "owner" : "shipped", offset: Number(offset) };
        },
    };
    return own;
};
