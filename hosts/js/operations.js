// The operations of the library, on an instance of the compiled module.

import { clocks } from "./clock.js";
import { Library } from "./lending.js";
import { packets } from "./packets.js";
import { reports } from "./reports.js";
import { serverLists } from "./server-lists.js";

export function operations(instance) {
    const library = new Library(instance);
    return Object.freeze({
        ...packets(library),
        ...reports(library),
        ...serverLists(library),
        ...clocks(library),
    });
}
