// What include/trawlbeacon.h declares: its structs, and the functions that the library exports.

import { readFileSync } from "node:fs";

const FILE = new URL("../../../../include/trawlbeacon.h", import.meta.url);

/** The header without comments, directives and the functions that it defines itself. */
function code() {
    return readFileSync(FILE, "utf8")
        .replace(/\/\*[\s\S]*?\*\//g, "")
        .replace(/^#.*$/gm, "")
        .replace(/static inline [\s\S]*?\n}\n/g, "")
        .replace(/\s+/g, " ");
}

const SIZES = { uint8_t: 1, uint32_t: 4, uint64_t: 8, size_t: 8, tb_size: 8 };

function sizeOf(type) {
    if (!(type in SIZES)) throw new Error(`the header has a type that is not known: ${type}`);
    return SIZES[type];
}

/** A declaration "const uint8_t name[32]", in its parts. */
function declared(text) {
    const found = /^(const )?(\w+) (\*?)(\w+)(?:\[(\w+)\])?$/.exec(text.trim());
    if (!found) throw new Error(`the header declares what is not understood: ${text}`);
    const [, constant, type, star, name, count] = found;
    return {
        name,
        unit: sizeOf(type),
        readOnly: Boolean(constant),
        pointer: Boolean(star),
        count: count === undefined ? undefined : Number(count),
    };
}

/** Where the fields of a struct stand: each at a multiple of its own unit. */
function layout(fields) {
    let end = 0;
    const placed = fields.map(({ name, unit, count }) => {
        const at = Math.ceil(end / unit) * unit;
        end = at + unit * (count ?? 1);
        return { name, unit, count, at };
    });
    const align = Math.max(...fields.map((field) => field.unit));
    return { fields: placed, size: Math.ceil(end / align) * align };
}

/** The structs of the header, by their names. */
export function structs() {
    const found = [...code().matchAll(/struct (tb_\w+) \{([^}]*)\}/g)];
    return new Map(
        found.map(([, name, body]) => {
            const fields = body.split(";").filter((field) => field.trim());
            return [name, layout(fields.map(declared))];
        }),
    );
}

/** A parameter: a number, or bytes of a fixed length or with their length behind them. */
function parameters(text) {
    const all = text.trim() === "void" ? [] : text.split(",").map(declared);
    const lengths = new Set(all.map(({ name }) => name).filter((name) => name.endsWith("_len")));
    return all
        .filter(({ name }) => !isLengthOf(name, all))
        .map((one) => ({ ...one, kind: kindOf(one, lengths.has(`${one.name}_len`)) }));
}

const isLengthOf = (name, all) => all.some((one) => one.pointer && name === `${one.name}_len`);

function kindOf({ pointer, count }, hasLength) {
    if (pointer) return hasLength ? "slice" : "one";
    return count === undefined ? "number" : "array";
}

/** The exports, in the header's order, with what each takes and answers. */
export function exports() {
    const found = [...code().matchAll(/(void|bool|uint32_t|struct tb_\w+) (tb_\w+)\(([^)]*)\);/g)];
    return found.map(([, answer, name, text]) => ({ name, answer, takes: parameters(text) }));
}
