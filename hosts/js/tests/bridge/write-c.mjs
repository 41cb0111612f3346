// Writes to standard output the C of a library that has the exports of include/trawlbeacon.h, and
// does each call in WebAssembly: it hands the arguments to bridge/answer.mjs, run by node, and
// takes the answer from there. So what was written to compare the native library with something
// compares the same with WebAssembly, as it is.

import { exports } from "./header.mjs";

const bytesOf = ({ name, kind, unit, count }) =>
    ({
        slice: `(uint64_t)${name}_len * ${unit}`,
        array: `${unit * count}`,
        one: `${unit}`,
    })[kind];

const typeOf = (unit) => ({ 1: "uint8_t", 4: "uint32_t", 8: "uint64_t" })[unit];

function declaration({ name, kind, unit, count, readOnly }) {
    const type = `${readOnly ? "const " : ""}${typeOf(unit)}`;
    switch (kind) {
        case "number":
            return [`${type} ${name}`];
        case "array":
            return [`${type} ${name}[${count}]`];
        case "one":
            return [`${type} *${name}`];
        default:
            return [`${type} *${name}`, `uint64_t ${name}_len`];
    }
}

function put(one) {
    if (one.kind === "number") return `    put_number(to, ${one.name});`;
    return `    put_bytes(to, ${one.name}, ${bytesOf(one)});`;
}

const isWritten = (one) => one.kind !== "number" && !one.readOnly;

function definition({ name, answer, takes }, index) {
    const list = takes.flatMap(declaration).join(", ") || "void";
    const returned = answer !== "void";
    return [
        `${answer} ${name}(${list}) {`,
        `    struct node *to = begin(${index});`,
        ...takes.map(put),
        `    call(to, "${name}");`,
        ...(returned ? [`    ${answer} said;`, `    get(to, &said, sizeof said);`] : []),
        ...takes.filter(isWritten).map((one) => `    get(to, ${one.name}, ${bytesOf(one)});`),
        `    end(to);`,
        ...(returned ? ["    return said;"] : []),
        "}",
    ].join("\n");
}

console.log('#include "node.h"\n');
console.log(exports().map(definition).join("\n\n"));
