// The module has the exports of include/trawlbeacon.h, and the host reads its structs as C does.

import assert from "node:assert/strict";
import test from "node:test";
import { STRUCTS } from "../structs.js";
import { exports, structs } from "./bridge/header.mjs";
import { wasmBytes } from "./support.mjs";

test("the module exports what the header declares, and asks for nothing", () => {
    const module = new WebAssembly.Module(wasmBytes());
    assert.deepEqual(WebAssembly.Module.imports(module), []);
    const all = WebAssembly.Module.exports(module);
    const named = (kind) => all.filter((one) => one.kind === kind).map((one) => one.name);
    const declared = exports().map((one) => one.name);
    assert.deepEqual(named("function").sort(), declared.sort());
    assert.deepEqual(named("global").sort(), ["__heap_base", "__stack_pointer"]);
    assert.deepEqual(named("memory"), ["memory"]);
    console.log(`${declared.length} exports`);
});

test("the structs are those of the header", () => {
    const declared = structs();
    for (const [name, { fields, size }] of Object.entries(STRUCTS)) {
        const due = declared.get(name);
        assert.equal(size, due.size, name);
        const sizeOf = ({ size, unit, count = 1 }) => size ?? unit * count;
        const parts = (field) => [field.name, field.at, sizeOf(field)];
        assert.deepEqual(fields.map(parts), due.fields.map(parts), name);
    }
});
