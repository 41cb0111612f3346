// The product of 128 bits that is linked with the library, against the two words of a product as
// crates/ed25519_field/src/words.rt writes them, and against numbers of any size.
//
// TRAWLBEACON_MULTI3 is a module with that function alone.

import assert from "node:assert/strict";
import { readFileSync } from "node:fs";
import test from "node:test";
import { random } from "./support.mjs";

const HALF = 2n ** 32n;
const WORD = 2n ** 64n;

/** words.rt, line by line. */
function high(x, y) {
    const { t, v, x1, y1 } = columns(x, y);
    return x1 * y1 + t / HALF + v / HALF;
}

function low(x, y) {
    const { w, v } = columns(x, y);
    return (v % HALF) * HALF + (w % HALF);
}

function columns(x, y) {
    const [x0, x1, y0, y1] = [x % HALF, x / HALF, y % HALF, y / HALF];
    const w = x0 * y0;
    const t = x1 * y0 + w / HALF;
    const v = x0 * y1 + (t % HALF);
    return { w, t, v, x1, y1 };
}

const wasm = new WebAssembly.Instance(
    new WebAssembly.Module(readFileSync(process.env.TRAWLBEACON_MULTI3)),
).exports;

/** Where it writes: somewhere in the stack, of which it needs nothing. */
const AT = 1024;

/** The two words of a product of numbers of two words, as the function writes them. */
function multi3(a0, a1, b0, b1) {
    wasm.__multi3(AT, a0, a1, b0, b1);
    const words = new BigUint64Array(wasm.memory.buffer, AT, 2);
    return [words[0], words[1]];
}

/** 0, the ends, and both sides of every power of two. */
function edges() {
    const powers = Array.from({ length: 64 }, (_, bit) => 2n ** BigInt(bit));
    const all = powers.flatMap((power) => [power - 1n, power, power + 1n, WORD - power]);
    return [...new Set(all.filter((word) => word < WORD))];
}

test("the words of the products of all edges", () => {
    const all = edges();
    for (const x of all) {
        for (const y of all) assert.deepEqual(multi3(x, 0n, y, 0n), [low(x, y), high(x, y)]);
    }
    console.log(`${all.length ** 2} products of edges`);
});

test("the words of the products of any words", () => {
    const { next } = random(25);
    for (let count = 0; count < 200_000; count++) {
        const [x, y] = [next(), next() >> BigInt(count % 64)];
        assert.deepEqual(multi3(x, 0n, y, 0n), [low(x, y), high(x, y)]);
    }
});

test("products of two words each, modulo 2^128", () => {
    const { next } = random(26);
    for (let count = 0; count < 50_000; count++) {
        const [a0, a1, b0, b1] = [next(), next(), next(), next()];
        const due = (a0 + WORD * a1) * (b0 + WORD * b1);
        assert.deepEqual(multi3(a0, a1, b0, b1), [due % WORD, (due / WORD) % WORD]);
    }
});
