// What a call is lent: bytes of the caller's, copied into the memory of WebAssembly for the time of
// the call, and rooms that it writes to, copied out of it afterwards.

import { MemoryError, TrapError } from "./errors.js";
import { readStruct } from "./structs.js";

const PAGE = 65536;

/** An address has 32 bits. */
const MOST_MEMORY = 2 ** 32;

const U32 = 2 ** 32;
const U64 = 2n ** 64n;

function needBytes(bytes) {
    if (!(bytes instanceof Uint8Array)) throw new TypeError("bytes are lent as a Uint8Array");
    return bytes;
}

/** Bytes that are read, passed as a pointer and a length. */
export const slice = (bytes) => ({ bytes: needBytes(bytes), counted: true });

/** So many bytes that are read, passed as a pointer alone. */
export function array(bytes, length) {
    if (needBytes(bytes).length !== length) {
        throw new RangeError(`${length} bytes are wanted here, and not ${bytes.length}`);
    }
    return { bytes, counted: false };
}

/** Room for so many bytes that are written, passed as a pointer and a length. */
export const room = (length) => ({ length, counted: true, out: true });

/** The same, passed as a pointer alone. */
export const place = (length) => ({ length, counted: false, out: true });

/** A part of a state, which is read and written. */
export const state = (bytes) => ({ bytes, counted: false, out: true });

/** A number of 32 bits. */
export function u32(number) {
    if (!Number.isInteger(number) || number < 0 || number >= U32) {
        throw new RangeError("a whole number from 0 to 2^32 - 1 is wanted here");
    }
    return { word: number | 0 };
}

/** A number of 64 bits: a BigInt, or a number that is exact. */
export function u64(number) {
    if (typeof number !== "bigint" && !Number.isSafeInteger(number)) {
        throw new RangeError("a BigInt, or a whole number below 2^53, is wanted here");
    }
    const word = BigInt(number);
    if (word < 0n || word >= U64) {
        throw new RangeError("a number from 0 to 2^64 - 1 is wanted here");
    }
    return { word };
}

const isLent = (argument) => argument.word === undefined;
const lengthOf = (lent) => lent.bytes?.length ?? lent.length;

/** A compiled library, and what calls it. */
export class Library {
    #exports;
    #base;

    /** @param {WebAssembly.Instance} instance */
    constructor(instance) {
        this.#exports = instance.exports;
        this.#base = Number(instance.exports.__heap_base.value);
    }

    /**
     * Calls an export. Where it answers with a struct, `layout` is that.
     * @returns {{ answer: any, outs: Uint8Array[] }} what it answers, and all that it may have
     *     written, in the order of the arguments
     */
    call(name, layout, ...given) {
        const lent = layout ? [place(layout.size), ...given] : given;
        const at = this.#lay(lent.filter(isLent));
        const returned = this.#run(name, wordsOf(lent, at));
        const { memory } = this.#exports;
        const answer = layout ? readStruct(layout, memory, at[0]) : returned;
        const outs = lent
            .filter(isLent)
            .map((one, index) => one.out && copyOut(memory, at[index], lengthOf(one)))
            .slice(layout ? 1 : 0);
        return { answer, outs: outs.filter((out) => out instanceof Uint8Array) };
    }

    /** Copies what is lent to places of their own, each at a multiple of 16, and tells where. */
    #lay(lent) {
        let end = this.#base;
        const at = lent.map((one) => {
            const start = Math.ceil(end / 16) * 16;
            end = start + lengthOf(one);
            return start;
        });
        this.#haveMemory(end + 1);
        lent.forEach((one, index) => {
            const here = new Uint8Array(this.#exports.memory.buffer, at[index], lengthOf(one));
            if (one.bytes) here.set(one.bytes);
            else here.fill(0);
        });
        return at;
    }

    #haveMemory(end) {
        const { memory } = this.#exports;
        const more = end - memory.buffer.byteLength;
        if (more <= 0) return;
        if (end > MOST_MEMORY) throw new MemoryError(end);
        try {
            memory.grow(Math.ceil(more / PAGE));
        } catch {
            throw new MemoryError(end);
        }
    }

    /** A call that stops leaves the library's stack where it was, and it has no other state. */
    #run(name, words) {
        const { __stack_pointer: stack } = this.#exports;
        const before = stack.value;
        try {
            return this.#exports[name](...words);
        } catch (cause) {
            stack.value = before;
            throw new TrapError(name, cause);
        }
    }
}

function wordsOf(given, at) {
    let next = 0;
    return given.flatMap((argument) => {
        if (!isLent(argument)) return [argument.word];
        const pointer = at[next++] | 0;
        return argument.counted ? [pointer, BigInt(lengthOf(argument))] : [pointer];
    });
}

const copyOut = (memory, at, length) => new Uint8Array(memory.buffer.slice(at, at + length));
