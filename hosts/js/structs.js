// The structs that the library answers with, as include/trawlbeacon.h declares them: the fields of
// each in their order. Numbers of 64 bits are BigInts, all others are numbers.

const u32 = (name) => ({ name, size: 4, align: 4, read: (view, at) => view.getUint32(at, true) });
const u64 = (name) => ({
    name,
    size: 8,
    align: 8,
    read: (view, at) => view.getBigUint64(at, true),
});
const bytes = (name, size) => ({
    name,
    size,
    align: 1,
    read: (view, at) => new Uint8Array(view.buffer.slice(at, at + size)),
});

const roundUp = (number, to) => Math.ceil(number / to) * to;

/** Where each field stands, as C lays a struct out. */
function struct(...fields) {
    let end = 0;
    const placed = fields.map((field) => {
        const at = roundUp(end, field.align);
        end = at + field.size;
        return { ...field, at };
    });
    const align = Math.max(...fields.map((field) => field.align));
    return { fields: placed, size: roundUp(end, align) };
}

/** The answer that stands at a place of memory, as an object. */
export function readStruct(layout, memory, at) {
    const view = new DataView(memory.buffer);
    return Object.fromEntries(
        layout.fields.map((field) => [field.name, field.read(view, at + field.at)]),
    );
}

const window = [u64("midp"), u64("low"), u64("high"), u64("mint"), u64("maxt")];

export const STRUCTS = Object.freeze({
    tb_request: struct(
        u32("code"),
        u32("with_srv"),
        u64("at"),
        bytes("nonc", 32),
        bytes("srv", 32),
    ),
    tb_response: struct(
        u32("code"),
        u32("indx"),
        u64("at"),
        u64("midp"),
        u32("radi"),
        bytes("nonc", 32),
        bytes("root", 32),
    ),
    tb_wrote: struct(u32("code"), u64("at"), u64("length")),
    tb_verdict: struct(u32("code"), u32("radi"), u64("at"), ...window, bytes("pubk", 32)),
    tb_found: struct(u32("code"), u32("list"), u64("offset")),
    tb_servers: struct(u32("code"), u64("records"), u64("passed_over")),
    tb_addressed: struct(u32("code"), u32("tcp"), u64("length")),
    tb_judged: struct(
        u32("code"),
        u32("radi"),
        u64("place"),
        u64("at"),
        ...window,
        bytes("pubk", 32),
    ),
    tb_reported: struct(u32("code"), u64("place"), u64("at"), u64("first"), u64("second")),
    tb_cut: struct(u32("code"), u64("first"), u64("last")),
    tb_records: struct(u32("code"), u64("records")),
    tb_published: struct(u32("code"), u64("place"), u64("at"), u64("length")),
    tb_forwarded: struct(u32("code"), u64("first"), u64("last"), u64("length")),
    tb_time: struct(
        u32("code"),
        u32("stopped"),
        u64("low"),
        u64("high"),
        u64("counted"),
        u64("agree"),
        u64("suspects"),
    ),
    tb_old: struct(u32("code"), u64("low"), u64("high")),
});
