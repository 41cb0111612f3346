// The tree's test vectors, by the functions of this package: hashes of FIPS 180-4, signatures of
// RFC 8032, and the report and the server list of draft 19.

import assert from "node:assert/strict";
import test from "node:test";
import { file, hex, library, PILE, REPORT, text, unhex } from "./support.mjs";

const tb = await library();

/** Each "Len = .., Msg = .., MD = .." of NIST's files. */
function examples(name) {
    const entries = text(name).matchAll(/Len = (\d+)\s+Msg = (\w+)\s+MD = (\w+)/g);
    return [...entries].map(([, bits, message, digest]) => ({
        message: unhex(message).subarray(0, Number(bits) / 8),
        digest,
    }));
}

test("NIST's messages have NIST's digests", () => {
    const all = ["SHA512ShortMsg", "SHA512LongMsg"].flatMap((name) =>
        examples(`vectors/${name}.rsp`),
    );
    for (const { message, digest } of all) assert.equal(hex(tb.sha512(message)), digest);
    assert.equal(all.length, 257);
});

test("the signatures of RFC 8032 verify, and no other", () => {
    const all = text("vectors/RFC8032-7.1.txt");
    const of = (name) => [...all.matchAll(name)].map(([, digits]) => unhex(digits));
    const [keys, messages, signatures] = [
        of(/^key (\w*)/gm),
        of(/^message (\w*)/gm),
        of(/^signature (\w*)/gm),
    ];
    assert.equal(keys.length, 5);
    keys.forEach((key, one) => {
        signatures.forEach((signature, other) => {
            assert.equal(tb.verify(key, messages[one], signature), one === other);
        });
        for (let byte = 0; byte < 64; byte++) {
            const damaged = signatures[one].slice();
            damaged[byte] ^= 1;
            assert.equal(tb.verify(key, messages[one], damaged), false);
        }
    });
});

test("the draft's report: read, judged, cut and written", () => {
    const pile = tb.readReport(REPORT);
    assert.deepEqual(pile, PILE);
    const windows = [0, 1, 2].map((place) => tb.judgeSigned(pile, place));
    assert.deepEqual(
        windows.map(({ low, high, mint, maxt }) => [low, high, mint, maxt]),
        [
            [1773685568n, 1773685574n, 1773080680n, 1776273880n],
            [1773599168n, 1773599174n, 1773080705n, 1776273905n],
            [1773599168n, 1773599174n, 1773080724n, 1776273924n],
        ],
    );
    assert.deepEqual(tb.checkSignedReport(pile), { first: 0, second: 1 });
    assert.ok(tb.contradicts(windows[0], windows[1]) && !tb.contradicts(windows[1], windows[0]));
    assert.ok(tb.linked(pile, 1) && tb.linked(pile, 2) && tb.firstRandZero(pile));
    const cut = tb.cutSignedText(REPORT);
    assert.deepEqual([cut.first, cut.last], [0, 1]);
    assert.deepEqual(tb.readReport(cut.text), tb.cutSignedRun(pile).pile);
    assert.deepEqual(tb.readReport(tb.writeSignedReport(pile)), pile);
    assert.deepEqual(tb.writeReport(pile, new Uint8Array(6).fill(1)), tb.writeSignedReport(pile));
});

test("the piles that the proved program is run on have its verdicts", () => {
    const due = text("crates/trawl_alone/stdout");
    const args = text("crates/trawl_alone/args").split("\n").filter(Boolean);
    const said = args.map((name) => verdict(orEmpty(`crates/trawl_alone/data/${name}`))).join("");
    assert.equal(said, due);
    console.log(`${args.length} piles`);
});

/** What cannot be read counts as empty (document 01). */
function orEmpty(name) {
    try {
        return file(name);
    } catch {
        return new Uint8Array(0);
    }
}

/** What the function says, or its refusal as the program prints it. */
function orRefusal(say) {
    try {
        return say();
    } catch ({ code, at }) {
        return { refused: `refused ${code}${at === undefined ? "" : ` ${at}`}`, code };
    }
}

/** The lines of the proved program on a pile. */
function verdict(pile) {
    const cut = orRefusal(() => tb.cutSignedRun(pile));
    if (cut.refused && cut.code !== 18) return `${cut.refused}\n`;
    const lines = [`records ${pile.length / 4096}`];
    for (let place = 0; place < pile.length / 4096; place++) {
        const said = orRefusal(() => tb.judgeSigned(pile, place));
        const { refused, low, high, mint, maxt } = said;
        lines.push(`${place} ${refused ?? `ok ${low} ${high} ${mint} ${maxt}`}`);
    }
    lines.push(cut.refused ? "run none" : `run ${cut.first} ${cut.last}`);
    return lines.map((line) => `${line}\n`).join("");
}

test("the draft's server list", () => {
    const list = tb.serverList(file("vectors/server-list.json"));
    assert.deepEqual(
        list.servers.map(({ name, addresses }) => [name, addresses]),
        JSON.parse(text("vectors/server-list.json")).servers.map(({ name, addresses }) => [
            name,
            addresses.map(({ protocol, address }) => ({ protocol, address })),
        ]),
    );
    const given = JSON.parse(text("vectors/server-list.json"));
    list.servers.forEach(({ key, srv }, place) => {
        assert.equal(Buffer.from(key).toString("base64"), given.servers[place].publicKey);
        assert.deepEqual(srv, tb.srvValue(key));
    });
    assert.deepEqual([list.sources, list.reports], [given.sources ?? [], given.reports ?? null]);
    const { records } = tb.readServers(file("vectors/server-list.json"));
    const found = tb.findServer(new Uint8Array(0), records, list.servers[1].srv);
    assert.deepEqual(found, { list: "shipped", offset: 64 });
});
