// The page judge.html in a real browser, opened from a file: what it shows of reports, piles and
// lists, right ones and hostile ones, and that it asks nobody for anything.
//
// TRAWLBEACON_PAGE is the page, TRAWLBEACON_SHOTS a folder for pictures of it, where they are
// wanted.

import assert from "node:assert/strict";
import { existsSync, readFileSync, writeFileSync } from "node:fs";
import { join } from "node:path";
import { after, before, test } from "node:test";
import { pathToFileURL } from "node:url";
import { hex, library, PILE, REPORT, ROOT, text, utf8 } from "../support.mjs";
import { Browser } from "./chromium.mjs";

const PAGE = process.env.TRAWLBEACON_PAGE ?? new URL("build/judge.html", ROOT).pathname;
const WITHIN = "The records";
const SENTENCE = "Yes: records 0 and 1 contradict each other.";

let browser;
let tb;
before(async () => {
    browser = await Browser.start();
    tb = await library();
});
after(() => browser?.close());

/** A file in the browser's own folder, by a name. */
function put(name, content) {
    const path = join(browser.folder, name);
    writeFileSync(path, content);
    return path;
}

const open = (how) => browser.open(pathToFileURL(PAGE).href, how);
const shown = (page) => page.until("!document.querySelector('#verdict').hidden", 60_000);

/** The picture is drawn once it is known how wide it may be. */
const drawn = (page) => page.until("document.querySelector('#verdict svg')");

/** Opens the page, gives it these files, and waits for what it says of them. */
async function judged(...files) {
    const page = await open();
    await page.choose(...files);
    await shown(page);
    return page;
}

/** Nothing was asked of anybody, and nothing went wrong. */
async function ended(page) {
    const strange = page.requests.filter((url) => !/^(file:\/\/\/|blob:null\/)/.test(url));
    assert.deepEqual(strange, []);
    const files = page.requests.filter((url) => url.startsWith("file:"));
    assert.deepEqual([...new Set(files)], [pathToFileURL(PAGE).href]);
    assert.deepEqual(page.complaints, []);
    await page.close();
}

/** The rows of the table, each as the text of its cells. */
const rows = (page) =>
    page.value(`[...document.querySelectorAll("tbody tr")].map((row) =>
        [...row.children].map((cell) => cell.textContent))`);

const warnings = (page) =>
    page.value(`[...document.querySelectorAll(".warning")].map((one) => one.textContent)`);

/** The long-term key of a record of the draft's report. */
const key = (place) => Buffer.from(PILE.slice(4096 * place).slice(0, 32)).toString("base64");

/** A server list in JSON, of names for the keys of the draft's report. */
function listOf(...names) {
    const addresses = [{ protocol: "udp", address: "example.com:2002" }];
    const server = (name, place) => ({
        name,
        version: 1,
        publicKeyType: "ed25519",
        publicKey: key(place),
        addresses,
    });
    return JSON.stringify({ servers: names.map(server) });
}

const report = () => JSON.parse(text("vectors/malfeasance-report.json"));

test("draft 19's report: the verdict, each record, the pair and the run", async () => {
    const page = await judged(put("report.json", REPORT));
    assert.equal(await page.text("#verdict h2"), SENTENCE);
    const said = await page.text("#verdict");
    for (const due of [
        "Record 0 says that it was 2026-03-16 18:26:08 or later.",
        "Record 1, asked for after that, says that it was 2026-03-15 18:26:14 or earlier.",
        "The two are 86394 seconds (about 24 hours) apart",
        "The whole input is a valid report.",
        "3 records from report.json. Every signature was checked under the key in its record.",
        hex(PILE.subarray(0, 32)),
    ]) {
        assert.ok(said.includes(due), due);
    }
    assert.deepEqual((await rows(page)).map((row) => row.slice(-1)[0]), [
        "contradicted by record 1",
        "contradicts record 0",
        "valid",
    ]);
    assert.match((await warnings(page))[0], /anybody can make keys/);
    await ended(page);
});

test("the picture says what the program's own picture says", async () => {
    const page = await judged(put("report.json", REPORT));
    await drawn(page);
    const own = await page.value(
        `[...document.querySelectorAll("#verdict svg text")].map((one) => one.textContent)`,
    );
    const texts = text("docs/draft-report.svg").matchAll(/<text [^>]*>([^<]*)</g);
    const wanted = /^20\d\d-.*\(\d+ to \d+\)$|apart$|^run |^\d+ h$/;
    const windows = [...texts].map(([, words]) => words).filter((words) => wanted.test(words));
    assert.ok(windows.length >= 5, "the program's picture has windows");
    for (const one of windows) assert.ok(own.includes(one), one);
    assert.equal(await page.value(`document.querySelectorAll("svg .band").length`), 1);
    assert.equal(await page.value(`document.querySelectorAll("svg .apart").length`), 1);
    await ended(page);
});

test("a damaged report: the record, the byte, and the words of the refusal", async () => {
    const damaged = report();
    const response = Buffer.from(damaged.responses[1].response, "base64");
    response[68] ^= 1;
    damaged.responses[1].response = response.toString("base64");
    const page = await judged(put("damaged.json", JSON.stringify(damaged)));
    assert.equal(await page.text("#verdict h2"), "No: nothing here proves a lie.");
    assert.equal(
        (await rows(page))[1][2],
        "refused with code 13: the response's signature does not verify",
    );
    await ended(page);
    response[12] = 0;
    damaged.responses[1].response = response.toString("base64");
    const other = await judged(put("damaged.json", JSON.stringify(damaged)));
    assert.match((await rows(other))[1][2], /^refused with code 4: .*, at byte 12$/);
    await ended(other);
});

test("what is no report: the words, and where it is wrong", async () => {
    const cases = [
        ["[1, 2", /code 24\)\.[\s\S]*no JSON at byte 5: the text ends within its value/],
        ['{"responses": [7]}', /code 24\)\.[\s\S]*entry 0 is no object/],
        ['{"responses": []}', /code 25\)\.[\s\S]*it has 0 entries, and a report has 1 to 16/],
        ['{"servers": [{}]}', /This is not a server list[\s\S]*"name" of server 0 is missing/],
        [new Uint8Array(5000), /code 15\)\.[\s\S]*it has 5000 bytes, and a record has 4096/],
        ["", /code 15\)\.[\s\S]*it is empty/],
    ];
    for (const [content, due] of cases) {
        const page = await judged(put("bad", content));
        assert.match(await page.text("#verdict"), due);
        await ended(page);
    }
});

test("a server list beside it names the keys, and whose key is in none is said", async () => {
    const list = put("list.json", listOf("alder", "birch"));
    const page = await judged(put("report.json", REPORT), list);
    assert.match(await page.text("#verdict"), /Record 0 \(alder\) says[^]*Record 1 \(birch\)/);
    assert.deepEqual(await warnings(page), [
        "The key C is in no list that you gave, and anybody can make keys.",
    ]);
    assert.match(await page.text("#lists"), /list.json: 2 servers/);
    // A list that comes later counts, too.
    await page.choose(put("more.json", listOf("alder", "birch", "cedar")));
    await page.until(`document.querySelectorAll(".warning").length === 0`);
    await shown(page);
    assert.match(await page.text(".servers"), /C cedar/);
    // One that is removed does not.
    await page.click("#lists li:nth-child(2) button");
    await page.until(`document.querySelectorAll(".warning").length === 1`);
    await ended(page);
});

test("dropped, a pile as well as a report", async () => {
    const page = await open();
    await page.drop("#drop", put("some.pile", PILE));
    await shown(page);
    assert.equal(await page.text("#verdict h2"), SENTENCE);
    await page.drop("#drop", put("report.json", REPORT), put("list.json", listOf("a", "b", "c")));
    await page.until(`document.querySelector("#verdict").innerText.includes("from report.json")`);
    assert.deepEqual(await warnings(page), []);
    await ended(page);
});

test("pasted into the field, and anywhere", async () => {
    const page = await open();
    await page.click("summary");
    await page.click("#pasted");
    await page.write(text("vectors/malfeasance-report.json"));
    await page.click("#judge");
    await shown(page);
    assert.equal(await page.text("#verdict h2"), SENTENCE);
    assert.match(await page.text("#verdict"), /3 records from the pasted text/);
    await page.value(`{
        const data = new DataTransfer();
        data.setData("text/plain", "no report");
        const event = new ClipboardEvent("paste", { clipboardData: data, bubbles: true });
        document.body.dispatchEvent(event);
    }`);
    await page.until(`document.querySelector("#verdict h2")?.innerText.includes("code 24")`);
    await ended(page);
});

test("the run is saved, and is a report", async () => {
    const page = await judged(put("report.json", REPORT));
    const saved = { behavior: "allow", downloadPath: browser.folder };
    await browser.send("Browser.setDownloadBehavior", saved);
    await page.click("#save");
    const file = join(browser.folder, "malfeasance-report.json");
    for (let tries = 0; !existsSync(file) && tries < 200; tries++) {
        await new Promise((resolve) => setTimeout(resolve, 25));
    }
    const bytes = new Uint8Array(readFileSync(file));
    assert.deepEqual(bytes, tb.cutSignedText(REPORT).text);
    assert.deepEqual(tb.checkSignedReport(tb.readReport(bytes)), { first: 0, second: 1 });
    await ended(page);
});

/** Every string of a value, and every name, replaced. */
function all(value, hostile) {
    if (typeof value === "string") return hostile;
    if (Array.isArray(value)) return value.map((one) => all(one, hostile));
    if (typeof value !== "object" || value === null) return value;
    const hostileOne = ([name, one]) => [name, all(one, hostile)];
    return Object.fromEntries(Object.entries(value).map(hostileOne));
}

test("hostile texts do nothing", async () => {
    const hostile = `</script><script>alert(1)</script><img src=x onerror=alert(2)>"'&\u202e`;
    const withNames = { ...report(), [hostile]: hostile };
    const cases = [
        [JSON.stringify(all(report(), hostile))],
        [JSON.stringify(hostile)],
        [JSON.stringify({ [hostile]: 1 })],
        [JSON.stringify(withNames), listOf(hostile, hostile, hostile)],
    ];
    for (const [content, list] of cases) {
        const files = [put("<img src=x onerror=alert(3)>.json", content)];
        if (list) files.push(put("list.json", list));
        const page = await judged(...files);
        const counts = `["script", "img", "style", "iframe"].map((name) =>
            document.querySelectorAll(name).length)`;
        assert.deepEqual(await page.value(counts), [4, 0, 1, 0]);
        const said = await page.text("#verdict");
        if (list) assert.match(said, /<script>alert\(1\)<\/script>.*\\u\{202e\}/);
        await ended(page);
    }
});

test("a megabyte of blanks, before a report and alone", async () => {
    const blanks = Buffer.alloc(1 << 20, " ");
    const page = await judged(put("long.json", Buffer.concat([blanks, REPORT])));
    assert.equal(await page.text("#verdict h2"), SENTENCE);
    await ended(page);
    const alone = await judged(put("blanks.json", blanks));
    assert.match(await alone.text("#verdict"), /no JSON at byte 1048576: the text ends within/);
    await ended(alone);
});

test("the largest pile, and a file that is too large", async () => {
    const record = (_, at) => PILE.slice(4096 * (at % 3)).slice(0, 4096);
    const many = Array.from({ length: 16 }, record);
    const page = await judged(put("many.pile", Buffer.concat(many)));
    assert.equal((await rows(page)).length, 16);
    assert.equal(await page.text("#verdict h2"), SENTENCE);
    await ended(page);
    const large = await judged(put("large.json", Buffer.alloc((64 << 20) + 1, " ")));
    assert.match(await large.text("#verdict"), /it has more than 64 MiB/);
    await ended(large);
});

test("what takes long keeps nobody waiting, and can be stopped", async () => {
    const page = await open();
    const lists = Buffer.from("[],".repeat(20 << 20));
    const slow = put("slow.json", Buffer.concat([utf8('{"responses":['), lists, utf8("1]}")]));
    await page.choose(...Array(50).fill(slow));
    await page.until("!document.querySelector('#working').hidden");
    const asked = Date.now();
    assert.equal(await page.value("1 + 1"), 2);
    assert.ok(Date.now() - asked < 2_000, "the page answers meanwhile");
    await page.click("#stop");
    assert.equal(await page.text("#said"), "Stopped. Nothing was judged.");
    assert.equal(await page.value("document.querySelector('#working').hidden"), true);
    assert.equal(await page.value("document.activeElement.id"), "files");
    await page.click("#example");
    await shown(page);
    assert.equal(await page.text("#verdict h2"), SENTENCE);
    await ended(page);
});

test("by keyboard alone", async () => {
    const page = await open();
    const focus = () => page.value("document.activeElement.id || document.activeElement.localName");
    const order = [];
    for (let step = 0; step < 3; step++) {
        await page.press("Tab");
        order.push(await focus());
    }
    assert.deepEqual(order, ["files", "example", "summary"]);
    await page.press("Enter", { text: "\r" });
    await page.press("Tab");
    assert.equal(await focus(), "pasted");
    await page.write("nothing");
    await page.press("Tab");
    assert.equal(await focus(), "judge");
    await page.press("Enter", { text: "\r" });
    await shown(page);
    assert.equal(await focus(), "verdict");
    for (let step = 0; (await focus()) !== "example" && step < 9; step++) {
        await page.press("Tab", { modifiers: 8 });
    }
    await page.press("Enter", { text: "\r" });
    const heading = `document.querySelector("#verdict h2")?.innerText`;
    await page.until(`${heading} === ${JSON.stringify(SENTENCE)}`);
    assert.equal(await focus(), "verdict");
    await page.press("Tab");
    assert.equal(await focus(), "save");
    await ended(page);
});

test("for a screen reader: everything has a role and a name", async () => {
    const page = await judged(put("report.json", REPORT), put("list.json", listOf("a", "b")));
    await drawn(page);
    const { nodes } = await page.send("Accessibility.getFullAXTree");
    const of = (role) => nodes.filter((node) => !node.ignored && node.role?.value === role);
    const names = (role) => of(role).map((node) => node.name?.value ?? "");
    for (const role of ["button", "textbox", "image", "table", "progressbar", "link", "region"]) {
        assert.ok(names(role).every(Boolean), `${role}: ${names(role)}`);
    }
    assert.equal(of("status").length, 1);
    assert.ok(names("table")[0].startsWith(WITHIN));
    assert.match(names("image")[0], /^Yes: records 0 and 1 contradict each other\. The table below/);
    assert.ok(names("heading").includes(SENTENCE));
    assert.equal(of("columnheader").length, 6);
    assert.equal(of("rowheader").length, 3);
    await ended(page);
});

/** How far two colours "rgb(r, g, b)" are apart, by WCAG. */
function contrast(one, other) {
    const light = (colour) => {
        const parts = colour.match(/[\d.]+/g).slice(0, 3).map((part) => part / 255);
        const linear = parts.map((c) => (c <= 0.04045 ? c / 12.92 : ((c + 0.055) / 1.055) ** 2.4));
        return 0.2126 * linear[0] + 0.7152 * linear[1] + 0.0722 * linear[2];
    };
    const [dark, bright] = [light(one), light(other)].sort((a, b) => a - b);
    return (bright + 0.05) / (dark + 0.05);
}

/** The colours of every text of the page, each with that of the ground behind it. */
const COLOURS = `(() => {
    const ground = (one) => {
        const own = getComputedStyle(one).backgroundColor;
        return own === "rgba(0, 0, 0, 0)" && one.parentElement ? ground(one.parentElement) : own;
    };
    const hasText = (one) =>
        [...one.childNodes].some((node) => node.nodeType === 3 && node.data.trim());
    const all = [...document.querySelectorAll("main *, header *, footer *")];
    const withText = all.filter((one) => !one.closest("svg") && hasText(one));
    const html = withText.map((one) => [getComputedStyle(one).color, ground(one)]);
    const band = getComputedStyle(document.querySelector("svg .band")).fill;
    const svg = [...document.querySelectorAll("svg text:not(.number)")].map((one) =>
        [getComputedStyle(one).fill, band]);
    return [...html, ...svg];
})()`;

test("light, dark and on a phone: nothing is cut off, and every text can be read", async () => {
    const ways = [
        ["light", {}],
        ["dark", { scheme: "dark" }],
        ["phone", { width: 360, height: 760, mobile: true }],
        ["phone-dark", { width: 360, height: 760, mobile: true, scheme: "dark" }],
    ];
    const grounds = [];
    for (const [name, how] of ways) {
        const page = await open(how);
        const list = put("list.json", listOf("alder", "birch".repeat(50)));
        await page.choose(put("report.json", REPORT), list);
        await shown(page);
        await drawn(page);
        const wide = "document.documentElement.scrollWidth - innerWidth";
        assert.ok((await page.value(wide)) <= 0, `${name} is wider than its screen`);
        for (const [colour, ground] of await page.value(COLOURS)) {
            const apart = contrast(colour, ground);
            assert.ok(apart >= 4.5, `${name}: ${colour} on ${ground} has ${apart.toFixed(2)}`);
        }
        grounds.push(await page.value("getComputedStyle(document.body).backgroundColor"));
        if (process.env.TRAWLBEACON_SHOTS) {
            writeFileSync(join(process.env.TRAWLBEACON_SHOTS, `${name}.png`), await page.picture());
        }
        await ended(page);
    }
    assert.deepEqual(new Set(grounds).size, 2);
});

test("the page may ask for nothing, even if its own code would", async () => {
    const page = await open();
    const tried = await page.value(`(async () => {
        const seen = [];
        const stopped = ({ effectiveDirective }) => seen.push(effectiveDirective);
        document.addEventListener("securitypolicyviolation", stopped);
        await fetch("https://example.com/").catch(() => {});
        await fetch("data:,x").catch(() => {});
        const image = new Image();
        image.src = "https://example.com/x.png";
        document.body.append(image);
        const script = document.createElement("script");
        script.textContent = "window.ran = true";
        document.body.append(script);
        const frame = document.createElement("iframe");
        frame.src = "https://example.com/";
        document.body.append(frame);
        const form = document.createElement("form");
        form.action = "https://example.com/";
        document.body.append(form);
        form.submit();
        for (let tries = 0; new Set(seen).size < 5 && tries < 400; tries++) {
            await new Promise((resolve) => setTimeout(resolve, 25));
        }
        return { seen: [...new Set(seen)].sort(), ran: window.ran ?? false };
    })()`);
    assert.deepEqual(tried, {
        seen: ["connect-src", "form-action", "frame-src", "img-src", "script-src-elem"],
        ran: false,
    });
    await page.close();
});
