// What is shown of a verdict or a refusal. Every word of it is put in as text.

import { datesOf } from "./dates.js";
import { pictureOf } from "./drawing.js";
import { counted, finding, keyWords, letterOf, linkOf, plain } from "./words.js";
import { refusalWords, refusedWords, verdictWords, wholeWords } from "./words.js";

/** An element with a class, and in it texts and other elements. */
export function made(name, kind, ...within) {
    const one = document.createElement(name);
    if (kind) one.className = kind;
    one.append(...within);
    return one;
}

const paragraphs = (texts, kind) => texts.filter(Boolean).map((text) => made("p", kind, text));

/** A cell, which says its column where the table is not wide enough for one. */
function cell(column, kind, ...within) {
    const one = made("td", kind, ...within);
    one.dataset.column = column;
    return one;
}

function swatch(server) {
    const mark = made("span", `swatch s${server}`);
    mark.setAttribute("aria-hidden", "true");
    return mark;
}

/** What a record is in the verdict. */
function roleOf({ run }, { place, refusal }) {
    if (refusal) return "refused";
    if (!run || place < run.first || place > run.last) return "valid";
    if (place === run.first) return `contradicted by record ${run.last}`;
    if (place === run.last) return `contradicts record ${run.first}`;
    return "in the run";
}

function rowOf(verdict, record) {
    const { place, window, refusal, server } = record;
    const { name, key } = verdict.servers[server];
    const row = made("tr", roleOf(verdict, record).startsWith("contradict") ? "marked" : "");
    const head = made("th", "", String(place));
    head.scope = "row";
    const time = window ? datesOf(window.low, window.high) : refusalWords(refusal);
    const seconds = window ? `${window.low} to ${window.high}` : "";
    const known = name === null ? key.slice(0, 8) : plain(name);
    row.append(
        head,
        cell("Server", "", swatch(server), `${letterOf(server)} ${known}`),
        cell("Time (UTC)", window ? "" : "red", time),
        cell("Seconds", "mono", seconds),
        cell("Chain", "", linkOf(record)),
        cell("Finding", "", roleOf(verdict, record)),
    );
    return row;
}

function recordTable(verdict) {
    const columns = ["Record", "Server", "Time (UTC)", "Seconds", "Chain", "Finding"];
    const heads = columns.map((column) => {
        const head = made("th", "", column);
        head.scope = "col";
        return head;
    });
    const rows = verdict.records.map((record) => rowOf(verdict, record));
    return made(
        "table",
        "",
        made("caption", "", "The records, in the order in which they were asked for"),
        made("thead", "", made("tr", "", ...heads)),
        made("tbody", "", ...rows),
    );
}

function serverList({ servers, listed }) {
    const items = servers.map(({ key, name }, server) => {
        const known = name !== null ? plain(name) : listed ? "in no list" : "not looked up";
        return made(
            "li",
            "",
            swatch(server),
            made("strong", "", `${letterOf(server)} ${known}`),
            made("span", "key mono", key),
        );
    });
    return made("ul", "servers", ...items);
}

const headed = (level, words, ...within) => made("section", "", made(level, "", words), ...within);

function saving({ run }, save) {
    const words = `Save records ${run.first} to ${run.last} as a report`;
    const button = made("button", "primary", words);
    button.type = "button";
    button.id = "save";
    button.addEventListener("click", () => save(run.text));
    return button;
}

/** The picture, drawn anew whenever there is more or less room. */
function figureOf(verdict) {
    const figure = made("figure", "");
    let drawn = 0;
    new ResizeObserver(([{ contentRect }]) => {
        const width = Math.max(300, Math.min(1100, Math.floor(contentRect.width)));
        if (width === drawn) return;
        drawn = width;
        figure.replaceChildren(pictureOf(verdict, width));
    }).observe(figure);
    return figure;
}

/** The name of a file, as it may be shown. */
const nameOf = (file) => plain(file?.name ?? "") || "the pasted text";

export function verdictView(verdict, file, save) {
    const warning = keyWords(verdict);
    const heading = made("h2", verdict.run ? "guilty" : "", finding(verdict));
    const records = counted(verdict.records.length, "record");
    const from = `${records} from ${nameOf(file)}.`;
    const how = "Every signature was checked under the key in its record.";
    return [
        heading,
        ...paragraphs(verdictWords(verdict), "lead"),
        ...paragraphs([wholeWords(verdict)], ""),
        ...paragraphs([warning], "warning"),
        made("p", "faint", `${from} ${how} Dates and times are UTC.`),
        figureOf(verdict),
        ...(verdict.run ? [saving(verdict, save)] : []),
        headed("h3", "Records", recordTable(verdict)),
        headed("h3", "Servers, by their long-term keys", serverList(verdict)),
    ];
}

export function refusedView({ refusal, why, of }, file) {
    return [
        made("h2", "", refusedWords({ refusal, of })),
        ...paragraphs([why && `In ${nameOf(file)}: ${plain(why, 400)}.`], "lead"),
    ];
}

/** The lists that are kept, with a button each to forget it. */
export function listsView(lists, forget) {
    return lists.map(({ name, list }, index) => {
        const over = list.passedOver ? `, and ${list.passedOver} that cannot be asked` : "";
        const button = made("button", "quiet", "Remove");
        button.type = "button";
        button.addEventListener("click", () => forget(index));
        button.setAttribute("aria-label", `Remove the list ${plain(name)}`);
        const servers = counted(list.servers.length, "server");
        return made("li", "", `${plain(name)}: ${servers}${over} `, button);
    });
}
