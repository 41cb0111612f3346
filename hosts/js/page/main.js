// The page: takes what is dropped, chosen or pasted, has it judged in a worker, and shows the
// verdict.

import { listsView, made, refusedView, verdictView } from "./view.js";
import { finding, refusedWords } from "./words.js";

const byId = (id) => document.getElementById(id);
const textOf = (id) => byId(id).textContent;

/** What is kept between two judgements: the lists, and what was judged last. */
const kept = { lists: [], file: null };
let worker = null;

/** What a screen reader hears, too. */
function say(words) {
    byId("said").textContent = words;
}

function workerUrl() {
    return URL.createObjectURL(new Blob([textOf("worker")], { type: "text/javascript" }));
}

/** Ends what is under way, at once. */
function stop() {
    worker?.terminate();
    worker = null;
    byId("working").hidden = true;
}

function show(...parts) {
    const verdict = byId("verdict");
    verdict.replaceChildren(...parts);
    verdict.hidden = parts.length === 0;
    // Beside the verdict nobody has to see the same sentence twice.
    byId("said").classList.toggle("heard", parts.length > 0);
    if (parts.length) verdict.focus({ preventScroll: false });
}

/** Has files judged, beside the lists that are kept. */
function judge(files) {
    stop();
    show();
    const url = workerUrl();
    worker = new Worker(url);
    byId("working").hidden = false;
    byId("far").removeAttribute("value");
    say("Reading.");
    worker.addEventListener("message", ({ data }) => heard(data));
    worker.addEventListener("error", (event) => heard({ failed: event.message }));
    const lists = kept.lists.map(({ list }) => list);
    worker.postMessage({ wasm: textOf("library"), files: [...files], lists });
    URL.revokeObjectURL(url);
}

function heard({ step, place, count, said, failed }) {
    if (step === "judging") {
        byId("far").value = (place + 1) / (count + 1);
        say(`Judging record ${place} of ${count}.`);
    } else if (failed !== undefined) {
        stop();
        show(made("h2", "", `This cannot be judged: ${failed}.`));
        say(`This cannot be judged: ${failed}.`);
    } else if (said) {
        stop();
        tell(said);
    }
}

/** Shows what a worker said. New lists are kept; where they came alone, the last is judged anew. */
function tell({ lists, left, file, verdict, refused }) {
    kept.lists.push(...lists);
    showLists();
    if (!file) {
        say(`${lists.length === 1 ? "Server list" : "Server lists"} added.`);
        if (kept.file) judge([kept.file]);
        return;
    }
    kept.file = file;
    const others = `This is the first of ${left + 1} files. Give the others one at a time.`;
    const more = left > 0 ? [made("p", "warning", others)] : [];
    if (refused) {
        show(...more, ...refusedView(refused, file));
        say(refusedWords(refused));
    } else {
        show(...more, ...verdictView(verdict, file, save));
        say(finding(verdict));
    }
}

function showLists() {
    const items = listsView(kept.lists, (index) => {
        kept.lists.splice(index, 1);
        showLists();
        if (kept.file) judge([kept.file]);
        else say("List removed.");
    });
    byId("lists").replaceChildren(...items);
    byId("kept").hidden = items.length === 0;
}

/** Hands the run's own text out as a file. */
function save(text) {
    const link = made("a", "");
    link.href = URL.createObjectURL(new Blob([text], { type: "application/json" }));
    link.download = "malfeasance-report.json";
    link.click();
    setTimeout(() => URL.revokeObjectURL(link.href), 60_000);
    say("The run is saved as malfeasance-report.json.");
}

const asFile = (text, name) => new File([text], name, { type: "application/json" });

/** The files of what is dropped or pasted, or its text. */
function given(data) {
    if (data.files.length) return [...data.files];
    const text = data.getData("text/plain");
    return text ? [asFile(text, "the pasted text")] : [];
}

function take(files) {
    if (files.length) judge(files);
    else say("There was no report in it.");
}

function listen() {
    const over = (on) => () => byId("drop").classList.toggle("over", on);
    addEventListener("dragover", (event) => event.preventDefault());
    addEventListener("dragenter", over(true));
    addEventListener("dragleave", (event) => event.relatedTarget === null && over(false)());
    addEventListener("drop", (event) => {
        event.preventDefault();
        over(false)();
        take(given(event.dataTransfer));
    });
    addEventListener("paste", (event) => {
        if (event.target !== byId("pasted")) take(given(event.clipboardData));
    });
    byId("files").addEventListener("change", ({ target }) => {
        take([...target.files]);
        target.value = "";
    });
    byId("judge").addEventListener("click", () => {
        const text = byId("pasted").value;
        take(text ? [asFile(text, "the pasted text")] : []);
    });
    byId("example").addEventListener("click", () =>
        take([asFile(textOf("report"), "draft 19's own report")]),
    );
    byId("stop").addEventListener("click", () => {
        stop();
        show();
        say("Stopped. Nothing was judged.");
        byId("files").focus();
    });
}

listen();
