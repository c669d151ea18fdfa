"use strict";

// Each second the page asks its node for the report and the status, and draws the rows anew that
// changed. Texts come from strangers: they are only ever put in by textContent and value.
// Numbers are texts, or BigInt where they are added, since they can pass 2^53.

const EVERY = 1000;         // milliseconds between two refreshes,
const SLOWEST = 10000;      // and where the node doesn't answer
const PATIENCE = 8000;      // how long an answer may take
const MOST_ANSWERS = 200;   // that are kept on the page
const MOST_NODES = 8;       // that a bar shows, and a line names

// Why a code refuses, as `failreg explain` tells it. The build writes it in.
const BECAUSE = {};

let report = [];            // the points, as the node told them last
let node = null;            // what it told of itself
let drawn = "";             // the texts of both
let failures = 0;           // refreshes that failed, one behind the other
let latest = 0;             // which refresh began last
let key = stored();
const rows = new Map();     // name -> { text, row }: what was drawn of each point
const opened = new Set();   // what was opened of the rows

const find = id => document.getElementById(id);

function make(tag, kind, ...inside) {
    const element = document.createElement(tag);
    if (kind) element.className = kind;
    element.append(...inside);
    return element;
}

function put(element, text) {
    if (element.textContent !== text) element.textContent = text;
}

// What would turn a line, or can't be seen, is shown by its number.
function plain(text) {
    const hidden = /[\u0080-\u009f\u00ad\u061c\u200b-\u200f\u2028-\u202e\u2060-\u206f\ufeff\ufff9-\ufffb]/g;
    return text.replace(hidden, sign => "\\u{" + sign.charCodeAt(0).toString(16) + "}");
}

const clip = (text, most) => text.length > most ? text.slice(0, most) + "…" : text;
const digits = number => String(number).replace(/\B(?=(\d{3})+$)/g, "\u202f");
const total = numbers => numbers.reduce((sum, number) => sum + number, 0n);

// ---- asking

// Storage may be forbidden: then the key is kept until the page is loaded anew.
function stored() {
    try { return sessionStorage.getItem("key"); } catch { return null; }
}

function keep(it) {
    key = it;
    try {
        if (it === null) sessionStorage.removeItem("key");
        else sessionStorage.setItem("key", it);
    } catch { }
    showKey();
}

// Without a key the node takes changes from one address alone, whose Origin it lets in.
function showKey() {
    find("lock").hidden = key === null;
    find("elsewhere").hidden = key !== null || location.hostname !== "localhost";
}

async function ask(method, path, body) {
    const headers = key === null ? {} : { authorization: "Bearer " + key };
    const signal = AbortSignal.timeout(PATIENCE);
    const response = await fetch(path, {
        method, body, headers, signal, cache: "no-store", credentials: "omit", redirect: "error",
    });
    const text = await response.text();
    if (response.status === 401 && find("unlock").hidden) {
        find("unlock").hidden = false;
        find("unlock").elements.key.focus();
    }
    return { isDone: response.status === 200, text: text || "status " + response.status };
}

function tell(what, answer) {
    const sign = make("span", answer.isDone ? "yes" : "no", answer.isDone ? "✓ " : "✗ ");
    const text = make("code", answer.isDone ? "" : "no", plain(clip(answer.text, 300)));
    const line = make("li", "", make("time", "", new Date().toTimeString().slice(0, 8)), " ", sign,
        make("code", "", plain(clip(what, 160))), answer.isDone ? " returned " : " was rejected: ", text);
    const codes = answer.isDone ? [] : answer.text.match(/\b[NAS]\d+(?= )/g) || [];
    const reasons = codes.map(code => BECAUSE[code]).filter(Boolean);
    if (reasons.length) line.append(" (" + reasons.join("; ") + ")");
    find("log").prepend(line);
    while (find("log").childElementCount > MOST_ANSWERS) find("log").lastElementChild.remove();
    find("log").scrollTop = 0;
}

const isFolder = part => part === "." || part === "..";
const spelled = parts => "/" + parts.map(part => encodeURIComponent(part).replace(/%3A/g, ":")).join("/");

// Asks for a change, shows what is answered, and says whether it was done.
async function change(what, method, parts, body) {
    let answer = { isDone: false, text: "browsers can't address this point: use curl --path-as-is" };
    // A browser takes a part . or .. of a path for a folder.
    if (!parts.some(isFolder)) {
        answer = await ask(method, spelled(parts), body).catch(error => (
            { isDone: false, text: "cannot reach the node: " + error.message }));
    }
    tell(what, answer);
    if (answer.isDone) await refresh();
    return answer.isDone;
}

// ---- drawing

function bar(term, left, spent) {
    const most = left.filter(([, rights]) => rights > 0n);
    const all = total(most.map(([, rights]) => rights)) + spent;
    const box = make("div", "bar");
    box.setAttribute("aria-hidden", "true");
    const piece = (rights, kind, text) => {
        if (rights === 0n) return;
        const part = make("span", kind, text);
        part.style.width = Number(rights * 10000n / all) / 100 + "%";
        box.append(part);
    };
    const label = (at, rights) => (term.rights.length > 1 ? at + ": " : "") + digits(rights);
    piece(spent, "spent", digits(spent));
    most.slice(0, MOST_NODES).forEach(([at, rights], i) => piece(rights, i % 2 ? "odd" : "", label(at, rights)));
    const rest = most.slice(MOST_NODES);
    piece(total(rest.map(([, rights]) => rights)), "odd", rest.length + " more");
    return box;
}

function listed(title, shares) {
    if (!shares.length) return title + "none";
    const named = shares.slice(0, MOST_NODES).map(([at, number]) => at + ": " + digits(number)).join(", ");
    const rest = shares.slice(MOST_NODES);
    const more = ", and " + digits(total(rest.map(([, number]) => number))) + " at " + rest.length + " more";
    return title + named + (rest.length ? more : "");
}

function byNode(term) {
    const head = make("tr", "", ...["node", "granted", "spent", "left"].map(title => make("th", "", title)));
    const lines = term.rights.map((_, at) => {
        const name = at + (String(at) === node.number ? " (this)" : "");
        return make("tr", "", ...[name, ...[term.granted, term.spent, term.rights].map(told => digits(told[at]))]
            .map(text => make("td", "", text)));
    });
    return make("table", "", make("thead", "", head), make("tbody", "", ...lines));
}

// A line that opens to what lies behind it, which is made when it is opened. It stays open where its
// row is drawn anew.
function unfolding(id, line, fill) {
    const box = make("details", "", make("summary", "", line));
    const open = () => { if (box.childElementCount === 1) box.append(fill()); };
    box.dataset.focus = id;
    box.addEventListener("toggle", () => {
        if (box.open) open();
        if (box.open) opened.add(id); else opened.delete(id);
    });
    if (opened.has(id)) { open(); box.open = true; }
    return box;
}

function sharesOf(name, term, left, spent) {
    const line = listed("left at node ", left) + (spent.length ? listed("; spent at ", spent) : "");
    return unfolding("shares " + name + " " + term.term, line, () => byNode(term));
}

function budget(name, term) {
    const numbers = told => told.map((number, at) => [at, BigInt(number)]);
    const some = told => numbers(told).filter(([, number]) => number !== 0n);
    const sum = told => total(numbers(told).map(([, number]) => number));
    const [spent, granted, left] = [sum(term.spent), sum(term.granted), sum(term.rights)];
    const equation = make("div", "sum", "term " + term.term + ": " + digits(term.count)
        + (granted ? " + " + digits(granted) + " granted" : "") + " = ",
        make("b", "", digits(spent) + " spent"), " + " + digits(left) + " left");
    const box = make("div", "budget", equation, bar(term, some(term.rights), spent));
    if (term.rights.length > 1) box.append(sharesOf(name, term, some(term.rights), some(term.spent)));
    return box;
}

function button(text, act, point) {
    const it = make("button", "", text);
    it.type = "button";
    it.dataset[act] = point;
    it.dataset.focus = act + " " + point;
    it.setAttribute("aria-label", text + " " + point);
    return it;
}

function cell(kind, ...inside) {
    const it = make("td", kind, ...inside);
    it.setAttribute("role", "cell");        // a table that is laid out as blocks stays one
    return it;
}

function hitsOf(point) {
    const all = digits(total(point.hits.map(BigInt)));
    const at = point.hits.map((hits, at) => [at, hits]).filter(([, hits]) => hits !== "0");
    if (point.hits.length === 1 || !at.length) return all;
    const lines = () => make("div", "", ...at.map(([at, hits]) => make("div", "", "node " + at + ": " + digits(hits))));
    return unfolding("hits " + point.name, all, lines);
}

function row(point, terms) {
    const isSet = point.actions !== null;
    const text = make("code", "", ...(point.actions || "").split("->").map((term, i) => (
        make("span", "", (i ? "->" : "") + plain(term)))));
    const name = cell("name", make("span", "", point.name), make("span", "unseen", ", version"), " ",
        make("span", "stamp", point.stamp));
    const act = cell("act", button("Edit", "edit", point.name), " ");
    if (isSet) act.append(button("Remove", "remove", point.name));
    const line = make("tr", isSet ? "" : "removed", name, cell("text", isSet ? text : make("i", "", "removed")),
        cell("hits", hitsOf(point)), cell("budgets", ...terms.map(term => budget(point.name, term))), act);
    line.setAttribute("role", "row");
    line.dataset.name = point.name;
    return line;
}

// The points that are to be seen, each with its terms as the status has them. Where the status has
// another setting, as where one was made between the two answers, the next refresh brings them.
function wanted() {
    const want = find("filter").value.toLowerCase();
    const told = new Map(node ? node.points.map(point => [point.name + " " + point.stamp, point.terms]) : []);
    return report
        .filter(point => point.actions !== null || find("removed").value)
        .filter(point => (point.name + " " + (point.actions || "")).toLowerCase().includes(want))
        .map(point => [point, point.actions === null ? [] : told.get(point.name + " " + point.stamp) || []]);
}

// Rows that say the same stay, and so does what the keyboard is at.
function drawRows(shown) {
    const body = find("rows");
    const focus = document.activeElement && document.activeElement.closest("[data-focus]");
    const at = focus && focus.dataset.focus;
    const before = new Map(rows);
    rows.clear();
    const lines = shown.map(([point, terms]) => {
        const text = JSON.stringify([point, terms]);
        const old = before.get(point.name);
        const line = old && old.text === text ? old.row : row(point, terms);
        rows.set(point.name, { text, row: line });
        return line;
    });
    const isSame = body.childElementCount === lines.length && lines.every((line, i) => line === body.children[i]);
    if (isSame) return;
    body.replaceChildren(...lines);
    if (!at) return;
    const again = [...body.querySelectorAll("[data-focus]")].find(it => it.dataset.focus === at);
    if (again) (again.querySelector("summary") || again).focus({ preventScroll: true });
}

function drawNode() {
    if (!node) return;
    const [used, cap] = [BigInt(node.calls), BigInt(node.cap)];
    put(find("node"), "node " + node.number + " of " + node.nodes + ", version " + node.version);
    put(find("calls"), digits(cap - used) + " calls left of " + digits(cap));
    find("calls").className = (cap - used) * 10n < cap ? "bad" : "";
    document.title = "failreg node " + node.number;
}

function draw() {
    const shown = wanted();
    const set = report.filter(point => point.actions !== null);
    const removed = report.length - set.length;
    drawNode();
    drawRows(shown);
    find("none").hidden = shown.length > 0;
    put(find("points"), "Points: " + set.length + " set" + (removed ? ", " + removed + " removed" : "")
        + (find("filter").value ? ", " + shown.length + " shown" : ""));
    const names = set.map(point => point.name);
    if ([...find("names").children].map(it => it.value).join() === names.join()) return;
    find("names").replaceChildren(...names.map(name => Object.assign(make("option"), { value: name })));
}

// ---- each second

function say(text, isBad) {
    put(find("state"), text);
    find("state").className = isBad ? "bad" : "";
}

async function refresh() {
    const mine = ++latest;
    try {
        const answers = await Promise.all([ask("GET", "/report"), ask("GET", "/status")]);
        if (mine !== latest) return;
        const refused = answers.find(answer => !answer.isDone);
        if (refused) throw new Error(refused.text);
        const texts = answers.map(answer => answer.text);
        failures = 0;
        find("unlock").hidden = true;
        say(isHeld() ? "paused" : "up to date", false);
        if (texts.join() === drawn) return;
        drawn = texts.join();
        [report, { node }] = texts.map(text => JSON.parse(text));
        draw();
    } catch (error) {
        if (mine !== latest) return;
        failures++;
        say("the node doesn't respond (" + clip(plain(error.message), 120) + "); showing its last report", true);
    }
}

const isHeld = () => find("hold").getAttribute("aria-pressed") === "true";

async function turn() {
    if (!document.hidden && !isHeld()) await refresh();
    setTimeout(turn, Math.min(EVERY * (1 + failures), SLOWEST));
}

// ---- what is done by hand

function edit(name) {
    const point = report.find(point => point.name === name);
    const { elements } = find("set");
    elements.name.value = name;
    elements.text.value = point.actions || "";
    for (const form of ["grant", "shift"]) find(form).elements.name.value = name;
    elements.text.focus();
    find("set").scrollIntoView({ block: "center" });
}

function onSubmit(id, act) {
    find(id).addEventListener("submit", async event => {
        event.preventDefault();
        const [form, send] = [event.target, event.target.querySelector("button")];
        if (send.disabled) return;
        send.disabled = true;
        try { await act(name => form.elements[name].value); } finally { send.disabled = false; }
    });
}

onSubmit("set", value => {
    const [name, text] = [value("name"), value("text")];
    // A path can't hold these names; an entry can.
    if (isFolder(name) && !text.includes(";")) return change("set " + name + " " + text, "POST", ["load"], name + "=" + text);
    return change("set " + name + " " + text, "PUT", ["fail", name], text);
});
onSubmit("load", value => {
    const text = value("text").trim().replace(/\s*\n\s*/g, ";");
    return change("load " + text, "POST", ["load"], text);
});
onSubmit("grant", value => {
    const parts = ["grant", ...["name", "term", "amount"].map(value)];
    return change(parts.join(" "), "POST", parts);
});
onSubmit("shift", value => {
    const parts = ["shift", ...["name", "term", "to", "amount"].map(value)];
    return change(parts.join(" "), "POST", parts);
});
onSubmit("unlock", value => {
    keep(value("key").trim());
    find("unlock").reset();
    return refresh();
});

find("filter").addEventListener("input", draw);
find("removed").addEventListener("change", draw);
find("lock").addEventListener("click", () => { keep(null); refresh(); });
find("hold").addEventListener("click", () => {
    find("hold").setAttribute("aria-pressed", String(!isHeld()));
    if (isHeld()) say("paused", false); else refresh();
});
find("rows").addEventListener("click", event => {
    const { edit: edited, remove } = (event.target.closest("button") || { dataset: {} }).dataset;
    if (edited !== undefined) edit(edited);
    if (remove !== undefined && confirm("Remove " + remove + "?")) change("remove " + remove, "DELETE", ["fail", remove]);
});

find("home").href = "http://127.0.0.1:" + location.port + "/";
put(find("home"), find("home").href);
showKey();
turn();
