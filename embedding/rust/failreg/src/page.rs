//! The page that a served node answers, and the policy that a browser is to hold it to. Written by
//! `tools/page` from `page/`.

/// The page: HTML with its style and its script.
pub const PAGE: &str = r##"<!DOCTYPE html>
<html lang="en">
<head>
<meta charset="utf-8">
<meta name="viewport" content="width=device-width, initial-scale=1">
<meta name="color-scheme" content="light dark">
<title>failreg</title>
<style>:root {
--back: #fff;
--text: #1d2125;
--soft: #59626b;
--line: #d5dadf;
--card: #f6f7f8;
--left: #0072b2;
--spent: #66707a;
--bad: #b00d28;
--good: #0b6b4f;
--on: #fff;
}
@media (prefers-color-scheme: dark) {
:root {
--back: #14171a;
--text: #e6e9ec;
--soft: #a3acb5;
--line: #3b4249;
--card: #1d2125;
--left: #56b4e9;
--spent: #98a2ab;
--bad: #ff8a94;
--good: #5fd3ab;
--on: #14171a;
}
}
* { box-sizing: border-box; }
[hidden] { display: none !important; }
body {
position: relative;
margin: 0 auto;
max-width: 1180px;
padding: 0 16px 48px;
background: var(--back);
color: var(--text);
font: 15px/1.45 system-ui, -apple-system, "Segoe UI", "DejaVu Sans", sans-serif;
}
h1 { font-size: 20px; margin: 0; }
h2 { font-size: 16px; margin: 24px 0 8px; }
a { color: var(--left); }
header {
display: flex;
flex-wrap: wrap;
gap: 4px 16px;
align-items: baseline;
padding: 14px 0 10px;
border-bottom: 1px solid var(--line);
}
#node, #state, #calls { color: var(--soft); }
#state.bad, #calls.bad { color: var(--bad); font-weight: 600; }
.skip { position: absolute; left: -999px; }
.skip:focus { left: 16px; top: 4px; background: var(--back); padding: 4px; }
.unseen { position: absolute; width: 1px; height: 1px; overflow: hidden; clip-path: inset(50%); white-space: nowrap; }
.note { border: 1px solid var(--line); border-left: 4px solid var(--left); background: var(--card); padding: 8px 12px; margin: 12px 0; }
#unlock { display: flex; flex-wrap: wrap; gap: 8px 12px; align-items: end; }
#unlock label { flex: 0 1 260px; }
code, .code { font-family: ui-monospace, "SF Mono", "DejaVu Sans Mono", Consolas, monospace; font-size: 14px; }
code { overflow-wrap: anywhere; unicode-bidi: isolate; }
td code span { display: inline-block; max-width: 100%; unicode-bidi: isolate; white-space: pre-wrap; }
label { display: block; color: var(--soft); font-size: 13px; }
input, select, textarea, button {
width: 100%;
min-height: 36px;
padding: 6px 9px;
font: inherit;
color: var(--text);
background: var(--back);
border: 1px solid var(--soft);
border-radius: 5px;
}
input, select { font-size: 15px; }
textarea { display: block; resize: vertical; }
button { width: auto; cursor: pointer; background: var(--card); }
button.main { background: var(--left); border-color: var(--left); color: var(--on); font-weight: 600; }
button:hover { border-color: var(--text); }
:focus-visible { outline: 3px solid var(--left); outline-offset: 2px; }
.main:focus-visible { outline-color: var(--text); }
.hint { color: var(--soft); font-size: 13px; margin: 8px 0; }
.tools { display: flex; flex-wrap: wrap; gap: 8px 12px; align-items: end; margin: 12px 0; }
.wide { flex: 1 1 260px; }
#box { position: relative; margin: 0 -5px; padding: 0 5px; max-height: max(420px, 60vh); overflow: auto; }
#box table, #head, #rows { display: block; }
#head tr, #rows > tr { display: grid; grid-template-columns: 18fr 28fr 9fr 30fr 148px; gap: 12px; }
#head { position: sticky; top: 0; background: var(--back); z-index: 1; }
#rows > tr { border-top: 1px solid var(--line); padding: 8px 0; content-visibility: auto; contain-intrinsic-height: auto 84px; }
th { font-size: 13px; font-weight: 600; color: var(--soft); text-align: left; padding: 4px 0; }
td { padding: 0; min-width: 0; }
#head th:nth-child(3), td.hits { text-align: right; font-variant-numeric: tabular-nums; }
td.hits details { color: var(--text); font-size: 15px; }
td.name { overflow-wrap: anywhere; }
.stamp { color: var(--soft); font-size: 13px; font-weight: 400; white-space: nowrap; }
td.act { text-align: right; white-space: nowrap; padding: 0 4px; }
td.act button { padding: 3px 8px; min-height: 30px; font-size: 13px; }
tr.removed { color: var(--soft); }
.budget + .budget { margin-top: 8px; }
.sum, details { font-size: 13px; font-variant-numeric: tabular-nums; }
details { color: var(--soft); }
summary { cursor: pointer; overflow-wrap: anywhere; }
#box details table { display: table; border-collapse: collapse; }
details td, details th { padding: 0 12px 0 0; text-align: right; }
.bar {
display: flex;
height: 18px;
margin: 2px 0;
border: 1px solid var(--text);
border-radius: 3px;
overflow: hidden;
}
.bar span {
display: flex;
flex-wrap: wrap;
justify-content: center;
min-width: 0;
height: 16px;
overflow: hidden;
white-space: nowrap;
font-size: 11px;
line-height: 16px;
color: var(--on);
background: var(--left);
border-left: 1px solid var(--back);
}
.bar span::before { content: ""; width: 0; height: 16px; }
.bar span:first-child { border-left: 0; }
.bar .odd { background: color-mix(in srgb, var(--left) 80%, #000); }
.bar .spent { background: var(--spent); }
#log {
list-style: none;
margin: 0;
padding: 0;
max-height: 220px;
overflow: auto;
border: 1px solid var(--line);
border-radius: 5px;
}
#log:empty::after { content: "No requests yet."; display: block; padding: 6px 10px; color: var(--soft); }
#log li { padding: 4px 10px; border-top: 1px solid var(--line); overflow-wrap: anywhere; }
#log li:first-child { border: 0; }
#log time { color: var(--soft); font-size: 13px; }
.no { color: var(--bad); }
.yes { color: var(--good); }
#forms { display: grid; grid-template-columns: repeat(auto-fit, minmax(min(250px, 100%), 1fr)); gap: 12px; }
fieldset { border: 1px solid var(--line); border-radius: 6px; background: var(--card); padding: 8px 12px 12px; margin: 0; min-width: 0; }
legend { font-weight: 600; padding: 0 4px; }
fieldset label { margin: 6px 0; }
fieldset .main { margin-top: 4px; }
.pair { display: flex; gap: 8px; }
.pair label { flex: 1 1 0; min-width: 0; }
@media (max-width: 720px) {
#head { display: none; }
#rows > tr { display: block; }
#rows > tr > td { display: block; padding: 2px 0; text-align: left; }
td.hits::before { content: "hits "; color: var(--soft); }
td.hits details { display: inline-block; vertical-align: top; }
td.name { font-weight: 600; }
}
</style>
</head>
<body>
<a class="skip" href="#changes">To the changes</a>
<header>
<h1>failreg</h1>
<span id="node"></span>
<span id="calls"></span>
<span id="state" role="status">loading …</span>
</header>
<main>
<p id="elsewhere" class="note" hidden>Changes are accepted only from <a id="home"></a>.</p>
<form id="unlock" class="note" hidden>
<label>The node requires a key
<input name="key" type="password" required autocomplete="off"></label>
<button class="main">Unlock</button>
<p class="hint">The key is stored for this tab only.</p>
</form>
<h2 id="points">Points</h2>
<div class="tools">
<label class="wide">Filter names and actions
<input id="filter" type="search" autocomplete="off" spellcheck="false"></label>
<label>Removed points
<select id="removed"><option value="">hidden<option value="1">shown</select></label>
<button id="hold" type="button" aria-pressed="false">Pause updates</button>
<button id="lock" type="button" hidden>Discard the key</button>
</div>
<div id="box" tabindex="0" role="region" aria-labelledby="points">
<table role="table" aria-labelledby="points">
<thead id="head" role="rowgroup"><tr role="row">
<th scope="col" role="columnheader">Point</th>
<th scope="col" role="columnheader">Action string</th>
<th scope="col" role="columnheader">Hits</th>
<th scope="col" role="columnheader">Budgets: spent, then what each node has left</th>
<th scope="col" role="columnheader"><span class="unseen">Changes</span></th>
</tr></thead>
<tbody id="rows" role="rowgroup"></tbody>
</table>
<p id="none" hidden>No point to show.</p>
</div>
<h2 id="answers">Responses</h2>
<ol id="log" tabindex="0" aria-labelledby="answers" aria-live="polite" aria-relevant="additions"></ol>
<h2 id="changes" tabindex="-1">Changes</h2>
<datalist id="names"></datalist>
<div id="forms">
<form id="set"><fieldset>
<legend>Set a point</legend>
<label>Name <input class="code" name="name" required maxlength="128" list="names" autocomplete="off"
autocapitalize="off" spellcheck="false"></label>
<label>Action string <input class="code" name="text" placeholder="20%3*print(hi)-&gt;off" autocomplete="off"
autocapitalize="off" spellcheck="false"></label>
<p class="hint">Setting a point starts new budgets, even with the same actions.</p>
<button class="main">Set</button>
</fieldset></form>
<form id="load"><fieldset>
<legend>Load points</legend>
<label>Entries, all or none <textarea class="code" name="text" rows="3" required
placeholder="a=off;b=2*panic-&gt;off" autocapitalize="off" spellcheck="false"></textarea></label>
<button class="main">Load</button>
</fieldset></form>
<form id="grant"><fieldset>
<legend>Grant this node rights</legend>
<label>Name <input class="code" name="name" required list="names" autocomplete="off" autocapitalize="off"
spellcheck="false"></label>
<div class="pair">
<label>Term <input name="term" inputmode="numeric" pattern="[0-9]+" value="0" required></label>
<label>Rights <input name="amount" inputmode="numeric" pattern="[0-9]+" value="1" required></label>
</div>
<button class="main">Grant</button>
</fieldset></form>
<form id="shift"><fieldset>
<legend>Shift rights to a node</legend>
<label>Name <input class="code" name="name" required list="names" autocomplete="off" autocapitalize="off"
spellcheck="false"></label>
<div class="pair">
<label>Term <input name="term" inputmode="numeric" pattern="[0-9]+" value="0" required></label>
<label>To node <input name="to" inputmode="numeric" pattern="[0-9]+" required></label>
<label>Rights <input name="amount" inputmode="numeric" pattern="[0-9]+" value="1" required></label>
</div>
<button class="main">Shift</button>
</fieldset></form>
</div>
</main>
<script>"use strict";
const EVERY = 1000;
const SLOWEST = 10000;
const PATIENCE = 8000;
const MOST_ANSWERS = 200;
const MOST_NODES = 8;
const BECAUSE = {"N1":"the node has accepted as many calls as its call limit","N2":"the name isn't 1 to 128 bytes of ASCII letters, digits, _, -, . and :","N3":"the action string or FAILPOINTS string is wrong; its own error follows","N4":"the node would hold more than 256 names; removed names count permanently","N5":"the clock would pass 2^64 - 1","N6":"the point isn't set at this node","N7":"the point has no term with this number; terms count from 0","N8":"the term has no count, so it needs no rights","N9":"the cluster has no such node, or it is this node","N10":"the amount is 0","N11":"this node holds only so many rights","N12":"the total that was transferred to that node, or that this node granted itself, would pass 2^64 - 1","A1":"the string has more than 1,024 bytes","A2":"the string has more than 16 terms","A3":"the term has a ( and doesn't end with )","A4":"the chance before the first % isn't a number from 0 to 100 with at most 4 decimals","A5":"the count before the first * isn't a whole number of at most 2^64 - 1","A6":"the action is missing","A7":"the action isn't one of off, return, sleep, panic, print, pause, yield and delay","A8":"sleep or delay has no argument","A9":"the argument of sleep or delay isn't a whole number of milliseconds of at most 2^64 - 1","A10":"the string has a control character or a ;","A11":"an allocation failed","S1":"the string has more than 65,536 bytes","S2":"the entry has no =","S3":"the text before the first = isn't a name","S4":"the action string after the = is wrong; its own error follows, with offsets counted from there","S5":"an allocation failed"};
let report = [];
let node = null;
let drawn = "";
let failures = 0;
let latest = 0;
let key = stored();
const rows = new Map();
const opened = new Set();
const find = id => document.getElementById(id);
function make(tag, kind, ...inside) {
const element = document.createElement(tag);
if (kind) element.className = kind;
element.append(...inside);
return element;
}
function put(element, text) {
if (element.textContent !== text) element.textContent = text;
}
function plain(text) {
const hidden = /[\u0080-\u009f\u00ad\u061c\u200b-\u200f\u2028-\u202e\u2060-\u206f\ufeff\ufff9-\ufffb]/g;
return text.replace(hidden, sign => "\\u{" + sign.charCodeAt(0).toString(16) + "}");
}
const clip = (text, most) => text.length > most ? text.slice(0, most) + "…" : text;
const digits = number => String(number).replace(/\B(?=(\d{3})+$)/g, "\u202f");
const total = numbers => numbers.reduce((sum, number) => sum + number, 0n);
function stored() {
try { return sessionStorage.getItem("key"); } catch { return null; }
}
function keep(it) {
key = it;
try {
if (it === null) sessionStorage.removeItem("key");
else sessionStorage.setItem("key", it);
} catch { }
showKey();
}
function showKey() {
find("lock").hidden = key === null;
find("elsewhere").hidden = key !== null || location.hostname !== "localhost";
}
async function ask(method, path, body) {
const headers = key === null ? {} : { authorization: "Bearer " + key };
const signal = AbortSignal.timeout(PATIENCE);
const response = await fetch(path, {
method, body, headers, signal, cache: "no-store", credentials: "omit", redirect: "error",
});
const text = await response.text();
if (response.status === 401 && find("unlock").hidden) {
find("unlock").hidden = false;
find("unlock").elements.key.focus();
}
return { isDone: response.status === 200, text: text || "status " + response.status };
}
function tell(what, answer) {
const sign = make("span", answer.isDone ? "yes" : "no", answer.isDone ? "✓ " : "✗ ");
const text = make("code", answer.isDone ? "" : "no", plain(clip(answer.text, 300)));
const line = make("li", "", make("time", "", new Date().toTimeString().slice(0, 8)), " ", sign,
make("code", "", plain(clip(what, 160))), answer.isDone ? " returned " : " was rejected: ", text);
const codes = answer.isDone ? [] : answer.text.match(/\b[NAS]\d+(?= )/g) || [];
const reasons = codes.map(code => BECAUSE[code]).filter(Boolean);
if (reasons.length) line.append(" (" + reasons.join("; ") + ")");
find("log").prepend(line);
while (find("log").childElementCount > MOST_ANSWERS) find("log").lastElementChild.remove();
find("log").scrollTop = 0;
}
const isFolder = part => part === "." || part === "..";
const spelled = parts => "/" + parts.map(part => encodeURIComponent(part).replace(/%3A/g, ":")).join("/");
async function change(what, method, parts, body) {
let answer = { isDone: false, text: "browsers can't address this point: use curl --path-as-is" };
if (!parts.some(isFolder)) {
answer = await ask(method, spelled(parts), body).catch(error => (
{ isDone: false, text: "cannot reach the node: " + error.message }));
}
tell(what, answer);
if (answer.isDone) await refresh();
return answer.isDone;
}
function bar(term, left, spent) {
const most = left.filter(([, rights]) => rights > 0n);
const all = total(most.map(([, rights]) => rights)) + spent;
const box = make("div", "bar");
box.setAttribute("aria-hidden", "true");
const piece = (rights, kind, text) => {
if (rights === 0n) return;
const part = make("span", kind, text);
part.style.width = Number(rights * 10000n / all) / 100 + "%";
box.append(part);
};
const label = (at, rights) => (term.rights.length > 1 ? at + ": " : "") + digits(rights);
piece(spent, "spent", digits(spent));
most.slice(0, MOST_NODES).forEach(([at, rights], i) => piece(rights, i % 2 ? "odd" : "", label(at, rights)));
const rest = most.slice(MOST_NODES);
piece(total(rest.map(([, rights]) => rights)), "odd", rest.length + " more");
return box;
}
function listed(title, shares) {
if (!shares.length) return title + "none";
const named = shares.slice(0, MOST_NODES).map(([at, number]) => at + ": " + digits(number)).join(", ");
const rest = shares.slice(MOST_NODES);
const more = ", and " + digits(total(rest.map(([, number]) => number))) + " at " + rest.length + " more";
return title + named + (rest.length ? more : "");
}
function byNode(term) {
const head = make("tr", "", ...["node", "granted", "spent", "left"].map(title => make("th", "", title)));
const lines = term.rights.map((_, at) => {
const name = at + (String(at) === node.number ? " (this)" : "");
return make("tr", "", ...[name, ...[term.granted, term.spent, term.rights].map(told => digits(told[at]))]
.map(text => make("td", "", text)));
});
return make("table", "", make("thead", "", head), make("tbody", "", ...lines));
}
function unfolding(id, line, fill) {
const box = make("details", "", make("summary", "", line));
const open = () => { if (box.childElementCount === 1) box.append(fill()); };
box.dataset.focus = id;
box.addEventListener("toggle", () => {
if (box.open) open();
if (box.open) opened.add(id); else opened.delete(id);
});
if (opened.has(id)) { open(); box.open = true; }
return box;
}
function sharesOf(name, term, left, spent) {
const line = listed("left at node ", left) + (spent.length ? listed("; spent at ", spent) : "");
return unfolding("shares " + name + " " + term.term, line, () => byNode(term));
}
function budget(name, term) {
const numbers = told => told.map((number, at) => [at, BigInt(number)]);
const some = told => numbers(told).filter(([, number]) => number !== 0n);
const sum = told => total(numbers(told).map(([, number]) => number));
const [spent, granted, left] = [sum(term.spent), sum(term.granted), sum(term.rights)];
const equation = make("div", "sum", "term " + term.term + ": " + digits(term.count)
+ (granted ? " + " + digits(granted) + " granted" : "") + " = ",
make("b", "", digits(spent) + " spent"), " + " + digits(left) + " left");
const box = make("div", "budget", equation, bar(term, some(term.rights), spent));
if (term.rights.length > 1) box.append(sharesOf(name, term, some(term.rights), some(term.spent)));
return box;
}
function button(text, act, point) {
const it = make("button", "", text);
it.type = "button";
it.dataset[act] = point;
it.dataset.focus = act + " " + point;
it.setAttribute("aria-label", text + " " + point);
return it;
}
function cell(kind, ...inside) {
const it = make("td", kind, ...inside);
it.setAttribute("role", "cell");
return it;
}
function hitsOf(point) {
const all = digits(total(point.hits.map(BigInt)));
const at = point.hits.map((hits, at) => [at, hits]).filter(([, hits]) => hits !== "0");
if (point.hits.length === 1 || !at.length) return all;
const lines = () => make("div", "", ...at.map(([at, hits]) => make("div", "", "node " + at + ": " + digits(hits))));
return unfolding("hits " + point.name, all, lines);
}
function row(point, terms) {
const isSet = point.actions !== null;
const text = make("code", "", ...(point.actions || "").split("->").map((term, i) => (
make("span", "", (i ? "->" : "") + plain(term)))));
const name = cell("name", make("span", "", point.name), make("span", "unseen", ", version"), " ",
make("span", "stamp", point.stamp));
const act = cell("act", button("Edit", "edit", point.name), " ");
if (isSet) act.append(button("Remove", "remove", point.name));
const line = make("tr", isSet ? "" : "removed", name, cell("text", isSet ? text : make("i", "", "removed")),
cell("hits", hitsOf(point)), cell("budgets", ...terms.map(term => budget(point.name, term))), act);
line.setAttribute("role", "row");
line.dataset.name = point.name;
return line;
}
function wanted() {
const want = find("filter").value.toLowerCase();
const told = new Map(node ? node.points.map(point => [point.name + " " + point.stamp, point.terms]) : []);
return report
.filter(point => point.actions !== null || find("removed").value)
.filter(point => (point.name + " " + (point.actions || "")).toLowerCase().includes(want))
.map(point => [point, point.actions === null ? [] : told.get(point.name + " " + point.stamp) || []]);
}
function drawRows(shown) {
const body = find("rows");
const focus = document.activeElement && document.activeElement.closest("[data-focus]");
const at = focus && focus.dataset.focus;
const before = new Map(rows);
rows.clear();
const lines = shown.map(([point, terms]) => {
const text = JSON.stringify([point, terms]);
const old = before.get(point.name);
const line = old && old.text === text ? old.row : row(point, terms);
rows.set(point.name, { text, row: line });
return line;
});
const isSame = body.childElementCount === lines.length && lines.every((line, i) => line === body.children[i]);
if (isSame) return;
body.replaceChildren(...lines);
if (!at) return;
const again = [...body.querySelectorAll("[data-focus]")].find(it => it.dataset.focus === at);
if (again) (again.querySelector("summary") || again).focus({ preventScroll: true });
}
function drawNode() {
if (!node) return;
const [used, cap] = [BigInt(node.calls), BigInt(node.cap)];
put(find("node"), "node " + node.number + " of " + node.nodes + ", version " + node.version);
put(find("calls"), digits(cap - used) + " calls left of " + digits(cap));
find("calls").className = (cap - used) * 10n < cap ? "bad" : "";
document.title = "failreg node " + node.number;
}
function draw() {
const shown = wanted();
const set = report.filter(point => point.actions !== null);
const removed = report.length - set.length;
drawNode();
drawRows(shown);
find("none").hidden = shown.length > 0;
put(find("points"), "Points: " + set.length + " set" + (removed ? ", " + removed + " removed" : "")
+ (find("filter").value ? ", " + shown.length + " shown" : ""));
const names = set.map(point => point.name);
if ([...find("names").children].map(it => it.value).join() === names.join()) return;
find("names").replaceChildren(...names.map(name => Object.assign(make("option"), { value: name })));
}
function say(text, isBad) {
put(find("state"), text);
find("state").className = isBad ? "bad" : "";
}
async function refresh() {
const mine = ++latest;
try {
const answers = await Promise.all([ask("GET", "/report"), ask("GET", "/status")]);
if (mine !== latest) return;
const refused = answers.find(answer => !answer.isDone);
if (refused) throw new Error(refused.text);
const texts = answers.map(answer => answer.text);
failures = 0;
find("unlock").hidden = true;
say(isHeld() ? "paused" : "up to date", false);
if (texts.join() === drawn) return;
drawn = texts.join();
[report, { node }] = texts.map(text => JSON.parse(text));
draw();
} catch (error) {
if (mine !== latest) return;
failures++;
say("the node doesn't respond (" + clip(plain(error.message), 120) + "); showing its last report", true);
}
}
const isHeld = () => find("hold").getAttribute("aria-pressed") === "true";
async function turn() {
if (!document.hidden && !isHeld()) await refresh();
setTimeout(turn, Math.min(EVERY * (1 + failures), SLOWEST));
}
function edit(name) {
const point = report.find(point => point.name === name);
const { elements } = find("set");
elements.name.value = name;
elements.text.value = point.actions || "";
for (const form of ["grant", "shift"]) find(form).elements.name.value = name;
elements.text.focus();
find("set").scrollIntoView({ block: "center" });
}
function onSubmit(id, act) {
find(id).addEventListener("submit", async event => {
event.preventDefault();
const [form, send] = [event.target, event.target.querySelector("button")];
if (send.disabled) return;
send.disabled = true;
try { await act(name => form.elements[name].value); } finally { send.disabled = false; }
});
}
onSubmit("set", value => {
const [name, text] = [value("name"), value("text")];
if (isFolder(name) && !text.includes(";")) return change("set " + name + " " + text, "POST", ["load"], name + "=" + text);
return change("set " + name + " " + text, "PUT", ["fail", name], text);
});
onSubmit("load", value => {
const text = value("text").trim().replace(/\s*\n\s*/g, ";");
return change("load " + text, "POST", ["load"], text);
});
onSubmit("grant", value => {
const parts = ["grant", ...["name", "term", "amount"].map(value)];
return change(parts.join(" "), "POST", parts);
});
onSubmit("shift", value => {
const parts = ["shift", ...["name", "term", "to", "amount"].map(value)];
return change(parts.join(" "), "POST", parts);
});
onSubmit("unlock", value => {
keep(value("key").trim());
find("unlock").reset();
return refresh();
});
find("filter").addEventListener("input", draw);
find("removed").addEventListener("change", draw);
find("lock").addEventListener("click", () => { keep(null); refresh(); });
find("hold").addEventListener("click", () => {
find("hold").setAttribute("aria-pressed", String(!isHeld()));
if (isHeld()) say("paused", false); else refresh();
});
find("rows").addEventListener("click", event => {
const { edit: edited, remove } = (event.target.closest("button") || { dataset: {} }).dataset;
if (edited !== undefined) edit(edited);
if (remove !== undefined && confirm("Remove " + remove + "?")) change("remove " + remove, "DELETE", ["fail", remove]);
});
find("home").href = "http://127.0.0.1:" + location.port + "/";
put(find("home"), find("home").href);
showKey();
turn();
</script>
</body>
</html>
"##;

/// The `Content-Security-Policy` of the page, with the hashes of its style and its script.
pub const POLICY: &str = "default-src 'none'; \
    script-src 'sha256-GwRt8swvnRR8vMQEamEauH1VrwuBVszD+hCVSrnvZEE='; \
    style-src 'sha256-aW/BilPoRwwDju1uicvINzhJUx5/l3d4HYtNHJcuXZA='; \
    connect-src 'self'; \
    base-uri 'none'; \
    form-action 'none'; \
    frame-ancestors 'none'; \
    require-trusted-types-for 'script'; \
    trusted-types 'none'";
