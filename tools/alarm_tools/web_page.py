"""The page of `web`: its frame, its style and its script. It works without the script too: then it loads itself anew."""

PAGE = """<!DOCTYPE html>
<html lang="{language}">
<head>
<meta charset="utf-8">
<meta name="viewport" content="width=device-width, initial-scale=1">
<title>({waiting}) {device}</title>
<link rel="icon" href="data:,">
<link rel="stylesheet" href="/page.css">
<noscript><meta http-equiv="refresh" content="5"></noscript>
<script src="/page.js" defer></script>
</head>
<body data-token="{token}" data-run="{run}" data-last="{last}" data-words="{words}">
<header>
<div><h1>{device}</h1><p>{where}, {t_asked} <span id="age" data-age="{age}">{age_text}</span></p></div>
<p class="counts" role="status" aria-live="polite"><span><b id="active">{active}</b> {t_in_alarm}</span><span><b id="waiting">{waiting}</b> {t_waiting}</span></p>
</header>
<main>
<p id="error" class="error" role="alert" {no_error}>{error}</p>
<p id="said" class="said" role="status" aria-live="polite">{said}</p>
<div class="bar">
<details id="choose" {is_chosen}><summary>{t_filter}</summary>
<form id="filter" class="filter" method="get" action="/">
<label>{t_search} <input type="search" name="text" value="{text}" maxlength="60"></label>
<label>{t_state} <select name="state">{state_options}</select></label>
<label>{t_class} <select name="class" id="class">{class_options}</select></label>
<label>{t_priority} <input type="number" name="priority" min="0" max="255" value="{priority}"></label>
<label class="check"><input type="checkbox" name="waiting" value="1" {is_waiting}> {t_only_waiting}</label>
<label class="check"><input type="checkbox" name="new" value="1" {is_new}> {t_new}</label>
<input type="hidden" name="looked" value="{looked}"><input type="hidden" name="language" value="{chosen_language}">
<button type="submit" class="plain">{t_show}</button>
</form>
</details>
<span class="acts"><label class="check script"><input type="checkbox" id="sound"> {t_sound}</label><a id="looked" class="plain" href="{looked_link}">{t_looked}</a></span>
</div>
<p id="shown" class="quiet">{shown}</p>
<table {has_rows}>
<thead><tr><th scope="col">{t_state}</th><th scope="col">{t_object}</th><th scope="col">{t_value}</th><th scope="col">{t_since}</th><th scope="col">{t_to_acknowledge}</th><th scope="col">{t_prio}</th><th scope="col"><span class="out">{t_action}</span></th></tr></thead>
<tbody>
{rows}
</tbody>
</table>
<p class="more"><a id="more" class="plain" href="{more_link}" {has_more}>{t_more}</a></p>
<p id="empty" class="empty" {is_empty}>{t_empty}</p>
<section id="shelf">{shelf}</section>
<details class="frequent"><summary>{t_frequent}</summary><div id="frequent">{frequent}</div></details>
</main>
<footer><label>{t_by} <input id="by" name="by" value="{by}" maxlength="60" autocomplete="name"></label><span>{t_clocks}</span></footer>
</body>
</html>
"""

STYLE = """
:root { color-scheme: light dark; --ink: #17242c; --soft: #55666f; --line: #d5dde1; --ground: #f6f8f9; --sheet: #ffffff; --bad: #a3231b; --bad-ground: #fdeceb; --seen: #7a5200; --seen-ground: #fff5df; --calm: #2a6243; --act: #14506f; }
@media (prefers-color-scheme: dark) { :root { --ink: #e6edf0; --soft: #9fb0b8; --line: #34434b; --ground: #12191d; --sheet: #1a2429; --bad: #ffb0a8; --bad-ground: #43201d; --seen: #f3cf8a; --seen-ground: #3a2f17; --calm: #9bd6b4; --act: #9fd0ec; } }
* { box-sizing: border-box; }
body { margin: 0; background: var(--ground); color: var(--ink); font: 16px/1.45 system-ui, "Segoe UI", Roboto, sans-serif; }
header, main, footer { max-width: 74rem; margin: 0 auto; padding: 0 1.25rem; }
header { display: flex; flex-wrap: wrap; gap: 1rem 2.5rem; justify-content: space-between; align-items: center; padding-top: 1.5rem; padding-bottom: 1rem; }
h1 { margin: 0; font-size: 1.45rem; font-weight: 650; }
header p { margin: .15rem 0 0; color: var(--soft); }
.counts { display: flex; gap: 2rem; }
.counts span { display: flex; align-items: baseline; gap: .45rem; }
.counts b { font-size: 2rem; line-height: 1; font-weight: 650; color: var(--ink); font-variant-numeric: tabular-nums; }
table { width: 100%; border-collapse: separate; background: var(--sheet); border: 1px solid var(--line); border-radius: .5rem; overflow: hidden; border-spacing: 0; }
th { text-align: left; font-size: .8rem; font-weight: 600; color: var(--soft); padding: .6rem .9rem; border-bottom: 1px solid var(--line); }
td { padding: .7rem .9rem; border-bottom: 1px solid var(--line); vertical-align: middle; }
tbody tr:last-child td { border-bottom: 0; }
th:first-child, td:first-child { border-left: .35rem solid transparent; white-space: nowrap; }
tr.waits { background: var(--bad-ground); }
tr.waits td:first-child { border-left-color: var(--bad); }
tr.waits .state { color: var(--bad); font-weight: 650; }
tr.seen { background: var(--seen-ground); }
tr.seen td:first-child { border-left: .35rem double var(--seen); }
tr.seen .state { color: var(--seen); font-weight: 600; }
tr.over .state { color: var(--calm); }
td strong { display: block; font-weight: 600; }
td small { color: var(--soft); font-size: .85rem; }
td time, td:nth-child(6), td:nth-child(3) { font-variant-numeric: tabular-nums; }
td time { white-space: nowrap; }
td small { display: block; }
td mark { background: var(--act); color: var(--sheet); border-radius: .3rem; padding: 0 .4rem; font-size: .8rem; font-weight: 600; margin-left: .4rem; }
.message { font-size: .9rem; }
.bar { display: flex; flex-wrap: wrap; gap: .5rem 1.5rem; justify-content: space-between; align-items: flex-start; margin-bottom: .4rem; }
.acts { display: flex; gap: 1rem; align-items: center; margin-left: auto; }
summary { cursor: pointer; font-weight: 600; color: var(--act); padding: .45rem 0; }
.filter { display: flex; flex-wrap: wrap; gap: .5rem 1.25rem; align-items: center; padding: .3rem 0 .6rem; font-size: .9rem; }
.check { white-space: nowrap; }
.check input { margin: 0 .3rem 0 0; width: 1.1rem; height: 1.1rem; vertical-align: -.15rem; }
.plain { display: inline-block; font: inherit; font-weight: 600; font-size: .95rem; color: var(--act); background: var(--sheet); border: 1px solid var(--act); border-radius: .4rem; padding: .4rem .9rem; text-decoration: none; min-height: 2.4rem; }
.more { text-align: center; margin: .8rem 0; }
#shown { margin: 0 0 .4rem; font-size: .9rem; min-height: 1.3rem; }
section h2 { font-size: 1rem; margin: 1.2rem 0 .3rem; }
section ul, .frequent ol { background: var(--sheet); border: 1px solid var(--line); border-radius: .5rem; margin: 0; padding: .5rem .9rem .5rem 2.2rem; }
.frequent { margin: .6rem 0; }
td:last-child { text-align: right; white-space: nowrap; }
form { margin: 0; }
button { font: inherit; font-weight: 600; color: var(--sheet); background: var(--act); border: 1px solid var(--act); border-radius: .4rem; padding: .45rem 1rem; cursor: pointer; min-height: 2.5rem; }
button:hover { filter: brightness(1.12); }
button:disabled { opacity: .55; cursor: progress; }
:focus-visible { outline: 3px solid var(--act); outline-offset: 2px; }
.quiet, footer { color: var(--soft); }
.empty { background: var(--sheet); border: 1px solid var(--line); border-radius: .5rem; padding: 2.5rem 1rem; text-align: center; color: var(--calm); font-size: 1.1rem; }
.error { background: var(--bad-ground); color: var(--bad); border: 1px solid var(--bad); border-radius: .5rem; padding: .7rem 1rem; font-weight: 600; }
.said { min-height: 1.45rem; margin: 0 0 .6rem; color: var(--soft); }
footer { display: flex; flex-wrap: wrap; gap: .5rem 2rem; justify-content: space-between; padding-top: 1rem; padding-bottom: 2rem; font-size: .9rem; }
input, select { font: inherit; color: inherit; background: var(--sheet); border: 1px solid var(--line); border-radius: .4rem; padding: .3rem .6rem; margin-left: .4rem; }
input[type="number"] { width: 5rem; }
[hidden] { display: none; }
.out { position: absolute; width: 1px; height: 1px; overflow: hidden; clip-path: inset(50%); }
@media (max-width: 44rem) {
  table, tbody { display: block; }
  table[hidden] { display: none; }
  thead { display: block; position: absolute; width: 1px; height: 1px; overflow: hidden; clip-path: inset(50%); }
  tr { display: grid; grid-template-columns: minmax(0, 1fr) auto; gap: .1rem .75rem; padding: .7rem 0; border-bottom: 1px solid var(--line); }
  tr td, tr.waits td:first-child, tr.seen td:first-child { border: 0; padding: .05rem .9rem; }
  tr.waits { box-shadow: inset .35rem 0 var(--bad); }
  tr.seen { box-shadow: inset .2rem 0 var(--seen); }
  td:nth-child(1) { grid-row: 1; grid-column: 1 / span 2; }
  td:nth-child(2) { grid-row: 2; grid-column: 1 / span 2; }
  td:nth-child(7) { grid-row: 3 / span 4; grid-column: 2; align-self: center; }
  td[data-label]::before { content: attr(data-label) ": "; color: var(--soft); }
  td:nth-child(3):empty { display: none; }
  td small.limit { display: inline; margin-left: .5rem; }
  .filter label { display: flex; width: 100%; align-items: center; justify-content: space-between; }
  .filter label.check { justify-content: flex-start; }
  .filter input[type="search"], .filter select { flex: 1; min-width: 0; }
  header { padding-top: .8rem; }
}
"""

SCRIPT = """
"use strict";
const at = (id) => document.getElementById(id);
const body = document.querySelector("tbody"), table = document.querySelector("table"), by = at("by"), form = at("filter");
const words = JSON.parse(document.body.dataset.words), STEP = 50;
const told = (text, ...of) => of.reduce((shown, it) => shown.replace("{}", it), text);
let show = STEP, have = "", age = null, last = Number(document.body.dataset.last), run = document.body.dataset.run, sounded = null, tone = null;
by.value = localStorage.getItem("by") || by.value;
by.addEventListener("change", () => localStorage.setItem("by", by.value.trim()));
const looked = () => localStorage.getItem("looked") || form.elements.looked.value;
for (const it of document.querySelectorAll(".script")) { it.style.display = "inline"; }
form.querySelector("button").hidden = true;
if (window.matchMedia("(min-width: 44rem)").matches) { at("choose").open = true; }

function rowOf(text) {
  const made = document.createElement("tbody");
  made.innerHTML = text;
  return made.firstElementChild;
}

// Puts new rows in the place of old ones. A row that is as it was stays, so that the focus stays on its button.
function showRows(rows) {
  const old = new Map([...body.children].map((row) => [row.dataset.object, row]));
  let before = null;
  for (const [object, text] of rows) {
    const had = old.get(object);
    let row = had;
    if (!had || had.source !== text) {
      row = rowOf(text);
      row.source = text;
      const focused = had && had.contains(document.activeElement);
      if (had) { had.replaceWith(row); }
      if (focused) { (row.querySelector("button") || document.querySelector("tbody button") || by).focus(); }
    }
    const next = before ? before.nextElementSibling : body.firstElementChild;
    if (row !== next) { body.insertBefore(row, next); }
    old.delete(object);
    before = row;
  }
  for (const row of old.values()) { row.remove(); }
}

function put(id, text) { if (at(id).source !== text) { at(id).innerHTML = text; at(id).source = text; } }

function showState(state) {
  showRows(state.rows);
  const [active, waiting] = state.counts;
  at("active").textContent = active;
  at("waiting").textContent = waiting;
  document.title = `(${waiting}) ${state.device || words.server}`;
  if (state.device) { document.querySelector("h1").textContent = state.device; }
  table.hidden = !state.rows.length;
  at("empty").hidden = state.rows.length > 0 || Boolean(state.told);
  at("empty").textContent = state.empty;
  at("shown").textContent = state.shown;
  at("more").hidden = !state.more;
  put("shelf", state.shelf);
  put("frequent", state.frequent);
  const chosen = at("class").value;
  if (document.activeElement !== at("class")) { put("class", state.classes); at("class").value = chosen; }
  last = state.last;
  run = state.run;
  ring(state.run, state.rings);
}

// A tone for each alarm that came since the last one and waits. It begins to be heard with the press that turned it on.
function ring(of, number) {
  const [had, before] = sounded || [of, number];
  sounded = [of, Math.max(number, had === of ? before : 0)];
  if (!tone || (had === of && number <= before)) { return; }
  document.body.dataset.rang = Number(document.body.dataset.rang || 0) + 1;
  for (const [place, high] of [880, 660, 880].entries()) {
    const sound = tone.createOscillator(), loud = tone.createGain();
    sound.frequency.value = high;
    loud.gain.value = 0.15;
    sound.connect(loud).connect(tone.destination);
    sound.start(tone.currentTime + 0.25 * place);
    sound.stop(tone.currentTime + 0.25 * place + 0.2);
  }
}

function tell(error) {
  at("error").hidden = !error;
  if (at("error").textContent !== (error || "")) { at("error").textContent = error || ""; }
}

function asked() {
  const fields = new URLSearchParams();
  for (const [name, value] of new FormData(form)) { if (value && name !== "looked") { fields.set(name, value); } }
  return fields;
}

let waits = false;
async function refresh() {
  if (waits) { return; }
  waits = true;
  const fields = asked();
  fields.set("looked", looked());
  fields.set("show", show);
  fields.set("have", have);
  try {
    const state = await (await fetch("/alarms.json?" + fields)).json();
    age = state.age;
    if (!state.same) { have = state.have; showState(state); }
    tell(state.told);
  } catch (error) {
    tell(words.gone);
  }
  waits = false;
  tellAge();
}

function tellAge() { at("age").textContent = age === null ? words.notYet : told(words.ago, Math.round(age)); }

document.addEventListener("submit", async (event) => {
  event.preventDefault();
  const sent = event.target;
  if (sent === form) { refresh(); return; }
  const button = sent.querySelector("button"), fields = new URLSearchParams(new FormData(sent));
  fields.set("by", by.value.trim());
  fields.set("language", document.documentElement.lang);
  button.disabled = true;
  try {
    const answer = await fetch("/acknowledge", { method: "POST", body: fields, headers: { Accept: "application/json" } });
    at("said").textContent = answer.ok ? (await answer.json()).said : await answer.text();
  } catch (error) {
    at("said").textContent = words.unknown;
  }
  button.disabled = false;
  refresh();
});
form.addEventListener("input", () => { show = STEP; const fields = asked(); history.replaceState(null, "", fields.size ? "/?" + fields : "/"); refresh(); });
at("more").addEventListener("click", (event) => { event.preventDefault(); show += STEP; refresh(); });
at("looked").addEventListener("click", (event) => { event.preventDefault(); localStorage.setItem("looked", `${run}-${last}`); refresh(); });
at("sound").addEventListener("change", () => {
  if (tone) { tone.close(); }
  tone = at("sound").checked ? new AudioContext() : null;
});
const begun = asked();
history.replaceState(null, "", begun.size ? "/?" + begun : "/");
refresh();
setInterval(refresh, 2000);
setInterval(() => { if (age !== null) { age += 1; tellAge(); } }, 1000);
"""
