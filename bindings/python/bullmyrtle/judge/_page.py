"""What each report begins with, and the script by which its messages are filtered."""

# (nothing is loaded from anywhere: the policy forbids it, too)
HEAD = """<!DOCTYPE html>
<html lang="en">
<head>
<meta charset="utf-8">
<meta name="viewport" content="width=device-width, initial-scale=1">
<meta name="color-scheme" content="light dark">
<meta http-equiv="Content-Security-Policy"
  content="default-src 'none'; style-src 'unsafe-inline'; script-src 'unsafe-inline'">
<title>TITLE</title>
<style>
:root {
  --back: #ffffff; --text: #1c1c20; --dim: #55555e; --line: #c9c9d2; --link: #0b50b0;
  --client: #eaf2fd; --server: #eef7ec; --client-edge: #2f6fc4; --server-edge: #35803a;
  --must: #b3121d; --should: #8a5300; --note: #4d4d57; --mark: #fff3c4;
}
@media (prefers-color-scheme: dark) {
  :root {
    --back: #16171b; --text: #e9e9ee; --dim: #a9a9b6; --line: #41424d; --link: #8ab8ff;
    --client: #1b2636; --server: #1b2b1f; --client-edge: #6ea4f0; --server-edge: #6cc274;
    --must: #ff8a8f; --should: #f0b860; --note: #b9b9c6; --mark: #3a340c;
  }
}
* { box-sizing: border-box; }
body { margin: 0 auto; max-width: 90rem; padding: 1rem; background: var(--back); color: var(--text);
  font: 1rem/1.45 system-ui, sans-serif; }
h1 { font-size: 1.5rem; margin: 0; overflow-wrap: anywhere; } h2 { font-size: 1.2rem; margin: 1.5rem 0 .5rem; }
a { color: var(--link); } small, .who, i, .part span { color: var(--dim); }
:focus-visible { outline: 3px solid var(--link); outline-offset: 2px; }
.skip:not(:focus) { position: absolute; left: -99rem; }
dl { display: grid; grid-template-columns: max-content 1fr; gap: .1rem 1rem; margin: 0; }
dt { color: var(--dim); } dd { margin: 0; }
table { border-collapse: collapse; margin: .75rem 0; width: 100%; }
caption { text-align: left; color: var(--dim); }
th, td { border-bottom: 1px solid var(--line); padding: .2rem .75rem .2rem 0; text-align: left; vertical-align: top;
  font-weight: normal; overflow-wrap: break-word; } td small, tbody th { overflow-wrap: anywhere; }
td code, b.must, b.should, b.note { white-space: nowrap; }
thead th { color: var(--dim); }
b.must, b.should, b.note { border: 1px solid; border-radius: .3rem; padding: 0 .35rem; font-size: .85rem; }
b.must { color: var(--must); } b.should { color: var(--should); } b.note { color: var(--note); }
form { display: flex; flex-wrap: wrap; gap: .5rem 1.5rem; align-items: center; position: sticky; top: 0; z-index: 1;
  background: var(--back); padding: .5rem 0; border-bottom: 1px solid var(--line); }
form[hidden] { display: none; }
select { max-width: 24rem; font: inherit; } fieldset { border: 0; padding: 0; margin: 0; display: flex; gap: .75rem; }
legend { float: left; padding: 0 .5rem 0 0; }
.sides, .part li { display: grid; grid-template-columns: minmax(0, 1fr) 7rem minmax(0, 1fr); }
.part { list-style: none; margin: 0; padding: 0; content-visibility: auto; contain-intrinsic-size: auto 340rem; }
.part.few { contain-intrinsic-size: auto 0; } .part li { padding: .15rem 0; } .part li[hidden] { display: none; }
li > i { grid-column: 2; grid-row: 1; text-align: center; font-style: normal; font-size: .85rem; padding-top: .3rem;
  border-inline: 1px solid var(--line); }
li > div { grid-row: 1; border-radius: .4rem; padding: .25rem .6rem; overflow-wrap: anywhere; }
.c > div { grid-column: 1; background: var(--client); border-right: 4px solid var(--client-edge); }
.s > div { grid-column: 3; background: var(--server); border-left: 4px solid var(--server-edge); }
.c > i::after { content: " \\2192"; } .s > i::before { content: "\\2190  "; }
li:target > div, li.pair > div { background: var(--mark); }
summary { cursor: pointer; } p.links, p.found { margin: .1rem 0; font-size: .9rem; }
pre { margin: .3rem 0; white-space: pre-wrap; overflow-wrap: anywhere; font-size: .85rem; }
@media (max-width: 45rem) {
  table { font-size: .8rem; } th, td { padding-right: .4rem; } .findings { font-size: 1rem; }
  .findings thead { position: absolute; left: -99rem; } .findings tr { display: block; padding: .4rem 0; }
  .findings td { display: inline; border: 0; padding-right: .5rem; } .findings td:last-child { display: block; }
  .findings tr { border-bottom: 1px solid var(--line); }
  .sides { display: none; } .part li { grid-template-columns: minmax(0, 1fr); }
  li > i { grid-column: 1; grid-row: 1; border: 0; text-align: left; } li > div { grid-row: 2; grid-column: 1 !important; }
}
@media print { form { display: none !important; } .part { content-visibility: visible; } }
</style>
</head>
<body>
"""

SCRIPT = """
"use strict";
const form = document.getElementById("filters"), rows = [...document.querySelectorAll(".part > li")];
function filter() {
  const method = form.elements.method.value, side = form.elements.side.value, found = form.elements.found.checked;
  let count = 0;
  for (const it of rows) {
    const isShown = (method === "" || it.dataset.m === method) && (side === "" || it.className[0] === side)
      && (!found || "f" in it.dataset);
    it.hidden = !isShown;
    count += isShown;
  }
  for (const it of document.querySelectorAll(".part")) it.classList.toggle("few", count < rows.length);
  form.elements.count.value = count + " of " + rows.length + " messages";
}
form.hidden = false;
form.addEventListener("change", filter);
form.addEventListener("submit", (it) => it.preventDefault());
filter();
let pairs = [];
function pair(event) {
  for (const it of pairs) it.classList.remove("pair");
  const row = event.target.closest(".part > li");
  pairs = row ? [...row.querySelectorAll(".links a")].map((it) => document.querySelector(it.hash)).filter(Boolean) : [];
  for (const it of pairs) it.classList.add("pair");
}
document.addEventListener("focusin", pair);
document.addEventListener("pointerover", pair);
// A link leads to a message, whether the filters show it or not. (Then the browser itself gives it the focus.)
document.addEventListener("click", (event) => {
  const link = event.target.closest('a[href^="#"]'), row = link && document.querySelector(link.hash);
  if (row && row.hidden) { form.reset(); filter(); }
});
"""
