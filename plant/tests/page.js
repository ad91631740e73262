// Runs what examples/live/watch.js tells of breaks, with stand-ins for a browser's parts. Prints a JSON line: what the page shows at
// each step, a row's ID, word and look.
"use strict";
const fs = require("fs"), vm = require("vm");
const ids = {};
function element() {
  return { textContent: "", className: "", rows: [], classList: { toggle() {} }, dataset: {}, style: {}, append(...it) { this.rows.push(...it); },
    replaceChildren(...it) { this.rows = it; }, addEventListener() {} };
}
const page = { getElementById: (id) => (ids[id] ??= element()), createElement: element, querySelectorAll: () => [], addEventListener() {} };
const context = vm.createContext({ URLSearchParams, URL, performance, location: { search: "", origin: "http://127.0.0.1:1", hostname: "127.0.0.1" }, document: page,
  OffscreenCanvas: class { getContext() { return {}; } } });
const source = fs.readFileSync(process.argv[2], "utf8").replace(/\nmain\(\);\s*$/, "\n");
vm.runInContext(`${source}\nglobalThis.tell = tellWhy; globalThis.put = (it) => { renditions = it; };`, context);
const [one, two] = ["a", "b"].map((name) => ({ name, why: new Map(), faults: {}, breaks: new Map() }));
const found = [];
context.put([one, two]);
for (const [seconds, first, second] of JSON.parse(process.argv[3])) {
  one.why = new Map(Object.entries(first));
  two.why = new Map(Object.entries(second));
  context.tell(seconds * 1000);
  found.push(ids.why.rows.map((row) => row.rows.slice(0, 2).map((it) => it.textContent).concat(row.rows[1].className)));
}
console.log(JSON.stringify(found));
