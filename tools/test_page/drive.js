"use strict";
// Runs a page that `tools/view` made, without a browser, and prints what it shows:
//   node drive.js PAGE WIDTH WORD..
// A word is a key (`ArrowRight`), `click:ID`, `type:TEXT` into the search, `ask:EXPRESSION` of the page's script (prints its
// value), or `png:ID:FILE` (writes a canvas). Each prints a line; an error ends it with status 1.

const fs = require("fs");
const vm = require("vm");
const { open } = require("./open.js");

const [, , name, width, ...words] = process.argv;
process.on("unhandledRejection", error => { console.log("error: " + error.stack); process.exit(1); });
const page = open(name, Number(width));

function act(word) {
  const [kind, ...rest] = word.split(":"), value = rest.join(":");
  if (kind === "click") page.byId[value].send("click");
  else if (kind === "type") { page.byId.search.value = value; page.byId.search.send("input"); }
  else if (kind === "ask") return JSON.stringify(vm.runInThisContext(value));
  else if (kind === "png") { fs.writeFileSync(rest.slice(1).join(":"), page.byId[rest[0]].getContext().png()); return "written"; }
  else page.window.send("keydown", { key: word, target: page.html, shiftKey: false });
  return vm.runInThisContext("[now.entry + 1, now.frame + 1, now.tab].join(' ')");
}

page.ready(() => {
  try {
    words.forEach(word => console.log(act(word)));
  } catch (error) {
    console.log("error: " + error.stack);
    process.exit(1);
  }
});
