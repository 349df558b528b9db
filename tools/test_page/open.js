"use strict";
// Opens a page that `tools/view` made, without a browser: its elements are those of `dom.js`, its script runs here.

const fs = require("fs");
const vm = require("vm");
const { Element, Node, parse } = require("./dom.js");

// the page's elements by their ids, its `html` element, and `ready`, which calls back when the script has shown the run
function open(name, width, height = 420) {
  const page = parse(fs.readFileSync(name, "utf-8"));
  const html = page.root.children.find(one => one.tagName === "HTML");
  const style = html.children[0].children.find(one => one.tagName === "STYLE").own, colours = {};
  for (const [, key, value] of style.slice(0, style.indexOf("}")).matchAll(/(--[a-z-]+): (#[0-9a-f]+)/g)) colours[key] = value;
  const window = new Element("window");
  Object.assign(window, { devicePixelRatio: 1, innerWidth: width, matchMedia: () => ({ matches: false, addEventListener() {} }) });
  const document = {
    documentElement: html, body: html.children.find(one => one.tagName === "BODY"), createElement: kind => new Element(kind),
    getElementById: id => { if (!page.byId[id]) throw new Error("no element " + id); return page.byId[id]; },
    querySelectorAll: () => [],
  };
  document.body.parentElement = window;
  html.scrollWidth = width;
  page.byId.well.clientWidth = Math.round(width * 0.57);
  page.byId.well.clientHeight = height;
  page.byId.times.clientWidth = width;
  page.byId.list.clientHeight = 300;
  Object.assign(globalThis, {
    document, window, Node, location: { hash: "" },
    getComputedStyle: () => ({ getPropertyValue: key => { if (!colours[key]) throw new Error("no colour " + key); return colours[key]; } }),
    ResizeObserver: class { constructor(act) { this.act = act; } observe() { this.act(); } },
    KeyboardEvent: class { constructor(type, rest) { Object.assign(this, { type, shiftKey: false }, rest); } },
    Event: class { constructor(type) { this.type = type; } },
  });
  page.scripts.forEach(script => vm.runInThisContext(script, { filename: "page.js" }));
  const ready = then => html.dataset.ready === "yes" ? then() : setTimeout(ready, 5, then);
  return { byId: page.byId, html, window, ready };
}

module.exports = { open };
