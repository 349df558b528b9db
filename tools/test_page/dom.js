"use strict";
// As much of a document as the page's script uses, for `drive.js`: elements with texts, classes, listeners and no layout.

const { Context } = require("./canvas.js");

class Node {}

class Element extends Node {
  constructor(kind) {
    super();
    Object.assign(this, { tagName: kind.toUpperCase(), children: [], own: "", attributes: {}, listeners: {}, dataset: {}, parentElement: null,
      hidden: false, scrollTop: 0, value: "", clientWidth: 640, clientHeight: 400 });
    this.style = { setProperty() {} };
    const names = () => new Set((this.attributes.class || "").split(" ").filter(Boolean));
    this.classList = {
      add: name => { this.attributes.class = [...names().add(name)].join(" "); },
      contains: name => names().has(name),
      toggle: (name, on) => {
        const all = names();
        if (on) all.add(name); else all.delete(name);
        this.attributes.class = [...all].join(" ");
      },
    };
  }
  get className() { return this.attributes.class || ""; }
  set className(name) { this.attributes.class = name; }
  get textContent() { return this.own + this.children.map(child => child.textContent).join(""); }
  set textContent(text) { this.children = []; this.own = String(text); }
  append(...parts) {
    for (const part of parts) {
      if (part instanceof Element) { part.parentElement = this; this.children.push(part); continue; }
      const text = new Element("#text");
      text.own = String(part);
      this.children.push(text);
    }
  }
  replaceChildren(...parts) { this.children = []; this.own = ""; this.append(...parts); }
  setAttribute(name, value) { this.attributes[name] = value; }
  getAttribute(name) { return this.attributes[name]; }
  addEventListener(name, act) { (this.listeners[name] = this.listeners[name] || []).push(act); }
  removeEventListener(name, act) { this.listeners[name] = (this.listeners[name] || []).filter(one => one !== act); }
  send(name, event = {}) {
    for (const act of [...this.listeners[name] || []]) act({ target: this, preventDefault() {}, deltaX: 0, ...event });
  }
  dispatchEvent(event) {
    this.send(event.type, { ...event, target: this });
    if (event.bubbles && this.parentElement) this.parentElement.send(event.type, { ...event, target: this });
  }
  click() { this.send("click"); }
  getBoundingClientRect() { return { left: 0, top: 0 }; }
  getContext() { return this.context = this.context || new Context(this); }
  scrollIntoView() {}
  focus() { this.focused = true; }
  blur() { this.focused = false; }
}

// the elements of a page's text, which closes all its tags but those of `SINGLE`
const SINGLE = new Set(["meta", "link", "input", "!doctype"]);

function parse(text) {
  const root = new Element("root"), byId = {}, scripts = [];
  let at = root;
  const tag = /<(\/?)([!a-z0-9]+)((?:"[^"]*"|[^>"])*)>|([^<]+)/gi;
  for (let found; (found = tag.exec(text));) {
    const [, closing, name, rest, words] = found;
    if (words !== undefined) { if (words.trim()) at.own += words; continue; }
    if (closing) { at = at.parentElement; continue; }
    const made = new Element(name);
    for (const [, key, value] of rest.matchAll(/([a-z-]+)(?:="([^"]*)")?/g)) made.attributes[key] = value || "";
    made.hidden = "hidden" in made.attributes;
    made.type = made.attributes.type || "";
    if (made.attributes.id) byId[made.attributes.id] = made;
    made.parentElement = at;
    at.children.push(made);
    if (name === "script" || name === "style") {
      const end = text.indexOf("</" + name, tag.lastIndex);
      made.own = text.slice(tag.lastIndex, end);
      if (name === "script" && !made.type) scripts.push(made.own);
      tag.lastIndex = text.indexOf(">", end) + 1;
    } else if (!SINGLE.has(name.toLowerCase())) {
      at = made;
    }
  }
  if (at !== root) throw new Error("an element of the page is not closed: " + at.tagName);
  return { root, byId, scripts };
}

module.exports = { Element, Node, parse };
