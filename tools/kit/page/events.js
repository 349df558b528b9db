"use strict";
// The list of entries with its filters. Only the rows that are seen are made, so that 60,000 entries scroll well.

const HIGH = 20;
const KINDS = {  // the replies that belong to a kind
  frames: ["accepted"], uploads: ["stored"], refused: ["refused"], "begin-frames": ["ticked", "began", "noted", "ended", "over"],
  draws: ["drawn", "unchanged", "noroot", "toomuch", "busy", "shown", "nothing"], returns: ["reclaimed"],
  others: ["rooted", "joined", "left"],
};

const filter = {
  clients: new Set(), kinds: new Set(Object.keys(KINDS)), text: "", found: null,

  passes(e) {
    if (!this.clients.has(clientOf[e])) return false;
    if (!this.replies.has(replies[e])) return false;
    return !this.text || (lines[e] + " " + sentences[e]).toLowerCase().includes(this.text);
  },

  update() {
    this.replies = new Set([...this.kinds].flatMap(kind => KINDS[kind]));
    const all = this.clients.size === run.names.length + 1 && this.kinds.size === Object.keys(KINDS).length && !this.text;
    $("filter-all").hidden = all;
    this.found = [];
    this.mask = all ? null : new Uint8Array(lines.length);
    for (let e = 0; e < lines.length; e++) {
      if (!all && !this.passes(e)) continue;
      this.found.push(e);
      if (!all) this.mask[e] = 1;
    }
  },

  dims(e) { return this.mask !== null && !this.mask[e]; },

  // lets all entries pass again
  reset() {
    [0, ...run.names.keys()].forEach((_, number) => this.clients.add(number));
    Object.keys(KINDS).forEach(kind => this.kinds.add(kind));
    this.text = $("search").value = "";
    marks.forEach(mark => mark());
    refilter();
  },

  // the next entry that passes, from an entry on
  next(e, by) {
    let low = 0, high = this.found.length;
    while (low < high) {
      const middle = (low + high) >> 1;
      if (by > 0 ? this.found[middle] <= e : this.found[middle] < e) low = middle + 1; else high = middle;
    }
    const place = by > 0 ? low : low - 1;
    return place >= 0 && place < this.found.length ? this.found[place] : e;
  },
};

const events = {
  start() {
    const chips = $("chips");
    [0, ...run.names.keys()].forEach((_, number) => {
      filter.clients.add(number);
      chips.append(chip(number ? run.names[number - 1] : "display", filter.clients, number, number ? clientColour(number) : null));
    });
    chips.append(element("span", "gap"));
    Object.keys(KINDS).forEach(kind => chips.append(chip(kind, filter.kinds, kind, null)));
    $("filter-all").addEventListener("click", () => filter.reset());
    $("search").addEventListener("input", () => { filter.text = $("search").value.trim().toLowerCase(); refilter(); });
    $("list").addEventListener("scroll", () => this.rows());
    filter.update();
  },

  paint() {
    $("count").textContent = filter.found.length.toLocaleString("en") + " of " + lines.length.toLocaleString("en") + " entries";
    $("spacer").style.height = filter.found.length * HIGH + "px";
    this.show();
    this.rows();
  },

  // scrolls so that the entry is seen
  show() {
    const list = $("list"), place = filter.found.indexOf(now.entry), y = place * HIGH;
    if (place >= 0 && (y < list.scrollTop || y > list.scrollTop + list.clientHeight - HIGH))
      list.scrollTop = y - list.clientHeight / 2;
  },

  rows() {
    const list = $("list"), first = Math.max(0, Math.floor(list.scrollTop / HIGH) - 4), made = [];
    for (let k = first; k < Math.min(filter.found.length, first + Math.ceil(list.clientHeight / HIGH) + 8); k++) {
      const e = filter.found[k], line = element("div", "entry" + (e === now.entry ? " current" : ""));
      line.style.top = k * HIGH + "px";
      line.append(element("span", "number", e + 1), who(e), element("span", "code", lines[e].slice(lines[e].indexOf(" ") + 1)));
      line.title = sentences[e];
      line.addEventListener("click", () => goTo(e));
      made.push(line);
    }
    if (!filter.found.length) made.push(note("No entry passes the filter."));
    $("rows").replaceChildren(...made);
  },
};

function who(e) {
  if (clientOf[e]) return client(clientOf[e]);
  return element("span", "event " + lines[e].slice(0, lines[e].indexOf(" ")), lines[e].slice(0, lines[e].indexOf(" ")));
}

const marks = [];             // for each button of the filter, what shows whether it is on

// a button that puts a value into a set and takes it out; a double click leaves that value alone
function chip(text, set, value, own) {
  const made = element("button", "chip on", text);
  made.type = "button";
  made.title = "on or off; twice: " + text + " alone";
  if (own) made.style.setProperty("--own", own);
  made.addEventListener("click", event => {
    if (event.detail === 2) { set.clear(); set.add(value); } else if (!set.delete(value)) set.add(value);
    marks.forEach(mark => mark());
    refilter();
  });
  marks.push(() => {
    made.classList.toggle("on", set.has(value));
    made.setAttribute("aria-pressed", String(set.has(value)));
  });
  marks.at(-1)();
  return made;
}

function refilter() {
  filter.update();
  events.paint();
  timeline.paint();
}
