"use strict";
// The tabs at the right: why a frame was repainted, surfaces, quads, clients. `events.js` has the list of entries.

const panels = {
  quadsRows: [],

  paint() {
    pin(null);
    ({ repaint: () => this.repaint(), surfaces: () => this.surfaces(), quads: () => this.quads(),
       clients: () => this.clients(), events: () => events.paint(), chromium: () => chromium.panel() })[now.tab]();
  },

  // ---------------------------------------------------------------- why the frame was repainted

  repaint() {
    const box = $("repaint"), place = lastAt(run.draws, now.entry);
    if (place < 0) { box.replaceChildren(note("No Draw came up to this entry.")); return; }
    const [at, reply, rect, claims, items] = run.draws[place], parts = [];
    parts.push(heading("Draw at entry " + (at + 1), reply));
    if (reply !== "drawn") parts.push(note(WHY_NOT[reply]));
    if (reply === "drawn") this.claims(parts, rect, claims, items);
    if (reply !== "drawn" && now.frame >= 0) {
      const drawn = run.drawn[now.frame];
      parts.push(heading("On the screen: frame " + (now.frame + 1), "drawn at entry " + (drawn[0] + 1)));
      this.claims(parts, drawn[2], drawn[3], drawn[4]);
    }
    box.replaceChildren(...parts);
  },

  claims(parts, rect, claims, [kept, gone]) {
    const [w, h] = run.size, n = run.drawn.findIndex(draw => draw[2] === rect), stale = run.stale[n];
    const share = r => (100 * r[2] * r[3] / (w * h)).toFixed(1) + " % of the display";
    parts.push(table(["", "claim", "rectangle"], claims.map(([kind, said, area]) =>
      hot(row([swatch(null, "claim-" + kind), element("span", "long", said), element("span", "code", rectText(area))]), area)).concat([
      heads(["", "together", "rectangle"]),
      hot(row([swatch(null, "damage"), "damage: the smallest rectangle round the claims, " + share(rect),
        element("span", "code", rectText(rect))]), rect),
      hot(row([swatch(null, "stale"), "painted again in buffer " + (n % run.buffers + 1) + " of " + run.buffers + ": " +
        (n < run.buffers ? "its first use" : "the damages since its last use, frames " + (n - run.buffers + 2) + " to " + (n + 1)) +
        ", " + share(stale), element("span", "code", rectText(stale))]), stale)])));
    parts.push(note(kept + (kept === 1 ? " item is painted" : " items are painted") + (gone === 0 ? "; none was removed." :
      ", and " + gone + (gone === 1 ? " was" : " were") + " removed before, wholly behind an opaque one.")));
  },

  // ---------------------------------------------------------------- surfaces

  surfaces() {
    const state = now.state, why = reasons(state), parts = [heading("What can be seen", "at entry " + (now.entry + 1))];
    const list = now.walk.list.filter(item => item.kind === "surface" || item.quad[6] === "surface");
    if (!list.length) parts.push(note(state.root ? "The root, " + idName(state.root) + ", has no active frame." : "No client set the root."));
    const rows = [];
    list.forEach(item => { if (item.kind === "surface" && !item.quad) rows.push(this.branch(item, 0, "root")); else
      if (item.kind === "quad") rows.push(this.embedded(item, state)); });
    if (rows.length) parts.push(table(["range", "shows", "where"], rows));
    parts.push(heading("Surfaces that exist", state.alive.length));
    parts.push(table(["surface", "size", "frames", "alive because"], state.alive.map(place => this.alive(place, state, why.get(place)))));
    box("surfaces", parts);
  },

  branch(item, depth, said) {
    const surface = run.surfaces[item.surface];
    return hot(row([indent(depth, said), named(item.surface), element("span", "code", rectText(item.rect))]), item.rect);
  },

  embedded(item, state) {
    const said = { background: "no surface: background " + colourText(item.background), cycle: "itself: nothing",
      absent: "nothing outside it", gutter: "gutter " + colourText(item.background) + " outside it" }[item.how];
    const shows = element("span");
    if (item.shown >= 0) shows.append(named(item.shown));
    if (said) shows.append(element("span", "badge " + item.how, said));
    return hot(row([indent(item.depth, rangeName(item.range)), shows, element("span", "code", rectText(item.rect))]), item.rect);
  },

  alive(place, state, why) {
    const surface = run.surfaces[place], sub = state.active.get(place);
    const waits = state.waiting.filter(one => run.subs[one][SURFACE] === place);
    const shows = [sub === undefined ? "none active" : "frame " + run.subs[sub][ORDINAL]];
    waits.forEach(one => shows.push("frame " + run.subs[one][ORDINAL] + " waits"));
    return row([named(place), element("span", "tight", surface[S_W] + " × " + surface[S_H]), shows.join(", "), element("span", "long", why.join("; "))]);
  },

  // ---------------------------------------------------------------- quads

  quads() {
    const { list, cut } = now.walk, count = list.filter(item => item.kind === "quad").length + (cut ? " and more" : "");
    const parts = [heading("Quads, front to back", count + ", at entry " + (now.entry + 1))];
    const rows = list.map(item => {
      if (item.kind === "surface") {
        const line = row([indent(item.depth, run.surfaces[item.surface][S_NAME], "long strong"),
          "frame " + run.subs[item.sub][ORDINAL], element("span", "code", rectText(item.rect))]);
        return hot(line, item.rect);
      }
      const kind = item.quad[6], given = item.quad[7];
      const what = element("span", "long");
      if (kind === "solid") what.append(swatch(given[0]));
      what.append(quadText(item));
      const line = hot(row([indent(item.depth, (item.root ? "" : "pass " + item.pass + ", ") + "quad " + item.place, "tight"), what,
        element("span", "code" + (item.rect[2] ? "" : " dim"), item.rect[2] ? rectText(item.rect) : "not seen")]), item.rect);
      return line;
    });
    parts.push(table(["", "what", "seen"], rows));
    box("quads", parts);
    this.quadsRows = rows;
  },

  // ---------------------------------------------------------------- clients

  clients() {
    const e = now.entry, attached = attachedAt(e), parts = [heading("Who is late", "begin-frame " + tickAt(e))];
    parts.push(table(["client", "begin-frame", "answered", "late by", "waiting frames"], run.names.map((name, k) => {
      const got = lateness(k + 1, e);
      const waiting = now.state.waiting.filter(sub => run.subs[sub][CLIENT] === k + 1);
      const pending = got.pending ? got.pending + ", not taken since entry " + (got.since + 1) : attached[k] ? "taken" : "not attached";
      return row([client(k + 1), got.closed ? "closed" : pending, got.answered || "none",
        got.late > 0 ? element("span", "badge late", got.late + (got.late === 1 ? " tick" : " ticks")) : "",
        waiting.length ? this.waits(waiting, e) : ""]);
    })));
    run.names.forEach((name, k) => this.resources(parts, k + 1, e));
    box("clients", parts);
  },

  waits(waiting, e) {
    const said = element("div");
    waiting.forEach(sub => {
      const left = run.subs[sub][DUE] - tickAt(e);
      said.append(element("div", "", "frame " + run.subs[sub][ORDINAL] + " for " + unmet(sub, e).map(idName).join(", ") +
        ", at most " + left + (left === 1 ? " tick" : " ticks")));
    });
    return said;
  },

  resources(parts, number, e) {
    const got = [...resourcesAt(number, e)].filter(([, numbers]) => numbers[2] > numbers[4]);
    if (!got.length) return;
    const lent = got.reduce((sum, [, n]) => sum + n[2] - n[3], 0), queued = got.reduce((sum, [, n]) => sum + n[3] - n[4], 0);
    parts.push(heading("Resources of " + run.names[number - 1], lent + " references lent, " + queued + " queued"));
    parts.push(table(["resource", "size", "lent", "queued for reclaim"], got.sort((a, b) => a[0] - b[0]).map(([id, n]) =>
      row([id, n[0] + " × " + n[1], n[2] - n[3] || "", n[3] - n[4] || ""]))));
  },
};

const WHY_NOT = {
  unchanged: "The display does not draw: nothing changed since the last drawing, so there is no claim.",
  busy: "The display does not draw: the last frame is still in flight.",
  noroot: "The display does not draw: the root has no active frame.",
  toomuch: "The display does not draw: the tree is over a limit.",
};

// ---------------------------------------------------------------- parts of a page

function box(id, parts) {
  const at = $(id).scrollTop;
  $(id).replaceChildren(...parts);
  $(id).scrollTop = at;
}

function element(kind, name = "", text = null) {
  const made = document.createElement(kind);
  if (name) made.className = name;
  if (text !== null && text !== undefined) made.textContent = String(text);
  return made;
}

function heading(text, more) {
  const made = element("h3", "", text);
  made.append(element("span", "dim", more));
  return made;
}

function note(text) {
  return element("p", "note", text);
}

function row(cells) {
  const made = element("tr");
  cells.forEach(cell => {
    const td = element("td");
    td.append(cell instanceof Node ? cell : String(cell));
    made.append(td);
  });
  return made;
}

function heads(texts) {
  const made = element("tr");
  texts.forEach(text => made.append(element("th", "", text)));
  return made;
}

function table(texts, rows) {
  const made = element("table"), body = element("tbody");
  body.append(heads(texts), ...rows);
  made.append(body);
  return made;
}

// a row that marks a rectangle on the frame while the cursor is on it; a click keeps the mark
function hot(line, rect) {
  line.classList.add("hot");
  line.rect = rect;
  line.addEventListener("pointerenter", () => { view.hot = rect; view.paint(); });
  line.addEventListener("pointerleave", () => { view.hot = null; view.paint(); });
  line.addEventListener("click", () => pin(line === pinned ? null : line));
  return line;
}

let pinned = null;            // the row whose rectangle is marked on the frame

function pin(line) {
  if (pinned) pinned.classList.remove("marked");
  const before = pinned;
  pinned = line;
  view.pinned = line ? line.rect : null;
  if (line) { line.classList.add("marked"); line.scrollIntoView({ block: "nearest" }); }
  if (line !== before) view.paint();
}

// keeps the mark of the next row of the tab, or of the one before
function pinNext(by) {
  if (now.tab === "events") { goTo(filter.next(now.entry, by)); return; }
  const rows = [...document.querySelectorAll("#panel-" + now.tab + " tr.hot")];
  const place = rows.indexOf(pinned), next = place < 0 ? (by > 0 ? 0 : rows.length - 1) : place + by;
  if (rows[next]) pin(rows[next]);
}

function indent(depth, text, name = "long") {
  const made = element("span", name, text);
  made.style.paddingLeft = Math.min(depth, 12) * 14 + "px";
  return made;
}

function swatch(colour, name = "") {
  const made = element("span", "swatch " + name);
  if (colour) made.style.background = "rgba(" + straight(colour).join(",") + ")";
  return made;
}

function straight([r, g, b, a]) {
  const part = c => a ? Math.min(255, Math.round(c * 255 / a)) : 0;
  return [part(r), part(g), part(b), (a / 255).toFixed(3)];
}

function named(place) {
  const made = element("span", "name", run.surfaces[place][S_NAME]);
  made.style.setProperty("--own", clientColour(run.surfaces[place][S_CLIENT]));
  return made;
}

function client(number) {
  const made = element("span", "name", run.names[number - 1]);
  made.style.setProperty("--own", clientColour(number));
  return made;
}
