"use strict";
// The walk through what can be seen, as tools/kit/walk.py has it: quads front to back with their parts of the display.

const EMPTY = [0, 0, 0, 0], MOST_SHOWN = 4000, DEEPEST = 64;
const MODES = ["over", "src", "dstin"];

function sides(x, y, w, h) {
  return w > 0 && h > 0 ? [x, y, w, h] : EMPTY;
}

function meet(a, b) {
  const x = Math.max(a[0], b[0]), y = Math.max(a[1], b[1]);
  return sides(x, y, Math.min(a[0] + a[2], b[0] + b[2]) - x, Math.min(a[1] + a[3], b[1] + b[3]) - y);
}

function moved(r, x, y) {
  return sides(r[0] + x, r[1] + y, r[2], r[3]);
}

function holds(r, x, y) {
  return x >= r[0] && y >= r[1] && x < r[0] + r[2] && y < r[1] + r[3];
}

// the items of the walk: {kind: "surface" or "quad", depth, rect: what is seen, ..}; at most MOST_SHOWN
function walk(state) {
  const items = { list: [], cut: false };
  const root = state.root && state.byId.get(state.root.join());
  if (root === undefined || root === null || !state.active.has(root)) return items;
  enter(state, items, [], root, 0, 0, [0, 0, ...run.size], null);
  return items;
}

function enter(state, items, path, surface, x, y, window, quad) {
  const sub = state.active.get(surface), passes = run.contents[run.subs[sub][CONTENT]][0];
  const [, , w, h] = run.surfaces[surface];
  put(items, { kind: "surface", depth: path.length, surface, sub, quad, rect: meet(window, sides(x, y, w, h)) });
  if (path.length + 1 >= DEEPEST) { items.cut = true; return; }
  const at = { state, items, path: [...path, surface], surface, sub, passes };
  pass(at, passes.length - 1, x, y, window, 0);
}

function put(items, item) {
  if (items.list.length < MOST_SHOWN) items.list.push(item); else items.cut = true;
}

function pass(at, number, x, y, window, inner) {
  const [id, output, , quads] = at.passes[number];
  window = meet(window, moved(output, x, y));
  quads.forEach((quad, place) => {
    if (at.items.cut) return;
    const [offset, area, visible, clip, , , kind, given] = quad;
    const qx = x + offset[0], qy = y + offset[1];
    let rect = meet(window, moved(visible || area, qx, qy));
    if (clip) rect = meet(rect, moved(clip, x, y));
    const item = { kind: "quad", depth: at.path.length + inner, rect, quad, place: place + 1, pass: id, root: inner === 0,
      surface: at.surface, sub: at.sub };
    put(at.items, item);
    if (kind === "pass") {
      const inside = at.passes.findIndex(one => one[0] === given[0]);
      const corner = at.passes[inside][1];
      pass(at, inside, qx + area[0] - corner[0], qy + area[1] - corner[1], rect, inner + 1);
    } else if (kind === "surface") {
      embed(at, item, qx + area[0], qy + area[1]);
    }
  });
}

// what a surface quad shows: a surface (with a gutter, or with nothing, outside its size), or its background
function embed(at, item, x, y) {
  const [range, background] = item.quad[7];
  const place = shown(at.state, range);
  item.range = range;
  item.background = background;
  item.shown = place;
  item.how = "content";
  if (place < 0) { item.how = "background"; return; }
  if (at.path.includes(place)) { item.how = "cycle"; return; }
  const surface = run.surfaces[place], size = [x, y, surface[S_W], surface[S_H]];
  const outside = meet(item.rect, size).join() !== item.rect.join();
  item.inside = size;
  if (outside) item.how = sameId(surface[S_ID], range[1]) ? "absent" : "gutter";
  enter(at.state, at.items, at.path, place, x, y, item.rect, item);
}

// whether a quad paints a pixel itself: an embedding does only where its surface is not
function paints(item, x, y) {
  if (item.kind !== "quad" || !holds(item.rect, x, y)) return false;
  if (item.quad[6] !== "surface") return item.quad[6] !== "pass";
  return item.how === "background" || item.how === "gutter" && !holds(item.inside, x, y);
}

function colourText(c) {
  const hex = c.map(v => v.toString(16).padStart(2, "0"));
  return "#" + (c[3] === 255 ? hex.slice(0, 3) : hex).join("");
}

function rectText(r) {
  return r[2] ? r[2] + " × " + r[3] + " at " + r[0] + ", " + r[1] : "nothing";
}

// what a quad is, in a few words
function quadText(item) {
  const [, , , clip, opacity, mode, kind, given] = item.quad;
  const what = {
    solid: () => "solid " + colourText(given[0]),
    tile: () => "tile " + given[0] + (given[1] || given[2] ? " from " + given[1] + ", " + given[2] : ""),
    pass: () => "pass " + given[0],
    surface: () => "surface " + rangeName(given[0]),
  }[kind]();
  return what + (opacity < 255 ? " · opacity " + opacity : "") + (mode ? " · " + MODES[mode] : "") + (clip ? " · clip" : "");
}
