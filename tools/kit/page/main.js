"use strict";
// What is shown now, and the keys and controls that change it.

const $ = id => document.getElementById(id);
const TABS = ["repaint", "surfaces", "quads", "clients", "events", "chromium"];
const HUES = [212, 28, 150, 285, 48, 338, 178, 100, 255, 8, 128, 312, 62, 195, 230, 80];

const now = { entry: -1, frame: -1, tab: "repaint", state: null, walk: null, drawnWalk: { list: [], cut: false }, walked: -1 };
const toggled = { damage: true, stale: false, quads: false, surfaces: false, chromium: false, difference: false };

let colours = new Map();      // what `colour` and `clientColour` found, until the theme changes

// the value of a colour of the style, which differs between light and dark
function colour(name) {
  if (!colours.has(name)) colours.set(name, getComputedStyle(document.documentElement).getPropertyValue(name).trim());
  return colours.get(name);
}

function isDark() {
  const chosen = document.documentElement.dataset.theme;
  return chosen ? chosen === "dark" : window.matchMedia("(prefers-color-scheme: dark)").matches;
}

function clientColour(number) {
  if (!colours.has(number)) colours.set(number, "hsl(" + HUES[(number - 1) % HUES.length] + " 62% " + (isDark() ? "60%" : "45%") + ")");
  return colours.get(number);
}

// shows the run as it is after an entry
function goTo(e) {
  now.entry = Math.min(lines.length - 1, Math.max(0, e));
  now.frame = frameAt(now.entry);
  now.state = stateAt(now.entry);
  now.walk = walk(now.state);
  if (now.walked !== now.frame) {
    now.walked = now.frame;
    now.drawnWalk = now.frame < 0 ? { list: [], cut: false } : walk(stateAt(run.drawn[now.frame][0]));
  }
  view.hot = null;
  timeline.follow();
  paint();
}

function goToFrame(n) {
  if (run.drawn.length) goTo(run.drawn[Math.max(0, Math.min(run.drawn.length - 1, n))][0]);
}

function paint() {
  const count = run.drawn.length;
  $("frame").value = String(Math.max(0, now.frame + 1));
  $("frameof").textContent = (now.frame < 0 ? "none" : String(now.frame + 1)) + " of " + count;
  $("entry").value = String(now.entry + 1);
  $("entryof").textContent = "of " + lines.length.toLocaleString("en");
  $("sentence").textContent = $("sentence").title = sentences[now.entry] || "";
  $("line").textContent = lines[now.entry] || "";
  view.paint();
  view.pixel();
  timeline.paint();
  panels.paint();
}

function showTab(tab) {
  if (tab === "chromium" && !run.chromium) return;
  now.tab = tab;
  view.hot = null;
  TABS.forEach(name => {
    $("tab-" + name).setAttribute("aria-selected", String(name === tab));
    $("panel-" + name).hidden = name !== tab;
  });
  panels.paint();
}

function toggle(name) {
  toggled[name] = !toggled[name];
  $("show-" + name).setAttribute("aria-pressed", String(toggled[name]));
  view.paint();
}

function theme() {
  document.documentElement.dataset.theme = isDark() ? "light" : "dark";
  colours = new Map();
  paint();
}

let playing = null;           // the timer while frames follow each other by themselves

// shows a frame after the other until the last one; from the first one if it is the last
function play() {
  const stop = () => { clearInterval(playing); playing = null; $("play").textContent = "play"; };
  if (playing !== null) { stop(); return; }
  if (now.frame === run.drawn.length - 1) goToFrame(0);
  $("play").textContent = "stop";
  playing = setInterval(() => {
    if (now.frame < run.drawn.length - 1) goToFrame(now.frame + 1); else stop();
  }, 100);
}

// the entry that a link names: page.html#89
function linked() {
  const found = /^#([1-9][0-9]*)$/.exec(location.hash);
  return found ? Number(found[1]) - 1 : -1;
}

const KEYS = {
  ArrowRight: event => goTo(now.entry + (event.shiftKey ? 10 : 1)),
  ArrowLeft: event => goTo(now.entry - (event.shiftKey ? 10 : 1)),
  PageDown: () => goToFrame(now.frame + 1),
  PageUp: () => goToFrame(run.drawn[now.frame] && run.drawn[now.frame][0] < now.entry ? now.frame : now.frame - 1),
  Home: () => goTo(0),
  End: () => goTo(lines.length - 1),
  n: () => goTo(filter.next(now.entry, 1)),
  p: () => goTo(filter.next(now.entry, -1)),
  ArrowDown: () => pinNext(1),
  ArrowUp: () => pinNext(-1),
  " ": () => play(),
  g: () => { $("entry").focus(); $("entry").select(); },
  d: () => toggle("damage"),
  s: () => toggle("stale"),
  q: () => toggle("quads"),
  u: () => toggle("surfaces"),
  c: () => toggle("chromium"),
  v: () => toggle("difference"),
  "+": () => timeline.zoomBy(1.5),
  "=": () => timeline.zoomBy(1.5),
  "-": () => timeline.zoomBy(1 / 1.5),
  0: () => { timeline.whole(); timeline.paint(); },
  z: () => view.zoomBy(true),
  x: () => view.zoomBy(false),
  f: () => { view.fit(); view.paint(); },
  "/": () => { showTab("events"); $("search").focus(); },
  t: theme,
  "?": () => help(),
  Escape: () => { $("help").hidden = true; },
};
TABS.forEach((tab, k) => { KEYS[k + 1] = () => showTab(tab); });

function press(event) {
  if (event.ctrlKey || event.metaKey || event.altKey) return;
  if (event.target.tagName === "INPUT" && event.target.type !== "range") {
    if (event.key === "Escape" || event.key === "Enter") event.target.blur();
    return;
  }
  const act = KEYS[event.key];
  if (!act || event.key === " " && event.target.tagName === "BUTTON") return;
  event.preventDefault();
  act(event);
}

function help() {
  $("help").hidden = !$("help").hidden;
}

function controls() {
  TABS.forEach(tab => $("tab-" + tab).addEventListener("click", () => showTab(tab)));
  Object.keys(toggled).forEach(name => $("show-" + name).addEventListener("click", () => toggle(name)));
  $("frame").max = String(run.drawn.length);
  $("frame").min = String(Math.min(1, run.drawn.length));
  $("frame").addEventListener("input", () => goToFrame(Number($("frame").value) - 1));
  $("frame-back").addEventListener("click", KEYS.PageUp);
  $("frame-on").addEventListener("click", KEYS.PageDown);
  $("play").addEventListener("click", play);
  $("entry").addEventListener("change", () => { if (parseInt($("entry").value, 10) > 0) goTo(parseInt($("entry").value, 10) - 1); else paint(); });
  $("entry-back").addEventListener("click", () => goTo(now.entry - 1));
  $("entry-on").addEventListener("click", () => goTo(now.entry + 1));
  $("zoom-in").addEventListener("click", () => view.zoomBy(true));
  $("zoom-out").addEventListener("click", () => view.zoomBy(false));
  $("zoom-fit").addEventListener("click", KEYS.f);
  $("time-in").addEventListener("click", KEYS["+"]);
  $("time-out").addEventListener("click", KEYS["-"]);
  $("time-all").addEventListener("click", KEYS[0]);
  $("theme").addEventListener("click", theme);
  $("help-open").addEventListener("click", help);
  $("help-close").addEventListener("click", help);
  $("help").addEventListener("click", event => { if (event.target === $("help")) help(); });
  window.addEventListener("hashchange", () => { if (linked() >= 0) goTo(linked()); });
  window.addEventListener("keydown", press);
  window.matchMedia("(prefers-color-scheme: dark)").addEventListener("change", () => { colours = new Map(); paint(); });
}

async function main() {
  try {
    await load();
  } catch (error) {
    $("sentence").textContent = "This page cannot be shown: " + error.message;
    throw error;
  }
  $("about").textContent = run.size.join(" × ") + " · " + lines.length.toLocaleString("en") + " entries · " +
    run.drawn.length.toLocaleString("en") + " frames · " + run.names.length + (run.names.length === 1 ? " client" : " clients");
  controls();
  events.start();
  view.start();
  await chromium.start();
  timeline.start();
  goTo(linked() >= 0 ? linked() : run.drawn.length ? run.drawn[0][0] : 0);
  showTab("repaint");
  document.documentElement.dataset.ready = "yes";
}

main();
