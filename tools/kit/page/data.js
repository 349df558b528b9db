"use strict";
// What the page carries: `run` (lists that tools/kit/record.py made), the lines of the log, the sentences, the tiles.

let run = null;
const lines = [], sentences = [];
const replies = [];           // what each entry answered: accepted, drawn, ..
let clientOf = null;          // the client of each entry, 0 for the display

async function unpacked(id) {
  const text = atob(document.getElementById(id).textContent.trim());
  const data = new Uint8Array(text.length);
  for (let i = 0; i < text.length; i++) data[i] = text.charCodeAt(i);
  const stream = new Blob([data]).stream().pipeThrough(new DecompressionStream("deflate"));
  return new Uint8Array(await new Response(stream).arrayBuffer());
}

async function load() {
  const text = new TextDecoder();
  run = JSON.parse(text.decode(await unpacked("run")));
  lines.push(...split(run.log));
  sentences.push(...split(run.said));
  clientOf = new Uint8Array(lines.length);
  lines.forEach((line, e) => {
    clientOf[e] = line[0] === "c" ? parseInt(line.slice(1), 10) : 0;
    replies.push(line.split(" ", 2)[1]);
  });
  run.ticks = [];
  lines.forEach((line, e) => {
    if (line.startsWith("begin ")) run.ticks.push([e, parseInt(line.slice(13), 10)]);
  });
  run.drawn = run.draws.filter(draw => draw[1] === "drawn");
  run.subsOf = run.surfaces.map(() => []);
  run.subs.forEach((sub, place) => run.subsOf[sub[SURFACE]].push(place));
  run.subOf = new Map(run.subs.map((sub, place) => [sub[CLIENT] + "." + sub[ORDINAL], place]));
  run.lanes = lanesOf();
  tiles.load(await unpacked("contents"), await unpacked("changes"));
}

function split(text) {
  return text === "" ? [] : text.split("\n");
}

// the columns of a submission and of a surface
const CLIENT = 0, ORDINAL = 1, SURFACE = 2, INDEX = 3, CONTENT = 4, AT = 5, ACTIVE = 6, ENDED = 7, DROPPED = 8,
  FED = 9, PRESENTED = 10, DUE = 11, LATE = 12;
const S_CLIENT = 0, S_NAME = 1, S_W = 2, S_H = 3, S_AT = 4, S_BORN = 5, S_NAMED = 6, S_MARKED = 7, S_DESTROYED = 8,
  S_ID = 9;

// the place of the last item of a list whose first value is at most e, or -1
function lastAt(list, e) {
  let low = 0, high = list.length;
  while (low < high) {
    const middle = (low + high) >> 1;
    if (list[middle][0] <= e) low = middle + 1; else high = middle;
  }
  return low - 1;
}

function valueAt(list, e, otherwise) {
  const place = lastAt(list, e);
  return place < 0 ? otherwise : list[place][1];
}

function tickAt(e) {
  return valueAt(run.ticks, e, 0);
}

// the number of the drawn frame that is on the screen after an entry, or -1 before the first one
function frameAt(e) {
  return lastAt(run.drawn, e);
}

// the last entry at which a submission's bar is drawn: it has its feedback, and is not on the screen any more
function barEnd(sub) {
  return sub[FED] < 0 || sub[ENDED] < 0 ? lines.length : Math.max(sub[FED], sub[ENDED]);
}

// for each client, how many lanes its bars need; and for each submission its lane
function lanesOf() {
  const most = 6, free = run.names.map(() => []), lane = new Uint8Array(run.subs.length);
  run.subs.forEach((sub, place) => {
    const own = free[sub[CLIENT] - 1];
    let at = own.findIndex(until => until < sub[AT]);
    if (at < 0) at = own.length < most ? own.length : most - 1;
    own[at] = Math.max(own[at] || 0, barEnd(sub));
    lane[place] = at;
  });
  return { of: lane, counts: free.map(own => Math.max(1, own.length)) };
}
