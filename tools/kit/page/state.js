"use strict";
// The state after an entry, from the lists of `run`; what a range shows; and why a surface is alive.

const TEMPORARY = 16;

function isActive(sub, e) {
  return sub[ACTIVE] >= 0 && sub[ACTIVE] <= e && (sub[ENDED] < 0 || sub[ENDED] > e);
}

function isWaiting(sub, e) {
  return sub[AT] <= e && (sub[ACTIVE] < 0 || sub[ACTIVE] > e) && (sub[ENDED] < 0 || sub[ENDED] > e);
}

function exists(surface, e) {
  return surface[S_AT] <= e && (surface[S_DESTROYED] < 0 || surface[S_DESTROYED] > e);
}

const groupOf = id => id[0] + ":" + id[3];
const sameId = (a, b) => a[0] === b[0] && a[1] === b[1] && a[2] === b[2] && a[3] === b[3];
const atLeast = (a, b) => groupOf(a) === groupOf(b) && a[1] >= b[1] && a[2] >= b[2];

function stateAt(e) {
  const state = { e, tick: tickAt(e), active: new Map(), waiting: [], groups: new Map(), alive: [], byId: new Map() };
  run.surfaces.forEach((surface, place) => {
    if (!exists(surface, e)) return;
    state.alive.push(place);
    state.byId.set(surface[S_ID].join(), place);
  });
  for (let place = 0; place < run.subs.length && run.subs[place][AT] <= e; place++) {
    const sub = run.subs[place];
    if (isActive(sub, e)) {
      const id = run.surfaces[sub[SURFACE]][S_ID], group = groupOf(id);
      state.active.set(sub[SURFACE], place);
      if (!state.groups.has(group)) state.groups.set(group, []);
      state.groups.get(group).push(sub[SURFACE]);
    } else if (isWaiting(sub, e)) {
      state.waiting.push(place);
    }
  }
  state.root = valueAt(run.roots, e, null);
  return state;
}

// the surface that a range shows, or -1
function shown(state, range) {
  const [start, end] = range, one = start !== 0 && groupOf(start) === groupOf(end);
  const id = place => run.surfaces[place][S_ID];
  let found = (state.groups.get(groupOf(end)) || []).filter(
    place => atLeast(end, id(place)) && (!one || atLeast(id(place), start)));
  if (!found.length && start !== 0 && !one)
    found = (state.groups.get(groupOf(start)) || []).filter(place => atLeast(id(place), start));
  return found.reduce((best, place) => best < 0 || atLeast(id(place), id(best)) ? place : best, -1);
}

function isTemporary(surface, state) {
  const closed = run.closed[surface[S_CLIENT] - 1];
  return !(surface[S_NAMED] >= 0 && surface[S_NAMED] <= state.e) && !(closed >= 0 && closed <= state.e) &&
    state.tick < surface[S_BORN] + TEMPORARY;
}

// for each surface that exists, why it is alive: a list of reasons
function reasons(state) {
  const why = new Map(state.alive.map(place => [place, []])), todo = [];
  const reach = (place, reason) => {
    if (!why.get(place).length) todo.push(place);
    why.get(place).push(reason);
  };
  const root = state.root && state.byId.get(state.root.join());
  if (root !== undefined && root !== null) reach(root, "root");
  for (const place of state.alive) {
    const surface = run.surfaces[place];
    if (isTemporary(surface, state)) reach(place, "temporary until begin-frame " + (surface[S_BORN] + TEMPORARY));
  }
  for (let i = 0; i < todo.length; i++) {
    const sub = state.active.get(todo[i]);
    if (sub === undefined) continue;
    for (const range of run.contents[run.subs[sub][CONTENT]][1]) {
      const place = shown(state, range), reason = "referenced by " + run.surfaces[todo[i]][S_NAME];
      if (place >= 0 && why.has(place) && !why.get(place).includes(reason)) reach(place, reason);
    }
  }
  for (const place of state.alive) {
    const surface = run.surfaces[place];
    if (surface[S_MARKED] < 0 || surface[S_MARKED] > state.e) why.get(place).push("not marked: no later surface of its client was active");
  }
  return why;
}

// the resources of a client after an entry: id to [w, h, lent, queued, reclaimed]
function resourcesAt(client, e) {
  const got = new Map();
  for (const [at, id, ...numbers] of run.resources[client - 1]) {
    if (at > e) break;
    got.set(id, numbers);
  }
  return got;
}

// the clients to which relations lead from the first one
function attachedAt(e) {
  const found = [run.own[0]];
  for (let i = 0; i < found.length; i++)
    for (const [at, parent, child] of run.relations)
      if (at <= e && parent === found[i] && !found.includes(child)) found.push(child);
  return run.own.map(own => found.includes(own));
}

// what a client owes after an entry
function lateness(client, e) {
  const begins = run.begins[client - 1], place = lastAt(begins, e);
  const pending = place >= 0 && begins[place][1] ? begins[place][1] : 0;
  let since = place;
  while (pending && since > 0 && begins[since - 1][1]) since--;
  const closed = run.closed[client - 1] >= 0 && run.closed[client - 1] <= e;
  const first = begins.find(begin => begin[1]);
  const answered = valueAt(run.answers[client - 1], e, 0);
  const asked = first && first[0] <= e && !closed;
  const from = Math.max(answered, asked ? first[1] - 1 : 0);
  return { closed, pending, since: pending ? begins[since][0] : -1, answered, late: asked ? tickAt(e) - from : 0 };
}

// the dependencies of a waiting submission that are not met
function unmet(sub, e) {
  return run.contents[run.subs[sub][CONTENT]][2].filter(wanted => {
    const owner = run.own.indexOf(wanted[0]);
    if (owner >= 0 && run.closed[owner] >= 0 && run.closed[owner] <= e) return false;
    return !run.subs.some(one => one[ACTIVE] >= 0 && one[ACTIVE] <= e &&
      atLeast(run.surfaces[one[SURFACE]][S_ID], wanted));
  });
}

// names of ids and ranges, as in scenes
function idName(id) {
  const owner = run.own.indexOf(id[0]);
  const token = run.tokens[id[3]] === "1" ? "" : "#" + run.tokens[id[3]];
  return (owner < 0 ? run.sinks[id[0]].join(".") : run.names[owner]) + "/" + id[1] + "." + id[2] + token;
}

function rangeName(range) {
  return (range[0] ? idName(range[0]) + " .. " : "") + idName(range[1]);
}

function subName(place) {
  const sub = run.subs[place];
  return "frame " + sub[ORDINAL] + " of " + run.names[sub[CLIENT] - 1];
}
