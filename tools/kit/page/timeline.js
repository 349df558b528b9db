"use strict";
// The timeline: an entry is a column; the display has a row, each client a row of signs with bars of its frames below.

const LEFT = 92, ROW = 16, LANE = 9, HEAD = 18;
const SIGNS = { stored: "load", noted: "none", reclaimed: "back", rooted: "root", joined: "join", began: "await", over: "over",
  left: "close", refused: "!" };

const timeline = {
  canvas: null, context: null, start_: 0, step: 20, rows: [], height: 0,

  start() {
    this.canvas = $("timeline");
    this.context = this.canvas.getContext("2d");
    let y = HEAD + ROW + 4;
    run.names.forEach((name, k) => {
      const lanes = run.lanes.counts[k];
      this.rows.push({ y, lanes });
      y += ROW + lanes * LANE + 6;
    });
    this.height = y + 2;
    this.canvas.addEventListener("wheel", event => this.wheel(event), { passive: false });
    this.canvas.addEventListener("pointerdown", event => this.press(event));
    this.canvas.addEventListener("pointermove", event => this.point(event));
    this.canvas.addEventListener("pointerleave", () => $("hint").textContent = "");
    new ResizeObserver(() => { this.resize(); this.paint(); }).observe(this.canvas.parentElement);
    this.resize();
    this.whole();
  },

  resize() {
    this.scale = window.devicePixelRatio || 1;
    this.width = this.canvas.parentElement.clientWidth;
    this.canvas.width = Math.max(1, Math.round(this.width * this.scale));
    this.canvas.height = Math.round(this.height * this.scale);
    this.canvas.style.height = this.height + "px";
  },

  columns() { return (this.width - LEFT) / this.step; },
  mid(e) { return LEFT + (e - this.start_ + 0.5) * this.step; },
  entryAt(x) { return Math.max(0, Math.min(lines.length - 1, Math.floor((x - LEFT) / this.step + this.start_))); },

  whole() {
    this.step = Math.min(40, Math.max((this.width - LEFT) / Math.max(1, lines.length), 0.001));
    this.start_ = 0;
  },

  clamp() {
    this.start_ = Math.max(0, Math.min(this.start_, lines.length + 1 - this.columns()));
  },

  zoomBy(factor, x = this.mid(now.entry)) {
    const at = this.start_ + (x - LEFT) / this.step;
    const least = Math.min(40, (this.width - LEFT) / Math.max(1, lines.length));
    this.step = Math.max(least, Math.min(48, this.step * factor));
    this.start_ = at - (x - LEFT) / this.step;
    this.clamp();
    this.paint();
  },

  wheel(event) {
    event.preventDefault();
    const box = this.canvas.getBoundingClientRect();
    if (event.shiftKey || Math.abs(event.deltaX) > Math.abs(event.deltaY)) {
      this.start_ += (event.deltaX || event.deltaY) / this.step;
      this.clamp();
      this.paint();
    } else {
      this.zoomBy(event.deltaY < 0 ? 1.25 : 0.8, event.clientX - box.left);
    }
  },

  press(event) {
    const box = this.canvas.getBoundingClientRect(), from = event.clientX, first = this.start_;
    let dragged = false;
    const move = next => {
      if (Math.abs(next.clientX - from) > 3) dragged = true;
      if (!dragged) return;
      this.start_ = first - (next.clientX - from) / this.step;
      this.clamp();
      this.paint();
    };
    const end = next => {
      window.removeEventListener("pointermove", move);
      window.removeEventListener("pointerup", end);
      if (!dragged) goTo(this.entryAt(next.clientX - box.left));
    };
    window.addEventListener("pointermove", move);
    window.addEventListener("pointerup", end);
  },

  point(event) {
    const box = this.canvas.getBoundingClientRect(), x = event.clientX - box.left;
    if (x < LEFT || !lines.length) return;
    const e = this.entryAt(x);
    $("hint").textContent = (e + 1) + ". " + lines[e];
  },

  follow() {
    const x = this.mid(now.entry);
    if (x < LEFT + this.step || x > this.width - this.step) this.start_ = now.entry - this.columns() / 2;
    this.clamp();
  },

  paint() {
    const c = this.context;
    c.setTransform(this.scale, 0, 0, this.scale, 0, 0);
    c.fillStyle = colour("--ground");
    c.fillRect(0, 0, this.width, this.height);
    if (!lines.length) return;
    const first = Math.max(0, Math.floor(this.start_)), last = Math.min(lines.length - 1, Math.ceil(this.start_ + this.columns()));
    this.stripes(c, first, last);
    chromium.marks(c, first, last);
    this.bars(c, first, last);
    this.signs(c, first, last);
    this.cursor(c);
    this.labels(c);
  },

  // the display's entries; where columns are thinner than a pixel, each pixel has one of a kind
  stripes(c, first, last) {
    const done = {}, w = Math.max(1, Math.floor(this.step) - (this.step > 3 ? 1 : 0)), h = this.step > 3 ? this.height - HEAD : ROW;
    for (let e = first; e <= last; e++) {
      if (clientOf[e]) continue;
      const x = Math.floor(LEFT + (e - this.start_) * this.step), kind = lines[e].slice(0, lines[e].indexOf(" "));
      const idle = kind === "draw" ? !lines[e].startsWith("draw drawn") : lines[e].startsWith("done nothing");
      const paint = idle ? "idle" : kind;
      if (done[paint] === x && this.step < 1) continue;
      done[paint] = x;
      c.fillStyle = colour("--" + paint);
      c.globalAlpha = filter.dims(e) ? 0.25 : 1;
      c.fillRect(x, HEAD, w, h);
      if (this.step >= 26) {
        const full = kind === "begin" ? "begin " + lines[e].slice(13).split(" ")[0] : kind;
        this.word(c, full.length * 5.5 <= this.step ? full : kind, x + w / 2, HEAD + 11, colour("--text"));
      }
      c.globalAlpha = 1;
    }
    const gap = [1, 2, 5, 10, 20, 50, 100, 200, 500, 1000, 2000, 5000, 10000, 20000].find(n => n * this.step >= 56) || 50000;
    c.fillStyle = colour("--dim");
    for (let n = Math.ceil((first + 1) / gap) * gap; n <= last + 1; n += gap)
      if (Math.min(this.mid(n - 1) - LEFT, this.width - this.mid(n - 1)) > 3 * String(n).length) this.word(c, String(n), this.mid(n - 1), 11);
  },

  word(c, text, x, y, fill = colour("--dim")) {
    c.fillStyle = fill;
    c.font = "10px system-ui, sans-serif";
    c.textAlign = "center";
    c.fillText(text, x, y);
    c.textAlign = "left";
  },

  // a submission waits, is active, and goes on paler while it is on the screen after its feedback or until that
  bars(c, first, last) {
    const edge = e => e < 0 ? this.width + 9 : Math.min(this.mid(e), this.width + 9), together = this.step < 1.5 ? new Map() : null;
    run.subs.forEach((sub, place) => {
      const until = barEnd(sub);
      if (sub[AT] > last || until < first) return;
      const y = this.rows[sub[CLIENT] - 1].y + ROW + run.lanes.of[place] * LANE;
      const x = this.mid(sub[AT]), end = edge(until), fill = clientColour(sub[CLIENT]);
      if (together && end - x < 3) { this.join(c, together, x, end, y, fill); return; }
      const active = sub[ACTIVE] < 0 ? end : edge(sub[ACTIVE]);
      const full = sub[ACTIVE] < 0 ? end : Math.min(edge(sub[FED]), edge(sub[ENDED]));
      this.bar(c, x, active, y, colour("--wait"), 1);
      this.bar(c, active, full, y, fill, 1);
      this.bar(c, full, end, y, fill, 0.35);
      if (this.step >= 4 && sub[FED] >= 0) this.feedback(c, this.mid(sub[FED]), y + LANE / 2 - 1, sub[PRESENTED]);
    });
    if (together) for (const [y, [x, end, fill]] of together) this.bar(c, x, end, y, fill, 1);
  },

  // thin bars of a lane that touch are drawn as one
  join(c, together, x, end, y, fill) {
    const open = together.get(y);
    if (open && x <= open[1] + 1) { open[1] = Math.max(open[1], end); return; }
    if (open) this.bar(c, open[0], open[1], y, fill, 1);
    together.set(y, [x, end, fill]);
  },

  bar(c, from, to, y, fill, alpha) {
    if (to <= from) return;
    c.fillStyle = fill;
    c.globalAlpha = alpha;
    c.fillRect(from, y, Math.max(1, to - from), LANE - 2);
    c.globalAlpha = 1;
  },

  feedback(c, x, y, presented) {
    c.fillStyle = colour(presented ? "--good" : "--bad");
    if (presented) { c.beginPath(); c.arc(x, y, 3, 0, 7); c.fill(); } else c.fillRect(x - 2, y - 3, 4, 6);
  },

  // what clients did: a word where there is room, otherwise a tick
  signs(c, first, last) {
    if (this.step < 0.5) {
      this.runs(c, first, last, e => !filter.dims(e), colour("--dim"), 0.5);
      this.runs(c, first, last, e => replies[e] === "refused" && !filter.dims(e), colour("--bad"), 1);
      return;
    }
    for (let e = first; e <= last; e++) {
      if (!clientOf[e]) continue;
      const row = this.rows[clientOf[e] - 1], reply = replies[e], said = SIGNS[reply];
      c.globalAlpha = filter.dims(e) ? 0.25 : 1;
      const x = this.mid(e), fill = colour(reply === "refused" ? "--bad" : "--dim");
      if (said && this.step >= 26) this.word(c, said, x, row.y + 11, fill);
      else { c.fillStyle = reply === "accepted" ? clientColour(clientOf[e]) : fill; c.fillRect(x - 0.5, row.y + 4, Math.max(1, Math.min(3, this.step / 3)), 8); }
      c.globalAlpha = 1;
    }
  },

  // where columns are thinner than half a pixel: the entries of a client that touch are one rectangle
  runs(c, first, last, wanted, fill, alpha) {
    const open = this.rows.map(() => null);
    c.fillStyle = fill;
    c.globalAlpha = alpha;
    const close = k => { if (open[k]) c.fillRect(open[k][0], this.rows[k].y + 4, open[k][1] - open[k][0], 8); };
    for (let e = first; e <= last; e++) {
      const k = clientOf[e] - 1;
      if (k < 0 || !wanted(e)) continue;
      const x = Math.floor(this.mid(e));
      if (open[k] && x <= open[k][1]) { open[k][1] = x + 1; continue; }
      close(k);
      open[k] = [x, x + 1];
    }
    this.rows.forEach((_, k) => close(k));
    c.globalAlpha = 1;
  },

  cursor(c) {
    const x = this.mid(now.entry), w = Math.max(2, this.step);
    c.fillStyle = colour("--hot");
    c.globalAlpha = 0.22;
    c.fillRect(x - w / 2, 0, w, this.height);
    c.globalAlpha = 1;
    c.fillRect(Math.round(x) - 1, 0, 2, this.height);
  },

  // a text as far as it fits
  cut(c, text, room) {
    if (c.measureText(text).width <= room) return text;
    let most = text.length;
    while (most > 1 && c.measureText(text.slice(0, most) + "…").width > room) most--;
    return text.slice(0, most) + "…";
  },

  labels(c) {
    c.fillStyle = colour("--ground");
    c.fillRect(0, 0, LEFT - 4, this.height);
    c.fillStyle = colour("--line");
    c.fillRect(LEFT - 4, 0, 1, this.height);
    c.font = "12px system-ui, sans-serif";
    c.fillStyle = colour("--text");
    c.fillText("display", 8, HEAD + 12);
    this.rows.forEach((row, k) => {
      c.fillStyle = clientColour(k + 1);
      c.fillRect(8, row.y + 4, 8, 8);
      c.fillStyle = colour("--text");
      c.fillText(this.cut(c, run.names[k], LEFT - 28), 21, row.y + 12);
      c.fillStyle = colour("--line");
      c.fillRect(0, row.y - 2, this.width, 1);
    });
  },
};
