"use strict";
// The picture of the frame: zoom and place, rectangles over it, and the pixel under the cursor.

const view = {
  canvas: null, context: null, buffer: null, image: null, zoom: 0, x: 0, y: 0, fits: true, cursor: null, hot: null, pinned: null,

  start() {
    const [w, h] = run.size;
    this.canvas = $("picture");
    this.context = this.canvas.getContext("2d");
    this.buffer = document.createElement("canvas");
    this.buffer.width = w;
    this.buffer.height = h;
    this.canvas.parentElement.style.setProperty("--sides", w + " / " + h);
    this.image = this.buffer.getContext("2d").createImageData(w, h);
    this.canvas.addEventListener("wheel", event => this.wheel(event), { passive: false });
    this.canvas.addEventListener("pointerdown", event => this.drag(event));
    this.canvas.addEventListener("pointermove", event => this.point(event));
    this.canvas.addEventListener("pointerleave", () => { this.cursor = null; this.pixel(); });
    this.canvas.addEventListener("click", event => this.pick(event));
    new ResizeObserver(() => { this.resize(); this.paint(); }).observe(this.canvas.parentElement);
    this.resize();
  },

  resize() {
    const box = this.canvas.parentElement, scale = window.devicePixelRatio || 1;
    this.width = box.clientWidth;
    this.height = box.clientHeight;
    this.canvas.width = Math.max(1, Math.round(this.width * scale));
    this.canvas.height = Math.max(1, Math.round(this.height * scale));
    this.scale = scale;
    if (this.fits) this.fit();
  },

  fit() {
    const [w, h] = run.size, room = Math.min((this.width - 16) / w, (this.height - 16) / h);
    this.zoom = room >= 1 ? Math.min(32, Math.floor(room)) : Math.max(room, 0.02);
    this.x = Math.round((this.width - w * this.zoom) / 2);
    this.y = Math.round((this.height - h * this.zoom) / 2);
    this.fits = true;
    this.label();
  },

  label() {
    $("zoom").textContent = (this.zoom >= 1 ? this.zoom + " ×" : Math.round(this.zoom * 100) + " %") + (this.fits ? " · fit" : "");
    this.canvas.style.touchAction = this.fits ? "pan-y" : "none";     // a finger scrolls the page until there is something to move
  },

  // zooms round a place of the canvas, by default its middle
  zoomBy(up, x = this.width / 2, y = this.height / 2) {
    const levels = [0.125, 0.25, 0.5, 1, 2, 3, 4, 6, 8, 12, 16, 24, 32, 48, 64];
    const next = up ? levels.find(level => level > this.zoom * 1.001) : levels.findLast(level => level < this.zoom * 0.999);
    if (!next) return;
    this.x = Math.round(x - (x - this.x) * next / this.zoom);
    this.y = Math.round(y - (y - this.y) * next / this.zoom);
    this.zoom = next;
    this.fits = false;
    this.label();
    this.paint();
  },

  wheel(event) {
    event.preventDefault();
    const box = this.canvas.getBoundingClientRect();
    this.zoomBy(event.deltaY < 0, event.clientX - box.left, event.clientY - box.top);
  },

  drag(event) {
    const from = { x: event.clientX - this.x, y: event.clientY - this.y };
    this.moved = false;
    const move = next => {
      if (Math.abs(next.clientX - event.clientX) + Math.abs(next.clientY - event.clientY) < 4 && !this.moved) return;
      this.moved = true;
      this.fits = false;
      this.x = next.clientX - from.x;
      this.y = next.clientY - from.y;
      this.label();
      this.paint();
    };
    const end = () => {
      window.removeEventListener("pointermove", move);
      window.removeEventListener("pointerup", end);
    };
    window.addEventListener("pointermove", move);
    window.addEventListener("pointerup", end);
  },

  point(event) {
    const box = this.canvas.getBoundingClientRect();
    const x = Math.floor((event.clientX - box.left - this.x) / this.zoom);
    const y = Math.floor((event.clientY - box.top - this.y) / this.zoom);
    this.cursor = x >= 0 && y >= 0 && x < run.size[0] && y < run.size[1] ? [x, y] : null;
    this.pixel();
  },

  // a click: the front quad under the cursor is marked in the list of quads
  pick() {
    if (this.moved || !this.cursor) return;
    const under = now.walk.list.findIndex(item => paints(item, ...this.cursor));
    if (under < 0) return;
    showTab("quads");
    pin(panels.quadsRows[under]);
  },

  pixel() {
    const label = $("pixel");
    if (!this.cursor) { label.textContent = now.frame < 0 ? "no frame is drawn yet" : "point at the frame to read a pixel"; return; }
    if (now.frame < 0) return;
    const [x, y] = this.cursor, colour = tiles.pixel(x, y);
    const under = now.drawnWalk.list.filter(item => paints(item, x, y));
    const more = under.length > 1 ? ", over " + (under.length - 1) + " more" : "";
    const said = under.length ? quadText(under[0]) + " of " + run.surfaces[under[0].surface][S_NAME] + more : "no quad";
    label.replaceChildren(element("span", "place", "(" + x + ", " + y + ")"), swatch(colour),
      element("span", "code", colourText(colour) + "  " + colour.join(" ")), element("span", "dim quads", said));
    label.title = said;
  },

  paint() {
    const c = this.context, [w, h] = run.size;
    c.setTransform(this.scale, 0, 0, this.scale, 0, 0);
    c.fillStyle = colour("--well");
    c.fillRect(0, 0, this.width, this.height);
    if (now.frame < 0 || !tiles.deltas.length) { this.nothing(c); return; }
    tiles.draw(now.frame, this.image.data);
    this.buffer.getContext("2d").putImageData(this.image, 0, 0);
    c.imageSmoothingEnabled = this.zoom < 1;
    c.drawImage(this.buffer, this.x, this.y, w * this.zoom, h * this.zoom);
    chromium.paint(c, this.x, this.y, this.zoom);
    this.rectangle([0, 0, w, h], colour("--line-strong"), 1, 0);
    this.overlays();
  },

  nothing(c) {
    c.fillStyle = colour("--dim");
    c.font = "13px system-ui, sans-serif";
    c.textAlign = "center";
    c.fillText(tiles.deltas.length ? "nothing is drawn yet" : "no frames", this.width / 2, this.height / 2);
    c.textAlign = "left";
  },

  overlays() {
    const draw = run.drawn[now.frame];
    if (toggled.surfaces || toggled.quads)
      for (const item of now.drawnWalk.list)
        if (toggled[item.kind + "s"] && item.rect[2]) this.rectangle(item.rect, colour(item.kind === "quad" ? "--quad" : "--surface"), 1, 0);
    if (toggled.stale) this.rectangle(run.stale[now.frame], colour("--stale"), 2, 0);
    if (toggled.damage) this.rectangle(draw[2], colour("--damage"), 2, 0);
    const marked = this.hot || this.pinned;
    if (marked) this.rectangle(marked, colour("--hot"), 2, 0.25);
  },

  // an outline inside a rectangle of the display, with a fill of some opacity
  rectangle(rect, stroke, width, fill) {
    const c = this.context, x = this.x + rect[0] * this.zoom, y = this.y + rect[1] * this.zoom;
    const w = rect[2] * this.zoom, h = rect[3] * this.zoom;
    if (!rect[2]) return;
    if (fill) {
      c.globalAlpha = fill;
      c.fillStyle = stroke;
      c.fillRect(x, y, w, h);
      c.globalAlpha = 1;
    }
    c.strokeStyle = stroke;
    c.lineWidth = width;
    c.strokeRect(x + width / 2, y + width / 2, Math.max(1, w - width), Math.max(1, h - width));
  },
};
