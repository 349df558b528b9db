"use strict";
// A canvas for `drive.js`: fills, outlines, texts as bars, and images go into pixels, which can be written as a PNG file.

const zlib = require("zlib");

function parsed(text) {
  let found = /^#([0-9a-f]{6})([0-9a-f]{2})?$/i.exec(text);
  if (found) return [...Buffer.from(found[1], "hex"), found[2] ? parseInt(found[2], 16) / 255 : 1];
  found = /^hsl\((\d+) (\d+)% (\d+)%\)$/.exec(text);
  if (!found) throw new Error("no colour: " + text);
  const [h, s, l] = [found[1] / 30, found[2] / 100, found[3] / 100], a = s * Math.min(l, 1 - l);
  return [0, 8, 4].map(n => {
    const k = (n + h) % 12;
    return Math.round(255 * (l - a * Math.max(-1, Math.min(k - 3, 9 - k, 1))));
  }).concat(1);
}

class Context {
  constructor(canvas) {
    Object.assign(this, { canvas, fillStyle: "#000000", strokeStyle: "#000000", lineWidth: 1, globalAlpha: 1, font: "10px", textAlign: "left" });
    this.texts = [];
    this.calls = 0;
  }
  setTransform(scale) {
    this.scale = scale;
    const { width, height } = this.canvas;
    if (!this.data || this.data.length !== width * height * 3) this.data = Buffer.alloc(width * height * 3);
    this.texts = [];
  }
  fillRect(x, y, w, h, colour = this.fillStyle) {
    this.calls++;
    if (![x, y, w, h].every(Number.isFinite)) throw new Error("fillRect " + [x, y, w, h]);
    if (!this.data) this.setTransform(1);
    const [r, g, b, own] = parsed(colour), alpha = own * this.globalAlpha, { width, height } = this.canvas;
    const right = Math.min(width, Math.round(x + w)), bottom = Math.min(height, Math.round(y + h));
    for (let py = Math.max(0, Math.round(y)); py < bottom; py++)
      for (let px = Math.max(0, Math.round(x)); px < right; px++)
        [r, g, b].forEach((v, c) => {
          const at = (py * width + px) * 3 + c;
          this.data[at] = Math.round(this.data[at] * (1 - alpha) + v * alpha);
        });
  }
  strokeRect(x, y, w, h) {
    const t = this.lineWidth, c = this.strokeStyle;
    this.fillRect(x - t / 2, y - t / 2, w + t, t, c);
    this.fillRect(x - t / 2, y + h - t / 2, w + t, t, c);
    this.fillRect(x - t / 2, y - t / 2, t, h + t, c);
    this.fillRect(x + w - t / 2, y - t / 2, t, h + t, c);
  }
  measureText(text) { return { width: text.length * parseInt(this.font, 10) * 0.52 }; }
  fillText(text, x, y) {
    const w = this.measureText(text).width, size = parseInt(this.font, 10), left = this.textAlign === "center" ? x - w / 2 : x;
    this.texts.push({ text, left, right: left + w, y });
    for (let k = 0; k < text.length; k++) if (text[k] !== " ") this.fillRect(left + k * size * 0.52, y - size * 0.6, Math.max(1, size * 0.36), size * 0.6);
  }
  beginPath() {}
  arc(x, y, r) { this.circle = [x, y, r]; }
  fill() { const [x, y, r] = this.circle; this.fillRect(x - r, y - r, 2 * r, 2 * r); }
  createImageData(w, h) { return { width: w, height: h, data: new Uint8ClampedArray(w * h * 4) }; }
  putImageData(image) { this.image = image; }
  drawImage(canvas, x, y, w, h) {
    const image = canvas.getContext("2d").image, { width, height } = this.canvas;
    for (let py = Math.max(0, Math.floor(y)); py < Math.min(height, y + h); py++)
      for (let px = Math.max(0, Math.floor(x)); px < Math.min(width, x + w); px++) {
        const sx = Math.min(image.width - 1, Math.floor((px - x) * image.width / w));
        const sy = Math.min(image.height - 1, Math.floor((py - y) * image.height / h));
        if (sx < 0 || sy < 0) continue;
        for (let c = 0; c < 3; c++) this.data[(py * width + px) * 3 + c] = image.data[(sy * image.width + sx) * 4 + c];
      }
  }
  getImageData() {
    const data = new Uint8ClampedArray(this.data.length / 3 * 4).fill(255);
    for (let k = 0; 3 * k < this.data.length; k++) for (let c = 0; c < 3; c++) data[4 * k + c] = this.data[3 * k + c];
    return { data };
  }
  png() {
    const { width, height } = this.canvas, rows = Buffer.alloc(height * (width * 3 + 1));
    for (let y = 0; y < height; y++) this.data.copy(rows, y * (width * 3 + 1) + 1, y * width * 3, (y + 1) * width * 3);
    const head = Buffer.alloc(13);
    head.writeUInt32BE(width, 0);
    head.writeUInt32BE(height, 4);
    head.set([8, 2, 0, 0, 0], 8);
    const part = (name, data) => {
      const body = Buffer.concat([Buffer.from(name), data]), out = Buffer.alloc(body.length + 8);
      out.writeUInt32BE(data.length, 0);
      body.copy(out, 4);
      out.writeUInt32BE(crc(body), body.length + 4);
      return out;
    };
    return Buffer.concat([Buffer.from("\x89PNG\r\n\x1a\n", "latin1"), part("IHDR", head), part("IDAT", zlib.deflateSync(rows)), part("IEND", Buffer.alloc(0))]);
  }
}

function crc(data) {
  let value = ~0;
  for (const byte of data) {
    value ^= byte;
    for (let k = 0; k < 8; k++) value = value & 1 ? value >>> 1 ^ 0xedb88320 : value >>> 1;
  }
  return ~value >>> 0;
}

module.exports = { Context };
