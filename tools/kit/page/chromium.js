"use strict";
// A recording of Chromium: its picture in place of ours, where they differ, and its events. Of other runs nothing is shown.

const chromium = {
  images: [], differences: [],

  async start() {
    const there = Boolean(run.chromium);
    ["tab-chromium", "show-chromium", "show-difference"].forEach(id => { $(id).hidden = !there; });
    if (!there) return;
    for (const one of run.chromium.pictures) {
      const data = Uint8Array.from(atob(one[3]), letter => letter.charCodeAt(0));
      this.images.push(await createImageBitmap(new Blob([data], { type: "image/png" })));
    }
  },

  // the picture that Chromium made of the frame that is on the screen, or -1
  place() {
    return run.chromium ? run.chromium.pictures.findIndex(one => frameAt(one[0] - 1) === now.frame) : -1;
  },

  // lays Chromium's picture, or the difference, over ours
  paint(c, x, y, zoom) {
    const place = this.place();
    if (place < 0 || !toggled.chromium && !toggled.difference) return;
    const image = toggled.difference ? this.difference(place) : this.images[place];
    c.drawImage(image, x, y, image.width * zoom, image.height * zoom);
  },

  // how much each pixel differs, the smallest difference well visible; equal pixels are dark
  difference(place) {
    if (this.differences[place]) return this.differences[place];
    const { width, height } = this.images[place], made = new OffscreenCanvas(width, height), to = made.getContext("2d");
    to.drawImage(this.images[place], 0, 0);
    const theirs = to.getImageData(0, 0, width, height), ours = view.image.data, wide = run.size[0];
    for (let at = 0; at < theirs.data.length; at += 4) {
      const from = (Math.floor(at / 4 / width) * wide + at / 4 % width) * 4;
      for (let k = 0; k < 3; k++) {
        const far = Math.abs(theirs.data[at + k] - ours[from + k]);
        theirs.data[at + k] = far ? Math.min(255, 96 + 3 * far) : 24;
      }
    }
    to.putImageData(theirs, 0, 0);
    this.differences[place] = made;
    return made;
  },

  // a mark above the timeline for each of Chromium's events
  marks(c, first, last) {
    if (!run.chromium) return;
    for (const [at, , text] of run.chromium.events) {
      if (at < first || at > last) continue;
      const word = text.split(" ", 1)[0];
      c.fillStyle = word === "active" ? clientColour(parseInt(text.slice(7), 10)) : colour(word === "draw" ? "--draw" : "--bad");
      c.fillRect(timeline.mid(at) - 1, HEAD - 5, 3, 5);
    }
  },

  panel() {
    const place = this.place(), parts = [];
    if (place >= 0) {
      const [, why, said] = run.chromium.pictures[place];
      parts.push(heading("Picture " + (place + 1) + ": " + why, said), note("c lays Chromium's picture over ours, v where they differ."));
    } else {
      parts.push(note("Chromium made no picture of this frame; a click goes to one that it made."));
    }
    parts.push(table(["entry", "picture", "after", "beside ours"], run.chromium.pictures.map((one, k) =>
      this.line(one[0], [String(one[0]), String(k + 1), one[1], one[2]]))));
    const near = run.chromium.events.filter(one => Math.abs(one[0] - now.entry) <= 40);
    parts.push(heading("Chromium's events", "near entry " + (now.entry + 1)));
    parts.push(table(["entry", "tick", "event"], near.map(one => this.line(one[0], [String(one[0] + 1), String(one[1]), one[2]]))));
    $("chromium").replaceChildren(...parts);
  },

  // a row that goes to an entry
  line(at, cells) {
    const made = row(cells.map((text, k) => element("span", k === cells.length - 1 ? "long" : "tight", text)));
    made.addEventListener("click", () => goTo(at - (cells.length === 4 ? 1 : 0)));
    return made;
  },
};
