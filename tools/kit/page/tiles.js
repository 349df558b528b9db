"use strict";
// The drawn frames: each is the squares of 8 by 8 pixels that differ from the frame before (tools/kit/tiles.py).

const SIDE = 8, EVERY = 16;

const tiles = {
  columns: 0, count: 0, planes: null, deltas: [], grids: [], grid: null, shown: -1, image: null, squares: 0,

  load(planes, changes) {
    const [w, h] = run.size;
    this.columns = Math.ceil(w / SIDE);
    this.planes = planes;
    this.count = planes.length / (SIDE * SIDE * 4);
    const total = this.columns * Math.ceil(h / SIDE);
    const grid = new Uint32Array(total);
    let at = 0;
    const number = () => {
      let value = 0, shift = 1, byte;
      do { byte = changes[at++]; value += (byte & 127) * shift; shift *= 128; } while (byte > 127);
      return value;
    };
    while (at < changes.length) {
      const delta = new Uint32Array(2 * number());
      let place = 0;
      for (let i = 0; i < delta.length; i += 2) {
        place += number();
        delta[i] = place;
        grid[place] = delta[i + 1] = number();
      }
      if (this.deltas.length % EVERY === 0) this.grids.push(grid.slice());
      this.deltas.push(delta);
    }
    this.grid = new Int32Array(total).fill(-1);
  },

  // the contents of all squares of a frame
  gridOf(n) {
    const grid = this.grids[Math.floor(n / EVERY)].slice();
    for (let k = n - n % EVERY + 1; k <= n; k++)
      for (let i = 0; i < this.deltas[k].length; i += 2) grid[this.deltas[k][i]] = this.deltas[k][i + 1];
    return grid;
  },

  // draws a frame into an image; only squares that differ from what is in it
  draw(n, image) {
    if (n === this.shown) return;
    const grid = this.gridOf(n);
    for (let place = 0; place < grid.length; place++) {
      if (grid[place] === this.grid[place]) continue;
      this.grid[place] = grid[place];
      this.square(image, place, grid[place]);
    }
    this.shown = n;
  },

  square(image, place, content) {
    const [w, h] = run.size, left = place % this.columns * SIDE, top = Math.floor(place / this.columns) * SIDE;
    const size = SIDE * SIDE, stride = this.count * size, first = content * size;
    for (let y = 0; y < SIDE && top + y < h; y++) {
      for (let x = 0; x < SIDE && left + x < w; x++) {
        const from = first + y * SIDE + x, to = ((top + y) * w + left + x) * 4;
        const alpha = this.planes[from + 3 * stride];
        for (let c = 0; c < 3; c++) {
          const value = this.planes[from + c * stride];
          image[to + c] = alpha === 255 || alpha === 0 ? value : Math.min(255, Math.round(value * 255 / alpha));
        }
        image[to + 3] = alpha;
      }
    }
  },

  // the stored colour of a pixel of the frame that is shown
  pixel(x, y) {
    const content = this.grid[Math.floor(y / SIDE) * this.columns + Math.floor(x / SIDE)];
    const from = content * SIDE * SIDE + y % SIDE * SIDE + x % SIDE, stride = this.count * SIDE * SIDE;
    return [0, 1, 2, 3].map(c => this.planes[from + c * stride]);
  },
};
