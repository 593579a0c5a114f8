"use strict";
// Draws tiles of 48 half-float patterns, in light at an exposure or in false colours, and a page's parts when they come near.

const LARGE = 24, PRINTED = 12, SMALL = 12;  // canvas points of a pixel's side

// The lines of a mark, black under white, so that they are seen on every colour.
function haloed(pen, width, path) {
  for (const [colour, more] of [["#000", 2], ["#fff", 0]]) {
    pen.strokeStyle = colour;
    pen.lineWidth = width + more;
    pen.beginPath();
    path();
    pen.stroke();
  }
}

function crossed(pen, x, y, unit) {
  haloed(pen, 2 * unit, () => {
    pen.moveTo(x + 3 * unit, y + 3 * unit); pen.lineTo(x + 21 * unit, y + 21 * unit);
    pen.moveTo(x + 21 * unit, y + 3 * unit); pen.lineTo(x + 3 * unit, y + 21 * unit);
  });
}

// What a pixel is beside its colour, in a square of `side` points: above white, below zero, minus infinity.
function mark(pen, triple, scale, x, y, side) {
  const unit = side / 24;
  const below = triple.map((v) => v < 0 && v !== -Infinity ? -v : 0);
  if (triple.some((v) => v * scale > 1)) {
    pen.fillStyle = "#000";
    pen.strokeStyle = "#fff";
    pen.lineWidth = 1.5 * unit;
    pen.beginPath();
    pen.moveTo(x + 14 * unit, y + 2 * unit); pen.lineTo(x + 22 * unit, y + 2 * unit); pen.lineTo(x + 22 * unit, y + 10 * unit); pen.closePath();
    pen.fill();
    pen.stroke();
  }
  if (below.some((v) => v > 0)) {
    pen.fillStyle = "#fff";
    pen.fillRect(x + 10 * unit, y + 10 * unit, 13 * unit, 13 * unit);
    pen.fillStyle = colourOf(below, scale);
    pen.fillRect(x + 11 * unit, y + 11 * unit, 11 * unit, 11 * unit);
    haloed(pen, 1.5 * unit, () => { pen.moveTo(x + 13 * unit, y + 18.5 * unit); pen.lineTo(x + 20 * unit, y + 18.5 * unit); });
  }
  if (triple.some((v) => v === -Infinity)) crossed(pen, x, y, unit);
}

function drawLight(pen, patterns, scale, x, y, side) {
  const triple = [...patterns].map((pattern) => FLOATS[pattern]);
  pen.fillStyle = colourOf(triple, scale);
  pen.fillRect(x, y, side, side);
  mark(pen, triple, scale, x, y, side);
}

// A pixel in false colours: three columns, red, green and blue; the upper half says the stop, the two lines below it where in the stop. A bar is a value below
// zero. Patterns that differ differ in a cell, so that pictures that differ always look different.
function drawFalse(pen, patterns, x, y, side) {
  const unit = side / 12;
  for (const [c, pattern] of patterns.entries()) {
    for (const [row, step] of stepsOf(pattern).entries()) {
      pen.fillStyle = STEPS[step];
      pen.fillRect(x + 4 * c * unit, y + [0, 6, 9][row] * unit, 4 * unit, [6, 3, 3][row] * unit);
    }
    if (pattern & 0x8000) {
      pen.fillStyle = "#fff";
      pen.fillRect(x + (4 * c + 0.5) * unit, y + 2 * unit, 3 * unit, 2 * unit);
      pen.fillStyle = "#000";
      pen.fillRect(x + (4 * c + 1) * unit, y + 2.5 * unit, 2 * unit, unit);
    }
  }
}

// Draws a tile. `look` says how: { way: "light", stops } or { way: "false" }.
function drawTile(canvas, patterns, look, side) {
  const pen = canvas.getContext("2d");
  if (canvas.width !== 4 * side) canvas.width = canvas.height = 4 * side;
  for (let k = 0; k < 16; k++) {
    const pixel = patterns.subarray(3 * k, 3 * k + 3), x = k % 4 * side, y = (k >> 2) * side;
    if (look.way === "false") drawFalse(pen, pixel, x, y, side); else drawLight(pen, pixel, 2 ** look.stops, x, y, side);
  }
  if (look.way === "false") {
    pen.fillStyle = "#000";
    for (let k = 1; k < 4; k++) { pen.fillRect(k * side - 0.5, 0, 1, 4 * side); pen.fillRect(0, k * side - 0.5, 4 * side, 1); }
  }
}

// How tiles are drawn now. way "own": each at its own exposure, moved by `shift` stops; "one": all at `stops`; "false": in false colours.
class Sight {
  constructor(stops) { Object.assign(this, { way: "own", shift: 0, stops }); }
  look(own) { return this.way === "false" ? { way: "false" } : { way: "light", stops: this.way === "own" ? own + this.shift : this.stops }; }
}

// Parts of a page: each is built when it comes near, and drawn as the sight says when it is seen.
class Scene {
  constructor(sight, margin = "500px") {
    this.sight = sight;
    this.parts = new Map();  // element -> its part
    this.watcher = new IntersectionObserver((entries) => {
      for (const entry of entries) {
        const part = this.parts.get(entry.target);
        if (!part) continue;
        part.near = entry.isIntersecting;
        if (part.near) part.show(); else part.rest();
      }
    }, { rootMargin: margin });
  }

  part(element, build) {
    const part = new Part(this, element, build);
    this.parts.set(element, part);
    this.watcher.observe(element);
    return part;
  }

  forget(element) {
    this.parts.delete(element);
    this.watcher.unobserve(element);
  }

  redraw() { for (const part of this.parts.values()) if (part.near) part.show(); }
}

class Part {
  constructor(scene, element, build) { Object.assign(this, { scene, element, build, tiles: [], near: false }); }

  ensure() {
    if (!this.build) return;
    const build = this.build;
    this.build = null;
    build(this);
    this.element.style.minHeight = "";
  }

  show() {
    this.ensure();
    for (const tile of this.tiles) this.draw(tile);
  }

  draw(tile) {
    const look = this.scene.sight.look(tile.own), drawn = JSON.stringify(look);
    if (tile.drawn === drawn) return;
    tile.drawn = drawn;
    drawTile(tile.canvas, tile.patterns, look, tile.side);
    if (tile.after) tile.after(look);
  }

  // large canvases that are far away give their room back
  rest() {
    for (const tile of this.tiles) if (tile.side === LARGE) { tile.canvas.width = tile.canvas.height = 0; tile.drawn = null; }
  }

  // A canvas of this part that shows a tile; `own` is its own exposure, and `after` is called with the look whenever it was drawn.
  canvas(patterns, own, side, attributes, after) {
    const canvas = make("canvas", attributes), tile = { canvas, patterns, own, side, after, drawn: null };
    this.tiles.push(tile);
    if (this.near && !this.build) this.draw(tile);
    return canvas;
  }
}
