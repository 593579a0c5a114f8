"use strict";
// A picture that one zooms, moves and points at. Zoom is in canvas points a pixel.

const MOST_ZOOM = 96, LEAST_ZOOM = 0.02;
// From so many points a pixel on there are marks on pixels, all three channels in false colours, lines between blocks and between pixels.
const MARKED = 20, CHANNELS_SHOWN = 12, BLOCKS_LINED = 5, PIXELS_LINED = 16;
const CLICK = 4;  // points that a pointer may move between down and up
const SAMPLES = 8;  // pixels a side, at most, of which a point of a smaller picture is the mean
const KEY_STEPS = { ArrowRight: [1, 0], ArrowLeft: [-1, 0], ArrowDown: [0, 1], ArrowUp: [0, -1] };

// `picture`: width, height and pitch in pixels; values, three half patterns a pixel, or four bytes where `bytes`; covers(x, y), whether there is a pixel;
// modes, a canvas with a point a block, or null; parts, rectangles outside which nothing is lined, or null; over(pen, stage), drawn last, or null.
class Stage {
  constructor(box, picture, screen, name, tell) {
    Object.assign(this, { box, picture, screen, tell, zoom: 1, x: 0, y: 0, grid: true, overlay: false, at: null, kept: false, fitted: true, means: null });
    this.canvas = make("canvas", { tabindex: "0", role: "img", "aria-label": `${name}. Arrow keys move the pixel that is shown in words, plus and minus zoom, 0 fits the picture.` });
    this.pen = this.canvas.getContext("2d");
    this.part = document.createElement("canvas");
    box.append(this.canvas);
    new ResizeObserver(() => this.resized()).observe(box);
    this.listen();
  }

  get ratio() { return devicePixelRatio || 1; }

  resized() {
    this.canvas.width = Math.max(1, Math.round(this.box.clientWidth * this.ratio));
    this.canvas.height = Math.max(1, Math.round(this.box.clientHeight * this.ratio));
    if (this.fitted) this.fit(); else this.moved();
  }

  fit() {
    const { width, height } = this.picture, most = 0.98 * Math.min(this.canvas.width / width, this.canvas.height / height);
    this.zoom = most >= 2 ? Math.min(64, Math.floor(most)) : most;
    this.x = (this.canvas.width - width * this.zoom) / 2;
    this.y = (this.canvas.height - height * this.zoom) / 2;
    this.fitted = true;
    this.moved();
  }

  // Zooms about a point of the canvas.
  zoomTo(zoom, x = this.canvas.width / 2, y = this.canvas.height / 2) {
    const next = Math.min(MOST_ZOOM, Math.max(LEAST_ZOOM, zoom)), by = next / this.zoom;
    Object.assign(this, { x: x - (x - this.x) * by, y: y - (y - this.y) * by, zoom: next, fitted: false });
    this.moved();
  }

  moved() {
    this.means = null;
    this.draw();
    if (this.zoomed) this.zoomed(this.zoom / this.ratio);
  }

  // ---- pointing

  // A pointer's place in points of the canvas.
  placeOf(event) {
    const box = this.canvas.getBoundingClientRect(), ratio = this.canvas.width / box.width;
    return [(event.clientX - box.left) * ratio, (event.clientY - box.top) * ratio];
  }

  pixelOf(event) {
    const [x, y] = this.placeOf(event), at = [Math.floor((x - this.x) / this.zoom), Math.floor((y - this.y) / this.zoom)];
    return this.picture.covers(...at) ? at : null;
  }

  point(at, aloud = false) {
    if (!at) return;
    this.at = at;
    this.tell(...at, aloud);
    this.draw();
  }

  listen() {
    const { canvas } = this, fingers = new Map();
    let drag = null;
    canvas.addEventListener("wheel", (event) => {
      event.preventDefault();
      this.zoomTo(this.zoom * 2 ** (-event.deltaY / 240), ...this.placeOf(event));
    }, { passive: false });
    canvas.addEventListener("pointerdown", (event) => {
      canvas.setPointerCapture(event.pointerId);
      fingers.set(event.pointerId, event);
      drag = fingers.size === 1 ? { from: event, x: this.x, y: this.y, far: false } : null;
    });
    canvas.addEventListener("pointermove", (event) => {
      if (fingers.size === 2 && fingers.has(event.pointerId)) this.pinch(fingers, event);
      else if (drag && event.buttons) this.drag(drag, event);
      else if (!this.kept && event.pointerType === "mouse") this.point(this.pixelOf(event));
    });
    const up = (event) => {
      fingers.delete(event.pointerId);
      this.box.classList.remove("held");
      if (drag && !drag.far && event.type === "pointerup") this.keep(this.pixelOf(event));
      drag = null;
    };
    canvas.addEventListener("pointerup", up);
    canvas.addEventListener("pointercancel", up);
    canvas.addEventListener("keydown", (event) => { if (this.key(event.key)) event.preventDefault(); });
  }

  pinch(fingers, event) {
    const apart = () => { const [a, b] = fingers.values(); return Math.hypot(a.clientX - b.clientX, a.clientY - b.clientY); }, before = apart();
    fingers.set(event.pointerId, event);
    const [a, b] = [...fingers.values()].map((one) => this.placeOf(one));
    this.zoomTo(this.zoom * apart() / Math.max(1, before), (a[0] + b[0]) / 2, (a[1] + b[1]) / 2);
  }

  drag(drag, event) {
    const dx = event.clientX - drag.from.clientX, dy = event.clientY - drag.from.clientY, ratio = this.canvas.width / this.canvas.getBoundingClientRect().width;
    drag.far ||= Math.hypot(dx, dy) > CLICK;
    if (!drag.far) return;
    this.box.classList.add("held");
    Object.assign(this, { x: drag.x + dx * ratio, y: drag.y + dy * ratio, fitted: false });
    this.moved();
  }

  // A click keeps a pixel, so that the pointer may leave it; a click on the kept pixel lets it go.
  keep(at) {
    const same = at && this.at && at[0] === this.at[0] && at[1] === this.at[1];
    this.kept = at !== null && !(this.kept && same);
    this.point(at);
    this.draw();
  }

  key(name) {
    const step = KEY_STEPS[name], [x, y] = this.at ?? [0, 0];
    if (name === "+" || name === "=") this.zoomTo(2 * this.zoom);
    else if (name === "-") this.zoomTo(this.zoom / 2);
    else if (name === "0") this.fit();
    else if (!step) return false;
    else if (this.picture.covers(x + step[0], y + step[1]) || !this.at) {
      this.kept = true;
      this.point(this.at ? [x + step[0], y + step[1]] : this.first(), true);
    }
    return true;
  }

  // The first pixel that there is, for the keys.
  first() {
    for (let y = 0; y < this.picture.height; y++) for (let x = 0; x < this.picture.width; x++) if (this.picture.covers(x, y)) return [x, y];
    return null;
  }

  // ---- drawing

  // A part of the picture, a point a pixel, as the screen's bytes.
  pixels(left, top, wide, high) {
    const { picture, screen } = this, { values, pitch } = picture, image = new ImageData(wide, high), out = new Uint32Array(image.data.buffer);
    const table = screen.tables(), light = table.half, isFalse = screen.sight.way === "false" && !picture.bytes;
    for (let y = 0, to = 0; y < high; y++) for (let x = 0; x < wide; x++, to++) {
      const place = (top + y) * pitch + left + x, from = 3 * place;
      if (picture.bytes) out[to] = this.overBoard(place, left + x, top + y, table.byte);
      else if (picture.parts && !picture.covers(left + x, top + y)) continue;
      else if (isFalse) out[to] = stepColours[stepsOf(brightest(values, from))[0]];
      else out[to] = OPAQUE_PIXEL | light[values[from + 2]] << 16 | light[values[from + 1]] << 8 | light[values[from]];
    }
    return image;
  }

  // A pixel with alpha over a board of grey squares.
  overBoard(place, x, y, table) {
    const { values } = this.picture, alpha = values[4 * place + 3], board = (x >> 2) + (y >> 2) & 1 ? 150 : 105;
    const [r, g, b] = [0, 1, 2].map((c) => { const byte = table[values[4 * place + c]]; return byte + (board - byte) * (255 - alpha) / 255 | 0; });
    return OPAQUE_PIXEL | b << 16 | g << 8 | r;
  }

  // The picture smaller than a point a pixel: the mean light of the pixels below each point, as 32-bit floats.
  meanLight(wide, high) {
    if (this.means) return this.means;
    const { picture, zoom } = this, size = picture.bytes ? 4 : 3, numbers = picture.bytes ? LINEAR : FLOATS, many = Math.min(SAMPLES, Math.max(1, Math.round(1 / zoom)));
    const { values, pitch } = picture, light = new Float32Array(3 * wide * high), columns = range(wide * many).map((k) => Math.min(picture.width - 1, Math.floor((k + 0.5) / many / zoom)));
    for (let y = 0, to = 0; y < high; y++) for (let x = 0; x < wide; x++, to += 3) {
      let r = 0, g = 0, b = 0;
      for (let j = 0; j < many; j++) {
        const row = Math.min(picture.height - 1, Math.floor((y * many + j + 0.5) / many / zoom)) * pitch;
        for (let i = 0; i < many; i++) {
          const from = (row + columns[x * many + i]) * size;
          r += Math.max(0, numbers[values[from]]); g += Math.max(0, numbers[values[from + 1]]); b += Math.max(0, numbers[values[from + 2]]);
        }
      }
      light[to] = r / many ** 2; light[to + 1] = g / many ** 2; light[to + 2] = b / many ** 2;
    }
    this.means = new Uint32Array(light.buffer);
    return this.means;
  }

  smaller(wide, high) {
    const image = new ImageData(wide, high), out = new Uint32Array(image.data.buffer), light = this.meanLight(wide, high), table = this.screen.tables().upper;
    for (let k = 0, from = 0; k < out.length; k++, from += 3) out[k] = OPAQUE_PIXEL | table[light[from + 2] >>> 16] << 16 | table[light[from + 1] >>> 16] << 8 | table[light[from] >>> 16];
    return image;
  }

  put(image, ...place) {
    Object.assign(this.part, { width: image.width, height: image.height });
    this.part.getContext("2d").putImageData(image, 0, 0);
    this.pen.drawImage(this.part, ...place);
  }

  draw() {
    const { canvas, pen, picture, zoom } = this, isFalse = this.screen.sight.way === "false" && !picture.bytes;
    pen.clearRect(0, 0, canvas.width, canvas.height);
    pen.imageSmoothingEnabled = false;
    const left = Math.max(0, Math.floor(-this.x / zoom)), top = Math.max(0, Math.floor(-this.y / zoom));
    const right = Math.min(picture.width, Math.ceil((canvas.width - this.x) / zoom)), bottom = Math.min(picture.height, Math.ceil((canvas.height - this.y) / zoom));
    if (right <= left || bottom <= top) return;
    const wide = right - left, high = bottom - top;
    if (zoom >= 1 || picture.parts || isFalse) this.put(this.pixels(left, top, wide, high), this.x + left * zoom, this.y + top * zoom, wide * zoom, high * zoom);
    else this.put(this.smaller(Math.max(1, Math.round(picture.width * zoom)), Math.max(1, Math.round(picture.height * zoom))), this.x, this.y);
    if (!picture.bytes && zoom >= (isFalse ? CHANNELS_SHOWN : MARKED)) this.drawLarge(left, top, right, bottom, isFalse);
    if (this.overlay && picture.modes) {
      pen.globalAlpha = 0.6;
      pen.drawImage(picture.modes, this.x, this.y, 4 * zoom * picture.modes.width, 4 * zoom * picture.modes.height);
      pen.globalAlpha = 1;
    }
    if (this.grid && zoom >= BLOCKS_LINED) this.drawLines(left, top, right, bottom);
    if (picture.over) picture.over(pen, this);
    if (this.at) this.drawCursor();
  }

  // Pixels that are large enough for what is drawn beside their colour.
  drawLarge(left, top, right, bottom, isFalse) {
    const { pen, picture, zoom } = this, scale = 2 ** this.screen.sight.stops;
    for (let y = top; y < bottom; y++) for (let x = left; x < right; x++) {
      if (!picture.covers(x, y)) continue;
      const from = 3 * (y * picture.pitch + x), pixel = picture.values.subarray(from, from + 3), place = [this.x + x * zoom, this.y + y * zoom, zoom];
      if (isFalse) drawFalse(pen, pixel, ...place); else mark(pen, [...pixel].map((pattern) => FLOATS[pattern]), scale, ...place);
    }
  }

  drawLines(left, top, right, bottom) {
    const { pen, picture, zoom } = this, lines = zoom >= PIXELS_LINED ? [[1, "rgb(128 128 128 / .35)"], [4, "rgb(255 255 255 / .75)"]] : [[4, "rgb(200 200 200 / .4)"]];
    pen.save();
    if (picture.parts) {
      pen.beginPath();
      for (const [x, y, wide, high] of picture.parts) pen.rect(this.x + x * zoom, this.y + y * zoom, wide * zoom + 1, high * zoom + 1);
      pen.clip();
    }
    pen.lineWidth = 1;
    const whole = (place) => Math.round(place) + 0.5, across = (x) => whole(this.x + x * zoom), down = (y) => whole(this.y + y * zoom);
    for (const [step, colour] of lines) {
      pen.strokeStyle = colour;
      pen.beginPath();
      for (let x = Math.ceil(left / step) * step; x <= right; x += step) { pen.moveTo(across(x), down(top)); pen.lineTo(across(x), down(bottom)); }
      for (let y = Math.ceil(top / step) * step; y <= bottom; y += step) { pen.moveTo(across(left), down(y)); pen.lineTo(across(right), down(y)); }
      pen.stroke();
    }
    pen.restore();
  }

  drawCursor() {
    const { pen, zoom } = this, [x, y] = this.at;
    haloed(pen, 1, () => pen.rect(this.x + (x - x % 4) * zoom, this.y + (y - y % 4) * zoom, 4 * zoom, 4 * zoom));
    haloed(pen, this.kept ? 3 : 2, () => pen.rect(this.x + x * zoom, this.y + y * zoom, zoom, zoom));
  }
}

function pushed(text, does, attributes = {}) {
  const button = make("button", { type: "button", ...attributes }, text);
  button.addEventListener("click", () => does(button));
  return button;
}

// A button that turns something on and off.
const switched = (text, on, does) => pushed(text, (button) => { button.setAttribute("aria-pressed", String(does())); }, { "aria-pressed": String(on) });

// The buttons over a picture, and others behind them.
function stageTools(stage, ...others) {
  const zoom = make("output", { class: "zoom", "aria-label": "Zoom" }), turn = (key) => () => { stage[key] = !stage[key]; stage.draw(); return stage[key]; };
  stage.zoomed = (now) => { zoom.textContent = `${now >= 0.1 ? Math.round(100 * now) : (100 * now).toFixed(1)} %`; };
  return make("div", { class: "tools", role: "group", "aria-label": "Zoom and overlays" },
    pushed("Fit", () => stage.fit()), pushed("1:1", () => stage.zoomTo(stage.ratio)), pushed("−", () => stage.zoomTo(stage.zoom / 2), { "aria-label": "Smaller" }),
    pushed("+", () => stage.zoomTo(2 * stage.zoom), { "aria-label": "Larger" }), zoom, switched("Blocks", stage.grid, turn("grid")),
    ...(stage.picture.modes ? [switched("Modes", stage.overlay, turn("overlay"))] : []), make("span", { class: "grow" }), ...others);
}
