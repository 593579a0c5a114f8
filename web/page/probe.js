"use strict";
// The views of records with a place: a probe from inside and unfolded, and a table of records that are no probe.

// Which way faces 0 to 5 look (docs/DECISIONS.md), with x to the right, y up and z ahead: by sign, in a word, and where the unfolded cube has it (column, row).
const FACES_TOLD = [["+X", "right", 2, 1], ["−X", "left", 0, 1], ["+Y", "up", 1, 0], ["−Y", "down", 1, 2], ["+Z", "ahead", 1, 1], ["−Z", "behind", 3, 1]];
// The turn, to the right and up, that looks straight at each face. Straight up and down are a little less, so that ahead stays above.
const STEEPEST = 1.55;
const TURNS = [[Math.PI / 2, 0], [-Math.PI / 2, 0], [0, STEEPEST], [0, -STEEPEST], [0, 0], [Math.PI, 0]];
const NARROWEST = 15, WIDEST = 120, OPENED_ANGLE = 75;  // degrees from the view's top to its bottom
const MOST_POINTS = 700000;  // points of a view that are worked out, at most
const KEY_TURN = 0.1;

// The face that a direction meets, and where on it: u to the right and v down, 0 to 1.
function faceAt(x, y, z) {
  const ax = Math.abs(x), ay = Math.abs(y), az = Math.abs(z);
  let face, u, v, far;
  if (ax >= ay && ax >= az) { face = x > 0 ? 0 : 1; u = x > 0 ? -z : z; v = -y; far = ax; }
  else if (ay >= az) { face = y > 0 ? 2 : 3; u = x; v = y > 0 ? z : -z; far = ay; }
  else { face = z > 0 ? 4 : 5; u = z > 0 ? x : -x; v = -y; far = az; }
  return [face, (u / far + 1) / 2, (v / far + 1) / 2];
}

// The direction of a point of a face, u to the right and v down, -1 to 1: the way back of faceAt.
const FACE_WAYS = [(u, v) => [1, -v, -u], (u, v) => [-1, -v, u], (u, v) => [u, 1, v], (u, v) => [u, -1, -v], (u, v) => [u, -v, 1], (u, v) => [-u, -v, -1]];

// The light of each face with a pixel of the faces around it on every side, so that light between pixels has no seam.
function borderedLight(side, faces) {
  const wide = side + 2, whole = (share) => Math.max(0, Math.min(side - 1, Math.floor(share * side)));
  return faces.map((_, face) => {
    const light = new Float32Array(3 * wide * wide);
    for (let y = 0; y < wide; y++) for (let x = 0; x < wide; x++) {
      const [there, u, v] = faceAt(...FACE_WAYS[face]((2 * x - 1) / side - 1, (2 * y - 1) / side - 1)), from = 3 * (whole(v) * side + whole(u));
      for (let c = 0; c < 3; c++) light[3 * (y * wide + x) + c] = Math.max(0, FLOATS[faces[there][from + c]]);
    }
    return light;
  });
}

class Panorama {
  // `faces`: the six faces' values, side by side pixels of three patterns; `tell(face, x, y, aloud)` is called with the pixel that is pointed at.
  constructor(box, side, faces, screen, tell) {
    Object.assign(this, { box, side, faces, screen, tell, turn: 0, tilt: 0, angle: OPENED_ANGLE, smooth: side >= 32 });
    this.canvas = make("canvas", { tabindex: "0", role: "img", "aria-label": "The probe from inside. Drag or use the arrow keys to look around, plus and minus to zoom." });
    this.pen = this.canvas.getContext("2d");
    this.light = borderedLight(side, faces);
    box.append(this.canvas);
    new ResizeObserver(() => this.draw()).observe(box);
    this.listen();
  }

  // Half the height of the view, at a distance of one.
  get reach() { return Math.tan(this.angle / 2 * Math.PI / 180); }

  axes() {
    const ct = Math.cos(this.turn), st = Math.sin(this.turn), cp = Math.cos(this.tilt), sp = Math.sin(this.tilt);
    return { right: [ct, 0, -st], up: [-st * sp, cp, -ct * sp], ahead: [st * cp, sp, ct * cp] };
  }

  // The pixel of a point of the view, in shares of its width and height.
  pixelAt(across, down) {
    const { right, up, ahead } = this.axes(), wide = this.canvas.width / this.canvas.height, a = (2 * across - 1) * wide * this.reach, b = (1 - 2 * down) * this.reach;
    const [face, u, v] = faceAt(...[0, 1, 2].map((k) => right[k] * a + up[k] * b + ahead[k])), whole = (share) => Math.min(this.side - 1, Math.floor(share * this.side));
    return [face, whole(u), whole(v)];
  }

  draw() {
    const { canvas, box, side } = this, points = box.clientWidth * box.clientHeight, ratio = Math.min(devicePixelRatio || 1, Math.sqrt(MOST_POINTS / Math.max(1, points)));
    const wide = Math.max(1, Math.round(box.clientWidth * ratio)), high = Math.max(1, Math.round(box.clientHeight * ratio));
    if (canvas.width !== wide || canvas.height !== high) Object.assign(canvas, { width: wide, height: high });
    const image = new ImageData(wide, high), out = new Uint32Array(image.data.buffer), { right, up, ahead } = this.axes(), { reach } = this;
    const colour = this.smooth && this.screen.sight.way !== "false" ? this.smoothColour() : this.plainColour();
    for (let row = 0, to = 0; row < high; row++) {
      const b = (high - 2 * row - 1) / high * reach, x = up[0] * b + ahead[0], y = up[1] * b + ahead[1], z = up[2] * b + ahead[2];
      for (let column = 0; column < wide; column++, to++) {
        const a = (2 * column + 1 - wide) / high * reach, [face, u, v] = faceAt(x + right[0] * a, y + right[1] * a, z + right[2] * a);
        out[to] = colour(face, u * side, v * side);
      }
    }
    this.pen.putImageData(image, 0, 0);
  }

  // The colour of the pixel that a place of a face is in.
  plainColour() {
    const { side, faces } = this, last = side - 1, table = this.screen.tables().half, isFalse = this.screen.sight.way === "false";
    return (face, u, v) => {
      const from = 3 * (Math.min(last, v | 0) * side + Math.min(last, u | 0)), values = faces[face];
      if (isFalse) return stepColours[stepsOf(brightest(values, from))[0]];
      return OPAQUE_PIXEL | table[values[from + 2]] << 16 | table[values[from + 1]] << 8 | table[values[from]];
    };
  }

  // The light between the four pixels around a place of a face: in a pixel's middle that pixel's alone.
  smoothColour() {
    const { side, light } = this, wide = side + 2, table = this.screen.tables().upper, mixed = new Float32Array(3), bits = new Uint32Array(mixed.buffer);
    return (face, u, v) => {
      const x = u + 0.5, y = v + 0.5, left = Math.min(side, x | 0), top = Math.min(side, y | 0), s = x - left, t = y - top;
      const values = light[face], p = 3 * (top * wide + left), below = p + 3 * wide;
      for (let c = 0; c < 3; c++) mixed[c] = (1 - t) * ((1 - s) * values[p + c] + s * values[p + 3 + c]) + t * ((1 - s) * values[below + c] + s * values[below + 3 + c]);
      return OPAQUE_PIXEL | table[bits[2] >>> 16] << 16 | table[bits[1] >>> 16] << 8 | table[bits[0] >>> 16];
    };
  }

  look(turn, tilt) {
    Object.assign(this, { turn, tilt: Math.max(-STEEPEST, Math.min(STEEPEST, tilt)) });
    this.draw();
  }

  zoom(angle) {
    this.angle = Math.max(NARROWEST, Math.min(WIDEST, angle));
    this.draw();
  }

  point(event) {
    const box = this.canvas.getBoundingClientRect();
    this.tell(...this.pixelAt((event.clientX - box.left) / box.width, (event.clientY - box.top) / box.height));
  }

  listen() {
    const { canvas } = this, fingers = new Map();
    let last = null;
    canvas.addEventListener("pointerdown", (event) => {
      canvas.setPointerCapture(event.pointerId);
      fingers.set(event.pointerId, event);
      last = event;
      this.box.classList.add("held");
      this.point(event);
    });
    canvas.addEventListener("pointermove", (event) => {
      if (fingers.size === 2 && fingers.has(event.pointerId)) {
        const apart = () => { const [a, b] = fingers.values(); return Math.hypot(a.clientX - b.clientX, a.clientY - b.clientY); }, before = apart();
        fingers.set(event.pointerId, event);
        this.zoom(this.angle * before / Math.max(1, apart()));
      } else if (last && event.buttons) {
        const step = 2 * this.reach / canvas.clientHeight;
        this.look(this.turn - (event.clientX - last.clientX) * step, this.tilt + (event.clientY - last.clientY) * step);
        last = event;
      } else if (event.pointerType === "mouse") {
        this.point(event);
      }
    });
    for (const name of ["pointerup", "pointercancel"]) canvas.addEventListener(name, (event) => { fingers.delete(event.pointerId); last = null; this.box.classList.remove("held"); });
    canvas.addEventListener("wheel", (event) => { event.preventDefault(); this.zoom(this.angle * 2 ** (event.deltaY / 600)); }, { passive: false });
    canvas.addEventListener("keydown", (event) => {
      const step = KEY_STEPS[event.key];
      if (step) this.look(this.turn + KEY_TURN * step[0], this.tilt - KEY_TURN * step[1]);
      else if (event.key === "+" || event.key === "=") this.zoom(this.angle / 1.25);
      else if (event.key === "-") this.zoom(this.angle * 1.25);
      else return;
      event.preventDefault();
      this.tell(...this.pixelAt(0.5, 0.5), true);
    });
  }
}

// The six faces as one picture, unfolded.
function crossOf(side, faces) {
  const pitch = 4 * side, values = new Uint16Array(3 * pitch * 3 * side);
  const faceOf = (x, y) => FACES_TOLD.findIndex(([, , column, row]) => column === Math.floor(x / side) && row === Math.floor(y / side));
  faces.forEach((face, f) => {
    const [, , column, row] = FACES_TOLD[f];
    for (let y = 0; y < side; y++) values.set(face.subarray(3 * side * y, 3 * side * (y + 1)), 3 * ((row * side + y) * pitch + column * side));
  });
  return {
    width: 4 * side, height: 3 * side, pitch, values, bytes: false, modes: null, faceOf, covers: (x, y) => faceOf(x, y) >= 0,
    parts: FACES_TOLD.map(([, , column, row]) => [column * side, row * side, side, side]),
    over: (pen, stage) => {
      const size = Math.max(11, Math.min(16, side * stage.zoom / 8));
      pen.font = `600 ${size * stage.ratio}px system-ui, "DejaVu Sans", sans-serif`;
      FACES_TOLD.forEach(([sign, , column, row], f) => {
        const place = [`${f} ${sign}`, stage.x + column * side * stage.zoom + 6, stage.y + row * side * stage.zoom + 1.3 * size * stage.ratio];
        Object.assign(pen, { lineWidth: 3, strokeStyle: "rgb(0 0 0 / .8)", fillStyle: "#fff" });
        pen.strokeText(...place);
        pen.fillText(...place);
      });
    },
  };
}

function showProbe(view, edge, records) {
  const { knot, screen, file } = view, side = 4 * edge, faces = range(FACES).map((face) => knot.probeFace(file.bytes, edge, face)), picture = crossOf(side, faces);
  const recordAt = new Map(records.map((one) => [`${one.face} ${one.column} ${one.row}`, one])), inspector = new Inspector(knot, screen);
  const tell = (face, x, y, aloud) => {
    const one = recordAt.get(`${face} ${x >> 2} ${y >> 2}`), from = 3 * (y * side + x), [sign, word] = FACES_TOLD[face];
    inspector.tell({
      title: `face ${face}, x ${x}, y ${y}`, where: `${sign}, ${word}; record ${one.n}, tile ${one.tile}`, values: faces[face].subarray(from, from + 3),
      block: one.block, format: one.format, k: 4 * (y % 4) + x % 4, facts: [["block", `column ${one.column}, row ${one.row} of face ${face}`], ["format", FORMATS[one.format]]],
    }, aloud);
  };
  const lookBox = make("div", { class: "stage looking" }), crossBox = make("div", { class: "stage cross" });
  const stage = new Stage(crossBox, picture, screen, "The six faces, unfolded", (x, y, aloud) => tell(picture.faceOf(x, y), x % side, y % side, aloud));
  const panorama = new Panorama(lookBox, side, faces, screen, (face, x, y, aloud) => {
    tell(face, x, y, aloud);
    const [, , column, row] = FACES_TOLD[face];
    stage.at = [column * side + x, row * side + y];
    stage.draw();
  });
  lookBox.append(make("p", { class: "hint", "aria-hidden": "true" }, "Drag to look around, wheel or pinch to zoom"));
  const ways = FACES_TOLD.map(([, word], f) => pushed(word[0].toUpperCase() + word.slice(1), () => { panorama.angle = OPENED_ANGLE; panorama.look(...TURNS[f]); }));
  const looks = make("div", { class: "tools", role: "group", "aria-label": "Ways to look" }, ...[4, 5, 1, 0, 2, 3].map((f) => ways[f]), make("span", { class: "grow" }),
    switched("Smooth", panorama.smooth, () => { panorama.smooth = !panorama.smooth; panorama.draw(); return panorama.smooth; }));
  const signed = records.filter((one) => one.format).length;
  const rows = [["kind", "a probe: every place of its six faces has exactly one record"], ["edge", `${count(edge, "block")}: faces of ${side} × ${side} pixels`],
    ["records", `${(records.length - signed).toLocaleString("en")} unsigned, ${signed.toLocaleString("en")} signed`], ["faces", FACES_TOLD.map(([sign, word], f) => `${f} ${sign} ${word}`).join(", ")], view.sumRow()];
  view.fill(make("div", { class: "work" }, make("div", { class: "shown" }, looks, lookBox, inspector.brief, stageTools(stage), crossBox, legend()),
    make("aside", { class: "side", "aria-label": "Facts" }, inspector.box, make("section", { class: "card" }, make("h2", {}, "Probe"), factList(rows)))));
  Object.assign(view, { stage, panorama });
  panorama.tell(...panorama.pixelAt(0.5, 0.5));
  view.onRedraw(() => { panorama.draw(); stage.draw(); inspector.redraw(); });
  view.light(middleExposure(picture.values), ["one", "false"]);
}

// ---- records with a place that are no probe

function notProbe(view, records) {
  const edge = Math.sqrt(records.length / FACES);
  if (!Number.isInteger(edge) || edge < 1 || edge > EDGE_LIMIT) return "It is no probe: a probe of edge n has 6 n n records, n from 1 to 16.";
  try {
    view.knot.probeCheck(view.file.bytes, edge);
    return null;
  } catch (error) {
    if (!(error instanceof Refused)) throw error;
    return `As a probe of edge ${edge} it is ${error.message}.`;
  }
}

function placedRow(part, one) {
  const row = (picture, ...words) => make("tr", {}, make("td", {}, picture), ...[one.n, one.tile, ...words].map((word) => make("td", {}, String(word))));
  if (one.answer) return row(make("span", { class: "none small" }), `refused, ${one.answer}: ${WORDS[one.answer]}`, "", "", "");
  const picture = part.canvas(one.values, ownExposure(one.values), SMALL, { class: "small", "aria-hidden": "true" }), format = `${FORMATS[one.format]}${one.mode ? "" : ", damaged: reserved mode"}`;
  return one.face === null ? row(picture, format, "not placed", "", "") : row(picture, format, one.face, one.column, one.row);
}

function placedTable(scene, records) {
  const body = make("tbody"), heads = ["record", "tile", "format", "face", "column", "row"].map((name) => heading(name));
  scene.part(body, (part) => body.append(...records.map((one) => placedRow(part, one))));
  return make("div", { class: "scroll" }, make("table", { class: "placed" }, make("thead", {}, make("tr", {}, make("td"), ...heads)), body));
}

function placedVerdict(records, reason) {
  const refused = records.filter((one) => one.answer).length, damaged = records.filter((one) => one.mode === 0).length, placed = records.filter((one) => !one.answer && one.face !== null).length;
  const damage = damaged + refused ? [make("p", { class: "damage" }, `${damaged} of ${count(records.length, "record")} ${isOrAre(damaged)} damaged and ${refused} ${isOrAre(refused)} refused.`)] : [];
  return make("div", { class: `verdict ${damaged + refused ? "worry" : "nothing"}`, id: "verdict" }, ...damage,
    make("p", {}, `${count(records.length, "record")} with a place: ${placed} placed, ${records.length - refused - placed} not placed.`), make("p", { class: "less" }, reason));
}

function showPlaces(view, asStore = false) {
  const { knot, file } = view, looks = asStore ? null : looksLike(knot, file.bytes, PLACED);
  if (looks) return view.otherKind(looks, "a store of records with a place", () => showPlaces(view, true));
  const { records, badLength } = readingOf(knot, file.bytes, PLACED);
  if (badLength) throw new Refused(badLength);
  const reason = notProbe(view, records);
  if (!reason) return showProbe(view, Math.sqrt(records.length / FACES), records);
  for (const one of records) if (!one.answer) Object.assign(one, knot.show(one.block, one.format));
  const scene = new Scene(view.sight);
  view.fill(make("div", { class: "page" }, placedVerdict(records, reason), factList([["store", file.name], view.sumRow(), ["length", `${file.bytes.length.toLocaleString("en")} bytes`]]),
    make("section", { class: "card" }, placedTable(scene, records))));
  view.scene = scene;
  view.onRedraw(() => scene.redraw());
  view.light(middleExposure(Uint16Array.from(records.flatMap((one) => [...one.values ?? []]))), ["own", "one", "false"]);
}
