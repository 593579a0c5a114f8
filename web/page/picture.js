"use strict";
// The views of pictures: DDS files and bare blocks.

// A colour for each mode of BC6H (0 is reserved) and of BC7 (8 is reserved).
const MODE_COLOURS = ["#ff0000", "#e6194b", "#3cb44b", "#ffe119", "#4363d8", "#f58231", "#911eb4", "#46f0f0", "#f032e6", "#bcf60c", "#fabebe", "#008080", "#e6beff", "#9a6324", "#fffac8"];
const BC7_COLOURS = ["#e6194b", "#3cb44b", "#ffe119", "#4363d8", "#f58231", "#911eb4", "#46f0f0", "#f032e6", "#ff0000"];
const BAND = 32768;  // blocks that are decoded between two looks at the screen
const FORMATS = ["BC6H, unsigned", "BC6H, signed", "BC7"];

// The screen's turn: what was asked for meanwhile is done, the progress drawn.
const pause = () => new Promise((go) => setTimeout(go));

// Decodes a picture of blocks in bands. Answers the values in rows, the modes, and how many values are minus infinity; null where `wanted` says no meanwhile.
async function decodePicture(knot, blocks, across, down, format, progress, wanted) {
  const isBc7 = format === BC7_FORMAT, values = isBc7 ? new Uint8Array(64 * across * down) : new Uint16Array(48 * across * down), modes = new Uint8Array(across * down);
  const rows = Math.max(1, Math.floor(BAND / across));
  let infinite = 0;
  for (let row = 0; row < down; row += rows) {
    const high = Math.min(rows, down - row), some = blocks.subarray(16 * across * row, 16 * across * (row + high));
    if (isBc7) {
      values.set(inRows(knot.decodeBc7(some), across, high), 64 * across * row);
      modes.set(knot.modesBc7(some), across * row);
    } else {
      const face = knot.faceCounted(some, across, high, format);
      values.set(face.values, 48 * across * row);
      modes.set(knot.modes(some, format), across * row);
      infinite += face.infinite;
    }
    if (row + high < down) {
      progress((row + high) / down);
      await pause();
      if (!wanted()) return null;
    }
  }
  return { values, modes, infinite };
}

// BC7 pixels of blocks, 64 bytes each, as rows of a picture.
function inRows(pixels, across, down) {
  const rows = new Uint8Array(pixels.length);
  for (let n = 0; n < across * down; n++) for (let y = 0; y < 4; y++) {
    const from = 64 * n + 16 * y;
    rows.set(pixels.subarray(from, from + 16), 16 * ((4 * Math.floor(n / across) + y) * across + n % across));
  }
  return rows;
}

function modesCanvas(modes, across, down, colours) {
  const canvas = make("canvas", { width: across, height: down }), image = new ImageData(across, down), pixels = new Uint32Array(image.data.buffer), numbers = colours.map(pixelOf);
  modes.forEach((mode, n) => { pixels[n] = numbers[mode]; });
  canvas.getContext("2d").putImageData(image, 0, 0);
  return canvas;
}

function modesCard(modes, isBc7) {
  const colours = isBc7 ? BC7_COLOURS : MODE_COLOURS, reserved = isBc7 ? BC7_RESERVED : 0, many = new Array(colours.length).fill(0);
  for (const mode of modes) many[mode]++;
  const most = Math.max(...many), rows = range(colours.length).filter((mode) => many[mode]).map((mode) => {
    const bar = make("i");
    Object.assign(bar.style, { background: colours[mode], width: `${100 * many[mode] / most}%` });
    return make("li", {}, make("span", {}, mode === reserved ? "reserved" : `mode ${mode}`), make("span", { class: "bar-room" }, bar), make("span", {}, many[mode].toLocaleString("en")));
  });
  return make("section", { class: "card" }, make("h2", {}, "Modes of the blocks"), make("ul", { class: "modes" }, ...rows));
}

const MARKS_TOLD = [
  [[0x7000, 0x7000, 0x7000], "above the exposure's white, drawn as white"], [[0, 0xB666, 0xAE66], "below zero: drawn as zero, and in the corner how far below"], [[0xFC00, 0, 0], "minus infinity"],
];
const FALSE_TOLD = "In false colours each colour is one stop, from low to high. A large pixel has three columns, red, green and blue: its upper half is the stop, the two lines "
  + "below say where in the stop. A small one has the colour of its brightest channel.";

function legend() {
  return make("details", { class: "marks" }, make("summary", {}, "What the marks and colours mean"),
    make("ul", { class: "legend" }, ...MARKS_TOLD.map(([pixel, words]) => {
      const canvas = make("canvas", { width: LARGE, height: LARGE, "aria-hidden": "true" });
      drawLight(canvas.getContext("2d"), Uint16Array.from(pixel), 1, 0, 0, LARGE);
      return make("li", {}, canvas, words);
    })),
    make("p", {}, FALSE_TOLD),
    make("p", { class: "swatches", "aria-hidden": "true" }, ...STEPS.map((colour) => { const one = make("i"); one.style.background = colour; return one; })));
}

function save(name, blob) {
  const link = make("a", { download: name, href: URL.createObjectURL(blob) });
  link.click();
  setTimeout(() => URL.revokeObjectURL(link.href), 10000);
}

const stem = (name) => name.replace(/\.[^.]*$/, "") || "picture";

// The whole picture as it is drawn now, a point a pixel.
function savePng(stage, name) {
  const { width, height } = stage.picture, canvas = make("canvas", { width, height });
  canvas.getContext("2d").putImageData(stage.pixels(0, 0, width, height), 0, 0);
  canvas.toBlob((blob) => save(name, blob), "image/png");
}

async function showPicture(view, { blocks, across, down, width, height, format, kind }) {
  const { knot, screen, file } = view, isBc7 = format === BC7_FORMAT, began = performance.now();
  const bar = make("progress", { max: 1, value: 0, "aria-label": "Decoding" });
  view.fill(make("p", { class: "waiting" }, "Decoding ", bar));
  const decoded = await decodePicture(knot, blocks, across, down, format, (share) => { bar.value = share; }, () => view.wanted());
  if (!decoded) return;
  const { values, modes, infinite } = decoded, pitch = 4 * across, size = isBc7 ? 4 : 3, took = performance.now() - began;
  const picture = {
    width, height, pitch, values, bytes: isBc7, modes: modesCanvas(modes, across, down, isBc7 ? BC7_COLOURS : MODE_COLOURS), parts: null, over: null,
    covers: (x, y) => x >= 0 && y >= 0 && x < width && y < height,
  };
  const inspector = new Inspector(knot, screen), box = make("div", { class: "stage" });
  const stage = new Stage(box, picture, screen, `The picture, ${width} by ${height} pixels`, (x, y, aloud) => {
    const n = across * (y >> 2) + (x >> 2), at = size * (y * pitch + x);
    inspector.tell({
      title: `x ${x}, y ${y}`, where: `pixel ${x % 4}, ${y % 4} of block ${n.toLocaleString("en")}`, values: values.subarray(at, at + size), block: blocks.subarray(16 * n, 16 * n + 16),
      format, k: 4 * (y % 4) + x % 4, facts: [["block", `column ${x >> 2}, row ${y >> 2}`]],
    }, aloud);
  });
  const pfm = pushed("Save PFM", () => save(`${stem(file.name)}.pfm`, new Blob([knot.pfmWrite(blocks, format, width, height)])));
  const exr = pushed("Save EXR", () => save(`${stem(file.name)}.exr`, new Blob([knot.exrWrite(blocks, format, width, height)])));
  if (width % 4 || height % 4) for (const button of [pfm, exr]) Object.assign(button, { disabled: true, title: "The page saves this where width and height are multiples of 4; knot export takes every size" });
  box.append(make("p", { class: "hint", "aria-hidden": "true" }, "Drag to move, wheel or pinch to zoom, click to keep a pixel"));
  const rows = [["kind", kind], ["size", `${width.toLocaleString("en")} × ${height.toLocaleString("en")} pixels`], ["format", FORMATS[format]],
    ["blocks", `${(across * down).toLocaleString("en")}: ${across} × ${down}`], ...(isBc7 ? [] : [["minus infinity", infinite ? count(infinite, "value") : "none"]]), ["decoded in", `${took.toFixed(took < 10 ? 1 : 0)} ms`], view.sumRow()];
  const png = pushed("Save PNG", () => savePng(stage, `${stem(file.name)}.png`));
  view.fill(make("div", { class: "work" },
    make("div", { class: "shown" }, stageTools(stage, ...(isBc7 ? [] : [pfm, exr]), png), box, inspector.brief, ...(isBc7 ? [] : [legend()])),
    make("aside", { class: "side", "aria-label": "Facts" }, inspector.box, make("section", { class: "card" }, make("h2", {}, "File"), factList(rows)), modesCard(modes, isBc7))));
  view.stage = stage;
  view.onRedraw(() => { stage.draw(); inspector.redraw(); });
  stage.point([width >> 1, height >> 1]);
  view.light(isBc7 ? 0 : middleExposure(values), isBc7 ? ["one"] : ["one", "false"]);
}

// BC7 without a type is read as BC7: of such a file a copy says so.
function asTyped(bytes) {
  const copy = bytes.slice();
  copy[128] = BC7_TYPED;
  return copy;
}

// Size, format and blocks of a DDS file: of its largest level, where it has several.
function readDds(knot, bytes) {
  const number = ddsWord(bytes, 128);
  if (!BC7_NUMBERS.includes(number)) return knot.ddsFirstLevel(bytes);
  return { ...knot.bc7DdsFirstLevel(number === BC7_UNTYPED ? asTyped(bytes) : bytes), format: BC7_FORMAT };
}

function showDds(view) {
  const { width, height, format, blocks } = readDds(view.knot, view.file.bytes), levels = ddsWord(view.file.bytes, 28);
  const kind = levels > 1 ? `DDS texture, the largest of ${levels} levels` : "DDS texture";
  return showPicture(view, { blocks, across: Math.ceil(width / 4), down: Math.ceil(height / 4), width, height, format, kind });
}

// How many blocks a row of bare blocks has: as asked, where that fits; else the divisor next above the root, so that the picture is wide rather than high.
function acrossOf(many, asked) {
  if (Number.isInteger(asked) && asked > 0 && many % asked === 0) return asked;
  let across = many;
  for (let k = 1; k * k <= many; k++) if (many % k === 0) across = many / k;
  return across;
}

function showBlocks(view, format) {
  const { bytes } = view.file, many = bytes.length / 16;
  if (bytes.length % 16 || !many) throw new Refused(9);
  const across = acrossOf(many, view.across()), down = many / across;
  view.askAcross(across);
  return showPicture(view, { blocks: bytes, across, down, width: 4 * across, height: 4 * down, format, kind: "bare blocks: they record neither format nor size" });
}
