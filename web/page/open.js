"use strict";
// Opens a file in this page: dropped, chosen, a sample, or the one that `knot open` put in.

const { Knotpasture, Program, Refused, WORDS, VERSION, BC7_RESERVED, FACES, EDGE_LIMIT } = knotpasture;
const at = (id) => document.getElementById(id);
const fromBase64 = (text) => Uint8Array.from(atob(text), (letter) => letter.charCodeAt(0));
const held = JSON.parse(at("held").textContent);
const SHIFT = 12;  // stops that each own exposure can be moved by

async function sumOf(bytes) {
  if (!globalThis.crypto?.subtle) return "SHA-256: not available in this browser on such a page";
  return [...new Uint8Array(await crypto.subtle.digest("SHA-256", bytes))].map((byte) => hex(byte, 2).toLowerCase()).join("");
}

// ---- what a refusal means here, and the way out

const WAYS_OUT = {
  5: "A store has at most 2,000 records. Split the file, or choose another kind above.",
  6: "Stores have 24 bytes a record, records with a place 32. The file may be cut short, or be of another kind: choose one above.",
  9: "Blocks have 16 bytes each. The file may be cut short, or have a header: choose another kind above.",
  14: "Width and height are 1 to 4,096 pixels.",
  15: "The file is shorter or longer than its width and height say. It was probably cut short while it was copied: get it again.",
};

const notice = (...lines) => make("div", { class: "notice", role: "alert" }, ...lines.map((line) => make("p", {}, line)));

function refusalTold(file, kind, error) {
  const way = error.number === 13 ? ddsCause(file.bytes) : WAYS_OUT[error.number];
  return notice(`${file.name} is ${error.message}.`, ...(way ? [way] : []), `It was read as ${KINDS_READ[kind].name}; it has ${file.bytes.length.toLocaleString("en")} bytes.`);
}

// ---- the view of one file

class View {
  constructor(knot, programs, file, kind) {
    Object.assign(this, { knot, programs, file, kind, sight, screen, stage: null, panorama: null, scene: null, facts: null, redraw: () => {} });
  }

  wanted() { return shown === this; }
  width() { return at("view").clientWidth; }
  fill(...inside) { if (this.wanted()) at("view").replaceChildren(...inside); }
  onRedraw(redraw) { this.redraw = redraw; }
  sumRow() { return ["SHA-256", make("span", { class: "sum" }, this.file.sum)]; }
  across() { return Number(at("across").value); }

  askAcross(across) {
    at("across").value = across;
    at("across-box").hidden = false;
  }

  // Begins with an exposure and the ways of drawing that the view has.
  light(stops, ways) {
    if (!this.wanted()) return;
    Object.assign(sight, { stops, shift: 0 });
    this.first = stops;
    for (const choice of document.querySelectorAll("[name=way]")) choice.parentElement.hidden = !ways.includes(choice.value);
    at("ways").hidden = ways.length < 2;
    at("looks").hidden = false;
    setWay(ways.includes(sight.way) && sight.way === "false" ? "false" : ways[0]);
  }

  // The file looks like something else than what it is read as.
  otherKind(looks, wanted, anyway) {
    at("looks").hidden = true;
    const other = looks.kind ? [pushed(`Read it as ${KINDS_READ[looks.kind].name}`, () => show(looks.kind), { class: "main" })] : [];
    this.fill(notice(`${this.file.name} looks like ${looks.words}.`, `It was opened as ${wanted}.`,
      make("span", { class: "choices" }, ...other, pushed(`Show it as ${wanted} anyway`, () => attempt(this, anyway)))));
  }
}

const KINDS_READ = {
  dds: { name: "a DDS texture", show: showDds },
  store: { name: "a store, 24 bytes a record", show: (view) => showStore(view) },
  places: { name: "records with a place, or a probe", show: (view) => showPlaces(view) },
  unsigned: { name: "bare blocks, BC6H unsigned", show: (view) => showBlocks(view, 0) },
  signed: { name: "bare blocks, BC6H signed", show: (view) => showBlocks(view, 1) },
  bc7: { name: "bare blocks, BC7", show: (view) => showBlocks(view, BC7_FORMAT) },
};

const sight = new Sight(0), screen = new Screen(sight);
let shown = null, opened = null, knot = null, programs = null;

async function attempt(view, run) {
  document.documentElement.dataset.ready = "";
  try {
    await run(view);
  } catch (error) {
    at("looks").hidden = true;
    if (!(error instanceof Refused)) console.error(error);
    view.fill(error instanceof Refused ? refusalTold(view.file, view.kind, error) : notice(`This page failed: ${error.message}.`, "Please report it, with the file if you may share it."));
  }
  if (view.wanted()) document.documentElement.dataset.ready = "yes";
}

function show(kind) {
  at("across-box").hidden = true;
  at("as").value = kind;
  shown = new View(knot, programs, opened, kind);
  return attempt(shown, KINDS_READ[kind].show);
}

async function open(name, bytes) {
  opened = { name, bytes, sum: await sumOf(bytes) };
  at("name").textContent = name;
  document.title = `${name} - Knotpasture`;
  at("as-box").hidden = false;
  at("across").value = "";
  await show(kindOf(knot, name, bytes));
}

// ---- exposure

const slider = at("exposure"), white = at("white");

function sightTold() {
  if (sight.way === "false") return "Each colour is one stop";
  if (sight.way === "one") return `${stopsTold(sight.stops)}: ${whiteTold(sight.stops)}`;
  return sight.shift === 0 ? "0 stops: no value is above white" : `${stopsTold(sight.shift)} from its own`;
}

function expose() {
  white.textContent = sightTold();
  slider.setAttribute("aria-valuetext", white.textContent);
  shown.redraw();
}

function setWay(way) {
  sight.way = way;
  for (const choice of document.querySelectorAll("[name=way]")) choice.checked = choice.value === way;
  const [min, max, value] = way === "own" ? [-SHIFT, SHIFT, sight.shift] : [DARKEST - 1, BRIGHTEST, sight.stops];
  Object.assign(slider, { min, max, step: 0.25, value, disabled: way === "false" });
  at("start").disabled = way === "false";
  expose();
}

function setStops(stops) {
  sight[sight.way === "own" ? "shift" : "stops"] = stops;
  expose();
}

let waiting = false;
slider.addEventListener("input", () => {
  if (waiting) return;
  waiting = true;
  requestAnimationFrame(() => { waiting = false; setStops(Number(slider.value)); });
});
at("start").addEventListener("click", () => {
  slider.value = sight.way === "own" ? 0 : shown.first;
  setStops(Number(slider.value));
});
for (const choice of document.querySelectorAll("[name=way]")) choice.addEventListener("change", () => setWay(choice.value));

// ---- files

for (const [kind, { name }] of Object.entries(KINDS_READ)) at("as").append(make("option", { value: kind }, name));
const openFile = async (file) => { if (file) await open(file.name, new Uint8Array(await file.arrayBuffer())); };
at("as").addEventListener("change", () => { at("across").value = ""; show(at("as").value); });
at("across").addEventListener("change", () => show(at("as").value));
for (const button of document.querySelectorAll("[data-choose]")) button.addEventListener("click", () => at("file").click());
at("file").addEventListener("change", () => {
  const [file] = at("file").files;
  at("file").value = "";  // so that the same file, changed meanwhile, can be chosen again
  openFile(file);
});
for (const name of ["dragenter", "dragover"]) addEventListener(name, (event) => { event.preventDefault(); document.body.classList.add("over"); });
addEventListener("dragleave", (event) => { if (!event.relatedTarget) document.body.classList.remove("over"); });
addEventListener("drop", (event) => { event.preventDefault(); document.body.classList.remove("over"); openFile(event.dataTransfer.files[0]); });
for (const [name, { words, bytes }] of Object.entries(held.samples)) {
  at("samples").append(make("li", {}, pushed(name, () => open(name, fromBase64(bytes))), make("span", {}, words)));
  at("sample").append(make("option", { value: name }, name));
}
at("sample").addEventListener("change", () => {
  const name = at("sample").value;
  at("sample").value = "";
  if (name) open(name, fromBase64(held.samples[name].bytes));
});

async function start() {
  const compiled = Object.fromEntries(await Promise.all(Object.entries(held.modules).map(async ([name, text]) => [name, await WebAssembly.compile(fromBase64(text))])));
  knot = new Knotpasture(compiled.knotpasture);
  programs = Object.fromEntries(Object.entries(compiled).filter(([name]) => name !== "knotpasture").map(([name, module]) => [name, new Program(module)]));
  at("sums").textContent = `Knotpasture ${VERSION}, module SHA-256 ${await sumOf(fromBase64(held.modules.knotpasture))}`;
  const given = JSON.parse(at("given").textContent), asked = held.samples[decodeURIComponent(location.hash.slice(1))];
  if (given) await open(given.name, fromBase64(given.bytes));
  else if (asked) await open(decodeURIComponent(location.hash.slice(1)), fromBase64(asked.bytes));
  document.documentElement.dataset.ready = "yes";
}

start().catch((error) => {
  at("view").replaceChildren(notice("The decoder does not run in this browser. It needs WebAssembly with 128-bit SIMD: Chrome 91, Firefox 89, Safari 16.4, or newer.", error.message));
  document.documentElement.dataset.ready = "yes";
});

// For tests in a browser.
globalThis.knotpage = { open, sight, setWay, setStops, storeFacts, faceAt, get view() { return shown; } };
