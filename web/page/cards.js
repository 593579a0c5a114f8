"use strict";
// Cards: a tile with its pixels in words, what is stored, and the records that show one picture.

const DRAWN = 8, ROWS = 8;  // alike records that a card draws, and rows of copies that it shows, before one asks for more

function make(tag, attributes = {}, ...children) {
  const element = document.createElement(tag);
  for (const [name, value] of Object.entries(attributes)) element.setAttribute(name, value);
  element.append(...children);
  return element;
}

const range = (count) => Array.from({ length: count }, (_, k) => k);
const count = (number, word, words = `${word}s`) => `${number.toLocaleString("en")} ${number === 1 ? word : words}`;
const whereTold = (k) => `column ${k % 4}, row ${k >> 2}`;
const tripleTold = (patterns, k) => CHANNELS.map((name, c) => `${name} ${told(FLOATS[patterns[3 * k + c]])} (${hex(patterns[3 * k + c], 4)})`).join(", ");
const lookTold = (look) => look.way === "false" ? "False colours" : `Drawn at ${stopsTold(look.stops)}: ${whiteTold(look.stops)}`;

// ---- a tile

// A tile, large; a pixel's triple is told on hover, on a tap and by the arrow keys.
function tileFigure(part, records, n, caption, readout, after) {
  const cursor = make("i", { class: "cursor", hidden: "" }), patterns = records.patterns(n);
  const canvas = part.canvas(patterns, ownExposure(patterns), LARGE, {
    class: "tile", tabindex: "0", role: "img", "data-record": n,
    "aria-label": `${records.pictureTold(n)}, drawn from its 48 values. The arrow keys tell its pixels.`,
  }, after);
  let at = 0;
  const tell = (k) => {
    at = k;
    cursor.hidden = false;
    cursor.style.left = `${k % 4 * 25}%`;
    cursor.style.top = `${(k >> 2) * 25}%`;
    readout.textContent = `Record ${n}, ${whereTold(k)}: ${tripleTold(patterns, k)}`;
  };
  const pointed = (event) => {
    const box = canvas.getBoundingClientRect();
    const place = (offset, size) => Math.min(3, Math.max(0, Math.floor(4 * offset / size)));
    tell(4 * place(event.clientY - box.top, box.height) + place(event.clientX - box.left, box.width));
  };
  canvas.addEventListener("pointermove", pointed);
  canvas.addEventListener("pointerdown", pointed);
  canvas.addEventListener("pointerleave", (event) => { cursor.hidden = event.pointerType === "mouse" && document.activeElement !== canvas; });
  canvas.addEventListener("focus", () => { if (canvas.matches(":focus-visible")) tell(at); });
  canvas.addEventListener("blur", () => { cursor.hidden = true; });
  canvas.addEventListener("keydown", (event) => {
    const step = { ArrowRight: 1, ArrowLeft: 15, ArrowDown: 4, ArrowUp: 12 }[event.key];
    if (step) { event.preventDefault(); tell((at + step) % 16); }
  });
  return make("figure", { "data-tile": n }, make("div", { class: "frame" }, canvas, cursor), make("figcaption", {}, caption));
}

const readoutOf = () => make("p", { class: "readout", "aria-live": "polite" }, "Tap or point at a pixel for its values.");

// ---- what is stored

// What is stored in a record, row by row: the name, and the words of record n.
const STORED = [
  ["format", (records, n) => [records.isSigned(n) ? "signed" : "unsigned"]],
  ["mode", (records, n) => [modeOf(records.fieldsOf(n))]],
  ["partition", (records, n) => [regionsOf(records.fieldsOf(n)) === 2 ? records.fieldsOf(n)[26] : "one region"]],
  ...range(4).flatMap((e) => [["", storedEndpoint], [" transformed", endpointOf]].map(([name, endpoint]) => [
    `endpoint ${e}${name}`,
    (records, n) => e < 2 * regionsOf(records.fieldsOf(n)) ? endpoint(records.fieldsOf(n), e).map((number) => minus(String(number))) : ["none"],
  ])),
  ...range(4).map((row) => [`indices ${row}`, (records, n) => indicesOf(records.fieldsOf(n)).slice(4 * row, 4 * row + 4)]),
  ...range(4).map((row) => [`bytes ${4 * row} to ${4 * row + 3}`, (records, n) => [...records.block(n).slice(4 * row, 4 * row + 4)].map((byte) => hex(byte, 2))]),
];

// Records as stored, beside each other. A row that is not the same in all of them says so in its last column, and its words that differ are marked.
function storedTable(records, numbers) {
  const body = make("tbody");
  for (const [name, wordsOf] of STORED) {
    const columns = numbers.map((n) => wordsOf(records, n));
    if (columns.every((words) => words[0] === "none")) continue;
    const differs = (k) => columns.some((words) => words[k] !== columns[0][k]);
    const cells = columns.map((words) => make("td", name.startsWith("bytes") ? { class: "bytes" } : {}, ...words.flatMap((word, k) =>
      [k ? " " : "", differs(k) ? make("mark", {}, String(word)) : String(word)])));
    const last = numbers.length > 1 ? [make("td", { class: "differs" }, range(4).some(differs) ? "differs" : "")] : [];
    body.append(make("tr", {}, make("th", { scope: "row" }, name), ...cells, ...last));
  }
  const heads = [make("td", {}, "stored"), ...numbers.map((n) => make("th", { scope: "col" }, `record ${n}`)), ...numbers.slice(1, 2).map(() => make("td"))];
  return make("div", { class: "scroll", tabindex: "0", role: "group", "aria-label": "What is stored" },
    make("table", { class: "stored" }, make("thead", {}, make("tr", {}, ...heads)), body));
}

// A fold whose inside is made when it is opened.
function fold(summary, build) {
  const details = make("details", {}, make("summary", {}, summary));
  details.addEventListener("toggle", () => { if (details.open && details.children.length === 1) details.append(build()); });
  return details;
}

const storedFold = (records, n) => fold(`What is stored in record ${n}`, () => storedTable(records, [n]));

const valuesFold = (records, n) => fold(`All 48 values of record ${n} in numbers`, () => {
  const patterns = records.patterns(n), body = make("tbody");
  for (const k of range(16)) {
    const cells = CHANNELS.map((_, c) => make("td", {}, `${told(FLOATS[patterns[3 * k + c]])} (${hex(patterns[3 * k + c], 4)})`));
    body.append(make("tr", {}, make("th", { scope: "row" }, whereTold(k)), ...cells));
  }
  const head = make("tr", {}, make("td", {}, "pixel"), ...CHANNELS.map((name) => make("th", { scope: "col" }, name)));
  return make("div", { class: "scroll", tabindex: "0", role: "group", "aria-label": `The values of record ${n}` }, make("table", {}, make("thead", {}, head), body));
});

// ---- the records that show one picture

const recordLink = (n) => make("a", { href: `#record-${n}` }, `record ${n}`);

// The first rows of a table, and a button for the others.
function rowsShown(head, rows, first) {
  const body = make("tbody", {}, ...rows.slice(0, first).map((row) => row()));
  const box = make("div", { class: "scroll" }, make("table", {}, make("thead", {}, make("tr", {}, ...head.map((name) => make("th", { scope: "col" }, name)))), body));
  if (rows.length <= first) return [box];
  const more = make("button", { type: "button", class: "more" }, `Show all ${rows.length.toLocaleString("en")}`);
  more.addEventListener("click", () => { body.append(...rows.slice(first).map((row) => row())); more.remove(); });
  return [box, more];
}

// The copies of a class, a row each. Where each of them is a copy of the root, the record that stays goes without saying.
function copiesTable(records, { root, copies }) {
  const cell = (...children) => make("td", {}, ...children), ofRoot = copies.every((twin) => twin.stays === root);
  const staying = (n) => ofRoot ? [] : [cell(recordLink(n)), cell(String(records.tile(n)))];
  const rows = copies.map(({ record, stays }) => () => make("tr", { "data-copy": record }, cell(recordLink(record)), cell(String(records.tile(record))), ...staying(stays)));
  return rowsShown(["removed", "its tile", ...(ofRoot ? [] : ["stays for it", "its tile"])], rows, ROWS);
}

// Why the theorem on copies is named or not, for those who ask.
function coverTold({ alike, copies }) {
  const covered = copies.filter((twin) => twin.covered).length;
  const bytes = copies.length ? "A copy is removed because its bytes were compared and are the same, whatever its picture. " : "";
  const other = alike.length ? "A record that looks alike has other bytes, and no earlier record has its bytes: a clean-up never removes it. " : "";
  const theorem = covered ? `For ${covered === copies.length ? (covered === 1 ? "this copy" : "these copies") : `${covered} of these copies`} the copies theorem also proves the way back: the same picture can come from the same bytes only.` : "";
  return bytes + other + theorem;
}

function alikeBeside(part, records, root, twin, after) {
  const readout = readoutOf();
  return make("div", { class: "beside" },
    make("div", { class: "tiles" },
      tileFigure(part, records, root, `${records.pictureTold(root)}: stays`, readout, after),
      tileFigure(part, records, twin.record, `${records.pictureTold(twin.record)}: looks alike, stays`, readout),
      readout),
    make("div", { class: "compared" },
      make("p", { class: "difference" }, differenceTold(records.fieldsOf(root), records.fieldsOf(twin.record))),
      storedTable(records, [root, twin.record])));
}

function classTold({ alike, copies }) {
  const said = [];
  if (alike.length) said.push(`${count(alike.length, "record looks", "records look")} like it and ${alike.length === 1 ? "stays" : "stay"}`);
  if (copies.length) said.push(`${count(copies.length, "copy is", "copies are")} removed`);
  return said.join("; ");
}

// The alike records of a class: the first are drawn beside its root, the others are rows.
function alikeShown(part, records, root, alike, after) {
  const drawn = alike.slice(0, DRAWN).map((twin) => alikeBeside(part, records, root, twin, after));
  if (alike.length <= DRAWN) return drawn;
  const cell = (...children) => make("td", {}, ...children);
  const rows = alike.slice(DRAWN).map(({ record }) => () => make("tr", {},
    cell(recordLink(record)), cell(String(records.tile(record))), cell(differenceTold(records.fieldsOf(root), records.fieldsOf(record)))));
  return [...drawn, ...rowsShown(["looks alike, stays", "its tile", `beside record ${root}`], rows, ROWS)];
}

// The root of a class without alike records, and its copies.
function copiesShown(part, records, group, after) {
  const { root } = group, readout = readoutOf(), figure = tileFigure(part, records, root, `${records.pictureTold(root)}: stays`, readout, after);
  return [make("div", { class: "beside" }, figure, make("div", { class: "copies" }, ...copiesTable(records, group))), readout];
}

// One card for the records that show one picture: those that look alike are drawn beside the first, copies are rows.
function classCard(part, records, group) {
  const { root, alike, copies } = group, exposed = make("p", { class: "exposed" });
  const tell = (look) => { exposed.textContent = lookTold(look); };
  const words = [[alike, "alike", "looks alike, stays", "look alike, stay"], [copies, "copy", "copy, removed", "copies, removed"]].filter(([some]) => some.length);
  part.element.append(
    make("h3", { tabindex: "-1" }, `Record ${root}, tile ${records.tile(root)}: ${classTold(group)}`),
    make("p", { class: "words" }, ...words.map(([some, name, one, more]) => make("span", { class: `word ${name}` }, count(some.length, one, more)))));
  if (alike.length) part.element.append(...alikeShown(part, records, root, alike, tell), ...(copies.length ? copiesTable(records, group) : []));
  else part.element.append(...copiesShown(part, records, group, tell));
  part.element.append(exposed, make("div", { class: "folds" },
    ...(alike.length ? [] : [storedFold(records, root)]), valuesFold(records, root), fold("Why is that safe?", () => make("p", {}, coverTold(group)))));
}

// ---- one record by itself

function recordCard(part, records, n, reason) {
  const beside = make("div", { class: "beside" });
  part.element.append(make("h3", { tabindex: "-1" }, `Record ${n}, tile ${records.tile(n)}: ${records.kind(n)[2]}`), beside);
  if (!records.hasPicture(n)) {
    beside.append(make("div", {}, make("p", {}, reason), make("p", { class: "bytes" }, [...records.bytes(n)].map((byte) => hex(byte, 2)).join(" "))));
    return;
  }
  const readout = readoutOf(), exposed = make("p", { class: "exposed" });
  const figure = tileFigure(part, records, n, records.pictureTold(n), readout, (look) => { exposed.textContent = lookTold(look); });
  beside.append(make("div", { class: "tiles" }, figure, readout, exposed), storedTable(records, [n]));
  part.element.append(make("div", { class: "folds" }, valuesFold(records, n)));
}

// ---- a sheet of small tiles

// Some records, a small tile each. `own` is the exposure that all of them are opened at.
function sheetPart(part, records, numbers, own) {
  for (const n of numbers) {
    const [kind, sign, says] = records.kind(n), shown = records.hasPicture(n);
    const picture = shown ? part.canvas(records.patterns(n), own, SMALL, { "data-record": n, "aria-hidden": "true" }) : make("span", { class: "none" });
    const name = `${shown ? records.pictureTold(n) : records.told(n)}: ${says}`;
    const link = make("a", { href: `#record-${n}`, title: name, "aria-label": name }, picture, `${n}${shown && records.isSigned(n) ? "\u00B1" : ""}`);
    if (sign) link.append(make("b", { "aria-hidden": "true" }, sign));
    part.element.append(make("li", { class: kind }, link));
  }
}
