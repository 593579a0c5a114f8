// The report's own script: what web/page/ draws, over the data that this page holds.
const data = JSON.parse(document.getElementById("data").textContent);
const bytesOf = (text) => Uint8Array.from(atob(text), (letter) => letter.charCodeAt(0));
const records = new Records(bytesOf(data.store), bytesOf(data.values), bytesOf(data.fields), data.kinds);
const twins = data.twins.map(([record, stays, copy, covered]) => ({ record, stays, copy: copy === 1, covered: covered === 1 }));
const classes = classesOf(twins);
const sight = new Sight(data.exposure), scene = new Scene(sight);
const at = (id) => document.getElementById(id);

// ---- exposure

const SHIFT = 12;  // stops that each own exposure can be moved by
const slider = at("exposure"), white = at("white");

function sightTold() {
  if (sight.way === "false") return "Each colour is one stop";
  if (sight.way === "one") return `${stopsTold(sight.stops)}: ${whiteTold(sight.stops)}`;
  return sight.shift === 0 ? "0 stops: none above white" : `${stopsTold(sight.shift)} from its own`;
}

function expose() {
  white.textContent = sightTold();
  slider.setAttribute("aria-valuetext", white.textContent);
  scene.redraw();
}

// The slider moves each own exposure, or is the one for all; in false colours there is none.
function setWay(way) {
  sight.way = way;
  const [least, most, value] = way === "one" ? [DARKEST - 1, BRIGHTEST, sight.stops] : [-SHIFT, SHIFT, sight.shift];
  Object.assign(slider, { min: least, max: most, step: 0.25, value, disabled: way === "false" });
  at("start").disabled = way === "false";
  expose();
}

function setStops(stops) {
  sight[sight.way === "one" ? "stops" : "shift"] = stops;
  expose();
}

let waiting = false;
slider.addEventListener("input", () => {
  if (waiting) return;
  waiting = true;
  requestAnimationFrame(() => { waiting = false; setStops(Number(slider.value)); });
});
at("start").addEventListener("click", () => {
  slider.value = sight.way === "one" ? data.exposure : 0;
  setStops(Number(slider.value));
});
for (const choice of document.querySelectorAll("[name=way]")) choice.addEventListener("change", () => setWay(choice.value));

// ---- the records that show one picture, a card for each

const cards = new Map();  // root -> its card
for (const group of classes) {
  const card = make("article", { class: `card class${group.alike.length ? " wide" : ""}`, id: `class-${group.root}`, "aria-label": `Record ${group.root}: ${classTold(group)}` });
  cards.set(group.root, card);
  at("classes").append(card);
  scene.part(card, (part) => classCard(part, records, group));
}

const members = ({ root, alike, copies }) => [root, ...alike.map((twin) => twin.record), ...copies.map((twin) => twin.record)];
const classOf = new Map(classes.flatMap((group) => members(group).map((n) => [n, group])));

function filterClasses() {
  const kind = at("kind").value, which = at("which").value.trim();
  let shown = 0;
  for (const group of classes) {
    const ofKind = kind === "" || (kind === "a" ? group.alike : group.copies).length > 0;
    const named = which === "" || members(group).some((n) => String(n) === which || String(records.tile(n)) === which);
    cards.get(group.root).hidden = !(ofKind && named);
    shown += ofKind && named;
  }
  at("shown").textContent = `${count(shown, "card")} of ${classes.length.toLocaleString("en")}`;
}
at("kind").addEventListener("change", filterClasses);
at("which").addEventListener("input", filterClasses);
at("filter").addEventListener("submit", (event) => event.preventDefault());

// ---- all records

const CHUNK = 100, SHEET_TILE = 62;  // records in a part of the sheet or some more, and the room of one
const sheet = at("sheet");

function fillSheet() {
  for (const list of sheet.children) scene.forget(list);
  sheet.replaceChildren();
  const kind = at("sheet-kind").value, numbers = range(records.count).filter((n) => kind === "" || records.kinds[n] === kind);
  const across = Math.max(1, Math.floor(sheet.clientWidth / SHEET_TILE));
  const chunk = across * Math.ceil(CHUNK / across);
  for (let first = 0; first < numbers.length; first += chunk) {
    const some = numbers.slice(first, first + chunk);
    const list = make("ul", { class: "sheet", "aria-label": `Records ${some[0]} to ${some[some.length - 1]}`, style: `min-height: ${Math.ceil(some.length / across) * 4.6}rem` });
    sheet.append(list);
    scene.part(list, (part) => sheetPart(part, records, some, data.exposure));
  }
}
at("sheet-kind").addEventListener("change", fillSheet);

// ---- one record by itself, where a link or a number asks for it; and the way back to where one was

const single = at("single");

function reasonOf(n) {
  if (records.kinds[n] === "d") return "Its mode is reserved: the block is damaged and holds no picture. A clean-up leaves it as it is.";
  if (records.kinds[n] === "x") return `The record is refused, ${data.answers[n]}: ${data.meanings[data.answers[n]]}. It has no picture. A clean-up leaves it as it is.`;
  return "";
}

function closeRecord() {
  scene.forget(single);
  single.replaceChildren();
  single.hidden = true;
}

function openRecord(n) {
  single.hidden = false;
  const step = (to, text) => make("a", { href: `#record-${to}` }, text);
  const steps = [...(n > 0 ? [step(n - 1, "Previous record")] : []), ...(n + 1 < records.count ? [step(n + 1, "Next record")] : [])];
  if (classOf.has(n)) steps.push(make("a", { href: `#class-${classOf.get(n).root}` }, "All records that show this picture"));
  const back = make("button", { type: "button" }, "Back to where I was");
  back.addEventListener("click", goBack);
  single.append(make("p", { class: "steps-of" }, back, ...steps));
  scene.part(single, (part) => recordCard(part, records, n, reasonOf(n))).show();
  goTo(single);
}

function openClass(root) {
  const card = cards.get(root);
  if (!card) return;
  if (card.hidden) { at("kind").value = at("which").value = ""; filterClasses(); }
  scene.parts.get(card).show();
  goTo(card);
}

function goTo(card) {
  card.scrollIntoView({ block: "start" });
  card.querySelector("h3").focus({ preventScroll: true });
}

function follow() {
  const asked = /^#(record|class)-(\d+)$/.exec(location.hash), n = asked ? Number(asked[2]) : -1;
  closeRecord();
  if (asked && asked[1] === "class") openClass(n);
  if (asked && asked[1] === "record" && n < records.count) openRecord(n);
  const there = location.hash && !asked ? at(location.hash.slice(1)) : null;
  if (there) { there.scrollIntoView(); there.focus({ preventScroll: true }); }
}

// Where one was before each step: the place in the page, and what had the focus.
const trail = [];

function jump(hash) {
  trail.push({ hash: location.hash, top: window.scrollY, focus: document.activeElement });
  at("back").disabled = false;
  if (location.hash === hash) follow(); else location.hash = hash;
}

function goBack() {
  const was = trail.pop() ?? { hash: "", top: 0, focus: null };
  at("back").disabled = trail.length === 0;
  history.replaceState(null, "", was.hash || location.pathname + location.search);
  follow();
  window.scrollTo(0, was.top);
  if (was.focus && was.focus.isConnected) was.focus.focus({ preventScroll: true });
}

document.addEventListener("click", (event) => {
  const link = event.target.closest("a[href^='#']");
  if (!link || event.ctrlKey || event.metaKey || event.shiftKey) return;
  event.preventDefault();
  jump(link.getAttribute("href"));
});
window.addEventListener("hashchange", follow);
at("back").addEventListener("click", goBack);
at("number").max = records.count - 1;
at("go").addEventListener("submit", (event) => {
  event.preventDefault();
  if (at("number").value !== "" && at("number").checkValidity()) jump(`#record-${Number(at("number").value)}`);
});

// ---- commands to copy

for (const button of document.querySelectorAll("[data-copy]")) {
  button.addEventListener("click", async () => {
    const code = at(button.dataset.copy);
    getSelection().selectAllChildren(code);
    try { await navigator.clipboard.writeText(code.textContent); } catch { document.execCommand("copy"); }
    button.textContent = "Copied";
    setTimeout(() => { button.textContent = "Copy"; }, 1500);
  });
}

// ---- print: the sheet is built, and the first records that look alike are drawn at two exposures; the lists are in the page as they are

const ALIKE_PRINTED = 60, DARK_STOPS = 6;

function printedTile(n, stops) {
  const canvas = make("canvas", { role: "img", "aria-label": `${records.told(n)}, ${whiteTold(stops)}`, "data-record": n, "data-stops": stops });
  drawTile(canvas, records.patterns(n), { way: "light", stops }, PRINTED);
  return canvas;
}

function printedAlike({ record, stays }) {
  const own = ownExposure(records.patterns(record));
  return make("div", { "data-alike": record }, printedTile(record, own), printedTile(record, own + DARK_STOPS), make("p", {},
    `Record ${record}, tile ${records.tile(record)}, looks like record ${stays}, tile ${records.tile(stays)}, and stays. ${differenceTold(records.fieldsOf(stays), records.fieldsOf(record))} `
    + `Left ${whiteTold(own)}, right ${whiteTold(own + DARK_STOPS)}.`));
}

function prepare() {
  const alike = twins.filter((twin) => !twin.copy);
  at("alikes").replaceChildren(...alike.slice(0, ALIKE_PRINTED).map(printedAlike));
  at("alikes-more").textContent = alike.length > ALIKE_PRINTED ? `The first ${ALIKE_PRINTED} are drawn here; the page on the screen draws all of them.` : "";
  for (const list of sheet.children) scene.parts.get(list).show();
}

function restore() {
  at("alikes").replaceChildren();
  for (const part of scene.parts.values()) if (!part.near) part.rest();
}
window.addEventListener("beforeprint", prepare);
window.addEventListener("afterprint", restore);
const paper = matchMedia("print");
paper.addEventListener("change", () => paper.matches ? prepare() : restore());

// ---- the legend

const LEGEND = { white: [0x7000, 0x7000, 0x7000], negative: [0, 0xB666, 0xAE66], infinite: [0xFC00, 0, 0] };
for (const canvas of document.querySelectorAll("[data-legend]")) drawLight(canvas.getContext("2d"), LEGEND[canvas.dataset.legend], 1, 0, 0, LARGE);
for (const colour of STEPS) at("swatches").append(make("i", { style: `background: ${colour}` }));

filterClasses();
fillSheet();
setWay("own");
follow();
if (paper.matches) prepare();
document.documentElement.dataset.ready = "yes";
