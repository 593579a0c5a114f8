"use strict";
// The view of a store: what `knot list` and `knot audit` print, by the proved programs, and the records as report pages draw them.

const SHEET_PART = 100, SHEET_ROOM = 62;  // records in a part of the sheet, and points that a tile takes
const PAGE_WIDTH = 1056;  // points, at most
const CLOSING = /^(?:stays|kept) (\d+) removed (\d+)$/m;

// The lines of a program's text, each as words; a refused store is thrown.
function linesOf(text) {
  const refused = /^store refused (\d+)\n$/.exec(text);
  if (refused) throw new Refused(Number(refused[1]));
  return text.trimEnd().split("\n").map((line) => line.split(" "));
}

// A closing line as its counts by their names.
const countsOf = (words) => Object.fromEntries(range(words.length / 2).map((k) => [words[2 * k], Number(words[2 * k + 1])]));

// What a clean-up writes and prints: the cleaned store, and a line for each record that it removes. The program prints the text before the store, or beside it.
function cleanedBy(program, store) {
  const { out, told: beside } = program.run(store), head = beside || new TextDecoder("latin1").decode(out), closing = CLOSING.exec(head);
  if (!closing) throw new Error("the program cleaning did not end its text");
  const end = closing.index + closing[0].length + 1;
  return { text: head.slice(0, end), store: beside ? out : out.subarray(end), removed: Number(closing[2]) };
}

// Each record's values as bytes and its fields, as records.js takes them.
function shownRecords(knot, store, kinds) {
  const { values } = knot.twinsShown(store), fields = new Uint8Array(44 * kinds.length);
  [...kinds].forEach((kind, n) => { if ("sca".includes(kind)) fields.set(fieldBytes(knot.fieldNumbers(store.subarray(24 * n + 8, 24 * n + 24), store[24 * n + 4])), 44 * n); });
  return new Records(store, new Uint8Array(values.slice().buffer), fields, kinds);
}

// All that is known of a store.
function storeFacts(knot, programs, store) {
  const listing = programs.listing.text(store), rows = linesOf(listing).slice(0, -1), audit = programs.audit.text(store), lines = linesOf(audit).slice(1), counts = countsOf(lines.pop());
  const twins = lines.map(([record, , stays, , verdict, cover]) => ({ record: Number(record), stays: Number(stays), copy: verdict === "copy", covered: cover === "covered" }));
  const verdicts = new Map(twins.map((twin) => [twin.record, twin.copy ? "c" : "a"])), answers = rows.map((row) => Number(row[2]));
  const kinds = rows.map((row, n) => row[2] !== "0" ? "x" : row[3] === "0" ? "d" : verdicts.get(n) ?? "s").join("");
  const cleaned = cleanedBy(programs.cleaning, store), infinities = linesOf(programs.infinities.text(store)).slice(0, -1);
  if (cleaned.removed !== counts.copies) throw new Error("the audit's copies are not the records that the clean-up removes");
  return { store, listing, audit, counts, twins, answers, kinds, cleaned, infinities, records: shownRecords(knot, store, kinds) };
}

// ---- words

const some = (kinds, letter) => [...kinds].filter((kind) => kind === letter).length;
const isOrAre = (number) => number === 1 ? "is" : "are";

function damageTold({ kinds }) {
  const damaged = some(kinds, "d"), refused = some(kinds, "x"), total = count(kinds.length, "record");
  if (!damaged && !refused) return null;
  const said = damaged ? `${damaged.toLocaleString("en")} of ${total} ${isOrAre(damaged)} damaged` : `${refused.toLocaleString("en")} of ${total} ${isOrAre(refused)} refused`;
  return damaged && refused ? `${said} and ${refused.toLocaleString("en")} ${isOrAre(refused)} refused.` : `${said}.`;
}

function removalTold({ counts, kinds }) {
  if (!counts.copies) return "A clean-up would remove nothing.";
  const copies = counts.copies === 1 ? "it is a copy" : "each is a copy";
  return `A clean-up would remove ${counts.copies.toLocaleString("en")} of ${count(kinds.length, "record")}: ${copies} of a record that stays.`;
}

function alikeTold({ counts }) {
  if (!counts.alike) return null;
  if (counts.alike === 1) return "1 record looks like an earlier one but has other bytes. It stays.";
  return `${counts.alike.toLocaleString("en")} records look like an earlier one but have other bytes. They stay.`;
}

function verdict(facts) {
  const damage = damageTold(facts), alike = alikeTold(facts), mood = damage ? "worry" : facts.counts.copies ? "removes" : "nothing";
  return make("div", { class: `verdict ${mood}`, id: "verdict" },
    ...(damage ? [make("p", { class: "damage" }, damage)] : []), make("p", {}, removalTold(facts)), ...(alike ? [make("p", { class: "less" }, alike)] : []));
}

const faultTold = (facts, n) => facts.kinds[n] === "d" ? "damaged: its block has a reserved mode and holds no picture" : `refused, ${facts.answers[n]}: ${WORDS[facts.answers[n]]}`;

// ---- parts of the page

const section = (title, ...inside) => make("section", {}, make("h2", {}, title), ...inside);

function faultRows(facts) {
  const rows = range(facts.kinds.length).filter((n) => "dx".includes(facts.kinds[n])).map((n) => () => make("tr", {},
    make("td", {}, make("a", { href: `#record-${n}` }, `record ${n}`)), make("td", {}, String(facts.records.tile(n))), make("td", {}, faultTold(facts, n))));
  return rowsShown(["record", "tile", "cause"], rows, 20);
}

function infinityRows(facts) {
  const rows = facts.infinities.map(([n, tile, many, pixel, channel]) => () => make("tr", {},
    make("td", {}, make("a", { href: `#record-${n}` }, `record ${n}`)), make("td", {}, tile), make("td", {}, many), make("td", {}, `column ${pixel % 4}, row ${pixel >> 2}, ${channel}`)));
  return rowsShown(["record", "tile", "values", "the first"], rows, 20);
}

const SHEET_LEGEND = [
  ["stays", "", "stays"], ["copy", "C", "copy: would be removed"], ["alike", "A", "looks alike: stays"], ["damaged", "D", "damaged: stays"], ["refused", "×", "refused: stays"],
];

function sheetLegend() {
  const kinds = SHEET_LEGEND.map(([name, sign, words]) => make("li", { class: name }, make("span", { class: "edge" }), ...(sign ? [make("b", {}, sign), " "] : []), words));
  return make("ul", { class: "legend" }, ...kinds, make("li", {}, make("b", {}, "±"), " behind a number: a signed tile"));
}

function sheetOf(scene, records, exposure, width) {
  const across = Math.max(1, Math.floor(width / SHEET_ROOM)), lists = [];
  for (let first = 0; first < records.count; first += SHEET_PART) {
    const numbers = range(Math.min(SHEET_PART, records.count - first)).map((k) => first + k);
    const list = make("ul", { class: "sheet", "aria-label": `Records ${first} to ${first + numbers.length - 1}` });
    list.style.minHeight = `${4.6 * Math.ceil(numbers.length / across)}rem`;
    scene.part(list, (part) => sheetPart(part, records, numbers, exposure));
    lists.push(list);
  }
  return lists;
}

function classCards(scene, records, classes) {
  return make("div", { class: "classes" }, ...classes.map((group) => {
    const card = make("article", { class: `card class${group.alike.length ? " wide" : ""}`, id: `class-${group.root}`, "aria-label": `Record ${group.root}: ${classTold(group)}` });
    scene.part(card, (part) => classCard(part, records, group));
    return card;
  }));
}

// One record by itself, where a link asks for it, and the way back.
function singleRecord(scene, facts) {
  const box = make("div", { id: "single", class: "card", hidden: "" });
  let from = 0;
  const close = () => {
    scene.forget(box);
    box.replaceChildren();
    box.hidden = true;
    scrollTo(0, from);
  };
  const open = (n) => {
    if (box.hidden) from = scrollY;
    scene.forget(box);
    box.replaceChildren(make("p", {}, pushed("Back to where I was", close)));
    box.hidden = false;
    scene.part(box, (part) => recordCard(part, facts.records, n, faultTold(facts, n))).show();
    box.scrollIntoView({ block: "nearest" });
    box.querySelector("h3").focus({ preventScroll: true });
  };
  return { box, open };
}

function storeHead(view, facts, cleanSum) {
  const { bytes, name } = view.file, left = facts.cleaned.store.length;
  return [verdict(facts), factList([
    ["store", name], view.sumRow(), ["length", `${bytes.length.toLocaleString("en")} bytes, ${count(facts.kinds.length, "record")}`],
    ["after a clean-up", `${count(left / 24, "record")}, ${left.toLocaleString("en")} bytes`, make("span", { class: "sum" }, cleanSum)],
  ])];
}

function picturesPart(scene, facts) {
  const classes = classesOf(facts.twins), title = `Pictures that more than one record shows: ${classes.length.toLocaleString("en")}`;
  if (!classes.length) return section(title, make("p", {}, "No record shows the picture of an earlier one."));
  const words = ["Those with records that look alike come first. This page does not write a cleaned store: ", make("code", {}, "knot clean"), " does, with a receipt that undoes it."];
  return section(title, make("p", {}, ...words), classCards(scene, facts.records, classes));
}

// What a command prints of the store.
function printedPart(title, command, words, id, text) {
  return section(title, make("p", {}, "What ", make("code", {}, command), words), make("pre", { tabindex: "0", id, "aria-label": title }, text));
}

function printedParts({ listing, audit, cleaned, counts }) {
  const removed = counts.copies ? "each record that it removes, its tile, the record that stays for it, and that one's tile" : "it removes nothing";
  return [
    printedPart("The listing", "knot list", " prints: record, tile, answer, mode, mark and pixel 15.", "listing", listing),
    printedPart("The audit", "knot audit", " prints of the records that show the picture of an earlier one.", "audit", audit),
    printedPart("The clean-up", "knot clean", ` would print: ${removed}.`, "cleaning", cleaned.text),
  ];
}

async function showStore(view, asStore = false) {
  const { knot, file } = view, looks = asStore ? null : looksLike(knot, file.bytes, PLAIN);
  if (looks) return view.otherKind(looks, "a store of 24-byte records", () => showStore(view, true));
  const facts = storeFacts(knot, view.programs, file.bytes), scene = new Scene(view.sight), single = singleRecord(scene, facts);
  const exposure = middleExposure(facts.records.values), cleanSum = await sumOf(facts.cleaned.store);
  const page = make("div", { class: "page" }, ...storeHead(view, facts, cleanSum), ...(damageTold(facts) ? [section("Damaged and refused records", ...faultRows(facts))] : []),
    picturesPart(scene, facts), section("All records, in order", sheetLegend(), single.box, ...sheetOf(scene, facts.records, exposure, Math.min(PAGE_WIDTH, view.width()))),
    section("Minus infinity", ...(facts.infinities.length ? infinityRows(facts) : [make("p", {}, "No value is minus infinity.")])), ...printedParts(facts));
  page.addEventListener("click", (event) => {
    const link = event.target.closest("a[href^='#record-']");
    if (!link) return;
    event.preventDefault();
    single.open(Number(link.getAttribute("href").slice("#record-".length)));
  });
  view.fill(page);
  Object.assign(view, { scene, facts });
  view.onRedraw(() => scene.redraw());
  view.light(exposure, ["own", "one", "false"]);
}
