"use strict";
// What is known of one pixel and of its block, beside a picture.

// The 32 numbers of a block's fields as the 44 bytes that endpoints.js reads.
function fieldBytes(numbers) {
  const ends = [...numbers.subarray(2, 14)].flatMap((number) => [number & 255, number >> 8]);
  return Uint8Array.of(numbers[0], numbers[1], ...ends, ...numbers.subarray(14));
}

const table = (attributes, heads, rows) => make("table", attributes, make("thead", {}, make("tr", {}, ...heads)), make("tbody", {}, ...rows));
const headed = (name, ...cells) => make("tr", {}, make("th", { scope: "row" }, name), ...cells);
const heading = (name, attributes = {}) => make("th", { scope: "col", ...attributes }, name);
const factList = (rows) => make("dl", { class: "facts" }, ...rows.map(([name, ...text]) => make("div", {}, make("dt", {}, name), make("dd", {}, ...text))));

// `pixel`: title and where, in words; values, three patterns or four bytes; block, its sixteen bytes, or null; format, 0 or 1, or BC7_FORMAT; k, which pixel of the
// block; facts, more rows.
class Inspector {
  constructor(knot, screen) {
    Object.assign(this, { knot, screen, last: null });
    this.inside = make("div", {}, make("p", {}, "Point at a pixel, or tap it, for its values and its block. A click keeps the pixel; arrow keys move it."));
    this.aloud = make("p", { class: "unseen", "aria-live": "polite" });
    // one line of it, for narrow screens, where the rest is far below the picture
    this.brief = make("p", { class: "brief", "aria-hidden": "true" });
    this.box = make("section", { class: "card inspector", "aria-label": "The pixel that is pointed at" }, make("h2", {}, "Pixel"), this.inside, this.aloud);
  }

  redraw() { if (this.last) this.tell(this.last); }

  tell(pixel, aloud = false) {
    this.last = pixel;
    const numbers = pixel.format === BC7_FORMAT ? [...pixel.values].map(String) : [...pixel.values].map((pattern) => told(FLOATS[pattern]));
    this.inside.replaceChildren(this.head(pixel), this.values(pixel, numbers), ...this.block(pixel));
    this.brief.textContent = `${pixel.title}: ${[...CHANNELS, "alpha"].slice(0, numbers.length).map((name, c) => `${name} ${numbers[c]}`).join(", ")}`;
    if (aloud) this.aloud.textContent = this.brief.textContent;
  }

  head({ title, where, values, format }) {
    const swatch = make("i", { class: "swatch" }), tables = this.screen.tables(), bytes = format === BC7_FORMAT ? tables.byte : tables.half;
    swatch.style.background = `rgb(${[0, 1, 2].map((c) => bytes[values[c]]).join()})`;
    return make("div", { class: "pixel" }, swatch, make("b", {}, title), make("span", {}, where));
  }

  values({ values, format }, numbers) {
    const digits = format === BC7_FORMAT ? 2 : 4;
    return table({ class: "wide" }, [make("td", {}, ""), heading(digits === 2 ? "byte" : "half-float"), heading("value", { class: "number" })],
      numbers.map((number, c) => headed([...CHANNELS, "alpha"][c], make("td", { class: "bytes" }, hex(values[c], digits)), make("td", { class: "number" }, number))));
  }

  block(pixel) {
    const { block, format, facts, k } = pixel;
    if (!block) return [factList(facts)];
    const written = make("p", { class: "bytes block-bytes", "aria-label": "The block's sixteen bytes" }, [...block].map((byte) => hex(byte, 2)).join(" "));
    if (format === BC7_FORMAT) {
      const { mode } = this.knot.showBc7(block);
      return [factList([...facts, ["mode", mode === BC7_RESERVED ? "reserved: the block holds no picture" : String(mode)]]), written];
    }
    const { mode } = this.knot.show(block, format);
    if (!mode) return [factList([...facts, ["mode", "reserved: the block is damaged and shows zeros"]]), written];
    const fields = fieldBytes(this.knot.fieldNumbers(block, format)), two = regionsOf(fields) === 2, indices = indicesOf(fields);
    const partition = two ? [["partition", `${fields[26]}: ${fields[27]} pixels in region 1`]] : [];
    const rows = [...facts, ["mode", `${mode}, ${two ? "two regions" : "one region"}`], ...partition, ["index", `${indices[k]} of 0 to ${two ? 7 : 15}`]];
    return [factList(rows), this.endpoints(fields), this.indices(indices, k), written];
  }

  endpoints(fields) {
    const said = (numbers) => numbers.map((number) => make("td", { class: "number" }, minus(String(number))));
    return table({ class: "wide" }, [heading("endpoint"), ...CHANNELS.map((name) => heading(name, { class: "number" }))],
      range(2 * regionsOf(fields)).flatMap((e) => [headed(`${e} stored`, ...said(storedEndpoint(fields, e))), headed(`${e} transformed`, ...said(endpointOf(fields, e)))]));
  }

  indices(indices, k) {
    const cells = indices.map((index, n) => make("i", n === k ? { class: "at" } : {}, String(index)));
    return make("div", { class: "indices", role: "img", "aria-label": `Indices: ${indices.join(" ")}` }, ...cells);
  }
}
