"use strict";
// Which kind of file a file is, by the rule of the commands: stores have no header, so both readings are looked at, by the proved record calls.

const PLAIN = 24, PLACED = 32, PLAIN_LIMIT = 48000, PLACED_LIMIT = 64000;
const NO_PLACE = "255 0 0 0 0";  // face, column and row of a record that is not placed, byte by byte
const BC7_FORMAT = 2;  // the number that stands here for BC7, beside 0 unsigned and 1 signed
const DDS_FORMATS = { 95: "BC6H unsigned", 96: "BC6H signed", 97: "BC7", 98: "BC7", 99: "BC7 sRGB" };
const BC7_NUMBERS = [97, 98, 99], BC7_UNTYPED = 97, BC7_TYPED = 98;
const MOST_LEVELS = 13;
// Other DXGI formats that one meets in DDS files.
const OTHER_FORMATS = {
  2: "RGBA, 32-bit float", 10: "RGBA, 16-bit float", 28: "RGBA, 8 bits", 29: "RGBA, 8 bits, sRGB",
  71: "BC1", 72: "BC1 sRGB", 74: "BC2", 77: "BC3", 78: "BC3 sRGB", 80: "BC4", 83: "BC5", 94: "BC6H, typeless",
};

const startsWith = (bytes, text) => bytes.length >= text.length && [...text].every((letter, k) => bytes[k] === letter.charCodeAt(0));
const isDds = (bytes) => startsWith(bytes, "DDS \x7c\0\0\0");
const isPfm = (bytes) => startsWith(bytes, "PF\n") && /^[0-9 ]{2}$/.test(String.fromCharCode(...bytes.subarray(3, 5)));

// A file read in one of the two forms: for each record what the record call answers, and its fields where that is 0; `places` are those of records that are
// placed; `share` is how much of it is refused, all of it where no store of that form has its length.
function readingOf(knot, bytes, form) {
  const badLength = bytes.length > (form === PLAIN ? PLAIN_LIMIT : PLACED_LIMIT) ? 5 : bytes.length % form ? 6 : 0, view = new DataView(bytes.buffer, bytes.byteOffset, bytes.length);
  const records = badLength ? [] : range(bytes.length / form).map((n) => {
    try {
      return { n, answer: 0, ...(form === PLAIN ? knot.record(bytes, n) : knot.placedRecord(bytes, n)) };
    } catch (error) {
      if (!(error instanceof Refused)) throw error;
      return { n, answer: error.number, tile: view.getUint32(form * n, true) };
    }
  });
  const refused = records.filter((one) => one.answer).length, places = range(Math.ceil(bytes.length / PLACED)).map((n) => [...bytes.subarray(PLACED * n + 5, PLACED * n + 10)].join(" "));
  return { form, badLength, records, refused, places: places.filter((place) => place !== NO_PLACE), share: badLength ? 1 : refused / Math.max(records.length, 1) };
}

const hasRefused = (reading) => reading.badLength !== 0 || reading.refused > 0;

// Three quarters of the placed records have places of their own, which those of a true store have; black tiles read so have nearly all one.
const hasPlacesApart = ({ form, places }) => form === PLAIN || 4 * new Set(places).size >= 3 * places.length;

const fitsBetter = (other, own) => other.records.length > 0 && hasPlacesApart(other) && 4 * other.share <= own.share;

const storeInWords = ({ form, records }) => `a store of ${count(records.length, "record")}${form === PLACED ? " with a place, such as a probe" : " of 24 bytes"}`;

// What a file that is given as a store of `form` looks like instead, and as which kind this page reads that; null where it may well be that store.
function looksLike(knot, bytes, form) {
  const own = readingOf(knot, bytes, form);
  if (!hasRefused(own)) return null;
  if (isDds(bytes)) return { words: "a DDS file", kind: "dds" };
  if (isPfm(bytes)) return { words: "a Portable Float Map, which this page does not read", kind: null };
  const other = readingOf(knot, bytes, form === PLAIN ? PLACED : PLAIN);
  if (fitsBetter(other, own)) return { words: storeInWords(other), kind: other.form === PLAIN ? "store" : "places" };
  const many = own.records.length;
  if (many > 1 && 2 * own.refused > many) return { words: `no store at all: ${own.refused.toLocaleString("en")} of its ${many.toLocaleString("en")} records are refused`, kind: null };
  return null;
}

const ENDINGS = { dds: "dds", store: "store", places: "places", probe: "places", block: "unsigned", blocks: "unsigned", bc7: "bc7" };

// The kind that a file is opened as: by its first bytes, by its name's ending, or by which reading fits.
function kindOf(knot, name, bytes) {
  if (isDds(bytes) || startsWith(bytes, "DDS ")) return "dds";
  const ending = ENDINGS[/\.([a-z0-9]+)$/i.exec(name)?.[1]?.toLowerCase()];
  if (ending) return ending;
  const plain = readingOf(knot, bytes, PLAIN), placed = readingOf(knot, bytes, PLACED);
  if (!hasRefused(plain)) return "store";
  if (fitsBetter(placed, plain)) return "places";
  return bytes.length % 16 === 0 && 2 * plain.share > 1 ? "unsigned" : "store";
}

// The 32-bit number at a byte of a DDS file, low byte first; 0 where the file ends before.
const ddsWord = (bytes, at) => bytes.length >= at + 4 ? new DataView(bytes.buffer, bytes.byteOffset).getUint32(at, true) : 0;

// Why a DDS file's header is not one that is read, in words; null where this does not say.
function ddsCause(bytes) {
  if (!startsWith(bytes, "DDS ")) return "It does not begin as a DDS file does.";
  if (bytes.length < 148) return `It has ${bytes.length} bytes, and the headers alone have 148.`;
  const word = (at) => ddsWord(bytes, at), code = String.fromCharCode(...bytes.subarray(84, 88));
  if (code !== "DX10") return /^[\x20-\x7e]{4}$/.test(code) ? `It has no DX10 header; its format is ${code}.` : "It has no DX10 header: it is an older DDS file.";
  const format = word(128);
  const other = OTHER_FORMATS[format] ? `, ${OTHER_FORMATS[format]}` : "";
  if (!(format in DDS_FORMATS)) return `Its format is DXGI number ${format}${other}. This page reads 95 and 96 (BC6H) and 97 to 99 (BC7).`;
  if (word(28) > MOST_LEVELS) return `It has ${word(28)} mip levels; a file has at most ${MOST_LEVELS}.`;
  if (word(136) & 4) return "It is a cube map; only single pictures are read. A probe of six faces is read as a store of records with a place.";
  if (word(140) > 1) return `It is an array of ${word(140)} pictures; only single ones are read.`;
  if (word(132) !== 3) return "It is not a picture of two dimensions.";
  return null;
}
