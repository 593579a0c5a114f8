"use strict";
// Numbers and colours: half-float patterns, exposures in stops, the screen's bytes, and false colours by stops.

const CHANNELS = ["red", "green", "blue"];
const DARKEST = -16, BRIGHTEST = 24;  // the exposures, in stops, that a tile is opened at

// The number of a half-float pattern, exact.
function half(pattern) {
  const sign = pattern & 0x8000 ? -1 : 1, exponent = pattern >> 10 & 31, digits = pattern & 1023;
  if (exponent === 31) return digits ? NaN : sign * Infinity;
  return exponent ? sign * (1024 + digits) * 2 ** (exponent - 25) : sign * digits * 2 ** -24;
}

const FLOATS = Float64Array.from({ length: 65536 }, (_, pattern) => half(pattern));

// A channel's byte on the screen: the value is scaled by the exposure, cut to 0 to 1, and given the screen's gamma (sRGB).
function byteOf(value, scale) {
  const x = Math.min(Math.max(value * scale, 0), 1);
  return Math.round(255 * (x <= 0.0031308 ? 12.92 * x : 1.055 * x ** (1 / 2.4) - 0.055));
}

const colourOf = (triple, scale) => `rgb(${triple.map((v) => byteOf(v, scale)).join()})`;

// The brightest exposure in whole stops at which none of the patterns is above white: what a tile is opened at.
function ownExposure(patterns) {
  let top = 0;
  for (const pattern of patterns) if (FLOATS[pattern] !== -Infinity) top = Math.max(top, Math.abs(FLOATS[pattern]));
  if (top === 0) return 0;
  let stops = BRIGHTEST;
  while (stops > DARKEST && top * 2 ** stops > 1) stops--;
  return stops;
}

// ---- false colours

// 32 colours in rising order, dark and light in turn, so that neighbours are told apart.
const STEPS = [
  "#2b1055", "#8f6fd6", "#1b1b8f", "#6f8bff", "#0b3f9e", "#4fb0ff", "#005f8f", "#4fd6f0",
  "#00706f", "#5fead0", "#00703f", "#5fe88f", "#1f7f00", "#9fee5f", "#5f7f00", "#d6ee4f",
  "#7f7000", "#ffe84f", "#8f5500", "#ffc04f", "#9f3a00", "#ff965f", "#a31515", "#ff7070",
  "#9f0048", "#ff70ac", "#8f007f", "#f58ff5", "#5f5f5f", "#b4b4b4", "#3a3a3a", "#ffffff",
];

// A pattern as three steps of 32: its stop (the exponent), which 32nd of the stop, and which 32nd of that. With the sign they are the pattern.
const stepsOf = (pattern) => [pattern >> 10 & 31, pattern >> 5 & 31, pattern & 31];

// ---- words

const minus = (text) => text.replaceAll("-", "\u2212");

function told(value) {
  if (value === -Infinity) return "\u2212\u221E";
  const size = Math.abs(value);
  const text = value === 0 || size >= 1e-3 ? String(Number(value.toPrecision(6))) : value.toExponential(4);
  return minus(Object.is(value, -0) ? "-0" : text);
}

const hex = (number, digits) => number.toString(16).toUpperCase().padStart(digits, "0");
const stopsTold = (stops) => `${stops > 0 ? "+" : ""}${told(stops)} ${Math.abs(stops) === 1 ? "stop" : "stops"}`;
const whiteTold = (stops) => `white is ${told(2 ** -stops)}`;
