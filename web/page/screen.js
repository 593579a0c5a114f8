"use strict";
// The screen's bytes of whole pictures: tables by pattern, made anew when the exposure changes. Each entry is what colours.js gives for one pixel.

const LEAST_PATTERN = 0, OPAQUE_PIXEL = 0xFF000000;
// A byte of a BC7 picture as linear light, by the screen's gamma (sRGB).
const LINEAR = Float32Array.from({ length: 256 }, (_, byte) => byte <= 0.04045 * 255 ? byte / 255 / 12.92 : ((byte / 255 + 0.055) / 1.055) ** 2.4);

// A colour, as #rrggbb, as a number that is a pixel of an image.
function pixelOf(colour) {
  const [r, g, b] = [1, 3, 5].map((at) => parseInt(colour.slice(at, at + 2), 16));
  return OPAQUE_PIXEL | b << 16 | g << 8 | r;
}

const stepColours = STEPS.map(pixelOf);

class Screen {
  constructor(sight) {
    Object.assign(this, { sight, stops: null, half: new Uint8Array(65536), upper: new Uint8Array(65536), byte: new Uint8Array(256) });
  }

  // The tables at the exposure that is chosen now: by half-float pattern; by the upper 16 bits of a 32-bit float, for light between pixels; by byte of BC7.
  tables() {
    if (this.stops === this.sight.stops) return this;
    this.stops = this.sight.stops;
    const scale = 2 ** this.stops, bits = new DataView(new ArrayBuffer(4));
    for (let pattern = 0; pattern < 65536; pattern++) {
      this.half[pattern] = byteOf(FLOATS[pattern], scale);
      bits.setUint32(0, pattern << 16 | 0x8000);
      this.upper[pattern] = byteOf(bits.getFloat32(0), scale);
    }
    for (let byte = 0; byte < 256; byte++) this.byte[byte] = byteOf(LINEAR[byte], scale);
    return this;
  }
}

// The pattern of the brightest of three channels: what a pixel's false colour is by, where it is drawn too small for all three.
function brightest(values, at) {
  let top = LEAST_PATTERN;
  for (let c = 0; c < 3; c++) if (!(values[at + c] & 0x8000) && values[at + c] > top) top = values[at + c];
  return top;
}

// The exposure in whole stops at which the middle one of the lit pixels is at a quarter of white or just below: what a picture is opened at.
function middleExposure(values) {
  const lit = [], step = 3 * Math.max(1, Math.floor(values.length / 3 / 100000));
  for (let k = 0; k + 2 < values.length; k += step) {
    const top = Math.max(FLOATS[values[k]], FLOATS[values[k + 1]], FLOATS[values[k + 2]]);
    if (top > 0) lit.push(top);
  }
  lit.sort((a, b) => a - b);
  const middle = lit.length ? lit[lit.length >> 1] : 0.25;
  for (let stops = BRIGHTEST; stops > DARKEST; stops--) if (middle * 2 ** stops <= 0.25) return stops;
  return DARKEST;
}
