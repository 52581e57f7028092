// Files, whole and spoiled, from a seed: heads, entries, HEVC headers and data of random choices, most of which the rules allow.

/** Numbers from a seed (mulberry32). */
export class Random {
  #state;

  constructor(seed) {
    this.#state = seed >>> 0;
  }

  /** A whole number below n. */
  below(n) {
    this.#state = (this.#state + 0x6d2b79f5) >>> 0;
    let t = this.#state;
    t = Math.imul(t ^ (t >>> 15), t | 1);
    t ^= t + Math.imul(t ^ (t >>> 7), t | 61);
    return Math.floor((((t ^ (t >>> 14)) >>> 0) / 2 ** 32) * n);
  }

  /** True once in n. */
  once(n) {
    return this.below(n) === 0;
  }

  pick(items) {
    return items[this.below(items.length)];
  }

  bytes(length) {
    return Array.from({ length }, () => this.pick([0, 0, 0, 1, 2, 3, 0x80, this.below(256)]));
  }
}

/** The bytes of ue7. */
export function ue7(value) {
  const groups = [value % 128];
  for (let rest = Math.floor(value / 128); rest > 0; rest = Math.floor(rest / 128)) groups.unshift(128 + (rest % 128));
  return groups;
}

class Bits {
  #text = '';

  put(value, count) {
    this.#text += value.toString(2).padStart(count, '0');
  }

  ue(value) {
    const code = (value + 1).toString(2);
    this.#text += '0'.repeat(code.length - 1) + code;
  }

  bytes() {
    const whole = this.#text.padEnd(Math.ceil(this.#text.length / 8) * 8, '0');
    return whole.match(/.{8}/g).map((byte) => parseInt(byte, 2));
  }
}

function putPcm(random, bits, minCb, ctb, depth) {
  bits.put(random.below(depth), 4);
  bits.put(random.below(depth), 4);
  const limit = Math.min(ctb, 5);
  const least = Math.min(minCb, 5);
  const minPcm = least + random.below(limit - least + 1);
  bits.ue(minPcm - 3);
  bits.ue(random.below(limit - minPcm + 1));
  bits.put(random.below(2), 1);
}

/** A HEVC header with its length. */
function header(random, depth) {
  const bits = new Bits();
  const ctb = 4 + random.below(3);
  const minCb = 3 + random.below(ctb - 2);
  const minTb = 2 + random.below(minCb - 2);
  const maxTb = minTb + random.below(Math.min(ctb, 5) - minTb + 1);
  [minCb - 3, ctb - minCb, minTb - 2, maxTb - minTb, random.below(ctb - minTb + 1)].forEach((field) => bits.ue(field));
  bits.put(random.below(2), 1);
  const pcm = random.below(2);
  bits.put(pcm, 1);
  if (pcm === 1) putPcm(random, bits, minCb, ctb, depth);
  bits.put(random.below(2), 1);
  const extension = random.below(2);
  bits.put(extension, 1);
  if (extension === 1) {
    const range = random.below(2);
    bits.put(range, 1);
    bits.put(random.once(40) ? 1 : 0, 7);
    if (range === 1) bits.put(random.pick([0, 0b111001010, random.below(512) & 0b111001010]), 9);
  }
  const bytes = bits.bytes();
  if (random.once(30)) bytes.push(0);
  return [...ue7(bytes.length), ...bytes];
}

function nalUnit(random, alpha) {
  const layer = alpha && random.once(4) ? 1 : 0;
  const kind = random.below(10);
  if (kind < 3) return [0x4e, 0x01, 0xff, 0x02, 0x02, random.below(2), 1 + random.below(9), 0x80];
  const type = kind < 9 ? random.pick([0, 1, 19, 20, 21]) : random.pick([34, 35, 39, 40, 48, random.below(64)]);
  return [type * 2, layer * 8 + 1, random.pick([0x80, 0x80, 0xa0, 0x20]), ...random.bytes(random.below(8)), random.pick([0x80, 1, 3])];
}

/** HEVC data: NAL units, most of which are slices or durations. */
function data(random, alpha, animated) {
  const count = animated ? 2 + random.below(6) : 1 + random.below(2);
  const first = random.once(20) ? random.bytes(random.below(6)) : [0x26, 0x01, 0x80];
  const all = [...first, ...(random.once(4) ? random.bytes(random.below(20)) : [])];
  for (let k = 1; k < count; k++) all.push(...(random.once(3) ? [0] : []), 0, 0, 1, ...nalUnit(random, alpha));
  return random.once(12) ? [...all, 0, 0] : all;
}

function loopNumbers(random) {
  return [...ue7(random.below(3)), ...ue7(1 + random.below(200)), ...ue7(1 + random.below(70000))];
}

/** The extension block; `depth` levels of thumbnails may stand in it. */
function block(random, animated, depth, size) {
  const count = random.pick([0, 1, 2, 3, 5, random.below(18), random.below(67)]);
  const entries = [];
  for (let k = 0; k < count; k++) {
    const tag = random.pick([1, 2, 3, 4, 4, 6, 128, 4294967295]);
    const payload = tag === 4 && depth > 0 && !random.once(5) ? file(random, depth - 1, size) : random.bytes(random.pick([0, 1, 2, 9, 130]));
    entries.push([...ue7(tag), ...ue7(payload.length), ...payload]);
  }
  if (animated || random.once(6)) {
    const payload = [...loopNumbers(random), ...random.bytes(random.pick([0, 0, 0, 2]))];
    entries.splice(random.below(entries.length + 1), 0, [5, ...ue7(payload.length), ...payload]);
  }
  return entries.flat();
}

/** A file as an array of bytes; a thumbnail is mostly smaller than `size`, its parent's. */
export function file(random, depth = 4, size = [4294967295, 4294967295]) {
  const format = random.below(6);
  const [alpha1, alpha2, limited] = [random.below(2), random.below(2), random.below(2)];
  const bitDepth = 8 + random.below(7);
  const animated = random.below(2);
  const [width, height] = size.map((most) => (random.once(12) ? 1 + random.below(most) : Math.min(most, 1 + random.below(random.pick([9, 200, 20000])))));
  const entries = random.once(animated === 1 ? 40 : 4) ? [] : block(random, animated === 1, depth, [width, height]);
  const extension = entries.length > 0 || random.once(3) ? 1 : 0;
  const rest = [];
  if (alpha1 + alpha2 > 0) rest.push(...header(random, bitDepth));
  rest.push(...header(random, bitDepth), ...data(random, alpha1 + alpha2 > 0, animated === 1));
  return [
    ...[0x42, 0x50, 0x47, 0xfb, format * 32 + alpha1 * 16 + bitDepth - 8],
    (format === 0 ? 0 : random.below(5)) * 16 + extension * 8 + alpha2 * 4 + limited * 2 + animated,
    ...ue7(width),
    ...ue7(height),
    ...ue7(random.below(2) * rest.length),
    ...(extension === 1 ? ue7(entries.length) : []),
    ...entries,
    ...rest,
  ];
}

/** The bytes with so many changes: a byte or a bit changed, a byte put in or left out, the end cut off. */
export function spoil(random, bytes, changes) {
  const all = [...bytes];
  for (; changes > 0 && all.length > 0; changes--) {
    // Most rules are about the first bytes.
    const at = random.below(random.once(2) ? Math.min(all.length, 40) : all.length);
    const kind = random.below(6);
    if (kind === 0) all[at] = random.below(256);
    else if (kind === 1) all[at] ^= 1 << random.below(8);
    else if (kind === 2) all.splice(at, 1);
    else if (kind === 3) all.splice(at, 0, random.pick([0, 1, 3, 0x80, 0xff]));
    else if (kind === 4) all[at] = random.pick([0, 1, 5, 0x7f, 0x80, 0xff]);
    else if (random.once(3)) all.length = at;
  }
  return all;
}
