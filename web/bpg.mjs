// Reads, writes and canonicalizes BPG 0.9.5 files, in a page or in node, by bpg.wasm: the library whose every answer is proved.
//
//     import { load, part } from './bpg.mjs';
//     const bpg = await load();
//     const record = bpg.read(file);                      // file: a Uint8Array; throws a BpgRefusal where it is refused
//     kernel(part(file, record.entries[0]));              // a subarray of the caller's own array: no copy
//
// A call copies what it is given into the module's memory, and what it answers out of it: arrays of the caller are only ever written where
// a call is lent one to write into. A refused call leaves it as it was.

import { behind, Memory } from './memory.mjs';
import { dataOf, entriesOf, HEAD_NUMBERS, headOf, MAX_NUMBERS, put, putHead, recordOf } from './record.mjs';
import { BpgRefusal } from './refusal.mjs';

export { MAX_ENTRIES } from './record.mjs';
export { BpgRefusal };

/** The tags of entries that have a meaning of their own. */
export const Tag = Object.freeze({ EXIF: 1, ICC_PROFILE: 2, XMP: 3, THUMBNAIL: 4, ANIMATION_CONTROL: 5 });

/** The most bytes that a file may have. */
export const MAX_FILE = 16777216;

/** So many bytes of a file, or all of a shorter one, are always enough for its head. */
export const HEAD_BYTES = 27;

/** That part of the file, as a subarray of the caller's own array. `range` is an entry of a record, or its data. */
export const part = (file, range) => file.subarray(range.start, range.start + range.length);

/** The library. `source` is where bpg.wasm is: nothing for the one beside this file, a URL, its bytes, or a compiled WebAssembly.Module. */
export async function load(source = new URL('bpg.wasm', import.meta.url)) {
  const module = source instanceof WebAssembly.Module ? source : await WebAssembly.compile(await moduleBytes(source));
  return new Bpg(await WebAssembly.instantiate(module, {}));
}

async function moduleBytes(source) {
  if (source instanceof ArrayBuffer || ArrayBuffer.isView(source)) return source;
  if (String(source).startsWith('file:') && globalThis.process?.versions?.node) {
    const { readFile } = await import('node:fs/promises');
    return readFile(new URL(source));
  }
  const response = source instanceof Response ? source : await fetch(source);
  if (!response.ok) throw new Error(`bpg.wasm could not be fetched: ${response.status} ${response.statusText}`);
  return response.arrayBuffer();
}

const NO_RANGE = { start: 0, length: 0 };
const NO_BYTES = new Uint8Array(0);
const LIST_LENGTH = BigInt(MAX_NUMBERS);

function checkArray(value, what, type) {
  if (!ArrayBuffer.isView(value) || value[Symbol.toStringTag] !== type) throw new TypeError(`${what} is not a ${type}`);
  // A detached array looks like an empty one; only a new view of its buffer tells.
  if (value.length === 0) new Uint8Array(value.buffer);
}

const checkBytes = (value, what) => checkArray(value, what, 'Uint8Array');

function checkPlanes(planes, count, what) {
  if (!Array.isArray(planes) || planes.length !== count) throw new TypeError(`${what} are not an array of ${count}`);
  for (const plane of planes) checkArray(plane, `one of ${what}`, 'Uint16Array');
}

// The call takes a depth of 8 bits: what they cannot hold is refused as 255 is.
function depthBits(depth) {
  if (!Number.isSafeInteger(depth)) throw new TypeError('the depth is not a whole number');
  return depth >= 0 && depth < 256 ? depth : 255;
}

function checkNumber(value, bits, what) {
  if (!Number.isSafeInteger(value) || value < 0 || value >= 2 ** bits) throw new TypeError(`${what} is not a whole number of ${bits} bits`);
  return value;
}

function checkTick(tick) {
  const whole = typeof tick === 'bigint' || Number.isSafeInteger(tick);
  if (!whole || tick < 0 || BigInt(tick) >= 1n << 64n) throw new TypeError('the tick is not a whole number of 64 bits');
  return BigInt(tick);
}

// The numbers of a loop in a record; a field that is none is named.
const loopNumbers = (record, names) => names.map((name) => checkNumber(record?.[name], 16, `record.${name}`));

function checkLength(length) {
  if (!Number.isSafeInteger(length) || length < 0 || length >= 2 ** 32) throw new TypeError('a length is a whole number from 0 to 2^32 - 1');
  return length;
}

// A file that is too long is refused for its length alone, so that its first bytes, one more than a file may have, have the same answer.
function fileBytes(file) {
  checkBytes(file, 'the file');
  return file.length > MAX_FILE ? file.subarray(0, MAX_FILE + 1) : file;
}

export class Bpg {
  #calls;
  #memory;
  #stackTop;

  constructor(instance) {
    this.#calls = instance.exports;
    this.#memory = new Memory(this.#calls.memory, this.#calls.__heap_base.value, MAX_NUMBERS);
    this.#stackTop = this.#calls.__stack_pointer.value;
  }

  /** The record of a file. */
  read(file) {
    this.#accepted(this.#readList(file), this.#memory.result(0));
    return recordOf(this.#memory.words, this.#memory.list / 4);
  }

  /** The head of a file, up to the length of its extension block; its first HEAD_BYTES (27) bytes, or all of a shorter file, are always enough. */
  head(file) {
    checkBytes(file, 'the file');
    // What stands after them changes no answer.
    const bytes = file.subarray(0, HEAD_BYTES);
    this.#put(bytes);
    const { room, list, results } = this.#memory;
    const status = this.#calls.bpg_head(room, BigInt(bytes.length), list, BigInt(HEAD_NUMBERS), results);
    this.#accepted(status & 0xff, this.#memory.result(0));
    return headOf(this.#memory.words, list / 4);
  }

  /** The record of a file that has this head; another file's head is refused with 21. */
  body(head, file) {
    const bytes = fileBytes(file);
    const at = this.#put(bytes, 8 * HEAD_NUMBERS);
    const memory = this.#memory;
    putHead(head, memory.words, at / 4);
    const { room, list, results } = memory;
    const status = this.#calls.bpg_body(at, BigInt(HEAD_NUMBERS), room, BigInt(bytes.length), list, LIST_LENGTH, results);
    this.#accepted(status & 0xff, memory.result(0));
    return recordOf(memory.words, list / 4);
  }

  /** The entries of a file in their order, each with its payload as a subarray; none for a refused file. */
  entries(file) {
    if (this.#readList(file) !== 0) return [];
    const entries = entriesOf(this.#memory.words, this.#memory.list / 4);
    return entries.map((entry) => ({ ...entry, payload: part(file, entry) }));
  }

  /** The entry with index k, from 0; null past the last one and for a refused file. */
  entry(file, k) {
    if (!Number.isSafeInteger(k) || k < 0) throw new TypeError('the index of an entry is a whole number from 0 on');
    const bytes = fileBytes(file);
    this.#put(bytes);
    const { room, results } = this.#memory;
    const found = this.#calls.bpg_entry(room, BigInt(bytes.length), BigInt(k), results, results + 4, results + 8, results + 12);
    if ((found & 0xff) === 0) return null;
    const [tag, start, length, tagOffset] = this.#memory.words.subarray(results / 4, results / 4 + 4);
    return { tag, start, length, tagOffset };
  }

  /** The payload of the entry with index k as a subarray; an empty one past the last entry and for a refused file. */
  payload(file, k) {
    return part(file, this.entry(file, k) ?? NO_RANGE);
  }

  /** The HEVC data of a file as a subarray; an empty one for a refused file. */
  data(file) {
    const accepted = this.#readList(file) === 0;
    return part(file, accepted ? dataOf(this.#memory.words, this.#memory.list / 4) : NO_RANGE);
  }

  /** The file of a record, shaped as `read` gives it, whose ranges are in `source`: a new array, or the start of `out`. */
  write(record, source, out) {
    if (out !== undefined) checkBytes(out, 'the buffer');
    const numbers = this.#putRecord(record, source);
    const memory = this.#memory;
    const length = out === undefined ? this.#sizeOf(numbers, source) : Math.min(out.length, MAX_FILE);
    const at = behind(memory.room, source.length);
    memory.hold(at + length);
    const status = this.#calls.bpg_write(memory.list, numbers, memory.room, BigInt(source.length), at, BigInt(length), memory.results);
    return this.#written(status & 0xff, 0, at, out);
  }

  /** How many bytes the file of a record has. */
  writeSize(record, source) {
    return this.#sizeOf(this.#putRecord(record, source), source);
  }

  /** The canonical form of a file: a new array, or the start of `out`. It is never longer than the file, and two files show the same picture
   *  exactly when their canonical forms are equal. */
  canonicalize(file, out) {
    const bytes = fileBytes(file);
    if (out !== undefined) checkBytes(out, 'the buffer');
    const length = Math.min(out?.length ?? bytes.length, bytes.length);
    const at = this.#put(bytes, length);
    const { room, results } = this.#memory;
    const status = this.#calls.bpg_canonicalize(room, BigInt(bytes.length), at, BigInt(length), results, results + 8);
    return this.#written(status & 0xff, this.#memory.result(1), at, out);
  }

  /** How many bytes the canonical form of a file has. */
  canonicalSize(file) {
    const bytes = fileBytes(file);
    this.#put(bytes);
    const { room, results } = this.#memory;
    const status = this.#calls.bpg_canonical_size(room, BigInt(bytes.length), results, results + 8);
    this.#accepted(status & 0xff, this.#memory.result(1));
    return this.#memory.result(0);
  }

  /** How many frames a file has. */
  frameCount(file) {
    return this.#countFrames(fileBytes(file));
  }

  /** For how many frame periods each frame of a file is shown. A period is framePeriodNum / framePeriodDen seconds. */
  frames(file) {
    const bytes = fileBytes(file);
    const count = this.#countFrames(bytes);
    const { room, results } = this.#memory;
    const at = behind(room, bytes.length);
    this.#memory.hold(at + 2 * count);
    const status = this.#calls.bpg_frames(room, BigInt(bytes.length), at, BigInt(count), results, results + 8);
    this.#accepted(status & 0xff, this.#memory.result(1));
    return new Uint16Array(this.#memory.bytes.slice(at, at + 2 * count).buffer);
  }

  /** Refuses a file whose thumbnails, or theirs at any level, are not files that are smaller than their parents. */
  checkThumbnails(file) {
    const bytes = fileBytes(file);
    this.#put(bytes);
    const { room, results } = this.#memory;
    const status = this.#calls.bpg_check_thumbnails(room, BigInt(bytes.length), results);
    this.#accepted(status & 0xff, this.#memory.result(0));
  }

  /** Reads the files that stand end to end in a buffer and have these lengths: for each its refusal, or null where it is accepted. */
  batch(buffer, lengths) {
    checkBytes(buffer, 'the buffer');
    const count = lengths.length;
    const lengthsAt = this.#put(buffer, 4 * count);
    const statusesAt = behind(lengthsAt, 4 * count);
    const offsetsAt = behind(statusesAt, count);
    const memory = this.#memory;
    memory.hold(offsetsAt + 4 * count);
    for (let k = 0; k < count; k++) memory.words[lengthsAt / 4 + k] = checkLength(lengths[k]);
    const size = BigInt(count);
    const status = this.#calls.bpg_batch(memory.room, BigInt(buffer.length), lengthsAt, size, statusesAt, size, offsetsAt, size);
    this.#accepted(status & 0xff, 0);
    const refusal = (number, k) => (number === 0 ? null : new BpgRefusal(number, memory.words[offsetsAt / 4 + k]));
    return Array.from(memory.bytes.subarray(statusesAt, statusesAt + count), refusal);
  }

  /** How many bytes of a file are its head, the tags and lengths of its entries, their payloads, the HEVC headers with their lengths, and the data:
   *  together they are the file. */
  partition(file) {
    const bytes = fileBytes(file);
    this.#put(bytes);
    const { room, results } = this.#memory;
    const status = this.#calls.bpg_partition(room, BigInt(bytes.length), results, results + 8, results + 16, results + 24, results + 32, results + 40);
    const [head, entryHeads, payloads, headers, data, offset] = [0, 1, 2, 3, 4, 5].map((k) => this.#memory.result(k));
    this.#accepted(status & 0xff, offset);
    return { head, entryHeads, payloads, headers, data };
  }

  /** The EXIF, XMP and ICC payloads of a file as JPEG segments, in this order: a new array, or the start of `out`. */
  exportSegments(file, out) {
    const bytes = fileBytes(file);
    if (out !== undefined) checkBytes(out, 'the buffer');
    // 10 bytes stand before EXIF, 33 before XMP, 18 before each of at most 255 chunks.
    const most = bytes.length + 10 + 33 + 18 * 255;
    const length = Math.min(out?.length ?? most, most);
    const at = this.#put(bytes, length);
    const { room, results } = this.#memory;
    const status = this.#calls.bpg_export_segments(room, BigInt(bytes.length), at, BigInt(length), results, results + 8);
    return this.#written(status & 0xff, this.#memory.result(1), at, out);
  }

  /** The payloads of a run of such segments, each in a new array; an absent one is empty. */
  importSegments(run) {
    checkBytes(run, 'the run');
    const at = this.#put(run, run.length);
    const memory = this.#memory;
    const { room, results } = memory;
    const size = BigInt(run.length);
    const status = this.#calls.bpg_import_segments(room, size, at, size, results, results + 8, results + 16);
    this.#accepted(status & 0xff, 0);
    const [exif, xmp, icc] = [0, 1, 2].map((k) => memory.result(k));
    const payload = (start, length) => memory.bytes.slice(at + start, at + start + length);
    return { exif: payload(0, exif), xmp: payload(exif, xmp), icc: payload(exif + xmp, icc) };
  }

  /** The bytes of a NAL unit without its emulation prevention bytes: a new array, or the start of `out`. */
  unescape(unit, out) {
    return this.#copied('bpg_unescape', unit, (length) => length, out);
  }

  /** The bytes with emulation prevention bytes, as they stand in a NAL unit: a new array, or the start of `out`. */
  escape(bytes, out) {
    // At most one byte is put in for every two, and one at the end.
    return this.#copied('bpg_escape', bytes, (length) => length + Math.floor(length / 2) + 1, out);
  }

  /** R, G and B that were multiplied by A, recovered, from the planes [r, g, b, a] of this depth: three new arrays, or those of `out`. */
  unpremultiply(planes, depth, out) {
    return this.#converted('bpg_unpremultiply', planes, 4, out, 3, [depthBits(depth)]);
  }

  /** C, M, Y and K from the planes [r, g, b, w] of this depth: four new arrays, or those of `out`. */
  cmyk(planes, depth, out) {
    return this.#converted('bpg_cmyk', planes, 4, out, 4, [depthBits(depth)]);
  }

  /** The color of a file with the W plane and no color profile, from the planes [r, g, b, w] of this depth: three new arrays, or those of `out`. */
  defaultFromWhite(planes, depth, out) {
    return this.#converted('bpg_default_from_white', planes, 4, out, 3, [depthBits(depth)]);
  }

  /** R, G and B from the planes [y, cg, co] of this depth: three new arrays, or those of `out`. */
  ycgco(planes, depth, out) {
    return this.#converted('bpg_ycgco', planes, 3, out, 3, [depthBits(depth)]);
  }

  /** Full-range luma from limited luma, both of 8 bits: a new array, or `out`. */
  limitedLuma(y, out) {
    return this.#converted('bpg_limited_luma', [y], 1, out === undefined ? out : [out], 1, [])[0];
  }

  /** Milliseconds as whole ticks, a tick being one frame period of the record. */
  ticks(record, ms) {
    const [num, den] = loopNumbers(record, ['framePeriodNum', 'framePeriodDen']);
    checkNumber(ms, 32, 'the time');
    this.#put(NO_BYTES);
    const status = this.#calls.player_ticks(ms, num, den, this.#memory.results);
    this.#accepted(status & 0xff, 0);
    return this.#memory.result(0);
  }

  /** The frame, from 0, that stands at a tick, and whether the loop has ended; `record` has the loop's numbers, `durations` are those of `frames`. */
  frameAt(record, durations, tick) {
    const numbers = loopNumbers(record, ['loopCount', 'framePeriodNum', 'framePeriodDen']);
    checkArray(durations, 'the durations', 'Uint16Array');
    const wanted = checkTick(tick);
    this.#put(new Uint8Array(durations.buffer, durations.byteOffset, durations.byteLength));
    const { room, results } = this.#memory;
    const status = this.#calls.player_frame_at(...numbers, room, BigInt(durations.length), wanted, results, results + 4);
    this.#accepted(status & 0xff, 0);
    return this.#shown();
  }

  /** The frame of a file that stands at a time in milliseconds. The file is read at each call; who asks often keeps its record and its durations. */
  frameAtTime(file, ms) {
    const bytes = fileBytes(file);
    checkNumber(ms, 32, 'the time');
    this.#put(bytes);
    const { room, results } = this.#memory;
    const status = this.#calls.player_frame_at_time(room, BigInt(bytes.length), ms, results, results + 4, results + 8);
    this.#accepted(status & 0xff, this.#memory.result(1));
    return this.#shown();
  }

  // The frame is the first result, and whether the loop has ended stands in the byte after it.
  #shown() {
    const { words, bytes, results } = this.#memory;
    return { frame: words[results / 4], ended: bytes[results + 4] !== 0 };
  }

  #readList(file) {
    const bytes = fileBytes(file);
    this.#put(bytes);
    const { room, list, results } = this.#memory;
    return this.#calls.bpg_read(room, BigInt(bytes.length), list, LIST_LENGTH, results) & 0xff;
  }

  // Puts a record's list and its source into the memory, and answers how many numbers the list has.
  #putRecord(record, source) {
    checkBytes(source, 'the source');
    const numbers = put(record, this.#memory.words, this.#memory.list / 4);
    this.#put(source);
    return BigInt(numbers);
  }

  #sizeOf(numbers, source) {
    const { list, room, results } = this.#memory;
    const status = this.#calls.bpg_write_size(list, numbers, room, BigInt(source.length), results);
    this.#accepted(status & 0xff, 0);
    return this.#memory.result(0);
  }

  #countFrames(bytes) {
    this.#put(bytes);
    const { room, results } = this.#memory;
    const status = this.#calls.bpg_frame_count(room, BigInt(bytes.length), results, results + 8);
    this.#accepted(status & 0xff, this.#memory.result(1));
    return this.#memory.result(0);
  }

  // `longest` gives the most bytes that the call answers for so many.
  #copied(call, bytes, longest, out) {
    checkBytes(bytes, 'the argument');
    if (out !== undefined) checkBytes(out, 'the buffer');
    const most = longest(bytes.length);
    const length = Math.min(out?.length ?? most, most);
    const at = this.#put(bytes, length);
    const { room, results } = this.#memory;
    const status = this.#calls[call](room, BigInt(bytes.length), at, BigInt(length), results);
    return this.#written(status & 0xff, 0, at, out);
  }

  // The buffers of a call on samples: planes stand in the room one after another, then the buffers.
  #converted(call, planes, planeCount, out, bufferCount, depth) {
    checkPlanes(planes, planeCount, 'the planes');
    if (out !== undefined) checkPlanes(out, bufferCount, 'the buffers');
    const buffers = out ?? Array.from({ length: bufferCount }, () => new Uint16Array(planes[0].length));
    const memory = this.#memory;
    const places = [memory.room];
    for (const array of [...planes, ...buffers]) places.push(behind(places.at(-1), 2 * array.length));
    memory.hold(places.at(-1));
    this.#rewind();
    const at = (k, array) => new Uint16Array(memory.bytes.buffer, places[k], array.length);
    planes.forEach((plane, k) => at(k, plane).set(plane));
    const slices = [...planes, ...buffers].flatMap((array, k) => [places[k], BigInt(array.length)]);
    this.#accepted(this.#calls[call](...slices, ...depth) & 0xff, 0);
    buffers.forEach((buffer, k) => buffer.set(at(planeCount + k, buffer)));
    return buffers;
  }

  // A call that was cut off, where JavaScript's own stack ran out, has left the module's stack in use.
  #rewind() {
    this.#calls.__stack_pointer.value = this.#stackTop;
  }

  // Puts the bytes into the room, with space for so many more behind them, and answers the address of that space.
  #put(bytes, more = 0) {
    this.#rewind();
    const memory = this.#memory;
    const at = behind(memory.room, bytes.length);
    memory.hold(at + more);
    memory.bytes.set(bytes, memory.room);
    return at;
  }

  #accepted(status, offset) {
    if (status !== 0) throw new BpgRefusal(status, offset);
  }

  // The bytes that a call wrote at this address, their count being its first result, for the caller.
  #written(status, offset, at, out) {
    this.#accepted(status, offset);
    const bytes = this.#memory.bytes.subarray(at, at + this.#memory.result(0));
    if (out === undefined) return bytes.slice();
    out.set(bytes);
    return out.subarray(0, bytes.length);
  }
}
