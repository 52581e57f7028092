// The calls of include/bpg.h and include/loop_player.h as they are, over arrays: for the tests. Every array is put into the module's memory, and taken out again whole,
// so that what a call must leave as it was can be looked at.
import { readFileSync } from 'node:fs';

/** What each call takes, in order. A list has the size of its elements in bytes and may be written (`out`); `value` is a number of 64 bits, `small` one of at most
 *  32; a result has its size in bytes. */
const list = (size) => ({ kind: 'list', size, out: false });
const outList = (size) => ({ kind: 'list', size, out: true });
const value = { kind: 'value' };
const small = { kind: 'small' };
const result = (size) => ({ kind: 'result', size });
const planes = (read, written) => [...Array(read).fill(list(2)), ...Array(written).fill(outList(2))];

export const SIGNATURES = {
  bpg_read: [list(1), outList(8), result(8)],
  bpg_entry: [list(1), value, result(4), result(4), result(4), result(4)],
  bpg_write: [list(8), list(1), outList(1), result(8)],
  bpg_canonicalize: [list(1), outList(1), result(8), result(8)],
  bpg_frames: [list(1), outList(2), result(8), result(8)],
  bpg_frame_count: [list(1), result(8), result(8)],
  bpg_check_thumbnails: [list(1), result(8)],
  bpg_batch: [list(1), list(4), outList(1), outList(4)],
  bpg_unescape: [list(1), outList(1), result(8)],
  bpg_escape: [list(1), outList(1), result(8)],
  bpg_write_size: [list(8), list(1), result(8)],
  bpg_canonical_size: [list(1), result(8), result(8)],
  bpg_unpremultiply: [...planes(4, 3), small],
  bpg_cmyk: [...planes(4, 4), small],
  bpg_default_from_white: [...planes(4, 3), small],
  bpg_ycgco: [...planes(3, 3), small],
  bpg_limited_luma: planes(1, 1),
  player_frame_at: [small, small, small, list(2), value, result(4), result(1)],
  player_ticks: [small, small, small, result(8)],
  player_frame_at_time: [list(1), small, result(4), result(1), result(8)],
  bpg_partition: [list(1), ...Array(6).fill(result(8))],
  bpg_head: [list(1), outList(8), result(8)],
  bpg_body: [list(8), list(1), outList(8), result(8)],
  bpg_export_segments: [list(1), outList(1), result(8), result(8)],
  bpg_import_segments: [list(1), outList(1), result(8), result(8), result(8)],
};

/** A number of 8, 4 or 1 bytes in the module's memory. */
function number(memory, at, length) {
  const view = new DataView(memory);
  if (length === 8) return Number(view.getBigUint64(at, true));
  return length === 4 ? view.getUint32(at, true) : view.getUint8(at);
}

export class Raw {
  constructor(path = new URL('../bpg.wasm', import.meta.url)) {
    this.exports = new WebAssembly.Instance(new WebAssembly.Module(readFileSync(path)), {}).exports;
  }

  /** Calls by name. Lists and values are given in order, results are not. The answer is the status, each result as a number, and each list that
   *  the call may have written, as a new array. */
  call(name, ...given) {
    const { status, places } = this.#run(name, given);
    const memory = this.exports.memory.buffer;
    const results = [];
    const lists = [];
    for (const { at, length, array } of places) {
      if (array !== undefined) lists.push(new array(memory.slice(at, at + length)));
      else results.push(number(memory, at, length));
    }
    return { status, results, lists };
  }

  /** The same answer as bytes: the status, then results and written lists as they stand in memory, in the order of the call's parameters. */
  answer(name, ...given) {
    const { status, places } = this.#run(name, given);
    const memory = new Uint8Array(this.exports.memory.buffer);
    return Buffer.concat([Uint8Array.of(status), ...places.map(({ at, length }) => memory.subarray(at, at + length))]);
  }

  #run(name, given) {
    const { words, places } = this.#place(SIGNATURES[name], given);
    return { status: this.exports[name](...words) & 0xff, places };
  }

  // The call's parameters, and where its results and the lists that it may write stand. Results begin as all ones, which is no likely answer.
  #place(signature, given) {
    const base = this.exports.__heap_base.value;
    this.#hold(given.reduce((sum, item) => sum + (item.byteLength ?? 0) + 16, base + 16 * signature.length));
    const bytes = new Uint8Array(this.exports.memory.buffer);
    const words = [];
    const places = [];
    const left = given.values();
    let at = base;
    for (const { kind, size, out } of signature) {
      if (kind === 'value' || kind === 'small') {
        const given = left.next().value;
        words.push(kind === 'value' ? BigInt(given) : Number(given));
        continue;
      }
      const array = kind === 'list' ? left.next().value : undefined;
      const length = array?.byteLength ?? size;
      if (array === undefined) bytes.fill(0xff, at, at + length);
      else bytes.set(new Uint8Array(array.buffer, array.byteOffset, length), at);
      words.push(at);
      if (array !== undefined) words.push(BigInt(array.length));
      if (array === undefined || out) places.push({ at, length, array: array?.constructor });
      at = Math.ceil((at + length) / 16) * 16;
    }
    return { words, places };
  }

  #hold(end) {
    const have = this.exports.memory.buffer.byteLength;
    if (end > have) this.exports.memory.grow(Math.ceil((end - have) / 65536));
  }
}
