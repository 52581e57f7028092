// The memory of the module, in which a call's arguments and results stand: first the results, then the list of numbers, then room for the
// rest, one array after another. All of it is reused by the next call. It grows where a call needs more, and never shrinks.

const PAGE = 65536;
const RESULTS = 6;

const aligned = (address) => Math.ceil(address / 16) * 16;

/** The address behind an array of so many bytes. */
export const behind = (address, length) => aligned(address + length);

export class Memory {
  #memory;

  /** `numbers`: for how many numbers of 64 bits the list has room. */
  constructor(memory, base, numbers) {
    this.#memory = memory;
    this.results = aligned(base);
    this.list = this.results + 8 * RESULTS;
    this.room = aligned(this.list + 8 * numbers);
    this.bytes = new Uint8Array(0);
    this.hold(this.room);
  }

  /** Makes the memory reach up to the address `end`. Only `bytes` and `words` as they are afterwards are views of it. */
  hold(end) {
    if (end <= this.bytes.length) return;
    const have = this.#memory.buffer.byteLength;
    try {
      if (end > have) this.#memory.grow(Math.ceil((end - have) / PAGE));
    } catch (cause) {
      throw new RangeError(`the memory of the BPG module cannot grow from ${have} to ${end} bytes`, { cause });
    }
    this.bytes = new Uint8Array(this.#memory.buffer);
    this.words = new Uint32Array(this.#memory.buffer);
  }

  /** Result k, a number of 64 bits: a count or an offset, and so below 2^53. */
  result(k) {
    const at = this.results / 4 + 2 * k;
    return this.words[at] + 2 ** 32 * this.words[at + 1];
  }
}
