// Memory and misuse: arrays that are none, files at the limit, calls after refusals, memory that cannot grow, many calls in a row.
import assert from 'node:assert/strict';
import { readFileSync } from 'node:fs';
import { setFlagsFromString } from 'node:v8';
import { runInNewContext } from 'node:vm';
import { Bpg, BpgRefusal, load, MAX_ENTRIES, MAX_FILE, part, Tag } from '../bpg.mjs';
import { SIGNATURES } from './raw.mjs';

const module = new WebAssembly.Module(readFileSync(new URL('../bpg.wasm', import.meta.url)));
const instance = new WebAssembly.Instance(module, {});
const bpg = new Bpg(instance);
const bytes = (hex) => Uint8Array.from(Buffer.from(hex.replaceAll(' ', ''), 'hex'));

// The desk's examples A, B and C; D is C with two frames of data.
const A = bytes('42 50 47 FB 20 00 08 84 1E 00 03 92 4D 00 26 01');
const B = bytes('42 50 47 FB 20 00 08 84 1E 06 03 92 4D 00 26 01');
const C = bytes('42 50 47 FB 20 09 08 84 1E 00 05 05 03 00 01 0A 03 92 4D 00 26 01');
const D = Uint8Array.from([...C, 0x80, 0, 0, 1, 0x4e, 1, 0xff, 2, 2, 0, 3, 0x80, 0, 0, 1, 0x26, 1, 0x80]);
const large = new Uint8Array(MAX_FILE).fill(0x55);
large.set([...A, 0x80]);

const refusal = (status, offset) => (error) => error instanceof BpgRefusal && error.status === status && error.offset === offset;
// For the player: it takes a time besides the file.
const atTime = (file) => bpg.frameAtTime(file, 0);
const onFiles = ['read', 'entries', 'data', 'canonicalize', 'canonicalSize', 'frameCount', 'frames', 'checkThumbnails', 'exportSegments', 'partition'];

const tests = {
  'the examples read as they should'() {
    const record = bpg.read(C);
    assert.deepEqual([record.pictureWidth, record.pictureHeight, record.codedWidth, record.codedHeight], [8, 542, 8, 544]);
    assert.deepEqual([record.loopCount, record.framePeriodNum, record.framePeriodDen], [0, 1, 10]);
    assert.deepEqual(record.entries, [{ tag: Tag.ANIMATION_CONTROL, start: 13, length: 3, tagOffset: 11 }]);
    assert.deepEqual(bpg.canonicalize(B), A);
    assert.deepEqual(bpg.frames(D), Uint16Array.of(1, 3));
    const shown = [0, 99, 100, 399, 400].map((ms) => bpg.frameAtTime(D, ms).frame);
    assert.deepEqual(shown, [0, 0, 1, 1, 0]);
    const twice = { ...record, loopCount: 2 };
    assert.deepEqual(bpg.frameAt(twice, bpg.frames(D), bpg.ticks(twice, 799)), { frame: 1, ended: false });
    assert.deepEqual(bpg.frameAt(twice, bpg.frames(D), bpg.ticks(twice, 800)), { frame: 1, ended: true });
    assert.deepEqual(bpg.partition(C), { head: 11, entryHeads: 2, payloads: 3, headers: 4, data: 2 });
  },

  'parts are the caller\'s own bytes'() {
    const file = C.slice();
    const record = bpg.read(file);
    for (const piece of [bpg.payload(file, 0), bpg.data(file), bpg.entries(file)[0].payload, part(file, record.data)]) {
      assert.equal(piece.buffer, file.buffer);
    }
    bpg.payload(file, 0)[2] = 0x14;
    assert.equal(bpg.read(file).framePeriodDen, 20);
  },

  'a part of a larger array is a file'() {
    const around = new Uint8Array(100).fill(0xff);
    around.set(C, 31);
    const file = around.subarray(31, 31 + C.length);
    assert.equal(bpg.payload(file, 0).byteOffset, 31 + 13);
    assert.deepEqual(bpg.canonicalize(Buffer.from(C)), C);
    const shared = new Uint8Array(new SharedArrayBuffer(C.length));
    shared.set(C);
    assert.deepEqual(bpg.read(shared), bpg.read(C));
  },

  'what is no Uint8Array is a TypeError'() {
    for (const wrong of [undefined, null, [], 'BPG', 5, A.buffer, new DataView(A.buffer), new Int8Array(A), new Uint16Array(8), {}]) {
      for (const name of onFiles) assert.throws(() => bpg[name](wrong), TypeError, `${name} of ${wrong}`);
      assert.throws(() => atTime(wrong), TypeError);
      assert.throws(() => bpg.frameAt(bpg.read(C), wrong instanceof Uint16Array ? A : wrong, 0), TypeError);
      assert.throws(() => bpg.write(bpg.read(A), wrong), TypeError);
      assert.throws(() => bpg.writeSize(bpg.read(A), wrong), TypeError);
      assert.throws(() => bpg.batch(wrong, []), TypeError);
      assert.throws(() => bpg.escape(wrong), TypeError);
      assert.throws(() => bpg.unescape(wrong), TypeError);
      assert.throws(() => bpg.importSegments(wrong), TypeError);
      if (wrong !== undefined) assert.throws(() => bpg.exportSegments(A, wrong), TypeError);
      if (wrong !== undefined) assert.throws(() => bpg.canonicalize(A, wrong), TypeError);
    }
  },

  'a detached array is a TypeError, an empty one a file'() {
    const gone = C.slice();
    structuredClone(gone.buffer, { transfer: [gone.buffer] });
    for (const name of onFiles) assert.throws(() => bpg[name](gone), TypeError, name);
    assert.throws(() => bpg.canonicalize(A, gone), TypeError);
    assert.throws(() => bpg.read(new Uint8Array(0)), refusal(2, 0));
  },

  'planes are arrays of Uint16Arrays, and a refused call keeps its buffers'() {
    const plane = () => Uint16Array.of(1, 2);
    const three = [plane(), plane(), plane()];
    for (const wrong of [undefined, null, {}, [], three.slice(1), [...three, plane()], [plane(), plane(), [1, 2]], [plane(), plane(), new Uint8Array(2)]]) {
      assert.throws(() => bpg.ycgco(wrong, 8), TypeError);
      if (wrong !== undefined) assert.throws(() => bpg.ycgco(three, 8, wrong), TypeError);
    }
    for (const wrong of [undefined, null, [], [1], new Uint8Array(2)]) assert.throws(() => bpg.limitedLuma(wrong), TypeError);
    for (const wrong of [undefined, null, 8.5, NaN, '8', 8n]) assert.throws(() => bpg.cmyk([...three, plane()], wrong), TypeError);
    for (const depth of [-1, 7, 15, 255, 256, 264, 2 ** 32 + 8]) assert.throws(() => bpg.ycgco(three, depth), refusal(32, 0));
    const [red, green, short] = [Uint16Array.of(7, 7), Uint16Array.of(7, 7), Uint16Array.of(7)];
    assert.throws(() => bpg.ycgco(three, 8, [red, green, short]), refusal(31, 0));
    assert.throws(() => bpg.ycgco([Uint16Array.of(256, 0), plane(), plane()], 8, [red, green, Uint16Array.of(7, 7)]), refusal(33, 0));
    assert.deepEqual([...red, ...green, ...short], [7, 7, 7, 7, 7]);
    assert.deepEqual(bpg.ycgco([Uint16Array.of(255), Uint16Array.of(0), Uint16Array.of(255)], 8).flatMap((list) => [...list]), [255, 127, 255]);
    const own = plane();
    assert.equal(bpg.limitedLuma(own, own), own);
  },

  'indexes and lengths are whole numbers'() {
    for (const wrong of [-1, 1.5, NaN, '0', undefined, 2n]) assert.throws(() => bpg.payload(C, wrong), TypeError);
    for (const wrong of [-1, 1.5, NaN, '16', 2 ** 32]) assert.throws(() => bpg.batch(A, [wrong]), TypeError);
    assert.equal(bpg.payload(C, 2 ** 40).length, 0);
    const [record, durations] = [bpg.read(C), Uint16Array.of(1, 3)];
    for (const wrong of [-1, 1.5, NaN, '0', undefined, -1n, 1n << 64n, 2 ** 53]) assert.throws(() => bpg.frameAt(record, durations, wrong), TypeError);
    for (const wrong of [-1, 1.5, NaN, '0', undefined, 2n, 2 ** 32]) assert.throws(() => bpg.ticks(record, wrong), TypeError);
    for (const wrong of [-1, 65536, undefined]) assert.throws(() => bpg.frameAt({ ...record, loopCount: wrong }, durations, 0), /record\.loopCount/);
    assert.deepEqual(bpg.frameAt(record, durations, (1n << 64n) - 1n), { frame: 1, ended: false });
    assert.throws(() => bpg.frameAt(record, new Uint16Array(257).fill(1), 0), refusal(37, 0));
    assert.throws(() => bpg.ticks(bpg.read(A), 0), refusal(37, 0));
  },

  'a record that is none is a TypeError that names the field'() {
    const record = bpg.read(C);
    const without = (name) => Object.fromEntries(Object.entries(record).filter(([field]) => field !== name));
    assert.throws(() => bpg.write(without('pictureWidth'), C), /record\.pictureWidth/);
    assert.throws(() => bpg.write(without('colorHeader'), C), /record\.colorHeader/);
    assert.throws(() => bpg.write(without('entries'), C), /record\.entries/);
    assert.throws(() => bpg.write({ ...record, entries: [{ tag: 5, start: 13 }] }, C), /record\.entries\[0\]\.length/);
    for (const wrong of [-1, 0.5, Infinity, '8', null, 8n]) assert.throws(() => bpg.write({ ...record, pictureWidth: wrong }, C), TypeError);
    assert.throws(() => bpg.write(null, C), TypeError);
  },

  'a number that its field cannot hold is refused'() {
    const record = bpg.read(C);
    for (const change of [{ pictureWidth: 2 ** 32 }, { pixelFormat: 256 }, { alpha1Flag: 2 }, { loopCount: 65536 }]) {
      assert.throws(() => bpg.write({ ...record, ...change }, C), refusal(19, 0));
    }
    assert.throws(() => bpg.write({ ...record, entries: Array(MAX_ENTRIES + 1).fill(record.entries[0]) }, C), refusal(11, 0));
    assert.deepEqual(bpg.write({ ...record, codedWidth: undefined, codedHeight: -1 }, C), C);
  },

  'a refused call leaves the lent array as it was'() {
    const out = new Uint8Array(15).fill(0xa5);
    assert.throws(() => bpg.canonicalize(B, out), refusal(20, 0));
    assert.throws(() => bpg.write(bpg.read(A), A, out), refusal(20, 0));
    assert.throws(() => bpg.escape(new Uint8Array(15), out), refusal(20, 0));
    assert.throws(() => bpg.unescape(bytes('00 00 02'), out), refusal(22, 0));
    assert.throws(() => bpg.exportSegments(B.subarray(0, 9), out), refusal(2, 9));
    assert.throws(() => bpg.importSegments(bytes('ff e1 00 08 45 78 69 66 00 00')), refusal(36, 0));
    assert.deepEqual(out, new Uint8Array(15).fill(0xa5));
  },

  'a lent array gets the answer at its start, and nothing else'() {
    const out = new Uint8Array(20).fill(0xa5);
    const form = bpg.canonicalize(B, out);
    assert.equal(form.buffer, out.buffer);
    assert.deepEqual([...form], [...A]);
    assert.deepEqual([...out.subarray(16)], [0xa5, 0xa5, 0xa5, 0xa5]);
    const self = B.slice();
    assert.deepEqual([...bpg.canonicalize(self, self)], [...A]);
  },

  'calls after a refusal answer as before'() {
    for (const spoil of [new Uint8Array(0), B.subarray(0, 9), Uint8Array.of(1, 2, 3, 4, 5, 6), new Uint8Array(MAX_FILE + 1)]) {
      for (const name of onFiles) try { bpg[name](spoil); } catch (error) { assert.ok(error instanceof BpgRefusal); }
      assert.equal(bpg.read(C).framePeriodDen, 10);
      assert.deepEqual(bpg.entries(A), []);
      assert.deepEqual(bpg.canonicalize(B), A);
      assert.deepEqual(bpg.write(bpg.read(C), C), C);
      assert.deepEqual(bpg.batch(Uint8Array.from([...A, 1, ...C]), [16, 1, 22]).map((file) => file?.status), [undefined, 2, undefined]);
    }
  },

  'a refusal is an Error with status, offset, name and words'() {
    assert.throws(() => bpg.read(A.subarray(0, 9)), (error) => {
      assert.ok(error instanceof Error && error instanceof BpgRefusal);
      assert.deepEqual([error.name, error.status, error.offset, error.reason], ['BpgRefusal', 2, 9, 'Truncated']);
      assert.equal(error.message, 'refused 2 at 9: an item does not fit the file, block, payload or data region');
      return true;
    });
  },

  'a file of 16 MiB works'() {
    assert.equal(bpg.read(large).data.length, MAX_FILE - 14);
    assert.deepEqual(bpg.frames(large), Uint16Array.of(1));
    const form = bpg.canonicalize(large);
    assert.ok(Buffer.from(form.buffer).equals(large));
    assert.equal(bpg.write(bpg.read(large), large).length, MAX_FILE);
    assert.deepEqual([bpg.writeSize(bpg.read(large), large), bpg.canonicalSize(large)], [MAX_FILE, MAX_FILE]);
  },

  'a file of 17 MiB is refused, and takes no more memory than the limit'() {
    const before = instance.exports.memory.buffer.byteLength;
    const long = new Uint8Array(17 * 2 ** 20);
    long.set(A);
    for (const name of ['read', 'canonicalize', 'canonicalSize', 'frames', 'frameCount', 'checkThumbnails', 'partition']) assert.throws(() => bpg[name](long), refusal(1, 0));
    assert.equal(bpg.payload(long, 0).length + bpg.data(long).length + bpg.entries(long).length, 0);
    assert.ok(instance.exports.memory.buffer.byteLength - before <= 65536);
    assert.deepEqual(bpg.batch(long, [16, long.length - 16]).map((file) => file?.status), [undefined, 1]);
  },

  'memory that cannot grow is a RangeError that says so, and small files still work'() {
    const fresh = new WebAssembly.Instance(module, {}).exports;
    const memory = {
      get buffer() {
        return fresh.memory.buffer;
      },
      grow(pages) {
        if (fresh.memory.buffer.byteLength + pages * 65536 > 1 << 20) throw new RangeError('WebAssembly.Memory.grow(): Maximum memory size exceeded');
        return fresh.memory.grow(pages);
      },
    };
    const bounded = new Bpg({ exports: { ...fresh, memory } });
    assert.throws(() => bounded.read(large), /RangeError: the memory of the BPG module cannot grow from \d+ to \d+ bytes/);
    assert.equal(bounded.read(C).framePeriodDen, 10);
  },

  '10,000 calls take no memory'() {
    setFlagsFromString('--expose-gc');
    const collect = runInNewContext('gc');
    const round = () => {
      for (const name of onFiles) try { bpg[name](D); } catch { /* its frames or none */ }
      try { bpg.read(A.subarray(0, 9)); } catch { /* refused */ }
      bpg.write(bpg.read(D), D);
      bpg.batch(D, [D.length]);
    };
    const used = () => {
      collect();
      const { heapUsed, arrayBuffers } = process.memoryUsage();
      return { heapUsed, arrayBuffers };
    };
    const grown = () => {
      const before = used();
      for (let k = 0; k < 1000; k++) round();
      const after = used();
      return Math.max(after.heapUsed - before.heapUsed, after.arrayBuffers - before.arrayBuffers);
    };
    for (let k = 0; k < 200; k++) round();
    const pages = instance.exports.memory.buffer.byteLength;
    // Now and then the engine keeps some memory for itself; a call that leaked would do so every time.
    const growths = Array.from({ length: 5 }, grown);
    assert.equal(instance.exports.memory.buffer.byteLength, pages);
    assert.ok(Math.min(...growths) < 100000, `10,000 calls took ${growths} bytes`);
  },

  'a call that runs out of JavaScript\'s stack takes none of the module\'s'() {
    const top = instance.exports.__stack_pointer.value;
    const deeper = () => { bpg.checkThumbnails(A); deeper(); };
    for (let k = 0; k < 50; k++) assert.throws(deeper, RangeError);
    assert.equal(bpg.read(C).framePeriodDen, 10);
    assert.equal(instance.exports.__stack_pointer.value, top);
  },

  async 'the module is loaded from beside bpg.mjs, a URL, its bytes, or compiled'() {
    const url = new URL('../bpg.wasm', import.meta.url);
    for (const source of [undefined, url, url.href, readFileSync(url), new Uint8Array(readFileSync(url)).buffer, module]) {
      assert.equal((await load(source)).read(A).pictureHeight, 542);
    }
    await assert.rejects(load(new URL('none.wasm', import.meta.url)));
    assert.deepEqual(WebAssembly.Module.imports(module), []);
  },

  'every call of the module has its signature in raw.mjs'() {
    const calls = WebAssembly.Module.exports(module).filter(({ kind }) => kind === 'function').map(({ name }) => name);
    assert.deepEqual(calls.sort(), Object.keys(SIGNATURES).sort());
  },

  'refusals, tags and limits are those of the header'() {
    const header = readFileSync(new URL('../../include/bpg.h', import.meta.url), 'utf8');
    const camel = (name) => name.split('_').map((word) => word[0] + word.slice(1).toLowerCase()).join('');
    const statuses = [...header.matchAll(/X\(BPG_(\w+), (\d+), "([^"]*)"\)/g)].filter(([, , number]) => number !== '0');
    assert.ok(statuses.length > 25);
    for (const [, name, number, words] of statuses) {
      const { reason, meaning } = new BpgRefusal(Number(number));
      assert.deepEqual([reason, meaning], [camel(name), words]);
    }
    const constant = (name) => Number(header.match(new RegExp(`^(?:#define| ) *${name} (?:= )?(\\d+)`, 'm'))[1]);
    for (const [name, tag] of Object.entries(Tag)) assert.equal(tag, constant(`BPG_TAG_${name}`));
    assert.deepEqual([MAX_FILE, MAX_ENTRIES], [constant('BPG_MAX_FILE'), constant('BPG_MAX_ENTRIES')]);
  },

  'the types name every call'() {
    const types = readFileSync(new URL('../bpg.d.ts', import.meta.url), 'utf8');
    const body = types.slice(types.indexOf('export class Bpg {'));
    const declared = [...body.matchAll(/^ {2}(\w+)\(/gm)].map(([, name]) => name);
    assert.deepEqual(declared.sort(), Object.getOwnPropertyNames(Bpg.prototype).sort());
    const fields = (name) => [...types.match(new RegExp(`interface ${name}[^{]*{([^}]*)}`))[1].matchAll(/^ {2}(\w+):/gm)].map(([, field]) => field);
    const record = bpg.read(A);
    assert.deepEqual([...fields('BpgRecord'), ...fields('Reading')].sort(), Object.keys(record).sort());
    assert.deepEqual(fields('HevcHeader'), Object.keys(record.colorHeader));
  },
};

let failed = 0;
for (const [name, test] of Object.entries(tests)) {
  try {
    await test();
  } catch (error) {
    failed++;
    console.log(`FAILED ${name}\n${error.stack}`);
  }
}
console.log(`misuse: ${Object.keys(tests).length} tests, ${failed} failed`);
process.exit(failed === 0 ? 0 : 1);
