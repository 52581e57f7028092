// The module and the native library on generated and spoiled files: every status, result and byte of every buffer is to be the same.
// WEB_FILES and WEB_SEED in the environment give other runs, WEB_STATUSES how often each call gave each status. Needs cc and the static libraries in
// target/staticlib.
import { execFileSync, spawnSync } from 'node:child_process';
import { existsSync, mkdirSync } from 'node:fs';
import { fileURLToPath } from 'node:url';
import { file, Random, spoil } from './generate.mjs';
import { Raw, SIGNATURES } from './raw.mjs';

const path = (name) => fileURLToPath(new URL(name, import.meta.url));
const FILES = Number(process.env.WEB_FILES ?? 100000);
const SEED = Number(process.env.WEB_SEED ?? 1);
const CHUNK = 2000;
const NAMES = Object.keys(SIGNATURES);
const libraries = ['bpg_export', 'loop_player_export'].map((name) => path(`../../target/staticlib/lib${name}.a`));
const driver = path('../../target/web/native');

if (!libraries.every(existsSync) || spawnSync('cc', ['--version']).error) {
  console.log('native: skipped, a native library (./build library, ./build player) or cc is not here');
  process.exit(0);
}
mkdirSync(path('../../target/web'), { recursive: true });
execFileSync('cc', ['-O1', '-Wall', '-Wextra', '-Werror', '-o', driver, path('native.c'), ...libraries]);

const raw = new Raw();
const random = new Random(SEED);
const statuses = new Map(NAMES.map((name) => [name, new Map()]));
let [files, calls, bad] = [0, 0, 0];

// The stack lies at the start of the memory, up to where its pointer stands between calls: what is not this byte any more was used.
const UNUSED = 0xd7;
const stack = raw.exports.__stack_pointer.value;
new Uint8Array(raw.exports.memory.buffer, 0, stack).fill(UNUSED);

/** The bytes of a call, as native.c takes them. */
function request(name, given) {
  const parts = [Uint8Array.of(NAMES.indexOf(name))];
  for (const item of given) {
    if (typeof item === 'bigint' || typeof item === 'number') parts.push(new BigUint64Array([BigInt(item)]));
    else parts.push(new Uint32Array([item.length]), item);
  }
  return Buffer.concat(parts.map((part) => new Uint8Array(part.buffer, part.byteOffset, part.byteLength)));
}

/** Holds the module to the native library on these calls. */
function compare(cases) {
  const input = Buffer.concat(cases.map(({ name, given }) => request(name, given)));
  const native = spawnSync(driver, { input, maxBuffer: 2 ** 31 - 1 });
  if (native.status !== 0) throw new Error(`the native driver ended with ${native.status ?? native.error}`);
  let at = 0;
  for (const { name, given } of cases) {
    const answer = raw.answer(name, ...given);
    const wanted = native.stdout.subarray(at, at + answer.length);
    at += answer.length;
    calls++;
    const seen = statuses.get(name);
    seen.set(answer[0], (seen.get(answer[0]) ?? 0) + 1);
    if (answer.equals(wanted)) continue;
    bad++;
    if (bad <= 5) console.log(`${name} differs on ${request(name, given).toString('hex').slice(0, 200)}`);
  }
  if (at !== native.stdout.length) throw new Error('the native driver answered more than was asked');
}

/** A list of numbers to write: that of a reading, mostly with a number or two changed. */
function spoiltNumbers(numbers) {
  const changed = BigUint64Array.from(numbers);
  for (let changes = random.below(3); changes > 0; changes--) {
    changed[random.below(changed.length)] = BigInt(random.pick([0, 1, 2, 3, 5, 16, 17, 64, 65, 255, 256, 65536, 2 ** 32 - 1, 2 ** 32, random.below(300)]));
  }
  return random.once(50) ? changed.slice(0, random.below(changed.length)) : changed;
}

const filled = (array, length, value) => new array(length).fill(value);
const near = (length) => Math.max(0, length + random.pick([0, 0, 0, -1, -2, 1, 20]));

/** Loops, mostly such as can be played, at ticks of their first rounds and late ones. */
function loopCalls() {
  const number = () => random.pick([0, 1, 1, 2, 3, 10, 65535, random.below(100)]);
  const count = random.pick([0, 1, 2, 3, 5, 8, 256, 257]);
  const durations = Uint16Array.from({ length: count }, () => random.pick([1, 1, 2, 3, 500, 65535]));
  if (random.once(8) && count > 0) durations[random.below(count)] = 0;
  const tick = BigInt(random.pick([random.below(20), random.below(2 ** 30), 2 ** 52]));
  return [
    { name: 'player_frame_at', given: [number(), number(), number(), durations, tick] },
    { name: 'player_ticks', given: [random.pick([random.below(5000), 2 ** 32 - 1]), number(), number()] },
  ];
}

/** The calls on one file. */
function callsOn(bytes) {
  const cases = [];
  const add = (name, ...given) => cases.push({ name, given });
  add('bpg_read', bytes, filled(BigUint64Array, random.once(20) ? random.below(130) : 130, 0xa5a5a5a5a5a5a5a5n));
  add('bpg_entry', bytes, BigInt(random.pick([0, 1, 2, 15, 63, 64, 2 ** 40])));
  add('bpg_canonicalize', bytes, filled(Uint8Array, near(bytes.length), 0xa5));
  add('bpg_canonical_size', bytes);
  add('bpg_frames', bytes, filled(Uint16Array, random.below(12), 9999));
  add('bpg_frame_count', bytes);
  add('bpg_check_thumbnails', bytes);
  add('bpg_partition', bytes);
  const reading = raw.call('bpg_read', bytes, filled(BigUint64Array, 130, 0n));
  if (reading.status === 0) {
    const numbers = spoiltNumbers(reading.lists[0]);
    add('bpg_write', numbers, bytes, filled(Uint8Array, near(bytes.length), 0xa5));
    add('bpg_write_size', numbers, bytes);
  }
  add('player_frame_at_time', bytes, random.pick([0, random.below(5000), 2 ** 32 - 1]));
  cases.push(...loopCalls());
  add('bpg_head', random.once(2) ? bytes.slice(0, 27) : bytes, filled(BigUint64Array, random.once(20) ? random.below(13) : 13, 0xa5a5a5a5a5a5a5a5n));
  const head = raw.call('bpg_head', bytes, filled(BigUint64Array, 12, 0n)).lists[0];
  add('bpg_body', random.once(3) ? spoiltNumbers(head) : head, bytes, filled(BigUint64Array, random.once(20) ? random.below(130) : 130, 0xa5a5a5a5a5a5a5a5n));
  const exported = raw.call('bpg_export_segments', bytes, filled(Uint8Array, bytes.length + 100, 0xa5));
  add('bpg_export_segments', bytes, filled(Uint8Array, near(exported.results[0]), 0xa5));
  const run = exported.lists[0].slice(0, near(exported.results[0]));
  if (random.once(4) && run.length > 0) run[random.below(run.length)] = random.pick([0, 1, 2, 0xe1, 0xe2, 0xff]);
  add('bpg_import_segments', run, filled(Uint8Array, near(run.length), 0xa5));
  const slice = bytes.slice(random.below(bytes.length + 1));
  add(random.pick(['bpg_unescape', 'bpg_escape']), slice, filled(Uint8Array, near(slice.length + 4), 0xa5));
  return cases;
}

function batchOf(some) {
  const buffer = Uint8Array.from(some.flatMap((bytes) => [...bytes]));
  const lengths = Uint32Array.from(some, (bytes) => bytes.length);
  if (random.once(8) && lengths.length > 0) lengths[random.below(lengths.length)]++;
  const others = () => filled(Uint32Array, random.once(20) ? random.below(5) : lengths.length, 999);
  return { name: 'bpg_batch', given: [buffer, lengths, Uint8Array.from(others(), () => 99), others()] };
}

const CONVERSIONS = { bpg_unpremultiply: [4, 3], bpg_cmyk: [4, 4], bpg_default_from_white: [4, 3], bpg_ycgco: [3, 3], bpg_limited_luma: [1, 1] };

/** A call on samples: now and then with planes or buffers of another length, another depth, a sample that is too large. */
function conversion() {
  const [name, [planes, buffers]] = random.pick(Object.entries(CONVERSIONS));
  const depth = random.once(10) ? random.pick([0, 7, 15, 255]) : 8 + (name === 'bpg_limited_luma' ? 0 : random.below(7));
  const [length, most] = [random.below(40), 2 ** Math.min(Math.max(depth, 8), 14) - 1];
  const lengths = () => (random.once(40) ? random.below(41) : length);
  const sample = () => (random.once(1000) ? most + 1 : random.pick([0, 1, most, random.below(most + 1)]));
  const given = Array.from({ length: planes }, () => Uint16Array.from({ length: lengths() }, sample));
  for (let k = 0; k < buffers; k++) given.push(filled(Uint16Array, lengths(), 7777));
  return { name, given: name === 'bpg_limited_luma' ? given : [...given, depth] };
}

while (files < FILES) {
  const chunk = Array.from({ length: Math.min(CHUNK, FILES - files) }, () => Uint8Array.from(spoil(random, file(random), random.pick([0, 0, 1, 2, 4]))));
  files += chunk.length;
  const cases = chunk.flatMap(callsOn);
  for (let k = 0; k + 8 < chunk.length; k += 8) cases.push(batchOf(chunk.slice(k, k + random.below(8))), conversion());
  compare(cases);
}

// Files at the limit and above it. Their last byte is not 0, so that it belongs to the slice.
const small = Uint8Array.of(0x42, 0x50, 0x47, 0xfb, 0x20, 0, 8, 0x84, 0x1e, 0, 3, 0x92, 0x4d, 0, 0x26, 1, 0x80);
for (const length of [16777216, 16777217]) {
  const large = new Uint8Array(length).fill(0x55);
  large.set(small);
  compare(['bpg_frames', 'bpg_canonicalize'].map((name) => ({ name, given: [large, new (name === 'bpg_frames' ? Uint16Array : Uint8Array)(length)] })));
  compare([{ name: 'bpg_read', given: [large, new BigUint64Array(130)] }]);
  compare([{ name: 'bpg_head', given: [large, new BigUint64Array(12)] }]);
  compare([{ name: 'bpg_body', given: [new BigUint64Array(12), large, new BigUint64Array(130)] }]);
  files++;
}

const deepest = new Uint8Array(raw.exports.memory.buffer, 0, stack).findIndex((byte) => byte !== UNUSED);
const all = new Set([...statuses.values()].flatMap((seen) => [...seen.keys()]));
console.log(`native: ${files} files, ${calls} calls with ${all.size} different statuses, ${bad} differ; the stack took ${stack - deepest} of ${stack} bytes`);
if (process.env.WEB_STATUSES) for (const [name, seen] of statuses) console.log(name, Object.fromEntries(seen));
process.exit(bad === 0 && stack - deepest < stack / 2 ? 0 : 1);
