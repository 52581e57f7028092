// How fast the module is in node against the native library: the least of several turns of each. See ./web/bench.
import { execFileSync } from 'node:child_process';
import { mkdirSync, readFileSync, writeFileSync } from 'node:fs';
import { fileURLToPath } from 'node:url';
import { Bpg, MAX_FILE } from '../bpg.mjs';
import { ue7 } from './generate.mjs';

const path = (name) => fileURLToPath(new URL(name, import.meta.url));
const kept = path('../../target/web');
mkdirSync(kept, { recursive: true });
execFileSync('cc', ['-O2', '-o', `${kept}/speed`, path('speed.c'), path('../../target/staticlib/libbpg_export.a')]);
const native = (call, file, turns) => Number(execFileSync(`${kept}/speed`, [call, file, String(turns)]));

const { exports } = new WebAssembly.Instance(new WebAssembly.Module(readFileSync(path('../bpg.wasm'))), {});
const bpg = new Bpg({ exports });
const VISITS = 8;
const ROUNDS = 10;
const READS = 20000;

/** Processor time of all threads, those of the garbage collector too, in nanoseconds: what else the machine does counts less. */
function now() {
  const { user, system } = process.cpuUsage();
  return 1000 * (user + system);
}

/** The least of several turns, in nanoseconds a call. */
function least(calls, turn) {
  let best = Infinity;
  for (let round = 0; round < ROUNDS; round++) {
    const start = now();
    for (let k = 0; k < calls; k++) turn();
    best = Math.min(best, (now() - start) / calls);
  }
  return best;
}

const entry = (tag, length) => [tag, ...ue7(length), ...new Uint8Array(length).fill(0x41)];
const entries = [...entry(1, 40), ...entry(2, 60), ...entry(3, 20)];
const head = (block) => [0x42, 0x50, 0x47, 0xfb, 0x20, 0x08, 0x8a, 0, 0x85, 0x50, 0, ...ue7(block.length), ...block, 3, 0x92, 0x4d, 0, 0x26, 1, 0x80];
const small = Uint8Array.from(head(entries));
const large = new Uint8Array(MAX_FILE).fill(0x55);
large.set(small);
writeFileSync(`${kept}/small.bpg`, small);
writeFileSync(`${kept}/large.bpg`, large);

// The calls as they are, on arrays that stand in the module's memory: behind the stack, and with room for the list and the results.
const results = exports.__heap_base.value;
const [list, at] = [results + 64, results + 64 + 8 * 1024];
const out = Math.ceil((at + MAX_FILE) / 65536) * 65536;
exports.memory.grow(Math.ceil((out + MAX_FILE) / 65536));
let memory = new Uint8Array(exports.memory.buffer);
memory.fill(1, out, out + MAX_FILE);
const lengthOf = (file) => BigInt(file.length);

function numbersCall() {
  memory.set(small, at);
  if ((exports.bpg_read(at, lengthOf(small), list, 1024n, results) & 0xff) !== 0) throw new Error('refused');
}

function canonicalCall() {
  if ((exports.bpg_canonicalize(at, lengthOf(large), out, lengthOf(large), results, results + 8) & 0xff) !== 0) throw new Error('refused');
}

const lent = new Uint8Array(MAX_FILE).fill(1);
const ROWS = {
  'native bpg_read, 3 entries': () => native('read', `${kept}/small.bpg`, ROUNDS),
  'bpg_read in the module, the file copied in': () => least(READS, numbersCall),
  'bpg.read, to an object': () => least(READS, () => bpg.read(small)),
  'native bpg_canonicalize, 16 MiB': () => native('canonicalize', `${kept}/large.bpg`, ROUNDS),
  'bpg_canonicalize in the module': () => {
    memory = new Uint8Array(exports.memory.buffer);
    memory.set(large, at);
    return least(1, canonicalCall);
  },
  'bpg.canonicalize into a lent array': () => least(1, () => bpg.canonicalize(large, lent)),
  'bpg.canonicalize to a new array': () => least(1, () => bpg.canonicalize(large)),
};
const LIMITS = ['', 'at most 3', 'at most 2000 ns', '', 'at most 1.5', 'at most 6', 'at most 6'];

// All rows in turn, several times, so that what else the machine does meets each of them alike.
const names = Object.keys(ROWS);
const times = names.map(() => Infinity);
for (let visit = 0; visit < VISITS; visit++) names.forEach((name, k) => (times[k] = Math.min(times[k], ROWS[name]())));
const shown = (time) => (time >= 1e5 ? `${(time / 1e6).toFixed(2)} ms` : `${time.toFixed(0)} ns`);
names.forEach((name, k) => {
  const against = name.startsWith('native') ? '' : `${(times[k] / times[k < 3 ? 0 : 3]).toFixed(2)} of native`;
  console.log(`${name.padEnd(44)} ${shown(times[k]).padStart(9)}  ${against.padEnd(16)} ${LIMITS[k]}`);
});
