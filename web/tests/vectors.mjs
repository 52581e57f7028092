// The vectors, by the calls as they are (every byte of each buffer) and by bpg.mjs.
import { readFileSync } from 'node:fs';
import { gunzipSync } from 'node:zlib';
import { BpgRefusal, load, MAX_ENTRIES } from '../bpg.mjs';
import { Raw } from './raw.mjs';

const raw = new Raw();
const bpg = await load();
const counts = {};
let bad = 0;

function same(what, got, want) {
  counts[what] = (counts[what] ?? 0) + 1;
  if (got === want) return;
  bad++;
  if (bad <= 5) console.log(`${what} differs\n  got  ${got}\n  want ${want}`);
}

const lines = (name) =>
  gunzipSync(readFileSync(new URL(`../vectors/${name}.gz`, import.meta.url)))
    .toString()
    .split('\n')
    .filter((line) => line !== '');
const bytes = (hex) => Uint8Array.from(hex === '-' ? [] : Buffer.from(hex, 'hex'));
const hex = (array) => Buffer.from(array).toString('hex');
const numbers = (text) => (text === '-' ? [] : text.split(',').map(Number));
const filled = (length) => new Uint8Array(length).fill(0xa5);

/** What the call answers, or its refusal as `status at offset`. */
function answer(call, show) {
  try {
    return show(call());
  } catch (refusal) {
    if (!(refusal instanceof BpgRefusal)) throw refusal;
    return `${refusal.status} at ${refusal.offset}`;
  }
}

function headerText(header) {
  const fields = Object.values(header).map(Number);
  return `${fields.slice(0, 16)},${fields.slice(16).join('')}`;
}

const entryText = ({ tag, start, length, tagOffset }) => `${tag}@${start}+${length}#${tagOffset}`;

function recordText(r) {
  const alpha = [['none', 'white'], ['plain', 'premultiplied']][Number(r.alpha1Flag)][Number(r.alpha2Flag)];
  const entries = r.entries.map(entryText).join(' ');
  return (
    `size ${r.pictureWidth}x${r.pictureHeight} format ${r.pixelFormat} depth ${r.bitDepthMinus8 + 8} space ${r.colorSpace} alpha ${alpha} ` +
    `range ${r.limitedRangeFlag ? 'limited' : 'full'} ${r.animationFlag ? 'animated' : 'still'} ext ${r.entries.length} data ${r.data.length} | ` +
    `coded ${r.codedWidth}x${r.codedHeight} counted ${Number(r.explicitLength)} loop ${r.loopCount} ${r.framePeriodNum}/${r.framePeriodDen} ` +
    `data ${r.data.start}+${r.data.length} entries [${entries}] h0 ${headerText(r.alphaHeader)} h1 ${headerText(r.colorHeader)}`
  );
}

function read(line) {
  const [file, want] = [bytes(line.split(' ', 1)[0]), line.slice(line.indexOf(' ') + 1)];
  same('read', answer(() => bpg.read(file), recordText).replace(/^(?=\d)/, 'refused '), want);
  const entries = [...want.matchAll(/(\d+)@(\d+)\+(\d+)#(\d+)/g)].map(([text]) => text).join(' ');
  same('entries', bpg.entries(file).map(entryText).join(' '), entries);
  const data = want.match(/data (\d+)\+(\d+) /);
  same('data', hex(bpg.data(file)), data === null ? '' : hex(file.subarray(Number(data[1]), Number(data[1]) + Number(data[2]))));
  bpg.entries(file).forEach((entry, k) => {
    same('entry', entryText(bpg.entry(file, k)), entryText(entry));
    same('payload', hex(bpg.payload(file, k)), hex(file.subarray(entry.start, entry.start + entry.length)));
  });
}

function canonical(line) {
  const [file, form] = line.split(' ').map(bytes);
  same('canonicalize', hex(bpg.canonicalize(file)), hex(form));
  same('canonicalSize', bpg.canonicalSize(file), form.length);
  const roomy = raw.call('bpg_canonicalize', file, filled(file.length));
  same('canonicalize', `${roomy.status} ${roomy.results} ${hex(roomy.lists[0])}`, `0 ${form.length},0 ${hex(form)}${'a5'.repeat(file.length - form.length)}`);
  const tight = raw.call('bpg_canonicalize', file, filled(form.length - 1));
  same('canonicalize', `${tight.status} ${tight.results} ${hex(tight.lists[0])}`, `20 0,0 ${'a5'.repeat(form.length - 1)}`);
  const lent = filled(form.length - 1);
  same('canonicalize', answer(() => bpg.canonicalize(file, lent), hex) + hex(lent), `20 at 0${'a5'.repeat(form.length - 1)}`);
}

const camel = (name) => name.replace(/_(.)/g, (_, letter) => letter.toUpperCase());

/** The record of a vector, shaped as `read` gives it. Unused entries that are not zero, their tag offset aside, have no place in it. */
function recordFrom(r) {
  const range = ['transformSkipRotationEnabledFlag', 'transformSkipContextEnabledFlag', 'implicitRdpcmEnabledFlag', 'explicitRdpcmEnabledFlag'];
  range.push('extendedPrecisionProcessingFlag', 'intraSmoothingDisabledFlag', 'highPrecisionOffsetsEnabledFlag');
  range.push('persistentRiceAdaptationEnabledFlag', 'cabacBypassAlignmentEnabledFlag');
  const header = ({ range_flags, ...fields }) =>
    Object.fromEntries([...Object.entries(fields).map(([name, field]) => [camel(name), field]), ...range.map((name, k) => [name, range_flags[k]])]);
  const [alphaHeader, colorHeader] = r.headers.map(header);
  const entries = r.entries.slice(0, r.entry_count).map(([tag, start, length, tagOffset]) => ({ tag, start, length, tagOffset }));
  // Above the limit any count is refused alike.
  while (entries.length < Math.min(r.entry_count, MAX_ENTRIES + 1)) entries.push({ tag: 0, start: 0, length: 0 });
  return {
    ...{ pixelFormat: r.pixel_format, alpha1Flag: r.alpha1, bitDepthMinus8: r.bit_depth_minus_8, colorSpace: r.color_space },
    ...{ extensionPresentFlag: r.extension, alpha2Flag: r.alpha2, limitedRangeFlag: r.limited_range, animationFlag: r.animation },
    ...{ pictureWidth: r.width, pictureHeight: r.height, explicitLength: r.counted, loopCount: r.loop_count },
    ...{ framePeriodNum: r.period_num, framePeriodDen: r.period_den, alphaHeader, colorHeader },
    ...{ data: { start: r.data_start, length: r.data_length }, entries },
  };
}

function write(line) {
  const { record, source, room_size, answer: [status, , count], room } = JSON.parse(line);
  if (record.entries.slice(record.entry_count).some((entry) => entry.slice(0, 3).some((number) => number !== 0))) return;
  const out = filled(room_size);
  const got = answer(() => bpg.write(recordFrom(record), bytes(source), out), (written) => `0 ${written.length}`);
  const size = answer(() => bpg.writeSize(recordFrom(record), bytes(source)), (length) => (length > room_size ? '20 at 0' : `0 ${length}`));
  same('writeSize', size, got);
  same('write', `${got} ${hex(out)}`, `${status === 0 ? `0 ${count}` : `${status} at 0`} ${room}`);
}

function frames(line) {
  const [, file, length, status, offset, count, list] = line.match(/^(\S+) (\d+) => (\d+) at (\d+) count (\d+) list (\S*)$/);
  const got = raw.call('bpg_frames', bytes(file), new Uint16Array(Number(length)).fill(9999));
  same('frames', `${got.status} ${got.results} ${got.lists[0].join() || '-'}`, `${status} ${count},${offset} ${list || '-'}`);
  const wanted = numbers(list || '-').slice(0, Number(count));
  if (status !== '20') same('frames', answer(() => bpg.frames(bytes(file)), (all) => all.join()), status === '0' ? wanted.join() : `${status} at ${offset}`);
  if (status !== '20') same('frameCount', answer(() => bpg.frameCount(bytes(file)), String), status === '0' ? count : `${status} at ${offset}`);
}

function deep(line) {
  const [, file, status, offset] = line.match(/^(\S+) => (\d+) at (\d+)$/);
  same('checkThumbnails', answer(() => bpg.checkThumbnails(bytes(file)), () => '0 at 0'), `${status} at ${offset}`);
}

function batch(line) {
  const form = /^(\S+) lengths (\S+) lists (\d+),(\d+) => (\d+) at 0 count \d+ numbers (\S+) places (\S+)$/;
  const [, buffer, lengths, first, second, status, statuses, offsets] = line.match(form);
  const lists = [new Uint8Array(Number(first)).fill(99), new Uint32Array(Number(second)).fill(999)];
  const got = raw.call('bpg_batch', bytes(buffer), Uint32Array.from(numbers(lengths)), ...lists);
  same('batch', `${got.status} ${got.lists[0].join() || '-'} ${got.lists[1].join() || '-'}`, `${status} ${statuses} ${offsets}`);
  if (first !== second || Number(first) !== numbers(lengths).length) return;
  const show = (files) => files.map((refusal) => `${refusal?.status ?? 0}@${refusal?.offset ?? 0}`).join();
  const wanted = numbers(statuses).map((number, k) => `${number}@${numbers(offsets)[k]}`).join();
  same('batch', answer(() => bpg.batch(bytes(buffer), numbers(lengths)), show), status === '0' ? wanted : `${status} at 0`);
}

// The heads of the vectors name some fields otherwise; their order is that of the list.
function headFrom(fields) {
  const names = ['pixelFormat', 'alpha1Flag', 'bitDepthMinus8', 'colorSpace', 'extensionPresentFlag', 'alpha2Flag', 'limitedRangeFlag'];
  names.push('animationFlag', 'pictureWidth', 'pictureHeight', 'dataLength', 'extensionLength');
  return Object.fromEntries(Object.values(fields).map((value, k) => [names[k], value]));
}

function head(line) {
  const { file, head: [status, offset, fields], body_with_own_head: own, other_head: other, body_with_other_head: others } = JSON.parse(line);
  const wanted = status === 0 ? Object.values(fields).join() : `${status} at ${offset}`;
  for (const part of [bytes(file), bytes(file).subarray(0, 27)]) {
    same('head', answer(() => bpg.head(part), (found) => Object.values(found).map(Number).join()), wanted);
    const got = raw.call('bpg_head', part, new BigUint64Array(13).fill(99n));
    same('head', `${got.status} at ${got.results} ${got.lists[0].join()}`, `${status} at ${offset} ${[...(status === 0 ? Object.values(fields) : Array(12).fill(99)), 99].join()}`);
  }
  const body = (given) => answer(() => bpg.body(headFrom(given), bytes(file)), () => '0 at 0');
  if (status === 0) same('body', body(fields), own.join(' at '));
  if (status === 0 && own[0] === 0) same('body', JSON.stringify(bpg.body(headFrom(fields), bytes(file))), JSON.stringify(bpg.read(bytes(file))));
  if (other) same('body', body(other), others.join(' at '));
}

function nal(line) {
  const [, unit, keeps, undone, redone] = line.match(/^(\S+) keeps ([01]) undone (\S+) redone (\S+)$/);
  same('unescape', answer(() => bpg.unescape(bytes(unit)), hex), keeps === '1' ? undone.replace('-', '') : '22 at 0');
  same('escape', hex(bpg.escape(bytes(undone))), redone.replace('-', ''));
}

function parts(line) {
  const [file, want] = line.split(' => ');
  const got = raw.call('bpg_partition', bytes(file));
  const text = ([head, entryHeads, payloads, headers, data]) => `head ${head} entry heads ${entryHeads} payloads ${payloads} headers ${headers} data ${data}`;
  same('partition', `${got.status} ${text(got.results)} ${got.results[5]}`, `0 ${want} 0`);
  same('partition', answer(() => bpg.partition(bytes(file)), (counts) => text(Object.values(counts))), want);
}

const CONVERSIONS = { premultiplied: 'unpremultiply', cmyk: 'cmyk', white: 'defaultFromWhite', ycgco: 'ycgco', luma: 'limitedLuma' };

function samples(line) {
  const [, rule, depth, given, rooms, status, after] = line.match(/^(\w+) depth (\d+) planes (.+) rooms (.+) => (\d+) at 0 count \d+ rooms (.+)$/);
  const arrays = (text) => text.split(' ').map((list) => Uint16Array.from(numbers(list)));
  const [planes, out] = [arrays(given), rooms.split(' ').map((length) => new Uint16Array(Number(length)).fill(7777))];
  const call = CONVERSIONS[rule];
  const convert = (lent) => (rule === 'luma' ? [bpg.limitedLuma(planes[0], lent?.[0])] : bpg[call](planes, Number(depth), lent));
  const show = (lists) => lists.map((list) => list.join() || '-').join(' ');
  const got = answer(() => convert(out), () => '0 at 0');
  same(call, `${got} ${show(out)}`, `${status} at 0 ${after}`);
  if (status === '0') same(call, show(convert()), after);
}

function player(line) {
  const show = ({ frame, ended }) => `0 frame ${frame} ended ${Number(ended)}`;
  if (line.startsWith('frame')) {
    const form = /^frame loops (\d+) num (\d+) den (\d+) durations (\S+) tick (\d+) => (.*)$/;
    const [, loopCount, framePeriodNum, framePeriodDen, durations, tick, want] = line.match(form);
    const given = [Number(loopCount), Number(framePeriodNum), Number(framePeriodDen), Uint16Array.from(numbers(durations)), BigInt(tick)];
    const { status, results } = raw.call('player_frame_at', ...given);
    same('frameAt', `${status} frame ${results[0]} ended ${results[1]}`, want);
    const record = { loopCount: given[0], framePeriodNum: given[1], framePeriodDen: given[2] };
    same('frameAt', answer(() => bpg.frameAt(record, given[3], given[4]), show), want.replace(/^37.*/, '37 at 0'));
    return;
  }
  const [, ms, framePeriodNum, framePeriodDen, want] = line.match(/^ticks ms (\d+) num (\d+) den (\d+) => (.*)$/);
  const given = [ms, framePeriodNum, framePeriodDen].map(Number);
  const { status, results } = raw.call('player_ticks', ...given);
  same('ticks', `${status} ticks ${results[0]}`, want);
  const record = { framePeriodNum: given[1], framePeriodDen: given[2] };
  same('ticks', answer(() => bpg.ticks(record, given[0]), (ticks) => `0 ticks ${ticks}`), want.replace(/^37.*/, '37 at 0'));
}

function exported(line) {
  const { file, room_size, answer: [status, offset, count], room } = JSON.parse(line);
  const got = raw.call('bpg_export_segments', bytes(file), filled(room_size));
  same('exportSegments', `${got.status} ${got.results} ${hex(got.lists[0])}`, `${status} ${count},${offset} ${room}`);
  const out = filled(room_size);
  const lent = answer(() => bpg.exportSegments(bytes(file), out), (run) => `0 ${run.length}`);
  same('exportSegments', `${lent} ${hex(out)}`, `${status === 0 ? `0 ${count}` : `${status} at ${offset}`} ${room}`);
  if (status !== 20) same('exportSegments', answer(() => bpg.exportSegments(bytes(file)), hex), status === 0 ? room.slice(0, 2 * count) : `${status} at ${offset}`);
}

function imported(line) {
  const { run, room_size, answer: [status, offset, , lengths], room } = JSON.parse(line);
  const got = raw.call('bpg_import_segments', bytes(run), filled(room_size));
  same('importSegments', `${got.status} ${got.results} ${hex(got.lists[0])}`, `${status} ${lengths} ${room}`);
  const [exif, xmp, icc] = lengths.map((length) => 2 * length);
  const wanted = [room.slice(0, exif), room.slice(exif, exif + xmp), room.slice(exif + xmp, exif + xmp + icc)];
  const show = (payloads) => [payloads.exif, payloads.xmp, payloads.icc].map(hex).join();
  if (status !== 20) same('importSegments', answer(() => bpg.importSegments(bytes(run)), show), status === 0 ? wanted.join() : `${status} at ${offset}`);
}

lines('read.txt').forEach(read);
lines('canonical.txt').forEach(canonical);
lines('write.jsonl').forEach(write);
lines('frames.txt').forEach(frames);
lines('deep.txt').forEach(deep);
lines('batch.txt').forEach(batch);
lines('nal.txt').forEach(nal);
lines('samples.txt').forEach(samples);
lines('player.txt').forEach(player);
lines('parts.txt').forEach(parts);
lines('head.jsonl').forEach(head);
lines('export.jsonl').forEach(exported);
lines('import.jsonl').forEach(imported);
const total = Object.values(counts).reduce((sum, count) => sum + count, 0);
console.log(`vectors: ${total} answers (${Object.entries(counts).map(([name, count]) => `${name} ${count}`).join(', ')}), ${bad} differ`);
process.exit(bad === 0 ? 0 : 1);
