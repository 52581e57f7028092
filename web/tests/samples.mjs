// Files for the tests of the page.
import { ue7 } from './generate.mjs';

export const bytes = (hex) => [...Buffer.from(hex.replaceAll(' ', ''), 'hex')];

// The desk's examples A and B: the same picture, once with its data length given.
export const A = bytes('42 50 47 FB 20 00 08 84 1E 00 03 92 4D 00 26 01');
export const B = bytes('42 50 47 FB 20 00 08 84 1E 06 03 92 4D 00 26 01');

const entry = (tag, payload) => [...ue7(tag), ...ue7(payload.length), ...payload];
const text = (words) => [...Buffer.from(words)];
const slice = (length) => [0x26, 0x01, 0xaf, ...Array.from({ length }, (_, k) => (k * 37 + 11) % 251 || 1), 0x80];
const duration = (periods) => [0x4e, 0x01, 0xff, 0x02, 0x02, periods >> 8, periods & 0xff, 0x80];

/** A file of this size, 4:2:0 with alpha, with these entries and this data. */
function file(width, height, flags, entries, data) {
  const block = entries.flat();
  const header = bytes('03 92 4D 00');
  return [...bytes('42 50 47 FB 30'), flags, ...ue7(width), ...ue7(height), 0, ...ue7(block.length), ...block, ...header, ...header, ...data];
}

const thumbnail = file(160, 90, 0x08, [], slice(180));

/** An animated chart with an entry of each kind: 12 frames at 1/10 s, each third of them shown for five periods, and dummy bytes in tag 5. */
export function loop() {
  const entries = [
    entry(1, text('Exif\0\0 valid 2026-11-16 06:00Z '.repeat(5))),
    entry(2, text('ICC '.repeat(140))),
    entry(3, text('<x:xmpmeta>radar composite</x:xmpmeta>'.repeat(7))),
    entry(4, thumbnail),
    entry(5, [3, 1, 10, 0x55, 0x55]),
    entry(300, text('private')),
  ];
  const frames = Array.from({ length: 12 }, (_, k) => [...(k % 3 === 2 ? [...duration(5), 0, 0, 1] : []), ...slice(150)]);
  return file(1280, 720, 0x09, entries, frames.flatMap((frame, k) => [...(k > 0 ? [0, 0, 1] : []), ...frame]));
}
