// What the parts and the numbers of a file are called, and where its parts stand.

const TAGS = { 1: 'EXIF', 2: 'ICC profile', 3: 'XMP', 4: 'thumbnail', 5: 'animation' };
export const tagName = (tag) => TAGS[tag] ?? `tag ${tag}`;

const PIXEL_FORMATS = [
  'grayscale',
  '4:2:0, JPEG chroma position',
  '4:2:2, JPEG chroma position',
  '4:4:4',
  '4:2:0, MPEG2 chroma position',
  '4:2:2, MPEG2 chroma position',
];
const COLOR_SPACES = ['YCbCr, BT 601', 'RGB', 'YCgCo', 'YCbCr, BT 709', 'YCbCr, BT 2020'];

function alphaName({ alpha1Flag, alpha2Flag }) {
  if (alpha1Flag) return alpha2Flag ? 'yes, color premultiplied' : 'yes';
  return alpha2Flag ? 'W plane (CMYK)' : 'none';
}

/** The particulars of a record, as pairs of a name and words. */
export function particulars(record) {
  return [
    ['Size', `${record.pictureWidth} × ${record.pictureHeight}`],
    ['Coded size', `${record.codedWidth} × ${record.codedHeight}`],
    ['Pixel format', PIXEL_FORMATS[record.pixelFormat]],
    ['Bit depth', String(record.bitDepthMinus8 + 8)],
    ['Color space', record.pixelFormat === 0 ? 'gray' : COLOR_SPACES[record.colorSpace]],
    ['Alpha', alphaName(record)],
    ['Range', record.limitedRangeFlag ? 'limited' : 'full'],
    ['Kind', record.animationFlag ? 'animated' : 'still'],
    ['Data', `at ${record.data.start}, ${bytesText(record.data.length)}`],
    ['Data length', record.explicitLength ? 'given in the file' : 'up to the end of the file'],
  ];
}

export const bytesText = (count) => `${count.toLocaleString('en')} ${count === 1 ? 'byte' : 'bytes'}`;

/** Seconds in words. */
export function timeText(seconds) {
  const rounded = (value) => String(Math.round(value * 1000) / 1000);
  if (seconds < 60) return seconds < 0.001 ? `${Number(seconds.toPrecision(2))} s` : `${rounded(seconds)} s`;
  return `${Math.floor(seconds / 60)} min ${rounded(seconds % 60)} s`;
}

/** The parts of an accepted file in order, each with kind, name, start and length: together they are the file. */
export function fileParts(record, partition) {
  const parts = [];
  let at = 0;
  const upTo = (end, kind, name) => {
    if (end > at) parts.push({ kind, name, start: at, length: end - at });
    at = end;
  };
  upTo(partition.head, 'head', 'head');
  for (const { tag, start, length } of record.entries) {
    upTo(start, 'entry-head', `entry head of ${tagName(tag)}`);
    upTo(start + length, 'payload', `payload of ${tagName(tag)}`);
  }
  upTo(record.data.start, 'headers', 'HEVC headers');
  upTo(record.data.start + record.data.length, 'data', 'HEVC data');
  return parts;
}

/** The kinds of parts in their order: the name of all parts of a kind, and how many bytes a partition says that they have. */
export const KINDS = [
  { kind: 'head', name: 'head', bytes: ({ head }) => head },
  { kind: 'entry-head', name: 'entry heads', bytes: ({ entryHeads }) => entryHeads },
  { kind: 'payload', name: 'payloads', bytes: ({ payloads }) => payloads },
  { kind: 'headers', name: 'HEVC headers', bytes: ({ headers }) => headers },
  { kind: 'data', name: 'HEVC data', bytes: ({ data }) => data },
];
