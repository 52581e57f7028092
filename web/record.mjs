// A record as an object, and as the list of numbers in which it crosses to the library. All that depends on the list's layout stands here.
//
// The list (include/bpg.h) has numbers of 64 bits. Here it is seen as words of 32 bits, the low one first: only the coded size needs the high
// one, and so no BigInt is made. `at` is the index of the list's first word.

export const MAX_ENTRIES = 64;

// Where numbers stand that are not the first ones; the entries in use come last, one after another.
const LOOP_COUNT = 11;
const ALPHA_HEADER = 14;
const COLOR_HEADER = 39;
const DATA = 64;
const CODED_SIZE = 66;
const ENTRY_COUNT = 68;
const ENTRIES = 69;
const ENTRY_NUMBERS = 4;

/** How many numbers the longest list has. */
export const MAX_NUMBERS = ENTRIES + MAX_ENTRIES * ENTRY_NUMBERS;

const WORD = 2 ** 32;

/** The record, with the coded size, of the list of a reading. Fields stand in the order of the list: `put` goes by it. */
export function recordOf(words, at) {
  const number = (k) => words[at + 2 * k];
  const flag = (k) => words[at + 2 * k] !== 0;
  return {
    pixelFormat: number(0),
    alpha1Flag: flag(1),
    bitDepthMinus8: number(2),
    colorSpace: number(3),
    extensionPresentFlag: flag(4),
    alpha2Flag: flag(5),
    limitedRangeFlag: flag(6),
    animationFlag: flag(7),
    pictureWidth: number(8),
    pictureHeight: number(9),
    explicitLength: flag(10),
    loopCount: number(LOOP_COUNT),
    framePeriodNum: number(LOOP_COUNT + 1),
    framePeriodDen: number(LOOP_COUNT + 2),
    alphaHeader: headerOf(words, at + 2 * ALPHA_HEADER),
    colorHeader: headerOf(words, at + 2 * COLOR_HEADER),
    data: { start: number(DATA), length: number(DATA + 1) },
    codedWidth: number(CODED_SIZE) + WORD * words[at + 2 * CODED_SIZE + 1],
    codedHeight: number(CODED_SIZE + 1) + WORD * words[at + 2 * CODED_SIZE + 3],
    entries: entriesOf(words, at),
  };
}

/** How many numbers the list of a head has. */
export const HEAD_NUMBERS = 12;

/** The head of its list. Fields stand in the order of the list: `putHead` goes by it. */
export function headOf(words, at) {
  const number = (k) => words[at + 2 * k];
  const flag = (k) => words[at + 2 * k] !== 0;
  return {
    pixelFormat: number(0),
    alpha1Flag: flag(1),
    bitDepthMinus8: number(2),
    colorSpace: number(3),
    extensionPresentFlag: flag(4),
    alpha2Flag: flag(5),
    limitedRangeFlag: flag(6),
    animationFlag: flag(7),
    pictureWidth: number(8),
    pictureHeight: number(9),
    dataLength: number(10),
    extensionLength: number(11),
  };
}

/** The data's range alone, of the list of a reading. */
export function dataOf(words, at) {
  return { start: words[at + 2 * DATA], length: words[at + 2 * DATA + 2] };
}

/** The entries alone, of the list of a reading. */
export function entriesOf(words, at) {
  const entries = [];
  let k = at + 2 * ENTRIES;
  for (let left = words[at + 2 * ENTRY_COUNT]; left > 0; left--, k += 2 * ENTRY_NUMBERS) {
    entries.push({ tag: words[k], start: words[k + 2], length: words[k + 4], tagOffset: words[k + 6] });
  }
  return entries;
}

function headerOf(words, at) {
  const number = (k) => words[at + 2 * k];
  const flag = (k) => words[at + 2 * k] !== 0;
  return {
    log2MinLumaCodingBlockSizeMinus3: number(0),
    log2DiffMaxMinLumaCodingBlockSize: number(1),
    log2MinTransformBlockSizeMinus2: number(2),
    log2DiffMaxMinTransformBlockSize: number(3),
    maxTransformHierarchyDepthIntra: number(4),
    sampleAdaptiveOffsetEnabledFlag: flag(5),
    pcmEnabledFlag: flag(6),
    pcmSampleBitDepthLumaMinus1: number(7),
    pcmSampleBitDepthChromaMinus1: number(8),
    log2MinPcmLumaCodingBlockSizeMinus3: number(9),
    log2DiffMaxMinPcmLumaCodingBlockSize: number(10),
    pcmLoopFilterDisabledFlag: flag(11),
    strongIntraSmoothingEnabledFlag: flag(12),
    spsExtensionPresentFlag: flag(13),
    spsRangeExtensionFlag: flag(14),
    spsExtension7bits: number(15),
    transformSkipRotationEnabledFlag: flag(16),
    transformSkipContextEnabledFlag: flag(17),
    implicitRdpcmEnabledFlag: flag(18),
    explicitRdpcmEnabledFlag: flag(19),
    extendedPrecisionProcessingFlag: flag(20),
    intraSmoothingDisabledFlag: flag(21),
    highPrecisionOffsetsEnabledFlag: flag(22),
    persistentRiceAdaptationEnabledFlag: flag(23),
    cabacBypassAlignmentEnabledFlag: flag(24),
  };
}

// The names of the fields in the order of the list, taken from the objects above.
const NOTHING = new Uint32Array(2 * ENTRIES);
const HEADER_FIELDS = Object.keys(headerOf(NOTHING, 0));
const HEAD_FIELDS = Object.keys(headOf(NOTHING, 0));
const FIRST_FIELDS = Object.keys(recordOf(NOTHING, 0)).slice(0, ALPHA_HEADER);
const RANGE_FIELDS = ['start', 'length'];
const ENTRY_FIELDS = ['tag', 'start', 'length', 'tagOffset'];

/** Puts the list of a record at `at` and answers how many numbers it has. The coded size is not looked at. With too many entries, the list
 *  has their count alone, which the library refuses before it looks for them. */
export function put(record, words, at) {
  putFields(record, FIRST_FIELDS, words, at, 'record');
  putFields(record.alphaHeader, HEADER_FIELDS, words, at + 2 * ALPHA_HEADER, 'record.alphaHeader');
  putFields(record.colorHeader, HEADER_FIELDS, words, at + 2 * COLOR_HEADER, 'record.colorHeader');
  putFields(record.data, RANGE_FIELDS, words, at + 2 * DATA, 'record.data');
  const entries = record.entries;
  if (!Array.isArray(entries)) throw new TypeError('record.entries is not an array');
  words.fill(0, at + 2 * CODED_SIZE, at + 2 * ENTRIES);
  words[at + 2 * ENTRY_COUNT] = entries.length;
  const used = entries.length > MAX_ENTRIES ? 0 : entries.length;
  for (let k = 0; k < used; k++) {
    putFields(entries[k], ENTRY_FIELDS, words, at + 2 * (ENTRIES + k * ENTRY_NUMBERS), `record.entries[${k}]`);
  }
  return ENTRIES + used * ENTRY_NUMBERS;
}

/** Puts the list of a head at `at`. */
export function putHead(head, words, at) {
  putFields(head, HEAD_FIELDS, words, at, 'head');
}

function putFields(object, names, words, at, what) {
  if (object === null || typeof object !== 'object') throw new TypeError(`${what} is not an object`);
  for (const name of names) {
    // A new entry needs no tag offset: writing does not look at it.
    const value = name === 'tagOffset' ? (object[name] ?? 0) : object[name];
    const number = typeof value === 'boolean' ? Number(value) : value;
    if (!Number.isSafeInteger(number) || number < 0) throw new TypeError(`${what}.${name} is neither a flag nor a whole number from 0 to 2^53 - 1`);
    words[at++] = number % WORD;
    words[at++] = Math.floor(number / WORD);
  }
}
