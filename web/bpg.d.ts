/** Reads, writes and canonicalizes BPG 0.9.5 files, in a page or in node, by the proved library in bpg.wasm. */

/** A part of a file or of a source. */
export interface ByteRange {
  start: number;
  length: number;
}

/** An extension entry: its tag, where its payload stands, and where its tag begins in the file that was read. Writing does not use the last, and it may be left out. */
export interface Entry extends ByteRange {
  tag: number;
  tagOffset?: number;
}

/** A HEVC header, its fields as coded. Fields that are not in the file are 0 or false. */
export interface HevcHeader {
  log2MinLumaCodingBlockSizeMinus3: number;
  log2DiffMaxMinLumaCodingBlockSize: number;
  log2MinTransformBlockSizeMinus2: number;
  log2DiffMaxMinTransformBlockSize: number;
  maxTransformHierarchyDepthIntra: number;
  sampleAdaptiveOffsetEnabledFlag: boolean;
  pcmEnabledFlag: boolean;
  pcmSampleBitDepthLumaMinus1: number;
  pcmSampleBitDepthChromaMinus1: number;
  log2MinPcmLumaCodingBlockSizeMinus3: number;
  log2DiffMaxMinPcmLumaCodingBlockSize: number;
  pcmLoopFilterDisabledFlag: boolean;
  strongIntraSmoothingEnabledFlag: boolean;
  spsExtensionPresentFlag: boolean;
  spsRangeExtensionFlag: boolean;
  spsExtension7bits: number;
  transformSkipRotationEnabledFlag: boolean;
  transformSkipContextEnabledFlag: boolean;
  implicitRdpcmEnabledFlag: boolean;
  explicitRdpcmEnabledFlag: boolean;
  extendedPrecisionProcessingFlag: boolean;
  intraSmoothingDisabledFlag: boolean;
  highPrecisionOffsetsEnabledFlag: boolean;
  persistentRiceAdaptationEnabledFlag: boolean;
  cabacBypassAlignmentEnabledFlag: boolean;
}

/** The record of a file: every field as coded, except the lengths, which follow from the rest. */
export interface BpgRecord {
  pixelFormat: number;
  alpha1Flag: boolean;
  bitDepthMinus8: number;
  colorSpace: number;
  extensionPresentFlag: boolean;
  alpha2Flag: boolean;
  limitedRangeFlag: boolean;
  animationFlag: boolean;
  pictureWidth: number;
  pictureHeight: number;
  /** The file gives the length of its picture data; otherwise that goes up to the end of the file. */
  explicitLength: boolean;
  /** The loop numbers are those in the payload of the animation control entry, and 0 without one. */
  loopCount: number;
  framePeriodNum: number;
  framePeriodDen: number;
  /** The header of the alpha plane, or of W; 0 and false without alpha1Flag and alpha2Flag. */
  alphaHeader: HevcHeader;
  colorHeader: HevcHeader;
  /** The HEVC data, without the headers. */
  data: ByteRange;
  entries: Entry[];
}

/** The head of a file: its format, its size and two lengths, as coded. */
export interface Head {
  pixelFormat: number;
  alpha1Flag: boolean;
  bitDepthMinus8: number;
  colorSpace: number;
  extensionPresentFlag: boolean;
  alpha2Flag: boolean;
  limitedRangeFlag: boolean;
  animationFlag: boolean;
  pictureWidth: number;
  pictureHeight: number;
  /** Of the HEVC headers and data; 0 where they go up to the end of the file. */
  dataLength: number;
  /** Of the extension block; 0 without one. */
  extensionLength: number;
}

/** A record as a file gives it, with its size as HEVC codes it, which may be 2^32. */
export interface Reading extends BpgRecord {
  codedWidth: number;
  codedHeight: number;
}

/** What a loop shows: the frame, from 0, and whether the loop was played as often as it asks for, so that its last frame stays. */
export interface Shown {
  frame: number;
  ended: boolean;
}

/** How many bytes of a file are of which kind: they add up to its length, and lie in it in this order, each entry head before its payload. */
export interface Partition {
  /** Up to the extension length, and with it. */
  head: number;
  /** The tags and lengths of the entries. */
  entryHeads: number;
  payloads: number;
  /** The HEVC headers with their lengths. */
  headers: number;
  data: number;
}

/** A call's refusal. */
export class BpgRefusal extends Error {
  constructor(status: number, offset?: number);
  readonly name: 'BpgRefusal';
  /** The refusal number. */
  readonly status: number;
  /** The offset in the file of what was refused; 0 where none is named. */
  readonly offset: number;
  /** The name of the number, as 'Truncated'. */
  readonly reason: string;
  /** The reason in words. */
  readonly meaning: string;
}

/** The tags of entries that have a meaning of their own. */
export const Tag: Readonly<{ EXIF: 1; ICC_PROFILE: 2; XMP: 3; THUMBNAIL: 4; ANIMATION_CONTROL: 5 }>;

/** The most bytes that a file may have. */
export const MAX_FILE: number;

/** The most entries that a file may have. */
export const MAX_ENTRIES: number;

/** Planes of 16-bit samples, or buffers for them. */
export type Planes<N extends 3 | 4> = N extends 3 ? [Uint16Array, Uint16Array, Uint16Array] : [Uint16Array, Uint16Array, Uint16Array, Uint16Array];

/** So many bytes of a file, or all of a shorter one, are always enough for its head: 27. */
export const HEAD_BYTES: number;

/** That part of the file, as a subarray of the caller's own array. */
export function part(file: Uint8Array, range: ByteRange): Uint8Array;

/** The library. `source` is where bpg.wasm is: nothing for the one beside bpg.mjs, a URL, its bytes, or a compiled module. */
export function load(source?: URL | string | Response | ArrayBuffer | ArrayBufferView | WebAssembly.Module): Promise<Bpg>;

/** The calls. Each throws a BpgRefusal where it refuses, a TypeError for an argument that is none, and a RangeError where the module's memory
 *  cannot grow. A call that is lent an array `out` writes its answer to the start of it and returns that part; a refusal leaves it as it was. */
export class Bpg {
  constructor(instance: WebAssembly.Instance);

  /** The record of a file. */
  read(file: Uint8Array): Reading;

  /** The head of a file, up to the length of its extension block; its first HEAD_BYTES (27) bytes, or all of a shorter file, are always enough. */
  head(file: Uint8Array): Head;

  /** The record of a file that has this head, as `read` gives it; another file's head is refused with 21. */
  body(head: Head, file: Uint8Array): Reading;

  /** The entries of a file in their order, each with its payload as a subarray; none for a refused file. */
  entries(file: Uint8Array): (Required<Entry> & { payload: Uint8Array })[];

  /** The entry with index k, from 0; null past the last one and for a refused file. */
  entry(file: Uint8Array, k: number): Required<Entry> | null;

  /** The payload of the entry with index k as a subarray; an empty one past the last entry and for a refused file. */
  payload(file: Uint8Array, k: number): Uint8Array;

  /** The HEVC data of a file as a subarray; an empty one for a refused file. */
  data(file: Uint8Array): Uint8Array;

  /** The file of a record, whose ranges are in `source`. */
  write(record: BpgRecord, source: Uint8Array, out?: Uint8Array): Uint8Array;

  /** How many bytes the file of a record has. */
  writeSize(record: BpgRecord, source: Uint8Array): number;

  /** The canonical form of a file: never longer than it, and equal for two files exactly when they show the same picture. */
  canonicalize(file: Uint8Array, out?: Uint8Array): Uint8Array;

  /** How many bytes the canonical form of a file has. */
  canonicalSize(file: Uint8Array): number;

  /** How many frames a file has. */
  frameCount(file: Uint8Array): number;

  /** For how many frame periods each frame of a file is shown. A period is framePeriodNum / framePeriodDen seconds. */
  frames(file: Uint8Array): Uint16Array;

  /** Refuses a file whose thumbnails, or theirs at any level, are not files that are smaller than their parents. */
  checkThumbnails(file: Uint8Array): void;

  /** Reads the files that stand end to end in a buffer and have these lengths: for each its refusal, or null where it is accepted. */
  batch(buffer: Uint8Array, lengths: ArrayLike<number>): (BpgRefusal | null)[];

  /** Milliseconds, below 2^32, as whole ticks, a tick being one frame period of the record. */
  ticks(record: Pick<BpgRecord, 'framePeriodNum' | 'framePeriodDen'>, ms: number): number;

  /** The frame that stands at a tick; `durations` are those of `frames`. */
  frameAt(record: Pick<BpgRecord, 'loopCount' | 'framePeriodNum' | 'framePeriodDen'>, durations: Uint16Array, tick: number | bigint): Shown;

  /** The frame of a file that stands at a time in milliseconds, below 2^32. */
  frameAtTime(file: Uint8Array, ms: number): Shown;

  /** How many bytes of a file are its head, entry heads, payloads, HEVC headers and data. */
  partition(file: Uint8Array): Partition;

  /** The EXIF, XMP and ICC payloads of a file as JPEG segments, in this order, for a JPEG after its first two bytes. */
  exportSegments(file: Uint8Array, out?: Uint8Array): Uint8Array;

  /** The payloads of a run of such segments, each in a new array; an absent one is empty. */
  importSegments(run: Uint8Array): { exif: Uint8Array; xmp: Uint8Array; icc: Uint8Array };

  /** The bytes of a NAL unit without its emulation prevention bytes. */
  unescape(unit: Uint8Array, out?: Uint8Array): Uint8Array;

  /** The bytes with emulation prevention bytes, as they stand in a NAL unit. */
  escape(bytes: Uint8Array, out?: Uint8Array): Uint8Array;

  /** R, G and B that were multiplied by A, recovered, from [r, g, b, a]: new arrays, or those of `out`. A depth is 8 to 14. */
  unpremultiply(planes: Planes<4>, depth: number, out?: Planes<3>): Planes<3>;

  /** C, M, Y and K from [r, g, b, w]. */
  cmyk(planes: Planes<4>, depth: number, out?: Planes<4>): Planes<4>;

  /** The color of a file with the W plane and no color profile, from [r, g, b, w]. */
  defaultFromWhite(planes: Planes<4>, depth: number, out?: Planes<3>): Planes<3>;

  /** R, G and B from [y, cg, co]. */
  ycgco(planes: Planes<3>, depth: number, out?: Planes<3>): Planes<3>;

  /** Full-range luma from limited luma, both of 8 bits: a new array, or `out`. */
  limitedLuma(y: Uint16Array, out?: Uint16Array): Uint16Array;
}
