// Why a call refused, and where.

/** The refusal numbers, each with its name and its words: those of include/bpg.h. */
const REASONS = {
  1: ['FileTooLong', 'the file has more than 16,777,216 bytes'],
  2: ['Truncated', 'an item does not fit the file, block, payload or data region'],
  3: ['Magic', 'the magic is not that of a BPG file'],
  4: ['BadPixelFormat', 'the pixel format is above 5'],
  5: ['BadBitDepth', 'the bit depth is above 14'],
  6: ['BadColorSpace', 'the color space is above 4, or not 0 in a grayscale picture'],
  7: ['NumberNotShortest', 'an integer is not in its shortest form'],
  8: ['NumberTooLarge', 'an integer is too large'],
  9: ['EmptyPicture', 'the width or height is 0'],
  10: ['BadDataLength', 'the picture data length misses the end of the file'],
  11: ['TooManyEntries', 'there are more than 64 extension entries'],
  12: ['ZeroPeriod', 'a number of the frame period is 0'],
  13: ['SecondLoop', 'there is a second animation control entry'],
  14: ['NoLoop', 'an animation has no animation control entry'],
  15: ['BadHeader', 'the fields and the length of a HEVC header disagree, or a field is too large'],
  16: ['HevcRule', 'a HEVC header breaks a rule on sizes or depths'],
  17: ['ForbiddenBit', 'a HEVC header sets a forbidden extension bit or range flag'],
  18: ['RangeOutside', 'a range of the record lies outside the source'],
  19: ['Inconsistent', 'an absent field of the record is not zero, its fields contradict each other, or a field cannot hold its number'],
  20: ['BufferTooSmall', 'the buffer or list is too small'],
  21: ['OtherHead', 'the head is not that of this file'],
  22: ['BadNalUnit', 'a NAL unit is too short, or its header, emulation prevention or SEI messages are wrong'],
  23: ['BadNalLayer', 'a NAL unit has a layer above 1, layer 1 without alpha, or is a VPS or SPS'],
  24: ['BadDuration', 'a frame duration is 0, is the second for its frame, or has no frame after it'],
  25: ['BadFrameCount', 'a still file has not exactly one frame, or an animated one fewer than two'],
  26: ['BadDataStart', 'the HEVC data is empty or begins with a start code'],
  27: ['DeepThumbnail', 'a thumbnail stands at level 5'],
  28: ['BadThumbnail', 'a thumbnail is itself refused'],
  29: ['LargeThumbnail', 'a thumbnail is wider or taller than its parent, or of its size'],
  30: ['BadBatch', 'the lengths do not add up to the buffer, or the lists differ in length'],
  31: ['UnequalLengths', 'the planes and buffers of samples differ in length'],
  32: ['BadSampleDepth', 'the depth of the samples is not 8 to 14'],
  33: ['SampleTooLarge', 'a sample is above the largest of its depth'],
  37: ['Unplayable', 'a loop has no frame or more than 256, a duration of 0, or a frame period number of 0'],
  34: ['PayloadTooLong', 'a payload is too long for JPEG segments'],
  35: ['TagTwice', 'an EXIF, XMP or ICC profile entry stands twice'],
  36: ['BadSegments', 'the run is not one of EXIF, XMP and ICC segments as export makes it'],
};

/** A call's refusal: its number, the offset in the file of what was refused (0 where none is named), its name and its words. */
export class BpgRefusal extends Error {
  constructor(status, offset = 0) {
    const [reason, meaning] = REASONS[status] ?? ['Unknown', 'a number that this version has no words for'];
    super(`refused ${status} at ${offset}: ${meaning}`);
    this.name = 'BpgRefusal';
    this.status = status;
    this.offset = offset;
    this.reason = reason;
    this.meaning = meaning;
  }
}
