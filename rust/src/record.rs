//! What a file says, field by field, with the names of the BPG specification.

use core::fmt;
use core::hash::{Hash, Hasher};
use core::mem::{offset_of, size_of, MaybeUninit};

use crate::number::accessors;
use crate::{ffi, AlphaKind, Entry, HevcHeader, Reason, Refusal, Span, MAX_ENTRIES};

/// How many numbers stand before a record's entries, how many an entry has, and how many a record has.
pub(crate) const FIXED_NUMBERS: usize = 69;
pub(crate) const ENTRY_NUMBERS: usize = 4;
pub(crate) const RECORD_NUMBERS: usize = FIXED_NUMBERS + ENTRY_NUMBERS * MAX_ENTRIES;

/// The numbers before a record's entries.
#[derive(Clone, Copy, PartialEq, Eq, Hash)]
#[repr(C)]
pub(crate) struct Fixed {
    pixel_format: u64,
    alpha1_flag: u64,
    bit_depth_minus_8: u64,
    color_space: u64,
    extension_present_flag: u64,
    alpha2_flag: u64,
    limited_range_flag: u64,
    animation_flag: u64,
    picture_width: u64,
    picture_height: u64,
    explicit_length: u64,
    loop_count: u64,
    frame_period_num: u64,
    frame_period_den: u64,
    alpha_header: HevcHeader,
    color_header: HevcHeader,
    data_start: u64,
    data_length: u64,
    coded_width: u64,
    coded_height: u64,
    pub(crate) entry_count: u64,
}

/// The record of a file: every field as coded, except the lengths, which follow from the rest.
///
/// It is the memory that the static library reads and writes, so that nothing is converted; the methods
/// give the fields their types. All of [`Record::new`] is zero. Two records are equal if their fields and
/// their entries in use are.
///
/// ```
/// // File A of the examples.
/// let file = *b"BPG\xFB\x20\x00\x08\x84\x1E\x00\x03\x92\x4D\x00\x26\x01";
/// let record = bpg::read(&file)?;
/// assert_eq!((record.picture_width(), record.picture_height()), (8, 542));
/// assert_eq!((record.coded_width(), record.coded_height()), (8, 544));
/// assert_eq!(record.data_span().range(), 14..16);
/// # Ok::<(), bpg::Refusal>(())
/// ```
#[derive(Clone, Copy)]
#[repr(C)]
pub struct Record {
    pub(crate) fixed: Fixed,
    // The first `entry_count` are initialized, which is at most MAX_ENTRIES: reading need not clear the others.
    pub(crate) entries: [MaybeUninit<Entry>; MAX_ENTRIES],
}

// The list of the static library, number for number.
const _: () = {
    assert!(size_of::<Record>() == 8 * RECORD_NUMBERS);
    assert!(
        size_of::<Fixed>() == 8 * FIXED_NUMBERS && offset_of!(Record, entries) == 8 * FIXED_NUMBERS
    );
    assert!(size_of::<HevcHeader>() == 8 * 25 && size_of::<Entry>() == 8 * ENTRY_NUMBERS);
    assert!(offset_of!(Fixed, alpha_header) == 8 * 14);
    assert!(offset_of!(Fixed, color_header) == 8 * 39);
    assert!(offset_of!(Fixed, data_start) == 8 * 64);
    assert!(offset_of!(Fixed, coded_width) == 8 * 66);
    assert!(offset_of!(Fixed, entry_count) == 8 * 68);
};

accessors! {
    Record {
        /// The number of the pixel format: [`PixelFormat::try_from`](crate::PixelFormat) names it.
        pixel_format set_pixel_format: u8,
        /// With [`alpha2_flag`](Record::alpha2_flag), what [`alpha_kind`](Record::alpha_kind) says.
        alpha1_flag set_alpha1_flag: bool,
        /// The bit depth of the samples, minus 8.
        bit_depth_minus_8 set_bit_depth_minus_8: u8,
        /// The number of the color space: [`ColorSpace::try_from`](crate::ColorSpace) names it.
        color_space set_color_space: u8,
        /// The file has an extension block, perhaps an empty one.
        extension_present_flag set_extension_present_flag: bool,
        /// With [`alpha1_flag`](Record::alpha1_flag), what [`alpha_kind`](Record::alpha_kind) says.
        alpha2_flag set_alpha2_flag: bool,
        /// The samples are in the limited range of video.
        limited_range_flag set_limited_range_flag: bool,
        /// The file is an animation.
        animation_flag set_animation_flag: bool,
        /// The width in pixels.
        picture_width set_picture_width: u32,
        /// The height in pixels.
        picture_height set_picture_height: u32,
        /// The file gives the length of its picture data; otherwise that goes up to the end of the file.
        explicit_length set_explicit_length: bool,
        /// How often the animation is played, 0 for ever. The three loop numbers are those in the payload
        /// of the animation control entry, and zero without one.
        loop_count set_loop_count: u16,
        /// Numerator of the frame period in seconds.
        frame_period_num set_frame_period_num: u16,
        /// Denominator of the frame period in seconds.
        frame_period_den set_frame_period_den: u16,
        /// Where the HEVC data starts, without the headers.
        data_start set_data_start: u32,
        /// How many bytes the HEVC data has.
        data_length set_data_length: u32,
        /// The width as HEVC codes it. [`read`](crate::read) answers it; [`write`](crate::write()) ignores it.
        coded_width set_coded_width: u64,
        /// The height as HEVC codes it. [`read`](crate::read) answers it; [`write`](crate::write()) ignores it.
        coded_height set_coded_height: u64,
    }
}

impl Record {
    /// A record whose every field is zero, and that has no entry.
    pub fn new() -> Record {
        ffi::zero_record()
    }

    /// Reads a file into this record, which stays as it was if the file is refused. [`read`](crate::read) answers a new record,
    /// which is copied on its way; for many files one after the other this is faster.
    ///
    /// ```
    /// // File A of the examples.
    /// let file = *b"BPG\xFB\x20\x00\x08\x84\x1E\x00\x03\x92\x4D\x00\x26\x01";
    /// let mut record = bpg::Record::new();
    /// record.read_from(&file)?;
    /// assert!(record.read_from(&file[..9]).is_err());
    /// assert_eq!(Ok(record), bpg::read(&file));
    /// # Ok::<(), bpg::Refusal>(())
    /// ```
    #[inline]
    pub fn read_from(&mut self, file: &[u8]) -> Result<(), Refusal> {
        ffi::read_over(file, self)
    }

    /// The header of the alpha plane, or of W; zero without them.
    pub fn alpha_header(&self) -> &HevcHeader {
        &self.fields().alpha_header
    }

    /// The header of the alpha plane, or of W, to be changed.
    pub fn alpha_header_mut(&mut self) -> &mut HevcHeader {
        &mut self.fields_mut().alpha_header
    }

    /// The header of the color planes.
    pub fn color_header(&self) -> &HevcHeader {
        &self.fields().color_header
    }

    /// The header of the color planes, to be changed.
    pub fn color_header_mut(&mut self) -> &mut HevcHeader {
        &mut self.fields_mut().color_header
    }

    /// What the two alpha flags say.
    pub fn alpha_kind(&self) -> AlphaKind {
        AlphaKind::of_flags(self.alpha1_flag(), self.alpha2_flag())
    }

    /// Where the HEVC data stands, without the headers.
    pub fn data_span(&self) -> Span {
        Span {
            start: self.data_start(),
            length: self.data_length(),
        }
    }

    /// Sets where the HEVC data stands in the source to write from.
    pub fn set_data_span(&mut self, data: Span) {
        self.set_data_start(data.start);
        self.set_data_length(data.length);
    }

    /// The HEVC data, as that part of the file that the record was read from: nothing is copied. `None` if
    /// it does not lie in `file`.
    pub fn data<'a>(&self, file: &'a [u8]) -> Option<&'a [u8]> {
        self.data_span().of(file)
    }
}

/// The entries.
impl Record {
    /// The entries in use, in file order.
    pub fn entries(&self) -> &[Entry] {
        ffi::entries(self)
    }

    /// The entries in use, to be changed.
    pub fn entries_mut(&mut self) -> &mut [Entry] {
        ffi::entries_mut(self)
    }

    /// The entries in use that have this tag, in file order.
    pub fn entries_with(&self, tag: u32) -> impl Iterator<Item = &Entry> {
        self.entries()
            .iter()
            .filter(move |entry| entry.tag() == tag)
    }

    /// Puts an entry after those in use, and sets [`extension_present_flag`](Record::extension_present_flag). Refused, and
    /// nothing is changed, if there are [`MAX_ENTRIES`] already.
    pub fn push_entry(&mut self, entry: Entry) -> Result<(), Refusal> {
        let refusal = Refusal {
            reason: Reason::TooManyEntries,
            offset: 0,
        };
        let used = self.entries().len();
        self.entries.get_mut(used).ok_or(refusal)?.write(entry);
        self.fields_mut().entry_count += 1;
        self.set_extension_present_flag(true);
        Ok(())
    }

    /// Keeps the entries that `keep` accepts, in their order. The loop numbers and the flags stay.
    ///
    /// ```
    /// // A file with EXIF data and a private entry; written again without the EXIF data.
    /// let file = *b"BPG\xFB\x20\x08\x08\x08\x00\x07\x01\x02ab\x46\x01c\x03\x92\x4D\x00\x26\x01";
    /// let mut record = bpg::read(&file)?;
    /// record.retain_entries(|entry| entry.tag() != bpg::tag::EXIF);
    /// let written = bpg::write_to_vec(&record, &file)?;
    /// assert_eq!(written, b"BPG\xFB\x20\x08\x08\x08\x00\x03\x46\x01c\x03\x92\x4D\x00\x26\x01");
    /// # Ok::<(), bpg::Refusal>(())
    /// ```
    pub fn retain_entries(&mut self, mut keep: impl FnMut(&Entry) -> bool) {
        let old = *self;
        let kept = old.entries().iter().filter(|entry| keep(entry));
        self.fields_mut().entry_count = 0;
        for (slot, entry) in self.entries.iter_mut().zip(kept) {
            slot.write(*entry);
            self.fixed.entry_count += 1;
        }
    }

    fn fields(&self) -> &Fixed {
        &self.fixed
    }

    fn fields_mut(&mut self) -> &mut Fixed {
        &mut self.fixed
    }
}

impl PartialEq for Record {
    fn eq(&self, other: &Record) -> bool {
        self.fields() == other.fields() && self.entries() == other.entries()
    }
}

impl Eq for Record {}

impl Hash for Record {
    fn hash<H: Hasher>(&self, state: &mut H) {
        self.fields().hash(state);
        self.entries().hash(state);
    }
}

impl Default for Record {
    fn default() -> Record {
        Record::new()
    }
}

impl fmt::Debug for Record {
    fn fmt(&self, f: &mut fmt::Formatter<'_>) -> fmt::Result {
        let mut shown = f.debug_struct("Record");
        self.show_numbers(&mut shown);
        shown.field("alpha_header", &self.alpha_header());
        shown.field("color_header", &self.color_header());
        shown.field("entries", &self.entries());
        shown.finish()
    }
}
