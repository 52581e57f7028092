//! The header for C, the package and the README say the same.

use bpg::{tag, AlphaKind, ColorSpace, PixelFormat, Reason};

const HEADER: &str = include_str!("../../include/bpg.h");
const README: &str = include_str!("../../README.md");

/// Name, number and words of each status in the header, success left out.
fn statuses() -> Vec<(&'static str, u8, &'static str)> {
    let lines = HEADER.lines().map(str::trim);
    let statuses = lines.filter_map(|line| {
        let inside = line.strip_prefix("X(BPG_")?;
        let (name, rest) = inside.split_once(", ")?;
        let (number, rest) = rest.split_once(", \"")?;
        let (words, _) = rest.split_once("\")")?;
        Some((name, number.parse().ok()?, words))
    });
    statuses.filter(|&(_, number, _)| number != 0).collect()
}

/// A name of the header as Rust writes it: `BAD_HEADER` is `BadHeader`.
fn camel(name: &str) -> String {
    let word = |word: &str| word[..1].to_owned() + &word[1..].to_lowercase();
    name.split('_').map(word).collect()
}

/// The number that the header defines a name as, in an enum or as a macro.
fn constant(name: &str) -> usize {
    let lines = HEADER.lines().map(str::trim);
    let defined = lines.filter_map(|line| {
        let line = line.strip_prefix("#define ").unwrap_or(line);
        let rest = line.strip_prefix(name)?;
        let rest = rest.strip_prefix(" =").unwrap_or(rest).strip_prefix(' ')?;
        let digits = rest.split(|c: char| !c.is_ascii_digit()).next()?;
        digits.parse().ok()
    });
    let defined: Vec<usize> = defined.collect();
    assert_eq!(defined.len(), 1, "{name} is defined {defined:?}");
    defined[0]
}

#[test]
fn refusals_are_those_of_the_header() {
    let statuses = statuses();
    let known: Vec<Reason> = (0..=u8::MAX).filter_map(Reason::from_number).collect();
    assert_eq!(statuses.len(), known.len());
    for (name, number, words) in statuses {
        let reason = Reason::from_number(number).expect("the package has each number");
        assert_eq!(reason.meaning(), words);
        assert_eq!(format!("{reason:?}"), camel(name));
    }
}

#[test]
fn constants_are_those_of_the_header() {
    let constants = [
        ("BPG_MAX_FILE", bpg::MAX_FILE),
        ("BPG_MAX_ENTRIES", bpg::MAX_ENTRIES),
        ("BPG_HEAD_BYTES", bpg::HEAD_BYTES),
        ("BPG_TAG_EXIF", tag::EXIF as usize),
        ("BPG_TAG_ICC_PROFILE", tag::ICC_PROFILE as usize),
        ("BPG_TAG_XMP", tag::XMP as usize),
        ("BPG_TAG_THUMBNAIL", tag::THUMBNAIL as usize),
        ("BPG_TAG_ANIMATION_CONTROL", tag::ANIMATION_CONTROL as usize),
    ];
    for (name, value) in constants {
        assert_eq!(constant(name), value, "{name}");
    }
}

#[test]
fn enums_are_those_of_the_header() {
    let formats = [
        "GRAYSCALE",
        "420_JPEG",
        "422_JPEG",
        "444",
        "420_MPEG2",
        "422_MPEG2",
    ];
    for (number, name) in (0..).zip(formats) {
        assert_eq!(constant(&format!("BPG_PIXEL_FORMAT_{name}")), number);
        let format = PixelFormat::try_from(number as u8).expect("it is known");
        assert!(format!("{format:?}")
            .to_uppercase()
            .ends_with(&name.replace('_', "")));
    }
    let spaces = ["YCBCR_BT601", "RGB", "YCGCO", "YCBCR_BT709", "YCBCR_BT2020"];
    for (number, name) in (0..).zip(spaces) {
        assert_eq!(constant(&format!("BPG_COLOR_SPACE_{name}")), number);
        let space = ColorSpace::try_from(number as u8).expect("it is known");
        assert_eq!(format!("{space:?}").to_uppercase(), name.replace('_', ""));
    }
    let kinds = ["NONE", "PLAIN", "WHITE", "PREMULTIPLIED"];
    for (number, name) in (0..).zip(kinds) {
        assert_eq!(constant(&format!("BPG_ALPHA_{name}")), number);
        let kind = AlphaKind::try_from(number as u8).expect("it is known");
        assert_eq!(format!("{kind:?}").to_uppercase(), name);
    }
}

#[test]
#[cfg(feature = "player")]
fn the_player_is_that_of_its_header() {
    let header = include_str!("../../include/loop_player.h");
    let frames = bpg::player::MAX_FRAMES;
    assert!(header.contains(&format!("#define PLAYER_MAX_FRAMES {frames}\n")));
    let number = Reason::Unplayable.number();
    assert!(header.contains(&format!("PLAYER_UNPLAYABLE = {number} ")));
}

#[test]
fn the_version_is_the_packages() {
    let version = env!("CARGO_PKG_VERSION");
    assert!(HEADER.contains(&format!("#define BPG_VERSION \"{version}\"\n")));
    let parts = ["MAJOR", "MINOR", "PATCH"].map(|part| constant(&format!("BPG_VERSION_{part}")));
    assert_eq!(parts.map(|part| part.to_string()).join("."), version);
}

#[test]
fn the_readme_has_the_examples() {
    assert!(README.contains(include_str!("../../c/examples/add_exif.c")));
    assert!(README.contains(include_str!("../examples/add_exif.rs")));
}
