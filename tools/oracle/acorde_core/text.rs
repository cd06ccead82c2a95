//! A decoded text with its range in the input, in the place of the Rust's `String`.

use std::fmt;
use std::ops::Deref;

/// The WHATWG windows-1252 index for the bytes 0x80 to 0x9f; every other byte is its own code.
const INDEX: [u16; 32] = [
    0x20ac, 0x0081, 0x201a, 0x0192, 0x201e, 0x2026, 0x2020, 0x2021, 0x02c6, 0x2030, 0x0160, 0x2039,
    0x0152, 0x008d, 0x017d, 0x008f, 0x0090, 0x2018, 0x2019, 0x201c, 0x201d, 0x2022, 0x2013, 0x2014,
    0x02dc, 0x2122, 0x0161, 0x203a, 0x0153, 0x009d, 0x017e, 0x0178,
];

#[derive(Clone, Debug, Default)]
pub struct Text {
    decoded: String,
    pub start: usize,
    pub end: usize,
}

impl Text {
    /// `decoded` is what the Rust made of `field`, a part of `data`. The range is worked out from
    /// the bytes as document 01 says, and must decode to the same text.
    pub fn of(data: &[u8], field: &[u8], decoded: String) -> Self {
        let cut = field.iter().position(|byte| *byte == 0);
        let cut = &field[..cut.unwrap_or(field.len())];
        let left = cut.iter().take_while(|byte| is_blank(**byte)).count();
        let kept = &cut[left..];
        let right = kept
            .iter()
            .rev()
            .take_while(|byte| is_blank(**byte))
            .count();
        let kept = &kept[..kept.len() - right];
        assert!(
            kept.iter().map(|byte| decode(*byte)).eq(decoded.chars()),
            "the range and the decoded text differ"
        );
        if kept.is_empty() {
            return Self::default();
        }
        let start = kept.as_ptr() as usize - data.as_ptr() as usize;
        Self {
            decoded,
            start,
            end: start + kept.len(),
        }
    }
}

fn is_blank(byte: u8) -> bool {
    matches!(byte, 9..=13 | 32 | 160)
}

fn decode(byte: u8) -> char {
    let code = match byte {
        0x80..=0x9f => u32::from(INDEX[usize::from(byte - 0x80)]),
        _ => u32::from(byte),
    };
    char::from_u32(code).expect("the index has no surrogates")
}

impl Deref for Text {
    type Target = str;
    fn deref(&self) -> &str {
        &self.decoded
    }
}

/// Texts are equal by what they say, wherever they stand.
impl PartialEq for Text {
    fn eq(&self, other: &Self) -> bool {
        self.decoded == other.decoded
    }
}

impl fmt::Display for Text {
    fn fmt(&self, f: &mut fmt::Formatter<'_>) -> fmt::Result {
        f.write_str(&self.decoded)
    }
}

/// For text that the Rust builds on its way (digits of the version, a field before its trim).
impl FromIterator<char> for Text {
    fn from_iter<I: IntoIterator<Item = char>>(chars: I) -> Self {
        Self {
            decoded: chars.into_iter().collect(),
            ..Self::default()
        }
    }
}
