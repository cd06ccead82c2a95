//! Altered copies of a made file: damaged anywhere, or blanked only where the answer stays.

use crate::dice::Dice;
use crate::plan::REFUSED_VERSIONS;
use crate::writer::{COUNTS, Count, Made};
use std::ops::Range;

/// A copy as a publisher's scrubber leaves it (document 02, n): altered is only what follows a zero
/// byte inside a kept text, and mix-table values within their sign.
pub fn scrubbed(made: &Made, dice: &mut Dice) -> Vec<u8> {
    let way = dice.below(4);
    let mut bytes = made.bytes.clone();
    overwrite(&mut bytes, &made.after_zeros, way, dice);
    for at in &made.signs {
        let any = dice.byte() & 0x7f;
        let value = dice.pick(&[100, 0, 127, any]);
        bytes[*at] = bytes[*at] & 0x80 | value;
    }
    bytes
}

/// A copy in which also the bytes that document 01 names as passed over, and bytes after the file's
/// end, are altered.
pub fn blanked(made: &Made, dice: &mut Dice) -> Vec<u8> {
    let mut bytes = scrubbed(made, dice);
    let way = dice.below(4);
    overwrite(&mut bytes, &made.passed, way, dice);
    if dice.percent(20) {
        bytes.truncate(dice.within(made.used, bytes.len()));
        bytes.extend(dice.bytes(10));
    }
    bytes
}

fn overwrite(bytes: &mut [u8], places: &[Range<usize>], way: usize, dice: &mut Dice) {
    for at in places.iter().flat_map(Clone::clone) {
        bytes[at] = match way {
            0 => 0,
            1 => 0xff,
            2 => !bytes[at],
            _ => dice.byte(),
        };
    }
}

/// What a scrubber must leave: the first zero byte of a kept text, the sign of a mix-table value.
#[derive(Clone, Copy, PartialEq)]
pub enum Guarded {
    Zero,
    Sign,
}

/// A scrubbed copy in which one of these, where there is any, was altered too; which, and where.
pub fn overdone(made: &Made, dice: &mut Dice) -> Option<(Vec<u8>, Guarded, usize)> {
    let mut bytes = scrubbed(made, dice);
    let zeros = !made.zeros.is_empty();
    if zeros && (made.signs.is_empty() || dice.percent(50)) {
        let at = dice.pick(&made.zeros);
        bytes[at] = b'A';
        return Some((bytes, Guarded::Zero, at));
    }
    if made.signs.is_empty() {
        return None;
    }
    let at = dice.pick(&made.signs);
    bytes[at] ^= 0x80;
    Some((bytes, Guarded::Sign, at))
}

pub fn damaged(made: &Made, dice: &mut Dice) -> Vec<u8> {
    let mut bytes = made.bytes.clone();
    match dice.below(10) {
        0..=2 => bytes.truncate(dice.below(bytes.len())),
        3 | 4 => wrong_count(made, &mut bytes, dice),
        5 => wrong_size(made, &mut bytes, dice),
        6 => wrong_version(&mut bytes, dice),
        7 => shifted(&mut bytes, dice),
        _ => flipped(&mut bytes, dice),
    }
    bytes
}

fn set_i32(bytes: &mut [u8], at: usize, value: i32) {
    bytes[at..at + 4].copy_from_slice(&value.to_le_bytes());
}

/// A copy with one count that is refused, each of the six as often as another that the file has;
/// which, and where.
pub fn refused_count(made: &Made, dice: &mut Dice) -> (Vec<u8>, Count, usize) {
    let (wanted, most) = dice.pick(&COUNTS);
    let places = made.places_of(wanted);
    if places.is_empty() {
        return refused_count(made, dice);
    }
    let mut bytes = made.bytes.clone();
    let at = dice.pick(&places);
    let value = dice.pick(&[-1, i32::MIN, i32::MAX, most as i32 + 1, most as i32 + 256]);
    set_i32(&mut bytes, at, value);
    (bytes, wanted, at)
}

fn wrong_count(made: &Made, bytes: &mut [u8], dice: &mut Dice) {
    let (at, count) = dice.pick(&made.counts);
    let most = COUNTS[count as usize - 1].1 as i32;
    let value = dice.pick(&[-1, i32::MIN, i32::MAX, most + 1, most, 0, 1, 2, 256]);
    set_i32(bytes, at, value);
}

fn wrong_size(made: &Made, bytes: &mut [u8], dice: &mut Dice) {
    let edges = [
        -1,
        i32::MIN,
        i32::MAX,
        0,
        1,
        2,
        1_048_576,
        1_048_577,
        1_048_578,
    ];
    if made.sizes.is_empty() || dice.percent(20) {
        if let Some(at) = made.numbers_from_one.get(dice.below(8)) {
            set_i32(bytes, *at, i32::MIN);
        }
        return;
    }
    let at = dice.pick(&made.sizes);
    set_i32(bytes, at, dice.pick(&edges));
}

fn wrong_version(bytes: &mut [u8], dice: &mut Dice) {
    let text = dice.pick(&REFUSED_VERSIONS).as_bytes();
    bytes[0] = 20 + text.len() as u8;
    bytes[1..21].copy_from_slice(b"FICHIER GUITAR PRO v");
    bytes[21..21 + text.len()].copy_from_slice(text);
    if dice.percent(20) {
        bytes[dice.within(1, 20)] = dice.byte();
    }
}

fn shifted(bytes: &mut Vec<u8>, dice: &mut Dice) {
    let at = dice.below(bytes.len());
    if dice.percent(50) {
        bytes.remove(at);
    } else {
        bytes.insert(at, dice.byte());
    }
}

/// The end of a file is where its beats are, so every other flip is there.
fn flipped(bytes: &mut [u8], dice: &mut Dice) {
    for _ in 0..dice.within(1, 4) {
        let from = if dice.percent(50) { bytes.len() / 2 } else { 0 };
        let at = dice.within(from, bytes.len() - 1);
        bytes[at] = if dice.percent(50) {
            bytes[at] ^ (1 << dice.below(8))
        } else {
            dice.byte()
        };
    }
}
