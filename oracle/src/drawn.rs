//! Random burst files, lawful ones and damaged ones.

use crate::constellation::{is_differential, of_mode};
use crate::random::Random;
use crate::writer::{Draft, Entry};

/// A random file; about one in six is damaged, now and then in several ways at once.
pub fn file(random: &mut Random) -> Vec<u8> {
    let mode = random.between(1, 10) as u8;
    let antennas = random.between(1, 4) as u8;
    let records = match random.between(1, 40) {
        1 => random.between(126, 131),
        2 => 0,
        3..=5 => random.between(7, 40),
        _ => random.between(1, 6),
    };
    let mut draft = burst(random, mode, antennas, records as usize);
    if !random.once_in(6) {
        return draft.bytes();
    }
    for _ in 0..random.between(1, 3) {
        break_field(random, &mut draft);
    }
    let mut bytes = draft.bytes();
    if random.once_in(3) {
        break_bytes(random, &mut bytes);
    }
    bytes
}

/// A burst within the rules, apart from a number of records that may be too large.
pub fn burst(random: &mut Random, mode: u8, antennas: u8, records: usize) -> Draft {
    let style = random.between(0, 4);
    let heaviest = random.pick(&[0, 1, 1, 7, 100, 1000, 1000, 1023, 1023]);
    let mut entries: Vec<Entry> = Vec::new();
    for _ in 0..records {
        let h = match (is_differential(mode), entries.last()) {
            (true, Some(before)) => before.y.clone(),
            _ => vector(random, style, antennas),
        };
        let y = match style {
            3 => near_a_point(random, mode, &h),
            4 => {
                let other = random.between(0, 2);
                vector(random, other, antennas)
            }
            _ => vector(random, style, antennas),
        };
        let weight = match random.between(1, 4) {
            1 => random.between(0, heaviest),
            2 => random.pick(&[0, 1, 1000, 1023]),
            _ => heaviest,
        };
        entries.push(Entry { weight: weight as u16, y, h });
    }
    let shift = match random.between(1, 6) {
        1 => random.pick(&[0, 1, 39, 40]),
        2 => random.between(0, 40),
        _ => fitting_shift(random, &entries),
    };
    let mut draft =
        Draft { magic: 2, mode, shift: shift as u8, antennas, entries, a_priori: Vec::new() };
    let style = random.between(0, 4);
    draft.a_priori = a_priori(random, style, draft.symbols() * bits_of(mode));
    draft
}

pub fn bits_of(mode: u8) -> usize {
    of_mode(mode).map_or(0, |constellation| constellation.m)
}

/// A priori values: none, anywhere, at the ends, small, or now and then something.
pub fn a_priori(random: &mut Random, style: i64, length: usize) -> Vec<i16> {
    let length = if style == 0 { 0 } else { length };
    (0..length)
        .map(|_| match style {
            1 => random.between(-8191, 8191) as i16,
            2 => random.pick(&[-8191, 8191]),
            3 => random.between(-300, 300) as i16,
            _ => random.pick(&[0, 0, 0, 1, -1, 8191, -8191, 4000]),
        })
        .collect()
}

/// Components anywhere, at the ends, or small.
fn vector(random: &mut Random, style: i64, antennas: u8) -> Vec<(i16, i16)> {
    (0..antennas).map(|_| (component(random, style), component(random, style))).collect()
}

fn component(random: &mut Random, style: i64) -> i16 {
    match style {
        1 => random.pick(&[0, 1023, -1023]),
        2 => random.between(-3, 3) as i16,
        _ => random.between(-1023, 1023) as i16,
    }
}

/// A received vector that lies near one point of the constellation times h.
fn near_a_point(random: &mut Random, mode: u8, h: &[(i16, i16)]) -> Vec<(i16, i16)> {
    let points = of_mode(mode).expect("a lawful mode").points;
    let point = &points[random.between(0, points.len() as i64 - 1) as usize];
    let (x, y) = (point.re as i64, point.im as i64);
    let noise = random.pick(&[0, 5, 50, 200]);
    let mut near =
        |exact: i64| (exact / 1024 + random.between(-noise, noise)).clamp(-1023, 1023) as i16;
    h.iter()
        .map(|&(re, im)| {
            let (re, im) = (re as i64, im as i64);
            (near(x * re - y * im), near(x * im + y * re))
        })
        .collect()
}

/// A shift at which most values are neither 0 nor at the ends.
fn fitting_shift(random: &mut Random, entries: &[Entry]) -> i64 {
    let mut largest = 1i128;
    for entry in entries {
        let energy: i128 = entry
            .y
            .iter()
            .zip(&entry.h)
            .map(|(&(a, b), &(c, d))| {
                (a as i128 * c as i128 + b as i128 * d as i128).abs()
                    + (b as i128 * c as i128 - a as i128 * d as i128).abs()
            })
            .sum();
        largest = largest.max(energy * entry.weight as i128 * (1 << 21));
    }
    let size = 127 - largest.leading_zeros() as i64;
    (size - random.between(3, 12)).clamp(0, 40)
}

/// Breaks a rule of one field.
fn break_field(random: &mut Random, draft: &mut Draft) {
    let entries = draft.entries.len() as i64;
    let values = draft.a_priori.len() as i64;
    match random.between(1, 12) {
        1 => draft.shift = random.pick(&[41, 42, 64, 127, 128, 255]),
        2 => draft.magic = random.pick(&[0, 1, 3, 255]),
        3 => draft.mode = random.pick(&[0, 11, 12, 255]),
        4 => draft.antennas = random.pick(&[0, 1, 2, 3, 4, 5, 255]),
        5..=7 if entries > 0 => {
            let entry = &mut draft.entries[random.between(0, entries - 1) as usize];
            let list = if random.once_in(2) { &mut entry.y } else { &mut entry.h };
            let antenna = random.between(0, list.len() as i64 - 1) as usize;
            let bad = random.pick(&[1024, -1024, 2000, i16::MAX, i16::MIN]);
            if random.once_in(2) {
                list[antenna].0 = bad;
            } else {
                list[antenna].1 = bad;
            }
        }
        8 if entries > 0 => {
            let entry = &mut draft.entries[random.between(0, entries - 1) as usize];
            entry.weight = random.pick(&[1024, 1025, 32767, 32768, 65535]);
        }
        9..=11 if values > 0 => {
            let bad = random.pick(&[8192, -8192, i16::MAX, i16::MIN]);
            draft.a_priori[random.between(0, values - 1) as usize] = bad;
        }
        _ => {
            if random.once_in(2) {
                draft.a_priori.push(0);
            } else {
                draft.a_priori.pop();
            }
        }
    }
}

/// Cuts the file, lengthens it or changes a byte.
fn break_bytes(random: &mut Random, bytes: &mut Vec<u8>) {
    let length = bytes.len() as i64;
    match random.between(1, 3) {
        1 => bytes.truncate(random.between(0, length) as usize),
        2 => {
            for _ in 0..random.between(1, 5) {
                bytes.push(random.between(0, 255) as u8);
            }
        }
        _ => bytes[random.between(0, length - 1) as usize] = random.between(0, 255) as u8,
    }
}
