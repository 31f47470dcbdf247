//! The cases that walk through the rules: every mode, shift, limit, refusal, cut and byte.

use crate::cases::Case;
use crate::constellation::is_differential;
use crate::drawn;
use crate::random::Random;
use crate::writer::{Draft, Entry};

pub fn cases(random: &mut Random) -> Vec<Case> {
    let mut cases = Vec::new();
    lawful(&mut cases, random);
    shifts(&mut cases);
    extremes(&mut cases);
    counts(&mut cases, random);
    settings(&mut cases);
    samples_and_weights(&mut cases);
    ranges(&mut cases);
    orders(&mut cases);
    lengths(&mut cases, random);
    cuts_and_bytes(&mut cases);
    cases
}

/// Each mode with each number of antennas and each kind of a priori list.
fn lawful(cases: &mut Vec<Case>, random: &mut Random) {
    for mode in 1..=10 {
        for antennas in 1..=4 {
            for style in 0..=4 {
                let records = if is_differential(mode) { 4 } else { 3 };
                let mut draft = drawn::burst(random, mode, antennas, records);
                let length = draft.symbols() * drawn::bits_of(mode);
                draft.a_priori = drawn::a_priori(random, style, length);
                let about =
                    format!("mode {mode}, {antennas} antennas, a priori values of kind {style}");
                cases.push(Case::new(about, draft.bytes()));
            }
        }
    }
}

/// Each mode at each shift, with small vectors: among them values that lie halfway.
fn shifts(cases: &mut Vec<Case>) {
    let pairs = [
        (1, (1, 1), (1, 0)),
        (1, (-1, 1), (1, 0)),
        (2, (1, -1), (0, 1)),
        (1, (1, 0), (1, 0)),
        (3, (0, 0), (1, 0)),
        (1023, (3, -2), (2, 5)),
        (1000, (40, 70), (-60, 10)),
    ];
    for mode in 1..=10 {
        for shift in 0..=40 {
            let entries =
                pairs.iter().map(|&(weight, y, h)| Entry { weight, y: vec![y], h: vec![h] });
            let draft = Draft {
                magic: 2,
                mode,
                shift,
                antennas: 1,
                entries: entries.collect(),
                a_priori: Vec::new(),
            };
            cases.push(Case::new(format!("mode {mode}, shift {shift}"), draft.bytes()));
        }
    }
}

/// Each mode with the largest vectors, weights and a priori values, at the end shifts.
fn extremes(cases: &mut Vec<Case>) {
    let corners = [(1023, 1023), (-1023, 1023), (1023, -1023), (-1023, -1023), (0, 0), (1023, 0)];
    for mode in 1..=10 {
        for shift in [0, 1, 20, 39, 40] {
            for told in [None, Some((8191, 8191)), Some((-8191, -8191)), Some((8191, -8191))] {
                let mut entries = Vec::new();
                for y in corners {
                    for weight in [0, 1, 1000, 1023] {
                        for h in [(1023, 1023), (0, -1023), (0, 0)] {
                            entries.push(Entry { weight, y: vec![y; 4], h: vec![h; 4] });
                        }
                    }
                }
                let mut draft =
                    Draft { magic: 2, mode, shift, antennas: 4, entries, a_priori: Vec::new() };
                if let Some((even, odd)) = told {
                    let length = draft.symbols() * drawn::bits_of(mode);
                    draft.a_priori = (0..length).map(|i| [even, odd][i % 2]).collect();
                }
                let about = format!("mode {mode}, shift {shift}, ends, a priori values {told:?}");
                cases.push(Case::new(about, draft.bytes()));
            }
        }
    }
}

/// No record, one, and as many as fit and more; lawful and wrong counts of a priori values.
fn counts(cases: &mut Vec<Case>, random: &mut Random) {
    for mode in 1..=10 {
        for records in [0, 1, 2, 127, 128, 129, 130, 131] {
            let mut draft = drawn::burst(random, mode, 1 + mode % 4, records);
            let m = drawn::bits_of(mode);
            let symbols = draft.symbols();
            let mut lists = vec![0, symbols * m];
            if records <= 2 {
                lists.extend([1, m - 1, m, m + 1, symbols * m + 1, (symbols + 1) * m, records * m]);
            }
            for length in lists {
                draft.a_priori = (0..length).map(|i| i as i16 - 7).collect();
                let about = format!("mode {mode}, {records} records, {length} a priori values");
                cases.push(Case::new(about, draft.bytes()));
            }
        }
    }
}

/// A small lawful burst: distinct vectors, and an a priori value for each position.
fn small(mode: u8, antennas: u8, symbols: usize) -> Draft {
    let records = symbols + is_differential(mode) as usize;
    let vector = |i: usize, start: i16| {
        (0..antennas as i16).map(|a| (start + 7 * a - i as i16, 90 - 13 * a * start)).collect()
    };
    let entries = (0..records)
        .map(|i| Entry { weight: 900 + i as u16, y: vector(i, 5), h: vector(i, -6) })
        .collect();
    let a_priori = (0..symbols * drawn::bits_of(mode)).map(|i| 150 - 70 * i as i16).collect();
    Draft { magic: 2, mode, shift: 33, antennas, entries, a_priori }
}

/// The bytes of sections 1 and 2.
fn settings(cases: &mut Vec<Case>) {
    for magic in [0, 1, 3, 0x82, 255] {
        let draft = Draft { magic, ..small(1, 1, 1) };
        cases.push(Case::new(format!("first byte {magic}"), draft.bytes()));
    }
    for mode in [0, 11, 12, 128, 137, 255] {
        let draft = Draft { mode, ..small(1, 1, 1) };
        cases.push(Case::new(format!("mode {mode}"), draft.bytes()));
    }
    for antennas in [0, 2, 3, 4, 5, 6, 128, 255] {
        let draft = Draft { antennas, ..small(1, 1, 1) };
        cases.push(Case::new(format!("antennas {antennas}"), draft.bytes()));
    }
    for mode in 1..=10 {
        for shift in [40, 41, 42, 63, 64, 127, 128, 168, 255] {
            let draft = Draft { shift, ..small(mode, 1, 1) };
            cases.push(Case::new(format!("mode {mode}, shift {shift}"), draft.bytes()));
        }
    }
}

/// Components and weights at their ends and just past them, in each record and place.
fn samples_and_weights(cases: &mut Vec<Case>) {
    for (mode, antennas) in [(1, 1), (6, 3), (7, 4), (9, 2), (10, 4)] {
        let base = small(mode, antennas, 2);
        for record in 0..base.entries.len() {
            for antenna in 0..antennas as usize {
                for value in [1023, -1023, 1024, -1024, i16::MAX, i16::MIN] {
                    for place in 0..4 {
                        if place >= 2 && is_differential(mode) {
                            continue;
                        }
                        let mut draft = base.clone();
                        let entry = &mut draft.entries[record];
                        match place {
                            0 => entry.y[antenna].0 = value,
                            1 => entry.y[antenna].1 = value,
                            2 => entry.h[antenna].0 = value,
                            _ => entry.h[antenna].1 = value,
                        }
                        let about = format!(
                            "mode {mode}, record {}, antenna {}, component {place} is {value}",
                            record + 1,
                            antenna + 1
                        );
                        cases.push(Case::new(about, draft.bytes()));
                    }
                }
            }
            for weight in [0, 1, 1023, 1024, 32767, 32768, 65535] {
                let mut draft = base.clone();
                draft.entries[record].weight = weight;
                let about = format!("mode {mode}, record {}, weight {weight}", record + 1);
                cases.push(Case::new(about, draft.bytes()));
            }
        }
    }
}

/// A priori values at their ends and just past them, at several positions, alone and in pairs.
fn ranges(cases: &mut Vec<Case>) {
    for mode in [1, 2, 6, 9, 10] {
        let base = small(mode, 1, 3);
        let m = drawn::bits_of(mode);
        for position in [0, 1, m - 1, m, 2 * m - 1, 2 * m, 3 * m - 1] {
            for value in [8191, -8191, 8192, -8192, i16::MAX, i16::MIN] {
                let mut draft = base.clone();
                draft.a_priori[position] = value;
                let about = format!("mode {mode}, a priori value {} is {value}", position + 1);
                cases.push(Case::new(about, draft.bytes()));
            }
            let mut draft = base.clone();
            draft.a_priori[position] = 9000;
            draft.a_priori[3 * m - 1] = -9000;
            let about = format!("mode {mode}, a priori value {} and the last", position + 1);
            cases.push(Case::new(about, draft.bytes()));
        }
    }
    for (mode, records) in [(6, 128), (10, 129)] {
        let symbols = records - is_differential(mode) as usize;
        let mut draft = small(mode, 1, 1);
        draft.entries = vec![draft.entries[0].clone(); records];
        draft.a_priori = vec![0; symbols * drawn::bits_of(mode)];
        *draft.a_priori.last_mut().unwrap() = 8192;
        cases.push(Case::new(format!("mode {mode}, the last of all values"), draft.bytes()));
    }
}

/// Every set of broken rules together: which of them is named?
fn orders(cases: &mut Vec<Case>) {
    for mode in [2, 9] {
        for faults in 0u32..512 {
            let has = |fault: u32| faults >> fault & 1 == 1;
            if faults.count_ones() < 2 || (has(3) && is_differential(mode)) {
                continue;
            }
            let mut draft = small(mode, 2, 2);
            if has(0) {
                draft.shift = 41;
            }
            if has(1) {
                draft.entries[1].y[1].1 = 1024;
            }
            if has(2) {
                draft.entries[1].weight = 1024;
            }
            if has(3) {
                draft.entries[1].h[0].0 = -1024;
            }
            if has(4) {
                draft.entries[0].weight = 2000;
            }
            if has(5) {
                draft.a_priori[3] = 8192;
            }
            if has(6) {
                draft.a_priori.pop();
            }
            let mut bytes = draft.bytes();
            if has(7) {
                bytes.push(0);
            }
            if has(8) {
                bytes[0] = 1;
            }
            cases.push(Case::new(format!("mode {mode}, broken rules {faults:09b}"), bytes));
        }
    }
    for mode in [3, 10] {
        let most = 128 + is_differential(mode) as usize;
        for fault in 0..4 {
            for record in [most - 1, most, most + 1] {
                let mut draft = small(mode, 1, 1);
                draft.entries = vec![draft.entries[0].clone(); most + 2];
                draft.a_priori.clear();
                match fault {
                    0 => draft.entries[record].y[0].0 = 1024,
                    1 => draft.entries[record].weight = 1024,
                    2 => draft.shift = 41,
                    _ => draft.a_priori = vec![9000; draft.symbols() * drawn::bits_of(mode)],
                }
                let about =
                    format!("mode {mode}, too many records, fault {fault} in {}", record + 1);
                cases.push(Case::new(about, draft.bytes()));
            }
        }
    }
}

/// Empty and long inputs.
fn lengths(cases: &mut Vec<Case>, random: &mut Random) {
    cases.push(Case::new("empty", Vec::new()));

    // 8 bytes, 356 records of 34 bytes and 356 times 6 values: 16384 bytes, all in their places.
    let mut draft = small(5, 4, 1);
    draft.entries = vec![draft.entries[0].clone(); 356];
    draft.a_priori = vec![0; 356 * 6];
    let full = draft.bytes();
    assert_eq!(full.len(), 16384);
    cases.push(Case::new("well formed, 16384 bytes", full.clone()));

    let mut endless = small(1, 1, 1).bytes();
    endless[4] = 255;
    endless[5] = 255;
    let starts = [
        ("well formed", full),
        ("short burst", small(1, 1, 1).bytes()),
        ("65535 records", endless),
        ("wrong first byte", vec![3]),
        ("wrong mode", vec![2, 11]),
        ("shift 41", vec![2, 1, 41, 1]),
        ("noise", (0..20000).map(|_| random.between(0, 255) as u8).collect()),
    ];
    for (about, start) in starts {
        for length in [16383, 16384, 16385, 16386, 20000] {
            for filler in [0, 255] {
                let mut bytes = start.clone();
                bytes.resize(length, filler);
                cases.push(Case::new(format!("{about}, {length} bytes, {filler}"), bytes));
            }
        }
    }
}

/// Small files: cut at every length, lengthened, and each byte replaced.
fn cuts_and_bytes(cases: &mut Vec<Case>) {
    let example = vec![
        0x02, 0x09, 0x20, 0x01, 0x00, 0x02, 0x03, 0xE8, 0x00, 0x64, 0x00, 0x00, 0x03, 0xE8, 0x00,
        0xC8, 0x00, 0x00, 0x00, 0x00,
    ];
    let files = [
        ("the example", example),
        ("mode 2", small(2, 1, 2).bytes()),
        ("mode 10", small(10, 2, 2).bytes()),
        ("no records", small(4, 3, 0).bytes()),
    ];
    for (about, bytes) in files {
        for length in 0..=bytes.len() {
            let cut = bytes[..length].to_vec();
            cases.push(Case::new(format!("{about}, cut at {length}"), cut));
        }
        for extra in [1, 2, 3, 50] {
            let mut longer = bytes.clone();
            longer.resize(bytes.len() + extra, 0);
            cases.push(Case::new(format!("{about}, {extra} bytes too many"), longer));
        }
        for at in 0..bytes.len() {
            let byte = bytes[at];
            let flips = [byte ^ 1, byte ^ 0x80, byte.wrapping_add(1), byte.wrapping_sub(1)];
            for value in [0, 1, 3, 4, 5, 10, 11, 0x7F, 0xFF].into_iter().chain(flips) {
                if value == byte {
                    continue;
                }
                let mut changed = bytes.clone();
                changed[at] = value;
                cases.push(Case::new(format!("{about}, byte {at} is {value}"), changed));
            }
        }
    }
}
