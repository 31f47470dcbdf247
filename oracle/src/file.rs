//! The burst file, its refusals, and what is printed (docs/FILE-FORMAT.md, docs/REFUSALS.md).

use crate::constellation::{is_differential, of_mode, Constellation};
use crate::detect::{extrinsic, Complex, Symbol};
use std::fmt::Write;

const MOST_BYTES: usize = 16384;
const MOST_SYMBOLS: usize = 128;

const SAMPLE: u8 = 2;
const WEIGHT: u8 = 3;
const FULL: u8 = 4;
const SHIFT: u8 = 5;
const RANGE: u8 = 11;
const CUT: u8 = 15;
const FIELD: u8 = 16;

/// A refusal: the record at fault, or 0, the number of the cause, and the place.
struct Refusal {
    record: usize,
    cause: u8,
    place: usize,
}

fn refuse<T>(cause: u8, place: usize) -> Result<T, Refusal> {
    Err(Refusal { record: 0, cause, place })
}

/// A vector record as it stands in the file.
struct Record {
    weight: i128,
    y: Vec<Complex>,
    h: Vec<Complex>,
}

/// What the four sections spell out.
struct Sections {
    constellation: Constellation,
    differential: bool,
    shift: u8,
    records: Vec<Record>,
    a_priori: Vec<i128>,
}

/// Everything that demap prints for an input.
pub fn printed(bytes: &[u8]) -> String {
    match values(bytes) {
        Ok((m, symbols)) => {
            let mut text = format!("{} {m}\n", symbols.len());
            for (i, line) in symbols.iter().enumerate() {
                write!(text, "{}", i + 1).unwrap();
                for value in line {
                    write!(text, " {value}").unwrap();
                }
                text.push('\n');
            }
            text
        }
        Err(Refusal { record: 0, cause, place }) => format!("refused {cause} at {place}\n"),
        Err(Refusal { record, cause, place }) => {
            format!("refused record {record}: {cause} at {place}\n")
        }
    }
}

/// The number of bits of a label, and the extrinsic values of every symbol.
fn values(bytes: &[u8]) -> Result<(usize, Vec<Vec<i128>>), Refusal> {
    if bytes.len() > MOST_BYTES {
        return refuse(FIELD, MOST_BYTES);
    }
    let file = sections(bytes)?;
    if file.shift > 40 {
        return refuse(SHIFT, 0);
    }
    let symbols = placed(&file)?;
    if let Some(i) = file.a_priori.iter().position(|a| !(-8191..=8191).contains(a)) {
        return refuse(RANGE, i + 1);
    }
    let m = file.constellation.m;
    let unknown = vec![0; m];
    let lines = symbols
        .iter()
        .enumerate()
        .map(|(i, symbol)| {
            let a_priori = match file.a_priori.len() {
                0 => &unknown[..],
                _ => &file.a_priori[i * m..(i + 1) * m],
            };
            extrinsic(&file.constellation, symbol, file.shift, a_priori)
        })
        .collect();
    Ok((m, lines))
}

/// The four sections in order, in each of them first whether it is all there, then its fields.
fn sections(bytes: &[u8]) -> Result<Sections, Refusal> {
    // Section 1.
    reaches(bytes, 3)?;
    if bytes[0] != 2 {
        return refuse(FIELD, 0);
    }
    let mode = bytes[1];
    let constellation = match of_mode(mode) {
        Some(constellation) => constellation,
        None => return refuse(FIELD, 1),
    };
    let shift = bytes[2];

    // Section 2.
    reaches(bytes, 4)?;
    let antennas = bytes[3] as usize;
    if !(1..=4).contains(&antennas) {
        return refuse(FIELD, 3);
    }

    // Section 3.
    reaches(bytes, 6)?;
    let count = unsigned(bytes, 4);
    let differential = is_differential(mode);
    let vectors = if differential { 1 } else { 2 };
    let size = 2 + vectors * antennas * 4;
    let fourth = 6 + count * size;
    reaches(bytes, fourth)?;
    let records = (0..count)
        .map(|i| {
            let start = 6 + i * size;
            let y = start + 2;
            let h = y + antennas * 4;
            Record {
                weight: unsigned(bytes, start) as i128,
                y: vector(bytes, y, antennas),
                h: if differential { Vec::new() } else { vector(bytes, h, antennas) },
            }
        })
        .collect();

    // Section 4.
    reaches(bytes, fourth + 2)?;
    let told = unsigned(bytes, fourth);
    let end = fourth + 2 + told * 2;
    reaches(bytes, end)?;
    let symbols = if differential { count.saturating_sub(1) } else { count };
    if told != 0 && told != symbols * constellation.m {
        return refuse(FIELD, fourth);
    }
    if bytes.len() > end {
        return refuse(FIELD, end);
    }
    let a_priori = (0..told).map(|i| signed(bytes, fourth + 2 + i * 2)).collect();
    Ok(Sections { constellation, differential, shift, records, a_priori })
}

/// Places record by record. In a differential burst the first record is only the reference.
fn placed(file: &Sections) -> Result<Vec<Symbol>, Refusal> {
    let mut symbols = Vec::new();
    let mut reference: Option<Vec<Complex>> = None;
    for (i, record) in file.records.iter().enumerate() {
        let refuse = |cause, place| Err(Refusal { record: i + 1, cause, place });
        for list in [&record.y, &record.h] {
            if let Some(antenna) = list.iter().position(|&(re, im)| outside(re) || outside(im)) {
                return refuse(SAMPLE, antenna + 1);
            }
        }
        if record.weight > 1023 {
            return refuse(WEIGHT, 0);
        }
        let h = match file.differential {
            true => reference.replace(record.y.clone()),
            false => Some(record.h.clone()),
        };
        if let Some(h) = h {
            if symbols.len() == MOST_SYMBOLS {
                return refuse(FULL, 0);
            }
            symbols.push(Symbol { y: record.y.clone(), h, weight: record.weight });
        }
    }
    Ok(symbols)
}

fn outside(component: i128) -> bool {
    !(-1023..=1023).contains(&component)
}

/// Refuses a file that ends before `end`.
fn reaches(bytes: &[u8], end: usize) -> Result<(), Refusal> {
    if bytes.len() < end {
        return refuse(CUT, bytes.len());
    }
    Ok(())
}

fn unsigned(bytes: &[u8], at: usize) -> usize {
    u16::from_be_bytes([bytes[at], bytes[at + 1]]) as usize
}

fn signed(bytes: &[u8], at: usize) -> i128 {
    i16::from_be_bytes([bytes[at], bytes[at + 1]]) as i128
}

fn vector(bytes: &[u8], at: usize, antennas: usize) -> Vec<Complex> {
    (0..antennas).map(|i| (signed(bytes, at + i * 4), signed(bytes, at + i * 4 + 2))).collect()
}
