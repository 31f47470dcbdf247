//! Burst files as the cases write them: any field may break its rule.

use crate::constellation::is_differential;

/// A record: weight, y and h. In modes 9 and 10 h is not written.
#[derive(Clone)]
pub struct Entry {
    pub weight: u16,
    pub y: Vec<(i16, i16)>,
    pub h: Vec<(i16, i16)>,
}

#[derive(Clone)]
pub struct Draft {
    pub magic: u8,
    pub mode: u8,
    pub shift: u8,
    pub antennas: u8,
    pub entries: Vec<Entry>,
    pub a_priori: Vec<i16>,
}

impl Draft {
    pub fn symbols(&self) -> usize {
        match is_differential(self.mode) {
            true => self.entries.len().saturating_sub(1),
            false => self.entries.len(),
        }
    }

    pub fn bytes(&self) -> Vec<u8> {
        let mut bytes = vec![self.magic, self.mode, self.shift, self.antennas];
        bytes.extend((self.entries.len() as u16).to_be_bytes());
        for entry in &self.entries {
            bytes.extend(entry.weight.to_be_bytes());
            write_vector(&mut bytes, &entry.y);
            if !is_differential(self.mode) {
                write_vector(&mut bytes, &entry.h);
            }
        }
        bytes.extend((self.a_priori.len() as u16).to_be_bytes());
        for value in &self.a_priori {
            bytes.extend(value.to_be_bytes());
        }
        bytes
    }
}

fn write_vector(bytes: &mut Vec<u8>, vector: &[(i16, i16)]) {
    for (re, im) in vector {
        bytes.extend(re.to_be_bytes());
        bytes.extend(im.to_be_bytes());
    }
}
