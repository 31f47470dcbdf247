//! The detection rule over all points (docs/DETECTION.md).

use crate::constellation::{Constellation, Point};

/// A complex number of whole parts.
pub type Complex = (i128, i128);

/// What one symbol is detected from.
pub struct Symbol {
    pub y: Vec<Complex>,
    pub h: Vec<Complex>,
    pub weight: i128,
}

const LIMIT: i128 = 8191;

/// The extrinsic values of a symbol, position by position.
pub fn extrinsic(
    constellation: &Constellation,
    symbol: &Symbol,
    shift: u8,
    a_priori: &[i128],
) -> Vec<i128> {
    let s = 1i128 << shift;
    let metrics: Vec<i128> =
        constellation.points.iter().map(|point| metric(point, symbol, s, a_priori)).collect();
    (0..constellation.m)
        .map(|k| {
            let best = |bit: u8| -> i128 {
                let candidates = constellation.points.iter().zip(&metrics);
                candidates
                    .filter(|(point, _)| point.bits[k] == bit)
                    .map(|(_, &d)| d)
                    .max()
                    .expect("each bit has points of both values")
            };
            let difference = best(1) - best(0);
            let rounded = (2 * (difference - s * a_priori[k]) + s).div_euclid(2 * s);
            rounded.clamp(-LIMIT, LIMIT)
        })
        .collect()
}

fn metric(point: &Point, symbol: &Symbol, s: i128, a_priori: &[i128]) -> i128 {
    let w = (symbol.weight << 20).div_euclid(point.energy);
    let distance: i128 = symbol
        .y
        .iter()
        .zip(&symbol.h)
        .map(|(&(y_re, y_im), &(h_re, h_im))| {
            let re = 1024 * y_re - (point.re * h_re - point.im * h_im);
            let im = 1024 * y_im - (point.re * h_im + point.im * h_re);
            re * re + im * im
        })
        .sum();
    let told: i128 =
        point.bits.iter().zip(a_priori).filter(|(&bit, _)| bit == 1).map(|(_, &a)| a).sum();
    -w * distance + s * told
}
