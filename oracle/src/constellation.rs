//! The ten catalogued constellations, as lists of all their points (docs/CONSTELLATIONS.md).

/// One point: its complex coordinate, its noise energy and its label, bit 1 first.
pub struct Point {
    pub re: i128,
    pub im: i128,
    pub energy: i128,
    pub bits: Vec<u8>,
}

/// All points, and the number of bits of each label.
pub struct Constellation {
    pub m: usize,
    pub points: Vec<Point>,
}

/// A quadrant point: it stands for the four points (±x, ±y).
#[derive(Clone)]
struct Corner {
    x: i128,
    y: i128,
    energy: i128,
    bits: Vec<u8>,
}

/// Quadrant points with the positions, from 1, of the imaginary and of the real sign.
struct Quadrant {
    imaginary_sign: usize,
    real_sign: usize,
    corners: Vec<Corner>,
}

const UNIT_ENERGY: i128 = 1 << 20;
const MOST_ENERGY: i128 = 1 << 27;
const MOST_COORDINATE: i128 = 4095;

/// The constellation of a mode from 1 to 10.
pub fn of_mode(mode: u8) -> Option<Constellation> {
    let quadrant = match mode {
        1 => psk4(),
        2 => psk8(),
        3 => psk16(),
        4 => square(324, 2),
        5 => square(158, 4),
        6 => square(79, 8),
        7 => rings(psk8(), &[648, 1295]),
        8 => rings(psk16(), &[541, 757, 1060, 1484]),
        9 => ratios(psk8(), 2, &[512, 1024, 2048]),
        10 => ratios(psk16(), 4, &[373, 522, 731, 1024, 1434, 2007, 2810]),
        _ => return None,
    };
    Some(all_points(&quadrant))
}

/// In modes 9 and 10 each record refers to the one before.
pub fn is_differential(mode: u8) -> bool {
    mode == 9 || mode == 10
}

/// Each quadrant point at (x, y), (−x, y), (x, −y) and (−x, −y).
fn all_points(quadrant: &Quadrant) -> Constellation {
    let mut points = Vec::new();
    for corner in &quadrant.corners {
        for (im_bit, im) in [(0, corner.y), (1, -corner.y)] {
            for (re_bit, re) in [(0, corner.x), (1, -corner.x)] {
                let mut bits = corner.bits.clone();
                bits[quadrant.imaginary_sign - 1] = im_bit;
                bits[quadrant.real_sign - 1] = re_bit;
                points.push(Point { re, im, energy: corner.energy, bits });
            }
        }
    }
    Constellation { m: quadrant.corners[0].bits.len(), points }
}

fn psk4() -> Quadrant {
    psk(&[(724, 724)], 0)
}

fn psk8() -> Quadrant {
    psk(&[(946, 392), (392, 946)], 1)
}

fn psk16() -> Quadrant {
    psk(&[(1004, 200), (851, 569), (569, 851), (200, 1004)], 2)
}

/// PSK: both signs first, then `width` bits of the Gray number of the point.
fn psk(coordinates: &[(i128, i128)], width: usize) -> Quadrant {
    let mut corners = Vec::new();
    for (i, &(x, y)) in coordinates.iter().enumerate() {
        let mut bits = vec![0, 0];
        bits.extend(gray_bits(i, width));
        corners.push(Corner { x, y, energy: UNIT_ENERGY, bits });
    }
    Quadrant { imaginary_sign: 1, real_sign: 2, corners }
}

/// Square QAM with `n` magnitudes an axis, the outermost first.
fn square(step: i128, n: usize) -> Quadrant {
    let width = n.trailing_zeros() as usize;
    let magnitude = |i: usize| (2 * (n - 1 - i) + 1) as i128 * step;
    let mut corners = Vec::new();
    for im in 0..n {
        for re in 0..n {
            let mut bits = vec![0];
            bits.extend(gray_bits(im, width));
            bits.push(0);
            bits.extend(gray_bits(re, width));
            corners.push(Corner { x: magnitude(re), y: magnitude(im), energy: UNIT_ENERGY, bits });
        }
    }
    Quadrant { imaginary_sign: 1, real_sign: width + 2, corners }
}

/// Rings: every point below at each radius, the ring's Gray number appended to the label.
fn rings(below: Quadrant, radii: &[i128]) -> Quadrant {
    let width = radii.len().trailing_zeros() as usize;
    let mut corners = Vec::new();
    for (a, &radius) in radii.iter().enumerate() {
        for corner in &below.corners {
            let mut made = scaled(corner, radius);
            made.bits.extend(gray_bits(a, width));
            corners.push(made);
        }
    }
    Quadrant { corners, ..below }
}

/// Ratios: `n` of them, so exponents −(n − 1) to n − 1, each with its own radius and more noise.
fn ratios(below: Quadrant, n: i128, radii: &[i128]) -> Quadrant {
    let width = n.trailing_zeros() as usize;
    let mut corners = Vec::new();
    for (exponent, &radius) in (1 - n..n).zip(radii) {
        for corner in &below.corners {
            let mut made = scaled(corner, radius);
            made.bits.extend(gray_bits(exponent.rem_euclid(n) as usize, width));
            made.energy = MOST_ENERGY.min(corner.energy + radius * radius);
            corners.push(made);
        }
    }
    Quadrant { corners, ..below }
}

fn scaled(corner: &Corner, radius: i128) -> Corner {
    let coordinate = |c: i128| MOST_COORDINATE.min((radius * c + 512).div_euclid(1024));
    Corner { x: coordinate(corner.x), y: coordinate(corner.y), ..corner.clone() }
}

/// The Gray number of `i` in `width` bits, the most significant first.
fn gray_bits(i: usize, width: usize) -> Vec<u8> {
    let gray = i ^ (i / 2);
    (0..width).rev().map(|place| (gray >> place & 1) as u8).collect()
}
