//! Known values: the worked examples of the documents, the sizes and laws of the constellations, and
//! refusals with their places.

use crate::constellation::of_mode;
use crate::file;
use crate::writer::{Draft, Entry};

/// Whether all checks hold; prints those that do not.
pub fn run() -> bool {
    let mut checks = Checks { done: 0, failed: 0 };
    examples(&mut checks);
    constellations(&mut checks);
    refusals(&mut checks);
    println!("selfcheck: {} checks, {} failed", checks.done, checks.failed);
    checks.failed == 0
}

struct Checks {
    done: usize,
    failed: usize,
}

impl Checks {
    fn holds(&mut self, about: &str, holds: bool) {
        self.done += 1;
        if !holds {
            self.failed += 1;
            println!("selfcheck failed: {about}");
        }
    }

    fn prints(&mut self, about: &str, bytes: &[u8], expected: &str) {
        let printed = file::printed(bytes);
        self.holds(&format!("{about}: printed {printed:?}, not {expected:?}"), printed == expected);
    }
}

const EXAMPLE: [u8; 20] = [
    0x02, 0x09, 0x20, 0x01, 0x00, 0x02, 0x03, 0xE8, 0x00, 0x64, 0x00, 0x00, 0x03, 0xE8, 0x00, 0xC8,
    0x00, 0x00, 0x00, 0x00,
];

/// A burst of one coherent symbol at one antenna.
fn one(mode: u8, shift: u8, weight: u16, y: (i16, i16), h: (i16, i16), told: &[i16]) -> Draft {
    let entries = vec![Entry { weight, y: vec![y], h: vec![h] }];
    Draft { magic: 2, mode, shift, antennas: 1, entries, a_priori: told.to_vec() }
}

fn examples(checks: &mut Checks) {
    checks.prints("differential, s = 32", &EXAMPLE, "1 4\n1 0 -5104 -2113 1295\n");
    let mut stronger = EXAMPLE;
    stronger[2] = 0x1E;
    checks.prints("differential, s = 30", &stronger, "1 4\n1 0 -8191 -8191 5180\n");

    let psk = one(1, 24, 1, (100, 50), (100, 0), &[]);
    checks.prints("PSK 4", &psk.bytes(), "1 2\n1 -884 -1768\n");
    let told = one(1, 24, 1, (100, 50), (100, 0), &[8191, -8191]);
    checks.prints("PSK 4, told", &told.bytes(), "1 2\n1 -884 -1768\n");
    let square = one(4, 10, 1, (0, 0), (1, 0), &[]);
    checks.prints("square 16", &square.bytes(), "1 4\n1 0 820 0 820\n");

    // 4 × 1024 × 724 is 181 × 2^14: at s = 15 the values are 90.5 in size, and floor rounds up.
    let halfway = one(1, 15, 1, (1, -1), (1, 0), &[]);
    checks.prints("halfway", &halfway.bytes(), "1 2\n1 91 -90\n");
}

/// m, the number of points, the largest coordinate and the largest noise energy of each mode.
fn constellations(checks: &mut Checks) {
    let table = [
        (2, 4, 724, 1 << 20),
        (3, 8, 946, 1 << 20),
        (4, 16, 1004, 1 << 20),
        (4, 16, 972, 1 << 20),
        (6, 64, 1106, 1 << 20),
        (8, 256, 1185, 1 << 20),
        (4, 16, 1196, 1 << 20),
        (6, 64, 1455, 1 << 20),
        (4, 24, 1892, (1 << 20) + 2048 * 2048),
        (6, 112, 2755, (1 << 20) + 2810 * 2810),
    ];
    for (mode, row) in (1..).zip(table) {
        let made = of_mode(mode).expect("a catalogued mode");
        let points = &made.points;
        let coordinate = points.iter().map(|p| p.re.max(p.im)).max().unwrap();
        let energy = points.iter().map(|p| p.energy).max().unwrap();
        let seen = (made.m, points.len(), coordinate, energy);
        checks.holds(&format!("mode {mode} is {seen:?}, not {row:?}"), seen == row);

        let mut labels: Vec<&[u8]> = points.iter().map(|p| &p.bits[..]).collect();
        labels.sort();
        labels.dedup();
        let widths = labels.iter().all(|label| label.len() == made.m);
        let all = widths && labels.len() == 1 << made.m;
        checks.holds(&format!("mode {mode} has every label"), all);
    }
    checks.holds("mode 0 is none", of_mode(0).is_none());
    checks.holds("mode 11 is none", of_mode(11).is_none());
}

fn refusals(checks: &mut Checks) {
    checks.prints("empty", &[], "refused 15 at 0\n");
    checks.prints("wrong first byte, cut", &[3, 11], "refused 15 at 2\n");
    checks.prints("wrong first byte", &[3, 11, 0], "refused 16 at 0\n");
    checks.prints("mode 11", &[2, 11, 41], "refused 16 at 1\n");
    checks.prints("shift 41, cut", &[2, 1, 41], "refused 15 at 3\n");
    checks.prints("no antenna", &[2, 1, 41, 0], "refused 16 at 3\n");
    checks.prints("no count", &[2, 1, 41, 1, 0], "refused 15 at 5\n");
    checks.prints("shift 41", &[2, 1, 41, 1, 0, 0, 0, 0], "refused 5 at 0\n");
    checks.prints("no records", &[2, 1, 40, 1, 0, 0, 0, 0], "0 2\n");
    checks.prints("a value too many, cut", &[2, 1, 0, 1, 0, 0, 0, 1, 0], "refused 15 at 9\n");
    checks.prints("a value too many", &[2, 1, 0, 1, 0, 0, 0, 1, 0, 0], "refused 16 at 6\n");
    checks.prints("a byte too many", &[2, 1, 0, 1, 0, 0, 0, 0, 0], "refused 16 at 8\n");
    checks.prints("16384 bytes", &[2; 16384], "refused 16 at 9258\n");
    checks.prints("16385 bytes", &[2; 16385], "refused 16 at 16384\n");

    let base = one(1, 24, 1, (100, 50), (100, 0), &[]);
    let mut sample = base.clone();
    sample.entries = vec![base.entries[0].clone(); 6];
    sample.entries[4].y[0].1 = -1024;
    sample.entries[4].weight = 1024;
    checks.prints("sample", &sample.bytes(), "refused record 5: 2 at 1\n");
    sample.entries[4].y[0].1 = 1023;
    checks.prints("weight", &sample.bytes(), "refused record 5: 3 at 0\n");
    sample.entries[4].h[0].0 = 1024;
    checks.prints("sample of h", &sample.bytes(), "refused record 5: 2 at 1\n");

    let mut full = base.clone();
    full.entries = vec![base.entries[0].clone(); 129];
    checks.prints("full", &full.bytes(), "refused record 129: 4 at 0\n");
    full.mode = 9;
    let printed = file::printed(&full.bytes());
    checks.holds("129 differential records", printed.starts_with("128 4\n"));
    full.entries.push(base.entries[0].clone());
    checks.prints("full, differential", &full.bytes(), "refused record 130: 4 at 0\n");

    let mut range = base.clone();
    range.entries.push(base.entries[0].clone());
    range.a_priori = vec![8191, -8191, 0, 8192];
    checks.prints("range", &range.bytes(), "refused 11 at 4\n");
}
