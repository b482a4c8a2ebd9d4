//! Seeded random volumes, cuttings, readings and damaged records.
use crate::grid::{Extents, Grid};
use crate::strain::{float, STRAIN};

/// The generator splitmix64.
pub struct Random(u64);

impl Random {
    pub fn new(seed: u64) -> Random {
        Random(seed)
    }

    /// 64 random bits.
    pub fn word(&mut self) -> u64 {
        self.0 = self.0.wrapping_add(0x9e37_79b9_7f4a_7c15);
        let mut z = self.0;
        z = (z ^ z >> 30).wrapping_mul(0xbf58_476d_1ce4_e5b9);
        z = (z ^ z >> 27).wrapping_mul(0x94d0_49bb_1331_11eb);
        z ^ z >> 31
    }

    /// A number below n.
    pub fn below(&mut self, n: usize) -> usize {
        (self.word() % n as u64) as usize
    }

    /// True once in n times.
    pub fn once_in(&mut self, n: usize) -> bool {
        self.below(n) == 0
    }

    pub fn pick<T: Copy>(&mut self, list: &[T]) -> T {
        list[self.below(list.len())]
    }

    /// Puts a list into any order.
    pub fn shuffle<T>(&mut self, list: &mut [T]) {
        for i in (1..list.len()).rev() {
            list.swap(i, self.below(i + 1));
        }
    }
}

/// A reading that is one, as the bits of its value and its kind byte. The value of a missing one is anything.
pub fn reading(random: &mut Random) -> (u64, u8) {
    let kind = random.pick(&[0, 0, 0, 0, 0, 1, 2]);
    let value = match random.below(8) {
        0 => 1 << 63,
        1 | 2 => float(random.pick(&[0, 1, -1, STRAIN, -STRAIN])),
        _ => float(random.below(2 * STRAIN as usize + 1) as i128 - STRAIN),
    };
    (if kind == 2 && random.once_in(2) { random.word() } else { value }, kind)
}

/// A reading that is none: no number, beyond the range, no multiple of 1/1,024, or a kind above 2.
pub fn bad_reading(random: &mut Random) -> (u64, u8) {
    let kind = random.below(2) as u8;
    match random.below(8) {
        0 => (f64::NAN.to_bits(), kind),
        1 => (random.pick(&[f64::INFINITY, f64::NEG_INFINITY]).to_bits(), kind),
        2 => (float(random.pick(&[STRAIN + 1, -STRAIN - 1, 1 << 52])), kind),
        3 => (random.pick(&[1.0f64 / 2048.0, -1.0 / 2048.0, 0.1, 2_048.000_000_1, 1e300]).to_bits(), kind),
        4 => (1 + random.below(9) as u64, kind),
        _ => (random.word(), 3 + random.below(253) as u8),
    }
}

/// The codes of a random volume: without zeros, or with a few, mostly zeros, zeros around a core, or zeros for one of its codes.
pub fn volume(random: &mut Random, extents: Extents) -> Vec<u32> {
    let mut codes = segments(random, extents);
    match random.below(8) {
        0..=2 => {}
        3 => codes.iter_mut().filter(|_| random.once_in(6)).for_each(|code| *code = 0),
        4 => codes.iter_mut().filter(|_| !random.once_in(4)).for_each(|code| *code = 0),
        5 | 6 => {
            let grid = Grid::new(extents);
            let hull = |v: usize| grid.place(grid.voxel(v)).into_iter().zip(grid.sides()).any(|(c, side)| side > 3 && (c == 0 || c == side - 1));
            (0..codes.len()).filter(|&v| hull(v)).for_each(|v| codes[v] = 0);
        }
        _ => {
            let outside = random.pick(&codes);
            codes.iter_mut().filter(|code| **code == outside).for_each(|code| *code = 0);
        }
    }
    codes
}

/// The codes of a random volume, none of them 0.
fn segments(random: &mut Random, extents: Extents) -> Vec<u32> {
    let names = names(random);
    let code = |k: usize| names[k % names.len()];
    let grid = Grid::new(extents);
    let places: Vec<[usize; 3]> = (0..grid.voxels()).map(|v| grid.place(grid.voxel(v)).map(|c| c / 2)).collect();
    match random.below(6) {
        // a few codes, anywhere
        0 | 1 => places.iter().map(|_| code(random.below(names.len()))).collect(),
        // layers along one axis, with a few voxels changed
        2 => {
            let (axis, thick) = (random.below(3), 1 + random.below(3));
            places.iter().map(|p| if random.once_in(8) { code(random.below(names.len())) } else { code(p[axis] / thick) }).collect()
        }
        // blobs: each voxel takes the code of its nearest seed
        3 => {
            let seeds: Vec<[usize; 3]> = (0..2 + random.below(8)).map(|_| extents.map(|n| random.below(n))).collect();
            let far = |p: &[usize; 3], s: &[usize; 3]| (0..3).map(|a| p[a].abs_diff(s[a]).pow(2)).sum::<usize>();
            places.iter().map(|p| code((0..seeds.len()).min_by_key(|&k| far(p, &seeds[k])).unwrap())).collect()
        }
        // a checkerboard
        4 => places.iter().map(|p| code((p[0] + p[1] + p[2]) % 2)).collect(),
        // two codes in layers below, a few in one layer: loops and rings of faces
        _ => {
            let axis = random.below(3);
            places.iter().map(|p| if p[axis] == 0 { code(0) } else { code(1 + usize::from(random.once_in(4))) }).collect()
        }
    }
}

/// A few different codes, small or large.
fn names(random: &mut Random) -> Vec<u32> {
    let count = random.pick(&[1, 2, 2, 3, 3, 4, 6, 20]);
    let base = random.pick(&[1, 1, 1, 250, 65_530, u32::MAX - 40]);
    (0..count).map(|k| base + k).collect()
}

/// A random cut list of an axis of n voxels, at most 64.
pub fn cuts(random: &mut Random, n: usize) -> Vec<usize> {
    (0..n).filter(|&c| c == 0 || c == n - 1 || random.once_in(2)).collect()
}

/// Damages a record in one of the ways that its rules name, or in none.
pub fn damage(random: &mut Random, record: &mut Vec<u8>, extents: Extents) {
    let grid = Grid::new(extents);
    let cells = grid.cells();
    let bits = cells.div_ceil(8);
    if record.len() < 12 + bits {
        return;
    }
    let listed = (record.len() - 12 - bits) / 4;
    match random.below(11) {
        0 => {
            let at = random.below(record.len());
            record[at] ^= 1 << random.below(8);
        }
        1 => record.truncate(random.below(record.len())),
        2 => record.truncate(record.len() - random.pick(&[1, 2, 3, 4])),
        3 => (0..random.pick(&[1, 2, 3, 4, 8])).for_each(|_| record.push(random.word() as u8)),
        // a field of the head
        4 | 5 => {
            let k = random.below(6);
            let value: u16 = random.pick(&[0, 1, 2, 3, 63, 64, 65, 256, 1023, 1024, 1025, 65_535]);
            record[2 * k..2 * k + 2].copy_from_slice(&value.to_le_bytes());
        }
        // two extents change places: as many cells, another shape
        6 => (0..2).for_each(|k| record.swap(k, 2 + k)),
        // a spare bit
        7 => {
            let p = cells + random.below(8 * bits - cells);
            record[12 + p / 8] |= 1 << (p % 8);
        }
        // the bit of a voxel; the length goes with it or not
        8 => {
            let p = grid.voxel(random.below(grid.voxels()));
            let bit = 1 << (p % 8);
            record[12 + p / 8] ^= bit;
            if random.once_in(2) {
                if record[12 + p / 8] & bit == 0 {
                    record.truncate(record.len() - 4);
                } else {
                    record.extend([7; 4]);
                }
            }
        }
        // a listed number
        9 if listed > 0 => {
            let at = 12 + bits + 4 * random.below(listed);
            record[at..at + 4].fill(0);
        }
        _ => {}
    }
}
