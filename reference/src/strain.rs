//! Strain totals on interfaces (document 02, item 1), without floats: a 64-bit float goes in and out by its bits, and is a whole number of 1,024ths between.
//! [`ReadingBook`] stands beside the day book and tells the totals from the uncut volume; the methods of [`State`] tell what the two calls answer and leave
//! for a job and tables of anyone's making.
use crate::book::{Answer, Book};
use crate::grid::Grid;
use crate::refusal::*;
use crate::table::{Declined, State, Stray};

/// The most 1,024ths of a strain, and of a sum.
pub const STRAIN: i128 = 1 << 21;
pub const SUM: i128 = 1 << 53;

const MINUS_ZERO: u64 = 1 << 63;

/// How many 1,024ths a float is, where that is a whole number of at most `most` either way.
pub fn units(bits: u64, most: i128) -> Option<i128> {
    let (field, fraction) = ((bits >> 52 & 0x7ff) as i32, i128::from(bits & ((1 << 52) - 1)));
    // the float is significand * 2^power
    let (significand, power) = if field == 0 { (fraction, -1074) } else { (fraction | 1 << 52, field - 1075) };
    let size = match power + 10 {
        _ if field == 0x7ff => return None,
        _ if significand == 0 => 0,
        shift @ 0..=40 => significand << shift,
        shift if (-52..0).contains(&shift) && significand & ((1 << -shift) - 1) == 0 => significand >> -shift,
        _ => return None,
    };
    (size <= most).then_some(if bits & MINUS_ZERO == 0 { size } else { -size })
}

/// So many 1,024ths as a float: exact up to 2^53 of them, beyond that to the nearest, ties to even; below 2^54.
pub fn float(units: i128) -> u64 {
    let mut size = units.unsigned_abs();
    if size == 0 {
        return 0;
    }
    let mut power = -10;
    if size >= 1 << 53 {
        // the last bit goes; where it is set, the number is halfway between two
        let (half, rest) = (size & 1 == 1, size >> 1);
        size = rest + u128::from(half && rest & 1 == 1);
        power += 1;
    }
    let top = 127 - size.leading_zeros();
    let fraction = (size << (52 - top)) as u64 & ((1 << 52) - 1);
    u64::from(units < 0) << 63 | ((top as i64 + power + 1023) as u64) << 52 | fraction
}

/// The sum of two floats that are whole numbers of 1,024ths.
fn added(sum: u64, strain: u64) -> u64 {
    if sum == MINUS_ZERO && strain == MINUS_ZERO {
        return MINUS_ZERO;
    }
    let of = |bits: u64| units(bits, 1 << 60).expect("a whole number of 1,024ths");
    float(of(sum) + of(strain))
}

/// The readings of a block: a float by its bits and a kind byte for each voxel.
#[derive(Clone, Copy, Debug)]
pub struct Lists<'a> {
    pub values: &'a [u64],
    pub kinds: &'a [u8],
}

impl Lists<'_> {
    /// Refusal 12 denies it.
    fn good(&self) -> bool {
        self.values.iter().zip(self.kinds).all(|(&value, &kind)| kind == 2 || kind < 2 && units(value, STRAIN).is_some())
    }
}

/// The sum of a side by its bits, and its numbers of strains, clipped and missing.
#[derive(Clone, Copy, PartialEq, Eq, Default, Debug)]
pub struct Side {
    pub sum: u64,
    pub counts: [u64; 3],
}

/// The readings that have come to a closed job.
pub struct ReadingBook {
    lists: Vec<Option<(Vec<u64>, Vec<u8>)>>,
}

impl ReadingBook {
    pub fn new(blocks: usize) -> ReadingBook {
        ReadingBook { lists: vec![None; blocks] }
    }

    /// Whether the readings of a block have come.
    pub fn has(&self, block: usize) -> bool {
        self.lists.get(block).is_some_and(Option::is_some)
    }

    /// Enters the readings of a block.
    pub fn strain(&mut self, book: &Book, block: usize, map: &[u32], lists: Lists) -> Answer {
        if !book.closed() {
            return Answer::Refused(WRONG_STAGE);
        }
        if block >= self.lists.len() {
            return Answer::Refused(NO_SUCH_PLACE);
        }
        if self.lists[block].is_some() {
            return Answer::Refused(DONE_ALREADY);
        }
        let grid = book.cutting().grid(block);
        if map.len() != grid.cells() || lists.values.len() != grid.voxels() || lists.kinds.len() != grid.voxels() {
            return Answer::Refused(WRONG_TRAY);
        }
        let own = book.has(block, map);
        if !own && book.stray(block, map) {
            return Answer::Refused(STRAY_LABEL);
        }
        if !lists.good() {
            return Answer::Refused(BAD_READING);
        }
        if !own {
            return Answer::Free;
        }
        self.lists[block] = Some((lists.values.to_vec(), lists.kinds.to_vec()));
        Answer::Done
    }

    /// The totals of a face of the uncut volume.
    pub fn total(&self, book: &Book, number: u32) -> Answer {
        if !book.closed() || self.lists.iter().any(Option::is_none) {
            return Answer::Refused(WRONG_STAGE);
        }
        let uncut = book.uncut();
        if number == 0 || number as usize > uncut.components[2].len() {
            return Answer::Refused(NO_SUCH_PLACE);
        }
        let row = uncut.components[2][number as usize - 1].row;
        let (mut sums, mut counts) = ([0; 2], [[0; 3]; 2]);
        for t in (0..uncut.map.len()).filter(|&t| uncut.grid.order(t) == 2 && uncut.map[t] == number) {
            let block = book.cutting().lowest(uncut.grid.place(t));
            let (values, kinds) = self.lists[block].as_ref().expect("all have come");
            // the outside is the higher side, and none of its readings is counted
            for voxel in uncut.grid.above(t).into_iter().filter(|&voxel| uncut.map[voxel] != 0) {
                let side = usize::from(uncut.map[voxel] != row[0]);
                let p = book.cutting().inside(block, uncut.grid.place(voxel)).expect("the block has the face cell, so it has its voxels");
                let v = book.cutting().grid(block).voxel_at(p);
                counts[side][usize::from(kinds[v])] += 1;
                if kinds[v] == 0 {
                    sums[side] += units(values[v], STRAIN).expect("a strain");
                }
            }
        }
        Answer::Totals([0, 1].map(|s: usize| Side { sum: float(sums[s]), counts: counts[s] }))
    }
}

/// The tables of the readings: a tick for each block, two sums by their bits and six counts for each face.
#[derive(Clone, PartialEq, Eq, Debug)]
pub struct TotalTables {
    pub came: Vec<u32>,
    pub sums: Vec<u64>,
    pub counts: Vec<u64>,
}

impl TotalTables {
    fn fit(&self, blocks: usize, faces: u32) -> bool {
        self.came.len() == blocks && self.sums.len() as u64 == 2 * u64::from(faces) && self.counts.len() as u64 == 6 * u64::from(faces)
    }

    fn side(&self, place: usize) -> Side {
        Side { sum: self.sums[place], counts: [0, 1, 2].map(|k| self.counts[3 * place + k]) }
    }

    /// The two places of face n stand: sums of at most 2^43, counts of at most the volume's cells.
    fn stands(&self, n: u32, cells: u64) -> bool {
        let place = 2 * (n as usize - 1);
        [place, place + 1].iter().all(|&s| units(self.sums[s], SUM).is_some() && self.side(s).counts.iter().all(|&c| c <= cells))
    }

    pub fn zeroed(&self) -> TotalTables {
        TotalTables { came: vec![0; self.came.len()], sums: vec![0; self.sums.len()], counts: vec![0; self.counts.len()] }
    }
}

impl State<'_> {
    /// Whether the tables of the readings have their lengths.
    pub fn totals_fit(&self, totals: &TotalTables) -> bool {
        totals.fit(self.cutting.blocks(), self.entries[0])
    }

    fn volume_cells(&self) -> u64 {
        Grid::new(self.cutting.extents).cells() as u64
    }

    /// What the readings of a block answer, and what they leave; for a refusal 8 what was found.
    pub fn strain(&self, totals: &TotalTables, block: usize, map: &[u32], lists: Lists) -> Result<TotalTables, Declined> {
        let refused = |n: u32| Err((n, None));
        self.closed()?;
        if block >= self.cutting.blocks() {
            return refused(NO_SUCH_PLACE);
        }
        if totals.came.get(block).is_some_and(|&tick| tick != 0) {
            return refused(DONE_ALREADY);
        }
        let grid = self.cutting.grid(block);
        let brought = map.len() == grid.cells() && lists.values.len() == grid.voxels() && lists.kinds.len() == grid.voxels();
        let lent = self.tables.blocks.len() == 5 * self.cutting.blocks() && self.tables.numbers[0].len() == self.entries[0] as usize && self.totals_fit(totals);
        if !brought || !lent {
            return refused(WRONG_TRAY);
        }
        if let Some(stray) = self.stray_tally().or_else(|| self.stray_block(block, map, true)).or_else(|| self.stray_totals(totals, block)) {
            return Err((STRAY_LABEL, Some(stray)));
        }
        if !lists.good() {
            return refused(BAD_READING);
        }
        Ok(self.with_readings(totals, block, map, lists))
    }

    /// The final numbers and the totals of a block's faces.
    fn stray_totals(&self, totals: &TotalTables, block: usize) -> Option<Stray> {
        let (from, end) = self.part(0, block);
        self.tables.numbers[0][from as usize..end as usize].iter().find_map(|&n| {
            if !(1..=self.numbered[0]).contains(&n) {
                return Some(Stray::Final);
            }
            (!totals.stands(n, self.volume_cells())).then_some(Stray::Total)
        })
    }

    /// The tables with the readings of a block added, cell by cell.
    fn with_readings(&self, totals: &TotalTables, block: usize, map: &[u32], lists: Lists) -> TotalTables {
        let (grid, mut left) = (self.cutting.grid(block), totals.clone());
        left.came[block] = 1;
        for p in (0..map.len()).filter(|&p| grid.order(p) == 2 && map[p] != 0) {
            if self.cutting.lowest(self.cutting.outside(block, p)) != block {
                continue;
            }
            let n = self.tables.numbers[0][self.part(0, block).0 as usize + map[p] as usize - 1];
            let row = grid.row(map, p);
            for q in grid.above(p) {
                let Some(side) = [0, 1].into_iter().find(|&s: &usize| row[s] == map[q] && map[q] != 0) else { continue };
                let (place, v) = (2 * (n as usize - 1) + side, grid.voxel_at(q));
                left.counts[3 * place + usize::from(lists.kinds[v])] += 1;
                if lists.kinds[v] == 0 {
                    left.sums[place] = added(left.sums[place], lists.values[v]);
                }
            }
        }
        left
    }

    /// What the reading of a total answers; for a refusal 8 what was found.
    pub fn total(&self, totals: &TotalTables, number: u32) -> Result<[Side; 2], Declined> {
        let refused = |n: u32| Err((n, None));
        self.closed()?;
        let come = |b: usize| totals.came.get(b).is_some_and(|&tick| tick != 0);
        if !(0..self.cutting.blocks()).all(come) {
            return refused(WRONG_STAGE);
        }
        if !(1..=self.numbered[0]).contains(&number) {
            return refused(NO_SUCH_PLACE);
        }
        if !self.totals_fit(totals) {
            return refused(WRONG_TRAY);
        }
        if let Some(stray) = self.stray_tally() {
            return Err((STRAY_LABEL, Some(stray)));
        }
        if !totals.stands(number, self.volume_cells()) {
            return Err((STRAY_LABEL, Some(Stray::Total)));
        }
        let place = 2 * (number as usize - 1);
        // minus zero counts as zero
        Ok([place, place + 1].map(|s| Side { sum: if totals.sums[s] == MINUS_ZERO { 0 } else { totals.sums[s] }, ..totals.side(s) }))
    }
}

#[cfg(test)]
mod tests {
    use super::*;
    use crate::cutting::Cutting;
    use crate::random::{cuts, reading, volume, Random};
    use crate::volumes::closed;

    #[test]
    fn floats_by_their_bits() {
        for (x, whole) in [
            (0.0, Some(0)),
            (-0.0, Some(0)),
            (1.0, Some(1024)),
            (-1.5, Some(-1536)),
            (1.0 / 1024.0, Some(1)),
            (1.0 / 2048.0, None),
            (2048.0, Some(STRAIN)),
            (2048.0 + 1.0 / 1024.0, None),
        ] {
            assert_eq!(units(f64::to_bits(x), STRAIN), whole, "{x}");
        }
        for x in [f64::NAN, f64::INFINITY, -f64::INFINITY, f64::MIN_POSITIVE, 5e-324, 1e300] {
            assert_eq!(units(x.to_bits(), SUM), None, "{x}");
        }
        assert_eq!(units(8_796_093_022_208f64.to_bits(), SUM), Some(SUM));
        assert_eq!(units(8_796_093_022_208.002f64.to_bits(), SUM), None);
    }

    #[test]
    fn the_outside_is_not_counted() {
        let cutting = Cutting { extents: [3, 1, 1], cuts: [vec![0, 1, 2], vec![0], vec![0]] };
        let (book, maps) = closed(&cutting, &[0, 7, 5]);
        let mut readings = ReadingBook::new(2);
        let strain = |units: i128| (float(units), 0);
        let mut bring = |block: usize, lists: [(u64, u8); 2]| {
            let (values, kinds): (Vec<u64>, Vec<u8>) = lists.into_iter().unzip();
            readings.strain(&book, block, &maps[block], Lists { values: &values, kinds: &kinds })
        };
        assert_eq!(bring(0, [strain(STRAIN + 1), strain(3)]), Answer::Refused(BAD_READING));
        assert_eq!(bring(0, [strain(STRAIN), strain(3)]), Answer::Done);
        assert_eq!(bring(1, [(0, 1), strain(-4)]), Answer::Done);
        let side = |units: i128, counts: [u64; 3]| Side { sum: float(units), counts };
        assert_eq!(readings.total(&book, 1), Answer::Totals([side(3, [1, 0, 0]), Side::default()]));
        assert_eq!(readings.total(&book, 2), Answer::Totals([side(-4, [1, 0, 0]), side(0, [0, 1, 0])]));
    }

    #[test]
    fn a_reading_per_cell_and_side() {
        let mut random = Random::new(4);
        let mut outside = 0;
        for _ in 0..100 {
            let extents = [0; 3].map(|_| 1 + random.below(4));
            let cutting = Cutting { extents, cuts: extents.map(|n| cuts(&mut random, n)) };
            let (book, maps) = closed(&cutting, &volume(&mut random, extents));
            let mut readings = ReadingBook::new(maps.len());
            for (block, map) in maps.iter().enumerate() {
                let (values, kinds): (Vec<u64>, Vec<u8>) = (0..cutting.grid(block).voxels()).map(|_| reading(&mut random)).unzip();
                assert_eq!(readings.strain(&book, block, map, Lists { values: &values, kinds: &kinds }), Answer::Done);
            }
            let uncut = book.uncut();
            for (n, face) in (1..).zip(&uncut.components[2]) {
                let cells = (0..uncut.map.len()).filter(|&t| uncut.grid.order(t) == 2 && uncut.map[t] == n).count() as u64;
                let Answer::Totals([lower, higher]) = readings.total(&book, n) else { panic!("a total of face {n}") };
                assert_eq!(lower.counts.iter().sum::<u64>(), cells);
                if face.row[1] == 0 {
                    outside += 1;
                    assert_eq!(higher, Side::default());
                } else {
                    assert_eq!(higher.counts.iter().sum::<u64>(), cells);
                }
            }
        }
        assert!(outside > 50, "{outside}");
    }

    #[test]
    fn sums_as_the_machine_adds() {
        let mut random = Random::new(9);
        for _ in 0..100_000 {
            let mut whole = |bits: u32| (random.word() >> (64 - bits)) as i128 * if random.once_in(2) { 1 } else { -1 };
            let (a, b) = (float(whole(53)), float(whole(21)));
            let machine = (f64::from_bits(a) + f64::from_bits(b)).to_bits();
            assert_eq!(added(a, b), machine, "{a:x} {b:x}");
        }
        // at 2^43 a sum is rounded, to even
        let top = float(SUM);
        for k in 0..9 {
            assert_eq!(added(top, float(k)), (f64::from_bits(top) + k as f64 / 1024.0).to_bits());
            assert_eq!(added(float(SUM + 2), float(k)), (f64::from_bits(float(SUM + 2)) + k as f64 / 1024.0).to_bits());
        }
        for (a, b) in [(MINUS_ZERO, MINUS_ZERO), (MINUS_ZERO, 0), (0, MINUS_ZERO), (float(5), float(-5))] {
            assert_eq!(added(a, b), (f64::from_bits(a) + f64::from_bits(b)).to_bits());
        }
    }
}
