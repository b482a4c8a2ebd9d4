//! Cells looked up together in plain Rust, written from document 02 and not from the proved code, with the same tests.
use crate::joins::{Job as Plain, Part};
use tugrelis::{Cells, Cutting, Job};

/// Every cell is inside the volume's grid.
fn inside(cutting: &Cutting, cells: &Cells) -> bool {
    [&cells.xs, &cells.ys, &cells.zs].into_iter().zip(cutting.extents).all(|(list, n)| list.iter().all(|&c| c < 2 * n - 1))
}

/// The three lists have one length, not above the limit, and the tray too.
fn fit(cells: &Cells, places: usize) -> bool {
    let many = cells.xs.len();
    cells.ys.len() == many && cells.zs.len() == many && places == many && many <= 4096
}

/// The first interval of an axis that has a coordinate.
fn interval(list: &[u32], c: u32) -> usize {
    list[1..].partition_point(|&end| 2 * end < c)
}

fn places(cells: &Cells) -> impl Iterator<Item = [u32; 3]> + '_ {
    cells.xs.iter().zip(&cells.ys).zip(&cells.zs).map(|((&x, &y), &z)| [x, y, z])
}

/// The needed blocks, in the first places of the tray; gives how many they are.
pub fn request(cutting: &Cutting, cells: &Cells, tray: &mut [u32]) -> Option<usize> {
    if !inside(cutting, cells) || !fit(cells, tray.len()) {
        return None;
    }
    let [mx, my, _] = cutting.intervals();
    let [cx, cy, cz] = &cutting.lists;
    let mut marks = vec![false; cutting.blocks()];
    places(cells).for_each(|[x, y, z]| marks[interval(cx, x) + mx * (interval(cy, y) + my * interval(cz, z))] = true);
    let needed = (0..).zip(&marks).filter(|(_, mark)| **mark).map(|(block, _)| block);
    Some(tray.iter_mut().zip(needed).map(|(place, block)| *place = block).count())
}

/// The block that answers are read from.
struct Source<'a> {
    job: &'a Job,
    map: &'a [u32],
    /// On each axis the first cell of the block, the first of its own ones, and the one behind its last.
    begin: [u32; 3],
    own: [u32; 3],
    end: [u32; 3],
    /// The final numbers of its faces and curves.
    numbers: [&'a [u32]; 2],
}

impl<'a> Source<'a> {
    /// The block, if tables and map have their lengths, and the map and the block table no stray number.
    fn new(job: &'a Job, block: usize, map: &'a [u32]) -> Option<Source<'a>> {
        let (cutting, t) = (&job.cutting, &job.tables);
        let (extents, begin) = (cutting.block_extents(block).map(usize::from), cutting.origin(block).map(|c| 2 * c));
        let sides = extents.map(|n| 2 * n as u32 - 1);
        if map.len() != sides.iter().product::<u32>() as usize || t.ticks.len() != 6 * cutting.blocks() || t.blocks.len() != 5 * cutting.blocks() {
            return None;
        }
        let (most, of) = (Plain::survey(&Part { extents, origin: begin.map(|c| c as usize / 2), map }), &t.blocks[5 * block..][..5]);
        if (0..3).any(|k| most[k] > of[k]) {
            return None;
        }
        let part = |k: usize, numbers: &'a [u32]| numbers.get(of[3 + k] as usize..of[3 + k] as usize + of[k] as usize);
        let numbers = [part(0, &t.face_numbers)?, part(1, &t.curve_numbers)?];
        // the first layer is that of the block before it
        let [mx, my, _] = cutting.intervals();
        let shared = [block % mx, block / mx % my, block / mx / my].map(|i| u32::from(i > 0));
        let plus = |more: [u32; 3]| [0, 1, 2].map(|a: usize| begin[a] + more[a]);
        Some(Source { job, map, begin, own: plus(shared), end: plus(sides), numbers })
    }

    fn is_own(&self, cell: [u32; 3]) -> bool {
        (0..3).all(|a| (self.own[a]..self.end[a]).contains(&cell[a]))
    }

    /// The final number of one of its cells; none where that cannot stand.
    fn number(&self, cell: [u32; 3]) -> Option<u32> {
        let [i, j, k] = [0, 1, 2].map(|a: usize| (cell[a] - self.begin[a]) as usize);
        let [w, h] = [0, 1].map(|a: usize| (self.end[a] - self.begin[a]) as usize);
        let (n, counts) = (self.map[i + w * (j + h * k)], self.job.counts());
        let last = |kind: usize, many: u32| match n {
            0 => Some(0),
            _ => Some(self.numbers[kind][n as usize - 1]).filter(|number| (1..=many).contains(number)),
        };
        match cell.iter().map(|c| c % 2).sum() {
            0 => Some(n),
            1 => last(0, counts.faces),
            2 => last(1, counts.curves),
            _ => {
                let [w, h, _] = self.job.cutting.extents.map(|n| 2 * u64::from(n) - 1);
                let [x, y, z] = cell.map(u64::from);
                let points = &self.job.tables.point_firsts[..counts.points as usize];
                Some(points.binary_search(&(x + w * (y + h * z))).map_or(0, |p| p as u32 + 1))
            }
        }
    }
}

/// Fills in the answers that are read from a block. The tests come first.
pub fn fill(job: &Job, cells: &Cells, block: usize, map: &[u32], answers: &mut [u32]) -> Option<()> {
    if !inside(&job.cutting, cells) || !fit(cells, answers.len()) {
        return None;
    }
    let source = Source::new(job, block, map)?;
    let own = || places(cells).enumerate().filter(|(_, cell)| source.is_own(*cell));
    own().next()?;
    if own().any(|(_, cell)| source.number(cell).is_none()) {
        return None;
    }
    own().for_each(|(i, cell)| answers[i] = source.number(cell).unwrap_or(0));
    Some(())
}
