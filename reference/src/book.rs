//! The day book: what the joiner must answer to a list of calls, from the uncut volume. It is fed what the opening and the
//! calls bring, never a job or tables, so the refusals that come from those (1, 2, 6 and 8 for job or tables) are not its own.
use crate::cutting::Cutting;
use crate::grid::{once, width, Grid, Place};
use crate::label::{is_labelling, largest, number, Labelling};
use crate::refusal::*;
use crate::strain::Side;
use std::collections::BTreeSet;

#[derive(Clone, Copy, PartialEq, Eq, Debug)]
pub enum Stage {
    Enrol,
    Seam,
    Crossing,
    Point,
    Closed,
}

#[derive(Clone, Copy, PartialEq, Eq, Debug)]
pub enum Kind {
    Face,
    Curve,
    Point,
}

impl Kind {
    pub fn order(self) -> usize {
        match self {
            Kind::Face => 2,
            Kind::Curve => 1,
            Kind::Point => 0,
        }
    }
}

/// A call of a step or of a reading. A cell is named by its place in the volume.
#[derive(Clone, Copy, Debug)]
pub enum Call<'a> {
    Enrol { block: usize, map: &'a [u32] },
    Seam { blocks: (usize, usize), maps: (&'a [u32], &'a [u32]) },
    Crossing { block: usize, map: &'a [u32] },
    Point { block: usize, map: &'a [u32] },
    Lookup { block: usize, map: &'a [u32], cell: Place },
    Row { kind: Kind, number: u32 },
}

/// What is to come of a call.
#[derive(Clone, PartialEq, Eq, Debug)]
pub enum Answer {
    Refused(u32),
    Done,
    Number(u32),
    Row(Vec<u32>),
    /// The two sides of a face, lower first.
    Totals([Side; 2]),
    /// How many blocks a list of cells needs, 0 of a filling, and what its tray holds afterwards.
    Tray(u32, Vec<u32>),
    /// A map that is not its block's, which neither the book nor the table of refusals stops as far as the map and what was
    /// enrolled tell. If the service accepts it, the list of calls is none that the book speaks of.
    Free,
}

/// Tables of a closed job: first positions and rows of faces, curves and points, each by number.
#[derive(Clone, PartialEq, Eq, Debug)]
pub struct Tables {
    pub faces: Vec<(u64, [u32; 2])>,
    pub curves: Vec<(u64, [u32; 4])>,
    pub points: Vec<(u64, [u32; 6])>,
}

pub struct Book {
    cutting: Cutting,
    /// How many entries the tables of faces, curves and points have.
    entries: [u32; 3],
    stage: Stage,
    /// What is done in this stage.
    ticked: BTreeSet<Step>,
    /// How many seams there are.
    seams: usize,
    maps: Vec<Option<Vec<u32>>>,
    /// Faces, curves and points so far.
    so_far: [u64; 3],
    /// The uncut volume, once the seams are done.
    uncut: Option<Labelling>,
}

/// What is ticked: a block, or the two of a seam.
#[derive(Clone, Copy, PartialEq, Eq, PartialOrd, Ord, Debug)]
enum Step {
    Block(usize),
    Seam(usize, usize),
}

impl Book {
    /// Opens the book, or gives refusal 1 or 2.
    pub fn open(cutting: Cutting, entries: [u32; 3]) -> Result<Book, u32> {
        let refusal = cutting.refusal();
        if refusal != 0 {
            return Err(refusal);
        }
        let (maps, seams) = (vec![None; cutting.blocks()], cutting.seams().len());
        Ok(Book { cutting, entries, stage: Stage::Enrol, ticked: BTreeSet::new(), seams, maps, so_far: [0; 3], uncut: None })
    }

    pub fn cutting(&self) -> &Cutting {
        &self.cutting
    }

    pub fn stage(&self) -> Stage {
        self.stage
    }

    pub fn closed(&self) -> bool {
        self.stage == Stage::Closed
    }

    /// Whether the maps of a call are those of their blocks: at enrolment any labelling, later the one enrolled.
    pub fn own(&self, call: &Call) -> bool {
        match *call {
            Call::Enrol { block, map } => block < self.maps.len() && is_labelling(self.cutting.grid(block).extents, map),
            _ => brought(call).iter().all(|&(block, map)| self.has(block, map)),
        }
    }

    /// Whether a map is the one enrolled for its block.
    pub(crate) fn has(&self, block: usize, map: &[u32]) -> bool {
        self.maps.get(block).is_some_and(|kept| kept.as_deref() == Some(map))
    }

    /// Enters a call and gives its answer.
    pub fn call(&mut self, call: &Call) -> Answer {
        let early = self.early(call);
        if early != 0 {
            return Answer::Refused(early);
        }
        let own = self.own(call);
        let late = self.late(call, own);
        if late != 0 {
            return Answer::Refused(late);
        }
        if !own {
            return Answer::Free;
        }
        match *call {
            Call::Enrol { block, map } => {
                let [faces, curves, _] = counts(&self.cutting.grid(block), map);
                self.so_far[0] += u64::from(faces);
                self.so_far[1] += u64::from(curves);
                self.maps[block] = Some(map.to_vec());
                self.tick(Step::Block(block))
            }
            Call::Seam { blocks: (a, b), .. } => self.tick(Step::Seam(a, b)),
            Call::Crossing { block, .. } => self.tick(Step::Block(block)),
            Call::Point { block, .. } => {
                self.so_far[2] += self.active(block);
                self.tick(Step::Block(block))
            }
            Call::Lookup { cell, .. } => Answer::Number(self.number_at(cell)),
            Call::Row { kind, number } => {
                let order = kind.order();
                Answer::Row(self.uncut().components[order][number as usize - 1].row[..width(order)].to_vec())
            }
        }
    }

    /// The tables of a closed job.
    pub fn tables(&self) -> Option<Tables> {
        if !self.closed() {
            return None;
        }
        let [points, curves, faces] = &self.uncut().components;
        Some(Tables {
            faces: faces.iter().map(|c| (c.first as u64, [c.row[0], c.row[1]])).collect(),
            curves: curves.iter().map(|c| (c.first as u64, [c.row[0], c.row[1], c.row[2], c.row[3]])).collect(),
            points: points.iter().map(|c| (c.first as u64, c.row)).collect(),
        })
    }

    /// The lowest of the refusals 3 to 6 that stands, or 0.
    fn early(&self, call: &Call) -> u32 {
        let (stage, step) = match *call {
            Call::Enrol { block, .. } => (Stage::Enrol, Some(Step::Block(block))),
            Call::Seam { blocks: (a, b), .. } => (Stage::Seam, Some(Step::Seam(a, b))),
            Call::Crossing { block, .. } => (Stage::Crossing, Some(Step::Block(block))),
            Call::Point { block, .. } => (Stage::Point, Some(Step::Block(block))),
            Call::Lookup { .. } | Call::Row { .. } => (Stage::Closed, None),
        };
        if self.stage != stage {
            return WRONG_STAGE;
        }
        if !self.placed(call) {
            return NO_SUCH_PLACE;
        }
        if step.is_some_and(|s| self.ticked.contains(&s)) {
            return DONE_ALREADY;
        }
        if brought(call).iter().any(|&(block, map)| map.len() != self.cutting.grid(block).cells()) {
            return WRONG_TRAY;
        }
        0
    }

    /// Whether there are such a block, seam, cell or component.
    fn placed(&self, call: &Call) -> bool {
        match *call {
            Call::Seam { blocks: (a, b), .. } => self.cutting.seam(a, b).is_some(),
            Call::Lookup { block, cell, .. } => block < self.cutting.blocks() && self.cutting.inside(block, cell).is_some(),
            Call::Row { kind, number } => number != 0 && number as usize <= self.uncut().components[kind.order()].len(),
            Call::Enrol { block, .. } | Call::Crossing { block, .. } | Call::Point { block, .. } => block < self.cutting.blocks(),
        }
    }

    /// The lowest of the refusals 8 to 10 that stands, or 0. Where the maps are the blocks' own, 8 never does.
    fn late(&self, call: &Call, own: bool) -> u32 {
        if !own && brought(call).iter().any(|&(block, map)| self.stray(block, map)) {
            return STRAY_LABEL;
        }
        match *call {
            Call::Seam { blocks, maps } if self.differ(blocks, maps) => LAYERS_DIFFER,
            Call::Enrol { block, map } => {
                let [faces, curves, _] = counts(&self.cutting.grid(block), map);
                let full = |k: usize, more: u32| self.so_far[k] + u64::from(more) > u64::from(self.entries[k]);
                if full(0, faces) || full(1, curves) {
                    TABLE_FULL
                } else {
                    0
                }
            }
            Call::Point { block, map } => {
                let more = if own { self.active(block) } else { self.found(block, map) };
                if self.so_far[2] + more > u64::from(self.entries[2]) {
                    TABLE_FULL
                } else {
                    0
                }
            }
            _ => 0,
        }
    }

    /// Whether a map has, its block enrolled, a number above the block's count.
    pub(crate) fn stray(&self, block: usize, map: &[u32]) -> bool {
        let grid = self.cutting.grid(block);
        let Some(kept) = &self.maps[block] else { return false };
        let (found, limit) = (counts(&grid, map), counts(&grid, kept));
        (0..3).any(|k| found[k] > limit[k])
    }

    /// Whether a code differs on the layer of a seam, or a cell is active on one side only.
    fn differ(&self, (a, b): (usize, usize), (low, high): (&[u32], &[u32])) -> bool {
        let (grid, other) = (self.cutting.grid(a), self.cutting.grid(b));
        let axis = self.cutting.seam(a, b).expect("a seam");
        (0..high.len()).any(|q| {
            let mut place = other.place(q);
            if place[axis] != 0 {
                return false;
            }
            place[axis] = grid.sides()[axis] - 1;
            let (u, v) = (low[grid.position(place)], high[q]);
            if other.order(q) == 3 {
                u != v
            } else {
                (u == 0) != (v == 0)
            }
        })
    }

    /// How many points of a block are active in the uncut volume.
    fn active(&self, block: usize) -> u64 {
        let (grid, uncut) = (self.cutting.grid(block), self.uncut());
        let points = (0..grid.cells()).filter(|&p| grid.order(p) == 0);
        points.filter(|&p| uncut.map[uncut.grid.position(self.cutting.outside(block, p))] != 0).count() as u64
    }

    /// How many points of a block a map makes active over the final curves, where its numbers stand for the curves that they
    /// have in the enrolled map.
    fn found(&self, block: usize, map: &[u32]) -> u64 {
        let (grid, uncut) = (self.cutting.grid(block), self.uncut());
        let kept = self.maps[block].as_ref().expect("enrolled");
        let mut curves = vec![0; kept.len() + 1];
        for p in (0..kept.len()).filter(|&p| grid.order(p) == 1 && kept[p] != 0) {
            curves[kept[p] as usize] = uncut.map[uncut.grid.position(self.cutting.outside(block, p))];
        }
        let active = |p: &usize| once(&grid.above(*p).iter().map(|&q| curves[map[q] as usize]).collect::<Vec<_>>())[0] != 0;
        (0..map.len()).filter(|&p| grid.order(p) == 0).filter(active).count() as u64
    }

    pub(crate) fn uncut(&self) -> &Labelling {
        self.uncut.as_ref().expect("the seams are done")
    }

    /// The number of a cell in the uncut volume.
    pub(crate) fn number_at(&self, cell: Place) -> u32 {
        let uncut = self.uncut();
        uncut.map[uncut.grid.position(cell)]
    }

    /// Ticks a step, and moves the stage where it was the last one.
    fn tick(&mut self, step: Step) -> Answer {
        self.ticked.insert(step);
        let steps = match self.stage {
            Stage::Seam => self.seams,
            _ => self.cutting.blocks(),
        };
        if self.ticked.len() == steps {
            self.ticked.clear();
            self.stage = match self.stage {
                Stage::Enrol if self.seams > 0 => Stage::Seam,
                Stage::Enrol | Stage::Seam => Stage::Crossing,
                Stage::Crossing => Stage::Point,
                Stage::Point | Stage::Closed => Stage::Closed,
            };
            if self.stage == Stage::Crossing {
                self.uncut = Some(number(self.cutting.extents, &self.codes()));
            }
        }
        Answer::Done
    }

    /// The codes of the volume: those of the enrolled maps, which agree.
    fn codes(&self) -> Vec<u32> {
        let volume = Grid::new(self.cutting.extents);
        let [nx, ny, _] = volume.extents;
        let mut codes = vec![None; volume.voxels()];
        for block in 0..self.cutting.blocks() {
            let (grid, map) = (self.cutting.grid(block), self.maps[block].as_ref().expect("enrolled"));
            for p in (0..grid.voxels()).map(|v| grid.voxel(v)) {
                let [x, y, z] = self.cutting.outside(block, p).map(|c| c / 2);
                let code = &mut codes[x + y * nx + z * nx * ny];
                assert!(code.is_none_or(|found| found == map[p]), "maps agree once the seams are done");
                *code = Some(map[p]);
            }
        }
        codes.into_iter().map(|code| code.expect("each voxel is in a block")).collect()
    }
}

/// The blocks that a call names, each with the map brought for it.
pub(crate) fn brought<'a>(call: &Call<'a>) -> Vec<(usize, &'a [u32])> {
    match *call {
        Call::Enrol { block, map } | Call::Crossing { block, map } | Call::Point { block, map } | Call::Lookup { block, map, .. } => vec![(block, map)],
        Call::Seam { blocks, maps } => vec![(blocks.0, maps.0), (blocks.1, maps.1)],
        Call::Row { .. } => vec![],
    }
}

/// The largest face, curve and point number of a map.
fn counts(grid: &Grid, map: &[u32]) -> [u32; 3] {
    [2, 1, 0].map(|j| largest(grid, map, j))
}

#[cfg(test)]
mod tests {
    use super::*;
    use crate::random::{cuts, volume, Random};
    use crate::volumes::{columns, core, figure, handle, hole, line, rings, space};

    fn block_maps(cutting: &Cutting, codes: &[u32]) -> Vec<Vec<u32>> {
        (0..cutting.blocks()).map(|b| number(cutting.grid(b).extents, &cutting.codes(b, codes)).map).collect()
    }

    const PLENTY: [u32; 3] = [u32::MAX; 3];

    /// Enters every step; blocks and seams come last first where asked.
    fn run(cutting: &Cutting, codes: &[u32], entries: [u32; 3], backwards: bool) -> (Book, Vec<Vec<u32>>) {
        let maps = block_maps(cutting, codes);
        let mut book = Book::open(cutting.clone(), entries).unwrap();
        let (mut blocks, mut seams): (Vec<_>, _) = ((0..cutting.blocks()).collect(), cutting.seams());
        if backwards {
            blocks.reverse();
            seams.reverse();
        }
        for &block in &blocks {
            assert_eq!(book.call(&Call::Enrol { block, map: &maps[block] }), Answer::Done);
        }
        for &(a, b) in &seams {
            assert_eq!(book.call(&Call::Seam { blocks: (a, b), maps: (&maps[a], &maps[b]) }), Answer::Done);
        }
        for &block in &blocks {
            assert_eq!(book.call(&Call::Crossing { block, map: &maps[block] }), Answer::Done);
        }
        for &block in &blocks {
            assert!(!book.closed() && book.tables().is_none());
            assert_eq!(book.found(block, &maps[block]), book.active(block));
            assert_eq!(book.call(&Call::Point { block, map: &maps[block] }), Answer::Done);
        }
        assert!(book.closed());
        (book, maps)
    }

    /// Runs a volume both ways and compares tables, lookups and rows with its uncut labelling.
    fn closes(cutting: &Cutting, codes: &[u32]) -> [u32; 3] {
        let uncut = number(cutting.extents, codes);
        for backwards in [false, true] {
            let entries = [u32::MAX, u32::MAX, uncut.components[0].len() as u32];
            let (mut book, maps) = run(cutting, codes, entries, backwards);
            let tables = book.tables().unwrap();
            assert_eq!([tables.faces.len(), tables.curves.len(), tables.points.len()].map(|n| n as u32), uncut.counts());
            for (block, map) in maps.iter().enumerate() {
                for p in 0..map.len() {
                    let cell = cutting.outside(block, p);
                    let answer = book.call(&Call::Lookup { block, map, cell });
                    assert_eq!(answer, Answer::Number(uncut.map[uncut.grid.position(cell)]));
                }
            }
            for (n, (position, row)) in tables.curves.iter().enumerate() {
                assert_eq!(*position as usize, uncut.components[1][n].first);
                assert_eq!(book.call(&Call::Row { kind: Kind::Curve, number: n as u32 + 1 }), Answer::Row(row.to_vec()));
            }
        }
        uncut.counts()
    }

    #[test]
    fn handle_and_rings() {
        let (cutting, codes) = handle();
        assert_eq!(closes(&cutting, &codes), [3, 1, 0]);
        let (cutting, codes) = rings();
        assert_eq!(closes(&cutting, &codes), [4, 2, 0]);
        // one block calls its point active, and the uncut volume does not
        let maps = block_maps(&cutting, &codes);
        assert_eq!(counts(&cutting.grid(4), &maps[4])[2], 1);
    }

    #[test]
    fn small_cut_volumes() {
        let (cutting, codes) = line();
        assert_eq!(closes(&cutting, &codes), [2, 0, 0]);
        let (cutting, codes) = columns();
        assert_eq!(closes(&cutting, &codes), [1, 0, 0]);
        let (cutting, codes) = figure();
        assert_eq!(closes(&cutting, &codes), [7, 2, 0]);
        assert_eq!(closes(&Cutting::whole([1, 1, 1]), &[9]), [0, 0, 0]);
        assert_eq!(closes(&Cutting::whole([2, 2, 2]), &[1, 2, 3, 4, 5, 6, 7, 8]), [12, 6, 1]);
    }

    #[test]
    fn volumes_with_zeros() {
        let (cutting, codes) = space();
        assert_eq!(closes(&cutting, &codes), [0; 3]);
        let (cutting, codes) = hole();
        assert_eq!(closes(&cutting, &codes), [1, 0, 0]);
        let (cutting, codes) = core();
        assert_eq!(closes(&cutting, &codes), [3, 1, 0]);
    }

    #[test]
    fn random_cut_volumes() {
        let mut random = Random::new(3);
        for _ in 0..100 {
            let extents = [0; 3].map(|_| 1 + random.below(4));
            let codes = volume(&mut random, extents);
            let cutting = Cutting { extents, cuts: extents.map(|n| cuts(&mut random, n)) };
            closes(&cutting, &codes);
        }
    }

    #[test]
    fn refusals_of_the_book() {
        let (cutting, codes) = line();
        let maps = block_maps(&cutting, &codes);
        let [first, second] = [&maps[0][..], &maps[1][..]];
        let mut book = Book::open(cutting, [2, 0, 0]).unwrap();
        let mut ask = |call: Call, answer: Answer| assert_eq!(book.call(&call), answer, "{call:?}");
        let refused = Answer::Refused;
        let seam = |blocks| Call::Seam { blocks, maps: (first, second) };
        ask(seam((0, 1)), refused(3));
        ask(Call::Row { kind: Kind::Face, number: 1 }, refused(3));
        ask(Call::Enrol { block: 2, map: first }, refused(4));
        ask(Call::Enrol { block: 1, map: &[2, 1] }, refused(6));
        ask(Call::Enrol { block: 1, map: &[2, 3, 1] }, refused(10));
        ask(Call::Enrol { block: 1, map: &[2, 2, 1] }, Answer::Free);
        ask(Call::Enrol { block: 1, map: second }, Answer::Done);
        ask(Call::Enrol { block: 1, map: &[] }, refused(5));
        ask(Call::Enrol { block: 0, map: first }, Answer::Done);
        ask(Call::Enrol { block: 0, map: first }, refused(3));
        for pair in [(1, 0), (0, 0), (0, 2), (1, 2)] {
            ask(seam(pair), refused(4));
        }
        ask(Call::Seam { blocks: (0, 1), maps: (&[1, 2, 2], second) }, refused(8));
        ask(Call::Seam { blocks: (0, 1), maps: (&[1, 1, 3], second) }, refused(9));
        ask(Call::Seam { blocks: (0, 1), maps: (&[1, 1, 0], second) }, refused(9));
        ask(Call::Seam { blocks: (0, 1), maps: (&[1, 0, 2], second) }, Answer::Free);
        ask(seam((0, 1)), Answer::Done);
        ask(seam((0, 1)), refused(3));
        ask(Call::Crossing { block: 0, map: first }, Answer::Done);
        ask(Call::Crossing { block: 0, map: first }, refused(5));
        ask(Call::Crossing { block: 1, map: &[2, 2, 1] }, refused(8));
        ask(Call::Crossing { block: 1, map: second }, Answer::Done);
        ask(Call::Point { block: 0, map: first }, Answer::Done);
        ask(Call::Point { block: 1, map: second }, Answer::Done);
        ask(Call::Lookup { block: 1, map: second, cell: [3, 0, 0] }, Answer::Number(2));
        ask(Call::Lookup { block: 1, map: second, cell: [1, 0, 0] }, refused(4));
        ask(Call::Lookup { block: 0, map: &[1], cell: [5, 0, 0] }, refused(4));
        ask(Call::Lookup { block: 0, map: &[1], cell: [1, 0, 0] }, refused(6));
        ask(Call::Lookup { block: 0, map: &[1, 2, 2], cell: [2, 0, 0] }, refused(8));
        ask(Call::Lookup { block: 0, map: &[0, 1, 2], cell: [2, 0, 0] }, Answer::Free);
        ask(Call::Row { kind: Kind::Face, number: 2 }, Answer::Row(vec![1, 2]));
        ask(Call::Row { kind: Kind::Face, number: 3 }, refused(4));
        ask(Call::Row { kind: Kind::Face, number: 0 }, refused(4));
        ask(Call::Row { kind: Kind::Point, number: 1 }, refused(4));
        ask(Call::Point { block: 1, map: second }, refused(3));
    }

    #[test]
    fn full_tables() {
        let (cutting, codes) = columns();
        let maps = block_maps(&cutting, &codes);
        let mut book = Book::open(cutting, [1, 0, 0]).unwrap();
        assert_eq!(book.call(&Call::Enrol { block: 1, map: &maps[1] }), Answer::Done);
        assert_eq!(book.call(&Call::Enrol { block: 0, map: &maps[0] }), Answer::Refused(10));

        let cube = Cutting::whole([2, 2, 2]);
        let map = number([2, 2, 2], &[1, 2, 3, 4, 5, 6, 7, 8]).map;
        let mut book = Book::open(cube, [12, 6, 0]).unwrap();
        assert_eq!(book.call(&Call::Enrol { block: 0, map: &map }), Answer::Done);
        assert_eq!(book.stage(), Stage::Crossing);
        let mut strange = map.clone();
        strange[13] = 2;
        assert_eq!(book.call(&Call::Crossing { block: 0, map: &strange }), Answer::Refused(8));
        assert_eq!(book.call(&Call::Crossing { block: 0, map: &map }), Answer::Done);
        assert_eq!(book.call(&Call::Point { block: 0, map: &map }), Answer::Refused(10));
        assert!(!book.closed());
    }

    #[test]
    fn layers_that_differ() {
        let (cutting, codes) = columns();
        let mut maps = block_maps(&cutting, &codes);
        maps[1] = number([2, 2, 1], &[1, 3, 1, 2]).map;
        let mut book = Book::open(cutting, PLENTY).unwrap();
        assert_eq!(book.call(&Call::Enrol { block: 0, map: &maps[0] }), Answer::Done);
        assert_eq!(book.call(&Call::Enrol { block: 1, map: &maps[1] }), Answer::Done);
        let seam = Call::Seam { blocks: (0, 1), maps: (&maps[0], &maps[1]) };
        assert_eq!(book.call(&seam), Answer::Refused(9));
        assert_eq!(book.stage(), Stage::Seam);
    }

    #[test]
    fn openings_refused() {
        assert_eq!(Book::open(Cutting { extents: [0, 1, 1], cuts: [vec![], vec![0], vec![0]] }, PLENTY).err(), Some(1));
        assert_eq!(Book::open(Cutting { extents: [65, 1, 1], cuts: [vec![0, 64], vec![0], vec![0]] }, PLENTY).err(), Some(2));
    }
}
