//! A joining job with its tables.
use crate::block::Counts;
use crate::cell_list::{Cells, MOST_CELLS};
use crate::cutting::Cutting;
use crate::error::Error;
use crate::raw;
use crate::refusal::Refusal;
use crate::strain::{Readings, Side, Sums, Totals};
use std::collections::BTreeSet;

/// What the job goes through.
#[derive(Clone, Copy, PartialEq, Eq, Debug)]
pub enum Stage {
    Enrol,
    Seam,
    Crossing,
    Points,
    Closed,
}

#[derive(Clone, Copy, PartialEq, Eq, Debug)]
pub enum Kind {
    Face,
    Curve,
    Point,
}

impl Kind {
    /// The places of a row.
    pub fn width(self) -> usize {
        match self {
            Kind::Face => 2,
            Kind::Curve => 4,
            Kind::Point => 6,
        }
    }
}

/// How many entries the tables have.
pub type Entries = Counts;

/// The tables that are lent to the library: sized by blocks and components, never by voxels.
#[derive(Clone, PartialEq, Eq, Debug)]
pub struct Tables {
    pub ticks: Vec<u32>,
    pub blocks: Vec<u32>,
    pub face_links: Vec<u32>,
    pub curve_links: Vec<u32>,
    pub face_keys: Vec<u64>,
    pub curve_keys: Vec<u64>,
    pub point_keys: Vec<u64>,
    pub face_rows: Vec<u32>,
    pub curve_rows: Vec<u32>,
    pub point_rows: Vec<u32>,
    pub face_numbers: Vec<u32>,
    pub curve_numbers: Vec<u32>,
    pub point_numbers: Vec<u32>,
    pub face_firsts: Vec<u64>,
    pub curve_firsts: Vec<u64>,
    pub point_firsts: Vec<u64>,
    pub face_listed: Vec<u32>,
    pub curve_listed: Vec<u32>,
    pub point_listed: Vec<u32>,
    /// One for each block: not 0 once its readings have come.
    pub came: Vec<u32>,
    /// Two sums and six counts for each entry of the face table.
    pub face_sums: Sums,
    pub face_counts: Vec<u64>,
}

impl Tables {
    /// Tables of the stated sizes.
    pub fn new(blocks: usize, entries: Entries) -> Tables {
        let [f, c, p] = [entries.faces, entries.curves, entries.points].map(|n| n as usize);
        Tables {
            ticks: vec![0; 6 * blocks],
            blocks: vec![0; 5 * blocks],
            face_links: vec![0; f],
            curve_links: vec![0; c],
            face_keys: vec![0; f],
            curve_keys: vec![0; c],
            point_keys: vec![0; p],
            face_rows: vec![0; 2 * f],
            curve_rows: vec![0; 4 * c],
            point_rows: vec![0; 6 * p],
            face_numbers: vec![0; f],
            curve_numbers: vec![0; c],
            point_numbers: vec![0; p],
            face_firsts: vec![0; f],
            curve_firsts: vec![0; c],
            point_firsts: vec![0; p],
            face_listed: vec![0; 2 * f],
            curve_listed: vec![0; 4 * c],
            point_listed: vec![0; 6 * p],
            came: vec![0; blocks],
            face_sums: Sums(vec![0.0; 2 * f]),
            face_counts: vec![0; 6 * f],
        }
    }

    /// The bytes of all tables.
    pub fn bytes(&self) -> usize {
        let words = [&self.ticks, &self.blocks, &self.face_links, &self.curve_links, &self.face_rows, &self.curve_rows, &self.point_rows];
        let more = [&self.face_numbers, &self.curve_numbers, &self.point_numbers, &self.face_listed, &self.curve_listed, &self.point_listed, &self.came];
        let longs = [&self.face_keys, &self.curve_keys, &self.point_keys, &self.face_firsts, &self.curve_firsts, &self.point_firsts, &self.face_counts];
        4 * words.iter().chain(&more).map(|t| t.len()).sum::<usize>() + 8 * (longs.iter().map(|t| t.len()).sum::<usize>() + self.face_sums.0.len())
    }
}

/// The thirteen numbers that the library hands on, by name.
#[derive(Clone, Copy, PartialEq, Eq, Debug)]
pub struct Numbers {
    pub stage: u32,
    pub extents: [u32; 3],
    pub entries: Entries,
    /// How many faces and curves are enrolled, and points found.
    pub tallies: Counts,
    /// How many faces, curves and points are numbered.
    pub counts: Counts,
}

impl From<[u32; 13]> for Numbers {
    fn from(numbers: [u32; 13]) -> Numbers {
        let three = |from: usize| [0, 1, 2].map(|i: usize| numbers[from + i]);
        Numbers { stage: numbers[0], extents: three(1), entries: three(4).into(), tallies: three(7).into(), counts: three(10).into() }
    }
}

impl From<Numbers> for [u32; 13] {
    fn from(numbers: Numbers) -> [u32; 13] {
        let Numbers { stage, extents: [nx, ny, nz], entries: e, tallies: t, counts: c } = numbers;
        [stage, nx, ny, nz, e.faces, e.curves, e.points, t.faces, t.curves, t.points, c.faces, c.curves, c.points]
    }
}

/// A job: its numbers, with the cutting and the tables that are lent with each call.
#[derive(Clone, PartialEq, Eq, Debug)]
pub struct Job {
    numbers: [u32; 13],
    pub cutting: Cutting,
    pub tables: Tables,
}

impl Job {
    /// Opens a job in tables that may hold another job's numbers. The tables are handed back with a refusal.
    pub fn open_in(cutting: Cutting, entries: Entries, mut tables: Tables) -> Result<Job, (Refusal, Box<Tables>)> {
        let mut numbers = [0; 13];
        let ([nx, ny, nz], [cx, cy, cz], t) = (cutting.extents, &cutting.lists, &mut tables);
        let answer = raw::open(
            &mut numbers,
            nx,
            ny,
            nz,
            entries.faces,
            entries.curves,
            entries.points,
            cx,
            cy,
            cz,
            &mut t.ticks,
            &t.blocks,
            &t.face_links,
            &t.curve_links,
            &t.face_keys,
            &t.curve_keys,
            &t.point_keys,
            &t.face_rows,
            &t.curve_rows,
            &t.point_rows,
            &t.face_numbers,
            &t.curve_numbers,
            &t.point_numbers,
            &t.face_firsts,
            &t.curve_firsts,
            &t.point_firsts,
            &t.face_listed,
            &t.curve_listed,
            &t.point_listed,
            &mut t.came,
            &mut t.face_sums.0,
            &mut t.face_counts,
        );
        match Refusal::check(answer) {
            Ok(()) => Ok(Job { numbers, cutting, tables }),
            Err(refusal) => Err((refusal, Box::new(tables))),
        }
    }

    /// Opens a job in new tables.
    pub fn open(cutting: Cutting, entries: Entries) -> Result<Job, Refusal> {
        let tables = Tables::new(cutting.blocks().min(16_384), entries);
        Job::open_in(cutting, entries, tables).map_err(|(refusal, _)| refusal)
    }

    /// Enrols a block with its map.
    pub fn enrol(&mut self, block: u32, map: &[u32]) -> Result<(), Refusal> {
        let ([cx, cy, cz], t) = (&self.cutting.lists, &mut self.tables);
        Refusal::check(raw::enrol(
            &mut self.numbers,
            cx,
            cy,
            cz,
            &mut t.ticks,
            &mut t.blocks,
            &mut t.face_links,
            &mut t.curve_links,
            &mut t.face_keys,
            &mut t.curve_keys,
            &mut t.face_rows,
            &mut t.curve_rows,
            block,
            map,
        ))
    }

    /// Joins two neighbouring blocks, lower first, at the layer that they share.
    pub fn seam(&mut self, (lower, upper): (u32, u32), lower_map: &[u32], upper_map: &[u32]) -> Result<(), Refusal> {
        let ([cx, cy, cz], t) = (&self.cutting.lists, &mut self.tables);
        Refusal::check(raw::seam(
            &mut self.numbers,
            cx,
            cy,
            cz,
            &mut t.ticks,
            &t.blocks,
            &mut t.face_links,
            &mut t.curve_links,
            lower,
            upper,
            lower_map,
            upper_map,
        ))
    }

    /// Joins the curves of a block at its point cells. The last crossing numbers faces and curves.
    pub fn crossing(&mut self, block: u32, map: &[u32]) -> Result<(), Refusal> {
        let ([cx, cy, cz], t) = (&self.cutting.lists, &mut self.tables);
        Refusal::check(raw::crossing(
            &mut self.numbers,
            cx,
            cy,
            cz,
            &mut t.ticks,
            &t.blocks,
            &mut t.face_links,
            &mut t.curve_links,
            &t.face_keys,
            &t.curve_keys,
            &t.face_rows,
            &t.curve_rows,
            &mut t.face_numbers,
            &mut t.curve_numbers,
            &mut t.face_firsts,
            &mut t.curve_firsts,
            &mut t.face_listed,
            &mut t.curve_listed,
            block,
            map,
        ))
    }

    /// Finds the points of a block. The last point step numbers them and closes the job.
    pub fn point(&mut self, block: u32, map: &[u32]) -> Result<(), Refusal> {
        let ([cx, cy, cz], t) = (&self.cutting.lists, &mut self.tables);
        Refusal::check(raw::point(
            &mut self.numbers,
            cx,
            cy,
            cz,
            &mut t.ticks,
            &t.blocks,
            &t.curve_numbers,
            &mut t.point_keys,
            &mut t.point_rows,
            &mut t.point_numbers,
            &mut t.point_firsts,
            &mut t.point_listed,
            block,
            map,
        ))
    }

    /// The final number of a cell, named by its place in the volume's cells: 0 where inactive, the code at a voxel.
    pub fn lookup(&self, block: u32, map: &[u32], [x, y, z]: [u32; 3]) -> Result<u32, Refusal> {
        let ([cx, cy, cz], t, mut number) = (&self.cutting.lists, &self.tables, 0);
        Refusal::check(raw::lookup(
            &self.numbers,
            cx,
            cy,
            cz,
            &t.ticks,
            &t.blocks,
            &t.face_numbers,
            &t.curve_numbers,
            &t.point_firsts,
            block,
            map,
            x,
            y,
            z,
            &mut number,
        ))?;
        Ok(number)
    }

    /// The blocks that cells are read from, each once, ascending. A cell in several blocks is read from the lowest-numbered one. At most 4,096 cells.
    pub fn needed_blocks(&self, cells: &Cells) -> Result<Vec<u32>, Refusal> {
        let ([cx, cy, cz], mut needed, mut count) = (&self.cutting.lists, vec![0; cells.xs.len()], 0);
        Refusal::check(raw::request_blocks(&self.numbers, cx, cy, cz, &cells.xs, &cells.ys, &cells.zs, &mut needed, &mut count))?;
        needed.truncate(count as usize);
        Ok(needed)
    }

    /// Fills in the final numbers of the cells that are read from a needed block, by its map: one place for each cell. The other answers stay.
    pub fn fill_cells(&self, cells: &Cells, block: u32, map: &[u32], answers: &mut [u32]) -> Result<(), Refusal> {
        let ([cx, cy, cz], t) = (&self.cutting.lists, &self.tables);
        Refusal::check(raw::fill_cells(
            &self.numbers,
            cx,
            cy,
            cz,
            &t.ticks,
            &t.blocks,
            &t.face_numbers,
            &t.curve_numbers,
            &t.point_firsts,
            &cells.xs,
            &cells.ys,
            &cells.zs,
            block,
            map,
            answers,
        ))
    }

    /// The final numbers of any number of cells, in their order. `map` gives the map of a block; it is asked for each needed block once, ascending, and for none
    /// if a cell is outside the volume. The library is handed at most 4,096 cells at a time.
    pub fn lookup_all<M: AsRef<[u32]>>(&self, cells: &[[u32; 3]], mut map: impl FnMut(u32) -> Result<M, Error>) -> Result<Vec<u32>, Error> {
        // an empty list too is declined by a job that is not closed
        self.needed_blocks(&Cells::default())?;
        let pieces: Vec<Cells> = cells.chunks(MOST_CELLS).map(|piece| piece.iter().copied().collect()).collect();
        let needed = pieces.iter().map(|piece| self.needed_blocks(piece)).collect::<Result<Vec<_>, _>>()?;
        let mut answers = vec![0; cells.len()];
        for block in needed.iter().flatten().collect::<BTreeSet<_>>() {
            let map = map(*block)?;
            for ((piece, needed), answers) in pieces.iter().zip(&needed).zip(answers.chunks_mut(MOST_CELLS)) {
                if needed.binary_search(block).is_ok() {
                    self.fill_cells(piece, *block, map.as_ref(), answers)?;
                }
            }
        }
        Ok(answers)
    }

    /// The row of a face, curve or point: two codes (one and 0 at the outside), four face numbers or six curve numbers, ascending, then zeros.
    pub fn row(&self, kind: Kind, number: u32) -> Result<[u32; 6], Refusal> {
        let (t, mut row) = (&self.tables, [0; 6]);
        let read = match kind {
            Kind::Face => raw::face_row,
            Kind::Curve => raw::curve_row,
            Kind::Point => raw::point_row,
        };
        Refusal::check(read(&self.numbers, number, &t.face_listed, &t.curve_listed, &t.point_listed, &mut row))?;
        Ok(row)
    }

    /// Adds a block's readings to the totals of the faces: the block's map, and one reading for each of its voxels, x fastest.
    pub fn strain(&mut self, block: u32, map: &[u32], readings: &Readings) -> Result<(), Refusal> {
        let ([cx, cy, cz], t) = (&self.cutting.lists, &mut self.tables);
        Refusal::check(raw::strain(
            &self.numbers,
            cx,
            cy,
            cz,
            &t.blocks,
            &t.face_numbers,
            &mut t.came,
            &mut t.face_sums.0,
            &mut t.face_counts,
            block,
            map,
            &readings.values,
            &readings.kinds,
        ))
    }

    /// The totals of a face, once the readings of all blocks have come.
    pub fn total(&self, number: u32) -> Result<Totals, Refusal> {
        let ([cx, cy, cz], t, mut sums, mut counts) = (&self.cutting.lists, &self.tables, [0.0; 2], [0; 6]);
        Refusal::check(raw::total(&self.numbers, cx, cy, cz, &t.came, &t.face_sums.0, &t.face_counts, number, &mut sums, &mut counts))?;
        let side = |s: usize| Side { sum: sums[s], strains: counts[3 * s], clipped: counts[3 * s + 1], missing: counts[3 * s + 2] };
        Ok(Totals { lower: side(0), higher: side(1) })
    }

    /// Takes up a job that was kept elsewhere. Nothing is asked of its numbers: every call tests them.
    pub fn resume(numbers: Numbers, cutting: Cutting, tables: Tables) -> Job {
        Job { numbers: numbers.into(), cutting, tables }
    }

    /// The numbers of the job, to be kept.
    pub fn numbers(&self) -> Numbers {
        self.numbers.into()
    }

    /// The stage of the job, none where its number stands for no stage.
    pub fn stage(&self) -> Option<Stage> {
        [Stage::Enrol, Stage::Seam, Stage::Crossing, Stage::Points, Stage::Closed].get(self.numbers().stage as usize).copied()
    }

    /// How many faces, curves and points are numbered: those of the volume once the job is closed.
    pub fn counts(&self) -> Counts {
        self.numbers().counts
    }

    /// How many faces and curves are enrolled, and points found.
    pub fn tallies(&self) -> Counts {
        self.numbers().tallies
    }

    /// The first position of a face, curve or point of a closed job.
    pub fn first(&self, kind: Kind, number: u32) -> Option<u64> {
        let (firsts, many) = match kind {
            Kind::Face => (&self.tables.face_firsts, self.counts().faces),
            Kind::Curve => (&self.tables.curve_firsts, self.counts().curves),
            Kind::Point => (&self.tables.point_firsts, self.counts().points),
        };
        let place = number.checked_sub(1).filter(|_| number <= many)?;
        firsts.get(place as usize).copied()
    }
}
