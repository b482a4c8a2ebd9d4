//! One block: its labelling, how many components it can have, its record, and its layers as text.
use crate::raw;
use crate::refusal::Refusal;

/// The cells of a grid of so many voxels, 0 where an extent is 0.
pub fn cells(extents: [usize; 3]) -> usize {
    extents.iter().map(|n| (2 * n).saturating_sub(1)).product()
}

/// A labelled block.
#[derive(Clone, PartialEq, Eq, Debug)]
pub struct Block {
    pub extents: [u16; 3],
    /// A number for each cell, x fastest: a voxel's code, 0 outside the specimen; a face's, curve's or point's number, 0 where inactive.
    pub map: Vec<u32>,
}

/// How many faces, curves and points there are.
#[derive(Clone, Copy, PartialEq, Eq, Debug, Default)]
pub struct Counts {
    pub faces: u32,
    pub curves: u32,
    pub points: u32,
}

impl Counts {
    /// The most faces, curves and points that a block of these extents can have: as many as with all codes different.
    pub fn most(extents: [u16; 3]) -> Result<Counts, Refusal> {
        let ([nx, ny, nz], mut counts) = (extents, [0; 3]);
        Refusal::check(raw::most_components(nx, ny, nz, &mut counts))?;
        Ok(Counts::from(counts))
    }

    /// Both together; none where a number would not fit.
    pub fn plus(self, other: Counts) -> Option<Counts> {
        let faces = self.faces.checked_add(other.faces)?;
        let curves = self.curves.checked_add(other.curves)?;
        let points = self.points.checked_add(other.points)?;
        Some(Counts { faces, curves, points })
    }
}

impl From<[u32; 3]> for Counts {
    fn from([faces, curves, points]: [u32; 3]) -> Counts {
        Counts { faces, curves, points }
    }
}

impl Block {
    /// Labels the codes of a block, x fastest.
    pub fn label(extents: [u16; 3], codes: &[u32]) -> Result<(Block, Counts), Refusal> {
        let [nx, ny, nz] = extents;
        let size = if extents.iter().all(|&n| (1..=64).contains(&n)) { cells(extents.map(usize::from)) } else { 0 };
        let (mut map, mut work, mut counts) = (vec![0; size], vec![0; size], [0; 3]);
        Refusal::check(raw::label(codes, nx, ny, nz, &mut map, &mut work, &mut counts))?;
        Ok((Block { extents, map }, Counts::from(counts)))
    }

    /// The record of the block, whose first voxel stands at `origin` in the volume.
    pub fn record(&self, origin: [u16; 3]) -> Result<Vec<u8>, Refusal> {
        let ([nx, ny, nz], [ox, oy, oz]) = (self.extents, origin);
        let numbers = self.map.iter().filter(|&&n| n != 0).count();
        let (mut tray, mut size) = (vec![0; 12 + self.map.len().div_ceil(8) + 4 * numbers], 0);
        Refusal::check(raw::write_record(nx, ny, nz, ox, oy, oz, &self.map, &mut tray, &mut size))?;
        tray.truncate(size);
        Ok(tray)
    }

    /// The block of a record, and its origin.
    pub fn read(record: &[u8]) -> Result<(Block, [u16; 3]), Refusal> {
        let field = |k: usize| record.get(2 * k..2 * k + 2).map_or(0, |b| usize::from(u16::from_le_bytes([b[0], b[1]])));
        let extents = [field(0), field(1), field(2)];
        let size = if extents.iter().all(|n| (1..=64).contains(n)) { cells(extents) } else { 0 };
        let (mut map, mut fields) = (vec![0; size], [0; 6]);
        Refusal::check(raw::read_record(record, &mut map, &mut fields))?;
        let [nx, ny, nz, ox, oy, oz] = fields;
        Ok((Block { extents: [nx, ny, nz], map }, [ox, oy, oz]))
    }

    /// Layer `z` of the block's cells as text, 0 to 2 n_z - 2: lines of 80 characters and a line end, 16 cells to a line, y = 0 first. A number stands
    /// right-aligned in 5 columns, 0 is a dot, above 99,999 are five hash signs. A wider layer goes on over further pages, left to right, each with all lines.
    pub fn print(&self, z: u32) -> Result<String, Refusal> {
        let [nx, ny, nz] = self.extents;
        let [width, height] = [nx, ny].map(|n| (2 * usize::from(n)).saturating_sub(1));
        let size = if self.extents.iter().all(|&n| (1..=64).contains(&n)) { 81 * height * width.div_ceil(16) } else { 0 };
        let mut tray = vec![0; size];
        Refusal::check(raw::print_layer(nx, ny, nz, z, &self.map, &mut tray))?;
        Ok(tray.into_iter().map(char::from).collect())
    }
}
