//! A whole volume labelled and joined from its codes in memory.
use crate::block::{Block, Counts};
use crate::cutting::Cutting;
use crate::error::{at, Error};
use crate::job::{Entries, Job};

/// The codes of a block, by those of the volume. Rows that the volume is too short for are left out, and then the block is not labelled.
pub fn block_codes(cutting: &Cutting, codes: &[u32], block: usize) -> Vec<u32> {
    let ([ox, oy, oz], [bx, by, bz]) = (cutting.origin(block).map(|c| c as usize), cutting.block_extents(block).map(usize::from));
    let [nx, ny, _] = cutting.extents.map(|n| n as usize);
    let mut part = Vec::with_capacity(bx * by * bz);
    for z in oz..oz + bz {
        for y in oy..oy + by {
            let row = (z * ny + y) * nx + ox;
            part.extend_from_slice(codes.get(row..row + bx).unwrap_or_default());
        }
    }
    part
}

/// The labelled blocks of a volume, with the counts of each.
pub fn label_blocks(cutting: &Cutting, codes: &[u32]) -> Result<Vec<(Block, Counts)>, Error> {
    let label = |b: usize| Block::label(cutting.block_extents(b), &block_codes(cutting, codes, b)).map_err(at(format_args!("block {b}")));
    (0..cutting.blocks()).map(label).collect()
}

/// Entries that suffice: the sums of the blocks' counts.
pub fn entries_for(blocks: &[(Block, Counts)]) -> Result<Entries, Error> {
    blocks.iter().try_fold(Entries::default(), |sum, (_, counts)| sum.plus(*counts)).ok_or(Error::TooMany)
}

/// Every step of a job in order. `from_back` takes blocks and seams from the last to the first.
pub fn run(job: &mut Job, blocks: &[(Block, Counts)], from_back: bool) -> Result<(), Error> {
    let (mut order, mut seams) = ((0..blocks.len() as u32).collect::<Vec<_>>(), job.cutting.seams());
    if from_back {
        order.reverse();
        seams.reverse();
    }
    let map = |b: u32| &blocks[b as usize].0.map[..];
    for &b in &order {
        job.enrol(b, map(b))?;
    }
    for &(lower, upper) in &seams {
        job.seam((lower, upper), map(lower), map(upper))?;
    }
    for &b in &order {
        job.crossing(b, map(b))?;
    }
    for &b in &order {
        job.point(b, map(b))?;
    }
    Ok(())
}
