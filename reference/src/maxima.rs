//! The largest block (document 02, item 13): its cells counted one by one, and a search over blocks.
use crate::grid::Grid;
use crate::label::number;
use crate::random::{volume, Random};
use crate::refusal::OFF_SIZE;

/// Blocks of up to so many voxels are all tried: 21,147 of eight voxels.
const ALL: usize = 8;

/// The entry: the numbers of face, curve and point cells of a block, or a refusal.
pub fn most(extents: [u16; 3]) -> Result<[u32; 3], u32> {
    if extents.iter().any(|&n| n == 0 || n > 64) {
        return Err(OFF_SIZE);
    }
    let grid = Grid::new(extents.map(usize::from));
    let mut found = [0; 4];
    (0..grid.cells()).for_each(|p| found[grid.order(p)] += 1);
    Ok([found[2], found[1], found[0]])
}

/// The codes 1, 2, 3, ..
pub fn different(voxels: usize) -> Vec<u32> {
    (1..=voxels as u32).collect()
}

/// The most faces, curves and points of the blocks that are tried. Of a small block these are all, but for the names of the codes; of a larger one they are
/// the block with all codes different, blocks in which two voxels have one code, and random ones.
pub fn search(random: &mut Random, extents: [u16; 3]) -> [u32; 3] {
    let grid = Grid::new(extents.map(usize::from));
    let (voxels, mut most) = (grid.voxels(), [0; 3]);
    let mut attempt = |codes: &[u32]| {
        let counts = number(grid.extents, codes).counts();
        (0..3).for_each(|k| most[k] = most[k].max(counts[k]));
    };
    if voxels <= ALL {
        each_grouping(&mut vec![], voxels, &mut attempt);
        return most;
    }
    let mut codes = different(voxels);
    attempt(&codes);
    for _ in 0..20 {
        let v = random.below(voxels);
        let w = (v + 1 + random.below(voxels - 1)) % voxels;
        let code = codes[v];
        codes[v] = codes[w];
        attempt(&codes);
        codes[v] = code;
        attempt(&volume(random, grid.extents));
    }
    most
}

/// Every way to give codes to the voxels: a voxel has 0, the code of one before it, or the next new one.
fn each_grouping(codes: &mut Vec<u32>, voxels: usize, attempt: &mut impl FnMut(&[u32])) {
    if codes.len() == voxels {
        return attempt(codes);
    }
    for code in 0..=codes.iter().max().map_or(1, |&last| last + 1) {
        codes.push(code);
        each_grouping(codes, voxels, attempt);
        codes.pop();
    }
}

#[cfg(test)]
mod tests {
    use super::*;

    #[test]
    fn counted_and_found() {
        assert_eq!(most([64; 3]), Ok([774_144, 762_048, 250_047]));
        assert_eq!(most([2, 3, 4]), Ok([12 + 16 + 18, 12 + 9 + 8, 6]));
        assert_eq!(most([1; 3]), Ok([0; 3]));
        for extents in [[0, 1, 1], [1, 65, 1], [1, 1, 65_535]] {
            assert_eq!(most(extents), Err(OFF_SIZE));
        }
        let random = &mut Random::new(1);
        for extents in [[1, 1, 1], [2, 1, 3], [2, 2, 2], [4, 1, 2], [3, 2, 3]] {
            assert_eq!(Ok(search(random, extents)), most(extents));
        }
    }

    #[test]
    fn all_groupings() {
        let mut count = 0;
        each_grouping(&mut vec![], ALL, &mut |_| count += 1);
        assert_eq!(count, 21_147);
    }
}
