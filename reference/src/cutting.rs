//! Cutting a volume into blocks. Blocks count from 0, x fastest.
use crate::grid::{Extents, Grid, Place};
use crate::refusal::*;
use std::ops::Range;

/// A volume's extents, and a cut list for each axis.
#[derive(Clone, PartialEq, Eq, Debug)]
pub struct Cutting {
    pub extents: Extents,
    pub cuts: [Vec<usize>; 3],
}

fn good_list(n: usize, list: &[usize]) -> bool {
    list.first() == Some(&0) && list.last() == Some(&(n - 1)) && list.windows(2).all(|c| c[0] < c[1] && c[1] - c[0] <= 63)
}

fn count(list: &[usize]) -> usize {
    (list.len() - 1).max(1)
}

/// Whether a span has a cell.
pub fn has(span: &[Range<usize>; 3], cell: Place) -> bool {
    (0..3).all(|a| span[a].contains(&cell[a]))
}

impl Cutting {
    /// One block over the whole volume.
    pub fn whole(extents: Extents) -> Cutting {
        Cutting { extents, cuts: extents.map(|n| if n == 1 { vec![0] } else { vec![0, n - 1] }) }
    }

    /// Cut at every voxel layer.
    pub fn finest(extents: Extents) -> Cutting {
        Cutting { extents, cuts: extents.map(|n| (0..n).collect()) }
    }

    /// The refusals 1 and 2 of an opening, or 0.
    pub fn refusal(&self) -> u32 {
        if self.extents.iter().any(|&n| n == 0 || n > 1024) {
            return OFF_SIZE;
        }
        if (0..3).any(|a| !good_list(self.extents[a], &self.cuts[a])) || self.blocks() > 16384 {
            return BAD_CUT;
        }
        0
    }

    /// How many intervals each axis has.
    pub fn intervals(&self) -> Place {
        [0, 1, 2].map(|a: usize| count(&self.cuts[a]))
    }

    pub fn blocks(&self) -> usize {
        self.intervals().iter().product()
    }

    /// A block's interval on each axis.
    fn interval(&self, block: usize) -> Place {
        let [mx, my, _] = self.intervals();
        [block % mx, block / mx % my, block / (mx * my)]
    }

    /// A block's first voxel in the volume.
    pub fn origin(&self, block: usize) -> Place {
        let i = self.interval(block);
        [0, 1, 2].map(|a: usize| self.cuts[a][i[a]])
    }

    /// A block's grid.
    pub fn grid(&self, block: usize) -> Grid {
        let i = self.interval(block);
        Grid::new([0, 1, 2].map(|a: usize| match self.cuts[a].get(i[a] + 1) {
            Some(end) => end - self.cuts[a][i[a]] + 1,
            None => 1,
        }))
    }

    /// The axis on which the second block follows the first, if the pair is a seam.
    pub fn seam(&self, lower: usize, upper: usize) -> Option<usize> {
        if lower >= self.blocks() || upper >= self.blocks() {
            return None;
        }
        let (i, k) = (self.interval(lower), self.interval(upper));
        (0..3).find(|&axis| (0..3).all(|a| k[a] == i[a] + usize::from(a == axis)))
    }

    /// All seams, lower block first.
    pub fn seams(&self) -> Vec<(usize, usize)> {
        let [mx, my, _] = self.intervals();
        let next = |b: usize| [(0, b + 1), (1, b + mx), (2, b + mx * my)].map(|(axis, c)| (axis, b, c));
        (0..self.blocks()).flat_map(next).filter(|&(axis, b, c)| self.seam(b, c) == Some(axis)).map(|(_, b, c)| (b, c)).collect()
    }

    /// The lowest-numbered block that has a cell, named by its place in the volume.
    pub fn lowest(&self, cell: Place) -> usize {
        (0..self.blocks()).find(|&block| self.inside(block, cell).is_some()).expect("a cell of the volume")
    }

    /// The cells that a block has on each axis, by their places in the volume.
    pub fn span(&self, block: usize) -> [Range<usize>; 3] {
        let (origin, sides) = (self.origin(block), self.grid(block).sides());
        [0, 1, 2].map(|a: usize| 2 * origin[a]..2 * origin[a] + sides[a])
    }

    /// A cell's place in a block, by its place in the volume; none where it lies outside the block.
    pub fn inside(&self, block: usize, cell: Place) -> Option<usize> {
        let span = self.span(block);
        has(&span, cell).then(|| self.grid(block).position([0, 1, 2].map(|a: usize| cell[a] - span[a].start)))
    }

    /// A cell's place in the volume, by its position in a block.
    pub fn outside(&self, block: usize, p: usize) -> Place {
        let (origin, place) = (self.origin(block), self.grid(block).place(p));
        [0, 1, 2].map(|a: usize| place[a] + 2 * origin[a])
    }

    /// The codes of a block, by those of the volume.
    pub fn codes(&self, block: usize, codes: &[u32]) -> Vec<u32> {
        let (origin, grid) = (self.origin(block), self.grid(block));
        let [nx, ny, _] = self.extents;
        let voxel = |v: usize| {
            let c = grid.place(grid.voxel(v));
            let [x, y, z] = [0, 1, 2].map(|a: usize| c[a] / 2 + origin[a]);
            codes[x + y * nx + z * nx * ny]
        };
        (0..grid.voxels()).map(voxel).collect()
    }
}

#[cfg(test)]
mod tests {
    use super::*;

    fn cut(n: usize, list: &[usize]) -> u32 {
        Cutting { extents: [n, 1, 1], cuts: [list.to_vec(), vec![0], vec![0]] }.refusal()
    }

    #[test]
    fn cut_lists() {
        assert_eq!(cut(65, &[0, 64]), BAD_CUT);
        assert_eq!(cut(65, &[0, 63, 64]), 0);
        assert_eq!(cut(64, &[0, 63]), 0);
        assert_eq!(cut(1, &[0]), 0);
        assert_eq!(cut(1, &[]), BAD_CUT);
        assert_eq!(cut(1, &[0, 0]), BAD_CUT);
        assert_eq!(cut(2, &[0]), BAD_CUT);
        assert_eq!(cut(3, &[0, 1]), BAD_CUT);
        assert_eq!(cut(3, &[1, 2]), BAD_CUT);
        assert_eq!(cut(4, &[0, 2, 1, 3]), BAD_CUT);
        assert_eq!(cut(0, &[]), OFF_SIZE);
        assert_eq!(cut(1025, &[0]), OFF_SIZE);
        assert_eq!(Cutting::finest([129, 129, 1]).refusal(), 0);
        assert_eq!(Cutting::finest([129, 130, 1]).refusal(), BAD_CUT);
    }

    #[test]
    fn blocks_and_seams() {
        let line = Cutting { extents: [3, 1, 1], cuts: [vec![0, 1, 2], vec![0], vec![0]] };
        assert_eq!(line.seams(), [(0, 1)]);
        assert!([(1, 0), (0, 0), (0, 2), (1, 2)].iter().all(|&(a, b)| line.seam(a, b).is_none()));
        assert_eq!(line.codes(1, &[5, 6, 7]), [6, 7]);
        assert_eq!(Cutting::finest([1, 1, 4]).seams(), [(0, 1), (1, 2)]);
        let cube = Cutting::finest([3, 3, 3]);
        assert_eq!((cube.blocks(), cube.seams().len()), (8, 12));
        assert_eq!((cube.origin(5), cube.grid(5).extents), ([1, 0, 1], [2, 2, 2]));
        for b in 0..8 {
            for p in 0..cube.grid(b).cells() {
                assert_eq!(cube.inside(b, cube.outside(b, p)), Some(p));
            }
        }
        assert_eq!(cube.inside(7, [1, 2, 2]), None);
        assert_eq!(cube.inside(0, [0, 3, 0]), None);
    }
}
