//! A volume cut into blocks that share a layer of voxels. Blocks count from 0, x fastest.

/// The extents of a volume, and a cut list for each axis: 0 first, the last voxel last, neighbours at most 63 apart.
#[derive(Clone, PartialEq, Eq, Debug)]
pub struct Cutting {
    pub extents: [u32; 3],
    pub lists: [Vec<u32>; 3],
}

impl Cutting {
    /// Blocks of at most `size` voxels on each axis, 2 or more; an axis of one voxel has the single cut 0.
    pub fn even(extents: [u32; 3], size: u32) -> Cutting {
        let step = size.max(2) as usize - 1;
        let list = |n: u32| {
            let mut list: Vec<u32> = (0..n.max(1) - 1).step_by(step).collect();
            list.push(n.max(1) - 1);
            list
        };
        Cutting { extents, lists: extents.map(list) }
    }

    /// How many intervals an axis has.
    pub fn intervals(&self) -> [usize; 3] {
        [0, 1, 2].map(|a: usize| self.lists[a].len().max(2) - 1)
    }

    /// How many blocks there are.
    pub fn blocks(&self) -> usize {
        self.intervals().iter().product()
    }

    fn interval(&self, block: usize) -> [usize; 3] {
        let [mx, my, _] = self.intervals();
        [block % mx, block / mx % my, block / (mx * my)]
    }

    /// The first voxel of a block in the volume.
    pub fn origin(&self, block: usize) -> [u32; 3] {
        let i = self.interval(block);
        [0, 1, 2].map(|a: usize| self.lists[a].get(i[a]).copied().unwrap_or(0))
    }

    /// The voxels of a block on each axis.
    pub fn block_extents(&self, block: usize) -> [u16; 3] {
        let (i, origin) = (self.interval(block), self.origin(block));
        [0, 1, 2].map(|a: usize| self.lists[a].get(i[a] + 1).map_or(1, |end| end.saturating_sub(origin[a]) as u16 + 1))
    }

    /// The pairs of blocks that share a side, lower block first.
    pub fn seams(&self) -> Vec<(u32, u32)> {
        let [mx, my, mz] = self.intervals();
        let mut seams = Vec::new();
        for b in 0..self.blocks() {
            let [i, j, k] = self.interval(b);
            for (more, step) in [(i + 1 < mx, 1), (j + 1 < my, mx), (k + 1 < mz, mx * my)] {
                if more {
                    seams.push((b as u32, (b + step) as u32));
                }
            }
        }
        seams
    }
}
