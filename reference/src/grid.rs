//! The grid of cells: positions, orders, neighbours, rows.

pub type Extents = [usize; 3];
pub type Place = [usize; 3];
pub type Row = [u32; 6];

/// The cell grid over a box of voxels.
#[derive(Clone, Copy, PartialEq, Eq, Debug)]
pub struct Grid {
    pub extents: Extents,
}

impl Grid {
    /// Every extent is 1 or more.
    pub fn new(extents: Extents) -> Grid {
        assert!(extents.iter().all(|&n| n > 0));
        Grid { extents }
    }

    pub fn sides(&self) -> Place {
        self.extents.map(|n| 2 * n - 1)
    }

    pub fn cells(&self) -> usize {
        self.sides().iter().product()
    }

    pub fn voxels(&self) -> usize {
        self.extents.iter().product()
    }

    pub fn position(&self, c: Place) -> usize {
        let [sx, sy, _] = self.sides();
        c[0] + c[1] * sx + c[2] * sx * sy
    }

    pub fn place(&self, p: usize) -> Place {
        let [sx, sy, _] = self.sides();
        [p % sx, p / sx % sy, p / (sx * sy)]
    }

    /// The cell of voxel v, counted with x fastest.
    pub fn voxel(&self, v: usize) -> usize {
        let [nx, ny, _] = self.extents;
        self.position([2 * (v % nx), 2 * (v / nx % ny), 2 * (v / (nx * ny))])
    }

    /// The voxel at a voxel's cell.
    pub fn voxel_at(&self, p: usize) -> usize {
        let ([x, y, z], [nx, ny, _]) = (self.place(p).map(|c| c / 2), self.extents);
        x + y * nx + z * nx * ny
    }

    pub fn order(&self, p: usize) -> usize {
        order(self.place(p))
    }

    /// The neighbours with an order one higher: one step along an odd axis. They are always inside.
    pub fn above(&self, p: usize) -> Vec<usize> {
        self.steps(p, 1)
    }

    /// The neighbours with an order one lower: one step along an even axis, where that is inside.
    pub fn below(&self, p: usize) -> Vec<usize> {
        self.steps(p, 0)
    }

    fn steps(&self, p: usize, parity: usize) -> Vec<usize> {
        let (c, sides) = (self.place(p), self.sides());
        let mut found = Vec::with_capacity(6);
        for axis in (0..3).filter(|&a| c[a] % 2 == parity) {
            let mut next = c;
            if c[axis] > 0 {
                next[axis] = c[axis] - 1;
                found.push(self.position(next));
            }
            if c[axis] + 1 < sides[axis] {
                next[axis] = c[axis] + 1;
                found.push(self.position(next));
            }
        }
        found
    }

    /// The row of a cell by the numbers of a map; six zeros at a voxel.
    pub fn row(&self, map: &[u32], p: usize) -> Row {
        once(&self.above(p).iter().map(|&q| map[q]).collect::<Vec<_>>())
    }
}

pub fn order(c: Place) -> usize {
    3 - c.iter().filter(|&&v| v % 2 == 1).count()
}

/// The nonzero numbers that occur exactly once, ascending, then zeros.
pub fn once(numbers: &[u32]) -> Row {
    let mut kept: Vec<u32> = numbers.iter().copied().filter(|&v| v != 0 && numbers.iter().filter(|&&u| u == v).count() == 1).collect();
    kept.sort_unstable();
    let mut row = [0; 6];
    row[..kept.len()].copy_from_slice(&kept);
    row
}

/// How many places a row of this order has: two, four or six.
pub fn width(order: usize) -> usize {
    6 - 2 * order
}

#[cfg(test)]
mod tests {
    use super::*;

    #[test]
    fn positions_and_places_undo_each_other() {
        let grid = Grid::new([2, 3, 4]);
        for p in 0..grid.cells() {
            assert_eq!(grid.position(grid.place(p)), p);
        }
        assert_eq!(grid.position([1, 2, 3]), 1 + 2 * 3 + 3 * 3 * 5);
        assert_eq!(Grid::new([1024; 3]).cells(), 8_577_357_823);
    }

    #[test]
    fn upper_neighbours_have_the_next_order() {
        let grid = Grid::new([3, 2, 3]);
        for p in 0..grid.cells() {
            let j = grid.order(p);
            let above = grid.above(p);
            assert_eq!(above.len(), 6 - 2 * j);
            for q in above {
                assert_eq!(grid.order(q), j + 1);
                assert!(grid.below(q).contains(&p));
            }
        }
    }

    #[test]
    fn a_row_has_what_occurs_once() {
        assert_eq!(once(&[3, 1, 3, 2]), [1, 2, 0, 0, 0, 0]);
        assert_eq!(once(&[0, 5]), [5, 0, 0, 0, 0, 0]);
        assert_eq!(once(&[7, 7]), [0; 6]);
        assert_eq!(once(&[6, 5, 4, 3, 2, 1]), [1, 2, 3, 4, 5, 6]);
    }
}
