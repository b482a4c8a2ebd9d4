//! Cells that are looked up together.

/// The most cells of a list.
pub const MOST_CELLS: usize = 4096;

/// Cells by their places in the volume's cells, in any order, repeats allowed. The library takes their coordinates in three lists.
#[derive(Clone, PartialEq, Eq, Default, Debug)]
pub struct Cells {
    pub xs: Vec<u32>,
    pub ys: Vec<u32>,
    pub zs: Vec<u32>,
}

impl FromIterator<[u32; 3]> for Cells {
    fn from_iter<T: IntoIterator<Item = [u32; 3]>>(places: T) -> Cells {
        let mut cells = Cells::default();
        for [x, y, z] in places {
            cells.xs.push(x);
            cells.ys.push(y);
            cells.zs.push(z);
        }
        cells
    }
}
