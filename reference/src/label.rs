//! Numbering a block or a whole volume: breadth-first search over meeting cells with equal rows.
use crate::grid::{Extents, Grid, Row};
use crate::refusal::*;
use std::collections::VecDeque;

/// A face, curve or point: its first cell, and its row.
#[derive(Clone, Copy, PartialEq, Eq, Debug)]
pub struct Component {
    pub first: usize,
    pub row: Row,
}

/// What the numbering gives: the map, and the components of the orders 0, 1 and 2; number n stands at n − 1.
#[derive(Clone, PartialEq, Eq, Debug)]
pub struct Labelling {
    pub grid: Grid,
    pub map: Vec<u32>,
    pub components: [Vec<Component>; 3],
}

impl Labelling {
    /// How many faces, curves and points there are.
    pub fn counts(&self) -> [u32; 3] {
        [2, 1, 0].map(|j: usize| self.components[j].len() as u32)
    }
}

/// Numbers a volume. There is one code for each voxel, x fastest; 0 is outside the specimen.
pub fn number(extents: Extents, codes: &[u32]) -> Labelling {
    let grid = Grid::new(extents);
    assert_eq!(codes.len(), grid.voxels());
    let mut map = vec![0; grid.cells()];
    for (v, &code) in codes.iter().enumerate() {
        map[grid.voxel(v)] = code;
    }
    let mut components = [vec![], vec![], vec![]];
    for order in [2, 1, 0] {
        for seed in 0..grid.cells() {
            if map[seed] != 0 || grid.order(seed) != order {
                continue;
            }
            let row = grid.row(&map, seed);
            if row[0] == 0 {
                continue;
            }
            components[order].push(Component { first: seed, row });
            spread(&grid, &mut map, seed, row, components[order].len() as u32);
        }
    }
    Labelling { grid, map, components }
}

/// Gives a number to the seed and to all that a path of meeting cells with this row joins to it.
fn spread(grid: &Grid, map: &mut [u32], seed: usize, row: Row, number: u32) {
    map[seed] = number;
    let mut queue = VecDeque::from([seed]);
    while let Some(p) = queue.pop_front() {
        for t in grid.below(p) {
            for q in grid.above(t) {
                if map[q] == 0 && grid.row(map, q) == row {
                    map[q] = number;
                    queue.push_back(q);
                }
            }
        }
    }
}

/// The codes at the voxels of a map.
pub fn codes_of(grid: &Grid, map: &[u32]) -> Vec<u32> {
    (0..grid.voxels()).map(|v| map[grid.voxel(v)]).collect()
}

/// Whether a map is what labelling a block of these extents leaves.
pub fn is_labelling(extents: Extents, map: &[u32]) -> bool {
    let grid = Grid::new(extents);
    if map.len() != grid.cells() {
        return false;
    }
    number(extents, &codes_of(&grid, map)).map == map
}

/// The largest number of an order in a map.
pub fn largest(grid: &Grid, map: &[u32], order: usize) -> u32 {
    (0..map.len()).filter(|&p| grid.order(p) == order).map(|p| map[p]).max().unwrap_or(0)
}

/// The entry: labels one block; answers the counts of faces, curves and points, or a refusal.
pub fn label(codes: &[u32], extents: [u16; 3], map: &mut [u32], work: &mut [u32]) -> Result<[u32; 3], u32> {
    if extents.iter().any(|&n| n == 0 || n > 64) {
        return Err(OFF_SIZE);
    }
    let grid = Grid::new(extents.map(usize::from));
    if codes.len() != grid.voxels() || map.len() != grid.cells() || work.len() != grid.cells() {
        return Err(WRONG_TRAY);
    }
    let labelling = number(grid.extents, codes);
    map.copy_from_slice(&labelling.map);
    work.fill(0);
    Ok(labelling.counts())
}
