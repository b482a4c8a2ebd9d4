//! What an accepted opening or step leaves in the job and its tables, whatever they held. Links are told by which places are one, and the closed
//! tables up to their last component; the rest of both is left open by the rules.
use crate::book::Call;
use crate::grid::{once, width, Row};
use crate::label::largest;
use crate::table::State;
use std::collections::BTreeMap;

/// Job and tables afterwards. Faces stand at 0, curves at 1, points at 2.
#[derive(Clone, PartialEq, Eq, Debug)]
pub struct Outcome {
    pub stage: u32,
    pub so_far: [u32; 3],
    pub numbered: [u32; 3],
    pub ticks: Vec<u32>,
    pub blocks: Vec<u32>,
    /// For each place of the tables of links, the first place that it is one with.
    pub roots: [Vec<usize>; 2],
    pub keys: [Vec<u64>; 3],
    pub rows: [Vec<u32>; 3],
    pub numbers: [Vec<u32>; 3],
    /// As far as the rules tell them.
    pub firsts: [Vec<u64>; 3],
    pub listed: [Vec<u32>; 3],
}

/// The first place of each place's component. A link is a distance back; one longer than its place leads to place 0.
pub fn roots(links: &[u32]) -> Vec<usize> {
    let mut roots: Vec<usize> = Vec::with_capacity(links.len());
    for (x, &link) in links.iter().enumerate() {
        let parent = x.saturating_sub(link as usize);
        roots.push(if parent == x { x } else { roots[parent] });
    }
    roots
}

/// The roots with places joined in pairs: all of a class take its least root.
fn merged(roots: &[usize], pairs: &[(usize, usize)]) -> Vec<usize> {
    let mut least: BTreeMap<usize, usize> = BTreeMap::new();
    let mut changed = true;
    while changed {
        changed = false;
        for &(x, y) in pairs {
            let of = |z: usize| *least.get(&roots[z]).unwrap_or(&roots[z]);
            let (a, b) = (of(x), of(y));
            if a != b {
                least.insert(roots[x], a.min(b));
                least.insert(roots[y], a.min(b));
                changed = true;
            }
        }
    }
    roots.iter().map(|root| *least.get(root).unwrap_or(root)).collect()
}

impl State<'_> {
    /// Everything as it is.
    pub fn kept(&self) -> Outcome {
        let t = &self.tables;
        Outcome {
            stage: self.stage,
            so_far: self.so_far,
            numbered: self.numbered,
            ticks: t.ticks.to_vec(),
            blocks: t.blocks.to_vec(),
            roots: t.links.map(roots),
            keys: t.keys.map(<[u64]>::to_vec),
            rows: t.rows.map(<[u32]>::to_vec),
            numbers: t.numbers.map(<[u32]>::to_vec),
            firsts: t.firsts.map(<[u64]>::to_vec),
            listed: t.listed.map(<[u32]>::to_vec),
        }
    }

    /// What an accepted opening leaves: a job in its first stage, and no tick.
    pub fn opened(&self) -> Outcome {
        Outcome { stage: 0, so_far: [0; 3], numbered: [0; 3], ticks: vec![0; self.tables.ticks.len()], ..self.kept() }
    }

    /// What an accepted step leaves; a reading leaves everything as it is.
    pub fn outcome(&self, call: &Call) -> Outcome {
        let mut left = self.kept();
        let Some(tick) = self.step(call) else { return left };
        match *call {
            Call::Enrol { block, map } => self.enrol(block, map, &mut left),
            Call::Seam { blocks, maps } => self.seam(blocks, maps, &mut left),
            Call::Crossing { block, map } => self.cross(block, map, &mut left),
            Call::Point { block, map } => self.find_points(block, map, &mut left),
            Call::Lookup { .. } | Call::Row { .. } => {}
        }
        left.ticks[tick] = 1;
        left.stage = self.next_stage(tick);
        match (self.stage, left.stage) {
            (2, 3) => (0..2).for_each(|kind| self.number(kind, &mut left)),
            (3, 4) => self.number(2, &mut left),
            _ => {}
        }
        left
    }

    /// The stage after a step: the next one if it was the last.
    fn next_stage(&self, tick: usize) -> u32 {
        let (blocks, seams) = (0..self.cutting.blocks(), self.cutting.seams());
        let steps: Vec<usize> = match self.stage {
            0 => blocks.map(|b| 6 * b).collect(),
            1 => seams.iter().map(|&(b, c)| 6 * b + 1 + self.cutting.seam(b, c).expect("a seam")).collect(),
            2 => blocks.map(|b| 6 * b + 4).collect(),
            _ => blocks.map(|b| 6 * b + 5).collect(),
        };
        match steps.iter().all(|&step| step == tick || self.ticked(step)) {
            true if self.stage == 0 && seams.is_empty() => 2,
            true => self.stage + 1,
            false => self.stage,
        }
    }

    /// A position in the volume and a block in one number.
    fn key(&self, block: usize, p: usize) -> u64 {
        let volume = crate::grid::Grid::new(self.cutting.extents);
        volume.position(self.cutting.outside(block, p)) as u64 * 16_384 + block as u64
    }

    fn enrol(&self, block: usize, map: &[u32], left: &mut Outcome) {
        let grid = self.cutting.grid(block);
        let counts = [2, 1, 0].map(|order| largest(&grid, map, order));
        left.blocks[5 * block..5 * block + 5].copy_from_slice(&[counts[0], counts[1], counts[2], self.so_far[0], self.so_far[1]]);
        for kind in 0..2 {
            let from = self.so_far[kind] as usize;
            // the links are cleared, whatever led there
            let mut links = self.tables.links[kind].to_vec();
            links[from..from + counts[kind] as usize].fill(0);
            left.roots[kind] = roots(&links);
            let w = width(2 - kind);
            let cells = (0..map.len()).rev().filter(|&p| grid.order(p) == 2 - kind);
            let firsts: BTreeMap<u32, usize> = cells.map(|p| (map[p], p)).collect();
            for n in 1..=counts[kind] {
                let (x, first) = (from + n as usize - 1, firsts.get(&n).copied());
                let row: Row = first.map_or([0; 6], |p| grid.row(map, p));
                left.keys[kind][x] = first.map_or(block as u64, |p| self.key(block, p));
                let shifted = |face: u32| if kind == 0 || face == 0 { face } else { self.so_far[0] + face };
                (0..w).for_each(|i| left.rows[kind][w * x + i] = shifted(row[i]));
            }
            left.so_far[kind] += counts[kind];
        }
    }

    /// The place of number n of a block.
    fn node(&self, kind: usize, block: usize, n: u32) -> usize {
        self.part(kind, block).0 as usize + n as usize - 1
    }

    fn seam(&self, (b, c): (usize, usize), (lower, upper): (&[u32], &[u32]), left: &mut Outcome) {
        let grid = self.cutting.grid(b);
        let mut pairs = [vec![], vec![]];
        for (p, &n) in lower.iter().enumerate() {
            let kind = 2usize.wrapping_sub(grid.order(p));
            if let (0 | 1, Some(q)) = (kind, self.cutting.inside(c, self.cutting.outside(b, p))) {
                if n != 0 && upper[q] != 0 {
                    pairs[kind].push((self.node(kind, b, n), self.node(kind, c, upper[q])));
                }
            }
        }
        (0..2).for_each(|kind| left.roots[kind] = merged(&left.roots[kind], &pairs[kind]));
    }

    fn cross(&self, block: usize, map: &[u32], left: &mut Outcome) {
        let grid = self.cutting.grid(block);
        let through = |n: u32| if n == 0 { 0 } else { left.roots[0][self.node(0, block, n)] as u32 + 1 };
        let row = |q: usize| once(&grid.above(q).iter().map(|&f| through(map[f])).collect::<Vec<_>>());
        let mut pairs = vec![];
        for p in (0..map.len()).filter(|&p| grid.order(p) == 0) {
            let active: Vec<usize> = grid.above(p).into_iter().filter(|&q| map[q] != 0).collect();
            for (i, &q) in active.iter().enumerate() {
                pairs.extend(
                    active[..i].iter().filter(|&&other| row(other) == row(q)).map(|&other| (self.node(1, block, map[other]), self.node(1, block, map[q]))),
                );
            }
        }
        left.roots[1] = merged(&left.roots[1], &pairs);
    }

    fn find_points(&self, block: usize, map: &[u32], left: &mut Outcome) {
        let grid = self.cutting.grid(block);
        for p in (0..map.len()).filter(|&p| grid.order(p) == 0) {
            let row = self.final_row(block, map, p);
            if row[0] != 0 {
                let x = left.so_far[2] as usize;
                left.keys[2][x] = self.key(block, p);
                left.rows[2][6 * x..6 * x + 6].copy_from_slice(&row);
                left.so_far[2] += 1;
            }
        }
    }

    /// Numbers the components of a kind by their first ones: by key, then by place.
    fn number(&self, kind: usize, left: &mut Outcome) {
        let many = left.so_far[kind] as usize;
        let class = |x: usize| if kind == 2 { x } else { left.roots[kind][x] };
        let mut order: Vec<usize> = (0..many).collect();
        order.sort_by_key(|&x| (left.keys[kind][x], x));
        let mut numbers: BTreeMap<usize, u32> = BTreeMap::new();
        let mut heads = vec![];
        for x in order {
            numbers.entry(class(x)).or_insert_with(|| {
                heads.push(x);
                heads.len() as u32
            });
        }
        let ranks: Vec<u32> = (0..many).map(|x| numbers[&class(x)]).collect();
        left.numbers[kind][..many].copy_from_slice(&ranks);
        left.numbered[kind] = heads.len() as u32;
        left.firsts[kind] = heads.iter().map(|&x| left.keys[kind][x] / 16_384).collect();
        left.listed[kind] = heads.iter().flat_map(|&x| closed_row(kind, x, left)).collect();
    }
}

/// A component's row in the closed table: a curve's faces by final number, ascending.
fn closed_row(kind: usize, x: usize, left: &Outcome) -> Vec<u32> {
    let w = width(2 - kind);
    let row = &left.rows[kind][w * x..w * x + w];
    if kind != 1 {
        return row.to_vec();
    }
    let mut faces: Vec<u32> = row.iter().filter(|&&face| face != 0).map(|&face| left.numbers[0][face as usize - 1]).filter(|&n| n != 0).collect();
    faces.sort_unstable();
    faces.resize(4, 0);
    faces
}
