//! The table "What the service declines" for a job and tables of anyone's making: the answer of each call of the joiner, whatever it is handed.
//! It works from the numbers alone and remembers no earlier call. Lengths of ways over links are remembered place by place, where the proved
//! code walks them.
use crate::book::{brought, Answer, Call, Kind};
use crate::cutting::Cutting;
use crate::grid::{once, width, Grid, Place, Row};
use crate::label::largest;
use crate::refusal::*;
use crate::strain::TotalTables;

/// The nineteen tables. In each list faces stand at 0, curves at 1, points at 2; points have no links.
#[derive(Clone, Copy, Debug)]
pub struct Tables<'a> {
    pub ticks: &'a [u32],
    pub blocks: &'a [u32],
    pub links: [&'a [u32]; 2],
    pub keys: [&'a [u64]; 3],
    pub rows: [&'a [u32]; 3],
    pub numbers: [&'a [u32]; 3],
    pub firsts: [&'a [u64]; 3],
    pub listed: [&'a [u32]; 3],
}

/// What a call finds: the job, the cutting and the tables.
#[derive(Clone, Debug)]
pub struct State<'a> {
    pub stage: u32,
    pub cutting: Cutting,
    pub entries: [u32; 3],
    /// Enrolled faces and curves, found points.
    pub so_far: [u32; 3],
    pub numbered: [u32; 3],
    pub tables: Tables<'a>,
}

/// What makes a call a stray one, refusal 8.
#[derive(Clone, Copy, PartialEq, Eq, PartialOrd, Ord, Debug)]
pub enum Stray {
    /// A tally is above its table's entries.
    Tally,
    /// A map has a number above its block's count.
    Map,
    /// The components of a block do not lie in their table.
    Place,
    /// A link on the way from a component of the block leads to none.
    Way,
    /// The ways are longer than the table, and a link before the block's last component leads to none.
    Below,
    /// At the last crossing: a link of an enrolled component leads to none.
    Enrolled,
    /// At the last crossing: a curve's row names a face outside the table.
    Row,
    /// A final number that is handed out or followed is none of the job's.
    Final,
    /// A total that is read has a sum or a count that cannot be.
    Total,
}

/// A refusal, and for 8 what was found.
pub type Declined = (u32, Option<Stray>);

impl<'a> State<'a> {
    /// The job by its thirteen numbers, with the cut lists.
    pub fn new(job: &[u32; 13], cuts: [&[u32]; 3], tables: Tables<'a>) -> State<'a> {
        let three = |from: usize| [job[from], job[from + 1], job[from + 2]];
        let cutting = Cutting { extents: three(1).map(|n| n as usize), cuts: cuts.map(|list| list.iter().map(|&c| c as usize).collect()) };
        State { stage: job[0], cutting, entries: three(4), so_far: three(7), numbered: three(10), tables }
    }

    /// The refusal of an opening that is told extents, cut lists and entries of this job, and lent these tables; 0 for none.
    pub fn opening(&self, totals: &TotalTables) -> u32 {
        match self.cutting.refusal() {
            0 if !(self.totals_fit(totals) && self.block_trays() && self.link_trays() && (0..3).all(|k| self.kind_trays(k))) => WRONG_TRAY,
            refusal => refusal,
        }
    }

    /// What a call answers.
    pub fn answer(&self, call: &Call) -> Answer {
        match (self.refusal(call), *call) {
            (0, Call::Lookup { block, map, cell }) => Answer::Number(self.looked_up(block, map, cell)),
            (0, Call::Row { kind, number }) => {
                let w = width(kind.order());
                Answer::Row(self.tables.listed[place_of(kind)][w * (number as usize - 1)..][..w].to_vec())
            }
            (0, _) => Answer::Done,
            (refusal, _) => Answer::Refused(refusal),
        }
    }

    /// The lowest refusal whose case stands, or 0. Each case may suppose that those before it do not stand.
    fn refusal(&self, call: &Call) -> u32 {
        let cut = self.cutting.refusal();
        if cut == OFF_SIZE || cut == BAD_CUT && !matches!(call, Call::Row { .. }) {
            return cut;
        }
        let cases: [(u32, &dyn Fn() -> bool); 7] = [
            (WRONG_STAGE, &|| self.stage != stage_of(call)),
            (NO_SUCH_PLACE, &|| !self.placed(call)),
            (DONE_ALREADY, &|| self.step(call).is_some_and(|step| self.ticked(step))),
            (WRONG_TRAY, &|| !self.fits(call)),
            (STRAY_LABEL, &|| self.stray(call).is_some()),
            (LAYERS_DIFFER, &|| matches!(*call, Call::Seam { blocks, maps } if self.differ(blocks, maps))),
            (TABLE_FULL, &|| self.full(call)),
        ];
        cases.iter().find(|(_, stands)| stands()).map_or(0, |&(refusal, _)| refusal)
    }

    /// The refusals 1 to 3 of a call that brings the cut lists to a closed job.
    pub(crate) fn closed(&self) -> Result<(), Declined> {
        match self.cutting.refusal() {
            0 if self.stage == 4 => Ok(()),
            0 => Err((WRONG_STAGE, None)),
            refusal => Err((refusal, None)),
        }
    }

    // ---- 4, 5: places and ticks

    fn placed(&self, call: &Call) -> bool {
        match *call {
            Call::Seam { blocks: (b, c), .. } => self.cutting.seam(b, c).is_some(),
            Call::Lookup { block, cell, .. } => block < self.cutting.blocks() && self.cutting.inside(block, cell).is_some(),
            Call::Row { kind, number } => (1..=self.numbered[place_of(kind)]).contains(&number),
            Call::Enrol { block, .. } | Call::Crossing { block, .. } | Call::Point { block, .. } => block < self.cutting.blocks(),
        }
    }

    /// The place of a step's tick: six for each block.
    pub(crate) fn step(&self, call: &Call) -> Option<usize> {
        match *call {
            Call::Enrol { block, .. } => Some(6 * block),
            Call::Seam { blocks: (b, c), .. } => self.cutting.seam(b, c).map(|axis| 6 * b + 1 + axis),
            Call::Crossing { block, .. } => Some(6 * block + 4),
            Call::Point { block, .. } => Some(6 * block + 5),
            Call::Lookup { .. } | Call::Row { .. } => None,
        }
    }

    pub(crate) fn ticked(&self, step: usize) -> bool {
        self.tables.ticks.get(step).is_some_and(|&tick| tick != 0)
    }

    // ---- 6: maps, and the tables that the call is lent

    pub(crate) fn fits(&self, call: &Call) -> bool {
        let maps = brought(call).iter().all(|&(block, map)| map.len() == self.cutting.grid(block).cells());
        maps && match call {
            Call::Enrol { .. } => self.block_trays() && self.link_trays() && self.found_trays(0) && self.found_trays(1),
            Call::Seam { .. } => self.block_trays() && self.link_trays(),
            Call::Crossing { .. } => self.block_trays() && self.link_trays() && self.kind_trays(0) && self.kind_trays(1),
            Call::Point { .. } => self.block_trays() && self.has(1, self.tables.numbers[1].len(), 1) && self.kind_trays(2),
            Call::Lookup { .. } => {
                self.block_trays() && (0..2).all(|k| self.has(k, self.tables.numbers[k].len(), 1)) && self.has(2, self.tables.firsts[2].len(), 1)
            }
            Call::Row { .. } => (0..3).all(|k| self.has(k, self.tables.listed[k].len(), places(k))),
        }
    }

    /// Whether a table of a kind has its length: so many places for each entry.
    fn has(&self, kind: usize, length: usize, places: usize) -> bool {
        length as u64 == u64::from(self.entries[kind]) * places as u64
    }

    fn block_trays(&self) -> bool {
        let blocks = self.cutting.blocks();
        self.tables.ticks.len() == 6 * blocks && self.tables.blocks.len() == 5 * blocks
    }

    fn link_trays(&self) -> bool {
        (0..2).all(|k| self.has(k, self.tables.links[k].len(), 1))
    }

    fn found_trays(&self, kind: usize) -> bool {
        self.has(kind, self.tables.keys[kind].len(), 1) && self.has(kind, self.tables.rows[kind].len(), places(kind))
    }

    fn kind_trays(&self, k: usize) -> bool {
        let t = &self.tables;
        self.found_trays(k) && self.has(k, t.numbers[k].len(), 1) && self.has(k, t.firsts[k].len(), 1) && self.has(k, t.listed[k].len(), places(k))
    }

    // ---- 8: stray labels, tallies and entries

    /// What makes a call a stray one that none of 1 to 6 refuses: the first case that is found.
    pub fn stray(&self, call: &Call) -> Option<Stray> {
        if let Some(tally) = self.stray_tally() {
            return Some(tally);
        }
        let enrolled = !matches!(call, Call::Enrol { .. });
        let named = brought(call).into_iter().find_map(|(block, map)| self.stray_block(block, map, enrolled));
        named.or_else(|| match *call {
            Call::Seam { blocks: (b, c), .. } => self.stray_links(b).or_else(|| self.stray_links(c)),
            Call::Crossing { block, .. } => self.stray_links(block).or_else(|| if self.last_crossing(block) { self.stray_enrolled() } else { None }),
            Call::Point { block, .. } => self.stray_numbers(block),
            Call::Lookup { block, map, cell } => self.stray_number(block, map, cell),
            Call::Enrol { .. } | Call::Row { .. } => None,
        })
    }

    /// A tally above its table's entries.
    pub(crate) fn stray_tally(&self) -> Option<Stray> {
        (0..3).any(|k| self.so_far[k].max(self.numbered[k]) > self.entries[k]).then_some(Stray::Tally)
    }

    /// The map of a block, and what the block table says of it.
    pub(crate) fn stray_block(&self, block: usize, map: &[u32], enrolled: bool) -> Option<Stray> {
        if !enrolled {
            return None;
        }
        let grid = self.cutting.grid(block);
        if (0..3).any(|order| largest(&grid, map, order) > self.tables.blocks[5 * block + 2 - order]) {
            return Some(Stray::Map);
        }
        let outside = |kind: usize| self.part(kind, block).1 > u64::from(self.entries[kind]);
        (outside(0) || outside(1)).then_some(Stray::Place)
    }

    /// The places of a block's faces or curves in their table: from the first on, up to before the second.
    pub(crate) fn part(&self, kind: usize, block: usize) -> (u64, u64) {
        let [count, from] = [kind, 3 + kind].map(|column| u64::from(self.tables.blocks[5 * block + column]));
        (from, from + count)
    }

    /// The links on the ways from a block's faces and curves to the first ones that they are joined to.
    fn stray_links(&self, block: usize) -> Option<Stray> {
        (0..2).find_map(|kind| {
            let (from, end) = self.part(kind, block);
            stray_ways(self.tables.links[kind], from as usize, end as usize)
        })
    }

    /// With the crossing of this block all are done.
    fn last_crossing(&self, block: usize) -> bool {
        (0..self.cutting.blocks()).all(|b| b == block || self.ticked(6 * b + 4))
    }

    /// What the last crossing follows besides: the links of all enrolled components, and the faces in the rows of curves.
    fn stray_enrolled(&self) -> Option<Stray> {
        let [faces, curves] = [0, 1].map(|k: usize| self.so_far[k] as usize);
        if leads_to_none(&self.tables.links[0][..faces]) || leads_to_none(&self.tables.links[1][..curves]) {
            return Some(Stray::Enrolled);
        }
        self.tables.rows[1][..4 * curves].iter().any(|&face| face > self.entries[0]).then_some(Stray::Row)
    }

    /// The final numbers of a block's curves.
    fn stray_numbers(&self, block: usize) -> Option<Stray> {
        let (from, end) = self.part(1, block);
        self.tables.numbers[1][from as usize..end as usize].iter().any(|n| !(1..=self.numbered[1]).contains(n)).then_some(Stray::Final)
    }

    /// The final number that a lookup hands out.
    pub(crate) fn stray_number(&self, block: usize, map: &[u32], cell: Place) -> Option<Stray> {
        let p = self.cutting.inside(block, cell).expect("a cell of the block");
        let kind = match self.cutting.grid(block).order(p) {
            2 => 0,
            1 => 1,
            _ => return None,
        };
        let stray = map[p] != 0 && !(1..=self.numbered[kind]).contains(&self.final_number(kind, block, map[p]));
        stray.then_some(Stray::Final)
    }

    // ---- 9: the cells that both blocks of a seam have

    fn differ(&self, (b, c): (usize, usize), (lower, upper): (&[u32], &[u32])) -> bool {
        let grid = self.cutting.grid(b);
        (0..lower.len()).any(|p| match self.cutting.inside(c, self.cutting.outside(b, p)) {
            Some(q) if grid.order(p) == 3 => lower[p] != upper[q],
            Some(q) => (lower[p] == 0) != (upper[q] == 0),
            None => false,
        })
    }

    // ---- 10: what a step adds to the tallies

    fn adds(&self, call: &Call) -> [u64; 3] {
        match *call {
            Call::Enrol { block, map } => {
                let grid = self.cutting.grid(block);
                [largest(&grid, map, 2).into(), largest(&grid, map, 1).into(), 0]
            }
            Call::Point { block, map } => [0, 0, self.points(block, map)],
            _ => [0; 3],
        }
    }

    fn full(&self, call: &Call) -> bool {
        let adds = self.adds(call);
        (0..3).any(|k| u64::from(self.so_far[k]) + adds[k] > u64::from(self.entries[k]))
    }

    /// How many point cells of a block are points over the final curves.
    fn points(&self, block: usize, map: &[u32]) -> u64 {
        let grid = self.cutting.grid(block);
        (0..map.len()).filter(|&p| grid.order(p) == 0 && self.final_row(block, map, p)[0] != 0).count() as u64
    }

    /// The row of a point cell over the final curves.
    pub(crate) fn final_row(&self, block: usize, map: &[u32], p: usize) -> Row {
        once(&self.cutting.grid(block).above(p).iter().map(|&q| self.final_number(1, block, map[q])).collect::<Vec<_>>())
    }

    // ---- readings

    /// The final number of number n of a block: 0 stays 0.
    fn final_number(&self, kind: usize, block: usize, n: u32) -> u32 {
        if n == 0 {
            0
        } else {
            self.tables.numbers[kind][self.part(kind, block).0 as usize + n as usize - 1]
        }
    }

    pub(crate) fn looked_up(&self, block: usize, map: &[u32], cell: Place) -> u32 {
        let p = self.cutting.inside(block, cell).expect("a cell of the block");
        match self.cutting.grid(block).order(p) {
            3 => map[p],
            2 => self.final_number(0, block, map[p]),
            1 => self.final_number(1, block, map[p]),
            _ => {
                let position = Grid::new(self.cutting.extents).position(cell) as u64;
                bisected(&self.tables.firsts[2][..self.numbered[2] as usize], position)
            }
        }
    }
}

/// The number that bisection finds for a position, in a list that need not ascend; 0 where it ends at another.
fn bisected(firsts: &[u64], position: u64) -> u32 {
    let mut rest = firsts;
    let mut before = 0;
    while !rest.is_empty() {
        let middle = rest.len() / 2;
        if rest[middle] < position {
            rest = &rest[middle + 1..];
            before += middle + 1;
        } else {
            rest = &rest[..middle];
        }
    }
    if firsts.get(before) == Some(&position) {
        before as u32 + 1
    } else {
        0
    }
}

/// Whether a link is longer than its place.
fn leads_to_none(links: &[u32]) -> bool {
    links.iter().enumerate().any(|(x, &link)| link as usize > x)
}

/// The ways from the places `from` up to before `end`: a link is how far back the parent stands, 0 for none before it. Links on these ways are looked
/// at, and if the ways together have more steps than the table has entries, all links before `end`.
fn stray_ways(links: &[u32], from: usize, end: usize) -> Option<Stray> {
    let mut steps: Vec<Option<u64>> = vec![None; end];
    let mut total = 0;
    for start in from..end {
        let (mut x, mut passed) = (start, vec![]);
        while steps[x].is_none() {
            let link = links[x] as usize;
            if link > x {
                return Some(Stray::Way);
            }
            if link == 0 {
                steps[x] = Some(0);
            } else {
                passed.push(x);
                x -= link;
            }
        }
        for &y in passed.iter().rev() {
            steps[y] = steps[y - links[y] as usize].map(|n| n + 1);
        }
        total += steps[start].expect("the way was gone");
    }
    (total > links.len() as u64 && leads_to_none(&links[..end])).then_some(Stray::Below)
}

/// The stage of a call by number.
fn stage_of(call: &Call) -> u32 {
    match call {
        Call::Enrol { .. } => 0,
        Call::Seam { .. } => 1,
        Call::Crossing { .. } => 2,
        Call::Point { .. } => 3,
        Call::Lookup { .. } | Call::Row { .. } => 4,
    }
}

/// The place of a kind in the lists of tables, tallies and entries.
fn place_of(kind: Kind) -> usize {
    2 - kind.order()
}

/// The places of a row.
fn places(kind: usize) -> usize {
    width(2 - kind)
}

#[cfg(test)]
mod tests {
    use super::*;
    use crate::random::Random;

    #[test]
    fn ways() {
        // place 3 leads to none; only ways that pass it are stray
        let links = [0, 1, 0, 9, 2, 1];
        assert_eq!(stray_ways(&links, 0, 3), None);
        assert_eq!(stray_ways(&links, 3, 4), Some(Stray::Way));
        assert_eq!(stray_ways(&links, 4, 6), None);
        assert_eq!(stray_ways(&links, 0, 6), Some(Stray::Way));
        assert_eq!(stray_ways(&[1], 0, 1), Some(Stray::Way));
        assert_eq!(stray_ways(&links, 6, 6), None);
    }

    #[test]
    fn long_ways() {
        // place 1 leads to none and lies on no way; places 5 to 9 take 4 + 5 + 6 + 7 + 8 steps
        let mut links = vec![0, 5, 2, 1, 1, 1, 1, 1, 1, 1];
        assert_eq!(stray_ways(&links, 5, 6), None);
        assert_eq!(stray_ways(&links, 5, 10), Some(Stray::Below));
        links[1] = 1;
        assert_eq!(stray_ways(&links, 5, 10), None);
        // just as many steps as entries: 4 + 5 of 9, and behind the block nothing is looked at
        let links = [0, 5, 2, 1, 1, 1, 1, 9, 9];
        assert_eq!(stray_ways(&links, 5, 7), None);
        assert_eq!(stray_ways(&links[..8], 5, 7), Some(Stray::Below));
        assert_eq!(stray_ways(&[0, 1, 1, 9], 0, 3), None);
    }

    /// The rule word for word: each way is walked by itself.
    fn walked(links: &[u32], from: usize, end: usize) -> bool {
        let mut steps = 0;
        for start in from..end {
            let mut x = start;
            while links[x] != 0 {
                if links[x] as usize > x {
                    return true;
                }
                x -= links[x] as usize;
                steps += 1;
            }
        }
        steps > links.len() && (0..end).any(|x| links[x] as usize > x)
    }

    #[test]
    fn ways_as_worded() {
        let mut random = Random::new(5);
        let mut stray = 0;
        for _ in 0..20_000 {
            let (least, most) = (random.below(2), 1 + random.below(3));
            let mut links: Vec<u32> = (0..1 + random.below(12)).map(|x| x.min(least + random.below(most)) as u32).collect();
            let at = random.below(links.len());
            links[at] = random.pick(&[links[at], at as u32, at as u32 + 1, u32::MAX]);
            let from = random.below(links.len() + 1);
            let end = from + random.below(links.len() + 1 - from);
            assert_eq!(stray_ways(&links, from, end).is_some(), walked(&links, from, end), "{links:?} {from} {end}");
            stray += usize::from(stray_ways(&links, from, end) == Some(Stray::Below));
        }
        assert!(stray > 50, "{stray}");
    }

    #[test]
    fn bisection() {
        assert_eq!(bisected(&[2, 4, 9], 4), 2);
        assert_eq!(bisected(&[2, 4, 9], 5), 0);
        assert_eq!(bisected(&[], 5), 0);
        // a list that does not ascend: the middle sends it the other way
        assert_eq!(bisected(&[9, 4, 2], 9), 0);
    }
}
