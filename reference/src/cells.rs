//! Many cells looked up together (document 02, item 12). The block that a cell is read from is searched for among all blocks. The methods of [`Book`] tell from
//! the uncut volume what the two calls answer; those of [`State`] tell it for a job and tables of anyone's making.
use crate::book::{Answer, Book, Call};
use crate::cutting::{has, Cutting};
use crate::grid::{Grid, Place};
use crate::refusal::*;
use crate::table::{Declined, State};
use std::collections::BTreeSet;

/// The most cells of a list.
pub const MOST_CELLS: usize = 4096;

/// The cells of a call, by their coordinates in the volume, and the tray that it is lent: for the needed blocks, or for the answers.
#[derive(Clone, Copy, Debug)]
pub struct Cells<'a> {
    pub lists: [&'a [u32]; 3],
    pub tray: &'a [u32],
}

impl Cells<'_> {
    /// Each cell's place in the volume: as many as the shortest list has coordinates.
    fn places(&self) -> Vec<Place> {
        let [xs, ys, zs] = self.lists;
        xs.iter().zip(ys).zip(zs).map(|((&x, &y), &z)| [x, y, z].map(|c| c as usize)).collect()
    }

    /// Refusal 6 denies it: three lists of one length, not above the limit, and a tray with one place for each cell.
    fn fit(&self) -> bool {
        let [xs, ys, zs] = self.lists.map(<[u32]>::len);
        ys == xs && zs == xs && xs <= MOST_CELLS && self.tray.len() == xs
    }

    /// The block that each cell is read from, the lowest-numbered that has it: blocks in their order take the cells that none before them has. None if a cell lies
    /// outside the grid.
    fn sources(&self, cutting: &Cutting) -> Option<Vec<usize>> {
        let (cells, whole) = (self.places(), Grid::new(cutting.extents).sides().map(|side| 0..side));
        if !cells.iter().all(|&cell| has(&whole, cell)) {
            return None;
        }
        let (mut sources, mut left) = (vec![0; cells.len()], (0..cells.len()).collect::<Vec<_>>());
        for block in 0..cutting.blocks() {
            let span = cutting.span(block);
            let (taken, rest): (Vec<_>, Vec<_>) = left.into_iter().partition(|&i| has(&span, cells[i]));
            taken.into_iter().for_each(|i| sources[i] = block);
            left = rest;
        }
        Some(sources)
    }

    /// An accepted request: the needed blocks, each once and ascending, are the first of the tray.
    fn requested(&self, sources: &[usize]) -> Answer {
        let needed: BTreeSet<usize> = sources.iter().copied().collect();
        let mut tray = self.tray.to_vec();
        tray.iter_mut().zip(&needed).for_each(|(place, &block)| *place = block as u32);
        Answer::Tray(needed.len() as u32, tray)
    }

    /// An accepted filling: the answers of the cells that are read from the block, and no others.
    fn filled(&self, sources: &[usize], block: usize, number: impl Fn(Place) -> u32) -> Answer {
        let mut tray = self.tray.to_vec();
        for ((answer, cell), &from) in tray.iter_mut().zip(self.places()).zip(sources) {
            if from == block {
                *answer = number(cell);
            }
        }
        Answer::Tray(0, tray)
    }
}

impl Book {
    /// The numbers of the cells in the uncut volume, in the order sent: what the tray holds when every needed block has come.
    pub fn numbers(&self, cells: Cells) -> Vec<u32> {
        cells.places().into_iter().map(|cell| self.number_at(cell)).collect()
    }

    /// Which blocks are needed.
    pub fn request(&self, cells: Cells) -> Answer {
        if !self.closed() {
            return Answer::Refused(WRONG_STAGE);
        }
        match cells.sources(self.cutting()) {
            None => Answer::Refused(NO_SUCH_PLACE),
            Some(_) if !cells.fit() => Answer::Refused(WRONG_TRAY),
            Some(sources) => cells.requested(&sources),
        }
    }

    /// Fills in the answers that are read from a block.
    pub fn fill(&self, cells: Cells, block: usize, map: &[u32]) -> Answer {
        if !self.closed() {
            return Answer::Refused(WRONG_STAGE);
        }
        let Some(sources) = cells.sources(self.cutting()).filter(|sources| sources.contains(&block)) else {
            return Answer::Refused(NO_SUCH_PLACE);
        };
        if !cells.fit() || map.len() != self.cutting().grid(block).cells() {
            return Answer::Refused(WRONG_TRAY);
        }
        if self.has(block, map) {
            return cells.filled(&sources, block, |cell| self.number_at(cell));
        }
        if self.stray(block, map) {
            Answer::Refused(STRAY_LABEL)
        } else {
            Answer::Free
        }
    }
}

impl State<'_> {
    /// What a request answers; for a refusal 8 what was found.
    pub fn request(&self, cells: Cells) -> Result<Answer, Declined> {
        self.closed()?;
        let sources = cells.sources(&self.cutting).ok_or((NO_SUCH_PLACE, None))?;
        if !cells.fit() {
            return Err((WRONG_TRAY, None));
        }
        match self.stray_tally() {
            None => Ok(cells.requested(&sources)),
            stray => Err((STRAY_LABEL, stray)),
        }
    }

    /// What a filling answers; for a refusal 8 what was found. Tables, map and numbers are tested as those of a lookup.
    pub fn fill(&self, cells: Cells, block: usize, map: &[u32]) -> Result<Answer, Declined> {
        self.closed()?;
        let sources = cells.sources(&self.cutting).ok_or((NO_SUCH_PLACE, None))?;
        let own: Vec<Place> = cells.places().into_iter().zip(&sources).filter(|(_, &from)| from == block).map(|(cell, _)| cell).collect();
        let cell = *own.first().ok_or((NO_SUCH_PLACE, None))?;
        if !cells.fit() || !self.fits(&Call::Lookup { block, map, cell }) {
            return Err((WRONG_TRAY, None));
        }
        let number = || own.iter().find_map(|&cell| self.stray_number(block, map, cell));
        match self.stray_tally().or_else(|| self.stray_block(block, map, true)).or_else(number) {
            None => Ok(cells.filled(&sources, block, |cell| self.looked_up(block, map, cell))),
            stray => Err((STRAY_LABEL, stray)),
        }
    }
}

#[cfg(test)]
mod tests {
    use super::*;
    use crate::random::{cuts, volume, Random};
    use crate::table::{Stray, Tables};
    use crate::volumes::{closed, line};

    const STALE: u32 = 77;

    #[test]
    fn lists_are_answered() {
        let mut random = Random::new(12);
        for _ in 0..100 {
            let extents = [0; 3].map(|_| 1 + random.below(4));
            let cutting = Cutting { extents, cuts: extents.map(|n| cuts(&mut random, n)) };
            let (book, maps) = closed(&cutting, &volume(&mut random, extents));
            // some cells come twice, some not at all
            let many = random.below(60);
            let lists = Grid::new(extents).sides().map(|side| (0..many).map(|_| random.below(side) as u32).collect::<Vec<u32>>());
            let mut tray = vec![STALE; many];
            let lists = [0, 1, 2].map(|a: usize| &lists[a][..]);
            let Answer::Tray(count, needed) = book.request(Cells { lists, tray: &tray }) else { panic!("a request") };
            let (needed, rest) = needed.split_at(count as usize);
            assert!(needed.windows(2).all(|two| two[0] < two[1]) && rest.iter().all(|&place| place == STALE));
            for &block in needed.iter().rev() {
                let Answer::Tray(0, after) = book.fill(Cells { lists, tray: &tray }, block as usize, &maps[block as usize]) else { panic!("a filling") };
                let filled = (0..many).filter(|&i| cutting.lowest([0, 1, 2].map(|a: usize| lists[a][i] as usize)) == block as usize);
                assert!(filled.clone().next().is_some());
                filled.for_each(|i| tray[i] = after[i]);
                assert_eq!(tray, after);
            }
            assert_eq!(tray, book.numbers(Cells { lists, tray: &tray }));
        }
    }

    #[test]
    fn refusals_of_the_book() {
        let (cutting, codes) = line();
        let (book, maps) = closed(&cutting, &codes);
        let of = |xs: &[u32], places: usize| (xs.to_vec(), vec![0; xs.len()], vec![STALE; places]);
        let request = |xs: &[u32], places: usize| {
            let (xs, zeros, tray) = of(xs, places);
            book.request(Cells { lists: [&xs, &zeros, &zeros], tray: &tray })
        };
        let fill = |xs: &[u32], places: usize, block: usize, map: &[u32]| {
            let (xs, zeros, tray) = of(xs, places);
            book.fill(Cells { lists: [&xs, &zeros, &zeros], tray: &tray }, block, map)
        };
        let refused = Answer::Refused;
        assert_eq!(request(&[], 0), Answer::Tray(0, vec![]));
        assert_eq!(request(&[3, 2, 3], 3), Answer::Tray(2, vec![0, 1, STALE]));
        assert_eq!(request(&[3, 5], 9), refused(4));
        assert_eq!(request(&[3, 2, 3], 2), refused(6));
        assert_eq!(request(&[4; 4097], 4097), refused(6));
        assert_eq!(fill(&[3, 2, 3], 3, 1, &maps[1]), Answer::Tray(0, vec![2, STALE, 2]));
        assert_eq!(fill(&[2, 2], 2, 1, &maps[1]), refused(4));
        assert_eq!(fill(&[], 0, 0, &maps[0]), refused(4));
        assert_eq!(fill(&[3], 1, 2, &maps[1]), refused(4));
        assert_eq!(fill(&[3], 1, 1, &[2, 1]), refused(6));
        assert_eq!(fill(&[3], 1, 1, &[2, 2, 1]), refused(8));
        assert_eq!(fill(&[3], 1, 1, &[2, 0, 1]), Answer::Free);
        let open = Book::open(cutting, [2, 0, 0]).unwrap();
        assert_eq!(open.request(Cells { lists: [&[9], &[], &[]], tray: &[] }), refused(3));
        assert_eq!(open.fill(Cells { lists: [&[9], &[], &[]], tray: &[] }, 0, &[]), refused(3));
    }

    /// The closed job of `line`: its numbers, cut lists and the tables that a filling is lent.
    struct Line {
        job: [u32; 13],
        cuts: [Vec<u32>; 3],
        blocks: Vec<u32>,
        numbers: Vec<u32>,
    }

    impl Line {
        fn new() -> Line {
            let job = [4, 3, 1, 1, 2, 0, 0, 2, 0, 0, 2, 0, 0];
            Line { job, cuts: [vec![0, 1, 2], vec![0], vec![0]], blocks: vec![1, 0, 0, 0, 0, 1, 0, 0, 1, 0], numbers: vec![1, 2] }
        }

        /// A request of cells on the line, and the filling from block 1 with a map.
        fn ask(&self, xs: &[u32], map: &[u32]) -> [Result<Answer, Declined>; 2] {
            let tables = Tables {
                ticks: &[1; 12],
                blocks: &self.blocks,
                links: [&[], &[]],
                keys: [&[], &[], &[]],
                rows: [&[], &[], &[]],
                numbers: [&self.numbers, &[], &[]],
                firsts: [&[], &[], &[]],
                listed: [&[], &[], &[]],
            };
            let state = State::new(&self.job, [0, 1, 2].map(|a: usize| &self.cuts[a][..]), tables);
            let (zeros, tray) = (vec![0; xs.len()], vec![STALE; xs.len()]);
            let cells = Cells { lists: [xs, &zeros, &zeros], tray: &tray };
            [state.request(cells), state.fill(cells, 1, map)]
        }
    }

    #[test]
    fn refusals_of_any_state() {
        let (xs, map) = ([4, 2, 3], [2, 1, 1]);
        let [request, fill] = Line::new().ask(&xs, &map);
        assert_eq!(request, Ok(Answer::Tray(2, vec![0, 1, STALE])));
        assert_eq!(fill, Ok(Answer::Tray(0, vec![1, STALE, 2])));
        let refused = |change: &dyn Fn(&mut Line)| {
            let mut line = Line::new();
            change(&mut line);
            line.ask(&xs, &map).map(|answer| answer.err().map_or((0, None), |declined| declined))
        };
        let both = |n: u32, stray: Option<Stray>| [(n, stray); 2];
        let filling = |n: u32, stray: Option<Stray>| [(0, None), (n, stray)];
        assert_eq!(refused(&|line| line.job[2] = 0), both(1, None));
        assert_eq!(refused(&|line| line.cuts[0].clear()), both(2, None));
        assert_eq!(refused(&|line| line.job[0] = 5), both(3, None));
        assert_eq!(refused(&|line| line.numbers.push(1)), filling(6, None));
        assert_eq!(refused(&|line| line.job[10] = 3), both(8, Some(Stray::Tally)));
        assert_eq!(refused(&|line| line.blocks[5] = 0), filling(8, Some(Stray::Map)));
        assert_eq!(refused(&|line| line.blocks[8] = 2), filling(8, Some(Stray::Place)));
        assert_eq!(refused(&|line| line.numbers[1] = 3), filling(8, Some(Stray::Final)));
        // no cell that is read from block 1 hands out the number of face 1
        assert_eq!(refused(&|line| line.numbers[0] = 3), both(0, None));
        assert_eq!(Line::new().ask(&[4, 5], &map), [Err((4, None)), Err((4, None))]);
        assert_eq!(Line::new().ask(&[0, 2], &map)[1], Err((4, None)));
        assert_eq!(Line::new().ask(&[4; 4097], &map), [Err((6, None)), Err((6, None))]);
    }
}
