//! Compares the proved joiner with the day book of the second implementation: compare_joins SEED CASES [--spoil WHAT].
//! A case is a random volume, a random cutting, tables of random sizes (plenty, just large enough, one too small) and a list of calls in random
//! order, among them calls with wrong maps, wrong blocks, wrong stages, disagreeing overlaps, lists of cells and bad strain readings. Compared are each call's
//! refusal, each reading's answer, totals by their bits, that a refused call leaves job and tables as they were, the closed tables, and the answers of lists of
//! cells with the uncut volume. With --spoil one answer to WHAT is changed before it is compared, which must be reported. Exits 1 if anything differs, and prints
//! the first difference.
use reference::book::{Answer, Book, Call, Kind as BookKind};
use reference::cells::Cells as BookCells;
use reference::cutting::Cutting as Cuts;
use reference::label::number;
use reference::random::{bad_reading, cuts, reading, volume, Random};
use reference::strain::{Lists, ReadingBook, Side as BookSide};
use std::collections::BTreeMap;
use std::fmt::Write;
use tugrelis::{Block, Cells, Cutting, Entries, Job, Kind, Readings, Refusal, Side, Stage, Tables, MOST_CELLS};

const WHATS: [&str; 12] = ["open", "step", "reading", "kept", "closed", "faces", "curves", "points", "strain", "total", "blocks", "cells"];

struct Comparison {
    random: Random,
    seed: u64,
    spoil: Option<String>,
    case: usize,
    calls: usize,
    closed: usize,
    differences: usize,
    given: BTreeMap<(&'static str, u32), usize>,
}

/// A case: what the job and the book are told and brought.
struct Case {
    cuts: Cuts,
    cutting: Cutting,
    maps: Vec<Vec<u32>>,
}

impl Comparison {
    /// Counts a difference; spoils an equality where asked.
    fn equal(&mut self, what: &'static str, same: bool, tell: &dyn Fn() -> String) {
        let spoiled = self.case >= 5 && self.spoil.as_deref() == Some(what);
        if spoiled {
            self.spoil = None;
        }
        if same != spoiled {
            return;
        }
        self.differences += 1;
        if self.differences == 1 {
            println!("compare_joins: seed {} case {}: {what} differs: {}", self.seed, self.case, tell());
        }
    }

    /// Counts a call by what is expected of it.
    fn count(&mut self, what: &'static str, expected: &Answer) {
        self.calls += 1;
        *self.given.entry((what, refusal(expected))).or_default() += 1;
    }

    /// A volume, a cutting and the labelled blocks. Some blocks are labelled from other codes, so that overlaps disagree.
    fn case(&mut self) -> Case {
        let random = &mut self.random;
        let extents = [0; 3].map(|_| 1 + random.below(6));
        let cuts = Cuts { extents, cuts: extents.map(|n| cuts(random, n)) };
        let codes = volume(random, extents);
        let mut other = codes.clone();
        if random.once_in(6) {
            let (at, from) = (random.below(codes.len()), random.below(codes.len()));
            other[at] = random.pick(&[0, codes[from] ^ 1 | 2]);
        }
        let label = |b: usize, codes: &[u32]| {
            let extents = cuts.grid(b).extents.map(|n| n as u16);
            Block::label(extents, &cuts.codes(b, codes)).expect("a block of small extents").0.map
        };
        let maps = (0..cuts.blocks()).map(|b| if random.once_in(4) { label(b, &other) } else { label(b, &codes) }).collect();
        let cutting = Cutting { extents: extents.map(|n| n as u32), lists: [0, 1, 2].map(|a: usize| cuts.cuts[a].iter().map(|&c| c as u32).collect()) };
        Case { cuts, cutting, maps }
    }

    /// Entries of the tables: plenty, just enough, or one less.
    fn entries(&mut self, case: &Case) -> Entries {
        let mut need = [0u32; 3];
        for (b, map) in case.maps.iter().enumerate() {
            let grid = case.cuts.grid(b);
            for (k, j) in [2, 1].into_iter().enumerate() {
                need[k] += reference::label::largest(&grid, map, j);
            }
        }
        let codes = self.uncut(case);
        need[2] = codes.map_or(0, |codes| number(case.cuts.extents, &codes).components[0].len() as u32);
        match self.random.below(8) {
            0 => need[self.random.below(3)] += 1,
            1 | 2 => {
                let k = self.random.below(3);
                need[k] = need[k].saturating_sub(1);
            }
            3 => need = need.map(|n| n + 3),
            _ => {}
        }
        Entries { faces: need[0], curves: need[1], points: need[2] }
    }

    /// The codes of the uncut volume, where the maps agree.
    fn uncut(&self, case: &Case) -> Option<Vec<u32>> {
        let [nx, ny, nz] = case.cuts.extents;
        let mut codes = vec![None; nx * ny * nz];
        for (b, map) in case.maps.iter().enumerate() {
            let grid = case.cuts.grid(b);
            for p in (0..grid.voxels()).map(|v| grid.voxel(v)) {
                let [x, y, z] = case.cuts.outside(b, p).map(|c| c / 2);
                let code = &mut codes[x + y * nx + z * nx * ny];
                if code.is_some_and(|found| found != map[p]) {
                    return None;
                }
                *code = Some(map[p]);
            }
        }
        codes.into_iter().collect()
    }

    /// A map for a block: mostly its own, sometimes shorter, longer or with a number changed.
    fn map(&mut self, case: &Case, block: usize) -> Vec<u32> {
        let random = &mut self.random;
        let mut map = case.maps.get(block).cloned().unwrap_or_else(|| vec![1; 3]);
        match random.below(40) {
            0 => map.push(1),
            1 => {
                map.pop();
            }
            2 | 3 => {
                let at = random.below(map.len());
                map[at] = random.pick(&[0, 1, 2, 3, map[at].wrapping_add(1), u32::MAX]);
            }
            _ => {}
        }
        map
    }

    /// Does a call on both sides. False where the book says nothing of it and the list ends here.
    fn call(&mut self, job: &mut Job, book: &mut Book, what: &'static str, call: &Call) -> bool {
        let before = job.clone();
        let proved = perform(job, call);
        let expected = book.call(call);
        self.calls += 1;
        if expected == Answer::Free {
            // the rules leave it to the tables: an acceptance ends the list, a refusal must be 8 or later and change nothing
            let late = matches!(proved, Answer::Refused(n) if n >= 8);
            if !late {
                return false;
            }
            self.equal("kept", before == *job, &|| format!("after a refusal of {call:?}"));
            return true;
        }
        *self.given.entry((what, refusal(&expected))).or_default() += 1;
        let reading = matches!(call, Call::Lookup { .. } | Call::Row { .. });
        self.equal(if reading { "reading" } else { "step" }, proved == expected, &|| {
            format!("{call:?} gave {proved:?}, the book says {expected:?}; job {:?} cutting {:?}", before.numbers(), before.cutting)
        });
        if reading || matches!(expected, Answer::Refused(_)) {
            self.equal("kept", before == *job, &|| format!("after {call:?}"));
        }
        self.equal("closed", book.closed() == (job.stage() == Some(Stage::Closed)), &|| format!("after {call:?}"));
        true
    }

    /// The steps of a stage in random order, some twice, some with wrong maps or blocks, and a few calls of other stages between.
    fn stage(&mut self, case: &Case, job: &mut Job, book: &mut Book) -> bool {
        let stage = job.stage().expect("a stage of an honest job");
        let mut steps: Vec<(usize, usize)> = match stage {
            Stage::Seam => case.cuts.seams(),
            _ => (0..case.cuts.blocks()).map(|b| (b, b)).collect(),
        };
        self.random.shuffle(&mut steps);
        let mut tries = 0;
        let mut at = 0;
        while at < steps.len() && tries < 4 * steps.len() + 8 {
            tries += 1;
            let (mut a, mut b) = steps[if at > 0 && self.random.once_in(6) { self.random.below(at) } else { at }];
            let planned = (a, b) == steps[at];
            let mut asked = stage;
            if self.random.once_in(25) {
                asked = self.random.pick(&[Stage::Enrol, Stage::Seam, Stage::Crossing, Stage::Points]);
            }
            if self.random.once_in(25) {
                a = self.random.below(case.cuts.blocks() + 2);
            }
            if self.random.once_in(25) {
                b = self.random.below(case.cuts.blocks() + 2);
            }
            let (one, two) = (self.map(case, a), self.map(case, b));
            let (what, call) = match asked {
                Stage::Enrol => ("enrol", Call::Enrol { block: a, map: &one }),
                Stage::Seam => ("seam", Call::Seam { blocks: (a, b), maps: (&one, &two) }),
                Stage::Crossing => ("crossing", Call::Crossing { block: a, map: &one }),
                _ => ("point", Call::Point { block: a, map: &one }),
            };
            let before = book.stage();
            if !self.call(job, book, what, &call) {
                return false;
            }
            if self.random.once_in(12) && !book.closed() {
                self.too_early(case, job, book, a, &one);
            }
            if book.stage() != before {
                return true;
            }
            if planned && asked == stage && (a, b) == steps[at] && book_has(book, case, &call) {
                at += 1;
            }
        }
        book.closed()
    }

    /// Calls that need a closed job.
    fn too_early(&mut self, case: &Case, job: &mut Job, book: &Book, block: usize, map: &[u32]) {
        let (mut none, lists) = (ReadingBook::new(case.cuts.blocks()), self.lists(2));
        self.strain(job, book, &mut none, block, map, &lists);
        self.total(job, book, &none, 1);
        let cells = self.asked(case);
        self.request(job, book, &cells);
        self.fill(job, book, &cells, block, map, &mut vec![7; cells.xs.len()]);
    }

    /// Every cell from every block, every row, and readings of what is not there.
    fn readings(&mut self, case: &Case, job: &mut Job, book: &mut Book) {
        for block in 0..case.cuts.blocks() {
            for p in 0..case.maps[block].len() {
                let call = Call::Lookup { block, map: &case.maps[block], cell: case.cuts.outside(block, p) };
                self.call(job, book, "lookup", &call);
            }
        }
        for _ in 0..8 {
            let block = self.random.below(case.cuts.blocks() + 1);
            let map = self.map(case, block);
            let cell = case.cuts.extents.map(|n| self.random.below(2 * n + 1));
            self.call(job, book, "lookup", &Call::Lookup { block, map: &map, cell });
        }
        let tables = book.tables().expect("closed");
        for (kind, many) in [(BookKind::Face, tables.faces.len()), (BookKind::Curve, tables.curves.len()), (BookKind::Point, tables.points.len())] {
            for number in 0..many as u32 + 2 {
                self.call(job, book, "row", &Call::Row { kind, number });
            }
        }
        let listed = |firsts: &[u64], rows: &[u32], w: usize, many: usize| -> Vec<(u64, Vec<u32>)> {
            (0..many).map(|i| (firsts[i], rows[w * i..w * i + w].to_vec())).collect()
        };
        let (t, counts) = (&job.tables, job.counts());
        let faces = listed(&t.face_firsts, &t.face_listed, 2, counts.faces as usize);
        let curves = listed(&t.curve_firsts, &t.curve_listed, 4, counts.curves as usize);
        let points = listed(&t.point_firsts, &t.point_listed, 6, counts.points as usize);
        self.equal("faces", faces == tables.faces.iter().map(|(p, r)| (*p, r.to_vec())).collect::<Vec<_>>(), &|| format!("{faces:?}"));
        self.equal("curves", curves == tables.curves.iter().map(|(p, r)| (*p, r.to_vec())).collect::<Vec<_>>(), &|| format!("{curves:?}"));
        self.equal("points", points == tables.points.iter().map(|(p, r)| (*p, r.to_vec())).collect::<Vec<_>>(), &|| format!("{points:?}"));
    }

    /// Readings: mostly good ones, now and then a bad one or another length.
    fn lists(&mut self, voxels: usize) -> (Vec<u64>, Vec<u8>) {
        let random = &mut self.random;
        let (mut values, mut kinds): (Vec<u64>, Vec<u8>) = (0..voxels).map(|_| reading(random)).unzip();
        match random.below(12) {
            0 | 1 => {
                let at = random.below(voxels);
                (values[at], kinds[at]) = bad_reading(random);
            }
            2 => values.push(0),
            3 => {
                kinds.pop();
            }
            _ => {}
        }
        (values, kinds)
    }

    /// Brings the readings of a block on both sides. False where the book says nothing of it and the list ends here.
    fn strain(&mut self, job: &mut Job, book: &Book, readings: &mut ReadingBook, block: usize, map: &[u32], (values, kinds): &(Vec<u64>, Vec<u8>)) -> bool {
        let before = job.clone();
        let brought = Readings { values: values.iter().map(|&bits| f64::from_bits(bits)).collect(), kinds: kinds.clone() };
        let proved = job.strain(block as u32, map, &brought).map_or_else(|n| Answer::Refused(n.number()), |()| Answer::Done);
        let expected = readings.strain(book, block, map, Lists { values, kinds });
        self.calls += 1;
        let refused = matches!(proved, Answer::Refused(_));
        if expected == Answer::Free && !refused {
            return false;
        }
        *self.given.entry(("strain", refusal(&expected))).or_default() += 1;
        let same = proved == expected || expected == Answer::Free && matches!(proved, Answer::Refused(8));
        self.equal("strain", same, &|| {
            format!("block {block} with {values:x?} {kinds:?} gave {proved:?}, the book says {expected:?}; cutting {:?}", before.cutting)
        });
        if refused {
            self.equal("kept", before == *job, &|| format!("after refused readings of block {block}"));
        }
        true
    }

    /// Reads a total on both sides.
    fn total(&mut self, job: &Job, book: &Book, readings: &ReadingBook, number: u32) {
        let side = |d: Side| BookSide { sum: d.sum.to_bits(), counts: [d.strains, d.clipped, d.missing] };
        let proved = job.total(number).map_or_else(|n| Answer::Refused(n.number()), |t| Answer::Totals([side(t.lower), side(t.higher)]));
        let expected = readings.total(book, number);
        self.count("total", &expected);
        self.equal("total", proved == expected, &|| format!("{number} gave {proved:x?}, the book says {expected:x?}; cutting {:?}", job.cutting));
    }

    /// The readings of every block in random order, some twice, some bad, with totals read between; then every total. Overlaps differ.
    fn strains(&mut self, case: &Case, job: &mut Job, book: &Book) {
        let mut readings = ReadingBook::new(case.cuts.blocks());
        let mut order: Vec<usize> = (0..case.cuts.blocks()).collect();
        self.random.shuffle(&mut order);
        let faces = job.counts().faces;
        let mut at = 0;
        while at < order.len() {
            let block = match self.random.below(12) {
                0 => self.random.below(order.len() + 2),
                1 => order[self.random.below(at + 1)],
                _ => order[at],
            };
            let (map, lists) = (self.map(case, block), self.lists(if block < order.len() { case.cuts.grid(block).voxels() } else { 3 }));
            if !self.strain(job, book, &mut readings, block, &map, &lists) {
                return;
            }
            if self.random.once_in(3) {
                let number = self.random.below(faces as usize + 2) as u32;
                self.total(job, book, &readings, number);
            }
            while at < order.len() && readings.has(order[at]) {
                at += 1;
            }
        }
        for number in 0..faces + 2 {
            self.total(job, book, &readings, number);
        }
    }

    /// Cells of the volume in any order, some of them twice; now and then one is outside, a coordinate is missing, or they are as many as a list may have or more.
    fn asked(&mut self, case: &Case) -> Cells {
        let random = &mut self.random;
        let many = if random.once_in(60) { MOST_CELLS + random.below(2) } else { random.below(40) };
        let sides = case.cuts.extents.map(|n| 2 * n - 1);
        let mut cells: Cells = (0..many).map(|_| sides.map(|side| random.below(side) as u32)).collect();
        match random.below(12) {
            0 if many > 0 => {
                let at = random.below(many);
                cells.ys[at] = random.pick(&[sides[1] as u32, u32::MAX]);
            }
            1 => cells.zs.push(0),
            2 => {
                cells.xs.pop();
            }
            _ => {}
        }
        cells
    }

    /// Asks on both sides which blocks are needed, and gives them; none after a refusal.
    fn request(&mut self, job: &Job, book: &Book, cells: &Cells) -> Vec<u32> {
        let tray = vec![0; cells.xs.len()];
        let asked = job.needed_blocks(cells);
        let laid = |blocks: &Vec<u32>| Answer::Tray(blocks.len() as u32, [&blocks[..], &tray[blocks.len()..]].concat());
        let proved = asked.as_ref().map_or_else(|n| Answer::Refused(n.number()), laid);
        let expected = book.request(of_book(cells, &tray));
        self.count("request", &expected);
        self.equal("blocks", proved == expected, &|| format!("{cells:?} gave {proved:?}, the book says {expected:?}; cutting {:?}", job.cutting));
        asked.unwrap_or_default()
    }

    /// Fills in answers on both sides. The book says nothing of a map that is not the block's; then the answers are set back.
    fn fill(&mut self, job: &Job, book: &Book, cells: &Cells, block: usize, map: &[u32], answers: &mut Vec<u32>) {
        let before = answers.clone();
        let filled = job.fill_cells(cells, block as u32, map, answers);
        let expected = book.fill(of_book(cells, &before), block, map);
        self.count("fill", &expected);
        if filled.is_err() {
            self.equal("kept", *answers == before, &|| format!("after a refused filling of {cells:?}"));
        }
        let proved = filled.map_or_else(|n| Answer::Refused(n.number()), |()| Answer::Tray(0, answers.clone()));
        if expected == Answer::Free {
            *answers = before;
        }
        let same = proved == expected || expected == Answer::Free && matches!(proved, Answer::Tray(..) | Answer::Refused(8));
        self.equal("cells", same, &|| format!("block {block} of {cells:?} gave {proved:?}, the book says {expected:?}; cutting {:?}", job.cutting));
    }

    /// Lists of cells, their blocks in random order, with other calls between; then every answer is the number of the uncut volume.
    fn together(&mut self, case: &Case, job: &mut Job, book: &mut Book) {
        for _ in 0..3 {
            let cells = self.asked(case);
            let mut blocks = self.request(job, book, &cells);
            self.random.shuffle(&mut blocks);
            let mut answers: Vec<u32> = cells.xs.iter().map(|_| self.random.word() as u32).collect();
            for &block in &blocks {
                if self.random.once_in(3) {
                    let other = self.random.below(case.cuts.blocks() + 1);
                    let (map, cell) = (self.map(case, other), case.cuts.outside(block as usize, 0));
                    self.fill(job, book, &cells, other, &map, &mut answers);
                    self.fill(job, book, &cells, block as usize, &case.maps[block as usize], &mut vec![7; cells.xs.len() + 1]);
                    self.call(job, book, "lookup", &Call::Lookup { block: block as usize, map: &case.maps[block as usize], cell });
                }
                self.fill(job, book, &cells, block as usize, &case.maps[block as usize], &mut answers);
            }
            if blocks.is_empty() {
                let block = self.random.below(case.cuts.blocks());
                self.fill(job, book, &cells, block, &case.maps[block], &mut answers);
            } else {
                self.equal("cells", answers == book.numbers(of_book(&cells, &[])), &|| format!("{cells:?} gave {answers:?}; cutting {:?}", job.cutting));
            }
        }
    }

    /// Everything that a closed job is asked for; lists of cells before and after the strains.
    fn all_of_closed(&mut self, case: &Case, job: &mut Job, book: &mut Book) {
        self.closed += 1;
        self.readings(case, job, book);
        self.together(case, job, book);
        self.strains(case, job, book);
        self.together(case, job, book);
    }

    /// Tables for a job: of the stated sizes, full of another job's numbers; sometimes one of another length.
    fn tables(&mut self, case: &Case, entries: Entries) -> (Tables, bool) {
        let mut tables = Tables::new(case.cuts.blocks(), entries);
        let random = &mut self.random;
        let t = &mut tables;
        for table in [
            &mut t.ticks,
            &mut t.blocks,
            &mut t.face_links,
            &mut t.curve_links,
            &mut t.face_rows,
            &mut t.curve_rows,
            &mut t.point_rows,
            &mut t.face_numbers,
            &mut t.curve_numbers,
            &mut t.point_numbers,
            &mut t.face_listed,
            &mut t.curve_listed,
            &mut t.point_listed,
            &mut t.came,
        ] {
            table.iter_mut().for_each(|n| *n = random.word() as u32);
        }
        for table in [&mut t.face_keys, &mut t.curve_keys, &mut t.point_keys, &mut t.face_firsts, &mut t.curve_firsts, &mut t.point_firsts, &mut t.face_counts]
        {
            table.iter_mut().for_each(|n| *n = random.word());
        }
        t.face_sums.0.iter_mut().for_each(|x| *x = f64::from_bits(random.word()));
        let wrong = random.once_in(12);
        if wrong {
            match random.below(7) {
                0 => t.ticks.push(0),
                1 => t.face_keys.push(0),
                2 => t.curve_listed.push(0),
                3 => t.came.push(0),
                4 => t.face_sums.0.push(0.0),
                5 => t.face_counts.push(0),
                _ => t.point_firsts.push(0),
            }
        }
        (tables, wrong)
    }

    fn one(&mut self) {
        let mut case = self.case();
        let entries = self.entries(&case);
        let (tables, wrong) = self.tables(&case, entries);
        let bad = self.random.once_in(12);
        if bad {
            let a = self.random.below(3);
            match self.random.below(3) {
                0 => case.cutting.lists[a].push(0),
                1 => case.cutting.extents[a] = self.random.pick(&[0, 1025, u32::MAX]),
                _ => case.cutting.lists[a].clear(),
            }
        }
        let told = Cuts {
            extents: case.cutting.extents.map(|n| n as usize),
            cuts: [0, 1, 2].map(|a: usize| case.cutting.lists[a].iter().map(|&c| c as usize).collect()),
        };
        let expected = match told.refusal_or_empty() {
            0 if wrong => 6,
            n => n,
        };
        let lent = tables.clone();
        let opened = Job::open_in(case.cutting.clone(), entries, tables);
        let proved = opened.as_ref().err().map_or(0, |(refusal, _)| refusal.number());
        *self.given.entry(("open", expected)).or_default() += 1;
        self.calls += 1;
        self.equal("open", proved == expected, &|| format!("{:?} {entries:?}: {proved} for {expected}", case.cutting));
        let mut job = match opened {
            Ok(job) => job,
            Err((_, tables)) => return self.equal("kept", *tables == lent, &|| "after a refused opening".to_string()),
        };
        let mut book = Book::open(case.cuts.clone(), [entries.faces, entries.curves, entries.points]).expect("an accepted opening");
        for _ in 0..4 {
            if !self.stage(&case, &mut job, &mut book) {
                return;
            }
            if book.closed() {
                return self.all_of_closed(&case, &mut job, &mut book);
            }
        }
    }
}

/// The number of a refusal, 0 for another answer.
fn refusal(answer: &Answer) -> u32 {
    match answer {
        Answer::Refused(n) => *n,
        _ => 0,
    }
}

/// Cells and a tray as the book has them.
fn of_book<'a>(cells: &'a Cells, tray: &'a [u32]) -> BookCells<'a> {
    BookCells { lists: [&cells.xs, &cells.ys, &cells.zs], tray }
}

/// The refusals 1 and 2, where a list may be empty.
trait Opening {
    fn refusal_or_empty(&self) -> u32;
}

impl Opening for Cuts {
    fn refusal_or_empty(&self) -> u32 {
        if self.extents.iter().any(|&n| n == 0 || n > 1024) {
            return 1;
        }
        if self.cuts.iter().any(|list| list.is_empty()) {
            return 2;
        }
        self.refusal()
    }
}

/// Whether the step that a call asks for is done in the book: it then refuses the call with 5, or its stage has passed.
fn book_has(book: &mut Book, case: &Case, call: &Call) -> bool {
    let again = match *call {
        Call::Enrol { block, .. } => Call::Enrol { block, map: &case.maps[block] },
        Call::Seam { blocks: (a, b), .. } => Call::Seam { blocks: (a, b), maps: (&[], &[]) },
        Call::Crossing { block, .. } => Call::Crossing { block, map: &[] },
        Call::Point { block, .. } => Call::Point { block, map: &[] },
        _ => return true,
    };
    let empty = match again {
        Call::Enrol { block, .. } => Call::Enrol { block, map: &[] },
        other => other,
    };
    matches!(book.call(&empty), Answer::Refused(3) | Answer::Refused(5))
}

/// A call through the exports.
fn perform(job: &mut Job, call: &Call) -> Answer {
    let done = |r: Result<(), Refusal>| r.map_or_else(|n| Answer::Refused(n.number()), |()| Answer::Done);
    match *call {
        Call::Enrol { block, map } => done(job.enrol(block as u32, map)),
        Call::Seam { blocks: (a, b), maps: (one, two) } => done(job.seam((a as u32, b as u32), one, two)),
        Call::Crossing { block, map } => done(job.crossing(block as u32, map)),
        Call::Point { block, map } => done(job.point(block as u32, map)),
        Call::Lookup { block, map, cell } => job.lookup(block as u32, map, cell.map(|c| c as u32)).map_or_else(|n| Answer::Refused(n.number()), Answer::Number),
        Call::Row { kind, number } => {
            let kind = match kind {
                BookKind::Face => Kind::Face,
                BookKind::Curve => Kind::Curve,
                BookKind::Point => Kind::Point,
            };
            job.row(kind, number).map_or_else(|n| Answer::Refused(n.number()), |row| Answer::Row(row[..kind.width()].to_vec()))
        }
    }
}

fn main() {
    let words: Vec<String> = std::env::args().skip(1).collect();
    let usage = format!("usage: compare_joins SEED CASES [--spoil {}]", WHATS.join("|"));
    let (seed, cases, spoil) = match &words[..] {
        [seed, cases] => (seed, cases, None),
        [seed, cases, flag, what] if flag == "--spoil" && WHATS.contains(&what.as_str()) => (seed, cases, Some(what.clone())),
        _ => panic!("{usage}"),
    };
    let (seed, cases): (u64, usize) = (seed.parse().expect(&usage), cases.parse().expect(&usage));
    let mut c = Comparison { random: Random::new(seed), seed, spoil, case: 0, calls: 0, closed: 0, differences: 0, given: BTreeMap::new() };
    for case in 0..cases {
        c.case = case;
        c.one();
    }
    let mut given = String::new();
    for ((what, refusal), times) in &c.given {
        write!(given, " {what} {refusal}: {times},").unwrap();
    }
    println!(
        "compare_joins: seed {seed}, {cases} cases, {} closed, {} calls, {} differences;{} times each",
        c.closed,
        c.calls,
        c.differences,
        given.trim_end_matches(',')
    );
    if c.differences > 0 {
        std::process::exit(1);
    }
}
