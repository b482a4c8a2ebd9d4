//! Compares the proved code with the second implementation over seeded random blocks.
//! Usage: compare SEED BLOCKS [--spoil WHAT]. With --spoil one answer of the proved code to WHAT is changed before it is
//! compared, which must be reported. After 1,000 blocks or more come one of 64×64×64, all extents up to 5 with the most
//! components that a search finds, 64×64×64 with all codes different, and printed layers of every width. Exits 1 if anything
//! differs, and prints the first difference.
use reference::codec::{self, Head};
use reference::grid::Grid;
use reference::label;
use reference::maxima::{different, most, search};
use reference::pages;
use reference::random::{damage, volume, Random};
use std::collections::BTreeMap;
use std::fmt::{Debug, Write};
use std::ops::Not;
use std::slice::from_mut;
use tugrelis::raw;

/// What is compared, by the names that --spoil takes: an entry's refusal by the entry's name (label, most, print, write, read), and what it leaves by a name of
/// its own.
const WHATS: [&str; 14] = ["label", "counts", "map", "work", "most", "maxima", "print", "pages", "write", "length", "record", "read", "fields", "back"];

/// Places before and behind every lent tray, which must stay as they are.
const GUARD: usize = 5;

/// Numbers at which the printed form changes.
const EDGES: [u32; 14] = [0, 1, 9, 10, 99, 100, 999, 1_000, 9_999, 10_000, 99_999, 100_000, 100_001, u32::MAX];

/// Longer trays are shown around the first difference only.
const SHOWN: usize = 20_000;

struct Comparison {
    random: Random,
    seed: u64,
    spoil: Option<String>,
    block: usize,
    calls: usize,
    differences: usize,
    /// How often each entry gave each refusal.
    given: BTreeMap<(&'static str, u32), usize>,
}

impl Comparison {
    /// Compares what the proved code left with what was expected. `input` tells what was handed in.
    fn same<T: Copy + PartialEq + Debug + Not<Output = T>>(&mut self, what: &str, proved: &mut [T], expected: &[T], input: &dyn Fn() -> String) {
        assert!(WHATS.contains(&what));
        if self.block >= 10 && self.spoil.as_deref() == Some(what) && !proved.is_empty() {
            let at = self.random.below(proved.len());
            proved[at] = !proved[at];
            self.spoil = None;
        }
        if proved == expected {
            return;
        }
        self.differences += 1;
        if self.differences == 1 {
            let at = (0..expected.len()).find(|&i| proved[i] != expected[i]);
            println!("compare: seed {} block {}: {what} differs, first at {at:?}", self.seed, self.block);
            let near = at.map_or(0..0, |i| if expected.len() > SHOWN { i.saturating_sub(20)..expected.len().min(i + 20) } else { 0..expected.len() });
            println!("  handed in: {}", input());
            println!("  proved:    {:?}\n  reference: {:?}", &proved[near.clone()], &expected[near]);
        }
    }

    fn refusal(&mut self, what: &'static str, mut proved: u32, expected: u32, input: &dyn Fn() -> String) {
        self.calls += 1;
        *self.given.entry((what, expected)).or_default() += 1;
        self.same(what, from_mut(&mut proved), &[expected], input);
    }

    /// A length that is mostly right.
    fn length(&mut self, right: usize) -> usize {
        match self.random.below(60) {
            0 => right + 1,
            1 => right.saturating_sub(1),
            2 => 0,
            3 => right + self.random.below(20),
            _ => right,
        }
    }

    fn words(&mut self, length: usize) -> Vec<u32> {
        (0..length + 2 * GUARD).map(|_| self.random.word() as u32).collect()
    }

    fn bytes(&mut self, length: usize) -> Vec<u8> {
        (0..length + 2 * GUARD).map(|_| self.random.word() as u8).collect()
    }

    fn label(&mut self, extents: [u16; 3], codes: &[u32], map_length: usize, work_length: usize) -> Option<Vec<u32>> {
        let [nx, ny, nz] = extents;
        let (mut map, mut work, mut counts) = (self.words(map_length), self.words(work_length), [77; 3]);
        let (mut other_map, mut other_work, mut other_counts) = (map.clone(), work.clone(), counts);
        let (m, w) = (GUARD..GUARD + map_length, GUARD..GUARD + work_length);
        let input = || format!("extents {extents:?} codes {codes:?} map tray of {map_length}, working tray of {work_length}");
        let refusal = raw::label(codes, nx, ny, nz, &mut map[m.clone()], &mut work[w.clone()], &mut counts);
        let answer = label::label(codes, extents, &mut other_map[m.clone()], &mut other_work[w]);
        if let Ok(found) = answer {
            other_counts = found;
        }
        self.refusal("label", refusal, answer.err().unwrap_or(0), &input);
        self.same("counts", &mut counts, &other_counts, &input);
        self.same("map", &mut map, &other_map, &input);
        self.same("work", &mut work, &other_work, &input);
        answer.ok().map(|_| other_map[m].to_vec())
    }

    /// The most components of a block, beside what was found for these extents.
    fn most(&mut self, extents: [u16; 3], expected: Result<[u32; 3], u32>) {
        let ([nx, ny, nz], mut maxima) = (extents, [77; 3]);
        let input = || format!("extents {extents:?}");
        let refusal = raw::most_components(nx, ny, nz, &mut maxima);
        self.refusal("most", refusal, expected.err().unwrap_or(0), &input);
        self.same("maxima", &mut maxima, &expected.unwrap_or([77; 3]), &input);
    }

    fn print(&mut self, extents: [u16; 3], z: u32, map: &[u32], tray_length: usize) {
        let [nx, ny, nz] = extents;
        let mut tray = self.bytes(tray_length);
        let mut other_tray = tray.clone();
        let t = GUARD..GUARD + tray_length;
        let input = || format!("extents {extents:?} layer {z} map {map:?} tray of {tray_length}");
        let refusal = raw::print_layer(nx, ny, nz, z, map, &mut tray[t.clone()]);
        let answer = pages::print(extents, z, map, &mut other_tray[t]);
        self.refusal("print", refusal, answer.err().unwrap_or(0), &input);
        self.same("pages", &mut tray, &other_tray, &input);
    }

    fn write(&mut self, head: Head, map: &[u32], tray_length: usize) -> Option<Vec<u8>> {
        let [nx, ny, nz, ox, oy, oz] = head;
        let (mut tray, mut size) = (self.bytes(tray_length), 77);
        let (mut other_tray, mut other_size) = (tray.clone(), size);
        let t = GUARD..GUARD + tray_length;
        let input = || format!("head {head:?} map {map:?} record tray of {tray_length}");
        let refusal = raw::write_record(nx, ny, nz, ox, oy, oz, map, &mut tray[t.clone()], &mut size);
        let answer = codec::write(&head, map, &mut other_tray[t.clone()]);
        if let Ok(length) = answer {
            other_size = length;
        }
        self.refusal("write", refusal, answer.err().unwrap_or(0), &input);
        self.same("length", from_mut(&mut size), &[other_size], &input);
        self.same("record", &mut tray, &other_tray, &input);
        answer.ok().map(|length| other_tray[t][..length].to_vec())
    }

    fn read(&mut self, bytes: &[u8], map_length: usize) {
        let (mut map, mut fields) = (self.words(map_length), [77; 6]);
        let (mut other_map, mut other_fields) = (map.clone(), fields);
        let m = GUARD..GUARD + map_length;
        let input = || format!("record {bytes:?} map tray of {map_length}");
        let refusal = raw::read_record(bytes, &mut map[m.clone()], &mut fields);
        let answer = codec::read(bytes, &mut other_map[m]);
        if let Ok(head) = answer {
            other_fields = head;
        }
        self.refusal("read", refusal, answer.err().unwrap_or(0), &input);
        self.same("fields", &mut fields, &other_fields, &input);
        self.same("back", &mut map, &other_map, &input);
    }

    /// Mostly 1 to 6, sometimes up to 16, sometimes long on one axis.
    fn extents(&mut self) -> [u16; 3] {
        let random = &mut self.random;
        if random.once_in(500) {
            return [0; 3].map(|_| 1 + random.below(16) as u16);
        }
        if random.below(12) > 0 {
            return [0; 3].map(|_| 1 + random.below(6) as u16);
        }
        let mut extents = [0; 3].map(|_| 1 + random.below(3) as u16);
        let long = 1 + random.below(64) as u16;
        extents[random.below(3)] = random.pick(&[long, 63, 64]);
        extents
    }

    /// One block: labelled, two layers printed, written, read back, and read from damaged records.
    fn one(&mut self, extents: [u16; 3]) {
        let grid = Grid::new(extents.map(usize::from));
        let mut codes = volume(&mut self.random, grid.extents);
        let mut called = extents;
        if self.random.once_in(25) {
            called[self.random.below(3)] = self.random.pick(&[0, 65, 66, 128, 256, 65_535]);
        }
        let length = self.length(codes.len());
        codes.resize(length, 1);
        let (m, w) = (self.length(grid.cells()), self.length(grid.cells()));
        let labelled = self.label(called, &codes, m, w);
        self.most(called, most(called));
        let map = self.map(&grid, labelled);
        let numbers = self.numbers(grid.cells());
        self.layer(extents, map.clone());
        self.layer(extents, numbers);
        self.records(extents, &grid, map);
    }

    /// A block of the largest extents.
    fn largest(&mut self) {
        let grid = Grid::new([64; 3]);
        let codes = volume(&mut self.random, grid.extents);
        if let Some(map) = self.label([64; 3], &codes, grid.cells(), grid.cells()) {
            let room = 12 + 5 * map.len();
            if let Some(record) = self.write([64, 64, 64, 960, 0, 1], &map, room) {
                self.read(&record, map.len());
            }
        }
    }

    /// All extents up to 5 beside a search over blocks; the largest extents beside a labelled block with all codes different.
    fn largest_blocks(&mut self) {
        for n in 0..125 {
            let extents = [n % 5, n / 5 % 5, n / 25].map(|k| 1 + k as u16);
            let found = search(&mut self.random, extents);
            self.most(extents, Ok(found));
        }
        let grid = Grid::new([64; 3]);
        let codes = different(grid.voxels());
        let map = self.label([64; 3], &codes, grid.cells(), grid.cells()).expect("extents of 64");
        self.most([64; 3], Ok([2, 1, 0].map(|order| label::largest(&grid, &map, order))));
    }

    /// The labelled map, or one with numbers that no labelling gives.
    fn map(&mut self, grid: &Grid, labelled: Option<Vec<u32>>) -> Vec<u32> {
        let random = &mut self.random;
        match labelled {
            Some(map) if !random.once_in(4) => map,
            _ => (0..grid.cells()).map(|_| if random.once_in(2) { 0 } else { random.word() as u32 }).collect(),
        }
    }

    /// Numbers of every width that is printed, half of them at its edges.
    fn numbers(&mut self, length: usize) -> Vec<u32> {
        let random = &mut self.random;
        let number =
            |_| if random.once_in(2) { random.pick(&EDGES) } else { random.word() as u32 % random.pick(&[10, 100, 1_000, 10_000, 100_000, 1_000_000]) };
        (0..length).map(number).collect()
    }

    /// A layer of a map printed: mostly one that is there, into a tray of the right length.
    fn layer(&mut self, extents: [u16; 3], mut map: Vec<u32>) {
        let (layers, right, mut called) = (2 * u32::from(extents[2]) - 1, pages::length(extents), extents);
        let z = self.random.below(layers as usize) as u32;
        let z = match self.random.below(12) {
            0 => self.random.pick(&[layers, layers + 1, u32::MAX, 1 << 31, z + 256, z + 65_536]),
            _ => z,
        };
        if self.random.once_in(25) {
            called[self.random.below(3)] = self.random.pick(&[0, 65, 66, 128, 256, 65_535]);
        }
        let length = self.length(map.len());
        map.resize(length, 9);
        let room = match self.random.below(60) {
            0 => right - 81,
            1 => right + 81,
            2 => right + pages::length([1, extents[1], 1]),
            _ => self.length(right),
        };
        self.print(called, z, &map, room);
    }

    /// Every layer of every width on some heights and depths, and of a block of the largest extents.
    fn widths(&mut self) {
        for nx in 1..=64 {
            for [ny, nz] in [[1, 1], [2, 3], [5, 2], [64, 1], [1, 64]] {
                self.layers([nx, ny, nz]);
            }
        }
        self.layers([64; 3]);
    }

    /// Every layer of one block.
    fn layers(&mut self, extents: [u16; 3]) {
        let map = self.numbers(Grid::new(extents.map(usize::from)).cells());
        (0..2 * u32::from(extents[2]) - 1).for_each(|z| self.print(extents, z, &map, pages::length(extents)));
    }

    fn records(&mut self, extents: [u16; 3], grid: &Grid, mut map: Vec<u32>) {
        let [nx, ny, nz] = extents;
        let mut head = [nx, ny, nz, 0, 0, 0];
        for a in 0..3 {
            let most = 1024 - extents[a];
            head[3 + a] = self.random.below(most as usize + 1) as u16;
            if self.random.once_in(8) {
                head[3 + a] = self.random.pick(&[0, most, most, most, most + 1, 1024, 65_535, 65_536u32.wrapping_sub(extents[a].into()) as u16]);
            }
        }
        if self.random.once_in(30) {
            head[self.random.below(3)] = self.random.pick(&[0, 65, 256, 65_535]);
        }
        let length = self.length(map.len());
        map.resize(length, 9);
        let right = 12 + map.len().div_ceil(8) + 4 * map.iter().filter(|&&v| v != 0).count();
        let room = match self.random.below(20) {
            0 => right - 1,
            1 => self.random.below(right),
            2 => right - 4,
            3..=10 => right + 1 + self.random.below(40),
            _ => right,
        };
        let Some(record) = self.write(head, &map, room) else { return };
        let room = self.length(grid.cells());
        self.read(&record, room);
        for _ in 0..4 {
            let mut bytes = record.clone();
            damage(&mut self.random, &mut bytes, grid.extents);
            let room = self.room(&bytes, grid);
            self.read(&bytes, room);
        }
    }

    /// Room for the map of a damaged record: as many cells as its head now says, where that is little, or as many as before.
    fn room(&mut self, bytes: &[u8], grid: &Grid) -> usize {
        if bytes.len() >= 6 && self.random.once_in(2) {
            let extents = [0, 2, 4].map(|k: usize| u16::from_le_bytes([bytes[k], bytes[k + 1]]) as usize);
            if extents.iter().all(|&n| n > 0 && n <= 64) {
                let cells = Grid::new(extents).cells();
                if cells <= 100_000 {
                    return cells;
                }
            }
        }
        self.length(grid.cells())
    }
}

fn main() {
    let words: Vec<String> = std::env::args().skip(1).collect();
    let usage = format!("usage: compare SEED BLOCKS [--spoil {}]", WHATS.join("|"));
    let (seed, blocks, spoil) = match &words[..] {
        [seed, blocks] => (seed, blocks, None),
        [seed, blocks, flag, what] if flag == "--spoil" && WHATS.contains(&what.as_str()) => (seed, blocks, Some(what.clone())),
        _ => panic!("{usage}"),
    };
    let (seed, blocks): (u64, usize) = (seed.parse().expect(&usage), blocks.parse().expect(&usage));
    let mut c = Comparison { random: Random::new(seed), seed, spoil, block: 0, calls: 0, differences: 0, given: BTreeMap::new() };
    for block in 0..blocks {
        c.block = block;
        let extents = c.extents();
        c.one(extents);
    }
    if blocks >= 1000 {
        c.largest();
        c.largest_blocks();
        c.widths();
    }
    let mut given = String::new();
    for ((what, refusal), times) in &c.given {
        write!(given, " {what} {refusal}: {times},").unwrap();
    }
    println!("compare: seed {seed}, {blocks} blocks, {} calls, {} differences;{} times each", c.calls, c.differences, given.trim_end_matches(','));
    if c.differences > 0 {
        std::process::exit(1);
    }
}
