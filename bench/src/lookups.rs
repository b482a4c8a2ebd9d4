//! Times of cells looked up together: one filling beside as many single lookups and beside plain Rust, and how the time grows with cells and blocks.
use crate::{cells, median, timed, volume, Random};
use std::hint::black_box;
use tugrelis::{Block, Cells, Cutting, Entries, Job, Numbers, Tables, MOST_CELLS};

/// So many cells of a volume, anywhere.
fn any_cells(many: usize, extents: [u32; 3], random: &mut Random) -> Vec<[u32; 3]> {
    (0..many).map(|_| extents.map(|n| random.below(2 * u64::from(n) - 1) as u32)).collect()
}

/// 4,096 cells of one block: one filling, the same in plain Rust, and single lookups, which are timed once. All answers are compared.
pub fn together(name: &str, codes: &[u32], side: usize, rounds: usize) {
    let (mut job, block, ..) = volume::closed(codes, side);
    job.point(0, &block.map).expect("a point step");
    let places = any_cells(MOST_CELLS, job.cutting.extents, &mut Random(5));
    let list: Cells = places.iter().copied().collect();
    let (mut answers, mut other) = (vec![9; MOST_CELLS], vec![9; MOST_CELLS]);
    let mut times = [Vec::new(), Vec::new(), Vec::new()];
    for _ in 0..rounds {
        timed(&mut times[0], || job.fill_cells(&list, 0, &block.map, &mut answers).expect("a needed block"));
        timed(&mut times[1], || cells::fill(&job, &list, 0, &block.map, &mut other).expect("a needed block"));
        assert!(answers == other, "{name}: the answers differ");
    }
    let single: Vec<u32> = timed(&mut times[2], || places.iter().map(|&cell| job.lookup(0, &block.map, cell).expect("a cell")).collect());
    assert!(answers == single, "{name}: the lookups differ");
    let [a, b, c] = times.map(median);
    println!("{:<22} {:>8.2} {:>10.2} {:>8.2} {:>14.0} {:>18.0}", name, a, b, a / b, c, c / a);
}

/// How many lists are asked in turn: so many that no processor learns the way through all of them, as no viewer asks one list again and again.
const LISTS: usize = 100;

/// Microseconds of one of many calls, with each list in its turn.
fn micros<T>(lists: &[Cells], mut work: impl FnMut(&Cells) -> T) -> f64 {
    let mut times = Vec::new();
    (0..7).for_each(|_| timed(&mut times, || lists.iter().for_each(|list| drop(black_box(work(list))))));
    median(times) * 1e3 / lists.len() as f64
}

/// A job of one segment in x×y×z blocks of 2×2×2 voxels, as if it were closed: it has no face, so its tables have no entries.
fn closed(intervals: [u32; 3]) -> Job {
    let cutting = Cutting::even(intervals.map(|n| n + 1), 2);
    let none = Entries::default();
    let numbers = Numbers { stage: 4, extents: cutting.extents, entries: none, tallies: none, counts: none };
    let tables = Tables::new(cutting.blocks(), none);
    Job::resume(numbers, cutting, tables)
}

/// Lists of so many cells of a job, anywhere; the last cell of each is the volume's last.
fn any_lists(job: &Job, many: usize) -> Vec<Cells> {
    let mut random = Random(6);
    let list = |_| {
        let mut places = any_cells(many, job.cutting.extents, &mut random);
        places[many - 1] = job.cutting.extents.map(|n| 2 * n - 2);
        places.into_iter().collect()
    };
    (0..LISTS).map(list).collect()
}

/// The time of a request and of the filling from the last block, in microseconds, beside plain Rust. All answers are compared.
fn row(job: &Job, many: usize) {
    let last = job.cutting.blocks() - 1;
    let lists = any_lists(job, many);
    let (block, _) = Block::label([2; 3], &[1; 8]).expect("a labelling");
    let map = &block.map[..];
    let (mut tray, mut answers, mut other) = (vec![9; many], vec![9; many], vec![9; many]);
    for list in &lists {
        let needed = job.needed_blocks(list).expect("cells of the volume");
        let count = cells::request(&job.cutting, list, &mut tray).expect("cells of the volume");
        assert!(needed == tray[..count], "the needed blocks differ");
        job.fill_cells(list, last as u32, map, &mut answers).expect("a needed block");
        cells::fill(job, list, last, map, &mut other).expect("a needed block");
        assert!(answers == other, "the answers differ");
    }
    let a = micros(&lists, |list| job.needed_blocks(list));
    let b = micros(&lists, |list| cells::request(&job.cutting, list, &mut vec![0; many]));
    let c = micros(&lists, |list| job.fill_cells(list, last as u32, map, &mut answers));
    let d = micros(&lists, |list| cells::fill(job, list, last, map, &mut other));
    println!("{:>8} {:>8} {:>10.1} {:>8.1} {:>8.2} {:>10.1} {:>8.1} {:>8.2}", last + 1, many, a, b, a / b, c, d, c / d);
}

/// More cells of one job, and jobs of more blocks.
pub fn growth() {
    println!("\ncells looked up together, microseconds a call; blocks of 2×2×2 voxels");
    println!("{:>8} {:>8} {:>10} {:>8} {:>8} {:>10} {:>8} {:>8}", "blocks", "cells", "request", "plain", "ratio", "filling", "plain", "ratio");
    let job = closed([10; 3]);
    [512, 1_024, 2_048, 4_096].into_iter().for_each(|many| row(&job, many));
    for intervals in [[1, 1, 1], [4, 4, 4], [10, 10, 10], [20, 20, 20], [32, 32, 16]] {
        row(&closed(intervals), MOST_CELLS);
    }
}
