//! A whole volume: labelled and joined by the proved library and by plain Rust, in one run.
use crate::joins::{all_good, strain, Job as Plain, Part, Totals};
use crate::{median, plain, Random};
use std::time::Instant;
use tugrelis::joining::{block_codes, entries_for};
use tugrelis::{Block, Counts, Cutting, Job, Kind, Reading, Readings};

/// Milliseconds of each stage.
#[derive(Default, Clone, Copy)]
struct Times {
    label: f64,
    enrol: f64,
    seam: f64,
    crossing: f64,
    point: f64,
}

impl Times {
    fn joining(&self) -> f64 {
        self.enrol + self.seam + self.crossing + self.point
    }
}

fn timed<T>(time: &mut f64, work: impl FnOnce() -> T) -> T {
    let began = Instant::now();
    let answer = work();
    *time += began.elapsed().as_secs_f64() * 1e3;
    answer
}

/// A volume of side³ voxels, each with the code of its nearest seed; seeds are looked for in the cells around.
fn voronoi(side: usize, cell: usize, random: &mut Random) -> Vec<u32> {
    let m = side.div_ceil(cell);
    let seeds: Vec<[i64; 3]> = (0..m * m * m).map(|s| [s % m, s / m % m, s / m / m].map(|c| (c * cell) as i64 + random.below(cell as u64) as i64)).collect();
    let mut codes = Vec::with_capacity(side * side * side);
    for z in 0..side {
        for y in 0..side {
            for x in 0..side {
                let p = [x, y, z];
                let mut best = (i64::MAX, 0);
                for s in 0..125 {
                    let near: [i64; 3] = [0, 1, 2].map(|a: usize| (p[a] / cell) as i64 + [s % 5, s / 5 % 5, s / 25][a] - 2);
                    if near.iter().any(|&c| c < 0 || c >= m as i64) {
                        continue;
                    }
                    let i = near[0] as usize + m * (near[1] as usize + m * near[2] as usize);
                    let far = (0..3).map(|a| (p[a] as i64 - seeds[i][a]).pow(2)).sum::<i64>();
                    best = best.min((far, i as u32 + 1));
                }
                codes.push(best.1);
            }
        }
    }
    codes
}

fn proved(cutting: &Cutting, codes: &[u32]) -> (Times, Job, Vec<(Block, Counts)>) {
    let mut t = Times::default();
    let parts: Vec<Vec<u32>> = (0..cutting.blocks()).map(|b| block_codes(cutting, codes, b)).collect();
    let blocks: Vec<(Block, Counts)> =
        parts.iter().enumerate().map(|(b, part)| timed(&mut t.label, || Block::label(cutting.block_extents(b), part)).expect("a labelling")).collect();
    let mut job = Job::open(cutting.clone(), entries_for(&blocks).expect("few components")).expect("an opening");
    let map = |b: u32| &blocks[b as usize].0.map[..];
    let n = blocks.len() as u32;
    timed(&mut t.enrol, || (0..n).for_each(|b| job.enrol(b, map(b)).expect("an enrolment")));
    let seams = cutting.seams();
    timed(&mut t.seam, || seams.iter().for_each(|&(a, b)| job.seam((a, b), map(a), map(b)).expect("a seam")));
    timed(&mut t.crossing, || (0..n).for_each(|b| job.crossing(b, map(b)).expect("a crossing")));
    timed(&mut t.point, || (0..n).for_each(|b| job.point(b, map(b)).expect("a point step")));
    (t, job, blocks)
}

fn plainly(cutting: &Cutting, codes: &[u32], maps: &[(Block, Counts)]) -> (Times, Plain) {
    let mut t = Times::default();
    for b in 0..cutting.blocks() {
        let part = block_codes(cutting, codes, b);
        let extents = cutting.block_extents(b).map(usize::from);
        let cells = plain::cells(extents);
        timed(&mut t.label, || {
            let (mut map, mut work) = (vec![0; cells], vec![0; cells]);
            plain::by_union_find(&part, extents, &mut map, &mut work)
        });
    }
    let parts: Vec<Part> = maps
        .iter()
        .enumerate()
        .map(|(b, (block, _))| Part { extents: block.extents.map(usize::from), origin: cutting.origin(b).map(|c| c as usize), map: &block.map })
        .collect();
    let mut job = Plain::new(cutting.extents.map(|n| n as usize), parts.len());
    let n = parts.len();
    timed(&mut t.enrol, || (0..n).for_each(|b| job.enrol(b, &parts[b])));
    let seams = cutting.seams();
    let axis = |a: u32, b: u32| (0..3).find(|&i| cutting.origin(a as usize)[i] != cutting.origin(b as usize)[i]).expect("a seam");
    timed(&mut t.seam, || seams.iter().for_each(|&(a, b)| assert!(job.seam(a as usize, b as usize, axis(a, b), &parts[a as usize], &parts[b as usize]))));
    timed(&mut t.crossing, || (0..n).for_each(|b| assert!(job.crossing(b, &parts[b], b + 1 == n))));
    timed(&mut t.point, || (0..n).for_each(|b| assert!(job.point(b, &parts[b], b + 1 == n))));
    (t, job)
}

/// Both have the same first positions and rows.
fn same(job: &Job, plain: &Plain) -> bool {
    let counts = job.counts();
    [(Kind::Face, counts.faces), (Kind::Curve, counts.curves), (Kind::Point, counts.points)].into_iter().enumerate().all(|(k, (kind, many))| {
        plain.kinds[k].listed.len() == many as usize
            && (1..=many).all(|n| plain.kinds[k].listed[n as usize - 1] == (job.first(kind, n).unwrap(), job.row(kind, n).unwrap()))
    })
}

/// Readings: strains, one in 32 clipped, one in 32 missing.
fn any_readings(voxels: usize, random: &mut Random) -> Readings {
    let value = |random: &mut Random| (random.below(4_194_305) as f64 - 2_097_152.0) / 1024.0;
    (0..voxels)
        .map(|_| match random.below(32) {
            0 => Reading::Missing,
            1 => Reading::Clipped(value(random)),
            _ => Reading::Strain(value(random)),
        })
        .collect()
}

/// A closed job of one block, its map, and readings for it.
pub fn closed(codes: &[u32], side: usize) -> (Job, Block, Counts, Readings) {
    let cutting = Cutting::even([side as u32; 3], side as u32);
    let (block, counts) = Block::label(cutting.block_extents(0), codes).expect("a labelling");
    let mut job = Job::open(cutting, counts).expect("an opening");
    job.enrol(0, &block.map).expect("an enrolment");
    job.crossing(0, &block.map).expect("a crossing");
    (job, block, counts, any_readings(codes.len(), &mut Random(3)))
}

/// One point step, and then so many times the readings of the block, for the count of instructions. Prints the volume's name.
pub fn strained(name: &str, codes: &[u32], side: usize, times: usize) {
    let (mut job, block, _, readings) = closed(codes, side);
    job.point(0, &block.map).expect("a point step");
    for _ in 0..times {
        job.tables.came[0] = 0;
        job.strain(0, &block.map, &readings).expect("good readings");
    }
    println!("{name}");
}

/// The readings of one block: the proved step beside plain Rust, and beside the block's point step with one pass over the values.
pub fn readings(name: &str, codes: &[u32], side: usize, rounds: usize) {
    let (job, block, counts, readings) = closed(codes, side);
    let map = &block.map[..];
    let part = Part { extents: [side; 3], origin: [0; 3], map };
    let mut times = [Vec::new(), Vec::new(), Vec::new(), Vec::new()];
    for _ in 0..rounds {
        let mut closed = job.clone();
        let mut took = [0.0; 4];
        timed(&mut took[2], || closed.point(0, map).expect("a point step"));
        let mut totals = Totals { sums: closed.tables.face_sums.0.clone(), counts: closed.tables.face_counts.clone() };
        timed(&mut took[0], || closed.strain(0, map, &readings).expect("good readings"));
        let numbers = closed.tables.face_numbers.clone();
        assert!(timed(&mut took[1], || strain(
            &part,
            [counts.faces, counts.curves, counts.points],
            &numbers,
            [0; 3],
            &readings.values,
            &readings.kinds,
            &mut totals
        )));
        assert!(closed.tables.face_sums.0 == totals.sums && closed.tables.face_counts == totals.counts, "{name}: the totals differ");
        assert!(timed(&mut took[3], || all_good(&readings.values, &readings.kinds)));
        times.iter_mut().zip(took).for_each(|(all, one)| all.push(one));
    }
    let [a, b, point, pass] = times.map(median);
    println!("{:<22} {:>8.2} {:>10.2} {:>8.2} {:>12.2} {:>12.2} {:>20.2}", name, a, b, a / b, point, pass, a / (point + pass));
}

/// A volume of k×k×k blocks of 32×32×32 voxels, for k = 1, 2, 4, 8.
pub fn growth() {
    println!("\nwhole volumes of k×k×k blocks of 32×32×32 voxels, Voronoi; milliseconds, proved beside plain Rust");
    println!(
        "{:>6} {:>9} {:>20} {:>20} {:>20} {:>20} {:>20} {:>14} {:>12}",
        "blocks", "seeds", "label", "enrol", "seam", "crossing", "point", "joining/label", "ms a block"
    );
    for k in [1u32, 2, 4, 8] {
        let side = 31 * k + 1;
        let codes = voronoi(side as usize, 32, &mut Random(7));
        let seeds = codes.iter().collect::<std::collections::BTreeSet<_>>().len();
        let cutting = Cutting::even([side; 3], 32);
        let (a, job, blocks) = proved(&cutting, &codes);
        let (b, plain) = plainly(&cutting, &codes, &blocks);
        assert!(same(&job, &plain), "the sheets differ");
        let pair = |x: f64, y: f64| format!("{x:.1}/{y:.1} = {:.2}", x / y);
        println!(
            "{:>6} {:>9} {:>20} {:>20} {:>20} {:>20} {:>20} {:>14.2} {:>12.2}",
            blocks.len(),
            seeds,
            pair(a.label, b.label),
            pair(a.enrol, b.enrol),
            pair(a.seam, b.seam),
            pair(a.crossing, b.crossing),
            pair(a.point, b.point),
            a.joining() / a.label,
            a.joining() / blocks.len() as f64
        );
        let (n, seams) = (blocks.len() as f64, cutting.seams().len().max(1) as f64);
        println!(
            "       proved, milliseconds a step: label {:.3} enrol {:.3} seam {:.3} crossing {:.3} point {:.3}; plain: label {:.3} enrol {:.3} seam {:.3} crossing {:.3} point {:.3}",
            a.label / n, a.enrol / n, a.seam / seams, a.crossing / n, a.point / n, b.label / n, b.enrol / n, b.seam / seams, b.crossing / n, b.point / n
        );
        let t = job.tallies();
        let components = (t.faces + t.curves + t.points) as usize;
        println!(
            "       {} components enrolled or found, {} bytes of tables, {:.1} bytes each",
            components,
            job.tables.bytes(),
            job.tables.bytes() as f64 / components as f64
        );
    }
}

/// Labels and joins k×k×k blocks of 8×8×8 voxels, all of the same content, as far as a stage: 0 labelling, 1 enrolment, 2 seams, 3 crossings,
/// 4 points. To be run under a counter of instructions (bench/count), which no load of the machine disturbs. Tells how many steps the stage has.
pub fn counted(k: u32, stage: u32) {
    let side = 7 * k + 1;
    let part = |c: u32| c % 7 / 4;
    let codes: Vec<u32> = (0..side * side * side).map(|v| 1 + part(v % side) + 2 * part(v / side % side) + 4 * part(v / side / side)).collect();
    let cutting = Cutting::even([side; 3], 8);
    let blocks: Vec<(Block, Counts)> =
        (0..cutting.blocks()).map(|b| Block::label(cutting.block_extents(b), &block_codes(&cutting, &codes, b)).expect("a labelling")).collect();
    let mut job = Job::open(cutting.clone(), entries_for(&blocks).expect("few components")).expect("an opening");
    let map = |b: u32| &blocks[b as usize].0.map[..];
    let (n, seams) = (blocks.len() as u32, cutting.seams());
    if stage >= 1 {
        (0..n).for_each(|b| job.enrol(b, map(b)).expect("an enrolment"));
    }
    if stage >= 2 {
        seams.iter().for_each(|&(a, b)| job.seam((a, b), map(a), map(b)).expect("a seam"));
    }
    if stage >= 3 {
        (0..n).for_each(|b| job.crossing(b, map(b)).expect("a crossing"));
    }
    if stage >= 4 {
        (0..n).for_each(|b| job.point(b, map(b)).expect("a point step"));
    }
    println!("{}", if stage == 2 { seams.len() } else { blocks.len() });
}
