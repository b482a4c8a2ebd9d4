//! Calls to make: an honest job taken by real calls some way through its stages, the next call that it waits for or another one, and numbers and
//! lengths changed here and there.
use crate::lent::{longs_mut, words_mut, Asked, What, WHATS};
use reference::random::{bad_reading, cuts, reading, volume, Random};
use tugrelis::{Block, Cells, Cutting, Entries, Job, Readings, MOST_CELLS};

/// Any number, mostly a small one.
pub fn small(random: &mut Random) -> u32 {
    let word = random.word() as u32;
    match random.below(12) {
        0 => word,
        1 => u32::MAX - random.below(3) as u32,
        2..=4 => 0,
        _ => word % 8,
    }
}

/// A number at or beside another one, or any.
fn beside(random: &mut Random, n: u32) -> u32 {
    match random.below(6) {
        0 => n,
        1 | 2 => n.wrapping_add(1),
        3 => n.wrapping_sub(1),
        _ => small(random),
    }
}

/// The calls of a closed job, those with more to test more often.
const OF_CLOSED: [What; 17] = [
    What::Lookup,
    What::Lookup,
    What::Lookup,
    What::FaceRow,
    What::CurveRow,
    What::PointRow,
    What::Total,
    What::Total,
    What::Strain,
    What::Strain,
    What::Strain,
    What::Request,
    What::Request,
    What::Fill,
    What::Fill,
    What::Fill,
    What::Fill,
];

/// An honest job, and the call that it waits for.
pub fn honest(random: &mut Random) -> Asked {
    let extents = [0; 3].map(|_| random.pick(&[1, 2, 2, 2, 3, 3]));
    let cutting = Cutting { extents: extents.map(|n| n as u32), lists: extents.map(|n| cuts(random, n).iter().map(|&c| c as u32).collect()) };
    let (codes, other) = (volume(random, extents), volume(random, extents));
    let odd = if random.once_in(8) { random.below(cutting.blocks()) } else { usize::MAX };
    let blocks: Vec<Vec<u32>> = (0..cutting.blocks())
        .map(|b| {
            let codes = tugrelis::joining::block_codes(&cutting, if b == odd { &other } else { &codes }, b);
            Block::label(cutting.block_extents(b), &codes).expect("small extents").0.map
        })
        .collect();
    let mut job = Job::open(cutting.clone(), entries(random, &cutting, &blocks)).expect("an opening");
    let (what, [lower, upper]) = advance(random, &mut job, &blocks);
    let map = |b: u32| blocks.get(b as usize).cloned().unwrap_or_default();
    let cell = cell_of(random, &cutting, lower);
    let cells: Cells = (0..random.pick(&[0, 1, 2, 4, 8])).map(|_| any_cell(random, &cutting, lower)).collect();
    let tray = cells.xs.iter().map(|_| small(random)).collect();
    let many = match what {
        What::FaceRow | What::Total => job.counts().faces,
        What::CurveRow => job.counts().curves,
        _ => job.counts().points,
    };
    let cell = if what > What::Lookup { [1 + random.below(many as usize + 1) as u32, 0, 0] } else { cell };
    let Readings { values, kinds } = readings(random, &cutting, lower);
    Asked {
        what,
        job: job.numbers().into(),
        lists: cutting.lists,
        maps: [map(lower), map(upper)],
        tables: job.tables,
        blocks: [lower, upper],
        cell,
        values,
        kinds,
        cells,
        tray,
    }
}

/// A cell of a block, by its place in the volume.
fn cell_of(random: &mut Random, cutting: &Cutting, block: u32) -> [u32; 3] {
    let (origin, extents) = (cutting.origin(block as usize), cutting.block_extents(block as usize));
    [0, 1, 2].map(|a: usize| 2 * origin[a] + random.below(2 * usize::from(extents[a]) - 1) as u32)
}

/// A cell of a block, or of any.
fn any_cell(random: &mut Random, cutting: &Cutting, block: u32) -> [u32; 3] {
    let from = if random.once_in(3) { random.below(cutting.blocks()) as u32 } else { block };
    cell_of(random, cutting, from)
}

/// Good readings of a block.
fn readings(random: &mut Random, cutting: &Cutting, block: u32) -> Readings {
    let voxels: usize = cutting.block_extents(block as usize).iter().map(|&n| usize::from(n)).product();
    let (values, kinds) = (0..voxels).map(|_| reading(random)).map(|(bits, kind)| (f64::from_bits(bits), kind)).unzip();
    Readings { values, kinds }
}

/// Brings the readings of all blocks but one, or of all, to a closed job.
fn strain(random: &mut Random, job: &mut Job, blocks: &[Vec<u32>], but: Option<u32>) {
    for b in 0..blocks.len() as u32 {
        let (left_out, lists) = (but == Some(b) || but.is_some() && random.once_in(3), readings(random, &job.cutting, b));
        if !left_out {
            job.strain(b, &blocks[b as usize], &lists).expect("good readings");
        }
    }
}

/// Entries that suffice, with some to spare, or now and then too few.
fn entries(random: &mut Random, cutting: &Cutting, blocks: &[Vec<u32>]) -> Entries {
    let mut need = [0u32; 3];
    for (b, map) in blocks.iter().enumerate() {
        let grid = reference::grid::Grid::new(cutting.block_extents(b).map(usize::from));
        (0..3).for_each(|k| need[k] += reference::label::largest(&grid, map, 2 - k));
    }
    let [faces, curves, points] = need.map(|n| if random.once_in(16) { n.saturating_sub(1) } else { n + random.pick(&[0, 0, 1, 4, 20]) });
    Entries { faces, curves, points }
}

/// Makes the steps of the job up to some place, and gives the call that comes next. A refused step is asked for again.
fn advance(random: &mut Random, job: &mut Job, blocks: &[Vec<u32>]) -> (What, [u32; 2]) {
    let map = |b: u32| &blocks[b as usize][..];
    let any = random.below(blocks.len()) as u32;
    let until = random.below(6);
    for (stage, what) in [What::Enrol, What::Seam, What::Crossing, What::Point].into_iter().enumerate() {
        let mut steps: Vec<[u32; 2]> = match what {
            What::Seam => job.cutting.seams().iter().map(|&(b, c)| [b, c]).collect(),
            _ => (0..blocks.len() as u32).map(|b| [b, b]).collect(),
        };
        random.shuffle(&mut steps);
        // the last step of a stage as often as all others
        let stop = if until != stage || steps.is_empty() {
            usize::MAX
        } else if random.once_in(2) {
            steps.len() - 1
        } else {
            random.below(steps.len())
        };
        for (i, &[b, c]) in steps.iter().enumerate() {
            let refused = i < stop
                && match what {
                    What::Enrol => job.enrol(b, map(b)).is_err(),
                    What::Seam => job.seam((b, c), map(b), map(c)).is_err(),
                    What::Crossing => job.crossing(b, map(b)).is_err(),
                    _ => job.point(b, map(b)).is_err(),
                };
            if i == stop || refused {
                return (what, [b, c]);
            }
        }
    }
    let what = random.pick(&OF_CLOSED);
    if matches!(what, What::Total | What::Strain) {
        strain(random, job, blocks, (what == What::Strain).then_some(any));
    }
    (what, [any, any])
}

/// Makes another call of it, now and then: of another stage, block or cell.
pub fn astray(random: &mut Random, s: &mut Asked) {
    match random.below(12) {
        0 => s.what = random.pick(&WHATS),
        1 => s.what = What::Open,
        2 => s.blocks[0] = s.blocks[0].wrapping_add(random.pick(&[1, 2, u32::MAX])),
        3 => s.blocks[1] = small(random),
        4 => s.cell[random.below(3)] = small(random),
        5 => s.blocks.reverse(),
        _ => {}
    }
}

/// Changes numbers and lengths here and there.
pub fn spoil(random: &mut Random, s: &mut Asked) {
    for _ in 0..random.pick(&[0, 0, 1, 1, 1, 2, 3]) {
        let kind = random.below(2);
        match random.below(26) {
            0 => s.job[random.below(13)] = small(random),
            1 => tally(random, s),
            2 => {
                let value = small(random);
                let axis = random.below(3);
                change(random, &mut s.lists[axis], value);
            }
            3 | 4 => map(random, s),
            5 | 6 => block(random, s, kind),
            7 | 8 => link(random, s, kind),
            9 | 10 => links(random, s, kind),
            11 => row(random, s),
            16..=18 => ways(random, s, kind),
            12 | 13 => number(random, s, kind),
            14 => tick(random, s),
            19 | 20 => total(random, s),
            21 | 22 => bad(random, s),
            23 => {
                let value = random.pick(&[0, 1, 1, 5]);
                change(random, &mut s.tables.came, value);
            }
            24 | 25 => cell(random, s),
            _ => length(random, s),
        }
    }
    if random.once_in(8) {
        let keys = longs_mut(&mut s.tables);
        keys.into_iter().take(3).for_each(|table| table.iter_mut().for_each(|k| *k = random.word()));
    }
    if random.once_in(8) {
        s.tables.point_firsts.iter_mut().for_each(|k| *k = random.word() % 60);
        s.job[12] = random.below(s.tables.point_firsts.len() + 1) as u32;
    }
}

/// A value stored, or the length changed.
fn change(random: &mut Random, table: &mut Vec<u32>, value: u32) {
    if random.once_in(10) {
        table.push(value);
    } else if random.once_in(10) {
        table.pop();
    } else if !table.is_empty() {
        let at = random.below(table.len());
        table[at] = value;
    }
}

/// Enrolled, found or numbered at its entries, at another tally, or beside them.
fn tally(random: &mut Random, s: &mut Asked) {
    let at = 7 + random.below(6);
    let of = s.job[random.pick(&[4, 4, 4, 7, 10]) + (at - 7) % 3];
    s.job[at] = beside(random, of);
}

fn map(random: &mut Random, s: &mut Asked) {
    let which = random.below(2);
    let count = s.tables.blocks.get(5 * s.blocks[which] as usize % s.tables.blocks.len().max(1) + random.below(3)).copied().unwrap_or(0);
    let value = beside(random, count);
    change(random, &mut s.maps[which], value);
}

/// A number of the block table; or the block gets all places of its table, or all but the first ones.
fn block(random: &mut Random, s: &mut Asked, kind: usize) {
    let entries = s.job[4 + kind];
    let of = 5 * s.blocks[random.below(2)] as usize;
    let Some(five) = s.tables.blocks.get_mut(of..).and_then(|rest| rest.get_mut(..5)) else { return };
    match random.below(6) {
        0 => five[random.below(5)] = small(random),
        1 => (five[kind], five[3 + kind]) = (entries, 0),
        2 => five[3 + kind] = beside(random, entries.wrapping_sub(five[kind])),
        3 => five[kind] = beside(random, entries.wrapping_sub(five[3 + kind])),
        4 => five[kind] = entries.saturating_sub(five[3 + kind]),
        _ => {
            let at = random.below(5);
            five[at] = beside(random, five[at]);
        }
    }
}

fn of_kind(s: &mut Asked, kind: usize) -> &mut Vec<u32> {
    if kind == 0 {
        &mut s.tables.face_links
    } else {
        &mut s.tables.curve_links
    }
}

/// One link: to the first place, to none, or by any distance.
fn link(random: &mut Random, s: &mut Asked, kind: usize) {
    let table = of_kind(s, kind);
    if !table.is_empty() {
        let at = random.below(table.len());
        table[at] = beside(random, at as u32);
    }
}

/// All links of a table, and then perhaps one that leads to none.
fn links(random: &mut Random, s: &mut Asked, kind: usize) {
    let way = random.below(7);
    let table = of_kind(s, kind);
    for (x, link) in table.iter_mut().enumerate() {
        let x = x as u32;
        *link = match way {
            0 => 1,
            1 => x.min(1),
            2 => x.min(2),
            3 => x,
            4 => x.min(random.below(4) as u32),
            5 => random.below(4) as u32,
            _ => u32::MAX,
        };
    }
    if random.once_in(2) && !table.is_empty() {
        let at = random.below(table.len());
        table[at] = at as u32 + 1 + random.below(2) as u32;
    }
}

/// A block with some part of its table, long ways from there, and perhaps a link to none before it.
fn ways(random: &mut Random, s: &mut Asked, kind: usize) {
    let length = of_kind(s, kind).len();
    let Some(five) = s.tables.blocks.get_mut(5 * s.blocks[0] as usize..).and_then(|rest| rest.get_mut(..5)) else { return };
    let count = five[kind] as usize;
    if count >= length {
        return;
    }
    let from = random.below(length - count + 1);
    let more = random.below(length - from - count + 1);
    (five[kind], five[3 + kind]) = ((count + more) as u32, from as u32);
    let table = of_kind(s, kind);
    let step = 1 + random.below(3);
    for (x, link) in table.iter_mut().enumerate() {
        *link = x.min(1 + random.below(step)) as u32;
    }
    if from > 0 && !random.once_in(4) {
        let at = random.below(from);
        table[at] = at as u32 + 1;
    }
}

fn row(random: &mut Random, s: &mut Asked) {
    let value = beside(random, s.job[4]);
    change(random, &mut s.tables.curve_rows, value);
}

/// A final number, or all of them.
fn number(random: &mut Random, s: &mut Asked, kind: usize) {
    let many = s.job[10 + kind];
    let table = if kind == 0 { &mut s.tables.face_numbers } else { &mut s.tables.curve_numbers };
    if random.once_in(3) {
        table.iter_mut().for_each(|n| *n = 1 + (random.word() % u64::from(many.max(1))) as u32);
    } else {
        let value = beside(random, many);
        change(random, table, value);
    }
}

/// A tick, or those of all other blocks for a step.
fn tick(random: &mut Random, s: &mut Asked) {
    let ticks = &mut s.tables.ticks;
    if random.once_in(2) {
        let value = random.pick(&[0, 1, 1, 5]);
        change(random, ticks, value);
    } else {
        let step = random.below(6);
        ticks.iter_mut().skip(step).step_by(6).for_each(|tick| *tick = 1);
        if let Some(tick) = ticks.get_mut(6 * s.blocks[0] as usize + step) {
            *tick = 0;
        }
    }
}

/// A sum or a count that cannot stand, or one that just can.
fn total(random: &mut Random, s: &mut Asked) {
    let cells = (1..4).map(|a| 2 * u64::from(s.job[a]).clamp(1, 1024) - 1).product::<u64>();
    let t = &mut s.tables;
    if random.once_in(2) && !t.face_counts.is_empty() {
        let at = random.below(t.face_counts.len());
        t.face_counts[at] = random.pick(&[cells, cells + 1, cells - 1, u64::MAX, 0]);
    } else if !t.face_sums.0.is_empty() {
        let at = random.below(t.face_sums.0.len());
        let (most, any) = (8_796_093_022_208.0f64, f64::from_bits(random.word()));
        t.face_sums.0[at] = random.pick(&[
            most,
            -most,
            most - 0.5,
            f64::from_bits(most.to_bits() + 1),
            f64::from_bits((-most).to_bits() + 1),
            f64::NAN,
            f64::INFINITY,
            1.0 / 2048.0,
            -0.0,
            any,
        ]);
    }
}

/// A reading that is none, or a value and a kind of anyone's making.
fn bad(random: &mut Random, s: &mut Asked) {
    let at = random.below(s.values.len().min(s.kinds.len()).max(1));
    let (bits, kind) = if random.once_in(6) { (random.word(), random.word() as u8) } else { bad_reading(random) };
    if let (Some(value), Some(byte)) = (s.values.get_mut(at), s.kinds.get_mut(at)) {
        (*value, *byte) = (f64::from_bits(bits), kind);
    }
}

/// A coordinate at the volume's edge, or any; or as many cells as a list may have, or one more.
fn cell(random: &mut Random, s: &mut Asked) {
    let many = s.cells.xs.len();
    if random.once_in(12) {
        let length = MOST_CELLS + random.below(2);
        [&mut s.cells.xs, &mut s.cells.ys, &mut s.cells.zs, &mut s.tray].into_iter().for_each(|list| {
            let value = list.last().copied().unwrap_or(0);
            list.resize(length, value);
        });
    } else if many > 0 {
        let (at, axis) = (random.below(many), random.below(3));
        let value = beside(random, s.job[1 + axis].wrapping_mul(2).wrapping_sub(2));
        if let Some(c) = [&mut s.cells.xs, &mut s.cells.ys, &mut s.cells.zs][axis].get_mut(at) {
            *c = value;
        }
    }
}

/// One place more or less in a table, a map or a list.
fn length(random: &mut Random, s: &mut Asked) {
    let more = random.once_in(2);
    match random.below(30) {
        k @ 0..=13 => grow(words_mut(&mut s.tables)[k], more),
        k @ 14..=20 => grow(longs_mut(&mut s.tables)[k - 14], more),
        21 => grow(&mut s.tables.face_sums.0, more),
        22 => grow(&mut s.values, more),
        23 => grow(&mut s.kinds, more),
        24 => grow(&mut s.cells.xs, more),
        25 => grow(&mut s.cells.ys, more),
        26 => grow(&mut s.cells.zs, more),
        27 => grow(&mut s.tray, more),
        k => grow(&mut s.maps[k - 28], more),
    }
}

fn grow<T: From<u8>>(table: &mut Vec<T>, more: bool) {
    if more {
        table.push(T::from(1));
    } else {
        table.pop();
    }
}
