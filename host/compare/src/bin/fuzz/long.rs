//! Calls with long tables, made to take as long as they can: links that make one long way, blocks that have all components of their tables, maps whose
//! every cell names another component, tallies and entries of any size, and long lists of cells.
use crate::lent::{longs_mut, words_mut, Asked, What, WHATS};
use reference::random::Random;
use tugrelis::{Cells, Cutting, Entries, Tables, MOST_CELLS};

/// The entries of each table.
const LONG: u32 = 100_000;

/// The links of a table by place: their name, and each link.
type Links = (&'static str, fn(u32, &mut Random) -> u32);

const LINKS: [Links; 7] = [
    ("one way", |x, _| x.min(1)),
    ("one way to none", |_, _| 1),
    ("two ways", |x, _| x.min(2)),
    ("all to the first", |x, _| x),
    ("a tooth at each place of a way", |x, _| if x < LONG / 2 { x.min(1) } else { LONG / 2 }),
    ("short links", |x, random| x.min(random.below(4) as u32)),
    ("halves", |x, _| x.div_ceil(2)),
];

/// Two blocks of 64×64×2 voxels, the job in a stage. Each block has all places of both tables, and the maps name them in any order.
fn job(random: &mut Random, what: What) -> Asked {
    let cutting = Cutting { extents: [127, 64, 2], lists: [vec![0, 63, 126], vec![0, 63], vec![0, 1]] };
    let stage = [0, 0, 1, 2, 3, 4, 4, 4, 4, 4, 4, 4, 4][what as usize];
    let told = [stage, 127, 64, 2, LONG, LONG, LONG];
    let of = |reached: bool| if reached { LONG } else { 0 };
    let tallies = [of(stage > 0), of(stage > 0), of(stage > 3), of(stage > 2), of(stage > 2), of(stage > 3)];
    let numbers: Vec<u32> = told.into_iter().chain(tallies).collect();
    let mut t = Tables::new(2, Entries { faces: LONG, curves: LONG, points: LONG });
    t.blocks = [LONG, LONG, LONG, 0, 0].repeat(2);
    t.curve_rows.iter_mut().for_each(|face| *face = random.below(LONG as usize + 1) as u32);
    t.face_numbers.iter_mut().chain(&mut t.curve_numbers).for_each(|n| *n = 1 + random.below(LONG as usize) as u32);
    longs_mut(&mut t).into_iter().for_each(|table| table.iter_mut().for_each(|key| *key = random.word()));
    if what == What::Total {
        t.came = vec![1; 2];
    }
    t.face_counts.iter_mut().for_each(|n| *n = random.below(9) as u64);
    // tables that the call is not lent are left out
    if !what.lent_sums() {
        t.face_sums.0 = vec![];
    }
    let (words, longs) = what.lent();
    words_mut(&mut t).into_iter().enumerate().filter(|(i, _)| !words.contains(i)).for_each(|(_, table)| *table = vec![]);
    longs_mut(&mut t).into_iter().enumerate().filter(|(i, _)| !longs.contains(i)).for_each(|(_, table)| *table = vec![]);
    let grid = reference::grid::Grid::new([64, 64, 2]);
    let mut map = || (0..grid.cells()).map(|p| if grid.order(p) == 3 { 1 } else { 1 + random.below(LONG as usize) as u32 }).collect();
    let maps = [map(), map()];
    let (values, kinds) = (vec![0.5; 64 * 64 * 2], vec![0; 64 * 64 * 2]);
    let mut asked = Asked { blocks: [0, 1], maps, cell: [1, 1, 1], values, kinds, ..bare(what, numbers.try_into().expect("thirteen"), cutting.lists, t) };
    if matches!(what, What::Request | What::Fill) {
        looks_up(&mut asked, (0..MOST_CELLS).map(|_| [253, 127, 3].map(|side| random.below(side) as u32)).collect());
    }
    asked
}

/// A call that brings nothing but cut lists and tables.
fn bare(what: What, job: [u32; 13], lists: [Vec<u32>; 3], tables: Tables) -> Asked {
    Asked {
        what,
        job,
        lists,
        tables,
        blocks: [0; 2],
        maps: [vec![], vec![]],
        cell: [1, 0, 0],
        values: vec![],
        kinds: vec![],
        cells: Cells::default(),
        tray: vec![],
    }
}

/// Gives the call these cells, and a tray with one place for each.
fn looks_up(asked: &mut Asked, cells: Cells) {
    asked.tray = vec![7; cells.xs.len()];
    asked.cells = cells;
}

/// Takes each of them, with a name.
pub fn each(random: &mut Random, take: &mut dyn FnMut(&str, &Asked)) {
    for what in WHATS {
        let plain = job(random, what);
        take("long", &plain);
        forged(&plain, take);
        if matches!(what, What::Seam | What::Crossing) {
            linked(random, &plain, take);
        }
    }
    for (what, tick) in [(What::Crossing, 10), (What::Point, 11)] {
        let mut last = job(random, what);
        last.tables.ticks[tick] = 1;
        take("long, last", &last);
        forged(&last, take);
    }
    let mut s = job(random, What::Lookup);
    for cell in [[1, 0, 0], [1, 1, 0], [0, 0, 0]] {
        s.cell = cell;
        take("long, another cell", &s);
    }
    many_blocks(take);
    many_readings(take);
    many_cells(random, take);
}

/// Lists of cells: as many as there may be, in one block or in all, over as many blocks as there may be; and lists that are far too long.
fn many_cells(random: &mut Random, take: &mut dyn FnMut(&str, &Asked)) {
    for extents in [[129, 129, 1], [1024, 17, 1]] {
        let lists = extents.map(|n| (0..n).collect::<Vec<u32>>());
        let (last, count) = (extents.map(|n| 2 * n - 2), lists.iter().map(|list| list.len().max(2) - 1).product());
        let numbers = [4, extents[0], extents[1], extents[2], 0, 0, 0, 0, 0, 0, 0, 0, 0];
        let spread = (0..MOST_CELLS).map(|_| last.map(|c| random.below(c as usize + 1) as u32));
        for (name, block, cells) in
            [("spread", 0, spread.collect::<Cells>()), ("last", count as u32 - 1, [last].into_iter().cycle().take(MOST_CELLS).collect())]
        {
            for what in [What::Request, What::Fill] {
                let mut asked = bare(what, numbers, lists.clone(), Tables::new(count, Entries::default()));
                asked.blocks[0] = block;
                asked.maps[0] = vec![1, 0, 1, 0, 0, 0, 1, 0, 1];
                looks_up(&mut asked, cells.clone());
                take(&format!("{count} blocks, {name},"), &asked);
            }
        }
    }
    for what in [What::Request, What::Fill] {
        let mut asked = job(random, what);
        for cell in [[0, 0, 0], [252, 126, 2], [253, 0, 0]] {
            looks_up(&mut asked, [cell].into_iter().cycle().take(LONG as usize).collect());
            take(&format!("{LONG} cells at {cell:?},"), &asked);
        }
    }
}

/// A total of as many blocks as there may be, whose readings have all come, or all but one.
fn many_readings(take: &mut dyn FnMut(&str, &Asked)) {
    let list: Vec<u32> = (0..=128).collect();
    for missing in [None, Some(0), Some(16_383)] {
        let mut tables = Tables::new(16_384, Entries { faces: 1, curves: 0, points: 0 });
        tables.came.fill(1);
        missing.into_iter().for_each(|b: usize| tables.came[b] = 0);
        let job = [4, 129, 129, 1, 1, 0, 0, 1, 0, 0, 1, 0, 0];
        take("16,384 blocks", &bare(What::Total, job, [list.clone(), list.clone(), vec![0]], tables));
    }
}

/// Entries and tallies of any size.
fn forged(plain: &Asked, take: &mut dyn FnMut(&str, &Asked)) {
    for at in 4..13 {
        for value in [u32::MAX, LONG + 1] {
            let mut s = plain.clone();
            s.job[at] = value;
            take(&format!("long, number {at} is {value},"), &s);
        }
    }
}

/// The same links in both tables, before an earlier step and before the last one; then with a link to none far from all ways.
fn linked(random: &mut Random, plain: &Asked, take: &mut dyn FnMut(&str, &Asked)) {
    for (name, link) in LINKS {
        for last in [0, 1] {
            let mut s = plain.clone();
            s.tables.ticks[10] = last;
            for table in [&mut s.tables.face_links, &mut s.tables.curve_links] {
                table.iter_mut().enumerate().for_each(|(x, l)| *l = link(x as u32, random));
            }
            take(&format!("{name}, last {last},"), &s);
            // the blocks have the last half only
            let half = LONG / 2;
            s.tables.blocks = [half, half, LONG, half, half].repeat(2);
            s.maps.iter_mut().flatten().for_each(|n| *n = (*n).min(half));
            take(&format!("{name}, last {last}, half,"), &s);
            s.tables.curve_links[3] = u32::MAX;
            take(&format!("{name}, last {last}, half, one to none,"), &s);
        }
    }
}

/// As many blocks as there may be, all ticked but one.
fn many_blocks(take: &mut dyn FnMut(&str, &Asked)) {
    let list: Vec<u32> = (0..=128).collect();
    for (stage, what) in [What::Enrol, What::Seam, What::Crossing, What::Point].into_iter().enumerate() {
        for missing in [0, 16_382] {
            let mut tables = Tables::new(16_384, Entries::default());
            tables.ticks.fill(1);
            let step = [0, 1, 4, 5][stage];
            tables.ticks[6 * missing + step] = 0;
            let b = missing as u32;
            let map = vec![1, 0, 1, 0, 0, 0, 1, 0, 1];
            let job = [stage as u32, 129, 129, 1, 0, 0, 0, 0, 0, 0, 0, 0, 0];
            let asked = Asked { blocks: [b, b + 1], maps: [map.clone(), map], ..bare(what, job, [list.clone(), list.clone(), vec![0]], tables) };
            take(&format!("16,384 blocks, block {b},"), &asked);
        }
    }
}
