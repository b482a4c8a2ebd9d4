//! Works through jobs of small cut volumes and prints what each call answers: the volumes to try under several cuttings and orders, a job with
//! tables just large enough and one with too small ones, a disagreeing overlap, and jobs and tables of anyone's making. The gate compares the output with joins.txt.
use tugrelis::joining::{entries_for, label_blocks, run};
use tugrelis::volumes::{volumes, Volume};
use tugrelis::{Block, Counts, Cutting, Entries, Error, Job, Kind, Numbers, Refusal};

/// The number of the refusal, 0 for none.
fn number<E: Into<Error>>(answer: Result<(), E>) -> u32 {
    answer.err().map_or(0, |e| e.into().refusal().expect("a refusal").number())
}

/// Gives the job numbers of anyone's making.
fn forge(job: &mut Job, change: impl FnOnce(&mut Numbers)) {
    let mut numbers = job.numbers();
    change(&mut numbers);
    *job = Job::resume(numbers, job.cutting.clone(), job.tables.clone());
}

/// Prints counts, first positions and rows of a closed job.
fn sheet(job: &Job) {
    let counts = job.counts();
    println!("  faces {} curves {} points {}", counts.faces, counts.curves, counts.points);
    for (letter, kind, many) in [('f', Kind::Face, counts.faces), ('c', Kind::Curve, counts.curves), ('p', Kind::Point, counts.points)] {
        for n in 1..=many {
            let row = job.row(kind, n).expect("a row of a closed job");
            let row: Vec<String> = row[..kind.width()].iter().map(u32::to_string).collect();
            println!("  {letter} {n} at {} row {}", job.first(kind, n).expect("a first position"), row.join(" "));
        }
    }
}

/// Prints what a lookup finds in every cell of every block.
fn lookups(job: &Job, blocks: &[(Block, Counts)]) {
    for (b, (block, _)) in blocks.iter().enumerate() {
        let [ox, oy, oz] = job.cutting.origin(b).map(|c| 2 * c);
        let [w, h, d] = block.extents.map(|n| 2 * u32::from(n) - 1);
        let mut found = Vec::new();
        for z in oz..oz + d {
            for y in oy..oy + h {
                for x in ox..ox + w {
                    found.push(job.lookup(b as u32, &block.map, [x, y, z]).expect("a cell of the block").to_string());
                }
            }
        }
        println!("  block {b}: {}", found.join(" "));
    }
}

/// Joins a volume both ways, in tables just large enough, and in one set of tables after the other job.
fn closes(v: &Volume) {
    let blocks = label_blocks(&v.cutting, &v.codes).expect("small extents");
    let mut entries = entries_for(&blocks).expect("few components");
    let mut first = Job::open(v.cutting.clone(), entries).expect("an opening");
    println!("{}: {} blocks, {} seams, entries {} {} {}", v.name, v.cutting.blocks(), v.cutting.seams().len(), entries.faces, entries.curves, entries.points);
    println!("  forward {}", number(run(&mut first, &blocks, false)));
    sheet(&first);
    lookups(&first, &blocks);
    // tables just large enough, full of another job's numbers
    entries.points = first.counts().points;
    let tables = {
        let mut tables = tugrelis::Tables::new(v.cutting.blocks(), entries);
        tables.ticks.fill(7);
        tables.face_links.fill(7);
        tables.curve_links.fill(7);
        tables.face_keys.fill(7);
        tables
    };
    let mut second = Job::open_in(v.cutting.clone(), entries, tables).expect("an opening");
    println!("  backward {}", number(run(&mut second, &blocks, true)));
    let same = (1..=first.counts().faces)
        .all(|n| first.row(Kind::Face, n) == second.row(Kind::Face, n) && first.first(Kind::Face, n) == second.first(Kind::Face, n))
        && (1..=first.counts().curves)
            .all(|n| first.row(Kind::Curve, n) == second.row(Kind::Curve, n) && first.first(Kind::Curve, n) == second.first(Kind::Curve, n))
        && (1..=first.counts().points)
            .all(|n| first.row(Kind::Point, n) == second.row(Kind::Point, n) && first.first(Kind::Point, n) == second.first(Kind::Point, n))
        && first.counts() == second.counts();
    println!("  same sheet {same}");
    // one entry less in each table that has one
    for k in 0..3 {
        let mut few = entries;
        let [faces, curves, points] = [&mut few.faces, &mut few.curves, &mut few.points];
        let table = match k {
            0 => faces,
            1 => curves,
            _ => points,
        };
        if *table == 0 {
            continue;
        }
        *table -= 1;
        let mut job = Job::open(v.cutting.clone(), few).expect("an opening");
        println!("  one {} less: {}", ["face", "curve", "point"][k], number(run(&mut job, &blocks, false)));
    }
}

/// A seam whose blocks differ: nothing changes, and the job stays in its stage.
fn differing() {
    let cutting = Cutting { extents: [2, 3, 1], lists: [vec![0, 1], vec![0, 1, 2], vec![0]] };
    let entries = Entries { faces: 5, curves: 5, points: 0 };
    let mut job = Job::open(cutting, entries).expect("an opening");
    let (lower, upper) = (Block::label([2, 2, 1], &[1, 2, 1, 2]).unwrap().0.map, Block::label([2, 2, 1], &[1, 3, 1, 2]).unwrap().0.map);
    println!("differing layers: enrol {} {}", number(job.enrol(0, &lower)), number(job.enrol(1, &upper)));
    let before = job.clone();
    println!("  seam {}, kept {}", number(job.seam((0, 1), &lower, &upper)), before == job);
    let mut other = lower.clone();
    other[8] = 9;
    println!("  another map's code: {}", number(job.seam((0, 1), &other, &upper)));
    other.pop();
    println!("  a shorter map: {}", number(job.seam((0, 1), &other, &upper)));
    println!("  no seam: {}; wrong stage: {}", number(job.seam((1, 0), &lower, &upper)), number(job.crossing(0, &lower)));
}

/// An opened job over a volume in blocks, with some entries to spare in each table.
fn opened(cutting: &Cutting, codes: &[u32], spare: u32) -> (Job, Vec<Vec<u32>>) {
    let blocks = label_blocks(cutting, codes).expect("small extents");
    let entries = entries_for(&blocks).expect("few components");
    let entries = Entries { faces: entries.faces + spare, curves: entries.curves + spare, points: entries.points + spare };
    let job = Job::open(cutting.clone(), entries).expect("an opening");
    (job, blocks.into_iter().map(|(block, _)| block.map).collect())
}

/// Makes steps that must be accepted: enrolments, then seams, then the crossings of some blocks.
fn until(job: &mut Job, maps: &[Vec<u32>], seams: &[(u32, u32)], crossed: &[u32]) {
    for (b, map) in maps.iter().enumerate() {
        job.enrol(b as u32, map).expect("an enrolment");
    }
    for &(b, c) in seams {
        job.seam((b, c), &maps[b as usize], &maps[c as usize]).expect("a seam");
    }
    for &b in crossed {
        job.crossing(b, &maps[b as usize]).expect("a crossing");
    }
}

/// Jobs of anyone's making are read as they are, or refused.
fn forged_jobs() {
    let line = &volumes()[6];
    let blocks = label_blocks(&line.cutting, &line.codes).expect("small extents");
    let fresh = Job::open(line.cutting.clone(), entries_for(&blocks).expect("few components")).expect("an opening");
    let try_with = |what: &str, change: &dyn Fn(&mut Job)| {
        let mut job = fresh.clone();
        change(&mut job);
        println!("forged {what}: {}", number(run(&mut job, &blocks, false)));
    };
    try_with("nothing", &|_| {});
    try_with("stage 9", &|j| forge(j, |n| n.stage = 9));
    try_with("extent 0", &|j| forge(j, |n| n.extents[0] = 0));
    try_with("extent 1,025", &|j| forge(j, |n| n.extents[1] = 1025));
    try_with("another extent", &|j| forge(j, |n| n.extents[0] = 4));
    try_with("a tally above its entries", &|j| forge(j, |n| n.tallies.faces = 3));
    try_with("more numbered than entries", &|j| forge(j, |n| n.counts.faces = 3));
    try_with("more points numbered than entries", &|j| forge(j, |n| n.counts.points = 1));
    try_with("more numbered than enrolled", &|j| forge(j, |n| n.counts.faces = 2));
    try_with("entries of another table", &|j| forge(j, |n| n.entries.faces = 1));
    try_with("a longer table", &|j| j.tables.curve_rows.push(0));
    try_with("old ticks", &|j| j.tables.ticks[0] = 5);
    try_with("another cut list", &|j| j.cutting.lists[0] = vec![0, 2]);
}

/// Tables of anyone's making, at a seam. Three blocks with a face each, at the places 0, 1 and 2 of a table of ten.
fn forged_seams() {
    let cutting = Cutting { extents: [4, 1, 1], lists: [vec![0, 1, 2, 3], vec![0], vec![0]] };
    let (mut enrolled, maps) = opened(&cutting, &[1, 2, 1, 2], 7);
    until(&mut enrolled, &maps, &[], &[]);
    let seam_with = |what: &str, (b, c): (u32, u32), change: &dyn Fn(&mut Job)| {
        let mut job = enrolled.clone();
        change(&mut job);
        println!("seam of {b} and {c}, forged {what}: {}", number(job.seam((b, c), &maps[b as usize], &maps[c as usize])));
    };
    seam_with("nothing", (0, 1), &|_| {});
    seam_with("count of a block", (0, 1), &|j| j.tables.blocks[0] = 0);
    seam_with("place of a block", (0, 1), &|j| j.tables.blocks[8] = u32::MAX);
    seam_with("place above the tally", (0, 1), &|j| j.tables.blocks[8] = 9);
    seam_with("place above the entries", (0, 1), &|j| j.tables.blocks[8] = 10);
    seam_with("links", (0, 1), &|j| j.tables.face_links.fill(u32::MAX));
    seam_with("link of block 2", (0, 1), &|j| j.tables.face_links[2] = 3);
    seam_with("link of block 2", (1, 2), &|j| j.tables.face_links[2] = 3);
    seam_with("link of block 2 to the first", (1, 2), &|j| j.tables.face_links[2] = 2);
    seam_with("link of place 0", (1, 2), &|j| j.tables.face_links[0] = 1);
    seam_with("link of place 0 on a way", (1, 2), &|j| j.tables.face_links[..3].fill(1));
    // place 1 leads to none and lies on no way; the ways of the places 5 to 9 have 30 steps
    const FAR: [u32; 10] = [0, 5, 2, 1, 1, 1, 1, 1, 1, 1];
    seam_with("short way past a link to none", (0, 1), &|j| {
        j.tables.face_links.copy_from_slice(&FAR);
        j.tables.blocks[3] = 5;
        j.tables.blocks[8] = 5;
    });
    seam_with("ways longer than the table", (0, 1), &|j| {
        j.tables.face_links.copy_from_slice(&FAR);
        j.tables.face_links[1] = 1;
        (j.tables.blocks[3], j.tables.blocks[8], j.tables.blocks[0], j.tables.blocks[5]) = (5, 5, 5, 5);
    });
    seam_with("ways longer than the table, a link to none before them", (0, 1), &|j| {
        j.tables.face_links.copy_from_slice(&FAR);
        (j.tables.blocks[3], j.tables.blocks[8], j.tables.blocks[0], j.tables.blocks[5]) = (5, 5, 5, 5);
    });
}

/// .. at a crossing: the last one numbers all, so it looks at what all blocks enrolled.
fn forged_crossings() {
    let cutting = Cutting { extents: [4, 1, 1], lists: [vec![0, 1, 2, 3], vec![0], vec![0]] };
    let crossing_with = |crossed: &[u32], b: u32| {
        let (mut job, maps) = opened(&cutting, &[1, 2, 1, 2], 0);
        until(&mut job, &maps, &[(0, 1), (1, 2)], crossed);
        job.tables.face_links[2] = 3;
        let before = job.clone();
        let answer = number(job.crossing(b, &maps[b as usize]));
        println!("crossing of {b} after {crossed:?}, forged link of block 2: {answer}, kept {}", before == job);
    };
    crossing_with(&[], 0);
    crossing_with(&[], 2);
    crossing_with(&[2], 0);
    crossing_with(&[0, 2], 1);
    let figure = &volumes()[9];
    let row_with = |crossed: &[u32], b: u32, face: u32, spare: u32| {
        let (mut job, maps) = opened(&figure.cutting, &figure.codes, spare);
        until(&mut job, &maps, &figure.cutting.seams(), crossed);
        job.tables.curve_rows[0] = face;
        let (entries, answer) = (job.numbers().entries.faces, number(job.crossing(b, &maps[b as usize])));
        println!("crossing of {b} after {crossed:?}, forged row with face {face} of {entries}: {answer}");
    };
    row_with(&[], 0, 21, 0);
    row_with(&[0, 1, 2], 3, 20, 0);
    row_with(&[0, 1, 2], 3, 21, 0);
    row_with(&[0, 1, 2], 3, 21, 5);
    row_with(&[0, 1, 2], 3, 26, 5);
}

/// .. at a point step and a lookup: final numbers that are handed out are 1 to as many as are numbered.
fn forged_numbers() {
    let four = &volumes()[3];
    let (mut crossed, maps) = opened(&four.cutting, &four.codes, 3);
    until(&mut crossed, &maps, &[], &[0]);
    let map = &maps[0];
    for n in [1, 0, 2, u32::MAX] {
        let mut job = crossed.clone();
        job.tables.curve_numbers[0] = n;
        println!("point step, forged final number {n}: {}", number(job.point(0, map)));
    }
    let mut closed = crossed;
    closed.point(0, map).expect("a point step");
    for n in [1, 0, 4, 5] {
        let mut job = closed.clone();
        job.tables.face_numbers[2] = n;
        job.tables.curve_numbers[0] = n;
        let found = [[2, 1, 0], [1, 1, 0], [1, 0, 0], [0, 0, 0]].map(|cell| job.lookup(0, map, cell).map_err(Refusal::number));
        println!("lookup, forged final number {n}: face 3 {:?} curve 1 {:?} face 1 {:?} voxel {:?}", found[0], found[1], found[2], found[3]);
    }
    let line = &volumes()[6];
    let (mut job, maps) = opened(&line.cutting, &line.codes, 0);
    until(&mut job, &maps, &[(0, 1)], &[]);
    forge(&mut job, |n| n.stage = 4);
    println!(
        "forged closed job: row {:?} lookup {:?}",
        job.row(Kind::Face, 1).map_err(Refusal::number),
        job.lookup(0, &maps[0], [1, 0, 0]).map_err(Refusal::number)
    );
    forge(&mut job, |n| n.counts.faces = 2);
    println!("forged closed job, two faces numbered: row {:?}", job.row(Kind::Face, 1).map_err(Refusal::number));
    forge(&mut job, |n| n.counts.faces = 3);
    println!("forged closed job, three faces numbered: row {:?}", job.row(Kind::Face, 1).map_err(Refusal::number));
}

/// Openings that are refused.
fn openings() {
    let open =
        |extents: [u32; 3], lists: [&[u32]; 3]| number(Job::open(Cutting { extents, lists: lists.map(<[u32]>::to_vec) }, Entries::default()).map(|_| ()));
    println!("opening 65 cut 0 64: {}", open([65, 1, 1], [&[0, 64], &[0], &[0]]));
    println!("opening 65 cut 0 63 64: {}", open([65, 1, 1], [&[0, 63, 64], &[0], &[0]]));
    println!("opening extent 0: {}", open([0, 1, 1], [&[0], &[0], &[0]]));
    println!("opening extent 1,025: {}", open([1, 1025, 1], [&[0], &[0, 63], &[0]]));
    println!("opening without a list: {}", open([1, 1, 1], [&[0], &[], &[0]]));
}

fn main() {
    for v in volumes() {
        closes(&v);
    }
    differing();
    forged_jobs();
    forged_seams();
    forged_crossings();
    forged_numbers();
    openings();
}
