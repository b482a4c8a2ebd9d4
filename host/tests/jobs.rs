//! Every entry through the safe types, beside the second implementation.
use reference::cutting::Cutting as Cuts;
use reference::label::number;
use reference::random::{cuts as random_cuts, reading, volume, Random};
use std::collections::BTreeSet;
use tugrelis::joining::{block_codes, entries_for, label_blocks, run};
use tugrelis::kept::{read_job, write_job};
use tugrelis::sheet::write_sheet;
use tugrelis::volumes::{drill, spread, volumes, voronoi, Volume};
use tugrelis::{
    raw, Block, Cells, Counts, Cutting, Entries, Error, Job, Kind, Numbers, Reading, Readings, Refusal, Side, Stage, Tables, Totals, MOST_CELLS, REFUSALS,
};

fn cuts(c: &Cutting) -> Cuts {
    Cuts { extents: c.extents.map(|n| n as usize), cuts: [0, 1, 2].map(|a: usize| c.lists[a].iter().map(|&c| c as usize).collect()) }
}

fn closed(v: &Volume, from_back: bool) -> (Job, Vec<(Block, Counts)>) {
    let blocks = label_blocks(&v.cutting, &v.codes).unwrap();
    let mut job = Job::open(v.cutting.clone(), entries_for(&blocks).unwrap()).unwrap();
    assert_eq!(job.stage(), Some(Stage::Enrol));
    run(&mut job, &blocks, from_back).unwrap();
    assert_eq!(job.stage(), Some(Stage::Closed));
    (job, blocks)
}

#[test]
fn closed_jobs_are_the_uncut_volume() {
    for v in volumes() {
        let uncut = number(v.cutting.extents.map(|n| n as usize), &v.codes);
        let cuts = cuts(&v.cutting);
        for from_back in [false, true] {
            let (job, blocks) = closed(&v, from_back);
            for (kind, order) in [(Kind::Face, 2), (Kind::Curve, 1), (Kind::Point, 0)] {
                let components = &uncut.components[order];
                for (i, c) in components.iter().enumerate() {
                    assert_eq!(job.row(kind, i as u32 + 1), Ok(c.row), "{}", v.name);
                    assert_eq!(job.first(kind, i as u32 + 1), Some(c.first as u64), "{}", v.name);
                }
                assert_eq!(job.row(kind, 0), Err(Refusal::NoSuchPlace));
                assert_eq!(job.row(kind, components.len() as u32 + 1), Err(Refusal::NoSuchPlace));
            }
            for (b, (block, _)) in blocks.iter().enumerate() {
                for p in 0..block.map.len() {
                    let cell = cuts.outside(b, p);
                    assert_eq!(job.lookup(b as u32, &block.map, cell.map(|c| c as u32)), Ok(uncut.map[uncut.grid.position(cell)]), "{}", v.name);
                }
            }
        }
    }
}

#[test]
fn records_come_back() {
    for v in volumes() {
        for (b, (block, _)) in label_blocks(&v.cutting, &v.codes).unwrap().into_iter().enumerate() {
            let origin = v.cutting.origin(b).map(|c| c as u16);
            let record = block.record(origin).unwrap();
            assert_eq!(Block::read(&record), Ok((block, origin)));
            assert_eq!(Block::read(&record[..record.len() - 1]), Err(Refusal::BadRecord));
            assert_eq!(Block::read(&[]), Err(Refusal::BadRecord));
        }
    }
}

/// The pages of a layer by the second implementation.
fn pages(block: &Block, z: u32) -> String {
    let mut tray = vec![0; reference::pages::length(block.extents)];
    reference::pages::print(block.extents, z, &block.map, &mut tray).unwrap();
    String::from_utf8(tray).unwrap()
}

#[test]
fn layers_are_printed() {
    for v in volumes() {
        for (block, _) in label_blocks(&v.cutting, &v.codes).unwrap() {
            let layers = 2 * u32::from(block.extents[2]) - 1;
            (0..layers).for_each(|z| assert_eq!(block.print(z), Ok(pages(&block, z)), "{}", v.name));
            for z in [layers, layers + 1, u32::MAX] {
                assert_eq!(block.print(z), Err(Refusal::NoSuchPlace));
            }
        }
    }
    // eight pages with numbers of every width
    let codes: Vec<u32> = (1..=64 * 64 * 64).collect();
    let (block, _) = Block::label([64; 3], &codes).unwrap();
    (0..127).for_each(|z| assert_eq!(block.print(z).unwrap(), pages(&block, z)));
    let line = |cells: &str| format!("{cells:<80}\n");
    let (block, _) = Block::label([2, 2, 1], &[1, 1, 0, 100_000]).unwrap();
    assert_eq!(block.print(0), Ok(line("    1    .    1") + &line("    1    1    2") + &line("    .    3#####")));
}

#[test]
fn printings_that_are_declined() {
    let block = |extents: [u16; 3], cells: usize| Block { extents, map: vec![5; cells] };
    for extents in [[0, 1, 1], [1, 65, 1], [1, 1, 65_535], [0; 3]] {
        assert_eq!(block(extents, 1).print(9), Err(Refusal::OffSize));
    }
    assert_eq!(block([2, 1, 1], 4).print(1), Err(Refusal::NoSuchPlace));
    for cells in [0, 2, 4] {
        assert_eq!(block([2, 1, 1], cells).print(0), Err(Refusal::WrongTray));
    }
    assert_eq!(block([2, 1, 1], 3).print(0), Ok(format!("{:<80}\n", "    5    5    5")));
}

#[test]
fn what_is_declined() {
    assert_eq!(Block::label([0, 1, 1], &[]), Err(Refusal::OffSize));
    assert_eq!(Block::label([65, 1, 1], &[1; 65]), Err(Refusal::OffSize));
    assert_eq!(Block::label([2, 1, 1], &[1]), Err(Refusal::WrongTray));
    let block = Block { extents: [1, 1, 1], map: vec![0] };
    assert_eq!(block.record([1024, 0, 0]), Err(Refusal::OffSize));
    assert_eq!(Block { extents: [2, 1, 1], ..block }.record([0; 3]), Err(Refusal::WrongTray));
    let line = &volumes()[6];
    let (mut job, blocks) = closed(line, false);
    let map = |b: usize| &blocks[b].0.map[..];
    assert_eq!(job.enrol(0, map(0)), Err(Refusal::WrongStage));
    assert_eq!(job.lookup(2, map(0), [0; 3]), Err(Refusal::NoSuchPlace));
    assert_eq!(job.lookup(0, map(0), [3, 0, 0]), Err(Refusal::NoSuchPlace));
    assert_eq!(job.lookup(0, &map(0)[1..], [0; 3]), Err(Refusal::WrongTray));
    assert_eq!(job.lookup(0, &[1, 2, 2], [0; 3]), Err(Refusal::StrayLabel));
    let cutting = Cutting { extents: [65, 1, 1], lists: [vec![0, 64], vec![0], vec![0]] };
    assert_eq!(Job::open(cutting, Entries::default()).map(|_| ()), Err(Refusal::BadCut));
    let mut job = Job::open(line.cutting.clone(), Entries { faces: 1, curves: 0, points: 0 }).unwrap();
    assert_eq!(job.enrol(1, map(1)), Ok(()));
    assert_eq!(job.enrol(1, map(1)), Err(Refusal::DoneAlready));
    assert_eq!(job.enrol(0, map(0)), Err(Refusal::TableFull));
    let mut job = Job::open(line.cutting.clone(), Entries { faces: 2, curves: 0, points: 0 }).unwrap();
    job.enrol(0, &[1, 1, 3]).unwrap();
    job.enrol(1, map(1)).unwrap();
    assert_eq!(job.seam((0, 1), &[1, 1, 3], map(1)), Err(Refusal::LayersDiffer));
    assert_eq!(job.seam((1, 0), map(0), map(1)), Err(Refusal::NoSuchPlace));
}

#[test]
fn a_zero_voxel_is_outside() {
    let (block, counts) = Block::label([2, 1, 1], &[5, 0]).unwrap();
    assert_eq!((&block.map[..], counts), (&[5, 1, 0][..], Counts { faces: 1, curves: 0, points: 0 }));
    let record = block.record([0; 3]).unwrap();
    assert_eq!(record[12..], [3, 5, 0, 0, 0, 1, 0, 0, 0]);
    // cut so that the second block has the outside only
    let cutting = Cutting { extents: [3, 1, 1], lists: [vec![0, 1, 2], vec![0], vec![0]] };
    let (mut job, blocks) = joined(cutting, &[5, 0, 0], false);
    assert_eq!(job.row(Kind::Face, 1), Ok([5, 0, 0, 0, 0, 0]));
    assert_eq!(job.lookup(1, &blocks[1].0.map, [4, 0, 0]), Ok(0));
    let mut bring =
        |b: usize, values: [f64; 2], kinds: [u8; 2]| job.strain(b as u32, &blocks[b].0.map, &Readings { values: values.into(), kinds: kinds.into() });
    assert_eq!(bring(0, [1.5, 0.1], [0, 0]), Err(Refusal::BadReading));
    assert_eq!(bring(0, [1.5, 2.0], [0, 0]), Ok(()));
    assert_eq!(bring(1, [4.0, 8.0], [0, 1]), Ok(()));
    let none = Side { sum: 0.0, strains: 0, clipped: 0, missing: 0 };
    assert_eq!(job.total(1), Ok(Totals { lower: Side { sum: 1.5, strains: 1, ..none }, higher: none }));
}

/// A closed job of a volume, with its labelled blocks.
fn joined(cutting: Cutting, codes: &[u32], from_back: bool) -> (Job, Vec<(Block, Counts)>) {
    closed(&Volume { name: "joined", cutting, codes: codes.to_vec() }, from_back)
}

/// The part of a volume's readings that a block has.
fn part(cutting: &Cutting, all: &[(u64, u8)], block: usize) -> Readings {
    let places: Vec<u32> = (0..all.len() as u32).collect();
    let (values, kinds) = block_codes(cutting, &places, block).iter().map(|&v| all[v as usize]).map(|(bits, kind)| (f64::from_bits(bits), kind)).unzip();
    Readings { values, kinds }
}

fn bits(t: Totals) -> [(u64, [u64; 3]); 2] {
    [t.lower, t.higher].map(|d: Side| (d.sum.to_bits(), [d.strains, d.clipped, d.missing]))
}

#[test]
fn totals_under_ten_cuttings() {
    let mut random = Random::new(18);
    let mut outside = 0;
    for _ in 0..24 {
        let extents = [0; 3].map(|_| 2 + random.below(7));
        let codes = volume(&mut random, extents);
        let all: Vec<(u64, u8)> = codes.iter().map(|_| reading(&mut random)).collect();
        let uncut = number(extents, &codes);
        let mut seen: Option<Vec<_>> = None;
        for round in 0..10 {
            let cutting =
                Cutting { extents: extents.map(|n| n as u32), lists: extents.map(|n| random_cuts(&mut random, n).iter().map(|&c| c as u32).collect()) };
            let (mut job, blocks) = joined(cutting.clone(), &codes, round % 2 == 1);
            let mut order: Vec<usize> = (0..blocks.len()).collect();
            random.shuffle(&mut order);
            for &b in &order {
                assert_eq!(job.total(1), Err(Refusal::WrongStage));
                assert_eq!(job.strain(b as u32, &blocks[b].0.map, &part(&cutting, &all, b)), Ok(()));
            }
            let totals: Vec<_> = (1..=job.counts().faces).map(|n| bits(job.total(n).unwrap())).collect();
            for (n, sides) in totals.iter().enumerate() {
                let cells = (0..uncut.map.len()).filter(|&t| uncut.grid.order(t) == 2 && uncut.map[t] as usize == n + 1).count() as u64;
                for (code, (sum, counts)) in uncut.components[2][n].row.iter().zip(sides) {
                    // a reading for each cell, and none of the outside
                    assert_eq!(counts.iter().sum::<u64>(), if *code == 0 { 0 } else { cells });
                    assert!(*code != 0 || *sum == 0);
                    outside += u32::from(*code == 0);
                }
            }
            assert_eq!(seen.get_or_insert(totals.clone()), &totals, "round {round}");
        }
    }
    assert!(outside > 50, "{outside}");
}

#[test]
fn readings_that_are_declined() {
    // codes 1 2 1, cut in the middle: face 1 between the first two voxels, face 2 between the last two
    let line = &volumes()[6];
    let (mut job, blocks) = closed(line, false);
    let map = |b: usize| &blocks[b].0.map[..];
    let of = |readings: &[Reading]| readings.iter().copied().collect::<Readings>();
    let good = of(&[Reading::Strain(-0.0), Reading::Clipped(2048.0)]);
    for bad in [f64::NAN, f64::INFINITY, 1.0 / 2048.0, 2048.0 + 1.0 / 1024.0, -4096.0] {
        assert_eq!(job.strain(0, map(0), &of(&[Reading::Strain(bad), Reading::Missing])), Err(Refusal::BadReading));
        assert_eq!(job.strain(0, map(0), &of(&[Reading::Missing, Reading::Clipped(bad)])), Err(Refusal::BadReading));
    }
    assert_eq!(job.strain(0, map(0), &Readings { values: vec![0.0; 2], kinds: vec![0, 3] }), Err(Refusal::BadReading));
    assert_eq!(job.strain(0, map(0), &Readings { values: vec![0.0; 3], kinds: vec![0; 2] }), Err(Refusal::WrongTray));
    assert_eq!(job.strain(0, map(0), &Readings { values: vec![0.0; 2], kinds: vec![0; 1] }), Err(Refusal::WrongTray));
    assert_eq!(job.strain(2, map(0), &good), Err(Refusal::NoSuchPlace));
    assert_eq!(job.strain(0, &[1, 2, 2], &good), Err(Refusal::StrayLabel));
    assert_eq!(job.strain(0, map(0), &good), Ok(()));
    assert_eq!(job.strain(0, map(0), &good), Err(Refusal::DoneAlready));
    assert_eq!(job.total(1), Err(Refusal::WrongStage));
    // the value of a missing reading may be anything
    assert_eq!(job.strain(1, map(1), &Readings { values: vec![1.5, f64::NAN], kinds: vec![0, 2] }), Ok(()));
    let none = Side { sum: 0.0, strains: 0, clipped: 0, missing: 0 };
    let first = Totals { lower: Side { strains: 1, ..none }, higher: Side { clipped: 1, ..none } };
    assert_eq!(job.total(1).map(bits), Ok(bits(first)));
    assert_eq!(job.total(2), Ok(Totals { lower: Side { missing: 1, ..none }, higher: Side { sum: 1.5, strains: 1, ..none } }));
    assert_eq!(job.total(0), Err(Refusal::NoSuchPlace));
    assert_eq!(job.total(3), Err(Refusal::NoSuchPlace));
    // forged totals: at 2^43 a sum is read, beyond it is not; minus zero is read as zero
    let most = 8_796_093_022_208.0f64;
    for (sum, right) in [(most, Ok(most)), (-most, Ok(-most)), (-0.0, Ok(0.0))] {
        job.tables.face_sums.0[0] = sum;
        assert_eq!(job.total(1).map(|t| t.lower.sum.to_bits()), right.map(f64::to_bits));
    }
    for sum in [f64::from_bits(most.to_bits() + 1), f64::NAN, f64::NEG_INFINITY, 1.0 / 2048.0] {
        job.tables.face_sums.0[0] = sum;
        assert_eq!(job.total(1), Err(Refusal::StrayLabel));
        assert_eq!(job.total(2).map(|t| t.higher.strains), Ok(1));
    }
    job.tables.face_sums.0[0] = 0.0;
    for (count, right) in [(5, Ok(5)), (6, Err(Refusal::StrayLabel))] {
        job.tables.face_counts[2] = count;
        assert_eq!(job.total(1).map(|t| t.lower.missing), right);
    }
}

/// All cells of a volume in any order, some of them twice.
fn shuffled(random: &mut Random, extents: [u32; 3]) -> Vec<[u32; 3]> {
    let [w, h, d] = extents.map(|n| 2 * n - 1);
    let all = (0..w * h * d).map(|p| [p % w, p / w % h, p / w / h]);
    let mut cells: Vec<[u32; 3]> = all.flat_map(|cell| vec![cell; 1 + usize::from(random.once_in(3))]).collect();
    random.shuffle(&mut cells);
    cells
}

/// The numbers of cells in the uncut volume.
fn uncut_numbers(v: &Volume, cells: &[[u32; 3]]) -> Vec<u32> {
    let uncut = number(v.cutting.extents.map(|n| n as usize), &v.codes);
    cells.iter().map(|cell| uncut.map[uncut.grid.position(cell.map(|c| c as usize))]).collect()
}

#[test]
fn cells_looked_up_together() {
    let mut random = Random::new(21);
    for v in volumes() {
        let places = shuffled(&mut random, v.cutting.extents);
        let (cells, right) = (places.iter().copied().collect::<Cells>(), uncut_numbers(&v, &places));
        let sources: Vec<u32> = places.iter().map(|cell| cuts(&v.cutting).lowest(cell.map(|c| c as usize)) as u32).collect();
        for from_back in [false, true] {
            let (mut job, blocks) = closed(&v, from_back);
            let needed = job.needed_blocks(&cells).unwrap();
            assert_eq!(needed, sources.iter().copied().collect::<BTreeSet<u32>>().into_iter().collect::<Vec<_>>(), "{}", v.name);
            // what stands in the tray has no effect, nor have other calls between
            let (mut answers, mut expected) = (vec![77; right.len()], vec![77; right.len()]);
            for &b in needed.iter().rev() {
                let map = &blocks[b as usize].0.map;
                assert_eq!(job.fill_cells(&cells, b, map, &mut answers), Ok(()));
                (0..right.len()).filter(|&i| sources[i] == b).for_each(|i| expected[i] = right[i]);
                assert_eq!(answers, expected, "{}, block {b}", v.name);
                let voxels = blocks[b as usize].0.extents.iter().map(|&n| usize::from(n)).product();
                assert_eq!(job.strain(b, map, &vec![Reading::Strain(1.5); voxels].into_iter().collect()), Ok(()));
                assert_eq!(job.total(1).is_ok(), b == 0 && job.counts().faces > 0);
                assert!(job.lookup(b, map, job.cutting.origin(b as usize).map(|c| 2 * c)).is_ok());
            }
            assert_eq!(answers, right, "{}", v.name);
            assert_eq!(job.lookup_all(&places, |b| Ok(&blocks[b as usize].0.map)).unwrap(), right, "{}", v.name);
        }
    }
}

#[test]
fn lists_of_any_length() {
    let v = volumes().swap_remove(11);
    let (job, blocks) = closed(&v, false);
    let mut random = Random::new(3);
    let mut places: Vec<[u32; 3]> = (0..40).flat_map(|_| shuffled(&mut random, v.cutting.extents)).take(2 * MOST_CELLS + 5).collect();
    // the last piece needs the last block only
    places[2 * MOST_CELLS..].fill([8, 4, 4]);
    let mut asked = Vec::new();
    let numbers = job.lookup_all(&places, |b| {
        asked.push(b);
        Ok(&blocks[b as usize].0.map)
    });
    assert_eq!(numbers.unwrap(), uncut_numbers(&v, &places));
    assert_eq!(asked, (0..blocks.len() as u32).collect::<Vec<_>>());
    // a map that cannot be had, or of another block, ends it; a cell outside ends it before any map is asked for
    assert!(matches!(job.lookup_all::<Vec<u32>>(&places, |_| Err(Error::OtherBlock)), Err(Error::OtherBlock)));
    assert_eq!(job.lookup_all(&places, |_| Ok([1])).unwrap_err().refusal(), Some(Refusal::WrongTray));
    places[2 * MOST_CELLS + 4][1] = 5;
    assert_eq!(job.lookup_all::<Vec<u32>>(&places, |b| panic!("block {b} was asked for")).unwrap_err().refusal(), Some(Refusal::NoSuchPlace));
    let none = |job: &Job| job.lookup_all::<Vec<u32>>(&[], |b| panic!("block {b} was asked for"));
    assert_eq!(none(&job).unwrap(), []);
    let open = Job::open(v.cutting.clone(), Entries::default()).unwrap();
    assert_eq!(none(&open).unwrap_err().refusal(), Some(Refusal::WrongStage));
}

/// The refusal of a request with so many places for the blocks, 0 for none. A refused one leaves places and count as they were, an accepted one the places
/// behind the blocks.
fn request(job: &Job, cells: &Cells, places: usize) -> u32 {
    let ([cx, cy, cz], mut needed, mut count) = (&job.cutting.lists, vec![77; places], 78);
    let refusal = raw::request_blocks(&job.numbers().into(), cx, cy, cz, &cells.xs, &cells.ys, &cells.zs, &mut needed, &mut count);
    let stay = if refusal == 0 { count as usize } else { 0 };
    assert!(needed[stay..].iter().all(|&place| place == 77) && (refusal == 0 || count == 78), "{refusal}");
    refusal
}

/// The refusal of a filling with so many answers, 0 for none. A refused one leaves the answers as they were.
fn fill(job: &Job, cells: &Cells, block: u32, map: &[u32], places: usize) -> u32 {
    let mut answers = vec![77; places];
    let refusal = job.fill_cells(cells, block, map, &mut answers).map_or_else(Refusal::number, |()| 0);
    assert!(refusal == 0 || answers == vec![77; places], "{refusal}");
    refusal
}

/// Cells on a line.
fn on_line(xs: &[u32]) -> Cells {
    xs.iter().map(|&x| [x, 0, 0]).collect()
}

/// The refusals of a request and of the filling from block 1 with its map, each tray with one place for each cell.
fn both(job: &Job, cells: &Cells, map: &[u32]) -> [u32; 2] {
    [request(job, cells, cells.xs.len()), fill(job, cells, 1, map, cells.xs.len())]
}

/// The job with something changed.
fn forged(job: &Job, change: impl FnOnce(&mut Numbers, &mut Cutting, &mut Tables)) -> Job {
    let (mut numbers, mut cutting, mut tables) = (job.numbers(), job.cutting.clone(), job.tables.clone());
    change(&mut numbers, &mut cutting, &mut tables);
    Job::resume(numbers, cutting, tables)
}

/// Codes 1 2 1, cut in the middle: the job, the map of block 1, and cells of both blocks. Block 1 has the cells 2 to 4, of which 2 is read from block 0.
fn closed_line() -> (Job, Vec<u32>, Cells) {
    let (job, mut blocks) = closed(&volumes()[6], false);
    (job, blocks.swap_remove(1).0.map, on_line(&[4, 2, 3]))
}

#[test]
fn jobs_and_cells_that_are_declined() {
    let (job, map, cells) = closed_line();
    assert_eq!(both(&job, &cells, &map), [0, 0]);
    assert_eq!(both(&forged(&job, |numbers, _, _| numbers.extents[1] = 1025), &cells, &map), [1, 1]);
    assert_eq!(both(&forged(&job, |_, cutting, _| cutting.lists[0][1] = 0), &cells, &map), [2, 2]);
    for stage in [0, 3, 5, u32::MAX] {
        assert_eq!(both(&forged(&job, |numbers, _, _| numbers.stage = stage), &cells, &map), [3, 3]);
    }
    for outside in [[5, 0, 0], [4, 1, 0], [4, 0, u32::MAX]] {
        assert_eq!(both(&job, &[[4, 0, 0], outside].into_iter().collect(), &map), [4, 4]);
    }
    // also in a list that is too long, or whose three lists are unequal
    let mut many = on_line(&[4; 4098]);
    many.xs[4097] = 5;
    assert_eq!(both(&job, &many, &map), [4, 4]);
    assert_eq!(both(&job, &Cells { ys: vec![0], ..on_line(&[5, 4]) }, &map), [4, 4]);
    // a block that no cell is read from, or that there is not
    assert_eq!(fill(&job, &on_line(&[2, 0]), 1, &map, 2), 4);
    assert_eq!(fill(&job, &cells, 2, &map, 3), 4);
    assert_eq!(both(&job, &Cells::default(), &map), [0, 4]);
}

#[test]
fn lists_and_trays_that_are_declined() {
    let (job, map, cells) = closed_line();
    assert_eq!(both(&job, &on_line(&[4; 4096]), &map), [0, 0]);
    assert_eq!(both(&job, &on_line(&[4; 4097]), &map), [6, 6]);
    let lists: [fn(&mut Cells) -> &mut Vec<u32>; 3] = [|c| &mut c.xs, |c| &mut c.ys, |c| &mut c.zs];
    for list in lists {
        let mut cells = cells.clone();
        list(&mut cells).pop();
        assert_eq!([request(&job, &cells, 3), fill(&job, &cells, 1, &map, 3)], [6, 6]);
    }
    for places in [0, 2, 4] {
        assert_eq!([request(&job, &cells, places), fill(&job, &cells, 1, &map, places)], [6, 6]);
    }
    assert_eq!(fill(&job, &cells, 1, &map[1..], 3), 6);
    let words: [fn(&mut Tables) -> &mut Vec<u32>; 4] = [|t| &mut t.ticks, |t| &mut t.blocks, |t| &mut t.face_numbers, |t| &mut t.curve_numbers];
    for table in words {
        assert_eq!(both(&forged(&job, |_, _, t| table(t).push(0)), &cells, &map), [0, 6]);
    }
    assert_eq!(both(&forged(&job, |_, _, t| t.point_firsts.push(0)), &cells, &map), [0, 6]);
}

#[test]
fn cells_with_stray_labels() {
    let (job, map, cells) = closed_line();
    assert_eq!(both(&forged(&job, |numbers, _, _| numbers.tallies.points = 1), &cells, &map), [8, 8]);
    assert_eq!(fill(&job, &cells, 1, &[2, 2, 1], 3), 8);
    // the block's faces begin behind the table
    assert_eq!(both(&forged(&job, |_, _, t| t.blocks[8] = 2), &cells, &map), [0, 8]);
    for number in [0, 3] {
        let stray = forged(&job, |_, _, t| t.face_numbers[1] = number);
        assert_eq!(both(&stray, &cells, &map), [0, 8]);
        // cell 4 is a voxel, and cell 3 is not asked for
        assert_eq!(fill(&stray, &on_line(&[4, 2, 1]), 1, &map, 3), 0);
    }
}

#[test]
fn an_overlap_is_read_from_the_lowest_block() {
    let (job, blocks) = closed(&volumes()[6], false);
    let cells = on_line(&[2, 3, 2]);
    let mut answers = [77; 3];
    // another code for the shared voxel in the higher block is not read
    assert_eq!(job.fill_cells(&cells, 1, &[9, 1, 1], &mut answers), Ok(()));
    assert_eq!(answers, [77, 2, 77]);
    assert_eq!(job.fill_cells(&cells, 0, &blocks[0].0.map, &mut answers), Ok(()));
    assert_eq!(answers, [2, 2, 2]);
    assert_eq!(job.needed_blocks(&on_line(&[2, 2])), Ok(vec![0]));
    assert_eq!(job.needed_blocks(&Cells::default()), Ok(vec![]));
}

#[test]
fn a_point_is_read_from_the_job() {
    // eight codes: one point, in the middle
    let (mut job, blocks) = closed(&volumes()[8], false);
    let (cells, mut map) = ([[1, 1, 1], [0, 0, 0]].into_iter().collect::<Cells>(), blocks[0].0.map.clone());
    assert_eq!(map[13], 1);
    map[13] = 0;
    let mut answers = [77; 2];
    assert_eq!(job.fill_cells(&cells, 0, &map, &mut answers), Ok(()));
    assert_eq!(answers, [1, 1]);
    job.tables.point_firsts[0] = 14;
    assert_eq!(job.fill_cells(&cells, 0, &map, &mut answers), Ok(()));
    assert_eq!(answers, [0, 1]);
}

#[test]
fn a_closed_job_in_a_file() {
    for v in volumes() {
        let (job, blocks) = closed(&v, false);
        let mut file = Vec::new();
        write_job(&job, &mut file).unwrap();
        let kept = read_job(&file).unwrap();
        assert_eq!((kept.numbers(), &kept.cutting), (job.numbers(), &job.cutting));
        let places = shuffled(&mut Random::new(1), v.cutting.extents);
        assert_eq!(kept.lookup_all(&places, |b| Ok(&blocks[b as usize].0.map)).unwrap(), uncut_numbers(&v, &places), "{}", v.name);
        for length in 0..file.len() {
            assert!(matches!(read_job(&file[..length]), Err(Error::NoJob)), "{length}");
        }
        file.push(0);
        assert!(matches!(read_job(&file), Err(Error::NoJob)));
        // a cut list of more than 1,024 places
        file[13 * 4 + 1] = 5;
        assert!(matches!(read_job(&file), Err(Error::NoJob)));
    }
}

#[test]
fn the_largest_block() {
    for extents in [[1, 1, 1], [2, 2, 2], [5, 1, 3], [64, 64, 64]] {
        let voxels: u32 = extents.iter().map(|&n| u32::from(n)).product();
        let codes: Vec<u32> = (1..=voxels).collect();
        let (_, counts) = Block::label(extents, &codes).unwrap();
        assert_eq!(Counts::most(extents), Ok(counts));
    }
    assert_eq!(Counts::most([64; 3]), Ok(Counts { faces: 774_144, curves: 762_048, points: 250_047 }));
    for extents in [[0, 1, 1], [1, 65, 1], [1, 1, 65_535]] {
        assert_eq!(Counts::most(extents), Err(Refusal::OffSize));
    }
}

#[test]
fn twelve_refusals() {
    for (i, r) in REFUSALS.iter().enumerate() {
        assert_eq!(r.number() as usize, i + 1);
        assert_eq!(Refusal::check(r.number()), Err(*r));
        assert!(r.to_string().starts_with(&format!("refused {} ({})", i + 1, r.name())));
        assert!(r.sentence().ends_with('.'));
    }
    assert_eq!(Refusal::check(0), Ok(()));
    for n in [13, 99, u32::MAX] {
        assert_eq!(Refusal::check(n), Err(Refusal::Unknown(n)));
        assert_eq!(Refusal::Unknown(n).to_string(), format!("refused {n} (unknown): The library gave a number that stands for no refusal."));
    }
}

#[test]
fn a_job_by_its_numbers() {
    let (job, blocks) = closed(&volumes()[6], false);
    let numbers = job.numbers();
    let counts = Counts { faces: 2, curves: 0, points: 0 };
    assert_eq!(numbers, Numbers { stage: 4, extents: [3, 1, 1], entries: counts, tallies: counts, counts });
    let places = [0, 1, 2, 3, 4, 5, 6, 7, 8, 9, 10, 11, 12];
    let of = |faces: u32| Counts { faces, curves: faces + 1, points: faces + 2 };
    assert_eq!(Numbers::from(places), Numbers { stage: 0, extents: [1, 2, 3], entries: of(4), tallies: of(7), counts: of(10) });
    assert_eq!(<[u32; 13]>::from(Numbers::from(places)), places);
    assert_eq!(Job::resume(numbers, job.cutting.clone(), job.tables.clone()), job);
    let stages = [Stage::Enrol, Stage::Seam, Stage::Crossing, Stage::Points, Stage::Closed].map(Some);
    for stage in [0, 1, 2, 3, 4, 5, 9, u32::MAX] {
        let mut forged = Job::resume(Numbers { stage, ..numbers }, job.cutting.clone(), job.tables.clone());
        assert_eq!(forged.stage(), stages.get(stage as usize).copied().flatten());
        if stage > 4 {
            assert_eq!(forged.enrol(0, &blocks[0].0.map), Err(Refusal::WrongStage));
            assert_eq!(forged.row(Kind::Face, 1), Err(Refusal::WrongStage));
        }
    }
}

/// A place that takes nothing.
struct Full;

impl std::io::Write for Full {
    fn write(&mut self, _: &[u8]) -> std::io::Result<usize> {
        Err(std::io::ErrorKind::StorageFull.into())
    }

    fn flush(&mut self) -> std::io::Result<()> {
        Ok(())
    }
}

#[test]
fn what_goes_wrong_with_a_sheet() {
    let line = &volumes()[6];
    let (mut job, blocks) = closed(line, false);
    let mut sheet = Vec::new();
    write_sheet(&job, &mut sheet).unwrap();
    assert_eq!(String::from_utf8(sheet).unwrap(), "faces 2 curves 0 points 0\ncut x 0 1 2 y 0 z 0\nf 1 1 0 0 1 2\nf 2 3 0 0 1 2\n");
    let full = write_sheet(&job, &mut Full).unwrap_err();
    assert!(matches!(full, Error::Io(_)) && full.refusal().is_none(), "{full}");
    job.tables.face_firsts.pop();
    assert_eq!(job.first(Kind::Face, 2), None);
    assert_eq!(write_sheet(&job, &mut Vec::new()).unwrap_err().refusal(), Some(Refusal::WrongTray));
    job.tables.face_listed.pop();
    assert_eq!(write_sheet(&job, &mut Vec::new()).unwrap_err().refusal(), Some(Refusal::WrongTray));
    let open = Job::open(line.cutting.clone(), entries_for(&blocks).unwrap()).unwrap();
    let mut sheet = Vec::new();
    assert_eq!(write_sheet(&open, &mut sheet).unwrap_err().refusal(), Some(Refusal::WrongStage));
    assert!(sheet.is_empty());
}

#[test]
fn what_goes_wrong_with_a_volume() {
    let line = &volumes()[6];
    let short = label_blocks(&line.cutting, &line.codes[..2]).unwrap_err();
    assert_eq!(short.refusal(), Some(Refusal::WrongTray));
    assert!(short.to_string().starts_with("block 1: refused 6 (wrong tray)"), "{short}");
    let mut blocks = label_blocks(&line.cutting, &line.codes).unwrap();
    assert_eq!(entries_for(&blocks).unwrap(), Counts { faces: 2, curves: 0, points: 0 });
    let mut job = Job::open(line.cutting.clone(), Entries::default()).unwrap();
    assert_eq!(run(&mut job, &blocks, false).unwrap_err().refusal(), Some(Refusal::TableFull));
    blocks[0].1.points = u32::MAX;
    assert_eq!(entries_for(&blocks).unwrap().points, u32::MAX);
    blocks[1].1.points = 1;
    let many = entries_for(&blocks).unwrap_err();
    assert!(matches!(many, Error::TooMany) && many.refusal().is_none(), "{many}");
}

#[test]
fn even_cuts() {
    assert_eq!(Cutting::even([65, 1, 4], 64).lists, [vec![0, 63, 64], vec![0], vec![0, 3]]);
    assert_eq!(Cutting::even([5, 3, 2], 2).lists, [vec![0, 1, 2, 3, 4], vec![0, 1, 2], vec![0, 1]]);
    for extents in [[1, 1, 1], [20, 20, 20], [130, 7, 2]] {
        for size in [2, 3, 17, 64] {
            let cutting = Cutting::even(extents, size);
            assert_eq!(cuts(&cutting).refusal(), 0);
            assert_eq!(cuts(&cutting).seams(), cutting.seams().iter().map(|&(a, b)| (a as usize, b as usize)).collect::<Vec<_>>());
        }
    }
}

#[test]
fn seeds_are_spread() {
    let extents = [60, 50, 40];
    let seeds = spread(extents, 25);
    assert_eq!(seeds.len(), 25);
    assert!(seeds.iter().all(|seed| (0..3).all(|a| (0..extents[a] as i64).contains(&seed[a]))), "{seeds:?}");
    // some in each eighth of the volume
    let eighths: BTreeSet<_> = seeds.iter().map(|seed| [0, 1, 2].map(|a: usize| 2 * seed[a] >= extents[a] as i64)).collect();
    assert_eq!(eighths.len(), 8);
    let codes = voronoi(extents, &seeds);
    assert_eq!(codes.len(), 60 * 50 * 40);
    for (s, &[x, y, z]) in seeds.iter().enumerate() {
        assert_eq!(codes[(x + 60 * (y + 50 * z)) as usize] as usize, s + 1);
    }
    assert_eq!(voronoi([5, 1, 1], &[[4, 0, 0], [0, 0, 0]]), [2, 2, 1, 1, 1]);
    assert_eq!(voronoi([2, 1, 1], &[]), [1, 1]);
}

#[test]
fn a_drilled_core() {
    let mut codes = [9; 32];
    drill([4, 4, 2], &mut codes);
    assert_eq!(codes[..16], [0, 9, 9, 0, 9, 9, 9, 9, 9, 9, 9, 9, 0, 9, 9, 0]);
    assert_eq!(codes[..16], codes[16..]);
}
