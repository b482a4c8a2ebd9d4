//! Random volumes, uncut and cut, with what this implementation answers, as the tables of the theory crate `theory_samples`.
//! Its theorems compute the definitions of the proved code on them.
use crate::cutting::Cutting;
use crate::grid::{width, Extents, Grid};
use crate::label::{number, Labelling};
use crate::random::{cuts, volume, Random};
use std::fmt::Display;

/// How many volumes there are of each kind, and how many voxels one has at most, uncut and cut.
const VOLUMES: (usize, usize) = (8, 12);
const JOBS: (usize, usize) = (3, 12);

const COMMAND: &str = "cargo run --release --offline --quiet --manifest-path reference/Cargo.toml --bin samples";

const HEAD: &str = "\
-- Assumes nothing.
use Rattle.std.specs.Prelude.{List, [], ◌∷◌}
use Rattle.closure.specs.Joined.{edge}
use Rattle.cells.specs.Box.{triple}
use Rattle.theory_model.specs.Volumes.{told}
use Rattle.theory_samples.specs.Answers.{components, Sample, sample, block, kind_contents, Job, job}
";

/// A list as the theory writes it.
fn list<T: Display>(entries: impl IntoIterator<Item = T>) -> String {
    entries.into_iter().map(|entry| format!("{entry} ∷ ")).collect::<String>() + "[]"
}

fn triple([x, y, z]: Extents) -> String {
    format!("triple {x} {y} {z}")
}

/// A list as an argument.
fn argument<T: Display>(entries: impl IntoIterator<Item = T>) -> String {
    let text = list(entries);
    if text == "[]" {
        text
    } else {
        format!("({text})")
    }
}

/// The faces in a line, then the curves and the points: how many, their first cells, and `rows`, as the arguments of `what`.
fn components(what: &str, labelling: &Labelling, rows: impl Fn(usize) -> String) -> String {
    let [faces, curves, points] = [2, 1, 0].map(|order| {
        let found = &labelling.components[order];
        format!("({what} {} {} {})", found.len(), argument(found.iter().map(|c| c.first)), rows(order))
    });
    format!("    {faces}\n    {curves} {points} ∷\n")
}

/// A volume with its map and its components, whose rows have six places.
fn sample(extents: Extents, codes: &[u32]) -> String {
    let labelling = number(extents, codes);
    let rows = |order: usize| argument(labelling.components[order].iter().map(|c| argument(c.row)));
    let kinds = components("components", &labelling, rows);
    format!("    sample ({}) {} {}\n{kinds}", triple(extents), argument(codes), argument(&labelling.map))
}

/// A block: extents, codes, map, and the positions of its cells in the volume.
fn block(cutting: &Cutting, codes: &[u32], b: usize) -> String {
    let (grid, own) = (cutting.grid(b), cutting.codes(b, codes));
    let volume = Grid::new(cutting.extents);
    let positions = (0..grid.cells()).map(|p| volume.position(cutting.outside(b, p)));
    format!("block ({}) {} {} {}", triple(grid.extents), argument(&own), argument(number(grid.extents, &own).map), argument(positions))
}

/// As many faces and curves as are enrolled, and as many points as are found.
fn entries(cutting: &Cutting, codes: &[u32]) -> [u32; 3] {
    let counts = |b: usize| number(cutting.grid(b).extents, &cutting.codes(b, codes)).counts();
    let enrolled = |k: usize| (0..cutting.blocks()).map(|b| counts(b)[k]).sum();
    [enrolled(0), enrolled(1), number(cutting.extents, codes).counts()[2]]
}

/// A cut volume: its blocks and seams, and what the closed tables hold, whose rows have two, four or six places.
fn job(cutting: &Cutting, codes: &[u32]) -> String {
    let blocks: String = (0..cutting.blocks()).map(|b| block(cutting, codes, b) + " ∷\n    ").collect();
    let mut seams = cutting.seams();
    seams.sort_unstable();
    let seams = argument(seams.iter().map(|(b, c)| format!("edge {b} {c}")));
    let labelling = number(cutting.extents, codes);
    let [faces, curves, points] = entries(cutting, codes);
    let lists = [0, 1, 2].map(|a: usize| list(&cutting.cuts[a]));
    let stated = format!("record {{ extents = {}; cx = {}; cy = {}; cz = {} }}", triple(cutting.extents), lists[0], lists[1], lists[2]);
    let rows = |order: usize| argument(labelling.components[order].iter().flat_map(|c| c.row.into_iter().take(width(order))));
    let kinds = components("kind_contents", &labelling, rows);
    format!("    job ({blocks}[])\n    {seams} (told ({stated}) {faces} {curves} {points}) {}\n{kinds}", argument(codes))
}

/// Extents of 1 to 3 voxels, with at most so many voxels in all.
fn extents(random: &mut Random, most: usize) -> Extents {
    loop {
        let extents = [0; 3].map(|_| 1 + random.below(3));
        if extents.iter().product::<usize>() <= most {
            return extents;
        }
    }
}

/// A random volume that has faces, curves or points: k is 0, 1 or 2.
fn uncut(random: &mut Random, k: usize) -> (Extents, Vec<u32>) {
    loop {
        let extents = extents(random, VOLUMES.1);
        let codes = volume(random, extents);
        if number(extents, &codes).counts()[k] > 0 {
            return (extents, codes);
        }
    }
}

/// A random volume in two to four blocks that has faces, curves or points; of the faces or curves some are joined.
fn cut(random: &mut Random, k: usize) -> (Cutting, Vec<u32>) {
    loop {
        let extents = extents(random, JOBS.1);
        let cutting = Cutting { extents, cuts: extents.map(|n| cuts(random, n)) };
        let codes = volume(random, extents);
        let count = number(extents, &codes).counts()[k];
        if (2..=4).contains(&cutting.blocks()) && count > 0 && (k == 2 || entries(&cutting, &codes)[k] > count) {
            return (cutting, codes);
        }
    }
}

/// The file: a table of volumes, and a table of volumes that are cut.
pub fn printed(seed: u64) -> String {
    let mut random = Random::new(seed);
    let mut text = format!("-- Random volumes, uncut and cut, with the answers of the second implementation. Generated by `{COMMAND} {seed}`.\n{HEAD}");
    text += "\n-- Volumes, with maps and components.\nunfoldable pub samples : List Sample\nsamples =\n";
    for n in 0..3 * VOLUMES.0 {
        let (extents, codes) = uncut(&mut random, n % 3);
        text += &sample(extents, &codes);
    }
    text += "    []\n\n-- Volumes that are cut, with blocks, seams and closed tables.\nunfoldable pub jobs : List Job\njobs =\n";
    for n in 0..3 * JOBS.0 {
        let (cutting, codes) = cut(&mut random, n % 3);
        text += &job(&cutting, &codes);
    }
    text + "    []\n"
}

#[test]
fn the_theory() {
    let file = concat!(env!("CARGO_MANIFEST_DIR"), "/../crates/theory_samples/specs/Samples.antt");
    assert_eq!(std::fs::read_to_string(file).unwrap(), printed(1));
}
