//! The volumes of "Volumes to try", two that show document 003's step 4 at fault, and some with zeros (document 02, item 4). Tests only.
use crate::book::{Answer, Book, Call};
use crate::cutting::Cutting;
use crate::grid::Row;
use crate::label::{is_labelling, label, number};

/// 3×1×1, codes 1 2 1, cut 0 1 2.
pub fn line() -> (Cutting, Vec<u32>) {
    (Cutting { extents: [3, 1, 1], cuts: [vec![0, 1, 2], vec![0], vec![0]] }, vec![1, 2, 1])
}

/// 2×3×1, left column 1, right column 2, y cut 0 1 2.
pub fn columns() -> (Cutting, Vec<u32>) {
    (Cutting { extents: [2, 3, 1], cuts: [vec![0, 1], vec![0, 1, 2], vec![0]] }, vec![1, 2, 1, 2, 1, 2])
}

/// Figure 5 of document 003, in blocks of 2×2×2.
pub fn figure() -> (Cutting, Vec<u32>) {
    (Cutting::finest([3, 3, 2]), vec![1, 1, 1, 1, 2, 1, 1, 1, 3, 4, 4, 4, 4, 5, 4, 4, 4, 6])
}

/// In the upper block the curves a, a, b, b meet at an inactive point, and a and b are joined there alone.
pub fn handle() -> (Cutting, Vec<u32>) {
    let layers = [[3; 15], [1, 1, 1, 1, 3, 1, 3, 1, 1, 3, 1, 1, 1, 1, 3], [2, 2, 2, 2, 3, 2, 3, 3, 2, 3, 2, 2, 2, 3, 3]];
    (Cutting { extents: [5, 3, 3], cuts: [vec![0, 4], vec![0, 2], vec![0, 1, 2]] }, layers.concat())
}

/// Block 4 calls its point active; seams alone join its curves, and uncut it is inactive.
pub fn rings() -> (Cutting, Vec<u32>) {
    let layers = [[1; 16], [2, 2, 2, 2, 2, 3, 2, 2, 2, 2, 3, 2, 2, 2, 2, 2]];
    (Cutting::finest([4, 4, 2]), layers.concat())
}

/// Zeros only, cut at every layer.
pub fn space() -> (Cutting, Vec<u32>) {
    (Cutting::finest([3, 3, 2]), vec![0; 18])
}

/// One code with a hole in the middle, which all eight blocks share.
pub fn hole() -> (Cutting, Vec<u32>) {
    let mut codes = vec![1; 27];
    codes[13] = 0;
    (Cutting::finest([3; 3]), codes)
}

/// Two voxels, codes 5 and 7, with space on all six sides.
pub fn core() -> (Cutting, Vec<u32>) {
    let mut codes = vec![0; 36];
    (codes[17], codes[18]) = (5, 7);
    (Cutting { extents: [4, 3, 3], cuts: [vec![0, 2, 3], vec![0, 1, 2], vec![0, 1, 2]] }, codes)
}

/// The book of a closed job, and the maps of its blocks.
pub fn closed(cutting: &Cutting, codes: &[u32]) -> (Book, Vec<Vec<u32>>) {
    let maps: Vec<Vec<u32>> = (0..cutting.blocks()).map(|b| number(cutting.grid(b).extents, &cutting.codes(b, codes)).map).collect();
    let mut book = Book::open(cutting.clone(), [u32::MAX; 3]).unwrap();
    let blocks = || maps.iter().enumerate();
    blocks().for_each(|(block, map)| assert_eq!(book.call(&Call::Enrol { block, map }), Answer::Done));
    for (a, b) in cutting.seams() {
        assert_eq!(book.call(&Call::Seam { blocks: (a, b), maps: (&maps[a], &maps[b]) }), Answer::Done);
    }
    blocks().for_each(|(block, map)| assert_eq!(book.call(&Call::Crossing { block, map }), Answer::Done));
    blocks().for_each(|(block, map)| assert_eq!(book.call(&Call::Point { block, map }), Answer::Done));
    (book, maps)
}

fn map(extents: [usize; 3], codes: &[u32]) -> Vec<u32> {
    number(extents, codes).map
}

fn counts(extents: [usize; 3], codes: &[u32]) -> [u32; 3] {
    number(extents, codes).counts()
}

fn row(extents: [usize; 3], codes: &[u32], order: usize, n: usize) -> Row {
    number(extents, codes).components[order][n - 1].row
}

#[test]
fn maps_listed() {
    assert_eq!(map([1, 1, 1], &[9]), [9]);
    assert_eq!(map([2, 1, 1], &[1, 2]), [1, 1, 2]);
    assert_eq!(map([2, 2, 1], &[1, 1, 1, 2]), [1, 0, 1, 0, 0, 1, 1, 1, 2]);
    assert_eq!(map([2, 2, 1], &[1, 2, 3, 4]), [1, 1, 2, 2, 1, 3, 3, 4, 4]);
    assert_eq!(map([2, 2, 1], &[1, 2, 2, 1]), [1, 1, 2, 1, 0, 1, 2, 1, 1]);
    assert_eq!(map([2, 2, 1], &[1, 1, 2, 3]), [1, 0, 1, 1, 1, 2, 2, 3, 3]);
}

#[test]
fn counts_and_rows_listed() {
    assert_eq!(counts([1, 1, 1], &[9]), [0, 0, 0]);
    assert_eq!(row([2, 1, 1], &[1, 2], 2, 1), [1, 2, 0, 0, 0, 0]);
    assert_eq!(row([2, 2, 1], &[1, 2, 3, 4], 1, 1), [1, 2, 3, 4, 0, 0]);
    let cube = [1, 2, 3, 4, 5, 6, 7, 8];
    assert_eq!(counts([2, 2, 2], &cube), [12, 6, 1]);
    assert_eq!(row([2, 2, 2], &cube, 0, 1), [1, 2, 3, 4, 5, 6]);
}

#[test]
fn cut_volumes_listed() {
    let (cutting, codes) = line();
    assert_eq!(map([2, 1, 1], &cutting.codes(0, &codes)), [1, 1, 2]);
    assert_eq!(map([2, 1, 1], &cutting.codes(1, &codes)), [2, 1, 1]);
    assert_eq!(map([3, 1, 1], &codes), [1, 1, 2, 2, 1]);
    let (_, codes) = columns();
    assert_eq!(counts([2, 3, 1], &codes), [1, 0, 0]);
}

#[test]
fn figure_5() {
    let (cutting, codes) = figure();
    let layers = [
        [1, 0, 1, 0, 1, 0, 0, 1, 0, 0, 1, 1, 2, 1, 1, 0, 0, 1, 0, 2, 1, 0, 1, 2, 3],
        [3, 0, 3, 0, 3, 0, 0, 1, 0, 0, 3, 1, 4, 1, 3, 0, 0, 1, 0, 2, 3, 0, 3, 2, 5],
        [4, 0, 4, 0, 4, 0, 0, 6, 0, 0, 4, 6, 5, 6, 4, 0, 0, 6, 0, 7, 4, 0, 4, 7, 6],
    ];
    assert_eq!(map(cutting.extents, &codes), layers.concat());
    assert_eq!(counts(cutting.extents, &codes), [7, 2, 0]);
    assert_eq!(cutting.blocks(), 4);
}

#[test]
fn handle_and_rings() {
    let (cutting, codes) = handle();
    assert_eq!((cutting.refusal(), counts(cutting.extents, &codes)), (0, [3, 1, 0]));
    let (cutting, codes) = rings();
    assert_eq!((cutting.refusal(), counts(cutting.extents, &codes)), (0, [4, 2, 0]));
}

#[test]
fn maps_with_zeros() {
    assert_eq!(map([2, 1, 1], &[5, 0]), [5, 1, 0]);
    assert_eq!(row([2, 1, 1], &[5, 0], 2, 1), [5, 0, 0, 0, 0, 0]);
    let apart = [1, 0, 0, 2];
    assert_eq!(map([2, 2, 1], &apart), [1, 1, 0, 1, 0, 2, 0, 2, 2]);
    assert_eq!(counts([2, 2, 1], &apart), [2, 0, 0]);
    assert_eq!([1, 2].map(|n| row([2, 2, 1], &apart, 2, n)), [[1, 0, 0, 0, 0, 0], [2, 0, 0, 0, 0, 0]]);
    let (cutting, codes) = space();
    assert_eq!(map(cutting.extents, &codes), [0; 75]);
    assert_eq!(counts(cutting.extents, &codes), [0; 3]);
}

/// First cells and rows of an order.
fn listed(extents: [usize; 3], codes: &[u32], order: usize) -> Vec<(usize, Row)> {
    number(extents, codes).components[order].iter().map(|c| (c.first, c.row)).collect()
}

#[test]
fn components_with_zeros() {
    let (cutting, codes) = hole();
    let labelling = number(cutting.extents, &codes);
    assert_eq!(labelling.counts(), [1, 0, 0]);
    assert_eq!(listed(cutting.extents, &codes, 2), [(37, [1, 0, 0, 0, 0, 0])]);
    let faces = (0..labelling.map.len()).filter(|&p| labelling.grid.order(p) == 2 && labelling.map[p] == 1);
    assert_eq!(faces.collect::<Vec<_>>(), [37, 57, 61, 63, 67, 87]);
    let (cutting, codes) = core();
    assert_eq!(counts(cutting.extents, &codes), [3, 1, 0]);
    assert_eq!(listed(cutting.extents, &codes, 2), [(51, [5, 0, 0, 0, 0, 0]), (53, [7, 0, 0, 0, 0, 0]), (87, [5, 7, 0, 0, 0, 0])]);
    assert_eq!(listed(cutting.extents, &codes, 1), [(52, [1, 2, 3, 0, 0, 0])]);
}

#[test]
fn entry() {
    let (mut map, mut work) = ([8; 3], [8; 3]);
    assert_eq!(label(&[], [0, 1, 1], &mut [], &mut []), Err(1));
    assert_eq!(label(&[], [1, 65, 1], &mut [], &mut []), Err(1));
    assert_eq!(label(&[0], [2, 1, 1], &mut map, &mut work), Err(6));
    assert_eq!(label(&[0, 1], [2, 1, 1], &mut map[..2], &mut work), Err(6));
    assert_eq!(label(&[0, 1], [2, 1, 1], &mut map, &mut work[..2]), Err(6));
    assert_eq!((map, work), ([8; 3], [8; 3]));
    assert_eq!(label(&[1, 2], [2, 1, 1], &mut map, &mut work), Ok([1, 0, 0]));
    assert_eq!((map, work), ([1, 1, 2], [0; 3]));
    assert_eq!(label(&[1, 0], [2, 1, 1], &mut map, &mut work), Ok([1, 0, 0]));
    assert_eq!((map, work), ([1, 1, 0], [0; 3]));
    assert_eq!(label(&[5; 64], [1, 64, 1], &mut [1; 127], &mut [1; 127]), Ok([0; 3]));
}

#[test]
fn which_maps_a_labelling_leaves() {
    assert!(is_labelling([2, 1, 1], &[1, 1, 2]));
    assert!(!is_labelling([2, 1, 1], &[1, 2, 2]));
    assert!(!is_labelling([2, 1, 1], &[1, 0, 2]));
    assert!(is_labelling([2, 1, 1], &[0, 1, 2]));
    assert!(!is_labelling([2, 1, 1], &[0, 0, 2]));
    assert!(!is_labelling([2, 1, 1], &[1, 1, 2, 0, 0]));
    // 15 cells either way: the shape decides
    let map = number([2, 3, 1], &[1, 2, 3, 4, 5, 6]).map;
    assert!(is_labelling([2, 3, 1], &map) && !is_labelling([3, 2, 1], &map));
}

/// What the proved program `program_volumes` prints, from the second implementation.
fn trial() -> String {
    let mut text = String::new();
    let labelled = |name: &str, extents: [u16; 3], codes: &[u32], map: &mut [u32], work: &mut [u32]| {
        let (refusal, [faces, curves, points]) = match label(codes, extents, map, work) {
            Ok(counts) => (0, counts),
            Err(refusal) => (refusal, [0; 3]),
        };
        format!("{name} refusal {refusal} faces {faces} curves {curves} points {points}\n")
    };
    let shown = |name: &str, tray: &[u32]| tray.iter().fold(name.to_string(), |line, v| format!("{line} {v}")) + "\n";
    let mut codes = [1; 64];
    codes[63] = 2;
    let (mut map, mut work) = ([5; 127], [5; 127]);
    for (name, extents) in [("64x1x1", [64, 1, 1]), ("1x64x1", [1, 64, 1]), ("1x1x64", [1, 1, 64])] {
        text += &labelled(name, extents, &codes, &mut map, &mut work);
    }
    text += &shown("1x1x64", &map);
    text += &labelled("0x1x1", [0, 1, 1], &codes, &mut map, &mut work);
    let (mut map, mut work) = ([5; 129], [5; 129]);
    for (name, extents) in [("65x1x1", [65, 1, 1]), ("1x65x1", [1, 65, 1]), ("1x1x65", [1, 1, 65])] {
        text += &labelled(name, extents, &[1; 65], &mut map, &mut work);
    }
    text += &shown("1x1x65", &map);
    text += &shown("1x1x65", &work);
    for (name, (cutting, codes)) in [("figure", figure()), ("handle", handle()), ("rings", rings()), ("space", space()), ("hole", hole()), ("core", core())] {
        let cells = crate::grid::Grid::new(cutting.extents).cells();
        let (mut map, mut work) = (vec![5; cells], vec![5; cells]);
        text += &labelled(name, cutting.extents.map(|n| n as u16), &codes, &mut map, &mut work);
        text += &shown(name, &map);
    }
    for (name, cuts) in [("cut 0 64", vec![0, 64]), ("cut 0 63 64", vec![0, 63, 64])] {
        let refusal = Cutting { extents: [65, 1, 1], cuts: [cuts, vec![0], vec![0]] }.refusal();
        text += &format!("{name} refusal {refusal}\n");
        text += &shown(name, &[if refusal == 0 { 0 } else { 7 }; 12]);
    }
    text
}

#[test]
fn the_test_program() {
    let file = concat!(env!("CARGO_MANIFEST_DIR"), "/../crates/program_volumes/stdout");
    assert_eq!(std::fs::read_to_string(file).unwrap(), trial());
}
