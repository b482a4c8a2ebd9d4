//! Times of the proved labeller, writer, reader and printer, of the readings' step, and of cells looked up together, beside plain Rust, in one run: medians of
//! several rounds, as ratios.
mod cells;
mod codec;
mod joins;
mod lookups;
mod pages;
mod plain;
mod volume;

use plain::Counts;
use std::time::Instant;
use tugrelis::raw;
use tugrelis::volumes::{drill, voronoi};

const SIDE: usize = 64;
const ROUNDS: usize = 11;

fn proved(codes: &[u32], extents: [usize; 3], map: &mut [u32], work: &mut [u32]) -> Counts {
    let mut counts = [0u32; 3];
    let [nx, ny, nz] = extents.map(|n| n as u16);
    let refusal = raw::label(codes, nx, ny, nz, map, work, &mut counts);
    assert_eq!(refusal, 0);
    Counts { faces: counts[0], curves: counts[1], points: counts[2] }
}

/// A small generator: the same volumes in every run.
struct Random(u64);

impl Random {
    fn below(&mut self, n: u64) -> u64 {
        self.0 = self.0.wrapping_mul(6364136223846793005).wrapping_add(1442695040888963407);
        (self.0 >> 33) % n
    }
}

fn volumes() -> Vec<(&'static str, Vec<u32>)> {
    let n = SIDE * SIDE * SIDE;
    let mut random = Random(1);
    let seeds: Vec<[i64; 3]> = (0..60).map(|_| [0; 3].map(|_: i64| random.below(SIDE as u64) as i64)).collect();
    let voronoi = voronoi([SIDE; 3], &seeds);
    let mut core = voronoi.clone();
    drill([SIDE; 3], &mut core);
    vec![
        ("Voronoi, 60 seeds", voronoi),
        ("random codes 1 to 3", (0..n).map(|_| 1 + random.below(3) as u32).collect()),
        ("all codes different", (1..=n as u32).collect()),
        ("one code", vec![7; n]),
        ("Voronoi, drilled core", core),
    ]
}

fn median(mut times: Vec<f64>) -> f64 {
    times.sort_by(|a, b| a.total_cmp(b));
    times[times.len() / 2]
}

fn timed<T>(times: &mut Vec<f64>, work: impl FnOnce() -> T) -> T {
    let began = Instant::now();
    let answer = work();
    times.push(began.elapsed().as_secs_f64() * 1e3);
    answer
}

fn labelling(name: &str, codes: &[u32], map: &mut [u32]) {
    let extents = [SIDE; 3];
    let cells = map.len();
    let mut work = vec![5; cells];
    let (mut other, mut scratch) = (vec![0; cells], vec![0; cells]);
    let mut times = [Vec::new(), Vec::new(), Vec::new()];
    for _ in 0..ROUNDS {
        let counts = timed(&mut times[0], || proved(codes, extents, map, &mut work));
        let expected = timed(&mut times[1], || plain::by_union_find(codes, extents, &mut other, &mut scratch));
        assert_eq!(counts, expected, "{name}");
        assert!(map == other, "{name}: the maps differ");
        assert!(work.iter().all(|&w| w == 0));
        let expected = timed(&mut times[2], || plain::by_depth_first(codes, extents, &mut other));
        assert_eq!(counts, expected, "{name}");
        assert!(map == other, "{name}: the maps differ");
    }
    let [a, b, c] = times.map(median);
    println!("{:<22} {:>8.1} {:>10.1} {:>8.2} {:>12.1} {:>8.2}", name, a, b, a / b, c, a / c);
}

/// A volume labelled so many times, for the count of instructions. Prints its name.
fn labelled(volume: usize, times: usize) {
    let (name, codes) = volumes().swap_remove(volume);
    let cells = plain::cells([SIDE; 3]);
    let (mut map, mut work) = (vec![3; cells], vec![5; cells]);
    for _ in 0..times {
        proved(&codes, [SIDE; 3], &mut map, &mut work);
    }
    println!("{name}");
}

fn records(name: &str, map: &[u32]) {
    let (extents, origin) = ([SIDE as u16; 3], [1, 2, 3]);
    let room = 12 + map.len().div_ceil(8) + 4 * map.len();
    let (mut tray, mut other) = (vec![9u8; room], vec![9u8; room]);
    let (mut back, mut again) = (vec![1u32; map.len()], vec![1u32; map.len()]);
    let mut times = [Vec::new(), Vec::new(), Vec::new(), Vec::new()];
    for _ in 0..ROUNDS {
        let mut size = 0;
        let ([nx, ny, nz], [ox, oy, oz]) = (extents, origin);
        let refusal = timed(&mut times[0], || raw::write_record(nx, ny, nz, ox, oy, oz, map, &mut tray, &mut size));
        assert_eq!(refusal, 0);
        let length = timed(&mut times[1], || codec::write(extents, origin, map, &mut other)).unwrap();
        assert!(size == length && tray == other, "{name}: the records differ");
        let mut fields = [0u16; 6];
        let refusal = timed(&mut times[2], || raw::read_record(&tray[..size], &mut back, &mut fields));
        assert_eq!(refusal, 0);
        let head = timed(&mut times[3], || codec::read(&other[..length], &mut again));
        assert_eq!(head, Some((extents, origin)));
        assert_eq!(fields, [64, 64, 64, 1, 2, 3]);
        assert!(back == map && again == map, "{name}: the maps differ");
    }
    let [a, b, c, d] = times.map(median);
    println!("{:<22} {:>8.1} {:>10.1} {:>8.2} {:>12.1} {:>10.1} {:>8.2}", name, a, b, a / b, c, d, c / d);
}

/// All layers of a block, each in turn into one tray.
fn printing(name: &str, map: &[u32]) {
    let (extents, layers) = ([SIDE as u16; 3], 2 * SIDE - 1);
    let [nx, ny, nz] = extents;
    let (mut tray, mut other) = (vec![9u8; 81 * layers * layers.div_ceil(16)], vec![9u8; 81 * layers * layers.div_ceil(16)]);
    let proved = |z: usize, tray: &mut [u8]| assert_eq!(raw::print_layer(nx, ny, nz, z as u32, map, tray), 0);
    let plain = |z: usize, tray: &mut [u8]| pages::print(extents, z as u32, map, tray).unwrap();
    for z in 0..layers {
        proved(z, &mut tray);
        plain(z, &mut other);
        assert!(tray == other, "{name}: the pages of layer {z} differ");
    }
    let mut times = [Vec::new(), Vec::new()];
    for _ in 0..ROUNDS {
        timed(&mut times[0], || (0..layers).for_each(|z| proved(z, &mut tray)));
        timed(&mut times[1], || (0..layers).for_each(|z| plain(z, &mut other)));
        assert!(tray == other, "{name}: the last pages differ");
    }
    let [a, b] = times.map(median);
    println!("{:<22} {:>8.1} {:>10.1} {:>8.2}", name, a, b, a / b);
}

/// One block: labelled, written, read and printed.
fn one_block() {
    let cells = plain::cells([SIDE; 3]);
    println!("one block of 64x64x64, {} cells, medians of {} rounds, milliseconds", cells, ROUNDS);
    println!("{:<22} {:>8} {:>10} {:>8} {:>12} {:>8}", "labelling", "proved", "union-find", "ratio", "depth-first", "ratio");
    let mut maps = Vec::new();
    for (name, codes) in volumes() {
        let mut map = vec![3; cells];
        labelling(name, &codes, &mut map);
        maps.push((name, map));
    }
    println!("{:<22} {:>8} {:>10} {:>8} {:>12} {:>10} {:>8}", "records", "write", "plain", "ratio", "read", "plain", "ratio");
    for (name, map) in &maps {
        records(name, map);
    }
    println!("{:<22} {:>8} {:>10} {:>8}", "all 127 layers", "print", "plain", "ratio");
    for (name, map) in &maps {
        printing(name, map);
    }
}

/// Cells looked up together.
fn looked_up() {
    println!("\n{:<22} {:>8} {:>10} {:>8} {:>14} {:>18}", "4,096 cells", "filling", "plain", "ratio", "4,096 lookups", "lookups/filling");
    for (name, codes) in volumes() {
        lookups::together(name, &codes, SIDE, ROUNDS);
    }
    lookups::growth();
}

fn main() {
    let words: Vec<String> = std::env::args().skip(1).collect();
    if words == ["cells"] {
        return looked_up();
    }
    if let [k, stage] = &words[..] {
        return volume::counted(k.parse().expect("a number"), stage.parse().expect("a number"));
    }
    if let [word, volume, times] = &words[..] {
        let (volume, times) = (volume.parse().expect("a number"), times.parse().expect("a number"));
        return match &word[..] {
            "label" => labelled(volume, times),
            "strain" => {
                let (name, codes) = volumes().swap_remove(volume);
                volume::strained(name, &codes, SIDE, times)
            }
            _ => panic!("label or strain"),
        };
    }
    one_block();
    println!("\n{:<22} {:>8} {:>10} {:>8} {:>12} {:>12} {:>20}", "readings", "proved", "plain", "ratio", "point step", "one pass", "proved/(both)");
    for (name, codes) in volumes() {
        volume::readings(name, &codes, SIDE, ROUNDS);
    }
    looked_up();
    volume::growth();
}
