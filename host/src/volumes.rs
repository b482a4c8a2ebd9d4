//! The volumes to try of document 01, two more, and some with zeros, each with a cutting.
use crate::cutting::Cutting;

/// A cut volume: its name, cutting and codes.
pub struct Volume {
    pub name: &'static str,
    pub cutting: Cutting,
    pub codes: Vec<u32>,
}

fn volume(name: &'static str, extents: [u32; 3], lists: [&[u32]; 3], codes: &[u32]) -> Volume {
    Volume { name, cutting: Cutting { extents, lists: lists.map(<[u32]>::to_vec) }, codes: codes.to_vec() }
}

/// Figure 5 of document 003 as a volume of 3×3×2 voxels.
const FIGURE: [u32; 18] = [1, 1, 1, 1, 2, 1, 1, 1, 3, 4, 4, 4, 4, 5, 4, 4, 4, 6];

/// Two curves that look apart in the upper half are one.
const HANDLE: [u32; 45] =
    [3, 3, 3, 3, 3, 3, 3, 3, 3, 3, 3, 3, 3, 3, 3, 1, 1, 1, 1, 3, 1, 3, 1, 1, 3, 1, 1, 1, 1, 3, 2, 2, 2, 2, 3, 2, 3, 3, 2, 3, 2, 2, 2, 3, 3];

/// A point that its block of 2×2×2 calls active is inactive in the volume.
const RINGS: [u32; 32] = [1, 1, 1, 1, 1, 1, 1, 1, 1, 1, 1, 1, 1, 1, 1, 1, 2, 2, 2, 2, 2, 3, 2, 2, 2, 2, 3, 2, 2, 2, 2, 2];

/// All of them: those of document 01 in its order, then those with zeros.
pub fn volumes() -> Vec<Volume> {
    vec![
        volume("one voxel", [1, 1, 1], [&[0], &[0], &[0]], &[9]),
        volume("two voxels", [2, 1, 1], [&[0, 1], &[0], &[0]], &[1, 2]),
        volume("corner", [2, 2, 1], [&[0, 1], &[0, 1], &[0]], &[1, 1, 1, 2]),
        volume("four codes", [2, 2, 1], [&[0, 1], &[0, 1], &[0]], &[1, 2, 3, 4]),
        volume("checkers", [2, 2, 1], [&[0, 1], &[0, 1], &[0]], &[1, 2, 2, 1]),
        volume("three codes", [2, 2, 1], [&[0, 1], &[0, 1], &[0]], &[1, 1, 2, 3]),
        volume("line", [3, 1, 1], [&[0, 1, 2], &[0], &[0]], &[1, 2, 1]),
        volume("columns", [2, 3, 1], [&[0, 1], &[0, 1, 2], &[0]], &[1, 2, 1, 2, 1, 2]),
        volume("cube", [2, 2, 2], [&[0, 1], &[0, 1], &[0, 1]], &[1, 2, 3, 4, 5, 6, 7, 8]),
        volume("figure", [3, 3, 2], [&[0, 1, 2], &[0, 1, 2], &[0, 1]], &FIGURE),
        volume("handle", [5, 3, 3], [&[0, 4], &[0, 2], &[0, 1, 2]], &HANDLE),
        volume("handle, every layer cut", [5, 3, 3], [&[0, 1, 2, 3, 4], &[0, 1, 2], &[0, 1, 2]], &HANDLE),
        volume("rings", [4, 4, 2], [&[0, 1, 2, 3], &[0, 1, 2, 3], &[0, 1]], &RINGS),
        volume("rings, one cut", [4, 4, 2], [&[0, 2, 3], &[0, 3], &[0, 1]], &RINGS),
        volume("long", [65, 1, 1], [&[0, 63, 64], &[0], &[0]], &{
            let mut codes = [1; 65];
            codes[64] = 2;
            codes
        }),
        volume("edge", [2, 1, 1], [&[0, 1], &[0], &[0]], &[5, 0]),
        volume("apart", [2, 2, 1], [&[0, 1], &[0, 1], &[0]], &[1, 0, 0, 2]),
        volume("space", [3, 3, 2], [&[0, 1, 2], &[0, 1, 2], &[0, 1]], &[0; 18]),
        volume("hole", [3, 3, 3], [&[0, 1, 2], &[0, 1, 2], &[0, 1, 2]], &{
            let mut codes = [1; 27];
            codes[13] = 0;
            codes
        }),
        volume("core", [4, 3, 3], [&[0, 2, 3], &[0, 1, 2], &[0, 1, 2]], &{
            let mut codes = [0; 36];
            (codes[17], codes[18]) = (5, 7);
            codes
        }),
    ]
}

/// A volume of which each voxel has the code of its nearest seed, the first of equally near ones. Seeds are places; codes count from 1.
pub fn voronoi(extents: [usize; 3], seeds: &[[i64; 3]]) -> Vec<u32> {
    let [nx, ny, nz] = extents;
    let nearest = |v: usize| {
        let p = [v % nx, v / nx % ny, v / nx / ny].map(|c| c as i64);
        let far = |seed: &[i64; 3]| (0..3).map(|a| (p[a] - seed[a]).pow(2)).sum::<i64>();
        (0..seeds.len()).min_by_key(|&s| far(&seeds[s])).map_or(1, |s| s as u32 + 1)
    };
    (0..nx * ny * nz).map(nearest).collect()
}

/// Gives 0 to the voxels outside the widest upright cylinder: space around a core.
pub fn drill([nx, ny, _]: [usize; 3], codes: &mut [u32]) {
    // distances from the middle, in half voxels
    let far = |at: usize, n: usize| (2 * at + 1).abs_diff(n).pow(2);
    for (v, code) in codes.iter_mut().enumerate() {
        if far(v % nx, nx) + far(v / nx % ny, ny) > nx.min(ny).pow(2) {
            *code = 0;
        }
    }
}

/// So many seeds, spread over a volume: the same in every run.
pub fn spread(extents: [usize; 3], many: usize) -> Vec<[i64; 3]> {
    // 1/r, 1/r² and 1/r³ for the root r of r⁴ = r + 1, by 2^-32: their multiples modulo 1 fill a cube evenly
    const STEPS: [u32; 3] = [3_518_319_155, 2_882_110_345, 2_360_945_575];
    let place = |s: u32, a: usize| ((u64::from(STEPS[a].wrapping_mul(s)) * extents[a] as u64) >> 32) as i64;
    (1..=many as u32).map(|s| [0, 1, 2].map(|a| place(s, a))).collect()
}
