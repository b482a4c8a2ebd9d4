//! Writes a sample volume for the tool: sample FILE NX NY NZ SEEDS. Each voxel takes the code of its nearest seed; codes are little-endian, x fastest.
use std::io::{BufWriter, Write};
use tugrelis::volumes::{spread, voronoi};

fn main() -> std::io::Result<()> {
    let words: Vec<String> = std::env::args().skip(1).collect();
    let usage = "usage: sample FILE NX NY NZ SEEDS";
    let [file, rest @ ..] = &words[..] else { panic!("{usage}") };
    let [nx, ny, nz, seeds] = rest.iter().map(|w| w.parse().expect(usage)).collect::<Vec<usize>>()[..] else { panic!("{usage}") };
    let extents = [nx, ny, nz];
    let mut out = BufWriter::new(std::fs::File::create(file)?);
    for code in voronoi(extents, &spread(extents, seeds)) {
        out.write_all(&code.to_le_bytes())?;
    }
    out.flush()
}
