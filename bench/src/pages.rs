//! A layer in pages of text in plain Rust, written from document 02 and not from the proved code, with the same tests.

/// Writes a number into its five columns, which hold blanks: digits from the right.
fn put(number: u32, columns: &mut [u8]) {
    match number {
        0 => columns[4] = b'.',
        1..=99_999 => {
            let mut rest = number;
            for column in columns.iter_mut().rev() {
                *column = b'0' + (rest % 10) as u8;
                rest /= 10;
                if rest == 0 {
                    break;
                }
            }
        }
        _ => columns.fill(b'#'),
    }
}

/// The pages of layer z, if the layer is there and both lengths are right.
pub fn print(extents: [u16; 3], z: u32, map: &[u32], out: &mut [u8]) -> Option<()> {
    if extents.iter().any(|&n| n == 0 || n > 64) {
        return None;
    }
    let ([width, height, depth], z) = (extents.map(|n| 2 * n as usize - 1), z as usize);
    if z >= depth || map.len() != width * height * depth || out.len() != 81 * height * width.div_ceil(16) {
        return None;
    }
    let layer = &map[width * height * z..][..width * height];
    out.fill(b' ');
    for (page, lines) in out.chunks_exact_mut(81 * height).enumerate() {
        for (cells, line) in layer.chunks_exact(width).zip(lines.chunks_exact_mut(81)) {
            for (&number, columns) in cells[16 * page..].iter().zip(line.chunks_exact_mut(5)) {
                put(number, columns);
            }
            line[80] = b'\n';
        }
    }
    Some(())
}
