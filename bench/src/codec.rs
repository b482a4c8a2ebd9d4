//! Block records in plain Rust, written from document 01 and not from the proved code, with the same tests.

fn cells(extents: [u16; 3]) -> usize {
    extents.iter().map(|&n| 2 * n as usize - 1).product()
}

/// The record of a map and its length, if the tray is long enough.
pub fn write(extents: [u16; 3], origin: [u16; 3], map: &[u32], out: &mut [u8]) -> Option<usize> {
    let length = 12 + map.len().div_ceil(8) + 4 * map.iter().filter(|&&v| v != 0).count();
    if map.len() != cells(extents) || out.len() < length {
        return None;
    }
    let mut at = 0;
    for v in extents.into_iter().chain(origin) {
        out[at..at + 2].copy_from_slice(&v.to_le_bytes());
        at += 2;
    }
    for eight in map.chunks(8) {
        out[at] = eight.iter().enumerate().fold(0, |byte, (k, &v)| byte | (((v != 0) as u8) << k));
        at += 1;
    }
    for &v in map {
        if v != 0 {
            out[at..at + 4].copy_from_slice(&v.to_le_bytes());
            at += 4;
        }
    }
    Some(at)
}

/// The map of a record, with its extents and origin, if the record is whole.
pub fn read(record: &[u8], map: &mut [u32]) -> Option<([u16; 3], [u16; 3])> {
    let head = record.get(..12)?;
    let field = |k: usize| u16::from_le_bytes([head[2 * k], head[2 * k + 1]]);
    let (extents, origin) = ([field(0), field(1), field(2)], [field(3), field(4), field(5)]);
    let cells = cells(extents);
    let bits = record.get(12..12 + cells.div_ceil(8))?;
    let numbers = &record[12 + bits.len()..];
    let standing: usize = bits.iter().map(|b| b.count_ones() as usize).sum();
    let bit = |c: usize| bits[c / 8] >> (c % 8) & 1 == 1;
    if numbers.len() != 4 * standing || (cells..8 * bits.len()).any(bit) || numbers.chunks_exact(4).any(|n| n == [0; 4]) || map.len() != cells {
        return None;
    }
    let mut next = numbers.chunks_exact(4);
    for (eight, &byte) in map.chunks_mut(8).zip(bits) {
        for (k, cell) in eight.iter_mut().enumerate() {
            *cell = if byte >> k & 1 == 1 { u32::from_le_bytes(next.next()?.try_into().unwrap()) } else { 0 };
        }
    }
    Some((extents, origin))
}
