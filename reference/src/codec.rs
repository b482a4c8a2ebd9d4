//! Block records.
use crate::grid::Grid;
use crate::refusal::*;

/// A record's head: extents and origin.
pub type Head = [u16; 6];

fn off_size(head: &Head) -> bool {
    (0..3).any(|a| head[a] == 0 || head[a] > 64 || u32::from(head[a]) + u32::from(head[a + 3]) > 1024)
}

fn grid(head: &Head) -> Grid {
    Grid::new([head[0], head[1], head[2]].map(usize::from))
}

fn bytes_of(head: &Head, map: &[u32]) -> Vec<u8> {
    let mut bytes: Vec<u8> = head.iter().flat_map(|v| v.to_le_bytes()).collect();
    let mut bits = vec![0u8; map.len().div_ceil(8)];
    for p in (0..map.len()).filter(|&p| map[p] != 0) {
        bits[p / 8] |= 1 << (p % 8);
    }
    bytes.extend(bits);
    bytes.extend(map.iter().filter(|&&v| v != 0).flat_map(|v| v.to_le_bytes()));
    bytes
}

/// Writes a record at the front of the tray; answers its length, or a refusal.
pub fn write(head: &Head, map: &[u32], tray: &mut [u8]) -> Result<usize, u32> {
    if off_size(head) {
        return Err(OFF_SIZE);
    }
    let record = bytes_of(head, map);
    if map.len() != grid(head).cells() || tray.len() < record.len() {
        return Err(WRONG_TRAY);
    }
    tray[..record.len()].copy_from_slice(&record);
    Ok(record.len())
}

/// Reads a record into the map; answers extents and origin, or a refusal.
pub fn read(bytes: &[u8], map: &mut [u32]) -> Result<Head, u32> {
    if bytes.len() < 12 {
        return Err(BAD_RECORD);
    }
    let mut head = [0; 6];
    for (k, field) in head.iter_mut().enumerate() {
        *field = u16::from_le_bytes([bytes[2 * k], bytes[2 * k + 1]]);
    }
    if off_size(&head) {
        return Err(OFF_SIZE);
    }
    if map.len() != grid(&head).cells() {
        return Err(WRONG_TRAY);
    }
    let found = numbers(map.len(), &bytes[12..]).ok_or(BAD_RECORD)?;
    map.copy_from_slice(&found);
    Ok(head)
}

/// The map of so many cells that bits and numbers give; none where they break a rule.
fn numbers(cells: usize, body: &[u8]) -> Option<Vec<u32>> {
    let (bits, rest) = body.split_at_checked(cells.div_ceil(8))?;
    let stands = |p: usize| bits[p / 8] >> (p % 8) & 1 == 1;
    if (cells..8 * bits.len()).any(stands) {
        return None;
    }
    let standing: Vec<usize> = (0..cells).filter(|&p| stands(p)).collect();
    if rest.len() != 4 * standing.len() {
        return None;
    }
    let mut map = vec![0; cells];
    for (p, four) in standing.into_iter().zip(rest.chunks_exact(4)) {
        map[p] = u32::from_le_bytes([four[0], four[1], four[2], four[3]]);
        if map[p] == 0 {
            return None;
        }
    }
    Some(map)
}

#[cfg(test)]
mod tests {
    use super::*;

    const HEAD: Head = [2, 1, 1, 7, 8, 9];

    fn record() -> Vec<u8> {
        let mut tray = vec![0xee; 40];
        assert_eq!(write(&HEAD, &[5, 0, 0x0102_0304], &mut tray), Ok(21));
        assert!(tray[21..].iter().all(|&b| b == 0xee));
        tray.truncate(21);
        tray
    }

    fn refused(bytes: &[u8], cells: usize) -> u32 {
        let mut map = vec![77; cells];
        let refusal = read(bytes, &mut map).unwrap_err();
        assert!(map.iter().all(|&v| v == 77));
        refusal
    }

    #[test]
    fn a_record_to_the_byte() {
        let record = record();
        assert_eq!(record, [2, 0, 1, 0, 1, 0, 7, 0, 8, 0, 9, 0, 5, 5, 0, 0, 0, 4, 3, 2, 1]);
        let mut map = [9; 3];
        assert_eq!(read(&record, &mut map), Ok(HEAD));
        assert_eq!(map, [5, 0, 0x0102_0304]);
    }

    #[test]
    fn zero_voxels() {
        for (map, body) in [([5, 1, 0], &[3, 5, 0, 0, 0, 1, 0, 0, 0][..]), ([0, 1, 5], &[6, 1, 0, 0, 0, 5, 0, 0, 0]), ([0; 3], &[0])] {
            let record = [&[2, 0, 1, 0, 1, 0, 7, 0, 8, 0, 9, 0], body].concat();
            let mut tray = vec![0xee; record.len()];
            assert_eq!(write(&HEAD, &map, &mut tray), Ok(record.len()));
            assert_eq!(tray, record);
            let mut back = [9; 3];
            assert_eq!(read(&record, &mut back), Ok(HEAD));
            assert_eq!(back, map);
        }
    }

    #[test]
    fn damaged_records() {
        let good = record();
        let changed = |at: usize, v: u8| {
            let mut bytes = good.clone();
            bytes[at] = v;
            bytes
        };
        assert_eq!(refused(&good[..11], 3), BAD_RECORD);
        assert_eq!(refused(&[], 3), BAD_RECORD);
        assert_eq!(refused(&[0; 12], 3), OFF_SIZE);
        assert_eq!(refused(&good[..12], 3), BAD_RECORD);
        assert_eq!(refused(&good[..12], 2), WRONG_TRAY);
        assert_eq!(refused(&good[..20], 3), BAD_RECORD);
        assert_eq!(refused(&[&good[..], &[1]].concat(), 3), BAD_RECORD);
        assert_eq!(refused(&good, 4), WRONG_TRAY);
        assert_eq!(refused(&changed(0, 65), 3), OFF_SIZE);
        assert_eq!(refused(&changed(7, 4), 3), OFF_SIZE);
        assert_eq!(refused(&changed(12, 0x0d), 3), BAD_RECORD);
        assert_eq!(refused(&changed(12, 0x85), 3), BAD_RECORD);
        assert_eq!(refused(&changed(13, 0), 3), BAD_RECORD);
    }

    #[test]
    fn writings_refused() {
        let mut tray = [1; 21];
        assert_eq!(write(&[0, 1, 1, 0, 0, 0], &[], &mut tray), Err(OFF_SIZE));
        assert_eq!(write(&[1, 1, 65, 0, 0, 0], &[], &mut tray), Err(OFF_SIZE));
        assert_eq!(write(&[1, 1, 1, 1024, 0, 0], &[3], &mut tray), Err(OFF_SIZE));
        assert_eq!(write(&[64, 1, 1, 65535, 0, 0], &[3], &mut tray), Err(OFF_SIZE));
        assert_eq!(write(&HEAD, &[1, 1], &mut tray), Err(WRONG_TRAY));
        assert_eq!(write(&HEAD, &[1, 0, 1], &mut tray[..20]), Err(WRONG_TRAY));
        assert_eq!(write(&[1, 1, 1, 0, 0, 0], &[0], &mut tray[..12]), Err(WRONG_TRAY));
        assert_eq!(tray, [1; 21]);
        assert_eq!(write(&[1, 1, 1, 1023, 0, 0], &[3], &mut tray), Ok(17));
    }
}
