//! The listing program: text in, text out.
use crate::grid::width;
use crate::label::{number, Labelling};
use crate::refusal::*;

/// A number has 1 to 10 decimal digits and is below 2^32.
fn value(word: &[u8]) -> Option<u32> {
    if word.is_empty() || word.len() > 10 || !word.iter().all(u8::is_ascii_digit) {
        return None;
    }
    let value = word.iter().fold(0u64, |n, &d| 10 * n + u64::from(d - b'0'));
    u32::try_from(value).ok()
}

/// Extents and codes of a text, or its refusal.
fn request(text: &[u8]) -> Result<([usize; 3], Vec<u32>), u32> {
    let mut words = text.split(|&b| b == b' ' || b == b'\n').filter(|w| !w.is_empty());
    let mut extents = [0; 3];
    for extent in &mut extents {
        *extent = words.next().and_then(value).ok_or(BAD_RECORD)? as usize;
    }
    if extents.iter().any(|&n| n == 0 || n > 8) {
        return Err(OFF_SIZE);
    }
    let codes: Vec<u32> = words.map(value).collect::<Option<_>>().ok_or(BAD_RECORD)?;
    if codes.len() != extents.iter().product::<usize>() {
        return Err(BAD_RECORD);
    }
    Ok((extents, codes))
}

fn lines(labelling: &Labelling) -> String {
    let [faces, curves, points] = labelling.counts();
    let mut text = format!("faces {faces} curves {curves} points {points}\n");
    for (order, letter) in [(2, 'f'), (1, 'c'), (0, 'p')] {
        for (i, component) in labelling.components[order].iter().enumerate() {
            let [x, y, z] = labelling.grid.place(component.first);
            text += &format!("{letter} {} {x} {y} {z}", i + 1);
            for number in &component.row[..width(order)] {
                text += &format!(" {number}");
            }
            text += "\n";
        }
    }
    text
}

/// What the program prints for a text.
pub fn printed(text: &[u8]) -> String {
    match request(text) {
        Ok((extents, codes)) => lines(&number(extents, &codes)),
        Err(refusal) => format!("refused {refusal}\n"),
    }
}

#[cfg(test)]
mod tests {
    use super::*;

    #[test]
    fn the_example() {
        let listing = "faces 3 curves 1 points 0\nf 1 0 1 0 1 2\nf 2 2 1 0 1 3\nf 3 1 2 0 2 3\nc 1 1 1 0 1 2 3 0\n";
        assert_eq!(printed(b"2 2 1 1 1 2 3"), listing);
        assert_eq!(printed(b"\n 2\n2  1 01 0000000001 2\n\n3 \n"), listing);
    }

    #[test]
    fn texts_at_the_edge() {
        for text in ["", " \n ", "9 1", "0 x 1", "9 1 1x", "4294967296 1 1 5", "00000000001 1 1 5", "2 1 1 0", "2 1 1 1 2 3"] {
            assert_eq!(printed(text.as_bytes()), "refused 11\n", "{text:?}");
        }
        for text in ["1 1 1 x", "1 1 1 -1", "1\t1 1 1", "1 1 1 1\r\n", "1 1 1 4294967296", "1 1 1 5\0"] {
            assert_eq!(printed(text.as_bytes()), "refused 11\n", "{text:?}");
        }
        for text in ["9 1 1 x", "0 1 1", "1 1 4294967295", "8 8 9 1 2 3", "0000000000 1 1 1"] {
            assert_eq!(printed(text.as_bytes()), "refused 1\n", "{text:?}");
        }
        for text in ["1 1 1 4294967295", "1 1 1 0", "1 1 1 0000000000"] {
            assert_eq!(printed(text.as_bytes()), "faces 0 curves 0 points 0\n", "{text:?}");
        }
        assert_eq!(printed(b"2 1 1 0 4"), "faces 1 curves 0 points 0\nf 1 1 0 0 4 0\n");
    }
}
