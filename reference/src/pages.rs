//! A printed slice (document 02, item 2): the pages built as text, line by line.
use crate::grid::Grid;
use crate::refusal::*;

/// How many cells a page is wide.
const CELLS: usize = 16;

/// The length of the pages of one layer: 81 bytes to a line, a line for each y, a page for every 16 cells.
pub fn length(extents: [u16; 3]) -> usize {
    let [width, height, _] = Grid::new(extents.map(usize::from)).sides();
    81 * height * width.div_ceil(CELLS)
}

/// The five columns of a cell.
fn columns(number: u32) -> String {
    match number {
        0 => format!("{:>5}", "."),
        1..=99_999 => format!("{number:>5}"),
        _ => "#".repeat(5),
    }
}

/// One line of a page: the cells from x = left on, then blanks.
fn line(grid: &Grid, map: &[u32], left: usize, y: usize, z: usize) -> String {
    let right = grid.sides()[0].min(left + CELLS);
    let cells: String = (left..right).map(|x| columns(map[grid.position([x, y, z])])).collect();
    format!("{cells:<80}\n")
}

/// All pages of a layer, left to right.
fn text(grid: &Grid, map: &[u32], z: usize) -> String {
    let [width, height, _] = grid.sides();
    let page = |left: usize| (0..height).map(move |y| line(grid, map, left, y, z));
    (0..width).step_by(CELLS).flat_map(page).collect()
}

/// The entry: prints layer z of a block's map; the pages fill the tray. Answers nothing, or a refusal.
pub fn print(extents: [u16; 3], z: u32, map: &[u32], tray: &mut [u8]) -> Result<(), u32> {
    if extents.iter().any(|&n| n == 0 || n > 64) {
        return Err(OFF_SIZE);
    }
    let (grid, z) = (Grid::new(extents.map(usize::from)), z as usize);
    if z >= grid.sides()[2] {
        return Err(NO_SUCH_PLACE);
    }
    if map.len() != grid.cells() {
        return Err(WRONG_TRAY);
    }
    let pages = text(&grid, map, z);
    if tray.len() != pages.len() {
        return Err(WRONG_TRAY);
    }
    tray.copy_from_slice(pages.as_bytes());
    Ok(())
}

#[cfg(test)]
mod tests {
    use super::*;

    /// The pages of layer z as text.
    fn printed(extents: [u16; 3], z: u32, map: &[u32]) -> String {
        let mut tray = vec![7; length(extents)];
        assert_eq!(print(extents, z, map, &mut tray), Ok(()));
        String::from_utf8(tray).unwrap()
    }

    #[test]
    fn numbers_of_every_width() {
        for (number, columns) in [
            (0, "    ."),
            (1, "    1"),
            (7, "    7"),
            (9, "    9"),
            (10, "   10"),
            (99, "   99"),
            (100, "  100"),
            (999, "  999"),
            (1_000, " 1000"),
            (9_999, " 9999"),
            (10_000, "10000"),
            (99_999, "99999"),
            (100_000, "#####"),
            (100_001, "#####"),
            (u32::MAX, "#####"),
        ] {
            assert_eq!(printed([1, 1, 1], 0, &[number]), format!("{columns}{}\n", " ".repeat(75)));
        }
    }

    #[test]
    fn the_place_of_each_cell() {
        // a cell holds its position
        let map: Vec<u32> = (0..27).collect();
        for (z, lines) in [
            (0, ["    .    1    2", "    3    4    5", "    6    7    8"]),
            (1, ["    9   10   11", "   12   13   14", "   15   16   17"]),
            (2, ["   18   19   20", "   21   22   23", "   24   25   26"]),
        ] {
            assert_eq!(printed([2, 2, 2], z, &map), lines.map(|cells| format!("{cells}{}\n", " ".repeat(65))).concat());
        }
    }

    #[test]
    fn pages_left_to_right() {
        // 15 cells have one page, 17 have two, of which the second has one cell
        let map: Vec<u32> = (1..=51).collect();
        assert_eq!(printed([8, 2, 1], 0, &map[..45]).lines().count(), 3);
        let pages = printed([9, 2, 1], 0, &map);
        let lines: Vec<&str> = pages.lines().collect();
        assert_eq!(pages.len(), 2 * 3 * 81);
        assert!(lines.len() == 6 && lines.iter().all(|l| l.len() == 80));
        let numbers = |range: std::ops::RangeInclusive<u32>| range.map(|n| format!("{n:>5}")).collect::<String>();
        assert_eq!(lines[..3], [numbers(1..=16), numbers(18..=33), numbers(35..=50)]);
        assert_eq!(lines[3..], [17, 34, 51].map(|n| format!("   {n}{}", " ".repeat(75))));
    }

    #[test]
    fn the_length_of_the_pages() {
        for nx in 1..=64 {
            let grid = Grid::new([nx, 3, 2]);
            let pages = text(&grid, &vec![u32::MAX; grid.cells()], 2);
            assert_eq!(pages.len(), length([nx as u16, 3, 2]));
            assert_eq!(pages.matches("#####").count(), 5 * (2 * nx - 1));
        }
        assert_eq!(length([64; 3]), 81 * 127 * 8);
    }

    #[test]
    fn printings_refused() {
        let refused = |extents: [u16; 3], z: u32, cells: usize, room: usize| {
            let (map, mut tray) = (vec![5; cells], vec![7; room]);
            let answer = print(extents, z, &map, &mut tray);
            assert!(answer.is_ok() || tray.iter().all(|&b| b == 7));
            answer.err()
        };
        assert_eq!(refused([2, 1, 1], 0, 3, 81), None);
        for extents in [[0, 1, 1], [1, 65, 1], [1, 1, 65_535]] {
            assert_eq!(refused(extents, 9, 4, 82), Some(OFF_SIZE));
        }
        for z in [1, 2, 65_536, u32::MAX] {
            assert_eq!(refused([2, 1, 1], z, 4, 82), Some(NO_SUCH_PLACE));
        }
        for (cells, room) in [(2, 81), (4, 81), (0, 81), (3, 80), (3, 82), (3, 162), (3, 0)] {
            assert_eq!(refused([2, 1, 1], 0, cells, room), Some(WRONG_TRAY));
        }
        assert_eq!(refused([2, 1, 2], 2, 9, 81), None);
        assert_eq!(refused([2, 1, 2], 3, 9, 81), Some(NO_SUCH_PLACE));
    }
}
