//! The four SOS grids and their row classes (document 000, A1.8), from document 01's own lines.

use crate::modes;
use std::sync::LazyLock;

const CLASSES: &str = "1 SR, 2 LS, 3 OS, 4 FS, 5 OS+OV, 6 FS+OV, 7 TR, 8 PT, 9 PT+OV";

/// The class columns, then for each grid its cells.
const GRIDS: &str = "\
| Grid | 1,2 | 3,5,6 | 4 | 7,8 | 9 |
| 1 absolute block, rear end | M5 | S2 M2 | NA | NA | S2 M2 |
| 2 absolute block, head on | M6 | S2 M4 | NA | NA | S2 M4 |
| 3 automatic, signal ON, head on (page 30) | M6 | M4 | M4 | S2 M4 | M4 |
| 4 automatic, signal OFF, rear end (page 31) | M5 | S3 M2 | S3 M2 | S2 M3 | S3 M2 |
";

#[derive(Clone, Copy, PartialEq, Eq, Debug)]
pub struct Cell {
    pub m: u32,
    pub s: u32,
}

/// Classes by mode and by the mode left for Override (0 outside Override); 0 is no class.
static CLASS_OF: LazyLock<[[u32; 14]; 14]> = LazyLock::new(|| {
    let mut table = [[0; 14]; 14];
    for entry in CLASSES.split(", ") {
        let (class, name) = entry.split_once(' ').expect("class and name");
        let (mode, left) = match name.strip_suffix("+OV") {
            Some(left) => (modes::number("OV"), modes::number(left)),
            None => (modes::number(name), 0),
        };
        table[mode as usize][left as usize] = class.parse().expect("a class");
    }
    // House rule: Override from SB counts as OS+OV.
    let (ov, sb, os) = (modes::number("OV"), modes::number("SB"), modes::number("OS"));
    table[ov as usize][sb as usize] = table[ov as usize][os as usize];
    table
});

/// The class of a mode, given the mode left for it when it is Override and 0 otherwise.
pub fn class(mode: u32, left: u32) -> Option<u32> {
    let class = *CLASS_OF.get(mode as usize)?.get(left as usize)?;
    (class != 0).then_some(class)
}

/// Cells by grid and class, each less one.
static CELLS: LazyLock<[[Option<Cell>; 9]; 4]> = LazyLock::new(|| {
    let mut table = [[None; 9]; 4];
    let mut lines = GRIDS.lines().map(|line| line.trim_matches('|').split('|').map(str::trim));
    let columns: Vec<&str> = lines.next().expect("the class columns").skip(1).collect();
    for (grid, line) in lines.enumerate() {
        for (classes, text) in columns.iter().zip(line.skip(1)) {
            for class in classes.split(',') {
                table[grid][class.parse::<usize>().expect("a class") - 1] = parse_cell(text);
            }
        }
    }
    table
});

/// "S2 M4"; no S printed means S1, and NA is no cell.
fn parse_cell(text: &str) -> Option<Cell> {
    let part = |letter| text.split(' ').find_map(|word| word.strip_prefix(letter));
    let m = part('M')?.parse().expect("M and a number");
    let s = part('S').map_or(1, |s| s.parse().expect("S and a number"));
    Some(Cell { m, s })
}

pub fn is_grid(grid: u32) -> bool {
    (1..=4).contains(&grid)
}

/// The cell of a grid for L2's class; it is the same for every class of L1.
pub fn cell(grid: u32, class: u32) -> Option<Cell> {
    CELLS[grid as usize - 1][class as usize - 1]
}
