//! Fields drawn by hand as text.
//!
//! ```text
//! # A room with a cellar, and stairs (1 and 2) between them.
//! least 3
//! join a1 12 2b
//! area b 2
//!
//! a a   a   a
//! a a/b 1/b 2/b
//! - b   b   b
//! ```
//!
//! First come lines of one word and its values: `border`, `least` and `merge` (0 if not named), `join` and `area`. After
//! an empty line come the rows. A cell is `-` if empty, otherwise its layers from the lowest up, joined by `/`. Two spans
//! in cells side by side are joined if their letters are the same or are named as a pair by `join`; where a cell offers
//! several, the lowest that is free. The area of a letter is 1 if `area` doesn't name it. Lines that begin with `#` are
//! not looked at.

use crate::field::{Case, Field, NONE, Settings};
use std::collections::HashMap;

/// Each edge between two cells is looked at once, from the cell before it.
const FORWARD: [usize; 2] = [1, 2];

#[derive(Default)]
struct Sketch {
    settings: Settings,
    joins: Vec<[char; 2]>,
    areas: HashMap<char, u8>,
    rows: Vec<Vec<Vec<char>>>,
}

/// The case that a text draws, or what is wrong with it.
pub fn read(text: &str) -> Result<Case, String> {
    let mut lines = text.lines().filter(|line| !line.starts_with('#'));
    let mut sketch = Sketch::default();
    for line in lines.by_ref().take_while(|line| !line.is_empty()) {
        sketch.read_line(line)?;
    }
    for line in lines {
        sketch
            .rows
            .push(line.split_whitespace().map(layers).collect());
    }
    sketch.case()
}

fn layers(cell: &str) -> Vec<char> {
    cell.chars().filter(|&c| c != '-' && c != '/').collect()
}

impl Sketch {
    fn read_line(&mut self, line: &str) -> Result<(), String> {
        let wrong = || format!("not understood: {line}");
        let mut words = line.split_whitespace();
        let name = words.next().ok_or_else(wrong)?;
        let values: Vec<_> = words.collect();
        let number = |value: &str| value.parse().map_err(|_| wrong());
        match (name, &values[..]) {
            ("border", [value]) => self.settings.border_size = number(value)?,
            ("least", [value]) => self.settings.least_area = number(value)?,
            ("merge", [value]) => self.settings.merge_area = number(value)?,
            ("join", pairs) => {
                for pair in pairs {
                    let letters: Vec<_> = pair.chars().collect();
                    self.joins.push(letters.try_into().map_err(|_| wrong())?);
                }
            }
            ("area", [letter, area]) => {
                let area = area.parse().map_err(|_| wrong())?;
                self.areas
                    .extend(letter.chars().map(|letter| (letter, area)));
            }
            _ => return Err(wrong()),
        }
        Ok(())
    }

    fn case(self) -> Result<Case, String> {
        let w = self.rows.first().map_or(0, Vec::len);
        if self.rows.iter().any(|row| row.len() != w) {
            return Err("the rows differ in length".to_owned());
        }
        let mut field = Field {
            w: w as u16,
            h: self.rows.len() as u16,
            ..Field::default()
        };
        let cells = self.rows.concat();
        for letters in &cells {
            field.index.push(field.area.len() as u32);
            field.count.push(letters.len() as u8);
            for letter in letters {
                field.area.push(*self.areas.get(letter).unwrap_or(&1));
                field.con.extend([NONE; 4]);
            }
        }
        for cell in 0..cells.len() {
            for d in FORWARD {
                if let Some(beside) = field.cell_beside(cell, d) {
                    self.join(&mut field, &cells, cell, d, beside);
                }
            }
        }
        Ok(Case {
            field,
            settings: self.settings,
        })
    }

    fn join(&self, field: &mut Field, cells: &[Vec<char>], cell: usize, d: usize, beside: usize) {
        let back = (d + 2) % 4;
        let (here, there) = (field.index[cell] as usize, field.index[beside] as usize);
        for (layer, &letter) in cells[cell].iter().enumerate() {
            let other = (0..cells[beside].len()).find(|&other| {
                self.are_joined(letter, cells[beside][other])
                    && field.con[4 * (there + other) + back] == NONE
            });
            if let Some(other) = other {
                field.con[4 * (here + layer) + d] = other as u8;
                field.con[4 * (there + other) + back] = layer as u8;
            }
        }
    }

    fn are_joined(&self, one: char, other: char) -> bool {
        one == other || self.joins.contains(&[one, other]) || self.joins.contains(&[other, one])
    }
}
