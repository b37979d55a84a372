//! Lists made of another list's lines, each wrong in one place of its answer: a
//! replay must find every line to differ. README.md says which places.

use std::io::{self, Write};

/// The last column of a line's number k, where one letter stands before the
/// numbers.
const fn number(k: usize) -> usize {
    9 * k + 9
}

/// How a line begins, and the columns of its answer that are changed, one at a
/// time.
type Places = (&'static str, Vec<usize>);

fn places(list: &str) -> Vec<Places> {
    match list {
        "integrals" => vec![("00 ", vec![1, 19, 28])],
        "gains" => vec![("0 ", vec![129, 138, 147, 156])],
        "antenna" => vec![
            ("l ", [7, 8, 9].map(number).to_vec()),
            ("c ", [7, 8, 9].map(number).to_vec()),
            ("i ", [7, 8].map(number).to_vec()),
        ],
        "parameters" => vec![
            ("i 00000006", (21..30).map(number).collect()),
            ("l ", (2..8).map(number).collect()),
            ("t ", vec![number(1)]),
        ],
        "output" => vec![
            ("i- 01", vec![32]),
            ("f- 07", vec![32]),
            ("hw", vec![1, 30]),
            ("nw", vec![1, 30]),
            ("dw", vec![1, 13]),
        ],
        _ => Vec::new(),
    }
}

/// Of the list's lines.
pub fn write(out: &mut impl Write, list: &str, lines: &[u8]) -> io::Result<()> {
    let lines: Vec<&[u8]> = lines.split_inclusive(|byte| *byte == b'\n').collect();
    match list {
        "elementary" => {
            for function in 0..15 {
                let start = format!("{function:02} ");
                out.write_all(&changed(first(&lines, &start), 19))?;
            }
        }
        // The deck goes on from line to line, so these stand as in the list: four
        // cards of two rows.
        "deck" => {
            let mut cards = [26, 27, 28, 29].into_iter().map(number);
            let mut cells = [0, 1, 45, 89, 90, 91, 2, 88].into_iter().map(number);
            for line in &lines[..12] {
                let column = match line[0] {
                    b'c' => cards.next(),
                    _ => cells.next(),
                };
                out.write_all(&changed(line, column.expect("a place for each line")))?;
            }
        }
        _ => {
            for (start, columns) in places(list) {
                for column in columns {
                    out.write_all(&changed(first(&lines, start), column))?;
                }
            }
        }
    }
    out.flush()
}

fn first<'a>(lines: &[&'a [u8]], start: &str) -> &'a [u8] {
    let mut found = lines.iter().filter(|line| line.starts_with(start.as_bytes()));
    found.next().expect("a line of this kind")
}

fn changed(line: &[u8], column: usize) -> Vec<u8> {
    let mut line = line.to_vec();
    line[column] = match line[column] {
        b'0' => b'1',
        b'w' => b'm',
        _ => b'0',
    };
    line
}
