//! The lines that are printed.

use crate::book::Sums;
use crate::plant::Row;

pub const NAMES: [&str; 3] = ["U", "A", "B"];

/// `0 U -79 10 0 0 A -79 0 0 0 B 0 30 0 0`
pub fn second_line(second: usize, rows: &[Row; 3]) -> String {
    let mut line = second.to_string();
    for (name, row) in NAMES.iter().zip(rows) {
        let [fcr, afrr, mfrr] = row.kinds;
        line += &format!(" {} {} {} {} {}", name, fcr.actual, afrr.actual, mfrr.actual, row.open);
    }
    line + "\n"
}

/// One line a plant with every figure of its row: setpoint, low, high, share, actual of each kind, then open.
pub fn row_lines(second: usize, rows: &[Row; 3]) -> String {
    let mut lines = String::new();
    for (name, row) in NAMES.iter().zip(rows) {
        lines += &format!("{} {}", second, name);
        for kind in &row.kinds {
            lines += &format!(
                " {} {} {} {} {}",
                kind.setpoint, kind.band.low, kind.band.high, kind.share, kind.actual
            );
        }
        lines += &format!(" {}\n", row.open);
    }
    lines
}

/// One line a plant with what was shared: error, T, then tolerance, rounded-down share, remainder, extra kW of each kind.
pub fn share_lines(second: usize, rows: &[Row; 3]) -> String {
    let mut lines = String::new();
    for (name, row) in NAMES.iter().zip(rows) {
        lines += &format!("{} {} {} {}", second, name, row.error, row.total);
        for kind in &row.kinds {
            let part = kind.part;
            lines += &format!(" {} {} {} {}", kind.tolerance, part.share, part.remainder, part.extra as u8);
        }
        lines += "\n";
    }
    lines
}

pub fn sum_line(sums: &Sums) -> String {
    format!("sum A {} B {} open {} due {}\n", sums.a, sums.b, sums.open, sums.due)
}

pub fn refusal_line(number: u8, seconds: usize) -> String {
    format!("refused {} at {}\n", number, seconds)
}

/// The line writer: a line into a lent buffer, its length, or 22 for a buffer under 200 bytes.
pub fn into_buffer(line: &str, buffer: &mut [u8]) -> Result<usize, u8> {
    if buffer.len() < 200 {
        return Err(22);
    }
    buffer[..line.len()].copy_from_slice(line.as_bytes());
    Ok(line.len())
}
