//! A file of mixed frames: a typical barn and its questions, most of them plans, bookings, cancellations and pages that are
//! done, with a few lines that are refused.

use crate::barn::{Row, MOST_ON_PAGE};
use crate::desk::Desk;
use crate::dice::Dice;
use crate::scenes::{Plot, CLOSE, OPEN};

/// Cancelling keeps the book at about this many rows.
const ROWS: usize = 300;

pub fn frames(seed: u64, count: usize) -> Vec<u8> {
    let mut dice = Dice::new(seed);
    let plot = Plot::barn(&mut dice, 40, 90, false);
    let mut desk = Desk::new(false);
    let mut written = Vec::new();
    let mut said = Vec::new();
    let mut tell = |desk: &mut Desk, line: String| {
        said.clear();
        desk.answer(line.as_bytes(), &mut said);
        written.extend_from_slice(line.as_bytes());
        written.push(b'\n');
    };
    for place in plot.places.chunks_exact(3) {
        tell(&mut desk, format!("01{:02X}{:02X}{:02X}", place[0], place[1], place[2]));
    }
    for &(from, to) in &plot.links {
        tell(&mut desk, format!("02{:02X}{:02X}", from, to));
    }
    let mut cursor = (0, 0, 0);
    for _ in plot.places.len() / 3 + plot.links.len()..count {
        let (start, destination) = (dice.below(40), dice.below(40));
        let second = dice.among(OPEN as usize, CLOSE as usize);
        let line = match dice.below(100) {
            0..=39 => format!("03{:02X}{:02X}{:06X}", start, destination, second),
            40..=64 if desk.book.rows.len() < ROWS => format!("04{:02X}{:02X}{:06X}", start, destination, second),
            40..=64 => format!("05{:06X}", dice.pick(&desk.book.rows).ticket()),
            65..=96 => {
                let size = dice.among(1, MOST_ON_PAGE);
                let frame = format!("06{:02X}{:02X}{:06X}{:06X}", size, cursor.0, cursor.1, cursor.2);
                let shown = desk.book.rows.iter().filter(|row| (row.place(), row.entry(), row.ticket()) > cursor);
                let last = shown.take(size).last();
                cursor = last.map_or((0, 0, 0), |row: &Row| (row.place(), row.entry(), row.ticket()));
                frame
            }
            97 => format!("05{:06X}", dice.below(1_000_000)),
            98 => format!("03{:02X}{:02X}{:06X}", start, dice.below(256), dice.below(100_000)),
            _ => dice.pick(&["", "00", "03000000000", "0102000a", "07", "06410000000000000000"]).to_string(),
        };
        tell(&mut desk, line);
    }
    written
}
