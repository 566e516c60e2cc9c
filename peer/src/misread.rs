//! The book's refusal by a rule misread in one of these ways, to show that the comparison finds
//! them. With 0 nothing is misread, and every second and place of every prefix is looked at.
//!
//! | No. | Misread |
//! |---|---|
//! | 9 | the row after the one at fault |
//! | 10 | the highest broken ticket |
//! | 11 | 15 asked before 14 |
//! | 12 | a row beside 2: the first out of range, or 1 |
//! | 13 | the last stored row of the broken ticket |
//! | 14 | the first row that lies on a ring of the whole book |
//! | 15 | only equal keys are refused, not falling ones |
//! | 16 | the check with the lowest row, whichever it is |
//! | 17 | 16 asked before 15 |
//! | 18 | the first row that stands in an overfull second of the whole book |
//! | 19 | the ring of the earliest second |
//! | 20 | the broken ticket that is stored first |

use crate::barn::*;
use crate::faults::*;

pub const FIRST: u32 = 9;
pub const LAST: u32 = 20;

pub fn first_fault(map: &Map, book: &Book, error: u32) -> Option<Refusal> {
    if !in_range(map, book) {
        return Some((BAD_BOOK, if error == 12 { row_beside_2(map, book) } else { 0 }));
    }
    let found = |number: u8| check(map, &book.rows, number, error).map(|row| (number, row));
    let order = match error {
        11 => [KEYS_FALL, OVERFULL, BROKEN_RUN, BARRED],
        17 => [KEYS_FALL, BROKEN_RUN, BARRED, OVERFULL],
        _ => [KEYS_FALL, BROKEN_RUN, OVERFULL, BARRED],
    };
    let (number, row) = match error {
        16 => order.into_iter().filter_map(found).min_by_key(|refusal| refusal.1)?,
        _ => order.into_iter().find_map(found)?,
    };
    Some((number, if error == 9 { row + 1 } else { row }))
}

fn row_beside_2(map: &Map, book: &Book) -> usize {
    book.rows.iter().position(|row| !row_in_range(map, book, row)).map_or(1, |at| at + 1)
}

fn check(map: &Map, rows: &[Row], number: u8, error: u32) -> Option<usize> {
    let prefixes = 1..=rows.len();
    match (number, error) {
        (KEYS_FALL, 15) => (2..=rows.len()).find(|&i| rows[i - 1].key() == rows[i - 2].key()),
        (KEYS_FALL, _) => keys_fall(rows),
        (BROKEN_RUN, 10) => {
            let highest = tickets(rows).into_iter().rev().find(|&ticket| broken(map, rows, ticket))?;
            rows.iter().position(|row| row.ticket == highest).map(|at| at + 1)
        }
        (BROKEN_RUN, 13) => {
            let ticket = rows[broken_run(map, rows)? - 1].ticket;
            rows.iter().rposition(|row| row.ticket == ticket).map(|at| at + 1)
        }
        (BROKEN_RUN, 20) => rows.iter().position(|row| broken(map, rows, row.ticket)).map(|at| at + 1),
        (BROKEN_RUN, _) => broken_run(map, rows),
        (OVERFULL, 0) => prefixes.into_iter().find(|&i| !load_kept(map, &rows[..i])),
        (OVERFULL, 18) => rows.iter().position(|row| stands_overfull(map, rows, row)).map(|at| at + 1),
        (OVERFULL, _) => overfull(map, rows),
        (BARRED, 0) => prefixes.into_iter().find(|&i| !rings_kept(&rows[..i])),
        (BARRED, 14) => rows.iter().position(|row| lies_on_ring(rows, row)).map(|at| at + 1),
        (BARRED, 19) => {
            let (&second, _) = crossings(rows).iter().find(|(&t, _)| ring_at(rows, t))?;
            prefixes.into_iter().find(|&i| ring_at(&rows[..i], second))
        }
        _ => barred(rows),
    }
}

fn stands_overfull(map: &Map, rows: &[Row], row: &Row) -> bool {
    let there: Vec<&Row> = rows.iter().filter(|other| other.place == row.place).collect();
    (row.entry..row.exit).any(|second| {
        let load = there.iter().filter(|other| other.entry <= second && second < other.exit).count();
        load > map.places[row.place].capacity as usize
    })
}

fn lies_on_ring(rows: &[Row], row: &Row) -> bool {
    row.crossing().map_or(false, |(from, to, t)| led_to(&met_at(rows, t), to, MOST_PLACES).has(from))
}

fn ring_at(rows: &[Row], t: u32) -> bool {
    let met = met_at(rows, t);
    met.iter().any(|&(from, _)| leads_back(&met, from))
}
