//! A second opinion on why a book is refused, slow and as the rules put it: one more row after the other, second by second. It
//! shares nothing with the peer but the reading of numbers.

use crate::barn::{number, DAY};
use std::collections::BTreeSet;

#[derive(Clone, Copy, PartialEq)]
struct Row {
    place: u32,
    entry: u32,
    ticket: u32,
    exit: u32,
    next: u32,
}

/// A map that keeps its rules.
struct Map {
    capacities: Vec<usize>,
    durations: Vec<u32>,
    links: BTreeSet<(u32, u32)>,
}

/// The refusal of a book on a map that keeps its rules, or none.
pub fn fault(map: &[u8], book: &[u8]) -> Option<(u64, u64)> {
    let map = read_map(map);
    let size = map.capacities.len() as u32;
    if book.len() < 5 {
        return Some((2, 0));
    }
    let (next_ticket, count) = (number(&book[..3]), number(&book[3..5]) as usize);
    if count > 1_024 || next_ticket < 1 || next_ticket > 1_000_000 || book.len() != 5 + 11 * count {
        return Some((2, 0));
    }
    let rows: Vec<Row> = book[5..].chunks(11).map(read_row).collect();
    for row in &rows {
        let places = row.place < size && row.next < size;
        let times = row.entry <= DAY && row.exit <= DAY;
        if !places || !times || row.ticket < 1 || row.ticket >= next_ticket {
            return Some((2, 0));
        }
    }
    let prefix = |broken: &dyn Fn(&[Row]) -> bool| (1..=count).find(|&i| broken(&rows[..i])).map(|i| i as u64);
    if let Some(i) = prefix(&|rows| rows.windows(2).any(|two| key(&two[0]) >= key(&two[1]))) {
        return Some((13, i));
    }
    for ticket in 1..next_ticket {
        let run: Vec<Row> = rows.iter().filter(|row| row.ticket == ticket).copied().collect();
        if !run.is_empty() && !run.iter().any(|&first| is_plan(&map, first, &run)) {
            let first = rows.iter().position(|row| row.ticket == ticket)?;
            return Some((14, first as u64 + 1));
        }
    }
    if let Some(i) = prefix(&|rows| overfilled(&map, rows)) {
        return Some((15, i));
    }
    prefix(&has_ring).map(|i| (16, i))
}

fn read_map(map: &[u8]) -> Map {
    let size = number(&map[..2]) as usize;
    let places = &map[4..4 + 3 * size];
    Map {
        capacities: places.chunks(3).map(|place| place[0] as usize).collect(),
        durations: places.chunks(3).map(|place| number(&place[1..])).collect(),
        links: map[4 + 3 * size..].chunks(2).map(|link| (link[0] as u32, link[1] as u32)).collect(),
    }
}

fn read_row(at: &[u8]) -> Row {
    Row {
        place: at[0] as u32,
        entry: number(&at[1..4]),
        ticket: number(&at[4..7]),
        exit: number(&at[7..10]),
        next: at[10] as u32,
    }
}

fn key(row: &Row) -> (u32, u32, u32) {
    (row.place, row.entry, row.ticket)
}

/// Whether rows are a plan that begins with this one.
fn is_plan(map: &Map, first: Row, run: &[Row]) -> bool {
    let mut left = run.to_vec();
    let mut here = first;
    loop {
        left.retain(|&row| row != here);
        let stay = here.exit as i64 - here.entry as i64 - map.durations[here.place as usize] as i64;
        if here.next == here.place {
            return stay == 0 && left.is_empty();
        }
        let linked = map.links.contains(&(here.place, here.next));
        let next = left.iter().find(|row| (row.place, row.entry) == (here.next, here.exit));
        match next {
            Some(&next) if linked && stay >= 0 => here = next,
            _ => return false,
        }
    }
}

/// Whether rows overfill a place at a second, where all but the last don't: at a second that the last one holds.
fn overfilled(map: &Map, rows: &[Row]) -> bool {
    let last = rows[rows.len() - 1];
    (last.entry..last.exit).any(|second| {
        let inside = rows.iter().filter(|row| row.place == last.place && row.entry <= second && second < row.exit);
        inside.count() > map.capacities[last.place as usize]
    })
}

/// Whether crossings of one second lead from a place back to it, where those of all rows but the last don't: by the last one.
fn has_ring(rows: &[Row]) -> bool {
    let last = rows[rows.len() - 1];
    let at_once = rows.iter().filter(|row| row.next != row.place && row.exit == last.exit);
    let crossings: BTreeSet<(u32, u32)> = at_once.map(|row| (row.place, row.next)).collect();
    let mut reached = BTreeSet::from([last.next]);
    loop {
        let onward = crossings.iter().filter(|step| reached.contains(&step.0)).map(|step| step.1);
        let more: BTreeSet<u32> = onward.filter(|place| !reached.contains(place)).collect();
        if more.is_empty() {
            return last.next != last.place && reached.contains(&last.place);
        }
        reached.extend(more);
    }
}
