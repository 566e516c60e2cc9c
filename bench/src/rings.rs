//! The rings that one crossing more would close in a book.

use crate::barn::{Map, Row, MOST_PLACES};

/// A crossing along a link that closes a ring of three places or more with booked crossings of its second. No booked one
/// opposes it, and there is room for a wagon that makes it and stays no longer than it must before and after.
#[derive(Clone, Copy)]
pub struct Closing {
    pub from: u8,
    pub to: u8,
    pub second: u32,
}

pub fn closing(map: &Map, links: &[(u8, u8)], rows: &[Row]) -> Vec<Closing> {
    let leaving = rows.iter().filter(|row| !row.is_last());
    let mut crossings: Vec<_> = leaving.map(|row| (row.exit(), row.place(), row.next())).collect();
    crossings.sort_unstable();
    let mut found = Vec::new();
    for at_once in crossings.chunk_by(|one, other| one.0 == other.0).filter(|at_once| at_once.len() > 1) {
        let second = at_once[0].0;
        for from in 0..map.size() as u8 {
            let origins = origins(at_once, from);
            for &(_, to) in links.iter().filter(|link| link.0 == from && origins[link.1 as usize]) {
                let opposed = at_once.contains(&(second, to, from));
                let before = has_room(map, rows, from, second.saturating_sub(map.duration(from)), second);
                if !opposed && before && has_room(map, rows, to, second, second + map.duration(to)) {
                    found.push(Closing { from, to, second });
                }
            }
        }
    }
    found
}

/// The places from which crossings of one second lead to a place.
fn origins(at_once: &[(u32, u8, u8)], place: u8) -> [bool; MOST_PLACES] {
    let mut origins = [false; MOST_PLACES];
    loop {
        let mut more = false;
        for &(_, from, to) in at_once {
            if (to == place || origins[to as usize]) && !origins[from as usize] {
                origins[from as usize] = true;
                more = true;
            }
        }
        if !more {
            return origins;
        }
    }
}

/// Whether fewer rows than the capacity have any second of this stretch.
fn has_room(map: &Map, rows: &[Row], place: u8, start: u32, end: u32) -> bool {
    let taken = rows.iter().filter(|row| row.place() == place && row.entry() < end && start < row.exit());
    taken.count() < map.capacity(place)
}
