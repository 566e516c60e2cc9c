//! What is wrong with a book: the refusal's number and the row it names, straight from the
//! definitions. Rows are counted from 1 as they are stored. Each check goes over the whole book
//! before the next is asked.

#![allow(dead_code)]

use crate::barn::*;

/// A refusal's number and its row, 0 where it names none.
pub type Refusal = (u8, usize);

/// The refusal of a book on a map that keeps its rules; none where the book is well formed.
pub fn first_fault(map: &Map, book: &Book) -> Option<Refusal> {
    if !in_range(map, book) {
        return Some((BAD_BOOK, 0));
    }
    let rows = &book.rows;
    let named = |number: u8, row: Option<usize>| row.map(|row| (number, row));
    named(KEYS_FALL, keys_fall(rows))
        .or_else(|| named(BROKEN_RUN, broken_run(map, rows)))
        .or_else(|| named(OVERFULL, overfull(map, rows)))
        .or_else(|| named(BARRED, barred(rows)))
}

pub fn well_formed(map: &Map, book: &Book) -> bool {
    first_fault(map, book).is_none()
}

pub fn well_formed_but_for_rings(map: &Map, book: &Book) -> bool {
    first_fault(map, book).map_or(true, |(number, _)| number == BARRED)
}

/// The counts, the next ticket number and every row are in their ranges.
pub fn in_range(map: &Map, book: &Book) -> bool {
    counts_kept(book) && book.rows.iter().all(|row| row_in_range(map, book, row))
}

fn counts_kept(book: &Book) -> bool {
    book.rows.len() <= MOST_ROWS && 1 <= book.next_ticket && book.next_ticket <= LAST_TICKET + 1
}

pub fn row_in_range(map: &Map, book: &Book, row: &Row) -> bool {
    stands_on(map, row) && 1 <= row.ticket && row.ticket < book.next_ticket
}

fn stands_on(map: &Map, row: &Row) -> bool {
    map.has_place(row.place) && map.has_place(row.next) && row.entry <= DAY && row.exit <= DAY
}

/// The first row whose key is not above that of the row before.
pub fn keys_fall(rows: &[Row]) -> Option<usize> {
    (2..=rows.len()).find(|&i| rows[i - 1].key() <= rows[i - 2].key())
}

/// The first stored row of the lowest ticket whose rows are no whole plan.
pub fn broken_run(map: &Map, rows: &[Row]) -> Option<usize> {
    let ticket = tickets(rows).into_iter().find(|&ticket| broken(map, rows, ticket))?;
    (1..=rows.len()).find(|&i| rows[i - 1].ticket == ticket)
}

/// The tickets of these rows, the lowest first.
pub fn tickets(rows: &[Row]) -> Vec<u32> {
    let mut tickets: Vec<u32> = rows.iter().map(|row| row.ticket).collect();
    tickets.sort();
    tickets.dedup();
    tickets
}

/// Whether the rows of a ticket, taken out, are no whole plan. In a plan the entries rise from stay
/// to stay, so that the order of entries is the only one to try.
pub fn broken(map: &Map, rows: &[Row], ticket: u32) -> bool {
    let mut run: Vec<Row> = rows.iter().filter(|row| row.ticket == ticket).copied().collect();
    run.sort_by_key(|row| row.entry);
    !whole_plan(map, &run)
}

fn whole_plan(map: &Map, run: &[Row]) -> bool {
    for (i, row) in run.iter().enumerate() {
        let least_exit = row.entry + map.duration(row.place);
        if i + 1 < run.len() {
            let after = &run[i + 1];
            let goes_on = row.exit == after.entry && row.next == after.place;
            if !goes_on || !map.has_link(row.place, after.place) || row.exit < least_exit {
                return false;
            }
        } else if row.next != row.place || row.exit != least_exit || row.exit > DAY {
            return false;
        }
    }
    true
}

/// The least i such that the rows 1 to i alone overfill a place at some second.
pub fn overfull(map: &Map, rows: &[Row]) -> Option<usize> {
    (1..=rows.len()).find(|&i| last_overfills(map, &rows[..i]))
}

/// Whether these rows overfill a place at some second, where they did not without the last of
/// them. The loads differ at the last row's place and seconds alone, so for speed no others are
/// looked at.
fn last_overfills(map: &Map, rows: &[Row]) -> bool {
    let last = rows[rows.len() - 1];
    let mut load = vec![0u32; last.exit.saturating_sub(last.entry) as usize];
    for row in rows.iter().filter(|row| row.place == last.place) {
        for second in row.entry.max(last.entry)..row.exit.min(last.exit) {
            load[(second - last.entry) as usize] += 1;
        }
    }
    load.iter().any(|&wagons| wagons > map.places[last.place].capacity)
}

/// The least i such that the crossings of the rows 1 to i alone hold a ring at some second.
pub fn barred(rows: &[Row]) -> Option<usize> {
    (1..=rows.len()).find(|&i| last_closes(&rows[..i]))
}

/// Whether the crossings of these rows hold a ring at some second, where they did not without the
/// last row. Such a ring goes through the last row's place at its exit, so for speed no other
/// place and second is looked at.
fn last_closes(rows: &[Row]) -> bool {
    let Some((from, _, t)) = rows[rows.len() - 1].crossing() else { return false };
    leads_back(&met_at(rows, t), from)
}

/// The crossings of these rows at a second.
pub fn met_at(rows: &[Row], t: u32) -> Vec<(usize, usize)> {
    rows.iter().filter_map(|row| row.crossing()).filter(|crossing| crossing.2 == t).map(|(p, q, _)| (p, q)).collect()
}

/// Whether crossings of one second lead from a place back to it.
pub fn leads_back(met: &[(usize, usize)], place: usize) -> bool {
    led_to(met, place, MOST_PLACES).has(place)
}

/// At each second each place holds at most its capacity: every place and second is looked at at
/// which one of these rows stands.
pub fn load_kept(map: &Map, rows: &[Row]) -> bool {
    (0..map.places.len()).all(|place| place_kept(map, rows, place))
}

fn place_kept(map: &Map, rows: &[Row], place: usize) -> bool {
    let stays: Vec<&Row> = rows.iter().filter(|row| row.place == place).collect();
    let first = stays.iter().map(|row| row.entry).min().unwrap_or(0);
    let end = stays.iter().map(|row| row.exit).max().unwrap_or(0);
    let mut load = vec![0u32; end.saturating_sub(first) as usize];
    for row in stays {
        for second in row.entry..row.exit {
            load[(second - first) as usize] += 1;
        }
    }
    load.iter().all(|&wagons| wagons <= map.places[place].capacity)
}

/// In no second do crossings lead from a place back to it: there is no ring of two or more
/// places. Every second and place is looked at at which one of these rows crosses.
pub fn rings_kept(rows: &[Row]) -> bool {
    crossings(rows).values().all(|met| !closes_ring(met, MOST_PLACES))
}

/// Whether crossings of one second lead from some place back to it in at most so many steps.
fn closes_ring(met: &[(usize, usize)], steps: usize) -> bool {
    met.iter().any(|&(p, _)| led_to(met, p, steps).has(p))
}

/// The number of places of the book's shortest ring, if it has one.
pub fn shortest_ring(book: &Book) -> Option<usize> {
    let mut with_ring = crossings(&book.rows);
    with_ring.retain(|_, met| closes_ring(met, MOST_PLACES));
    with_ring.values().filter_map(|met| (1..=MOST_PLACES).find(|&steps| closes_ring(met, steps))).min()
}

/// How many others a refusal passes over: at a 14 the broken tickets that are stored before the one
/// named, at a 15 the other overfull places.
pub fn rivals(map: &Map, rows: &[Row], (number, row): Refusal) -> usize {
    match number {
        BROKEN_RUN => tickets(&rows[..row - 1]).into_iter().filter(|&ticket| broken(map, rows, ticket)).count(),
        OVERFULL => (0..map.places.len()).filter(|&place| !place_kept(map, rows, place)).count() - 1,
        _ => 0,
    }
}

/// The numbers of all checks that do not hold, each asked on its own. 13 is asked of all rows; 15
/// and 16 of those that stand on the map and in the day, 14 of the tickets with no other row.
pub fn kinds(map: &Map, book: &Book) -> Vec<u8> {
    let rows: Vec<Row> = book.rows.iter().filter(|row| stands_on(map, row)).copied().collect();
    let mut whole = rows.clone();
    for row in book.rows.iter().filter(|row| !stands_on(map, row)) {
        whole.retain(|other| other.ticket != row.ticket);
    }
    let asked = [
        (BAD_BOOK, !in_range(map, book)),
        (KEYS_FALL, keys_fall(&book.rows).is_some()),
        (BROKEN_RUN, broken_run(map, &whole).is_some()),
        (OVERFULL, overfull(map, &rows).is_some()),
        (BARRED, barred(&rows).is_some()),
    ];
    asked.iter().filter(|(_, failed)| *failed).map(|(number, _)| *number).collect()
}
