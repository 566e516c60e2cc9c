//! Why a book is refused: the number and the row. It is asked only of a book that the quick test has found at fault, so it goes
//! by the rules one after the other, each over all rows.

use crate::barn::*;

/// The number by which a book at fault is refused, and the row, from 1; 0 for a fault that no row is named for.
#[cold]
#[inline(never)]
pub fn found(map: &Map, slice: &[u8]) -> (u8, usize) {
    let Some(rows) = in_range(map, slice) else {
        return (BAD_BOOK, 0);
    };
    let (number, at) = if let Some(at) = not_rising(&rows) {
        (KEYS_FALL, at)
    } else if let Some(at) = broken_run(map, &rows) {
        (BROKEN_RUN, at)
    } else if let Some(at) = overfull(map, &rows) {
        (OVERFULL, at)
    } else if let Some(at) = barred(&rows) {
        (BARRED, at)
    } else {
        panic!("a book refused without a fault");
    };
    (number, at + 1)
}

/// The rows of a slice whose length, counts and ranges are right.
fn in_range(map: &Map, slice: &[u8]) -> Option<Vec<Row>> {
    let (head, packed) = slice.split_at_checked(5)?;
    let (next_ticket, count) = (number(&head[..3]), number(&head[3..]) as usize);
    if count > MOST_ROWS || packed.len() != PACKED_ROW * count || !(1..=MOST_TICKETS).contains(&next_ticket) {
        return None;
    }
    let rows: Vec<Row> = packed.as_chunks().0.iter().map(Row::unpacked).collect();
    let places_kept = |row: &Row| (row.place().max(row.next()) as usize) < map.size();
    let times_kept = |row: &Row| row.entry() <= DAY && row.exit() <= DAY;
    let ticket_kept = |row: &Row| (1..next_ticket).contains(&row.ticket());
    rows.iter().all(|row| places_kept(row) && times_kept(row) && ticket_kept(row)).then_some(rows)
}

fn not_rising(rows: &[Row]) -> Option<usize> {
    (1..rows.len()).find(|&at| rows[at].key <= rows[at - 1].key)
}

/// The first stored row of the lowest ticket whose rows are no plan. The entries of a plan rise, so that a ticket's rows in
/// order of entry are in order of travel, or are no plan.
fn broken_run(map: &Map, rows: &[Row]) -> Option<usize> {
    let mut stays: Vec<_> = rows.iter().enumerate().map(|(at, row)| (row.ticket(), row.entry(), at)).collect();
    stays.sort_unstable();
    let mut run: Vec<Row> = Vec::new();
    for stays in stays.chunk_by(|one, other| one.0 == other.0) {
        run.clear();
        run.extend(stays.iter().map(|stay| rows[stay.2]));
        if !is_plan(map, &run) {
            return stays.iter().map(|stay| stay.2).min();
        }
    }
    None
}

fn is_plan(map: &Map, run: &[Row]) -> bool {
    let last = run[run.len() - 1];
    let ended = last.is_last() && last.waited(map) == 0;
    ended && run.windows(2).all(|two| {
        let (row, next) = (two[0], two[1]);
        let linked = !row.is_last() && map.leads(row.place(), row.next()) & 1 == 1;
        linked && row.waited(map) >= 0 && (row.next(), row.exit()) == (next.place(), next.entry())
    })
}

/// The first row that finds its place full. A place's rows are in order of entry: a row that shares any second with rows before
/// it shares its first one with them.
fn overfull(map: &Map, rows: &[Row]) -> Option<usize> {
    let mut exits: Vec<u32> = Vec::new();
    for (at, row) in rows.iter().enumerate() {
        if at > 0 && rows[at - 1].place() != row.place() {
            exits.clear();
        }
        exits.retain(|&exit| exit > row.entry());
        exits.push(row.exit());
        if exits.len() > map.capacity(row.place()) {
            return Some(at);
        }
    }
    None
}

/// The first row whose crossing closes a ring with crossings of rows before it.
fn barred(rows: &[Row]) -> Option<usize> {
    let leaving = rows.iter().enumerate().filter(|(_, row)| !row.is_last());
    let mut crossings: Vec<_> = leaving.map(|(at, row)| (row.exit(), at)).collect();
    crossings.sort_unstable();
    let mut least = None;
    for at_once in crossings.chunk_by(|one, other| one.0 == other.0).filter(|at_once| at_once.len() > 1) {
        let steps: Vec<_> = at_once.iter().map(|&(_, at)| (rows[at].place(), rows[at].next())).collect();
        if holds_ring(&steps) {
            // Halving: the first so many hold no ring, so many hold one.
            let (mut free, mut held) = (0, steps.len());
            while held - free > 1 {
                let half = (free + held) / 2;
                if holds_ring(&steps[..half]) {
                    held = half;
                } else {
                    free = half;
                }
            }
            let closed = at_once[held - 1].1;
            least = Some(least.map_or(closed, |other: usize| other.min(closed)));
        }
    }
    least
}

/// Whether crossings of one second, in order of the places that they leave, hold a ring: those out of places that none enters
/// are taken away as long as there are any, and some are left.
fn holds_ring(steps: &[(u8, u8)]) -> bool {
    let mut entering = [0; MOST_PLACES];
    steps.iter().for_each(|step| entering[step.1 as usize] += 1);
    let starts = steps.chunk_by(|one, other| one.0 == other.0).map(|steps| steps[0].0);
    let mut free: Vec<u8> = starts.filter(|&place| entering[place as usize] == 0).collect();
    let mut left = steps.len();
    while let Some(place) = free.pop() {
        let first = steps.partition_point(|step| step.0 < place);
        for &(_, to) in steps[first..].iter().take_while(|step| step.0 == place) {
            left -= 1;
            entering[to as usize] -= 1;
            if entering[to as usize] == 0 {
                free.push(to);
            }
        }
    }
    left > 0
}
