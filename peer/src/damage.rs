//! Calls beside books with faults. A sound book is damaged so that each of the refusals 2 and 13
//! to 16 comes: at the first row where it can come, in the middle and at the last, alone and with
//! others behind it.

use crate::barn::*;
use crate::dice::Dice;
use crate::faults;
use crate::plan::Seconds;
use crate::{ask, beyond, book_slice, damage_length, map_slice, ring_map, run_through, Asked};
use std::io::{self, Write};

/// Sound runs stand between these seconds; faults are also put before and after.
const MORNING: u32 = 5_000;
const EVENING: u32 = 80_000;
/// Tickets in use are up to this number.
const HIGHEST: u32 = 2_000;

/// Whereabouts in the book a fault is put.
#[derive(Clone, Copy, PartialEq)]
enum At {
    First,
    Middle,
    Last,
    Any,
}
use At::*;

/// A fault to be put into a book: the refusal's number and whereabouts.
type Wanted = (u8, At);

/// The faults of each book, those of one number in the order in which they are put in.
const WANTED: [&[Wanted]; 40] = [
    &[],
    &[(13, First)],
    &[(13, Middle)],
    &[(13, Last)],
    &[(13, Any)],
    &[(14, First)],
    &[(14, Middle)],
    &[(14, Last)],
    &[(15, First)],
    &[(15, Middle)],
    &[(15, Last)],
    &[(15, Any)],
    &[(16, First)],
    &[(16, Middle)],
    &[(16, Last)],
    &[(16, Any)],
    &[(2, Any)],
    &[(15, First), (13, Last)],
    &[(15, Any), (13, Any)],
    &[(14, First), (13, Last)],
    &[(14, Any), (13, Any)],
    &[(16, First), (13, Middle)],
    &[(14, Any), (14, Any)],
    &[(14, First), (14, Last)],
    &[(14, Middle), (14, Middle), (14, Any)],
    &[(15, First), (15, Last)],
    &[(15, Any), (15, Any)],
    &[(16, First), (16, Last)],
    &[(16, Any), (16, Any)],
    &[(16, Middle), (16, Middle)],
    &[(16, Any), (16, Any), (16, Any)],
    &[(16, First), (15, Last)],
    &[(16, Any), (15, Any)],
    &[(15, First), (14, Last)],
    &[(15, Any), (14, Any)],
    &[(16, Any), (14, Middle)],
    &[(16, First), (15, Middle), (14, Last)],
    &[(15, First), (14, Middle), (13, Last)],
    &[(13, First), (2, Any)],
    &[(16, Any), (15, Any), (14, Any), (2, Any)],
];

/// The ways in which a ticket can be no plan; each is used on every sound book.
const WAYS: usize = 17;

/// A sound map and book.
struct Yard {
    map: Map,
    /// Places in the order of a ring road.
    ring: Vec<usize>,
    book: Book,
    /// Runs of one stay that are also permitted beside the book.
    spare: Vec<Row>,
}

/// A yard that is being damaged.
struct Work {
    map: Map,
    book: Book,
    /// The tickets that make a fault.
    touched: Vec<u32>,
}

impl Work {
    /// Puts rows in, in the order of their keys.
    fn put(&mut self, more: &[Row]) {
        self.book.rows.extend_from_slice(more);
        self.book.rows.sort_by_key(|row| row.key());
        self.touched.extend(more.iter().map(|row| row.ticket));
    }

    fn free_ticket(&self, dice: &mut Dice) -> u32 {
        loop {
            let ticket = dice.among(1, HIGHEST as usize) as u32;
            if self.book.rows.iter().all(|row| row.ticket != ticket) {
                return ticket;
            }
        }
    }

    fn load(&self, place: usize, second: u32) -> u32 {
        let stays = self.book.rows.iter().filter(|row| row.place == place && row.entry <= second && second < row.exit);
        stays.count() as u32
    }

    fn stay(&self, place: usize, entry: u32, ticket: u32) -> Row {
        Row { place, entry, ticket, exit: entry + self.map.duration(place), next: place }
    }

    /// The index of some row, in the middle half of the book where that is asked.
    fn some_row(&self, dice: &mut Dice, at: At) -> usize {
        let count = self.book.rows.len();
        match at {
            First => 0,
            Last => count - 1,
            Middle => (count / 4 + dice.below(count / 2 + 1)).min(count - 1),
            Any => dice.below(count),
        }
    }
}

/// A map with rings of two and three places at both ends of its numbers, and a book of this size.
fn sound(dice: &mut Dice, seconds: &mut Seconds, size: usize) -> Yard {
    loop {
        let long = dice.pick(&[3, 3, 4, 6, 12, 30]);
        let (mut map, ring) = ring_map(dice, long);
        let n = map.places.len();
        for (from, to) in [(0, 1), (1, 0), (n - 1, n - 2), (n - 2, n - 1), (n - 2, n - 3), (n - 3, n - 1)] {
            if !map.has_link(from, to) {
                map.links.push((from, to));
            }
        }
        if dice.chance(60) {
            map.places[0].capacity = 1;
            map.places[n - 1].capacity = 1;
        }
        let spared = dice.chance(40);
        if let Some(rows) = sound_rows(dice, seconds, &map, size + 8, spared) {
            let mut book = Book { next_ticket: dice.pick(&[HIGHEST + 1, LAST_TICKET + 1]), rows };
            let mut spare = Vec::new();
            while book.rows.len() > size {
                let at = dice.pick(&ones(&book.rows));
                spare.push(book.rows.remove(at));
            }
            return Yard { map, ring, book, spare };
        }
    }
}

/// So many rows of permitted runs, the first eight of them runs of one stay; none at place 0 where
/// it is spared.
fn sound_rows(dice: &mut Dice, seconds: &mut Seconds, map: &Map, size: usize, spared: bool) -> Option<Vec<Row>> {
    let mut roads = map.clone();
    if spared {
        roads.links.retain(|link| link.0 != 0 && link.1 != 0);
    }
    let n = map.places.len();
    let names = dice.shuffled(HIGHEST as usize);
    let wide = dice.pick(&[200, 3_000, 60_000]).max(12 * size);
    let mut rows: Vec<Row> = Vec::new();
    for attempt in 0..20 * size {
        let start = if spared { dice.among(1, n - 1) } else { dice.below(n) };
        let mut destination = start;
        if rows.len() >= 8 {
            for _ in 0..dice.below(6) {
                destination = step(dice, &roads, destination, false);
            }
        }
        let second = MORNING + dice.below(wide) as u32;
        let plan = seconds.plan(&roads, &rows, start, destination, second).unwrap_or_default();
        let fits = plan.last().map_or(false, |last| last.exit < EVENING) && rows.len() + plan.len() <= size;
        if fits {
            let ticket = 1 + names[attempt % names.len()] as u32;
            if rows.iter().all(|row| row.ticket != ticket) {
                rows.extend(plan.iter().map(|row| Row { ticket, ..*row }));
            }
        }
        if rows.len() == size {
            rows.sort_by_key(|row| row.key());
            return Some(rows);
        }
    }
    None
}

/// The indices of the rows that are runs of one stay.
fn ones(rows: &[Row]) -> Vec<usize> {
    (0..rows.len()).filter(|&at| rows.iter().filter(|row| row.ticket == rows[at].ticket).count() == 1).collect()
}

/// Puts runs of one stay in or takes some out, until the book has this size or there are none.
fn fit(dice: &mut Dice, work: &mut Work, spare: &[Row], size: usize) {
    let short = size.saturating_sub(work.book.rows.len()).min(spare.len());
    let unused = |row: &&Row| work.book.rows.iter().all(|other| other.ticket != row.ticket);
    let more: Vec<Row> = spare.iter().filter(unused).take(short).copied().collect();
    work.book.rows.extend(more);
    work.book.rows.sort_by_key(|row| row.key());
    let over = work.book.rows.len().saturating_sub(size);
    let free = ones(&work.book.rows).into_iter().filter(|&at| !work.touched.contains(&work.book.rows[at].ticket));
    let free: Vec<usize> = free.collect();
    let mut out: Vec<usize> = dice.shuffled(free.len()).into_iter().take(over).map(|at| free[at]).collect();
    out.sort();
    for at in out.into_iter().rev() {
        work.book.rows.remove(at);
    }
}

/// Two keys that do not rise, the second of them at the row asked for.
fn disorder(dice: &mut Dice, work: &mut Work, spare: &[Row], at: At) {
    let size = work.book.rows.len();
    let way = dice.below(7);
    if way < 2 {
        fit(dice, work, spare, size - 1);
    }
    let at = work.some_row(dice, at).max(1);
    let rows = &mut work.book.rows;
    match way {
        // The row before once more, or its key with another exit.
        0 => rows.insert(at, rows[at - 1]),
        1 => rows.insert(at, Row { exit: rows[at - 1].exit + 1, ..rows[at - 1] }),
        2 => rows.swap(at - 1, at),
        // A later row stands too early, or an earlier one too late.
        3 => {
            let later = dice.among(at, rows.len() - 1);
            let row = rows.remove(later);
            rows.insert(at - 1, row);
        }
        4 => {
            let earlier = dice.below(at);
            let row = rows.remove(earlier);
            rows.insert(at, row);
        }
        // Keys that differ in the entry alone or in the ticket alone.
        _ => {
            let close = |at: &usize| {
                let (one, two) = (rows[*at - 1].key(), rows[*at].key());
                one.0 == two.0 && (way == 5 || one.1 == two.1)
            };
            let found: Vec<usize> = (1..rows.len()).filter(close).collect();
            let at = if found.is_empty() { at } else { dice.pick(&found) };
            rows.swap(at - 1, at);
        }
    }
}

/// More wagons at one place than it holds.
fn overfill(dice: &mut Dice, work: &mut Work, at: At) {
    let n = work.map.places.len();
    let day_end = at == Last && dice.chance(30);
    let (place, entry) = match at {
        First if dice.chance(30) => (0, 0),
        First => (0, dice.below(MORNING as usize - 100) as u32),
        Last if day_end => (n - 1, DAY - work.map.duration(n - 1)),
        Last => (n - 1, EVENING + dice.below(6_000) as u32),
        Middle => {
            let row = work.book.rows[work.some_row(dice, at)];
            (row.place, row.entry + dice.below((row.exit.max(row.entry + 1) - row.entry) as usize) as u32)
        }
        Any => (dice.below(n), dice.below(EVENING as usize) as u32),
    };
    if at == Any && dice.chance(60) {
        if dice.chance(50) {
            return repeat_run(dice, work);
        }
        if lower_capacity(dice, work) {
            return;
        }
    }
    // All these stays hold the last second of the first of them.
    let duration = work.map.duration(place);
    let late = if day_end { 1 } else { dice.pick(&[1, 2, duration]).min(duration) as usize };
    while work.load(place, entry + duration - 1) <= work.map.places[place].capacity {
        let ticket = work.free_ticket(dice);
        let stay = work.stay(place, entry + dice.below(late) as u32, ticket);
        work.put(&[stay]);
    }
}

/// Books a run once more under other tickets until its first place is overfull.
fn repeat_run(dice: &mut Dice, work: &mut Work) {
    let one = work.book.rows[work.some_row(dice, Any)];
    let run: Vec<Row> = work.book.rows.iter().filter(|row| row.ticket == one.ticket).copied().collect();
    while one.entry < one.exit && work.load(one.place, one.entry) <= work.map.places[one.place].capacity {
        let ticket = work.free_ticket(dice);
        let again: Vec<Row> = run.iter().map(|row| Row { ticket, ..*row }).collect();
        work.put(&again);
    }
}

/// Lowers a place's capacity below its greatest load, if that is above 1.
fn lower_capacity(dice: &mut Dice, work: &mut Work) -> bool {
    let place = work.book.rows[work.some_row(dice, Any)].place;
    let there = work.book.rows.iter().filter(|row| row.place == place);
    let greatest = there.map(|row| work.load(place, row.entry)).max().unwrap_or(0);
    if greatest > 1 {
        work.map.places[place].capacity = greatest - 1;
    }
    greatest > 1
}

/// Runs that cross in a ring in one second, with no place overfilled by them.
fn close_ring(dice: &mut Dice, work: &mut Work, road: &[usize], at: At) {
    let n = work.map.places.len();
    for _ in 0..40 {
        let ends = [vec![n - 2, n - 1], vec![n - 3, n - 1, n - 2]];
        let ring = match at {
            First => vec![0, 1],
            Last => ends[dice.below(2)].clone(),
            _ if dice.chance(40) => road.to_vec(),
            _ => some_ring(dice, &work.map),
        };
        let t = match at {
            First => dice.among(500, 4_000),
            Last => EVENING as usize + dice.among(500, 5_000),
            _ if dice.chance(70) => dice.among(MORNING as usize, EVENING as usize),
            _ => dice.pick(&[500, 81_000]) + dice.below(2_000),
        };
        let before = (work.book.clone(), work.touched.clone());
        let mut fits = true;
        for from in dice.shuffled(ring.len()) {
            let places = [ring[from], ring[(from + 1) % ring.len()]];
            // Now and then two wagons cross side by side.
            let abreast = if work.map.places[places[0]].capacity > 1 && dice.chance(20) { 2 } else { 1 };
            for _ in 0..abreast {
                let wait = dice.pick(&[0, 0, 0, 1, 7]);
                let ticket = work.free_ticket(dice);
                let run = run_through(&work.map, &places, 0, t as u32, wait, ticket);
                work.put(&run);
                fits &= run.iter().all(|row| stays_within(work, row));
            }
        }
        if fits {
            return;
        }
        (work.book, work.touched) = before;
    }
}

fn stays_within(work: &Work, row: &Row) -> bool {
    (row.entry..row.exit).all(|second| work.load(row.place, second) <= work.map.places[row.place].capacity)
}

/// A place that a link leads to from here, or leads here from; any where there is none.
fn step(dice: &mut Dice, map: &Map, here: usize, backward: bool) -> usize {
    let leads = |link: &(usize, usize)| if backward { link.1 == here } else { link.0 == here };
    if map.links.iter().any(leads) {
        beyond(dice, map, here, backward)
    } else {
        dice.below(map.places.len())
    }
}

/// Places that links lead through and back to the first, none twice.
fn some_ring(dice: &mut Dice, map: &Map) -> Vec<usize> {
    loop {
        let mut ring = vec![dice.below(map.places.len())];
        while ring.len() < 12 {
            let next = beyond(dice, map, ring[ring.len() - 1], false);
            if let Some(at) = ring.iter().position(|&place| place == next) {
                return ring[at..].to_vec();
            }
            ring.push(next);
        }
    }
}

/// Breaks the run of some ticket in one of the ways that can be had there.
fn break_run(dice: &mut Dice, work: &mut Work, at: At) {
    for _ in 0..60 {
        let way = dice.below(WAYS);
        if break_in_way(dice, work, at, way) {
            return;
        }
    }
}

fn break_in_way(dice: &mut Dice, work: &mut Work, at: At, way: usize) -> bool {
    let n = work.map.places.len();
    if at == Last {
        // A run of one stay that is stored last.
        let ticket = work.free_ticket(dice);
        let stay = work.stay(n - 1, EVENING + dice.below(6_000) as u32, ticket);
        if ![1, 2, 10].contains(&way) || work.book.rows.iter().any(|row| row.key() >= stay.key()) {
            return false;
        }
        work.put(&[stay]);
    }
    let one = work.book.rows[work.some_row(dice, at)];
    let ticket = one.ticket;
    let mut run: Vec<Row> = work.book.rows.iter().filter(|row| row.ticket == ticket).copied().collect();
    if at == Middle && run[0].key() != one.key() {
        return false;
    }
    run.sort_by_key(|row| row.entry);
    if !misshape(dice, work, &mut run, way) {
        return false;
    }
    work.touched.push(ticket);
    work.book.rows.retain(|row| row.ticket != ticket);
    work.put(&run);
    true
}

/// Changes a run, given in travel order, in one way; no where it has no place for it.
fn misshape(dice: &mut Dice, work: &mut Work, run: &mut Vec<Row>, way: usize) -> bool {
    let n = work.map.places.len();
    let last = run.len() - 1;
    let ticket = run[0].ticket;
    let one_row = last == 0;
    let at = if one_row { 0 } else { dice.below(last) };
    match way {
        // The last stay lasts longer or shorter than the duration.
        1 => run[last].exit += dice.among(1, 3) as u32,
        2 => run[last].exit -= 1,
        // The last row goes on to a place where there is no row.
        10 => {
            run[last].next = step(dice, &work.map, run[last].place, false);
        }
        // A row besides: another run of one stay, or a crossing, under the same ticket.
        7 => {
            let later = run[last].exit + dice.below(300) as u32;
            let place = dice.below(n);
            run.push(work.stay(place, later, ticket));
        }
        8 => {
            let place = dice.below(n);
            let stay = work.stay(place, dice.below(EVENING as usize) as u32, ticket);
            let next = step(dice, &work.map, place, false);
            run.push(Row { next, ..stay });
        }
        // Two runs under one ticket: two last rows.
        9 => {
            let other = work.book.rows[dice.below(work.book.rows.len())].ticket;
            let joined = work.book.rows.iter().filter(|row| row.ticket == other && other != ticket);
            run.extend(joined.map(|row| Row { ticket, ..*row }));
            work.book.rows.retain(|row| row.ticket != other || other == ticket);
        }
        // The ways from here on take two rows or more.
        _ if one_row => return false,
        // A stay too short, all after it being as much sooner.
        0 => {
            let sooner = run[at].exit - run[at].entry - work.map.duration(run[at].place) + 1;
            run[at].exit -= sooner;
            for row in &mut run[at + 1..] {
                row.entry -= sooner;
                row.exit -= sooner;
            }
        }
        // A step without a link: to another place, or by a link that the map has lost.
        3 => {
            let from = run[at].place;
            let place = dice.below(n);
            if place == from || work.map.has_link(from, place) {
                return false;
            }
            run[at].next = place;
            run.truncate(at + 1);
            run.push(work.stay(place, run[at].exit, ticket));
        }
        4 => {
            let lost = (run[at].place, run[at].next);
            work.map.links.retain(|link| *link != lost);
        }
        // A successor is missing; where the first row is, the rest is still a plan.
        5 => {
            run.remove(dice.among(1, last));
        }
        6 => {
            run.remove(0);
        }
        // Two rows go on to the same one.
        11 => {
            let to = run[at + 1];
            let place = step(dice, &work.map, to.place, true);
            let entry = to.entry.saturating_sub(work.map.duration(place) + dice.among(1, 5) as u32);
            run.push(Row { place, entry, ticket, exit: to.entry, next: to.place });
        }
        // Two rows come from the same one, both of them last.
        12 => {
            let place = step(dice, &work.map, run[at].place, false);
            if place == run[at].next {
                return false;
            }
            run.push(work.stay(place, run[at].exit, ticket));
        }
        // A cycle without an end: the last row goes on to the first, or both of two stays end at once.
        13 => {
            let first = run[0];
            if first.place == run[last].place {
                return false;
            }
            if dice.chance(50) {
                run.truncate(1);
                run[0].exit = first.entry;
                run.push(Row { place: first.next, next: first.place, ..run[0] });
                return true;
            }
            run[last].next = first.place;
            run[last].exit = first.entry;
        }
        // A gap or an overlap between two stays.
        14 => run[at].exit += 1,
        15 => run[at + 1].entry -= 1,
        // A row goes on to another place than the one after, or ends the run before its last row.
        _ => {
            let place = dice.below(n);
            run[at].next = dice.pick(&[run[at].place, place]);
        }
    }
    true
}

/// A number out of its range.
fn misrange(dice: &mut Dice, work: &mut Work, at: At) {
    let n = work.map.places.len();
    let at = work.some_row(dice, at);
    let next_ticket = work.book.next_ticket;
    let row = &mut work.book.rows[at];
    match dice.below(9) {
        0 => work.book.next_ticket = dice.pick(&[0, LAST_TICKET + 2, 0xFF_FFFF]),
        1 => work.book.next_ticket = row.ticket,
        2 => row.ticket = dice.pick(&[0, next_ticket, next_ticket + 1]),
        3 => row.entry = dice.pick(&[DAY + 1, 0xFF_FFFF]),
        4 => row.exit = dice.pick(&[DAY + 1, 0xFF_FFFF]),
        5 => row.place = dice.pick(&[n, 255]).max(n).min(255),
        6 => row.next = dice.pick(&[n, 255]).max(n).min(255),
        7 => {
            let row = *row;
            work.book.rows.insert(at, row);
            work.book.rows.resize(MOST_ROWS + 1, row);
        }
        _ => row.ticket = 0,
    }
}

/// The sound book with these faults in it.
fn damaged(dice: &mut Dice, yard: &Yard, wanted: &[Wanted]) -> Work {
    let size = yard.book.rows.len();
    let mut work = Work { map: yard.map.clone(), book: yard.book.clone(), touched: Vec::new() };
    let of = |number: u8| wanted.iter().filter(move |fault| fault.0 == number).map(|fault| fault.1);
    of(BARRED).for_each(|at| close_ring(dice, &mut work, &yard.ring, at));
    of(OVERFULL).for_each(|at| overfill(dice, &mut work, at));
    of(BROKEN_RUN).for_each(|at| break_run(dice, &mut work, at));
    fit(dice, &mut work, &yard.spare, size);
    of(KEYS_FALL).for_each(|at| disorder(dice, &mut work, &yard.spare, at));
    of(BAD_BOOK).for_each(|at| misrange(dice, &mut work, at));
    work
}

/// Some call, now and then with numbers that it would refuse by itself.
fn some_call(dice: &mut Dice, map: &Map, book: &Book) -> Asked {
    let n = map.places.len();
    let bad = dice.chance(40);
    let place = |dice: &mut Dice| if bad && dice.chance(40) { dice.pick(&[n, 255, 256]).max(n) } else { dice.below(n) };
    let mut number = |bad_ones: &[usize], good: usize| if bad && dice.chance(40) { dice.pick(bad_ones) } else { good };
    let (size, second) = (number(&[0, 65, 256], 0), number(&[86_401, 16_777_216], 0));
    let (length, ticket) = (number(&[0, 10], 14_080), number(&[1_000_000, 16_777_216], 0));
    if dice.chance(50) {
        let second = second.max(dice.below(EVENING as usize));
        return Asked::Plan([place(dice), place(dice), second, length].map(|number| number as u64));
    }
    let key = book.rows[dice.below(book.rows.len())].key();
    let size = if bad && dice.chance(40) { size } else { dice.among(1, 64) };
    let entry = second.max(key.1 as usize);
    Asked::Page([size, place(dice), entry, ticket.max(key.2 as usize), length].map(|number| number as u64))
}

/// Whether the book's refusal is the first of those wanted.
fn as_wanted(work: &Work, wanted: &[Wanted]) -> bool {
    let first = wanted.iter().map(|fault| fault.0).min();
    faults::first_fault(&work.map, &work.book).map(|refusal| refusal.0) == first
}

fn ask_about(dice: &mut Dice, out: &mut impl Write, work: &Work) -> io::Result<()> {
    let call = some_call(dice, &work.map, &work.book);
    let (mut map, mut book) = (map_slice(&work.map), book_slice(&work.book));
    if dice.chance(2) {
        damage_length(dice, &mut book);
    }
    if dice.chance(1) {
        damage_length(dice, &mut map);
    }
    ask(out, &map, &book, call)
}

pub fn faults(dice: &mut Dice, out: &mut impl Write) -> io::Result<()> {
    let mut seconds = Seconds::new();
    for size in [dice.among(6, 24), dice.among(25, 400), MOST_ROWS] {
        let yard = sound(dice, &mut seconds, size);
        for wanted in WANTED {
            let mut work = damaged(dice, &yard, wanted);
            for _ in 0..8 {
                if as_wanted(&work, wanted) {
                    break;
                }
                work = damaged(dice, &yard, wanted);
            }
            ask_about(dice, out, &work)?;
        }
        for way in 0..WAYS {
            let mut work = Work { map: yard.map.clone(), book: yard.book.clone(), touched: Vec::new() };
            for _ in 0..60 {
                if break_in_way(dice, &mut work, Any, way) {
                    break;
                }
            }
            fit(dice, &mut work, &yard.spare, size);
            ask_about(dice, out, &work)?;
        }
    }
    Ok(())
}
