//! Damaged slices: a scenario's map and book with something changed, and small books of random runs that often break a rule.

use crate::barn::{number, Row, DAY, PACKED_ROW};
use crate::dice::Dice;
use crate::rings::Closing;
use crate::scenes::{packed, Plot, Scene, OPEN};

type Packed = [u8; PACKED_ROW];

/// The map and the book of a scene, one of them damaged, or now and then the book twice or both.
pub fn damaged(dice: &mut Dice, scene: &Scene) -> (Vec<u8>, Vec<u8>) {
    let (mut map, mut book) = (scene.map.clone(), scene.book.clone());
    if dice.chance(20) {
        damage_rows(dice, scene, &mut book);
    }
    match dice.below(8) {
        0 => change_bytes(dice, &mut map),
        1 => change_bytes(dice, &mut book),
        _ => damage_rows(dice, scene, &mut book),
    }
    (map, book)
}

fn damage_rows(dice: &mut Dice, scene: &Scene, book: &mut Vec<u8>) {
    match dice.below(6) {
        0 | 1 => close_ring(dice, scene, book),
        2 => exchange_rows(dice, book),
        3 => move_second(dice, book),
        4 => meet(dice, book),
        _ => shift_run(dice, book),
    }
}

/// Changes a byte or two, or cuts the slice short.
fn change_bytes(dice: &mut Dice, bytes: &mut Vec<u8>) {
    for _ in 0..dice.among(1, 2) {
        let at = dice.below(bytes.len());
        bytes[at] = if dice.chance(50) { bytes[at] ^ 1 << dice.below(8) } else { dice.below(256) as u8 };
    }
    if dice.chance(5) {
        bytes.truncate(dice.below(bytes.len()));
    }
}

fn packed_rows(book: &mut [u8]) -> &mut [Packed] {
    book[5..].as_chunks_mut().0
}

fn ticket(row: &Packed) -> u32 {
    number(&row[4..7])
}

fn entry(row: &Packed) -> u32 {
    number(&row[1..4])
}

fn exit(row: &Packed) -> u32 {
    number(&row[7..10])
}

/// Moves a ticket's rows by so many seconds, those before the day's first to that one, and puts all in order.
fn move_run(rows: &mut [Packed], moved: u32, seconds: i32) {
    for row in rows.iter_mut().filter(|row| ticket(row) == moved) {
        for at in [1, 7] {
            let second = (number(&row[at..at + 3]) as i32 + seconds).max(0);
            row[at..at + 3].copy_from_slice(&second.to_be_bytes()[1..]);
        }
    }
    rows.sort_unstable();
}

/// Moves a run to later: it may still be in order, go against another, make a place overfull or leave the day.
fn shift_run(dice: &mut Dice, book: &mut [u8]) {
    let rows = packed_rows(book);
    if rows.is_empty() {
        return;
    }
    let moved = ticket(&dice.pick(rows));
    let most = dice.pick(&[60, 60, DAY as usize]);
    move_run(rows, moved, dice.among(1, most) as i32);
}

/// Moves a run so that it enters a place at the same second as another wagon.
fn meet(dice: &mut Dice, book: &mut [u8]) {
    let rows = packed_rows(book);
    if rows.is_empty() {
        return;
    }
    let row = dice.pick(rows);
    let others: Vec<Packed> = rows.iter().filter(|other| other[0] == row[0]).copied().collect();
    let other = dice.pick(&others);
    move_run(rows, ticket(&row), entry(&other) as i32 - entry(&row) as i32);
}

/// Exchanges two rows, neighbours as a rule.
fn exchange_rows(dice: &mut Dice, book: &mut [u8]) {
    let rows = packed_rows(book);
    if rows.len() < 2 {
        return;
    }
    let one = dice.below(rows.len() - 1);
    let other = if dice.chance(75) { one + 1 } else { dice.below(rows.len()) };
    rows.swap(one, other);
}

/// Moves one row's exit, or now and then its entry.
fn move_second(dice: &mut Dice, book: &mut [u8]) {
    let rows = packed_rows(book);
    if rows.is_empty() {
        return;
    }
    let row = dice.below(rows.len());
    let at = dice.pick(&[1, 7, 7, 7]);
    let second = &mut rows[row][at..at + 3];
    let moved = (number(second) as i32 + dice.pick(&[-60, -1, 1, 1, 60])).max(0);
    second.copy_from_slice(&moved.to_be_bytes()[1..]);
}

/// Lets a crossing close a ring of three places or more, where the book has one that lacks a single crossing, or else go against
/// another: moves a run to another time that makes it at some second, or adds a wagon that does.
fn close_ring(dice: &mut Dice, scene: &Scene, book: &mut Vec<u8>) {
    let mut closing = scene.closing.clone();
    let rows = packed_rows(book);
    if closing.is_empty() {
        let crossings = rows.iter().filter(|row| row[0] != row[10]);
        closing.extend(crossings.map(|row| Closing { from: row[10], to: row[0], second: exit(row) }));
    }
    if closing.is_empty() {
        return;
    }
    let closing = dice.pick(&closing);
    let crosses = |row: &&Packed| (row[0], row[10]) == (closing.from, closing.to) && entry(row) >= OPEN;
    let runs: Vec<_> = rows.iter().filter(crosses).map(|row| (ticket(row), exit(row))).collect();
    if runs.is_empty() || dice.chance(50) {
        let mut rows = rows.to_vec();
        let next_ticket = number(&book[..3]);
        rows.extend(wagon(scene, closing, next_ticket).map(|row| row.packed()));
        rows.sort_unstable();
        *book = packed(next_ticket + 1, &rows);
    } else {
        let (moved, crossed) = dice.pick(&runs);
        move_run(rows, moved, closing.second as i32 - crossed as i32);
    }
}

/// The rows of a wagon that makes a crossing and stays no longer than it must before and after.
pub fn wagon(scene: &Scene, crossing: Closing, ticket: u32) -> [Row; 2] {
    let Closing { from, to, second } = crossing;
    let stay = |place: u8| number(&scene.map[4 + 3 * place as usize..][1..3]);
    [
        Row::new(from, second.saturating_sub(stay(from)), ticket, second, to),
        Row::new(to, second, ticket, second + stay(to), to),
    ]
}

/// A small map and a book of random runs on it, whole each but planned without regard to the others; every other book has a row
/// changed besides.
pub fn small(dice: &mut Dice) -> (Vec<u8>, Vec<u8>) {
    let size = dice.among(2, 6);
    let roomy = dice.chance(60);
    let mut plot = Plot { places: Vec::new(), links: Vec::new() };
    for _ in 0..size {
        let capacity = if roomy { 16 } else { dice.pick(&[1, 2, 3]) };
        plot.place(capacity, dice.among(1, 3) as u32);
    }
    let share = dice.among(30, 100);
    for from in 0..size {
        for to in 0..size {
            if dice.chance(share) {
                plot.link(from, to);
            }
        }
    }
    let first = dice.pick(&[0, OPEN, DAY - 15]);
    let mut tickets = dice.shuffled(20);
    let mut rows = Vec::new();
    for _ in 0..dice.among(1, 12) {
        let ticket = tickets.pop().expect("a ticket") as u32 + 1;
        let (mut place, mut entry) = (dice.below(size) as u8, first + dice.below(6) as u32);
        let duration = |place: u8| number(&plot.places[3 * place as usize + 1..][..2]);
        for _ in 0..dice.among(0, 4) {
            let onward: Vec<u8> = plot.links.iter().filter(|link| link.0 == place).map(|link| link.1).collect();
            if onward.is_empty() {
                break;
            }
            let (exit, next) = (entry + duration(place) + dice.pick(&[0, 0, 0, 1]), dice.pick(&onward));
            rows.push(Row::new(place, entry, ticket, exit, next).packed());
            (place, entry) = (next, exit);
        }
        rows.push(Row::new(place, entry, ticket, entry + duration(place), place).packed());
    }
    rows.sort_unstable();
    let mut book = packed(21, &rows);
    match dice.below(16) {
        0 | 1 => exchange_rows(dice, &mut book),
        2 | 3 => move_second(dice, &mut book),
        4 => change_bytes(dice, &mut book),
        5 => {
            rows.remove(dice.below(rows.len()));
            book = packed(21, &rows);
        }
        6 => {
            let (one, other) = (dice.below(rows.len()), dice.pick(&rows));
            rows[one][4..7].copy_from_slice(&other[4..7]);
            rows.sort_unstable();
            book = packed(21, &rows);
        }
        7 => {
            rows.push(dice.pick(&rows));
            rows.sort_unstable();
            book = packed(21, &rows);
        }
        _ => {}
    }
    (plot.packed(), book)
}
