//! The map of places and links with the rules it must keep, the book of rows, and where crossings lead.

#![allow(dead_code)]

use std::collections::BTreeMap;

pub const DAY: u32 = 86_400;
pub const MOST_PLACES: usize = 256;
pub const MOST_LINKS: usize = 1_024;
pub const MOST_ROWS: usize = 1_024;
pub const MOST_ON_PAGE: usize = 64;
pub const MOST_CAPACITY: u32 = 16;
pub const LONGEST_DURATION: u32 = 3_600;
pub const LAST_TICKET: u32 = 999_999;

/// The refusal numbers.
pub const DONE: u8 = 0;
pub const BAD_MAP: u8 = 1;
pub const BAD_BOOK: u8 = 2;
pub const NOT_A_PLACE: u8 = 3;
pub const LATE_SECOND: u8 = 4;
pub const NO_PLAN: u8 = 5;
pub const SHORT_LIST: u8 = 6;
pub const BOOK_FULL: u8 = 7;
pub const TICKETS_OUT: u8 = 8;
pub const NO_SUCH_TICKET: u8 = 9;
pub const BAD_PAGE_SIZE: u8 = 10;
pub const BAD_CURSOR: u8 = 11;
pub const BAD_FRAME: u8 = 12;
pub const KEYS_FALL: u8 = 13;
pub const BROKEN_RUN: u8 = 14;
pub const OVERFULL: u8 = 15;
pub const BARRED: u8 = 16;

/// A set of places, one bit for each.
#[derive(Clone, Copy, Default, PartialEq)]
pub struct Places([u64; 4]);

impl Places {
    pub fn has(&self, place: usize) -> bool {
        self.0[place / 64] >> (place % 64) & 1 == 1
    }
    pub fn put(&mut self, place: usize) {
        self.0[place / 64] |= 1 << (place % 64);
    }
    pub fn take(&mut self, place: usize) {
        self.0[place / 64] &= !(1 << (place % 64));
    }
    pub fn put_all(&mut self, other: &Places) {
        for i in 0..4 {
            self.0[i] |= other.0[i];
        }
    }
    pub fn is_empty(&self) -> bool {
        self.0 == [0; 4]
    }
}

#[derive(Clone, Copy)]
pub struct Place {
    pub capacity: u32,
    pub duration: u32,
}

#[derive(Clone, Default)]
pub struct Map {
    pub places: Vec<Place>,
    pub links: Vec<(usize, usize)>,
}

impl Map {
    /// Whether the map keeps every rule of places and links.
    pub fn keeps_rules(&self) -> bool {
        let n = self.places.len();
        if n < 1 || n > MOST_PLACES || self.links.len() > MOST_LINKS {
            return false;
        }
        for place in &self.places {
            if place.capacity < 1 || place.capacity > MOST_CAPACITY {
                return false;
            }
            if place.duration < 1 || place.duration > LONGEST_DURATION {
                return false;
            }
        }
        for &(from, to) in &self.links {
            if from >= n || to >= n || from == to {
                return false;
            }
        }
        let mut sorted = self.links.clone();
        sorted.sort();
        sorted.windows(2).all(|two| two[0] != two[1])
    }

    pub fn has_place(&self, place: usize) -> bool {
        place < self.places.len()
    }

    pub fn has_link(&self, from: usize, to: usize) -> bool {
        self.links.contains(&(from, to))
    }

    pub fn duration(&self, place: usize) -> u32 {
        self.places[place].duration
    }
}

/// Place, entry and ticket, compared in that order.
pub type Key = (usize, u32, u32);

#[derive(Clone, Copy, PartialEq, Debug)]
pub struct Row {
    pub place: usize,
    pub entry: u32,
    pub ticket: u32,
    pub exit: u32,
    pub next: usize,
}

impl Row {
    pub fn key(&self) -> Key {
        (self.place, self.entry, self.ticket)
    }

    /// The crossing this row ends with: from, to and second. A run's last row has none.
    pub fn crossing(&self) -> Option<(usize, usize, u32)> {
        if self.next == self.place {
            None
        } else {
            Some((self.place, self.next, self.exit))
        }
    }
}

#[derive(Clone)]
pub struct Book {
    pub next_ticket: u32,
    pub rows: Vec<Row>,
}

impl Book {
    pub fn new() -> Book {
        Book { next_ticket: 1, rows: Vec::new() }
    }
}

/// The booked crossings of each second at which there is one, each as from and to.
pub type Crossings = BTreeMap<u32, Vec<(usize, usize)>>;

pub fn crossings(rows: &[Row]) -> Crossings {
    let mut found = Crossings::new();
    for (from, to, t) in rows.iter().filter_map(|row| row.crossing()) {
        found.entry(t).or_default().push((from, to));
    }
    found
}

/// The places that crossings of one second lead to from a place, in one or more steps and at
/// most as many as given. No more steps are needed than there are places.
pub fn led_to(crossings: &[(usize, usize)], from: usize, steps: usize) -> Places {
    let mut led = Places::default();
    for _ in 0..steps {
        let before = led;
        for &(p, q) in crossings {
            if p == from || before.has(p) {
                led.put(q);
            }
        }
        if led == before {
            break;
        }
    }
    led
}
