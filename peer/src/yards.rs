//! Writes a random yard as a frame file. The seed decides the kind and everything in it;
//! a kind may also be named. Each frame is also answered here, so that a walk over the pages
//! can go on from the cursor a page hands back and a cancellation can name a ticket that stands.

mod barn;
mod desk;
mod dice;
mod faulty;
mod plan;

use barn::{Key, DAY, LAST_TICKET};
use desk::Desk;
use dice::Dice;
use std::io::{self, Write};
use std::process::exit;

/// The kind of each seed, by its rest modulo 32: small contended yards above all, and more than
/// one yard in three on ring roads.
const KINDS: [&str; 32] = [
    "contended", "contended", "ring", "alley", "contended", "crossed", "evening", "contended",
    "rings", "walk", "ties", "great", "contended", "clock", "damaged", "contended", "crossed",
    "badmap", "ring", "alley", "wide", "rings", "walk", "full", "crossed", "contended", "day",
    "clock", "alley", "rings", "contended", "crossed",
];

struct Yard {
    dice: Dice,
    desk: Desk,
    written: Vec<u8>,
    /// Where the walk over the pages stands.
    cursor: Key,
}

impl Yard {
    /// Writes a line and returns its answer.
    fn line(&mut self, line: &[u8]) -> String {
        self.written.extend_from_slice(line);
        self.written.push(b'\n');
        self.desk.answer(line)
    }

    fn place(&mut self, capacity: usize, duration: usize) {
        self.line(format!("01{:02X}{:04X}", capacity, duration).as_bytes());
    }

    fn link(&mut self, from: usize, to: usize) {
        self.line(format!("02{:02X}{:02X}", from, to).as_bytes());
    }

    /// A link unless it stands already or joins a place to itself.
    fn new_link(&mut self, from: usize, to: usize) {
        if from != to && self.desk.map.links.len() < barn::MOST_LINKS && !self.desk.map.has_link(from, to) {
            self.link(from, to);
        }
    }

    fn plan(&mut self, start: usize, destination: usize, second: usize) -> String {
        self.line(format!("03{:02X}{:02X}{:06X}", start, destination, second).as_bytes())
    }

    fn book(&mut self, start: usize, destination: usize, second: usize) -> String {
        self.line(format!("04{:02X}{:02X}{:06X}", start, destination, second).as_bytes())
    }

    fn cancel(&mut self, ticket: usize) -> String {
        self.line(format!("05{:06X}", ticket).as_bytes())
    }

    fn page(&mut self, size: usize, cursor: Key) -> String {
        self.line(format!("06{:02X}{:02X}{:06X}{:06X}", size, cursor.0, cursor.1, cursor.2).as_bytes())
    }

    fn size(&self) -> usize {
        self.desk.map.places.len()
    }

    /// Some place of the map, now and then one just off it.
    fn some_place(&mut self) -> usize {
        let n = self.size().max(1);
        if n < 256 && self.dice.chance(1) {
            n
        } else {
            self.dice.below(n)
        }
    }

    /// A ticket that stands in the book, now and then any number.
    fn some_ticket(&mut self) -> usize {
        let rows = self.desk.book.rows.len();
        if rows == 0 || self.dice.chance(15) {
            let issued = self.desk.book.next_ticket as usize;
            return self.dice.pick(&[0, 1, issued.saturating_sub(1), issued, 999_999, 1_000_000, 0xFF_FFFF]);
        }
        let row = self.dice.below(rows);
        self.desk.book.rows[row].ticket as usize
    }

    fn some_page(&mut self) {
        let sizes = [0, 1, 1, 2, 3, 5, 10, 63, 64, 64, 65, 255];
        let size = self.dice.pick(&sizes);
        let cursor = match self.dice.below(6) {
            0 => (0, 0, 0),
            1 => (self.dice.below(256), self.dice.below(100) as u32, self.dice.below(9) as u32),
            2 => {
                let place = self.some_place();
                let entry = self.dice.pick(&[0, DAY - 1, DAY, DAY + 1, 0xFF_FFFF]);
                let ticket = self.dice.pick(&[0, 1, LAST_TICKET, LAST_TICKET + 1, 0xFF_FFFF]);
                (place, entry, ticket)
            }
            _ => self.near_row(),
        };
        self.page(size, cursor);
    }

    /// The key of a row, or one a little off it.
    fn near_row(&mut self) -> Key {
        if self.desk.book.rows.is_empty() {
            return (0, 0, 0);
        }
        let at = self.dice.below(self.desk.book.rows.len());
        let (place, entry, ticket) = self.desk.book.rows[at].key();
        match self.dice.below(5) {
            0 => (place, entry.saturating_sub(1), ticket),
            1 => (place, entry, ticket - 1),
            2 => (place, entry, ticket + 1),
            _ => (place, entry, ticket),
        }
    }

    /// The next page of a walk; a walk that has ended begins anew.
    fn step(&mut self) {
        let size = self.dice.pick(&[1, 2, 2, 3, 4, 7]);
        let answer = self.page(size, self.cursor);
        let lines: Vec<&str> = answer.lines().collect();
        if lines[0].ends_with("01") && lines.len() > 1 {
            let row = desk::bytes(lines[lines.len() - 1].as_bytes()).expect("a row");
            self.cursor = (row[0] as usize, desk::number(&row[1..4]), desk::number(&row[4..7]));
        } else {
            self.cursor = (0, 0, 0);
        }
    }

    /// A map of a few places, most of them narrow, with links that mostly go both ways.
    fn small_map(&mut self, equal: bool) {
        let n = self.dice.among(2, 8);
        let wide = self.dice.pick(&[0, 20, 50]);
        let longest = self.dice.pick(&[2, 4, 8, 20]);
        let same = self.dice.among(1, longest);
        for _ in 0..n {
            let capacity = if self.dice.chance(wide) { 2 } else { 1 };
            let duration = if equal { same } else { self.dice.among(1, longest) };
            self.place(capacity, duration);
        }
        let thick = self.dice.pick(&[20, 35, 60]);
        let both = self.dice.pick(&[40, 80, 100]);
        for from in 1..n {
            let to = self.dice.below(from);
            self.new_link(from, to);
            self.new_link(to, from);
        }
        for from in 0..n {
            for to in 0..n {
                if self.dice.chance(thick) {
                    self.new_link(from, to);
                    if self.dice.chance(both) {
                        self.new_link(to, from);
                    }
                }
            }
        }
    }

    /// A row of narrow places both ways, with a few ways round it.
    fn alley_map(&mut self) {
        let n = self.dice.among(3, 8);
        let longest = self.dice.pick(&[1, 2, 3, 6]);
        for _ in 0..n {
            let capacity = if self.dice.chance(40) { 2 } else { 1 };
            let duration = self.dice.among(1, longest);
            self.place(capacity, duration);
        }
        for from in 1..n {
            self.new_link(from - 1, from);
            self.new_link(from, from - 1);
        }
        for _ in 0..self.dice.below(4) {
            let (from, to) = (self.dice.below(n), self.dice.below(n));
            self.new_link(from, to);
            self.new_link(to, from);
        }
    }

    /// Bookings, plans, cancellations and pages in turn, between the two seconds.
    fn traffic(&mut self, frames: usize, from: usize, to: usize) {
        for _ in 0..frames {
            let (start, destination) = (self.some_place(), self.some_place());
            let second = self.dice.among(from, to);
            match self.dice.below(100) {
                0..=44 => {
                    self.book(start, destination, second);
                }
                45..=79 => {
                    self.plan(start, destination, second);
                }
                80..=87 => {
                    let ticket = self.some_ticket();
                    self.cancel(ticket);
                }
                88..=94 => self.step(),
                _ => self.some_page(),
            }
        }
    }

    fn contended(&mut self) {
        self.small_map(false);
        let span = self.dice.pick(&[8, 20, 40, 100]);
        let frames = self.dice.among(30, 110);
        self.traffic(frames, 0, span);
    }

    fn ties(&mut self) {
        self.small_map(true);
        let span = self.dice.pick(&[0, 8, 30]);
        let frames = self.dice.among(30, 90);
        self.traffic(frames, 0, span);
    }

    fn alley(&mut self) {
        self.alley_map();
        let span = self.dice.pick(&[6, 15, 40, 80]);
        let frames = self.dice.among(40, 120);
        self.traffic(frames, 0, span);
    }

    /// Long stays spread over the whole day.
    fn day(&mut self) {
        let n = self.dice.among(2, 6);
        for _ in 0..n {
            let capacity = self.dice.pick(&[1, 1, 1, 2]);
            let duration = self.dice.pick(&[1, 60, 900, 1_800, 3_599, 3_600]);
            self.place(capacity, duration);
        }
        for from in 1..n {
            let to = self.dice.below(from);
            self.new_link(from, to);
            self.new_link(to, from);
        }
        for _ in 0..n {
            let (from, to) = (self.dice.below(n), self.dice.below(n));
            self.new_link(from, to);
        }
        let frames = self.dice.among(40, 80);
        self.traffic(frames, 0, DAY as usize);
    }

    fn evening(&mut self) {
        self.small_map(false);
        let span = self.dice.pick(&[8, 30, 60]);
        let frames = self.dice.among(30, 90);
        self.traffic(frames, DAY as usize - span, DAY as usize + 1);
        self.plan(0, 0, 0xFF_FFFF);
        self.book(0, self.size(), DAY as usize + 1);
        self.book(0, 0, DAY as usize);
    }

    fn walk(&mut self) {
        self.small_map(false);
        self.traffic(20, 0, 60);
        let pages = self.dice.among(30, 80);
        self.stroll(pages, 0, 89);
    }

    /// A walk over so many pages, with bookings between the two seconds and cancellations in turn.
    fn stroll(&mut self, pages: usize, from: usize, to: usize) {
        self.cursor = (0, 0, 0);
        for _ in 0..pages {
            self.step();
            for _ in 0..self.dice.below(3) {
                let (start, destination) = (self.some_place(), self.some_place());
                let second = self.dice.among(from, to);
                if self.dice.chance(60) {
                    self.book(start, destination, second);
                } else {
                    let ticket = self.some_ticket();
                    self.cancel(ticket);
                }
            }
        }
    }

    /// A line that is refused with 12, made from one that might be good.
    fn damaged_line(&mut self) -> Vec<u8> {
        let good: [&str; 8] = [
            "0102000A", "020001", "030001000000", "04000100000A", "05000001",
            "060200000000000000", "0101ABCD", "0600000000000ABCDE",
        ];
        let mut line = self.dice.pick(&good).as_bytes().to_vec();
        let at = self.dice.below(line.len());
        match self.dice.below(16) {
            0 => line.clear(),
            1 => line.push(b'\r'),
            2 => line[at] = 0,
            3 => line.push(b'0'),
            4 => {
                line.remove(at);
            }
            5 => line.extend_from_slice(b"00"),
            6 => line.truncate(line.len() - 2),
            7 => line[at] = self.dice.pick(b"abcdef"),
            8 => line[at] = self.dice.pick(b"GZg/:@` +-"),
            9 => line[at] = self.dice.among(0x80, 0xFF) as u8,
            10 => line = format!("{:02X}", self.dice.below(256)).into_bytes(),
            11 => line[..2].copy_from_slice(self.dice.pick(&[&b"00"[..], b"07", b"08", b"10", b"11", b"7F", b"80", b"FF"])),
            12 => line.insert(0, b' '),
            13 => {
                let mut long = b"0x".to_vec();
                long.extend_from_slice(&line);
                line = long;
            }
            14 => line = vec![b'0'; self.dice.pick(&[1, 7, 20, 4_096, 70_001])],
            _ => {
                let other = self.dice.pick(&good);
                line[..2].copy_from_slice(&other.as_bytes()[..2]);
                if line.len() == other.len() {
                    line.push(b'A');
                }
            }
        }
        line
    }

    fn damaged(&mut self) {
        for _ in 0..self.dice.below(8) {
            let line = self.damaged_line();
            self.line(&line);
        }
        let n = self.dice.among(2, 5);
        for _ in 0..n {
            let duration = self.dice.among(1, 9);
            self.place(1, duration);
            let line = self.damaged_line();
            self.line(&line);
        }
        for from in 0..n {
            let to = self.dice.below(n);
            self.new_link(from, to);
            self.new_link(to, from);
            let line = self.damaged_line();
            self.line(&line);
        }
        for _ in 0..30 {
            self.traffic(1, 0, 30);
            let line = self.damaged_line();
            self.line(&line);
            if self.dice.chance(20) {
                self.place(1, 5);
                self.link(0, 1);
            }
        }
        match self.dice.below(4) {
            0 => {
                self.written.pop();
            }
            1 => self.written.extend_from_slice(b"064000000000000000"),
            2 => self.written.extend_from_slice(b"064000000000000000\r"),
            _ => {}
        }
    }

    fn badmap(&mut self) {
        let fault = self.dice.below(14);
        if fault != 0 {
            self.small_map(false);
        }
        let n = self.size();
        match fault {
            1 => self.place(0, 5),
            2 => self.place(17, 5),
            3 => self.place(255, 5),
            4 => self.place(1, 0),
            5 => self.place(1, 3_601),
            6 => self.place(1, 0xFFFF),
            7 => {
                let at = self.dice.below(n);
                self.link(at, at);
            }
            8 => self.link(0, n),
            9 => self.link(n, 0),
            10 => {
                let twice = self.dice.pick(&self.desk.map.links.clone());
                self.link(twice.0, twice.1);
            }
            11 => {
                // The ends of the ranges, all kept.
                self.place(16, 3_600);
                self.place(16, 1);
                self.new_link(n, n + 1);
                self.new_link(n + 1, n);
                self.new_link(0, n);
                self.new_link(n, 0);
            }
            12 => {
                // A link that is off the map until its place comes.
                self.link(0, n);
                self.place(1, 3);
            }
            13 => {
                // A damaged line between good ones leaves the map as it was.
                self.line(b"01000005FF");
                self.line(b"0200");
            }
            _ => {}
        }
        self.plan(0, 0, 0);
        self.plan(255, 255, 0xFF_FFFF);
        self.book(0, 0, 0);
        self.cancel(1);
        self.cancel(0);
        self.page(64, (0, 0, 0));
        self.page(0, (255, 0xFF_FFFF, 0xFF_FFFF));
        self.place(1, 5);
        self.link(0, 1);
        self.traffic(20, 0, 4_000);
    }

    fn wide(&mut self) {
        let n = self.dice.pick(&[200, 255, 256, 256, 256]);
        let longest = self.dice.pick(&[1, 5, 30]);
        let narrow = self.dice.pick(&[30, 90, 100]);
        for _ in 0..n {
            let capacity = if self.dice.chance(narrow) { 1 } else { self.dice.among(1, 16) };
            let duration = self.dice.among(1, longest);
            self.place(capacity, duration);
        }
        if n == 256 && self.dice.chance(50) {
            self.place(1, 1);
            self.place(0, 0);
        }
        let links = self.dice.pick(&[n + 50, 600, 1_023, 1_024, 1_024]);
        let near = self.dice.chance(50);
        for at in 1..n {
            self.new_link(at - 1, at);
        }
        while self.desk.map.links.len() < links {
            let from = self.dice.below(n);
            let to = if near { (from + n + self.dice.below(9) - 4) % n } else { self.dice.below(n) };
            self.new_link(from, to);
            self.new_link(to, from);
        }
        if self.desk.map.links.len() == 1_024 && self.dice.chance(50) {
            self.link(0, 0);
            self.link(7, 200);
        }
        let span = self.dice.pick(&[10, 100, 400]);
        self.traffic(50, 0, span);
        self.page(64, (255, 0, 0));
    }

    /// Long runs round a ring until the book has no room for another.
    fn full(&mut self) {
        let n = self.dice.among(40, 200);
        let longest = self.dice.pick(&[1, 2, 5]);
        for _ in 0..n {
            let capacity = self.dice.among(2, 16);
            let duration = self.dice.among(1, longest);
            self.place(capacity, duration);
        }
        for at in 0..n {
            self.new_link(at, (at + 1) % n);
            if self.dice.chance(30) {
                self.new_link((at + 1) % n, at);
            }
        }
        let mut refused = 0;
        for _ in 0..70 {
            let start = self.dice.below(n);
            let length = if refused == 0 { self.dice.among(n / 2, n - 1) } else { self.dice.among(0, n - 1) };
            let second = self.dice.below(600);
            if self.book(start, (start + length) % n, second).starts_with("07") {
                refused += 1;
            }
            if refused > 0 && self.dice.chance(20) {
                let ticket = self.some_ticket();
                self.cancel(ticket);
            }
            if refused > 12 {
                break;
            }
        }
        // Single stays up to the last free slot and past it.
        for _ in 0..40 {
            let at = self.dice.below(n);
            let second = self.dice.among(2_000, 80_000);
            self.book(at, at, second);
        }
        self.cursor = (0, 0, 0);
        for _ in 0..8 {
            let answer = self.page(64, self.cursor);
            if let Some(row) = answer.lines().last().and_then(|last| desk::bytes(last.as_bytes())) {
                if row.len() == 11 {
                    self.cursor = (row[0] as usize, desk::number(&row[1..4]), desk::number(&row[4..7]));
                }
            }
            self.some_page();
        }
        self.traffic(15, 0, 600);
    }
    /// Links from each of these places to the next and from the last to the first; some also
    /// the other way.
    fn ring_road(&mut self, ring: &[usize], both: usize) {
        for at in 0..ring.len() {
            let (from, to) = (ring[at], ring[(at + 1) % ring.len()]);
            self.new_link(from, to);
            if self.dice.chance(both) {
                self.new_link(to, from);
            }
        }
    }

    /// Places for ring roads: capacities all equal or mixed, durations mostly equal, so that many
    /// crossings fall into one second.
    fn ring_places(&mut self, n: usize) {
        let narrow = self.dice.pick(&[1, 1, 2, 2, 3]);
        let mixed = self.dice.chance(30);
        let longest = self.dice.pick(&[1, 2, 4, 10, 20]);
        let same = self.dice.among(1, longest);
        let equal = self.dice.chance(65);
        for _ in 0..n {
            let capacity = if mixed { self.dice.among(1, 3) } else { narrow };
            let duration = if equal { same } else { self.dice.among(1, longest) };
            self.place(capacity, duration);
        }
    }

    /// Some places off the ring, each a way round one or more of its links or reached and left
    /// at one place of it; and some links across the ring.
    fn byways(&mut self, ring: &[usize]) {
        let n = ring.len();
        let first = self.size();
        let off = self.dice.below(5);
        self.ring_places(off);
        for place in first..first + off {
            let at = self.dice.below(n);
            let far = self.dice.pick(&[0, 1, 1, 2, 3]);
            self.new_link(ring[at], place);
            self.new_link(place, ring[(at + far) % n]);
        }
        for _ in 0..self.dice.pick(&[0, 0, 1, 3]) {
            let (from, to) = (self.dice.below(self.size()), self.dice.below(self.size()));
            self.new_link(from, to);
            self.new_link(to, from);
        }
    }

    /// A run over so many links of the ring from each of its places, each ready to leave the
    /// first at the second given, booked in some order; at times one place sends none.
    fn wave(&mut self, ring: &[usize], t: usize, far: usize) {
        let n = ring.len();
        let idle = if self.dice.chance(40) { self.dice.below(n) } else { n };
        for at in self.dice.shuffled(n) {
            let duration = self.desk.map.duration(ring[at]) as usize;
            if at != idle && duration <= t {
                self.book(ring[at], ring[(at + far) % n], t - duration);
            }
        }
    }

    /// Whether one wagon more can be at the place from one second to another.
    fn has_room(&self, place: usize, from: u32, to: u32) -> bool {
        let stays: Vec<&barn::Row> = self.desk.book.rows.iter().filter(|row| row.place == place).collect();
        let load = |t: u32| stays.iter().filter(|row| row.entry <= t && t < row.exit).count();
        (from..to).all(|t| load(t) < self.desk.map.places[place].capacity as usize)
    }

    /// Every link on which a crossing would close a ring with booked crossings, and how many
    /// places the ring has: second, from, to and number. A wagon can be at `from` before.
    fn barred(&self) -> Vec<(u32, usize, usize, usize)> {
        let mut found = Vec::new();
        for (&t, met) in &barn::crossings(&self.desk.book.rows) {
            for &(from, to) in &self.desk.map.links {
                let since = t.saturating_sub(self.desk.map.duration(from));
                if barn::led_to(met, to, barn::MOST_PLACES).has(from) && self.has_room(from, since, t) {
                    let steps = (1..).find(|&steps| barn::led_to(met, to, steps).has(from)).expect("it is led to");
                    found.push((t, from, to, steps + 1));
                }
            }
        }
        found
    }

    /// Asks for a run that would close a ring in the very second, or nearly so.
    fn closing(&mut self) {
        let mut found = self.barred();
        if found.is_empty() {
            return;
        }
        if self.dice.chance(60) {
            let most = found.iter().map(|ring| ring.3).max().expect("a ring");
            found.retain(|ring| ring.3 == most);
        }
        let (t, from, to, _) = self.dice.pick(&found);
        let mut start = from;
        let mut before = self.desk.map.duration(from);
        // The run may begin some places before, so as to come to the crossing on its way.
        while self.dice.chance(30) {
            let links: Vec<(usize, usize)> = self.desk.map.links.iter().filter(|link| link.1 == start).copied().collect();
            if links.is_empty() {
                break;
            }
            start = self.dice.pick(&links).0;
            before += self.desk.map.duration(start);
        }
        before += self.dice.pick(&[0, 0, 0, 0, 1, 2, 5]);
        let destination = if self.dice.chance(60) { to } else { self.some_place() };
        if before > t {
            return;
        }
        let second = (t - before) as usize;
        self.plan(start, destination, second);
        if self.dice.chance(50) {
            self.book(start, destination, second);
        }
    }

    /// Waves on the rings, runs that would close one, other traffic between them, and a walk over
    /// the pages at the end.
    fn waves(&mut self, rings: &[Vec<usize>], count: usize) {
        let longest = self.desk.map.places.iter().map(|place| place.duration).max().unwrap_or(1) as usize;
        let late = self.dice.chance(15);
        let mut t = if late { DAY as usize - self.dice.among(1, 3 * longest) } else { longest + self.dice.below(8) };
        for _ in 0..count {
            let ring = &rings[self.dice.below(rings.len())];
            // Not so far that the wave alone fills the book.
            let farthest = (ring.len() - 1).min(500 / ring.len());
            let far = if self.dice.chance(60) { 1 } else { self.dice.among(1, farthest) };
            self.wave(ring, t, far);
            for _ in 0..self.dice.among(1, 4) {
                self.closing();
            }
            let frames = self.dice.among(2, 8);
            self.traffic(frames, t.saturating_sub(2 * longest), t + longest);
            if late {
                t -= self.dice.among(0, longest);
            } else {
                t += self.dice.pick(&[0, 1, longest, longest, 2 * longest, 4 * longest]);
            }
        }
        let pages = self.dice.among(6, 20);
        self.stroll(pages, t.saturating_sub(4 * longest), t);
        self.lose_cursor();
    }

    /// Pages with the run of the last row shown cancelled between them.
    fn lose_cursor(&mut self) {
        for _ in 0..3 {
            self.step();
            self.cancel(self.cursor.2 as usize);
            self.step();
        }
    }

    /// One ring road of up to twelve places, with some places beside it.
    fn ring(&mut self) {
        let n = self.dice.pick(&[3, 3, 4, 4, 5, 5, 6, 7, 8, 9, 10, 11, 12]);
        self.ring_places(n);
        let ring = self.dice.shuffled(n);
        let both = self.dice.pick(&[0, 0, 30, 100]);
        self.ring_road(&ring, both);
        self.byways(&ring);
        let count = self.dice.among(2, 7);
        self.waves(&[ring], count);
    }

    /// Ring roads laid through a small map: one through all of its places, one through some.
    fn crossed(&mut self) {
        self.small_map(false);
        while self.size() < 3 {
            self.place(1, 2);
        }
        let order = self.dice.shuffled(self.size());
        let some = order[..self.dice.among(3, order.len())].to_vec();
        self.ring_road(&order, 0);
        self.ring_road(&some, 0);
        let count = self.dice.among(2, 6);
        self.waves(&[order, some], count);
        let frames = self.dice.among(30, 70);
        self.traffic(frames, 0, 60);
    }

    /// Two ring roads that share a place or an alley, and the ring round both where the alley
    /// can be driven both ways.
    fn rings(&mut self) {
        let shared = self.dice.pick(&[1, 1, 2, 3]);
        let (one, other) = (self.dice.among(2, 6), self.dice.among(2, 6));
        let n = shared + one + other;
        self.ring_places(n);
        let order = self.dice.shuffled(n);
        let alley = &order[..shared];
        let first: Vec<usize> = [alley, &order[shared..shared + one]].concat();
        let second: Vec<usize> = [alley, &order[shared + one..]].concat();
        let both = self.dice.pick(&[0, 0, 40, 100]);
        self.ring_road(&first, both);
        self.ring_road(&second, both);
        self.byways(&first);
        let count = self.dice.among(3, 8);
        self.waves(&[first, second], count);
    }

    /// Durations of one beat, at some places of two, and wagons that set out from every place by
    /// the beat, most of them to the next place, so that nearly all crossings fall into a few
    /// seconds and make chains and rings of every length.
    fn clock(&mut self) {
        let n = self.dice.among(3, 12);
        let beat = self.dice.among(1, 12);
        let most = self.dice.pick(&[1, 2, 3]);
        let slow = self.dice.pick(&[0, 0, 30]);
        for _ in 0..n {
            let capacity = self.dice.among(1, most);
            let duration = if self.dice.chance(slow) { 2 * beat } else { beat };
            self.place(capacity, duration);
        }
        let ring = self.dice.shuffled(n);
        self.ring_road(&ring, 0);
        for _ in 0..self.dice.among(0, n) {
            let (from, to) = (self.dice.below(n), self.dice.below(n));
            self.new_link(from, to);
            if self.dice.chance(30) {
                self.new_link(to, from);
            }
        }
        let mut second = 0;
        for _ in 0..self.dice.among(2, 4) {
            for start in self.dice.shuffled(n) {
                for _ in 0..self.dice.among(0, most) {
                    let near: Vec<(usize, usize)> =
                        self.desk.map.links.iter().filter(|link| link.0 == start).copied().collect();
                    let destination = if self.dice.chance(20) { self.some_place() } else { self.dice.pick(&near).1 };
                    let late = self.dice.pick(&[0, 0, 0, 0, 0, 1]);
                    self.book(start, destination, second + late);
                }
            }
            for _ in 0..self.dice.among(2, 5) {
                self.closing();
            }
            let frames = self.dice.among(2, 6);
            self.traffic(frames, second, second + beat);
            second += beat * self.dice.pick(&[1, 2, 2, 3]);
        }
        let pages = self.dice.among(6, 20);
        self.stroll(pages, 0, second);
        self.lose_cursor();
    }

    /// A ring road of dozens of places up to all that a map may have.
    fn great(&mut self) {
        let n = self.dice.pick(&[13, 20, 33, 64, 65, 100, 128, 129, 255, 256]);
        self.ring_places(n);
        let ring = self.dice.shuffled(n);
        let both = self.dice.pick(&[0, 0, 10]);
        self.ring_road(&ring, both);
        for _ in 0..self.dice.below(4) {
            let (from, to) = (self.dice.below(n), self.dice.below(n));
            self.new_link(from, to);
        }
        let count = (500 / n).min(3);
        self.waves(&[ring], count);
        self.page(64, (n / 2, 0, 0));
    }
}

fn usage() -> ! {
    eprintln!("usage: yards SEED [contended|alley|ties|evening|day|walk|damaged|badmap|wide|full|
                         ring|rings|crossed|clock|great]");
    exit(2)
}

fn main() -> io::Result<()> {
    let words: Vec<String> = std::env::args().skip(1).collect();
    if words.is_empty() || words.len() > 2 {
        usage();
    }
    let seed: u64 = words[0].parse().unwrap_or_else(|_| usage());
    let kind = if words.len() == 2 { words[1].as_str() } else { KINDS[(seed % KINDS.len() as u64) as usize] };
    let mut yard = Yard { dice: Dice::new(seed), desk: Desk::new(None), written: Vec::new(), cursor: (0, 0, 0) };
    match kind {
        "contended" => yard.contended(),
        "alley" => yard.alley(),
        "ties" => yard.ties(),
        "evening" => yard.evening(),
        "day" => yard.day(),
        "walk" => yard.walk(),
        "damaged" => yard.damaged(),
        "badmap" => yard.badmap(),
        "wide" => yard.wide(),
        "full" => yard.full(),
        "ring" => yard.ring(),
        "rings" => yard.rings(),
        "crossed" => yard.crossed(),
        "clock" => yard.clock(),
        "great" => yard.great(),
        _ => usage(),
    }
    io::stdout().lock().write_all(&yard.written)
}
