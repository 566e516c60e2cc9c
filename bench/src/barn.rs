//! The map and the book, read from slices and tested. Both are kept and filled anew, so that reading them allocates nothing.
//! The passes over places, links and rows only note that something is odd, without a branch for each rule. Which rule a book
//! breaks, and at which row, is looked for once it is known that it breaks one, apart from this.

#![allow(dead_code)]

pub const DAY: u32 = 86_400;
pub const MOST_PLACES: usize = 256;
pub const MOST_LINKS: usize = 1_024;
pub const MOST_ROWS: usize = 1_024;
pub const MOST_CAPACITY: u8 = 16;
pub const MOST_DURATION: u16 = 3_600;
pub const MOST_TICKETS: u32 = 1_000_000;
pub const MOST_ON_PAGE: usize = 64;
pub const PACKED_PLACE: usize = 3;
pub const PACKED_LINK: usize = 2;
pub const PACKED_ROW: usize = 11;

pub const BAD_MAP: u8 = 1;
pub const BAD_BOOK: u8 = 2;
pub const NOT_A_PLACE: u8 = 3;
pub const LATE_SECOND: u8 = 4;
pub const NO_PLAN: u8 = 5;
pub const SHORT_LIST: u8 = 6;
pub const BOOK_FULL: u8 = 7;
pub const TICKETS_OUT: u8 = 8;
pub const NO_SUCH_TICKET: u8 = 9;
pub const BAD_PAGE_SIZE: u8 = 10;
pub const BAD_CURSOR: u8 = 11;
pub const BAD_FRAME: u8 = 12;
pub const KEYS_FALL: u8 = 13;
pub const BROKEN_RUN: u8 = 14;
pub const OVERFULL: u8 = 15;
pub const BARRED: u8 = 16;

/// A number, its high byte first.
pub fn number(bytes: &[u8]) -> u32 {
    bytes.iter().fold(0, |sum, &byte| sum << 8 | byte as u32)
}

/// Appends a number, its high byte first.
pub fn push(bytes: &mut Vec<u8>, number: u32, width: usize) {
    bytes.extend_from_slice(&number.to_be_bytes()[4 - width..]);
}

/// The words of a bit for each place.
pub const WORDS: usize = MOST_PLACES / 64;

/// Some places, a bit each.
pub type Places = [u64; WORDS];

/// A map, filled by `read`.
pub struct Map {
    size: usize,
    capacities: [u8; MOST_PLACES],
    durations: [u16; MOST_PLACES],
    /// Bit q of `linked[p]`: there is a link from p to q, or p is q.
    linked: [Places; MOST_PLACES],
}

impl Map {
    pub const fn new() -> Map {
        Map { size: 0, capacities: [0; MOST_PLACES], durations: [0; MOST_PLACES], linked: [[0; WORDS]; MOST_PLACES] }
    }

    /// Takes the map of a slice; false where it breaks a rule.
    pub fn read_slice(&mut self, slice: &[u8]) -> bool {
        let Some((&[n1, n0, m1, m0], packed)) = slice.split_first_chunk() else {
            return false;
        };
        let n = u16::from_be_bytes([n1, n0]) as usize;
        let m = u16::from_be_bytes([m1, m0]) as usize;
        if packed.len() != PACKED_PLACE * n + PACKED_LINK * m {
            return false;
        }
        let (places, links) = packed.split_at(PACKED_PLACE * n);
        self.read(places, links)
    }

    /// Takes the map of packed places and links; false where it breaks a rule.
    pub fn read(&mut self, packed_places: &[u8], packed_links: &[u8]) -> bool {
        let (places, _) = packed_places.as_chunks::<PACKED_PLACE>();
        let (links, _) = packed_links.as_chunks::<PACKED_LINK>();
        let n = places.len();
        if n < 1 || n > MOST_PLACES || links.len() > MOST_LINKS {
            return false;
        }
        self.size = n;
        let mut odd = false;
        let kept = self.capacities.iter_mut().zip(&mut self.durations);
        for (&[capacity, d1, d0], kept) in places.iter().zip(kept) {
            let duration = u16::from_be_bytes([d1, d0]);
            odd |= (capacity.wrapping_sub(1) >= MOST_CAPACITY) | (duration.wrapping_sub(1) >= MOST_DURATION);
            (*kept.0, *kept.1) = (capacity, duration);
        }
        self.linked[..n].fill([0; WORDS]);
        for (place, linked) in self.linked[..n].iter_mut().enumerate() {
            linked[place / 64] = 1 << (place % 64);
        }
        for &[from, to] in links {
            let word = &mut self.linked[from as usize][to as usize / 64];
            let bit = 1 << (to % 64);
            odd |= (from as usize >= n) | (to as usize >= n) | (*word & bit != 0);
            *word |= bit;
        }
        !odd
    }

    pub fn size(&self) -> usize {
        self.size
    }

    pub fn capacity(&self, place: u8) -> usize {
        self.capacities[place as usize] as usize
    }

    pub fn duration(&self, place: u8) -> u32 {
        self.durations[place as usize] as u32
    }

    /// The places that links out of this one lead to, a bit each.
    pub fn onward(&self, place: u8) -> Places {
        let mut onward = self.linked[place as usize];
        onward[place as usize / 64] ^= 1 << (place % 64);
        onward
    }

    /// The last bit says whether a link leads from one to the other, or they are the same.
    pub fn leads(&self, from: u8, to: u8) -> u64 {
        self.linked[from as usize][to as usize / 64] >> (to % 64)
    }
}

/// A row as a key and a tail word, the place that its wagon came from, and what is known of the wagons behind.
#[derive(Clone, Copy)]
pub struct Row {
    /// Place, entry and ticket: the order of keys.
    pub key: u64,
    /// Exit and next place.
    pub tail: u32,
    /// The place of the run's row before; the row's own place on a run's first row.
    pub came: u8,
    /// The number of the run's row before with `BEFORE`, where it is known. On the first of the rows that enter a place at one
    /// second the number of the set of its origins replaces it, once that is known.
    behind: u16,
}

const BEFORE: u16 = 1 << 15;
/// Neither is known.
const UNKNOWN: u16 = u16::MAX;
/// The set of origins is being gathered.
const GATHERING: u16 = u16::MAX - 1;
/// The number of the empty set.
const EMPTY: u16 = 0;

impl Row {
    pub fn new(place: u8, entry: u32, ticket: u32, exit: u32, next: u8) -> Row {
        Row { key: key(place as u32, entry, ticket), tail: exit << 8 | next as u32, came: place, behind: UNKNOWN }
    }

    /// The row with the place that its wagon came from.
    pub fn coming(self, came: u8) -> Row {
        Row { came, ..self }
    }

    pub fn unpacked(at: &[u8; PACKED_ROW]) -> Row {
        let [start @ .., _, _, _] = at;
        let [_, _, _, _, _, _, _, end @ ..] = at;
        Row { key: u64::from_be_bytes(*start) >> 8, tail: u32::from_be_bytes(*end), came: at[0], behind: UNKNOWN }
    }

    pub fn packed(&self) -> [u8; PACKED_ROW] {
        let [_, place, e2, e1, e0, t2, t1, t0] = self.key.to_be_bytes();
        let [x2, x1, x0, next] = self.tail.to_be_bytes();
        [place, e2, e1, e0, t2, t1, t0, x2, x1, x0, next]
    }

    pub fn place(&self) -> u8 {
        (self.key >> 48) as u8
    }

    pub fn entry(&self) -> u32 {
        (self.key >> 24) as u32 & 0xFF_FFFF
    }

    pub fn ticket(&self) -> u32 {
        self.key as u32 & 0xFF_FFFF
    }

    pub fn exit(&self) -> u32 {
        self.tail >> 8
    }

    pub fn next(&self) -> u8 {
        self.tail as u8
    }

    pub fn is_last(&self) -> bool {
        self.next() == self.place()
    }

    /// How much longer than it must the wagon stays, or below zero.
    pub fn waited(&self, map: &Map) -> i32 {
        self.exit() as i32 - self.entry() as i32 - map.duration(self.place()) as i32
    }

    /// The key that the run's next row must have.
    fn next_key(&self) -> u64 {
        key(self.next() as u32, self.exit(), self.ticket())
    }

    pub fn under(&self, ticket: u32) -> Row {
        Row { key: self.key & !0xFF_FFFF | ticket as u64, ..*self }
    }
}

pub fn key(place: u32, entry: u32, ticket: u32) -> u64 {
    (place as u64) << 48 | (entry as u64) << 24 | ticket as u64
}

/// The crossings of a book as bits by hash of their seconds. Bits that aren't set say for certain that no crossing leads into
/// a place, or that none leads out of it, at a second.
struct Crossed {
    /// For the seconds of one hash: the places entered and the places left, a bit each, which the second turns.
    pairs: [[u64; 2]; MOST_ROWS / 2],
    shift: u32,
}

impl Crossed {
    const fn new() -> Crossed {
        Crossed { pairs: [[0; 2]; MOST_ROWS / 2], shift: 31 }
    }

    /// Empty, with 64 bits and more for each of so many rows.
    fn clear(&mut self, rows: usize) {
        let pairs = (rows.next_power_of_two() / 2).max(2);
        self.pairs[..pairs].fill([0; 2]);
        self.shift = 32 - pairs.trailing_zeros();
    }

    /// The pair of words for a second, and the bits of two places in both.
    fn bits(&self, from: u8, to: u8, second: u32) -> (usize, u32, u32) {
        let hash = second.wrapping_mul(0x9E37_79B1);
        let bit = |place: u8| hash.wrapping_add(place as u32) % 64;
        ((hash >> self.shift) as usize % (MOST_ROWS / 2), bit(from), bit(to))
    }

    /// Adds a crossing; false where, for certain, those added before don't lead from its end to its start.
    fn add(&mut self, from: u8, to: u8, second: u32) -> bool {
        let (pair, from, to) = self.bits(from, to, second);
        let [entered, left] = &mut self.pairs[pair];
        let closes = *entered >> from & *left >> to & 1 == 1;
        *entered |= 1 << to;
        *left |= 1 << from;
        closes
    }

    /// Adds a row's crossing, if it isn't its run's last.
    fn add_row(&mut self, row: &Row) {
        let (pair, from, to) = self.bits(row.place(), row.next(), row.exit());
        let crosses = !row.is_last() as u64;
        self.pairs[pair][0] |= crosses << to;
        self.pairs[pair][1] |= crosses << from;
    }

    /// False where, for certain, no crossings lead from the end of this one to its start.
    fn perhaps_barred(&self, from: u8, to: u8, second: u32) -> bool {
        let (pair, from, to) = self.bits(from, to, second);
        let [entered, left] = self.pairs[pair];
        entered >> from & 1 == 1 && left >> to & 1 == 1
    }
}

/// No row.
const NONE: u16 = u16::MAX;
/// So many slots a row.
const SLOTS: usize = 4;
/// So many rows for a word of bits for tickets.
const ROWS_A_WORD: usize = 4;

/// The rows of a book in order, by place, and what the tests need room for.
pub struct Book {
    pub rows: Vec<Row>,
    /// Rows while they are tested anew.
    spare: Vec<Row>,
    /// The rows of p are `rows[from[p]..from[p + 1]]`.
    from: [u16; MOST_PLACES + 1],
    crossed: Crossed,
    /// The crossings that may close a ring.
    closing: Vec<u16>,
    /// Sets of origins by number, the empty one first.
    sets: Vec<Places>,
    /// The turn in which a row's crossing has been gone back over.
    walked: [u16; MOST_ROWS],
    /// Rows by the hash of their keys: the last in each slot, and for each row the one before it in its slot.
    slots: [u16; SLOTS * MOST_ROWS],
    chain: [u16; MOST_ROWS],
    /// The rows that aren't their runs' last.
    leaving: [u16; MOST_ROWS],
    /// The rows that are.
    ended: [u16; MOST_ROWS],
    /// The low digits of the tickets seen.
    ticket_bits: [u64; MOST_ROWS / ROWS_A_WORD],
    tickets: Vec<u32>,
}

impl Book {
    pub const fn new() -> Book {
        Book {
            rows: Vec::new(),
            spare: Vec::new(),
            from: [0; MOST_PLACES + 1],
            crossed: Crossed::new(),
            closing: Vec::new(),
            sets: Vec::new(),
            walked: [NONE; MOST_ROWS],
            slots: [NONE; SLOTS * MOST_ROWS],
            chain: [NONE; MOST_ROWS],
            leaving: [0; MOST_ROWS],
            ended: [0; MOST_ROWS],
            ticket_bits: [0; MOST_ROWS / ROWS_A_WORD],
            tickets: Vec::new(),
        }
    }

    /// Takes the book of a slice; false where the slice or the book breaks a rule other than that of load.
    pub fn read_slice(&mut self, map: &Map, slice: &[u8]) -> bool {
        let Some((&[t2, t1, t0, c1, c0], packed)) = slice.split_first_chunk() else {
            return false;
        };
        let next_ticket = u32::from_be_bytes([0, t2, t1, t0]);
        let count = u16::from_be_bytes([c1, c0]) as usize;
        if packed.len() != PACKED_ROW * count || count > MOST_ROWS {
            return false;
        }
        if next_ticket < 1 || next_ticket > MOST_TICKETS {
            return false;
        }
        self.fill(map, next_ticket, packed.as_chunks().0.iter().map(Row::unpacked))
    }

    /// Whether the book keeps the rules but that of load.
    pub fn kept(&mut self, map: &Map, next_ticket: u32) -> bool {
        std::mem::swap(&mut self.rows, &mut self.spare);
        let rows = std::mem::take(&mut self.spare);
        let kept = self.fill(map, next_ticket, rows.iter().map(|row| Row { came: row.place(), behind: UNKNOWN, ..*row }));
        self.spare = rows;
        kept
    }

    /// Takes rows, each as a run's first, and notes where their wagons came from; false where they break a rule other than
    /// that of load.
    fn fill(&mut self, map: &Map, next_ticket: u32, rows: impl ExactSizeIterator<Item = Row>) -> bool {
        let count = rows.len();
        let room = count.next_power_of_two();
        let shift = 64 - (SLOTS * room).trailing_zeros();
        let slot = |key: u64| (key.wrapping_mul(0x9E37_79B9_7F4A_7C15) >> shift) as usize % (SLOTS * MOST_ROWS);
        self.slots[..SLOTS * room].fill(NONE);
        self.rows.resize(count, Row::new(0, 0, 0, 0, 0));
        self.from[..=map.size()].fill(0);
        // Numbers below zero set the sign, and a missing link clears the last bit.
        let (mut sign, mut led) = (0, 1);
        let mut last = 0;
        let mut leaving = 0;
        for (i, ((row, kept), chain)) in rows.zip(&mut self.rows).zip(&mut self.chain).enumerate() {
            let place = row.place();
            sign |= (row.key as i64 - 1 - last) | row.waited(map) as i64;
            led &= map.leads(place, row.next());
            last = row.key as i64;
            *kept = row;
            let from = &mut self.from[place as usize + 1];
            *from = from.wrapping_add(1);
            let slot = &mut self.slots[slot(row.key)];
            *chain = *slot;
            *slot = i as u16;
            self.leaving[leaving % MOST_ROWS] = i as u16;
            self.ended[(i - leaving) % MOST_ROWS] = i as u16;
            leaving += !row.is_last() as usize;
        }
        if sign < 0 || led & 1 == 0 || last >> 48 >= map.size() as i64 {
            return false;
        }
        let mut sum = 0;
        for from in &mut self.from[..=map.size()] {
            sum += *from;
            *from = sum;
        }
        self.clear_crossings();
        self.runs_led(slot, leaving) && self.runs_ended(map, next_ticket, count - leaving) && self.ring_free()
    }

    fn clear_crossings(&mut self) {
        self.crossed.clear(self.rows.len());
        self.closing.clear();
        self.sets.resize(1, [0; WORDS]);
    }

    /// Whether each row but a run's last leads to a row of its own. Notes a crossing of each ring, and few others.
    fn runs_led(&mut self, slot: impl Fn(u64) -> usize, leaving: usize) -> bool {
        for &i in &self.leaving[..leaving] {
            let row = self.rows[i as usize];
            let (place, next, exit, next_key) = (row.place(), row.next(), row.exit(), row.next_key());
            let mut at = self.slots[slot(next_key)];
            let other = loop {
                match self.rows.get_mut(at as usize) {
                    None => return false,
                    Some(other) if other.key == next_key => break other,
                    Some(_) => at = self.chain[at as usize],
                }
            };
            if other.came != next {
                return false;
            }
            other.came = place;
            other.behind = BEFORE | i;
            // Rows are in order of place: of a ring's crossings the last one added leaves its highest place.
            if self.crossed.add(place, next, exit) && next < place {
                self.closing.push(i);
            }
        }
        true
    }

    /// Whether no crossing noted is part of a ring. Goes back from each, and no crossing twice.
    fn ring_free(&mut self) -> bool {
        if self.closing.is_empty() {
            return true;
        }
        self.walked[..self.rows.len()].fill(NONE);
        (0..self.closing.len()).all(|turn| !self.led_round(turn))
    }

    /// Whether a ring leads to a crossing noted, as far as crossings have not been gone back over in turns before.
    fn led_round(&mut self, turn: usize) -> bool {
        let mut at = self.closing[turn] as usize;
        let second = self.rows[at].exit();
        loop {
            match self.walked[at] {
                NONE => self.walked[at] = turn as u16,
                other => return other == turn as u16,
            }
            let place = self.rows[at].place();
            let Some(first) = self.first_after(at + 1, place, second) else {
                return false;
            };
            if self.rows.get(first + 1).is_some_and(|row| row.key >> 24 == self.rows[first].key >> 24) {
                return self.origins(Some(first)).is_none();
            }
            match self.rows[first].behind {
                UNKNOWN => return false,
                known if known & BEFORE == 0 => return false,
                before => at = (before ^ BEFORE) as usize,
            }
        }
    }

    /// The places from which crossings of one second lead to the place of a row that is the first to enter it at that second,
    /// one or more crossings in turn: the number of their set, or none where a ring leads to it. Each set is gathered once.
    fn origins(&mut self, first: Option<usize>) -> Option<u16> {
        let Some(first) = first else {
            return Some(EMPTY);
        };
        let mut row = self.rows[first];
        match row.behind {
            GATHERING => return None,
            known if known & BEFORE == 0 => return Some(known),
            _ => self.rows[first].behind = GATHERING,
        }
        let (place, second, entered) = (row.place(), row.entry(), row.key >> 24);
        let mut all = [0; WORDS];
        let mut at = first;
        while row.key >> 24 == entered {
            let came = row.came;
            if came != place {
                let from = match row.behind {
                    UNKNOWN => self.first_from(came, second),
                    before => (before ^ BEFORE) as usize + 1,
                };
                let origins = self.origins(self.first_after(from, came, second))?;
                for (word, more) in all.iter_mut().zip(self.sets[origins as usize]) {
                    *word |= more;
                }
                all[came as usize / 64] |= 1 << (came % 64);
            }
            at += 1;
            match self.rows.get(at) {
                Some(&next) => row = next,
                None => break,
            }
        }
        let number = self.sets.len() as u16;
        self.sets.push(all);
        self.rows[first].behind = number;
        Some(number)
    }

    /// The first row that enters a place at this second, from a row on that doesn't lie behind it; none where there is none.
    fn first_after(&self, mut at: usize, place: u8, second: u32) -> Option<usize> {
        let entered = key(place as u32, second, 0) >> 24;
        loop {
            match self.rows.get(at)?.key >> 24 {
                other if other < entered => at += 1,
                other if other == entered => return Some(at),
                _ => return None,
            }
        }
    }

    /// Whether the last rows of runs have tickets of their own in range, stay no longer than they must and end within the day.
    /// Where each other row leads to a row of its own, and so on to a last one, this speaks for the tickets and exits of all.
    fn runs_ended(&mut self, map: &Map, next_ticket: u32, ended: usize) -> bool {
        let words = self.rows.len().next_power_of_two().div_ceil(ROWS_A_WORD);
        let bits = &mut self.ticket_bits[..words];
        bits.fill(0);
        let (mut odd, mut shared) = (false, 0);
        for &i in &self.ended[..ended] {
            let row = self.rows[i as usize];
            let ticket = row.ticket();
            odd |= (ticket.wrapping_sub(1) >= next_ticket - 1) | (row.waited(map) != 0) | (row.exit() > DAY);
            let word = &mut bits[ticket as usize / 64 & (words - 1)];
            shared |= *word >> (ticket % 64) & 1;
            *word |= 1 << (ticket % 64);
        }
        if shared == 1 {
            // Two tickets have the same low digits: are they the same?
            self.tickets.clear();
            self.tickets.extend(self.ended[..ended].iter().map(|&i| self.rows[i as usize].ticket()));
            self.tickets.sort_unstable();
            odd |= self.tickets.windows(2).any(|two| two[0] == two[1]);
        }
        !odd
    }

    /// Puts a run's rows in order under a ticket.
    pub fn add(&mut self, run: &[Row], ticket: u32) {
        self.rows.extend(run.iter().map(|row| row.under(ticket)));
        self.rows.sort_by_key(|row| row.key);
        self.index();
    }

    /// Takes a ticket's rows out and says how many they were.
    pub fn remove(&mut self, ticket: u32) -> usize {
        let before = self.rows.len();
        self.rows.retain(|row| row.ticket() != ticket);
        self.index();
        before - self.rows.len()
    }

    /// The rows by place and the crossings, of rows in order.
    fn index(&mut self) {
        self.from.fill(0);
        self.clear_crossings();
        for (i, row) in self.rows.iter_mut().enumerate() {
            self.from[row.place() as usize + 1] = i as u16 + 1;
            row.behind = UNKNOWN;
            self.crossed.add_row(row);
        }
        for place in 1..self.from.len() {
            self.from[place] = self.from[place].max(self.from[place - 1]);
        }
    }

    pub fn at(&self, place: u8) -> &[Row] {
        &self.rows[self.from[place as usize] as usize..self.from[place as usize + 1] as usize]
    }

    /// The rows after a key.
    pub fn after(&self, key: u64) -> usize {
        self.rows.partition_point(|row| row.key <= key)
    }

    /// The first row of a place that enters it at this second or later, or the place's end.
    fn first_from(&self, place: u8, second: u32) -> usize {
        self.from[place as usize] as usize + self.at(place).partition_point(|row| row.entry() < second)
    }

    /// The least second from `least` to `most` at which no rows lead from `to` to `from`, or one above `most`.
    #[inline]
    pub fn unbarred(&mut self, from: u8, to: u8, least: u32, most: u32) -> u32 {
        if self.crossed.perhaps_barred(from, to, least) {
            self.unbarred_later(from, to, least, most)
        } else {
            least
        }
    }

    #[inline(never)]
    fn unbarred_later(&mut self, from: u8, to: u8, least: u32, most: u32) -> u32 {
        let mut second = least;
        loop {
            second = self.unopposed(from, to, second, most);
            if second > most || !self.leads_round(from, to, second) {
                return second;
            }
            second += 1;
        }
    }

    /// The least second from `least` to `most` at which no row goes from `to` to `from`, or one above `most`.
    fn unopposed(&self, from: u8, to: u8, least: u32, most: u32) -> u32 {
        let rows = self.at(from);
        let mut rows = rows[rows.partition_point(|row| row.entry() < least)..].iter().peekable();
        let mut second = least;
        while second <= most {
            let mut opposed = false;
            while let Some(row) = rows.next_if(|row| row.entry() == second) {
                opposed |= row.came == to;
            }
            if !opposed {
                break;
            }
            second += 1;
        }
        second
    }

    /// Whether rows lead from `to` to `from` at this second.
    fn leads_round(&mut self, from: u8, to: u8, second: u32) -> bool {
        if !self.crossed.perhaps_barred(from, to, second) {
            return false;
        }
        let first = self.first_after(self.first_from(from, second), from, second);
        self.origins(first).is_some_and(|set| self.sets[set as usize][to as usize / 64] >> (to % 64) & 1 == 1)
    }
}
