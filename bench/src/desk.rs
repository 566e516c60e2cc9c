//! Frames in, answers out, by the peer.

use crate::barn::*;
use crate::plan::{load_kept, Search};

pub struct Desk {
    places: Vec<u8>,
    links: Vec<u8>,
    /// A well-shaped frame of kind 03 to 06 has come: the map stays as it is.
    closed: bool,
    map: Map,
    /// The closed map keeps its rules.
    map_kept: bool,
    pub book: Book,
    search: Search,
    next_ticket: u32,
    /// Map and book are tested at each question, as the calls do.
    testing: bool,
}

impl Desk {
    pub fn new(testing: bool) -> Desk {
        Desk {
            places: Vec::new(),
            links: Vec::new(),
            closed: false,
            map: Map::new(),
            map_kept: false,
            book: Book::new(),
            search: Search::new(),
            next_ticket: 1,
            testing,
        }
    }

    /// Appends the answer to one line.
    pub fn answer(&mut self, line: &[u8], out: &mut Vec<u8>) {
        if let Err(refusal) = self.told(line, out) {
            put(out, &[refusal]);
            out.push(b'\n');
        }
    }

    fn told(&mut self, line: &[u8], out: &mut Vec<u8>) -> Result<(), u8> {
        let mut room = [0u8; 9];
        match bytes(line, &mut room).ok_or(BAD_FRAME)? {
            &[0x01, capacity, d1, d0] if !self.closed && self.places.len() < 3 * MOST_PLACES => {
                self.places.extend([capacity, d1, d0]);
            }
            &[0x02, from, to] if !self.closed && self.links.len() < 2 * MOST_LINKS => self.links.extend([from, to]),
            &[0x03, start, destination, s2, s1, s0] => {
                return self.plan(start, destination, number(&[s2, s1, s0]), out);
            }
            &[0x04, start, destination, s2, s1, s0] => {
                return self.book(start, destination, number(&[s2, s1, s0]), out);
            }
            &[0x05, t2, t1, t0] => return self.cancel(number(&[t2, t1, t0]), out),
            &[0x06, size, place, e2, e1, e0, t2, t1, t0] => {
                return self.page(size, place, number(&[e2, e1, e0]), number(&[t2, t1, t0]), out);
            }
            _ => return Err(BAD_FRAME),
        }
        out.extend_from_slice(b"00\n");
        Ok(())
    }

    /// Closes the map at a question. Refused where the map breaks a rule or, if it is tested, the book breaks one other than
    /// that of load.
    fn asked(&mut self) -> Result<(), u8> {
        if !self.closed || self.testing {
            self.closed = true;
            self.map_kept = self.map.read(&self.places, &self.links);
        }
        if !self.map_kept {
            return Err(BAD_MAP);
        }
        if self.testing && !self.book.kept(&self.map, self.next_ticket) {
            return Err(BAD_BOOK);
        }
        Ok(())
    }

    /// The same with the rule of load.
    fn asked_with_load(&mut self) -> Result<(), u8> {
        self.asked()?;
        if self.testing && !load_kept(&self.map, &self.book) {
            return Err(BAD_BOOK);
        }
        Ok(())
    }

    /// The chosen plan of a request; without a ticket number left it is refused before the search.
    fn chosen(&mut self, start: u8, destination: u8, second: u32, ticket_left: bool) -> Result<&[Row], u8> {
        self.asked()?;
        if !self.search.prepare(&self.map, &self.book, second.min(DAY)) {
            return Err(BAD_BOOK);
        }
        if start as usize >= self.map.size() || destination as usize >= self.map.size() {
            return Err(NOT_A_PLACE);
        }
        if second > DAY {
            return Err(LATE_SECOND);
        }
        if !ticket_left {
            return Err(TICKETS_OUT);
        }
        self.search.chosen(&self.map, &mut self.book, start, destination, second).ok_or(NO_PLAN)
    }

    fn plan(&mut self, start: u8, destination: u8, second: u32, out: &mut Vec<u8>) -> Result<(), u8> {
        let rows = self.chosen(start, destination, second, true)?;
        let arrival = rows[rows.len() - 1].exit().to_be_bytes();
        out.extend_from_slice(b"00");
        put(out, &arrival[1..]);
        put(out, &(rows.len() as u16).to_be_bytes());
        out.push(b'\n');
        put_rows(out, rows);
        Ok(())
    }

    fn book(&mut self, start: u8, destination: u8, second: u32, out: &mut Vec<u8>) -> Result<(), u8> {
        let rows = self.chosen(start, destination, second, self.next_ticket < MOST_TICKETS)?.to_vec();
        if rows.len() > MOST_ROWS - self.book.rows.len() {
            return Err(BOOK_FULL);
        }
        let ticket = self.next_ticket;
        self.next_ticket += 1;
        self.book.add(&rows, ticket);
        out.extend_from_slice(b"00");
        put(out, &ticket.to_be_bytes()[1..]);
        put(out, &rows[rows.len() - 1].exit().to_be_bytes()[1..]);
        put(out, &(rows.len() as u16).to_be_bytes());
        out.push(b'\n');
        Ok(())
    }

    fn cancel(&mut self, ticket: u32, out: &mut Vec<u8>) -> Result<(), u8> {
        self.asked_with_load()?;
        let count = self.book.remove(ticket) as u16;
        if count == 0 {
            return Err(NO_SUCH_TICKET);
        }
        out.extend_from_slice(b"00");
        put(out, &count.to_be_bytes());
        out.push(b'\n');
        Ok(())
    }

    fn page(&mut self, size: u8, place: u8, entry: u32, ticket: u32, out: &mut Vec<u8>) -> Result<(), u8> {
        self.asked_with_load()?;
        if size == 0 || size as usize > MOST_ON_PAGE {
            return Err(BAD_PAGE_SIZE);
        }
        if place as usize >= self.map.size() || entry > DAY || ticket >= MOST_TICKETS {
            return Err(BAD_CURSOR);
        }
        let after = &self.book.rows[self.book.after(key(place as u32, entry, ticket))..];
        let count = after.len().min(size as usize);
        out.extend_from_slice(b"00");
        put(out, &[count as u8, (after.len() > count) as u8]);
        out.push(b'\n');
        put_rows(out, &after[..count]);
        Ok(())
    }
}

/// The two digits of each byte.
const DIGITS: [[u8; 2]; 256] = {
    let digits = b"0123456789ABCDEF";
    let mut all = [[0; 2]; 256];
    let mut byte = 0;
    while byte < 256 {
        all[byte] = [digits[byte / 16], digits[byte % 16]];
        byte += 1;
    }
    all
};

fn put(out: &mut Vec<u8>, bytes: &[u8]) {
    for &byte in bytes {
        out.extend_from_slice(&DIGITS[byte as usize]);
    }
}

fn put_rows(out: &mut Vec<u8>, rows: &[Row]) {
    for row in rows {
        let mut line = [b'\n'; 2 * PACKED_ROW + 1];
        for (two, &byte) in line.as_chunks_mut().0.iter_mut().zip(&row.packed()) {
            *two = DIGITS[byte as usize];
        }
        out.extend_from_slice(&line);
    }
}

/// The bytes of a line of uppercase hexadecimal, or none where it has other digits or more than a frame has.
fn bytes<'a>(line: &[u8], room: &'a mut [u8; 9]) -> Option<&'a [u8]> {
    if line.len() % 2 != 0 || line.len() > 18 {
        return None;
    }
    for (at, two) in line.chunks_exact(2).enumerate() {
        room[at] = digit(two[0])? * 16 + digit(two[1])?;
    }
    Some(&room[..line.len() / 2])
}

fn digit(sign: u8) -> Option<u8> {
    match sign {
        b'0'..=b'9' => Some(sign - b'0'),
        b'A'..=b'F' => Some(sign - b'A' + 10),
        _ => None,
    }
}
