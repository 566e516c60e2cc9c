//! Frames in, answers out.

#![allow(dead_code)]

use crate::barn::*;
use crate::faulty;
use crate::plan::Seconds;

/// Which planner answers: the one that walks the seconds, or one of the errors we have seen.
/// 0 is the faulty planner without an error; 1 to 3 are its errors; 4 pages by finding the
/// cursor's row, 6 by skipping as many rows as were shown; 5 gives a cancelled number out again.
/// 7 and 8 walk the seconds and look for a ring by one step and by three steps only.
pub type Error = Option<u32>;

pub struct Desk {
    pub map: Map,
    pub book: Book,
    /// A well-shaped frame of kind 03 to 06 has come: the map stays as it is.
    asked: bool,
    seconds: Seconds,
    error: Error,
    shown: usize,
}

impl Desk {
    pub fn new(error: Error) -> Desk {
        let seconds = match error {
            Some(7) => Seconds::looking(1),
            Some(8) => Seconds::looking(3),
            _ => Seconds::new(),
        };
        Desk { map: Map::default(), book: Book::new(), asked: false, seconds, error, shown: 0 }
    }

    /// The answer to one line, the line feeds included.
    pub fn answer(&mut self, line: &[u8]) -> String {
        let frame = match bytes(line) {
            Some(frame) => frame,
            None => return refusal(BAD_FRAME),
        };
        match frame[..] {
            [0x01, capacity, d1, d0] => {
                if self.asked || self.map.places.len() == MOST_PLACES {
                    return refusal(BAD_FRAME);
                }
                self.map.places.push(Place { capacity: capacity as u32, duration: number(&[d1, d0]) });
                format!("{:02X}\n", DONE)
            }
            [0x02, from, to] => {
                if self.asked || self.map.links.len() == MOST_LINKS {
                    return refusal(BAD_FRAME);
                }
                self.map.links.push((from as usize, to as usize));
                format!("{:02X}\n", DONE)
            }
            [0x03, start, destination, s2, s1, s0] => {
                self.asked = true;
                self.plan(start as usize, destination as usize, number(&[s2, s1, s0]))
            }
            [0x04, start, destination, s2, s1, s0] => {
                self.asked = true;
                self.book(start as usize, destination as usize, number(&[s2, s1, s0]))
            }
            [0x05, t2, t1, t0] => {
                self.asked = true;
                self.cancel(number(&[t2, t1, t0]))
            }
            [0x06, size, place, e2, e1, e0, t2, t1, t0] => {
                self.asked = true;
                self.page(size as usize, (place as usize, number(&[e2, e1, e0]), number(&[t2, t1, t0])))
            }
            _ => refusal(BAD_FRAME),
        }
    }

    /// The refusal of a request that names a place or a second that there is not, or is made on a bad map.
    fn misasked(&self, start: usize, destination: usize, second: u32) -> Option<u8> {
        if !self.map.keeps_rules() {
            return Some(BAD_MAP);
        }
        if !self.map.has_place(start) || !self.map.has_place(destination) {
            return Some(NOT_A_PLACE);
        }
        if second > DAY {
            return Some(LATE_SECOND);
        }
        None
    }

    fn plan(&mut self, start: usize, destination: usize, second: u32) -> String {
        if let Some(number) = self.misasked(start, destination, second) {
            return refusal(number);
        }
        match self.chosen(start, destination, second) {
            None => refusal(NO_PLAN),
            Some(plan) => {
                let arrival = plan[plan.len() - 1].exit;
                format!("{:02X}{:06X}{:04X}\n", DONE, arrival, plan.len()) + &lines(&plan)
            }
        }
    }

    fn book(&mut self, start: usize, destination: usize, second: u32) -> String {
        if let Some(number) = self.misasked(start, destination, second) {
            return refusal(number);
        }
        if self.book.next_ticket > LAST_TICKET {
            return refusal(TICKETS_OUT);
        }
        let plan = match self.chosen(start, destination, second) {
            None => return refusal(NO_PLAN),
            Some(plan) => plan,
        };
        if plan.len() > MOST_ROWS - self.book.rows.len() {
            return refusal(BOOK_FULL);
        }
        let arrival = plan[plan.len() - 1].exit;
        let ticket = self.issue();
        self.book.rows.extend(plan.iter().map(|row| Row { ticket, ..*row }));
        self.book.rows.sort_by_key(|row| row.key());
        format!("{:02X}{:06X}{:06X}{:04X}\n", DONE, ticket, arrival, plan.len())
    }

    fn cancel(&mut self, ticket: u32) -> String {
        if !self.map.keeps_rules() {
            return refusal(BAD_MAP);
        }
        let before = self.book.rows.len();
        self.book.rows.retain(|row| row.ticket != ticket);
        let count = before - self.book.rows.len();
        if count == 0 {
            return refusal(NO_SUCH_TICKET);
        }
        format!("{:02X}{:04X}\n", DONE, count)
    }

    fn page(&mut self, size: usize, cursor: Key) -> String {
        if !self.map.keeps_rules() {
            return refusal(BAD_MAP);
        }
        if size == 0 || size > MOST_ON_PAGE {
            return refusal(BAD_PAGE_SIZE);
        }
        if !self.map.has_place(cursor.0) || cursor.1 > DAY || cursor.2 > LAST_TICKET {
            return refusal(BAD_CURSOR);
        }
        let after = self.after(cursor);
        let count = after.len().min(size);
        let more = after.len() > size;
        self.shown += count;
        format!("{:02X}{:02X}{:02X}\n", DONE, count, more as u8) + &lines(&after[..count])
    }

    /// The rows with keys above the cursor.
    fn after(&mut self, cursor: Key) -> Vec<Row> {
        let rows = &self.book.rows;
        match self.error {
            Some(4) => match rows.iter().position(|row| row.key() == cursor) {
                Some(at) => rows[at + 1..].to_vec(),
                None => rows.clone(),
            },
            Some(6) => {
                if cursor == (0, 0, 0) {
                    self.shown = 0;
                }
                rows[self.shown.min(rows.len())..].to_vec()
            }
            _ => rows.iter().filter(|row| row.key() > cursor).copied().collect(),
        }
    }

    fn chosen(&mut self, start: usize, destination: usize, second: u32) -> Option<Vec<Row>> {
        match self.error {
            Some(error) if error <= 3 => faulty::plan(&self.map, &self.book.rows, start, destination, second, error),
            _ => self.seconds.plan(&self.map, &self.book.rows, start, destination, second),
        }
    }

    fn issue(&mut self) -> u32 {
        let mut ticket = self.book.next_ticket;
        if self.error == Some(5) {
            ticket = (1..ticket).find(|&gone| self.book.rows.iter().all(|row| row.ticket != gone)).unwrap_or(ticket);
        }
        self.book.next_ticket = self.book.next_ticket.max(ticket + 1);
        ticket
    }
}

fn refusal(number: u8) -> String {
    format!("{:02X}\n", number)
}

fn lines(rows: &[Row]) -> String {
    rows.iter().map(|row| line(row) + "\n").collect()
}

/// A row as it is packed in the frames.
pub fn line(row: &Row) -> String {
    format!("{:02X}{:06X}{:06X}{:06X}{:02X}", row.place, row.entry, row.ticket, row.exit, row.next)
}

/// A number, its high byte first.
pub fn number(bytes: &[u8]) -> u32 {
    bytes.iter().fold(0, |sum, &byte| sum * 256 + byte as u32)
}

/// The bytes of a line of uppercase hexadecimal, two digits a byte.
pub fn bytes(line: &[u8]) -> Option<Vec<u8>> {
    if line.len() % 2 != 0 {
        return None;
    }
    line.chunks(2).map(|two| Some(digit(two[0])? * 16 + digit(two[1])?)).collect()
}

fn digit(sign: u8) -> Option<u8> {
    match sign {
        b'0'..=b'9' => Some(sign - b'0'),
        b'A'..=b'F' => Some(sign - b'A' + 10),
        _ => None,
    }
}

/// The lines of an input, without their line feeds. The last may lack its own.
pub fn split(input: &[u8]) -> Vec<&[u8]> {
    let mut lines: Vec<&[u8]> = input.split(|&byte| byte == b'\n').collect();
    if lines[lines.len() - 1].is_empty() {
        lines.pop();
    }
    lines
}
