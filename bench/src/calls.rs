//! The peer's form of the portal's two calls: the same numbers and slices, the same tests, the same answers. Each thread
//! keeps its room from call to call.

use crate::barn::*;
use crate::fault;
use crate::plan::{load_kept, Search};
use std::cell::RefCell;

struct Room {
    map: Map,
    book: Book,
    search: Search,
}

thread_local! {
    static ROOM: RefCell<Room> = const { RefCell::new(Room { map: Map::new(), book: Book::new(), search: Search::new() }) };
}

/// A refusal's number and row.
type Refusal = (u8, usize);

fn refused((number, row): Refusal) -> u64 {
    (number as u64) << 32 | row as u64
}

fn done(value: u32, count: usize) -> u64 {
    value as u64 * 2_048 + count as u64
}

pub fn plan(map: &[u8], book: &[u8], start: u32, destination: u32, second: u32, answer: &mut [u8]) -> u64 {
    ROOM.with_borrow_mut(|room| room.plan(map, book, start, destination, second, answer)).unwrap_or_else(refused)
}

pub fn page(map: &[u8], book: &[u8], size: u32, place: u32, entry: u32, ticket: u32, answer: &mut [u8]) -> u64 {
    ROOM.with_borrow_mut(|room| room.page(map, book, size, place, entry, ticket, answer)).unwrap_or_else(refused)
}

impl Room {
    fn plan(
        &mut self, map_slice: &[u8], book_slice: &[u8], start: u32, destination: u32, second: u32, answer: &mut [u8],
    ) -> Result<u64, Refusal> {
        let Room { map, book, search } = self;
        if !map.read_slice(map_slice) {
            return Err((BAD_MAP, 0));
        }
        if !book.read_slice(map, book_slice) || !search.prepare(map, book, second.min(DAY)) {
            return Err(fault::found(map, book_slice));
        }
        if start as usize >= map.size() || destination as usize >= map.size() {
            return Err((NOT_A_PLACE, 0));
        }
        if second > DAY {
            return Err((LATE_SECOND, 0));
        }
        let rows = search.chosen(map, book, start as u8, destination as u8, second).ok_or((NO_PLAN, 0))?;
        let (answer, _) = answer.as_chunks_mut::<PACKED_ROW>();
        if answer.len() < rows.len() {
            return Err((SHORT_LIST, 0));
        }
        for (row, at) in rows.iter().zip(answer) {
            *at = row.packed();
        }
        Ok(done(rows[rows.len() - 1].exit(), rows.len()))
    }

    fn page(
        &mut self, map_slice: &[u8], book_slice: &[u8], size: u32, place: u32, entry: u32, ticket: u32, answer: &mut [u8],
    ) -> Result<u64, Refusal> {
        let Room { map, book, .. } = self;
        if !map.read_slice(map_slice) {
            return Err((BAD_MAP, 0));
        }
        if !book.read_slice(map, book_slice) || !load_kept(map, book) {
            return Err(fault::found(map, book_slice));
        }
        let size = size as usize;
        if size == 0 || size > MOST_ON_PAGE {
            return Err((BAD_PAGE_SIZE, 0));
        }
        if place as usize >= map.size() || entry > DAY || ticket >= MOST_TICKETS {
            return Err((BAD_CURSOR, 0));
        }
        if answer.len() / PACKED_ROW < size {
            return Err((SHORT_LIST, 0));
        }
        let from = book.after(key(place, entry, ticket));
        let left = book.rows.len() - from;
        let count = left.min(size);
        answer[..PACKED_ROW * count].copy_from_slice(&book_slice[5 + PACKED_ROW * from..][..PACKED_ROW * count]);
        Ok(done((left > size) as u32, count))
    }
}
