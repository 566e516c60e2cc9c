//! The advisers' portal over numbers and byte slices, one call a line:
//!
//!     plan MAP BOOK START DESTINATION SECOND BYTES
//!     page MAP BOOK SIZE PLACE ENTRY TICKET BYTES
//!
//! MAP and BOOK are slices in uppercase hexadecimal (- for an empty one), BYTES is the length
//! of the answer slice, and the other numbers are decimal. Each call prints its result as one
//! decimal number and then each row written, packed as in the frames. A refusal's result is its
//! number times 2^32 plus the row it names, if any.
//!
//! With `--rings`, each call whose book is well formed but for its rings prints instead the
//! number of places of the shortest, and the other calls print nothing. With `--faults`, each call
//! prints instead what is wrong with its map or book (`src/faults.rs`):
//!
//!     NUMBER ROW ROWS KINDS RIVALS
//!
//! NUMBER and ROW are those of the refusal, 0 0 where there is none; ROWS is the book's count;
//! KINDS are the numbers of all checks that do not hold, each asked on its own, with + between
//! them (- for none); RIVALS is how many broken tickets are stored before the one that a 14 names,
//! or how many other places are overfull at a 15. With `--error N` a rule is misread
//! (`src/misread.rs`).

mod barn;
mod desk;
mod faults;
mod faulty;
mod misread;
mod plan;

use barn::*;
use desk::number;
use faults::*;
use plan::Seconds;
use std::io::{self, Read, Write};
use std::process::exit;

const PACKED_ROW: usize = 11;

/// The map of a slice, or none where the length is not the one its counts give.
fn map_of(slice: &[u8]) -> Option<Map> {
    let counts = slice.get(..4)?;
    let places = number(&counts[..2]) as usize;
    let links = number(&counts[2..]) as usize;
    if slice.len() != 4 + 3 * places + 2 * links {
        return None;
    }
    let (first, second) = slice[4..].split_at(3 * places);
    Some(Map {
        places: first.chunks(3).map(|at| Place { capacity: at[0] as u32, duration: number(&at[1..]) }).collect(),
        links: second.chunks(2).map(|at| (at[0] as usize, at[1] as usize)).collect(),
    })
}

/// The book of a slice, or none where the length is not the one its count gives.
fn book_of(slice: &[u8]) -> Option<Book> {
    let head = slice.get(..5)?;
    let count = number(&head[3..]) as usize;
    if slice.len() != 5 + PACKED_ROW * count {
        return None;
    }
    let rows = slice[5..].chunks(PACKED_ROW).map(|at| Row {
        place: at[0] as usize,
        entry: number(&at[1..4]),
        ticket: number(&at[4..7]),
        exit: number(&at[7..10]),
        next: at[10] as usize,
    });
    Some(Book { next_ticket: number(&head[..3]), rows: rows.collect() })
}

/// The rows of a call that is done, with its arrival or "more"; or its refusal.
type Answer = Result<(u64, Vec<Row>), Refusal>;

/// The map and the book of a call, or what is wrong with them.
fn lent(map: &[u8], book: &[u8], error: Option<u32>) -> Result<(Map, Book), Refusal> {
    let map = map_of(map).filter(|map| map.keeps_rules()).ok_or((BAD_MAP, 0))?;
    let book = book_of(book).ok_or((BAD_BOOK, (error == Some(12)) as usize))?;
    let fault = match error {
        Some(error) => misread::first_fault(&map, &book, error),
        None => first_fault(&map, &book),
    };
    match fault {
        Some(refusal) => Err(refusal),
        None => Ok((map, book)),
    }
}

fn plan(seconds: &mut Seconds, map: &Map, book: &Book, asked: &[u64], room: u64) -> Answer {
    let n = map.places.len() as u64;
    if asked[0] >= n || asked[1] >= n {
        return Err((NOT_A_PLACE, 0));
    }
    if asked[2] > DAY as u64 {
        return Err((LATE_SECOND, 0));
    }
    let rows = seconds
        .plan(map, &book.rows, asked[0] as usize, asked[1] as usize, asked[2] as u32)
        .ok_or((NO_PLAN, 0))?;
    if room < rows.len() as u64 {
        return Err((SHORT_LIST, 0));
    }
    Ok((rows[rows.len() - 1].exit as u64, rows))
}

fn page(map: &Map, book: &Book, asked: &[u64], room: u64) -> Answer {
    let size = asked[0];
    if size == 0 || size > MOST_ON_PAGE as u64 {
        return Err((BAD_PAGE_SIZE, 0));
    }
    if asked[1] >= map.places.len() as u64 || asked[2] > DAY as u64 || asked[3] > LAST_TICKET as u64 {
        return Err((BAD_CURSOR, 0));
    }
    if room < size {
        return Err((SHORT_LIST, 0));
    }
    let cursor = (asked[1] as usize, asked[2] as u32, asked[3] as u32);
    let mut rows: Vec<Row> = book.rows.iter().filter(|row| row.key() > cursor).copied().collect();
    let more = rows.len() as u64 > size;
    rows.truncate(size as usize);
    Ok((more as u64, rows))
}

fn slice(word: &str) -> Vec<u8> {
    if word == "-" {
        return Vec::new();
    }
    desk::bytes(word.as_bytes()).expect("a slice in hexadecimal")
}

/// The places of the shortest ring of a book that is refused for rings alone.
fn ring_alone(map: &[u8], book: &[u8]) -> Option<usize> {
    let map = map_of(map).filter(|map| map.keeps_rules())?;
    let book = book_of(book).filter(|book| well_formed_but_for_rings(&map, book))?;
    shortest_ring(&book)
}

/// What is wrong with a call's map or book, as a line of `--faults`.
fn faults_line(map: &[u8], book: &[u8]) -> String {
    let (number, row) = lent(map, book, None).err().unwrap_or((DONE, 0));
    let count = book_of(book).map_or(0, |book| book.rows.len());
    let (kinds, rivals) = match (map_of(map).filter(|map| map.keeps_rules()), book_of(book)) {
        (Some(map), Some(book)) => (kinds(&map, &book), rivals(&map, &book.rows, (number, row))),
        _ => (vec![number], 0),
    };
    let kinds: Vec<String> = kinds.iter().map(|number| number.to_string()).collect();
    let kinds = if kinds.is_empty() { "-".to_string() } else { kinds.join("+") };
    format!("{} {} {} {} {}", number, row, count, kinds, rivals)
}

fn answer_line(seconds: &mut Seconds, words: &[&str], error: Option<u32>) -> Answer {
    let (map, book) = lent(&slice(words[1]), &slice(words[2]), error)?;
    let numbers: Vec<u64> = words[3..].iter().map(|word| word.parse().expect("a number")).collect();
    let (length, asked) = numbers.split_last().expect("the length of the answer slice");
    let room = length / PACKED_ROW as u64;
    match words[0] {
        "plan" => plan(seconds, &map, &book, asked, room),
        "page" => page(&map, &book, asked, room),
        _ => panic!("neither plan nor page"),
    }
}

/// What is printed for each call.
enum Print {
    Answer(Option<u32>),
    Rings,
    Faults,
}

fn asked() -> Print {
    let words: Vec<String> = std::env::args().skip(1).collect();
    let words: Vec<&str> = words.iter().map(|word| word.as_str()).collect();
    match words[..] {
        [] => Print::Answer(None),
        ["--rings"] => Print::Rings,
        ["--faults"] => Print::Faults,
        ["--error", number] => match number.parse() {
            Ok(number) if number == 0 || misread::FIRST <= number && number <= misread::LAST => Print::Answer(Some(number)),
            _ => usage(),
        },
        _ => usage(),
    }
}

fn usage() -> ! {
    eprintln!("usage: portal [--rings | --faults | --error 0|{}..{}]", misread::FIRST, misread::LAST);
    exit(2)
}

fn main() -> io::Result<()> {
    let print = asked();
    let mut input = String::new();
    io::stdin().lock().read_to_string(&mut input)?;
    let mut out = io::BufWriter::new(io::stdout().lock());
    let mut seconds = Seconds::new();
    for line in input.lines() {
        let words: Vec<&str> = line.split(' ').collect();
        match print {
            Print::Rings => {
                if let Some(places) = ring_alone(&slice(words[1]), &slice(words[2])) {
                    writeln!(out, "{}", places)?;
                }
            }
            Print::Faults => writeln!(out, "{}", faults_line(&slice(words[1]), &slice(words[2])))?,
            Print::Answer(error) => match answer_line(&mut seconds, &words, error) {
                Err((number, row)) => writeln!(out, "{}", ((number as u64) << 32) + row as u64)?,
                Ok((value, rows)) => {
                    writeln!(out, "{}", value * 2_048 + rows.len() as u64)?;
                    for row in &rows {
                        writeln!(out, "{}", desk::line(row))?;
                    }
                }
            },
        }
    }
    out.flush()
}
