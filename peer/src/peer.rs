//! The independent program: reads frames, answers each line.
//! `--error N` answers with one of the errors we have seen; `--check` stops where the book is
//! not well formed after a frame.

mod barn;
mod desk;
mod faults;
mod faulty;
mod plan;

use std::io::{self, BufWriter, Read, Write};
use std::process::exit;

fn asked() -> (desk::Error, bool) {
    let words: Vec<String> = std::env::args().skip(1).collect();
    let words: Vec<&str> = words.iter().map(|word| word.as_str()).collect();
    match words[..] {
        [] => (None, false),
        ["--check"] => (None, true),
        ["--error", number] => match number.parse() {
            Ok(number) if number <= 8 => (Some(number), false),
            _ => usage(),
        },
        _ => usage(),
    }
}

fn usage() -> ! {
    eprintln!("usage: peer [--check | --error 0..8]");
    exit(2)
}

fn main() -> io::Result<()> {
    let (error, check) = asked();
    let mut desk = desk::Desk::new(error);
    let mut input = Vec::new();
    io::stdin().lock().read_to_end(&mut input)?;
    let mut out = BufWriter::new(io::stdout().lock());
    for line in desk::split(&input) {
        out.write_all(desk.answer(line).as_bytes())?;
        if check && desk.map.keeps_rules() && !faults::well_formed(&desk.map, &desk.book) {
            out.flush()?;
            eprintln!("the book is not well formed");
            exit(1);
        }
    }
    out.flush()
}
