//! The peer's own frame program: answers the frames of standard input. With `--testing` it tests map and book at each
//! question, as the calls do.

mod barn;
mod desk;
mod plan;

use std::io::{self, BufRead, Write};

fn main() -> io::Result<()> {
    let mut desk = desk::Desk::new(std::env::args().any(|word| word == "--testing"));
    let mut input = io::BufReader::with_capacity(1 << 16, io::stdin().lock());
    let mut output = io::BufWriter::with_capacity(1 << 16, io::stdout().lock());
    let (mut line, mut said) = (Vec::new(), Vec::new());
    while input.read_until(b'\n', &mut line)? > 0 {
        if line.last() == Some(&b'\n') {
            line.pop();
        }
        desk.answer(&line, &mut said);
        output.write_all(&said)?;
        line.clear();
        said.clear();
    }
    output.flush()
}
