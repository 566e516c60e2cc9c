//! Runs the portal and the plain peer on the same scenarios, and `lanebook` and the peer's frame program on the same frames.
//!
//!     bench check [LANEBOOK PEER FRAMES]            every answer agrees, to damaged slices too
//!     bench time REPORT RUN [LANEBOOK PEER FRAMES]  the same, and medians, also written to the file REPORT; RUN is a line of
//!                                                   its head that says what was measured where and when
//!     bench repeat SCENARIO ROUNDS                  the portal alone on one scenario, for a profile
//!     bench frames COUNT                            prints mixed frames
//!     bench literal SMALL LARGE                     the peer's refusals beside a slow and literal check, on so many small books
//!                                                   and so many damaged ones of each scenario
//!
//! With `DIFFERING` in the environment answers that differ are counted and don't end the program.

mod barn;
mod broken;
mod calls;
mod clock;
mod damage;
mod desk;
#[path = "../../peer/src/dice.rs"]
mod dice;
mod fault;
mod literal;
mod plan;
mod rings;
mod scenes;
mod traffic;

use barn::{BAD_MAP, PACKED_ROW};
use broken::Broken;
use dice::Dice;
use scenes::{Call, Scene};
use std::collections::BTreeMap;
use std::fs::File;
use std::hint::black_box;
use std::io::{self, Write};
use std::process::{exit, Command, Stdio};

const SEED: u64 = 2_026;
const LIST: usize = 1_280 * PACKED_ROW;
/// So many damaged slices a scenario.
const DAMAGED: usize = 800;
/// So many small books.
const SMALL: usize = 4_000;
/// A broken book is to be refused within so many times the time of a sound one.
const MOST_BY_SOUND: f64 = 12.0;
const ROUNDS: usize = 201;
const PROGRAM_ROUNDS: usize = 5;
/// A turn of one side takes about so many nanoseconds, so that few turns are cut in two.
const TURN: f64 = 400_000.0;

extern "C" {
    fn lanebook_plan(
        map: *const u8, map_len: usize, book: *const u8, book_len: usize, start: u32, destination: u32, second: u32,
        answer: *mut u8, answer_len: usize,
    ) -> u64;
    fn lanebook_page(
        map: *const u8, map_len: usize, book: *const u8, book_len: usize, size: u32, place: u32, entry: u32, ticket: u32,
        answer: *mut u8, answer_len: usize,
    ) -> u64;
}

/// The calls of a library before, linked in under these names where the bench is built with `BEFORE`.
#[cfg(before)]
extern "C" {
    fn before_plan(
        map: *const u8, map_len: usize, book: *const u8, book_len: usize, start: u32, destination: u32, second: u32,
        answer: *mut u8, answer_len: usize,
    ) -> u64;
    fn before_page(
        map: *const u8, map_len: usize, book: *const u8, book_len: usize, size: u32, place: u32, entry: u32, ticket: u32,
        answer: *mut u8, answer_len: usize,
    ) -> u64;
}

type Side = fn(&[u8], &[u8], Call, &mut [u8]) -> u64;

#[cfg(before)]
const BEFORE: Option<Side> = Some(before);
#[cfg(not(before))]
const BEFORE: Option<Side> = None;

#[inline(never)]
fn portal(map: &[u8], book: &[u8], call: Call, answer: &mut [u8]) -> u64 {
    let (m, k, b, c, a, l) = (map.as_ptr(), map.len(), book.as_ptr(), book.len(), answer.as_mut_ptr(), answer.len());
    match call {
        Call::Plan { start, destination, second } => unsafe { lanebook_plan(m, k, b, c, start, destination, second, a, l) },
        Call::Page { size, place, entry, ticket } => unsafe { lanebook_page(m, k, b, c, size, place, entry, ticket, a, l) },
    }
}

#[cfg(before)]
#[inline(never)]
fn before(map: &[u8], book: &[u8], call: Call, answer: &mut [u8]) -> u64 {
    let (m, k, b, c, a, l) = (map.as_ptr(), map.len(), book.as_ptr(), book.len(), answer.as_mut_ptr(), answer.len());
    match call {
        Call::Plan { start, destination, second } => unsafe { before_plan(m, k, b, c, start, destination, second, a, l) },
        Call::Page { size, place, entry, ticket } => unsafe { before_page(m, k, b, c, size, place, entry, ticket, a, l) },
    }
}

#[inline(never)]
fn peer(map: &[u8], book: &[u8], call: Call, answer: &mut [u8]) -> u64 {
    match call {
        Call::Plan { start, destination, second } => calls::plan(map, book, start, destination, second, answer),
        Call::Page { size, place, entry, ticket } => calls::page(map, book, size, place, entry, ticket, answer),
    }
}

/// What a side and the peer say where they differ.
struct Difference {
    /// The refusal numbers of both.
    numbers: [u64; 2],
    text: String,
}

/// The peer's result, and what both say where a side differs from it in the result or in a byte of the list.
fn compared(side: Side, map: &[u8], book: &[u8], call: Call, length: usize) -> (u64, Option<Difference>) {
    let mut ours = vec![0xA5u8; LIST];
    let mut theirs = ours.clone();
    let one = side(map, book, call, &mut ours[..length]);
    let other = peer(map, book, call, &mut theirs[..length]);
    let differ = one != other || ours != theirs;
    let text = || format!("with a list of {} bytes: library {:#x}, peer {:#x}", length, one, other);
    (other, differ.then(|| Difference { numbers: [one >> 32, other >> 32], text: text() }))
}

/// Where a side and the peer differ, on any call and with lists long and short: each such call.
fn disagreements(side: Side, scene: &Scene) -> Vec<Difference> {
    let differs = |(i, &call): (usize, &Call)| {
        [LIST, 5 * PACKED_ROW + 3, 0].iter().find_map(|&length| {
            let Difference { numbers, text } = compared(side, &scene.map, &scene.book, call, length).1?;
            Some(Difference { numbers, text: format!("{}: call {} {}", scene.name, i, text) })
        })
    };
    scene.calls.iter().enumerate().filter_map(differs).collect()
}

/// How many answers came by each number.
type Counts = [usize; 17];

/// What came of slices on which the portal and the peer were compared.
struct Compared {
    counts: Counts,
    /// Where they differ.
    wrong: Vec<Difference>,
}

impl Compared {
    fn new() -> Compared {
        Compared { counts: [0; 17], wrong: Vec::new() }
    }

    fn compare(&mut self, name: &str, i: usize, map: &[u8], book: &[u8], call: Call) {
        let (result, what) = compared(portal, map, book, call, LIST);
        self.counts[(result >> 32) as usize] += 1;
        if let Some(Difference { numbers, text }) = what {
            self.wrong.push(Difference { numbers, text: format!("{}: slices {} {}", name, i, text) });
        }
    }
}

fn damaged(scene: &Scene) -> Compared {
    let mut dice = Dice::new(SEED);
    let mut got = Compared::new();
    for i in 0..DAMAGED {
        let (map, book) = damage::damaged(&mut dice, scene);
        got.compare(&scene.name, i, &map, &book, dice.pick(&scene.calls));
    }
    got
}

/// A plan and a page of each of the small books.
fn small() -> Compared {
    let mut dice = Dice::new(SEED);
    let mut got = Compared::new();
    for i in 0..SMALL {
        let (map, book) = damage::small(&mut dice);
        for call in [Call::Page { size: 8, place: 0, entry: 0, ticket: 0 }, Call::Plan { start: 0, destination: 1, second: 0 }] {
            got.compare("small books", i, &map, &book, call);
        }
    }
    got
}

/// How often each number came, in words.
fn counted(counts: &Counts) -> String {
    let came = counts.iter().enumerate().filter(|(_, count)| **count > 0);
    came.map(|(number, count)| format!("{} by {}", count, number)).collect::<Vec<_>>().join(", ")
}

/// Compares all answers. With `DIFFERING` set, for a library of other rules, those that differ are only counted.
fn check(scenes: &[Scene], broken: &[Broken]) {
    let mut all = Compared::new();
    let mut tell = |name: &str, on_calls: Vec<Difference>, got: Compared| {
        if let Some(first) = on_calls.first().or(got.wrong.first()) {
            println!("{}", first.text);
            println!("{}: {} calls and {} on damaged slices differ", name, on_calls.len(), got.wrong.len());
        }
        all.counts.iter_mut().zip(got.counts).for_each(|(sum, count)| *sum += count);
        all.wrong.extend(on_calls.into_iter().chain(got.wrong));
    };
    for scene in scenes {
        tell(&scene.name, disagreements(portal, scene), damaged(scene));
    }
    let pages: Vec<&Scene> = broken.iter().flat_map(|broken| [&broken.scene, &broken.sound]).collect();
    for scene in &pages {
        tell(&scene.name, disagreements(portal, scene), Compared::new());
    }
    tell("small books", Vec::new(), small());
    let mut pairs = BTreeMap::new();
    all.wrong.iter().for_each(|what| *pairs.entry(what.numbers).or_insert(0) += 1);
    for ([ours, theirs], count) in &pairs {
        println!("library {} and peer {}: {} times", ours, theirs, count);
    }
    if !all.wrong.is_empty() && std::env::var_os("DIFFERING").is_none() {
        exit(1);
    }
    let both: Vec<&Scene> = scenes.iter().chain(pages).collect();
    let calls: usize = both.iter().map(|scene| scene.calls.len()).sum();
    let agree = match all.wrong.len() {
        0 => "all answers agree".to_string(),
        wrong => format!("all answers but {} agree", wrong),
    };
    println!("{} scenarios and {} broken books beside sound ones, {} calls; {} calls on damaged slices and {} on small books, \
        answered {}: {}", scenes.len(), broken.len(), calls, scenes.len() * DAMAGED, 2 * SMALL, counted(&all.counts), agree);
    if let Some(before) = BEFORE {
        let differing: usize = both.iter().map(|scene| disagreements(before, scene).len()).sum();
        println!("the library before: {} calls of {} are answered in another way", differing, calls);
    }
}

/// Compares the peer's refusals with those of the literal check, by both calls.
fn check_literally(small: usize, large: usize) {
    let mut counts = [0; 17];
    let mut compare = |name: &str, map: &[u8], book: &[u8]| {
        let page = calls::page(map, book, 0, 0, 0, 0, &mut []);
        let plan = calls::plan(map, book, u32::MAX, 0, 0, &mut []);
        if page >> 32 == BAD_MAP as u64 {
            return;
        }
        let want = literal::fault(map, book);
        let [paged, planned] = want.map_or([10 << 32, 3 << 32], |(number, row)| [number << 32 | row; 2]);
        if page != paged || plan != planned {
            println!("{}: literally {:?}, page {:#x}, plan {:#x}", name, want, page, plan);
            std::fs::write("bench/target/differing.map", map).expect("the map is written");
            std::fs::write("bench/target/differing.book", book).expect("the book is written");
            exit(1);
        }
        counts[want.map_or(0, |(number, _)| number as usize)] += 1;
    };
    let mut dice = Dice::new(SEED);
    for _ in 0..small {
        let (map, book) = damage::small(&mut dice);
        compare("small books", &map, &book);
    }
    let scenes = scenes::all(SEED);
    for scene in &scenes {
        for _ in 0..large {
            let (map, book) = damage::damaged(&mut dice, scene);
            compare(&scene.name, &map, &book);
        }
    }
    for Broken { scene, sound, .. } in broken::all(&scenes) {
        compare(&scene.name, &scene.map, &scene.book);
        compare(&sound.name, &sound.map, &sound.book);
    }
    println!("the peer and the literal check agree: {}", counted(&counts));
}

/// Nanoseconds a call, over `repeat` rounds of the scene's calls.
fn turn(side: Side, scene: &Scene, repeat: usize, answer: &mut [u8]) -> f64 {
    let begin = clock::own();
    for _ in 0..repeat {
        for &call in &scene.calls {
            black_box(side(black_box(&scene.map), black_box(&scene.book), call, answer));
        }
    }
    (clock::own() - begin) / (repeat * scene.calls.len()) as f64
}

/// A side's median, and the distance of its quartiles as a part of the median.
struct Figure {
    median: f64,
    spread: f64,
}

impl Figure {
    fn of(times: Vec<f64>) -> Figure {
        let (median, quartiles) = clock::median(times);
        Figure { median, spread: quartiles / median }
    }
}

/// The greatest spread of all sides, in parts of a hundred.
fn spread(figures: &[Figure]) -> f64 {
    figures.iter().map(|figure| figure.spread * 100.0).fold(0.0, f64::max)
}

/// Times sides, each on a scene, in alternation.
fn timed(sides: &[(Side, &Scene)]) -> Vec<Figure> {
    let mut answer = vec![0u8; LIST];
    let repeats: Vec<usize> = sides
        .iter()
        .map(|&(side, scene)| {
            let once = turn(side, scene, 1, &mut answer).min(turn(side, scene, 1, &mut answer));
            ((TURN / once) as usize / scene.calls.len()).max(1)
        })
        .collect();
    let mut times = vec![Vec::new(); sides.len()];
    for _ in 0..ROUNDS {
        for (at, &(side, scene)) in sides.iter().enumerate() {
            times[at].push(turn(side, scene, repeats[at], &mut answer));
        }
    }
    times.into_iter().map(Figure::of).collect()
}

/// Prints a line and keeps it for the report.
fn say(report: &mut String, line: String) {
    println!("{}", line);
    report.push_str(&line);
    report.push('\n');
}

/// Two columns more where there is a library before: its times, and the portal's by them.
fn table(scenes: &[Scene], report: &mut String) {
    let (names, rule) = if BEFORE.is_some() { (" Before, µs | By before |", "--:|--:|") } else { ("", "") };
    say(report, format!("| Scenario | Places | Links | Rows | Portal, µs | Peer, µs | Ratio |{} Spread |", names));
    say(report, format!("|---|--:|--:|--:|--:|--:|--:|{}--:|", rule));
    for scene in scenes {
        let mut sides: Vec<(Side, &Scene)> = vec![(portal, scene), (peer, scene)];
        sides.extend(BEFORE.map(|before| (before, scene)));
        let got = timed(&sides);
        let (ours, peer) = (got[0].median / 1e3, got[1].median / 1e3);
        let size = format!("{} | {} | {}", scene.places, scene.links, scene.rows);
        let mut times = format!("{:.2} | {:.2} | {:.2}", ours, peer, ours / peer);
        if let Some(before) = got.get(2) {
            let before = before.median / 1e3;
            times.push_str(&format!(" | {:.2} | {:.2}", before, ours / before));
        }
        say(report, format!("| {} | {} | {} | {:.0} % |", scene.name, size, times, spread(&got)));
    }
}

/// Broken books, each beside the sound one that it was made from.
fn broken_table(broken: &[Broken], report: &mut String) {
    let (names, rule) = if BEFORE.is_some() { (" Before, µs | By before |", "--:|--:|") } else { ("", "") };
    say(report, format!("| Broken book | Number | Row | Portal, µs | Sound, µs | By sound | Peer, µs |{} Spread |", names));
    say(report, format!("|---|--:|--:|--:|--:|--:|--:|{}--:|", rule));
    let mut most: f64 = 0.0;
    for Broken { scene, sound, number, row } in broken {
        let mut sides: Vec<(Side, &Scene)> = vec![(portal, scene), (portal, sound), (peer, scene)];
        sides.extend(BEFORE.map(|before| (before, scene)));
        let got = timed(&sides);
        let (ours, sound, peer) = (got[0].median / 1e3, got[1].median / 1e3, got[2].median / 1e3);
        most = most.max(ours / sound);
        let mut times = format!("{:.2} | {:.2} | {:.2} | {:.2}", ours, sound, ours / sound, peer);
        if let Some(before) = got.get(3) {
            let before = before.median / 1e3;
            times.push_str(&format!(" | {:.2} | {:.2}", before, ours / before));
        }
        say(report, format!("| {} | {} | {} | {} | {:.0} % |", scene.name, number, row, times, spread(&got)));
    }
    say(report, format!("\nThe dearest takes {:.2} times as long as a sound book; the limit is {}.", most, MOST_BY_SOUND));
}

/// What a program prints on a file of frames, and the processor time it took.
fn ran(program: &str, words: &[&str], frames: &str) -> (Vec<u8>, f64) {
    let input = File::open(frames).expect("the file of frames");
    let begin = clock::children();
    let ended = Command::new(program).args(words).stdin(input).stderr(Stdio::inherit()).output().expect("a program");
    if !ended.status.success() {
        println!("{} failed", program);
        exit(1);
    }
    (ended.stdout, clock::children() - begin)
}

fn check_frames(lanebook: &str, peer: &str, frames: &str) {
    let want = ran(peer, &[], frames).0;
    if ran(lanebook, &[], frames).0 != want || ran(peer, &["--testing"], frames).0 != want {
        println!("the answers to {} differ", frames);
        exit(1);
    }
    let lines = want.iter().filter(|&&byte| byte == b'\n').count();
    println!("frames: all {} lines of answers agree", lines);
}

/// Times `lanebook` and both forms of the peer in alternation.
fn frame_table(lanebook: &str, peer: &str, frames: &str, report: &mut String) {
    let count = std::fs::read(frames).expect("the file of frames").iter().filter(|&&byte| byte == b'\n').count();
    let (mut ours, mut plain, mut testing) = (Vec::new(), Vec::new(), Vec::new());
    for _ in 0..PROGRAM_ROUNDS {
        ours.push(ran(lanebook, &[], frames).1 / count as f64);
        plain.push(ran(peer, &[], frames).1 / count as f64);
        testing.push(ran(peer, &["--testing"], frames).1 / count as f64);
    }
    say(report, format!("| {} mixed frames | lanebook, µs a frame | Peer, µs a frame | Ratio | Spread |", count));
    say(report, "|---|--:|--:|--:|--:|".to_string());
    for (name, times) in [("peer as it is", plain), ("peer that tests map and book at each question", testing)] {
        let got = [Figure::of(ours.clone()), Figure::of(times)];
        let (ours, peer) = (got[0].median / 1e3, got[1].median / 1e3);
        say(report, format!("| {} | {:.2} | {:.2} | {:.2} | {:.0} % |", name, ours, peer, ours / peer, spread(&got)));
    }
}

const HEAD: &str = "# Figures

Written by `bench/run`. The portal's static library beside a plain Rust program that does the same work on the same slices,
map and book tested at each call: medians of the processor time of a call, all sides in alternation in one run, every answer
compared. Ratio is portal by peer; spread is the distance of the quartiles as a part of the median, the greatest of all sides.

Where the linker puts the library's code counts too: the same library was up to a quarter slower at 32 mod 64 than at 0, 16 or
48. Compare only figures of one placement.
";

const BROKEN_HEAD: &str = "
## Broken books

Pages of 64 of broken books of 1,000 rows, each refused with the number and row given. Sound is the same page of the same book
before it was broken, and by sound is portal by that. Late and early say where in the book the fault lies.
";

const FRAMES_HEAD: &str = "
## Frames

The program `lanebook` beside the peer's own frame program on one file, processor time with that of the system. The peer as
it is tests neither map nor book again once it has them.
";

fn time(report: &str, run: &str, scenes: &[Scene], broken: &[Broken], programs: &[&str]) {
    let mut text = String::from(HEAD);
    text.push('\n');
    say(&mut text, format!("{}\n", run));
    say(&mut text, format!("In this run planning's code begins at {} mod 64.\n", lanebook_plan as *const () as usize % 64));
    #[cfg(before)]
    say(&mut text, format!("Before is the library before, whose planning begins at {} mod 64.\n", before_plan as *const () as usize % 64));
    table(scenes, &mut text);
    text.push_str(BROKEN_HEAD);
    text.push('\n');
    println!();
    broken_table(broken, &mut text);
    if let &[lanebook, peer, frames] = programs {
        text.push_str(FRAMES_HEAD);
        text.push('\n');
        println!();
        frame_table(lanebook, peer, frames, &mut text);
    }
    std::fs::write(report, text).expect("the report is written");
}

fn main() -> io::Result<()> {
    let words: Vec<String> = std::env::args().skip(1).collect();
    let words: Vec<&str> = words.iter().map(String::as_str).collect();
    match words[..] {
        ["check", ref programs @ ..] | ["time", _, _, ref programs @ ..] if [0, 3].contains(&programs.len()) => {
            let scenes = scenes::all(SEED);
            let broken = broken::all(&scenes);
            check(&scenes, &broken);
            if let &[lanebook, peer, frames] = programs {
                check_frames(lanebook, peer, frames);
            }
            if words[0] == "time" {
                time(words[1], words[2], &scenes, &broken, programs);
            }
        }
        ["repeat", name, rounds] => {
            let scenes = scenes::all(SEED);
            let broken = broken::all(&scenes);
            let mut both = scenes.iter().chain(broken.iter().map(|broken| &broken.scene));
            let scene = both.find(|scene| scene.name.starts_with(name)).expect("a scenario's name");
            turn(portal, scene, rounds.parse().expect("a number of rounds"), &mut [0u8; LIST]);
        }
        ["frames", count] => {
            let frames = traffic::frames(SEED, count.parse().expect("a number of frames"));
            io::stdout().lock().write_all(&frames)?;
        }
        ["literal", small, large] => {
            check_literally(small.parse().expect("a number of books"), large.parse().expect("a number of books"));
        }
        _ => {
            eprintln!("usage: bench check | time REPORT RUN | repeat SCENARIO ROUNDS | frames COUNT | literal SMALL LARGE");
            exit(2);
        }
    }
    Ok(())
}
