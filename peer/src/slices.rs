//! Writes random calls of the portal. The seed decides everything.
//!
//! The kind `calls`, where none is named: most calls stand beside a book that is well formed or
//! nearly so. `sweep`: one sound map and book, then each length of each slice, each byte
//! changed, counts that lie, and each number at and past its range. `limits`: as many places,
//! links, rows and steps as there may be, and one more. `rings`: books of up to 1,000 rows with a
//! ring of crossings in one second, and the same books with a ring that is nearly closed.
//! `faults`: sound books, one of 1,024 rows, damaged so that the refusals 2 and 13 to 16 come with
//! many different rows, also several faults in one book (`src/damage.rs`).

mod barn;
mod damage;
mod desk;
mod dice;
mod faults;
mod faulty;
mod plan;

use barn::{Book, Map, Place, Row, DAY, LAST_TICKET};
use dice::Dice;
use plan::Seconds;
use std::io::{self, Write};
use std::process::exit;

fn hex(bytes: &[u8]) -> String {
    if bytes.is_empty() {
        return "-".to_string();
    }
    bytes.iter().map(|byte| format!("{:02X}", byte)).collect()
}

fn push(slice: &mut Vec<u8>, number: u32, bytes: usize) {
    slice.extend_from_slice(&number.to_be_bytes()[4 - bytes..]);
}

fn map_slice(map: &Map) -> Vec<u8> {
    let mut slice = Vec::new();
    push(&mut slice, map.places.len() as u32, 2);
    push(&mut slice, map.links.len() as u32, 2);
    for place in &map.places {
        push(&mut slice, place.capacity, 1);
        push(&mut slice, place.duration, 2);
    }
    for &(from, to) in &map.links {
        push(&mut slice, from as u32, 1);
        push(&mut slice, to as u32, 1);
    }
    slice
}

fn book_slice(book: &Book) -> Vec<u8> {
    let mut slice = Vec::new();
    push(&mut slice, book.next_ticket, 3);
    push(&mut slice, book.rows.len() as u32, 2);
    for row in &book.rows {
        push(&mut slice, row.place as u32, 1);
        push(&mut slice, row.entry, 3);
        push(&mut slice, row.ticket, 3);
        push(&mut slice, row.exit, 3);
        push(&mut slice, row.next as u32, 1);
    }
    slice
}

fn some_map(dice: &mut Dice) -> Map {
    let n = dice.among(1, 6);
    let longest = dice.pick(&[2, 5, 12]);
    let places = (0..n)
        .map(|_| Place { capacity: dice.pick(&[1, 1, 2]), duration: dice.among(1, longest) as u32 })
        .collect();
    let mut map = Map { places, links: Vec::new() };
    for from in 0..n {
        for to in 0..n {
            if from != to && dice.chance(60) {
                map.links.push((from, to));
            }
        }
    }
    map
}

/// Runs booked one after the other; with `blind`, each as if the book were empty, so that load
/// or exchange may break although each run is whole.
fn some_book(dice: &mut Dice, seconds: &mut Seconds, map: &Map, blind: bool) -> Book {
    let mut book = Book::new();
    for _ in 0..dice.below(8) {
        let (start, destination) = (dice.below(map.places.len()), dice.below(map.places.len()));
        let mut second = dice.below(30) as u32;
        if dice.chance(10) {
            second = DAY - second;
        }
        let beside: &[Row] = if blind { &[] } else { &book.rows };
        if let Some(plan) = seconds.plan(map, beside, start, destination, second) {
            let ticket = book.next_ticket;
            book.rows.extend(plan.iter().map(|row| Row { ticket, ..*row }));
            book.rows.sort_by_key(|row| row.key());
            book.next_ticket += 1 + dice.below(2) as u32;
        }
    }
    if dice.chance(10) {
        book.next_ticket = LAST_TICKET + 1;
    }
    book
}

/// Changes one thing of the map; now and then the change breaks no rule.
fn damage_map(dice: &mut Dice, map: &mut Map) {
    let n = map.places.len();
    let at = dice.below(n);
    match dice.below(9) {
        0 => map.places.clear(),
        1 => map.places[at].capacity = dice.pick(&[0, 16, 17, 255]),
        2 => map.places[at].duration = dice.pick(&[0, 3_600, 3_601, 65_535]),
        3 => map.links.push((at, at)),
        4 => map.links.push((at, n)),
        5 => map.links.push((n, at)),
        6 => map.links.extend_from_within(..map.links.len().min(1)),
        7 => map.places.resize(dice.pick(&[256, 257]), Place { capacity: 1, duration: 1 }),
        _ => map.links.resize(dice.pick(&[1_024, 1_025]), (0, n - 1)),
    }
}

/// Changes one thing of the book; now and then it stays well formed.
fn damage_book(dice: &mut Dice, book: &mut Book, n: usize) {
    let count = book.rows.len();
    if count == 0 {
        book.next_ticket = dice.pick(&[0, 1, LAST_TICKET + 1, LAST_TICKET + 2, 0xFF_FFFF]);
        return;
    }
    let at = dice.below(count);
    match dice.below(15) {
        0 => book.next_ticket = dice.pick(&[0, LAST_TICKET + 2, 0xFF_FFFF]),
        1 => book.next_ticket = book.rows[at].ticket,
        2 => book.rows[at].ticket = 0,
        3 => book.rows[at].ticket += 1,
        4 => book.rows[at].entry += 1,
        5 => book.rows[at].exit += 1,
        6 => book.rows[at].exit -= 1,
        7 => book.rows[at].next = dice.below(n + 1),
        8 => book.rows[at].place = dice.below(n + 1),
        9 => {
            book.rows.remove(at);
        }
        10 => book.rows.insert(at, book.rows[at]),
        11 => book.rows.swap(at, count - 1),
        12 => {
            let ticket = book.rows[at].ticket;
            book.rows.retain(|row| row.ticket != ticket);
        }
        13 => {
            // The same run once more under the next ticket.
            let run: Vec<Row> = book.rows.iter().filter(|row| row.ticket == book.rows[at].ticket).copied().collect();
            let ticket = book.next_ticket;
            book.rows.extend(run.iter().map(|row| Row { ticket, ..*row }));
            book.rows.sort_by_key(|row| row.key());
            book.next_ticket += 1;
        }
        _ => {
            book.rows[at].exit = DAY + 1;
        }
    }
}

fn damage_length(dice: &mut Dice, slice: &mut Vec<u8>) {
    match dice.below(5) {
        0 => slice.clear(),
        1 => slice.push(0),
        2 => slice.truncate(dice.below(slice.len() + 1)),
        3 => slice.extend_from_slice(&[0; 11]),
        _ => {
            let at = dice.below(4.min(slice.len()));
            slice[at] = slice[at].wrapping_add(1);
        }
    }
}

fn calls(dice: &mut Dice, out: &mut impl Write) -> io::Result<()> {
    let mut seconds = Seconds::new();
    for _ in 0..40 {
        let mut map = some_map(dice);
        let n = map.places.len();
        let blind = dice.chance(30);
        let mut book = some_book(dice, &mut seconds, &map, blind);
        if dice.chance(35) {
            damage_book(dice, &mut book, n);
        }
        if dice.chance(10) {
            damage_map(dice, &mut map);
        }
        let mut map = map_slice(&map);
        let mut book = book_slice(&book);
        if dice.chance(4) {
            damage_length(dice, &mut map);
        }
        if dice.chance(6) {
            damage_length(dice, &mut book);
        }
        let place = |dice: &mut Dice| if dice.chance(5) { dice.pick(&[n, 255, 256]) } else { dice.below(n) };
        if dice.chance(50) {
            let (start, destination) = (place(dice), place(dice));
            let second = if dice.chance(8) { dice.pick(&[86_390, 86_400, 86_401, 16_777_216]) } else { dice.below(40) };
            let length = dice.pick(&[0, 10, 11, 22, 32, 33, 44, 110, 14_080]);
            writeln!(out, "plan {} {} {} {} {} {}", hex(&map), hex(&book), start, destination, second, length)?;
        } else {
            let size = dice.pick(&[0, 1, 2, 3, 5, 64, 65, 255, 256]);
            let at = place(dice);
            let entry = if dice.chance(10) { dice.pick(&[86_400, 86_401, 16_777_216]) } else { dice.below(40) };
            let ticket = if dice.chance(10) { dice.pick(&[999_999, 1_000_000, 16_777_216]) } else { dice.below(8) };
            let length = dice.pick(&[0, 11, 22, 54, 55, 703, 704, 14_080]);
            writeln!(out, "page {} {} {} {} {} {} {}", hex(&map), hex(&book), size, at, entry, ticket, length)?;
        }
    }
    Ok(())
}

/// A call on slices: plan from start to destination at a second, or a page of a size after a
/// cursor; then the length of the answer slice.
#[derive(Clone, Copy)]
enum Asked {
    Plan([u64; 4]),
    Page([u64; 5]),
}

fn ask(out: &mut impl Write, map: &[u8], book: &[u8], asked: Asked) -> io::Result<()> {
    let (name, numbers): (&str, &[u64]) = match &asked {
        Asked::Plan(numbers) => ("plan", numbers),
        Asked::Page(numbers) => ("page", numbers),
    };
    write!(out, "{} {} {}", name, hex(map), hex(book))?;
    for number in numbers {
        write!(out, " {}", number)?;
    }
    writeln!(out)
}

/// Each slice that differs from this one in length or in one byte.
fn neighbours(slice: &[u8]) -> Vec<Vec<u8>> {
    let mut all: Vec<Vec<u8>> = (0..slice.len()).map(|length| slice[..length].to_vec()).collect();
    for more in 1..=12 {
        let mut longer = slice.to_vec();
        longer.resize(slice.len() + more, 0);
        all.push(longer);
    }
    for at in 0..slice.len() {
        let was = slice[at];
        for byte in [0, 255, was.wrapping_add(1), was.wrapping_sub(1)] {
            if byte != was {
                let mut other = slice.to_vec();
                other[at] = byte;
                all.push(other);
            }
        }
    }
    all
}

/// Raises or lowers the number in two bytes.
fn count_by(slice: &mut [u8], at: usize, by: i32) {
    let count = u16::from_be_bytes([slice[at], slice[at + 1]]).wrapping_add(by as u16);
    slice[at..at + 2].copy_from_slice(&count.to_be_bytes());
}

/// Maps whose length is the one their counts give, and whose counts are not those of the map.
fn lying_maps(map: &[u8]) -> Vec<Vec<u8>> {
    let mut all = Vec::new();
    // Two places are as long as three links.
    for twos in [-2, -1, 1, 2] {
        let mut other = map.to_vec();
        count_by(&mut other, 0, -2 * twos);
        count_by(&mut other, 2, 3 * twos);
        all.push(other);
    }
    for (at, size) in [(0, 3), (2, 2)] {
        let mut longer = map.to_vec();
        longer.resize(map.len() + size, 0);
        count_by(&mut longer, at, 1);
        all.push(longer);
        if map.len() >= 4 + size {
            let mut shorter = map[..map.len() - size].to_vec();
            count_by(&mut shorter, at, -1);
            all.push(shorter);
        }
    }
    all
}

fn lying_books(book: &[u8]) -> Vec<Vec<u8>> {
    let mut longer = book.to_vec();
    longer.resize(book.len() + 11, 0);
    count_by(&mut longer, 3, 1);
    let mut doubled = book.to_vec();
    doubled.extend_from_slice(&book[5..]);
    count_by(&mut doubled, 3, ((book.len() - 5) / 11) as i32);
    let mut shorter = book[..book.len() - 11].to_vec();
    count_by(&mut shorter, 3, -1);
    vec![longer, doubled, shorter]
}

fn sweep(dice: &mut Dice, out: &mut impl Write) -> io::Result<()> {
    let mut seconds = Seconds::new();
    // A sound map, a book with a run or more on it, and a run that can be planned.
    let (map, book, request, stays) = loop {
        let map = some_map(dice);
        let book = some_book(dice, &mut seconds, &map, false);
        let (start, destination) = (dice.below(map.places.len()), dice.below(map.places.len()));
        let second = dice.below(40);
        if let Some(plan) = seconds.plan(&map, &book.rows, start, destination, second as u32) {
            if !book.rows.is_empty() {
                break (map, book, [start as u64, destination as u64, second as u64], plan.len());
            }
        }
    };
    let n = map.places.len() as u64;
    let key = book.rows[dice.below(book.rows.len())].key();
    let size = dice.among(1, 8) as u64;
    let plan = [request[0], request[1], request[2], 11 * stays as u64];
    let page = [size, key.0 as u64, key.1 as u64, key.2 as u64, 11 * size];
    let (map, book) = (map_slice(&map), book_slice(&book));

    for length in 0..=plan[3] + 12 {
        ask(out, &map, &book, Asked::Plan([plan[0], plan[1], plan[2], length]))?;
    }
    for length in 0..=page[4] + 12 {
        ask(out, &map, &book, Asked::Page([page[0], page[1], page[2], page[3], length]))?;
    }
    let either = |dice: &mut Dice| if dice.chance(50) { Asked::Plan(plan) } else { Asked::Page(page) };
    for other in neighbours(&map).iter().chain(&lying_maps(&map)) {
        ask(out, other, &book, either(dice))?;
    }
    for other in neighbours(&book).iter().chain(&lying_books(&book)) {
        ask(out, &map, other, either(dice))?;
    }
    // Each number at the ends of its range, past them, and where 8, 16, 24 or 32 bits end.
    let ends = [0, 1, n - 1, n, n + 1, 63, 64, 65, 86_399, 86_400, 86_401, 999_999, 1_000_000, 1_000_001];
    let widths = [1 << 8, 1 << 16, 1 << 24, 1 << 31, 1 << 32, u64::MAX - 1_000_000];
    for at in 0..4 {
        let was = page[at];
        let wide = widths.iter().flat_map(|&width| [width - 1, width, width + was]);
        for number in ends.iter().copied().chain(wide) {
            let mut numbers = page;
            numbers[at] = number;
            numbers[4] = 704;
            ask(out, &map, &book, Asked::Page(numbers))?;
        }
    }
    for at in 0..3 {
        let was = plan[at];
        let wide = widths.iter().flat_map(|&width| [width - 1, width, width + was]);
        for number in ends.iter().copied().chain(wide) {
            let mut numbers = plan;
            numbers[at] = number;
            ask(out, &map, &book, Asked::Plan(numbers))?;
        }
    }
    // Several things wrong at once: the order of the refusals.
    let map_bad = [&map[..], &[0]].concat();
    let book_bad = [&book[..], &[0]].concat();
    for wrong in 0..32 {
        let bad = |bit: u32| wrong >> bit & 1 == 1;
        let map = if bad(0) { &map_bad } else { &map };
        let book = if bad(1) { &book_bad } else { &book };
        let choose = |bit: u32, good: u64, wrong: u64| if bad(bit) { wrong } else { good };
        let numbers = [plan[0], choose(2, plan[1], n), choose(3, plan[2], 86_401), choose(4, plan[3], 10)];
        ask(out, map, book, Asked::Plan(numbers))?;
        let numbers = [choose(2, size, 65), choose(3, page[1], n), page[2], page[3], choose(4, page[4], 11 * size - 1)];
        ask(out, map, book, Asked::Page(numbers))?;
    }
    Ok(())
}

fn limits(dice: &mut Dice, out: &mut impl Write) -> io::Result<()> {
    // A line of 256 places and other links, 1,024 in all.
    let far = |from: usize, step: usize| (from, (from + step) % 256);
    let longest = dice.among(1, 300);
    let mut map = Map {
        places: (0..256)
            .map(|_| Place { capacity: dice.pick(&[1, 2, 15, 16]), duration: dice.among(1, longest) as u32 })
            .collect(),
        links: (0..256).map(|from| far(from, 1)).collect(),
    };
    for step in [255, 128 + dice.below(16), 160 + dice.below(16)] {
        map.links.extend((0..256).map(|from| far(from, step)));
    }
    // Only the line's own links, so that a run goes through every place.
    let line = Map { places: map.places.clone(), links: (0..255).map(|from| far(from, 1)).collect() };
    // 1,024 stays, each a run of its own, up to a place's capacity at a time.
    let mut book = Book::new();
    for ticket in 1..=1_024 {
        let place = (ticket as usize * 7) % 256;
        let duration = map.places[place].duration;
        let turn = (ticket - 1) / 256 * duration;
        book.rows.push(Row { place, entry: 60 + turn, ticket, exit: 60 + turn + duration, next: place });
    }
    book.rows.sort_by_key(|row| row.key());
    book.next_ticket = dice.pick(&[1_025, LAST_TICKET, LAST_TICKET + 1]);
    let mut over = book.clone();
    let last = over.rows[1_023];
    over.rows.push(Row { ticket: 1_025, entry: last.exit, exit: 2 * last.exit - last.entry, ..last });
    over.next_ticket = LAST_TICKET + 1;

    let (whole, whole_line) = (map_slice(&map), map_slice(&line));
    let (full, empty) = (book_slice(&book), book_slice(&Book::new()));
    map.links.push(far(0, 2));
    let links_over = map_slice(&map);
    map.links.pop();
    map.places.push(Place { capacity: 1, duration: 1 });
    let places_over = map_slice(&map);
    let key = book.rows[dice.below(1_024)].key();
    let page = |size: u64, length: u64| Asked::Page([size, key.0 as u64, key.1 as u64, key.2 as u64, length]);
    let plan = |destination: usize, length: u64| Asked::Plan([0, destination as u64, 0, length]);

    for size in [1, 63, 64, 65] {
        ask(out, &whole, &full, page(size, 704))?;
    }
    for length in [703, 704, 14_080] {
        ask(out, &whole, &full, page(64, length))?;
    }
    ask(out, &whole, &full, Asked::Page([64, 255, 86_400, 999_999, 704]))?;
    ask(out, &whole, &full, Asked::Page([64, 0, 0, 0, 704]))?;
    ask(out, &whole, &book_slice(&over), page(64, 704))?;
    ask(out, &links_over, &full, page(64, 704))?;
    ask(out, &places_over, &full, page(64, 704))?;
    ask(out, &whole, &full, plan(dice.below(256), 14_080))?;
    // 256 stays, and one place too few.
    for (book, length) in [(&empty, 2_815), (&empty, 2_816), (&full, 2_816), (&full, 14_080)] {
        ask(out, &whole_line, book, plan(255, length))?;
    }
    Ok(())
}

/// A map with a ring road through some of its places, these given in their order.
fn ring_map(dice: &mut Dice, long: usize) -> (Map, Vec<usize>) {
    let n = (long + dice.pick(&[0, 2, 10, 40, 150])).min(256);
    let most = dice.pick(&[1, 2, 4, 16]);
    let least = if dice.chance(50) { most } else { 1 };
    let longest = dice.pick(&[1, 5, 60]);
    let places =
        (0..n).map(|_| Place { capacity: dice.among(least, most) as u32, duration: dice.among(1, longest) as u32 }).collect();
    let order = dice.shuffled(n);
    let ring = order[..long].to_vec();
    let mut links: Vec<(usize, usize)> = (0..long).map(|at| (ring[at], ring[(at + 1) % long])).collect();
    links.extend((0..n).map(|at| (order[at], order[(at + 1) % n])));
    for _ in 0..dice.below(2 * n) {
        links.push((dice.below(n), dice.below(n)));
    }
    links.retain(|link| link.0 != link.1);
    links.sort();
    links.dedup();
    (Map { places, links }, ring)
}

/// The run through these places that goes on from the one at `at` at second t; it waits there for
/// some seconds and nowhere else.
fn run_through(map: &Map, places: &[usize], at: usize, t: u32, wait: u32, ticket: u32) -> Vec<Row> {
    let before: u32 = places[..=at].iter().map(|&place| map.duration(place)).sum();
    let mut entry = t - wait - before;
    let mut rows = Vec::new();
    for (i, &place) in places.iter().enumerate() {
        let exit = entry + map.duration(place) + if i == at { wait } else { 0 };
        let next = if i + 1 < places.len() { places[i + 1] } else { place };
        rows.push(Row { place, entry, ticket, exit, next });
        entry = exit;
    }
    rows
}

/// The place that some link leads to from here, or leads here from.
fn beyond(dice: &mut Dice, map: &Map, here: usize, backward: bool) -> usize {
    let ends = map.links.iter().map(|&(from, to)| if backward { (to, from) } else { (from, to) });
    let found: Vec<usize> = ends.filter(|ends| ends.0 == here).map(|ends| ends.1).collect();
    dice.pick(&found)
}

/// The rows of a ring's runs in second t, and those of the same ring not quite closed.
fn ring_and_near_misses(dice: &mut Dice, map: &Map, ring: &[usize], t: u32) -> Vec<Vec<Row>> {
    let long = ring.len();
    let lengthen = dice.pick(&[0, 0, 10, 40]);
    let mut runs = Vec::new();
    for at in 0..long {
        let mut places = vec![ring[at], ring[(at + 1) % long]];
        let mut from = 0;
        while dice.chance(lengthen) && from < 4 {
            places.insert(0, beyond(dice, map, places[0], true));
            from += 1;
        }
        while dice.chance(lengthen) && places.len() < 8 {
            places.push(beyond(dice, map, places[places.len() - 1], false));
        }
        let wait = dice.pick(&[0, 0, 0, 1, 7]);
        runs.push((places, from, wait, 1 + at as u32));
    }
    let run = |at: usize, t: u32| run_through(map, &runs[at].0, runs[at].1, t, runs[at].2, runs[at].3);
    let open = dice.below(long);
    let whole: Vec<Row> = (0..long).flat_map(|at| run(at, t)).collect();
    let chain: Vec<Row> = (0..long).filter(|&at| at != open).flat_map(|at| run(at, t)).collect();
    // One run reaches the place before the opening and ends there, another begins behind it.
    let ends = run_through(map, &[ring[open]], 0, t, 0, 1 + open as u32);
    let behind = ring[(open + 1) % long];
    let begins = run_through(map, &[behind], 0, t + map.duration(behind), 0, 1 + long as u32);
    // A run of the chain once more under another ticket.
    let again = run((open + 1) % long, t).into_iter().map(|row| Row { ticket: 2 + long as u32, ..row });
    // Every crossing in a second of its own, or in one of a few, but not all in one.
    let mut seconds: Vec<u32> = (0..long).map(|_| t + dice.below(3) as u32).collect();
    if dice.chance(30) {
        seconds = (t..t + long as u32).collect();
    }
    seconds[open] = if seconds[(open + 1) % long] == t { t + 1 } else { t };
    vec![
        whole,
        chain.clone(),
        [chain.clone(), run(open, t + 1)].concat(),
        [chain.clone(), run(open, t - 1)].concat(),
        [chain.clone(), ends, begins].concat(),
        chain.into_iter().chain(again).collect(),
        (0..long).flat_map(|at| run(at, seconds[at])).collect(),
    ]
}

fn rings(dice: &mut Dice, out: &mut impl Write) -> io::Result<()> {
    let mut seconds = Seconds::new();
    for _ in 0..6 {
        let long = dice.pick(&[2, 2, 3, 3, 3, 4, 4, 5, 6, 8, 12, 24, 40, 64]);
        let book = |rows: &[Row]| {
            let mut book = Book { next_ticket: LAST_TICKET + 1, rows: rows.to_vec() };
            book.rows.sort_by_key(|row| row.key());
            book
        };
        // Whole runs and kept loads with the ring, and a well-formed book where it is open.
        let (map, ring, t, all) = loop {
            let (map, ring) = ring_map(dice, long);
            let t = dice.pick(&[400, 5_000, 80_000]) + dice.below(2_000) as u32;
            let all = ring_and_near_misses(dice, &map, &ring, t);
            if faults::well_formed_but_for_rings(&map, &book(&all[0])) && faults::well_formed(&map, &book(&all[1])) {
                break (map, ring, t, all);
            }
        };
        let ring_rows = all.iter().map(|rows| rows.len()).max().unwrap_or(0);
        let cases: Vec<&Vec<Row>> =
            all.iter().enumerate().filter(|(i, rows)| *i == 0 || faults::well_formed(&map, &book(rows))).map(|(_, rows)| rows).collect();

        // Other runs that are permitted beside every case; many of them also cross at second t.
        let mut beside: Vec<Row> = cases.iter().flat_map(|rows| rows.iter().copied()).collect();
        let cases_end = beside.len();
        let mut ticket = 3 + long as u32;
        let most = dice.pick(&[50, 300, 600, 1_000]);
        for _ in 0..1_000 {
            let start = dice.below(map.places.len());
            let mut destination = start;
            for _ in 0..dice.below(6) {
                destination = beyond(dice, &map, destination, false);
            }
            let second = if dice.chance(25) { t - map.duration(start) } else { dice.below(85_000) as u32 };
            if let Some(plan) = seconds.plan(&map, &beside, start, destination, second) {
                if ring_rows + beside.len() - cases_end + plan.len() > most {
                    break;
                }
                beside.extend(plan.iter().map(|row| Row { ticket, ..*row }));
                ticket += 1;
            }
        }
        let others = &beside[cases_end..];

        // The ring is asked about as often as the near misses together, and twice at least.
        let again = (cases.len() - 1).max(2);
        let asked = std::iter::repeat(cases[0]).take(again).chain(cases[1..].iter().copied());
        for rows in asked.collect::<Vec<_>>() {
            // With all or some of the other runs, and with the tickets in some other order.
            let share = dice.pick(&[100, 100, 80, 30]);
            let with: Vec<bool> = (0..ticket).map(|_| dice.chance(share)).collect();
            let names = dice.shuffled(ticket as usize - 1);
            let some = others.iter().filter(|row| with[row.ticket as usize]);
            let named: Vec<Row> = rows
                .iter()
                .chain(some)
                .map(|row| Row { ticket: 1 + names[row.ticket as usize - 1] as u32, ..*row })
                .collect();
            let mut book = book(&named);
            book.next_ticket = dice.pick(&[ticket, ticket + 1, LAST_TICKET + 1]);
            let (from, far) = (dice.below(long), dice.below(long));
            let second = t - map.duration(ring[from]);
            let plan = [ring[from] as u64, ring[(from + far) % long] as u64, second as u64, 14_080];
            let key = book.rows[dice.below(book.rows.len())].key();
            let page = [dice.among(1, 64) as u64, key.0 as u64, key.1 as u64, key.2 as u64, 704];
            let call = if dice.chance(50) { Asked::Plan(plan) } else { Asked::Page(page) };
            ask(out, &map_slice(&map), &book_slice(&book), call)?;
        }
    }
    Ok(())
}

fn main() -> io::Result<()> {
    let words: Vec<String> = std::env::args().skip(1).collect();
    let (seed, kind) = match &words[..] {
        [seed] => (seed, "calls"),
        [seed, kind] => (seed, kind.as_str()),
        _ => usage(),
    };
    let mut dice = Dice::new(seed.parse().unwrap_or(0));
    let mut out = io::BufWriter::new(io::stdout().lock());
    match kind {
        "calls" => calls(&mut dice, &mut out)?,
        "sweep" => sweep(&mut dice, &mut out)?,
        "limits" => limits(&mut dice, &mut out)?,
        "rings" => rings(&mut dice, &mut out)?,
        "faults" => damage::faults(&mut dice, &mut out)?,
        _ => usage(),
    }
    out.flush()
}

fn usage() -> ! {
    eprintln!("usage: slices SEED [calls|sweep|limits|rings|faults]");
    exit(2)
}
