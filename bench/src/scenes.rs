//! The scenarios, made from a seed. A book is made by planning and booking with the peer, so that it is well formed; the
//! shuttles' books are written run by run, and the peer tests them.

use crate::barn::{push, Book, Map, Row, MOST_ON_PAGE, MOST_ROWS, PACKED_ROW};
use crate::calls;
use crate::dice::Dice;
use crate::plan::Search;
use crate::rings::{closing, Closing};

#[derive(Clone, Copy)]
pub enum Call {
    Plan { start: u32, destination: u32, second: u32 },
    Page { size: u32, place: u32, entry: u32, ticket: u32 },
}

#[derive(Clone)]
pub struct Scene {
    pub name: String,
    pub places: usize,
    pub links: usize,
    pub rows: usize,
    pub map: Vec<u8>,
    pub book: Vec<u8>,
    pub calls: Vec<Call>,
    /// The rings that one crossing more would close.
    pub closing: Vec<Closing>,
}

/// The hours in which feed is carried.
pub const OPEN: u32 = 21_600;
pub const CLOSE: u32 = 36_000;
const CALLS: usize = 24;

/// The places of the shuttles' barn; stalls follow the passage.
const KITCHEN: u32 = 0;
const GATE: u32 = 1;
const STABLE: u32 = 2;
const PASSAGE: u32 = 3;
/// The shuttles, the seconds from one turn of them to the next, and the second at which they set out.
const SHUTTLES: u32 = 7;
const WAY: u32 = SHUTTLES + 1;
const SET_OUT: u32 = OPEN + CALLS as u32;

/// The places of an alley that convoys go along, and of a way of three alleys.
const ALLEY: usize = 40;
const LONG_WAY: usize = 3 * ALLEY;
/// The loops for turning lie this near the ends of a way.
const LOOPS: usize = 9;
const MINUTE: u32 = 60;
const HOUR: u32 = 3_600;
/// Of a thousand rows the convoys have so many, and with the single stays beside them so many.
const CONVOY_ROWS: usize = 800;
const PARKED_ROWS: usize = 920;
/// The wagons that set out together on a ring have at least so many rows.
const ROUND_ROWS: usize = 700;

/// The least stay at a stall: a second less at each, and longer than the shuttles run.
fn stall_stay(stall: u32) -> u32 {
    1_400 - stall
}

/// A map in the making: packed places, and links.
pub struct Plot {
    pub places: Vec<u8>,
    pub links: Vec<(u8, u8)>,
}

impl Plot {
    pub fn place(&mut self, capacity: u32, duration: u32) {
        push(&mut self.places, capacity, 1);
        push(&mut self.places, duration, 2);
    }

    pub fn link(&mut self, from: usize, to: usize) {
        let link = (from as u8, to as u8);
        if from != to && !self.links.contains(&link) {
            self.links.push(link);
        }
    }

    /// Links between places near each other, both ways where there is room, up to the number asked.
    fn link_up(&mut self, dice: &mut Dice, places: usize, links: usize) {
        while self.links.len() < links {
            let from = dice.below(places);
            let to = (from + places + dice.below(17) - 8) % places;
            self.link(from, to);
            if self.links.len() < links {
                self.link(to, from);
            }
        }
    }

    /// A barn of alleys: places joined to near ones, both ways, and more links up to the number asked. With `shut`, links
    /// only lead out of the last place.
    pub fn barn(dice: &mut Dice, places: usize, links: usize, shut: bool) -> Plot {
        let mut plot = Plot { places: Vec::new(), links: Vec::new() };
        for _ in 0..places {
            plot.place(dice.pick(&[1, 1, 1, 2, 2, 4]), dice.among(10, 90) as u32);
        }
        let open = places - shut as usize;
        for at in 1..places {
            let near = at - dice.among(1, at.min(4));
            plot.link(at, near);
            if at < open {
                plot.link(near, at);
            }
        }
        plot.link_up(dice, open, links);
        plot
    }

    /// The map of the rules' own example.
    fn small() -> Plot {
        let mut plot = Plot { places: Vec::new(), links: Vec::new() };
        for (capacity, duration) in [(2, 10), (1, 20), (1, 30), (1, 10)] {
            plot.place(capacity, duration);
        }
        for (from, to) in [(0, 1), (1, 3), (0, 2), (2, 3), (3, 1), (1, 0)] {
            plot.link(from, to);
        }
        plot
    }

    /// Kitchen and gate, both with room for the shuttles and one wagon more, and behind the gate the stable, where a single
    /// wagon stays for longer than they run.
    fn shuttle() -> Plot {
        let mut plot = Plot { places: Vec::new(), links: Vec::new() };
        for (capacity, duration) in [(WAY, 1), (WAY, 1), (1, 1_500)] {
            plot.place(capacity, duration);
        }
        for (from, to) in [(KITCHEN, GATE), (GATE, KITCHEN), (GATE, STABLE)] {
            plot.link(from as usize, to as usize);
        }
        plot
    }

    /// A passage from the gate to so many stalls, each with links to kitchen and gate.
    fn add_stalls(&mut self, stalls: u32) {
        self.place(1, 1);
        self.link(GATE as usize, PASSAGE as usize);
        for stall in 0..stalls {
            let at = (PASSAGE + 1 + stall) as usize;
            self.place(2, stall_stay(stall));
            self.link(PASSAGE as usize, at);
            self.link(at, KITCHEN as usize);
            self.link(at, GATE as usize);
        }
    }

    /// Links both ways from each place to the one after it.
    fn link_along(&mut self, way: &[u32]) {
        for two in way.windows(2) {
            self.link(two[0] as usize, two[1] as usize);
            self.link(two[1] as usize, two[0] as usize);
        }
    }

    /// Two long ways, each up an alley, down the next and up a third, and a stall behind the midst of both, taken for an hour
    /// at a time. All other stays are a minute. Passages join alleys that lie side by side, and the ways; near the ends of a
    /// way are loops for turning. The places of the first way are numbered as they lie, those of the second as it falls.
    /// Gives the map, both ways and the stall.
    fn alleys(dice: &mut Dice) -> (Plot, [Vec<u32>; 2], u32) {
        let mut plot = Plot { places: Vec::new(), links: Vec::new() };
        for _ in 0..2 * LONG_WAY {
            plot.place(dice.pick(&[1, 2, 2, 3, 3]), MINUTE);
        }
        plot.place(1, HOUR);
        let stall = 2 * LONG_WAY as u32;
        let ways = [(0..LONG_WAY as u32).collect(), shuffled(dice, LONG_WAY as u32..stall)];
        for way in &ways {
            plot.link_along(way);
            for alley in 0..2 {
                for at in (0..ALLEY - 6).step_by(3) {
                    plot.link_along(&[way[alley * ALLEY + at], way[(alley + 2) * ALLEY - 1 - at]]);
                }
            }
            for at in (0..LOOPS).step_by(3) {
                for first in [at, LONG_WAY - 3 - at] {
                    plot.link(way[first + 2] as usize, way[first] as usize);
                }
            }
            plot.link_along(&[way[LONG_WAY / 2], stall]);
        }
        for at in (0..LONG_WAY).step_by(10) {
            plot.link_along(&[ways[0][at], ways[1][at]]);
        }
        (plot, ways, stall)
    }

    /// Ring roads of these sizes, linked both ways. Each but the first shares one to three places in a row with one before it.
    /// All stays on a ring are equal but for the places shared, whole minutes. Places are numbered as it falls. Behind a place
    /// of the first ring is a stall. Gives the map, the places of each ring in a row, and the stall.
    fn rings(dice: &mut Dice, sizes: &[usize]) -> (Plot, Vec<Vec<u32>>, u32) {
        let mut rings: Vec<Vec<u32>> = Vec::new();
        let mut stays = Vec::new();
        for &size in sizes {
            let mut ring = Vec::new();
            if !rings.is_empty() {
                let other = &rings[dice.below(rings.len())];
                let shared = dice.among(1, 3).min(size - 1).min(other.len() - 1);
                let first = dice.below(other.len());
                ring.extend((0..shared).map(|at| other[(first + at) % other.len()]));
            }
            let stay = dice.pick(&[1, 1, 2, 3]) * MINUTE;
            while ring.len() < size {
                ring.push(stays.len() as u32);
                stays.push(stay);
            }
            rings.push(ring);
        }
        let numbers = shuffled(dice, 0..stays.len() as u32);
        let mut plot = Plot { places: Vec::new(), links: Vec::new() };
        for number in 0..numbers.len() {
            let at = numbers.iter().position(|&other| other as usize == number).expect("each number once");
            plot.place(dice.among(1, 3) as u32, stays[at]);
        }
        for ring in &mut rings {
            ring.iter_mut().for_each(|place| *place = numbers[*place as usize]);
            plot.link_along(ring);
            plot.link_along(&[ring[ring.len() - 1], ring[0]]);
        }
        plot.place(1, HOUR);
        let stall = stays.len() as u32;
        plot.link_along(&[rings[0][0], stall]);
        (plot, rings, stall)
    }

    fn packed_links(&self) -> Vec<u8> {
        self.links.iter().flat_map(|&(from, to)| [from, to]).collect()
    }

    /// The slice of the map.
    pub fn packed(&self) -> Vec<u8> {
        let mut map = Vec::new();
        push(&mut map, self.places.len() as u32 / 3, 2);
        push(&mut map, self.links.len() as u32, 2);
        map.extend_from_slice(&self.places);
        map.extend_from_slice(&self.packed_links());
        map
    }
}

pub fn shuffled(dice: &mut Dice, numbers: std::ops::Range<u32>) -> Vec<u32> {
    let mut numbers: Vec<u32> = numbers.collect();
    for at in (1..numbers.len()).rev() {
        numbers.swap(at, dice.below(at + 1));
    }
    numbers
}

/// A map, its book so far, and the places that runs begin and end at.
struct Yard {
    dice: Dice,
    plot: Plot,
    map: Map,
    book: Book,
    search: Search,
    next_ticket: u32,
    ends: u32,
}

impl Yard {
    fn new(dice: Dice, plot: Plot) -> Yard {
        let mut map = Map::new();
        assert!(map.read(&plot.places, &plot.packed_links()), "a map that keeps its rules");
        let ends = map.size() as u32;
        Yard { dice, plot, map, book: Book::new(), search: Search::new(), next_ticket: 1, ends }
    }

    fn barn(seed: u64, places: usize, links: usize) -> Yard {
        let mut dice = Dice::new(seed);
        let plot = Plot::barn(&mut dice, places, links, false);
        Yard::new(dice, plot)
    }

    fn plan(&mut self, start: u32, destination: u32, second: u32) -> Option<&[Row]> {
        assert!(self.search.prepare(&self.map, &self.book, second), "a well-formed book");
        self.search.chosen(&self.map, &mut self.book, start as u8, destination as u8, second)
    }

    /// Books the run if it is permitted and the book has then at most `most` rows.
    fn book(&mut self, start: u32, destination: u32, second: u32, most: usize) -> bool {
        match self.plan(start, destination, second).map(<[Row]>::to_vec) {
            Some(run) if self.book.rows.len() + run.len() <= most => {
                self.book.add(&run, self.next_ticket);
                self.next_ticket += 1;
                true
            }
            _ => false,
        }
    }

    /// Books a run as given: places and the seconds at which they are entered.
    fn book_run(&mut self, stays: &[(u32, u32)]) {
        let (last, entry) = stays[stays.len() - 1];
        let (mut next, mut exit) = (last as u8, entry + self.map.duration(last as u8));
        let mut run = Vec::new();
        for (i, &(place, entry)) in stays.iter().enumerate().rev() {
            let came = stays[i.saturating_sub(1)].0 as u8;
            run.push(Row::new(place as u8, entry, 0, exit, next).coming(came));
            (next, exit) = (place as u8, entry);
        }
        self.book.add(&run, self.next_ticket);
        self.next_ticket += 1;
    }

    fn some_second(&mut self) -> u32 {
        self.dice.among(OPEN as usize, CLOSE as usize) as u32
    }

    fn some_end(&mut self) -> u32 {
        self.dice.below(self.ends as usize) as u32
    }

    /// Books runs between random places until the book has so many rows; single stays make up the last few.
    fn fill(&mut self, rows: usize) {
        while self.book.rows.len() < rows {
            let (start, destination, second) = (self.some_end(), self.some_end(), self.some_second());
            if !self.book(start, destination, second, rows) {
                self.book(start, start, second, rows);
            }
        }
    }

    fn scene(&self, name: &str, calls: Vec<Call>) -> Scene {
        let (places, links, rows) = (self.map.size(), self.plot.links.len(), self.book.rows.len());
        let map = self.plot.packed();
        let book = packed(self.next_ticket, &self.book.rows.iter().map(Row::packed).collect::<Vec<_>>());
        let closing = closing(&self.map, &self.plot.links, &self.book.rows);
        Scene { name: name.to_string(), places, links, rows, map, book, calls, closing }
    }

    /// The first of some requests, each a start, a destination and a second, that leads to another place and has a plan.
    fn planned(&mut self, mut some: impl FnMut(&mut Yard) -> (u32, u32, u32)) -> Call {
        loop {
            let (start, destination, second) = some(self);
            if start != destination && self.plan(start, destination, second).is_some() {
                return Call::Plan { start, destination, second };
            }
        }
    }

    /// A request in the open hours that has a plan, between places as given or random ones.
    fn request(&mut self, given_start: Option<u32>, given_destination: Option<u32>) -> Call {
        self.planned(|yard| {
            let start = given_start.unwrap_or(yard.some_end());
            let destination = given_destination.unwrap_or(yard.some_end());
            (start, destination, yard.some_second())
        })
    }

    fn requests(&mut self) -> Vec<Call> {
        (0..CALLS).map(|_| self.request(None, None)).collect()
    }

    /// A full minute within an hour from the opening, with so many minutes left.
    fn some_minute(&mut self, left: usize) -> u32 {
        OPEN + MINUTE * self.dice.below(60 - left) as u32
    }

    /// Books so many wagons that set out at one second, from places in a row, to the last of so many places each: all cross in
    /// the same seconds. Books none, and says false, where one of them had to wait or to go round.
    fn convoy(&mut self, way: &[u32], wagons: usize, stays: usize, second: u32) -> bool {
        let first_ticket = self.next_ticket;
        for run in way.windows(stays).take(wagons) {
            let in_step = |(i, row): (usize, &Row)| {
                (row.place() as u32, row.entry()) == (run[i], second + i as u32 * MINUTE)
            };
            let plan = self.plan(run[0], run[stays - 1], second);
            let kept = plan.is_some_and(|rows| rows.len() == stays && rows.iter().enumerate().all(in_step));
            if !kept {
                (first_ticket..self.next_ticket).for_each(|ticket| _ = self.book.remove(ticket));
                self.next_ticket = first_ticket;
                return false;
            }
            self.book(run[0], run[stays - 1], second, MOST_ROWS);
        }
        true
    }

    /// Books convoys on both ways by turns, up one time and down the next, each at a minute and a part of the way, often an end
    /// of it, where it keeps step.
    fn convoys(&mut self, ways: &[Vec<u32>; 2], wagons: usize, all_stays: &[usize]) {
        for (i, &stays) in all_stays.iter().enumerate() {
            let length = wagons + stays - 1;
            loop {
                let most = LONG_WAY - length;
                let somewhere = self.dice.among(0, most);
                let first = self.dice.pick(&[0, most, somewhere]);
                let mut way = ways[i % 2][first..first + length].to_vec();
                if i / 2 % 2 == 1 {
                    way.reverse();
                }
                let second = self.some_minute(stays);
                if self.convoy(&way, wagons, stays, second) {
                    break;
                }
            }
        }
    }

    /// Some row that isn't its run's last.
    fn some_crossing(&mut self) -> Row {
        loop {
            let row = self.dice.pick(&self.book.rows);
            if !row.is_last() {
                return row;
            }
        }
    }

    /// Books single stays at places for two, each up to the second at which the other wagon crosses out of it, until the book
    /// has so many rows: the place is full before that second and free from then on.
    fn park(&mut self, rows: usize) {
        while self.book.rows.len() < rows {
            let row = self.some_crossing();
            let place = row.place();
            if self.map.capacity(place) == 2 {
                self.book(place as u32, place as u32, row.exit() - self.map.duration(place), rows);
            }
        }
    }

    /// A request that begins beside a wagon that is about to cross, for a place that lies ahead of it on its way, or behind.
    fn beside(&mut self, ways: &[Vec<u32>; 2], ahead: bool) -> Call {
        loop {
            let row = self.some_crossing();
            let (start, next, second) = (row.place() as u32, row.next() as u32, row.entry());
            let far = self.dice.among(3, 30);
            for way in ways {
                let at = |place: u32| way.iter().position(|&other| other == place);
                let (Some(here), Some(there)) = (at(start), at(next)) else {
                    continue;
                };
                let up = (there > here) == ahead;
                let end = if up { way.get(here + far) } else { here.checked_sub(far).map(|at| &way[at]) };
                if let Some(&destination) = end.filter(|&&end| self.plan(start, end, second).is_some()) {
                    return Call::Plan { start, destination, second };
                }
            }
        }
    }

    /// A request whose shortest way is a single crossing that would close a ring; any request where there is none.
    fn round(&mut self, closing: &[Closing]) -> Call {
        for _ in 0..closing.len() {
            let Closing { from, to, second } = self.dice.pick(closing);
            let (start, destination, second) = (from as u32, to as u32, second - self.map.duration(from));
            if self.plan(start, destination, second).is_some() {
                return Call::Plan { start, destination, second };
            }
        }
        self.request(None, None)
    }

    fn pages(&mut self) -> Vec<Call> {
        pages(&mut self.dice, &self.book.rows)
    }
}

/// Pages of the largest size from cursors all over the book.
pub fn pages(dice: &mut Dice, rows: &[Row]) -> Vec<Call> {
    let size = MOST_ON_PAGE as u32;
    let mut calls = vec![Call::Page { size, place: 0, entry: 0, ticket: 0 }];
    while calls.len() < CALLS {
        let row = rows[dice.below(rows.len() - MOST_ON_PAGE)];
        calls.push(Call::Page { size, place: row.place() as u32, entry: row.entry(), ticket: row.ticket() });
    }
    calls
}

/// The slice of a book.
pub fn packed(next_ticket: u32, rows: &[[u8; PACKED_ROW]]) -> Vec<u8> {
    let mut book = Vec::new();
    push(&mut book, next_ticket, 3);
    push(&mut book, rows.len() as u32, 2);
    book.extend(rows.as_flattened());
    book
}

fn small() -> Scene {
    let mut yard = Yard::new(Dice::new(1), Plot::small());
    yard.book(0, 3, 0, 6);
    yard.book(0, 3, 0, 6);
    let calls = (0..CALLS as u32).map(|i| Call::Plan { start: 0, destination: 3, second: 10 + i }).collect();
    yard.scene("small barn", calls)
}

fn usual(name: &str, seed: u64, places: usize, links: usize, rows: usize) -> Scene {
    let mut yard = Yard::barn(seed, places, links);
    yard.fill(rows);
    let calls = yard.requests();
    yard.scene(name, calls)
}

/// Two neighbours hold most rows: runs from one to the other and stays at each, all day. Half of the requests begin at the
/// one or end at the other.
fn hot(seed: u64) -> Scene {
    let mut yard = Yard::barn(seed, 100, 240);
    let (kitchen, gate) = (yard.plot.links[0].0 as u32, yard.plot.links[0].1 as u32);
    while yard.book.rows.len() < 850 {
        let start = yard.dice.pick(&[kitchen, gate]);
        let destination = yard.dice.pick(&[kitchen, gate]);
        let second = yard.dice.below(80_000) as u32;
        yard.book(start, destination, second, 850);
    }
    yard.fill(1_000);
    let calls = (0..CALLS)
        .map(|i| match i % 4 {
            0 => yard.request(Some(kitchen), None),
            1 => yard.request(None, Some(gate)),
            _ => yard.request(None, None),
        })
        .collect();
    yard.scene("hot", calls)
}

/// The scenarios of one full barn: plans, pages, and requests for a place that no link leads to.
fn full(seed: u64) -> [Scene; 3] {
    let mut dice = Dice::new(seed);
    let plot = Plot::barn(&mut dice, 256, 1_024, true);
    let mut yard = Yard::new(dice, plot);
    let shut = yard.ends - 1;
    yard.ends = shut;
    yard.fill(1_000);
    let calls = yard.requests();
    let plans = yard.scene("full", calls);
    let calls = yard.pages();
    let pages = yard.scene("page of 64, full book", calls);
    let calls = (0..CALLS)
        .map(|_| Call::Plan { start: yard.some_end(), destination: shut, second: yard.some_second() })
        .collect();
    [plans, pages, yard.scene("refusal 5, full book", calls)]
}

/// One map with more and more rows; the requests stay.
fn growth(seed: u64) -> Vec<Scene> {
    let mut yard = Yard::barn(seed, 100, 240);
    let calls = yard.requests();
    let mut scenes = Vec::new();
    for rows in [0, 128, 256, 512, 1_000] {
        yard.fill(rows);
        scenes.push(yard.scene(&format!("growth, {} rows", rows), calls.clone()));
    }
    scenes
}

/// The scene, once the peer has found its book well formed and a plan for each request.
fn tested(scene: Scene) -> Scene {
    let mut answer = vec![0; MOST_ROWS * PACKED_ROW];
    for &call in &scene.calls {
        if let Call::Plan { start, destination, second } = call {
            let got = calls::plan(&scene.map, &scene.book, start, destination, second, &mut answer);
            assert!(got >> 32 == 0, "{}: refusal {} at {}", scene.name, got >> 32, second);
        }
    }
    scene
}

/// The worst book found for a planner that learns whether a crossing is barred by reading the earlier rows of the place ahead,
/// and reads them only where some row enters the place it leaves at that second.
///
/// The shuttles go from gate to kitchen one a second, then back the same way, and so on. Between two ways a stay of one second
/// fills the place they have come to and so ends its window. A request begins at the kitchen while the gate is full, and its
/// destination opens when the shuttles have ended. They come towards it at every second but the last at which its window may
/// be left; it crosses then, and they turn. So each crossing in the book bars it once, and each time it reads nearly all
/// earlier rows of the place ahead, half of the book so far.
///
/// With stalls it reads more rows yet. It gets to all of them at one second, and each in turn offers a sooner entry into the
/// last windows of kitchen and gate, at the second at which the stall's only row enters it. So all rows of both places are
/// read for that one row.
fn shuttle(name: &str, ways: u32, stalls: u32) -> Scene {
    let mut plot = Plot::shuttle();
    if stalls > 0 {
        plot.add_stalls(stalls);
    }
    let mut yard = Yard::new(Dice::new(1), plot);
    let entered = |way: u32, turn: u32| ([KITCHEN, GATE][way as usize % 2], SET_OUT + way * WAY + turn);
    yard.book_run(&[(GATE, OPEN), (STABLE, SET_OUT)]);
    for wagon in 0..SHUTTLES {
        let mut stays = vec![(GATE, OPEN)];
        stays.extend((0..ways).map(|way| entered(way, wagon)));
        yard.book_run(&stays);
    }
    for way in 1..ways {
        yard.book_run(&[entered(way - 1, SHUTTLES)]);
    }
    for stall in 0..stalls {
        yard.book_run(&[(PASSAGE + 1 + stall, SET_OUT + WAY + 1 + stall_stay(stall))]);
    }
    let calls = (OPEN..SET_OUT).map(|second| Call::Plan { start: KITCHEN, destination: STABLE, second }).collect();
    tested(yard.scene(name, calls))
}

/// Convoys along two long ways, so many wagons each. Single stays fill the places that they cross out of up to that second;
/// other runs make up the rest. A third of the requests are for the stall, which is taken until the hour is over, so that
/// every window of that hour within reach is settled; others set out beside a wagon of a convoy and go with it or against it,
/// over a passage that closes a ring with it, or anywhere.
fn convoys(name: &str, seed: u64, wagons: usize, all_stays: &[usize]) -> (Yard, Scene) {
    let mut dice = Dice::new(seed);
    let (plot, ways, stall) = Plot::alleys(&mut dice);
    let mut yard = Yard::new(dice, plot);
    yard.ends = stall;
    yard.convoys(&ways, wagons, all_stays);
    assert!(yard.book.rows.len() == CONVOY_ROWS, "so many rows of convoys");
    yard.book(stall, stall, OPEN, MOST_ROWS);
    yard.park(PARKED_ROWS);
    yard.fill(1_000);
    let closing = closing(&yard.map, &yard.plot.links, &yard.book.rows);
    let calls = (0..CALLS)
        .map(|i| match i % 12 {
            0 => yard.round(&closing),
            1 | 4 | 7 | 10 => yard.planned(|yard| (yard.some_end(), stall, yard.some_minute(30))),
            2 | 5 | 8 => yard.beside(&ways, true),
            3 | 6 | 9 => yard.beside(&ways, false),
            _ => yard.request(None, None),
        })
        .collect();
    let scene = tested(yard.scene(name, calls));
    (yard, scene)
}

/// Ring roads: wagons in a row on one ring that all set out at a full minute and go the same way round, two to four places,
/// and runs between random places at full minutes. The requests begin at full minutes too: over a link that closes a ring, for
/// the stall, which is taken until the hour is over, half of them beside a wagon that is about to cross, or anywhere.
fn ring_roads(seed: u64) -> Scene {
    let mut dice = Dice::new(seed);
    let (plot, rings, stall) = Plot::rings(&mut dice, &[40, 24, 16, 12, 9, 7, 6, 5, 4, 4, 3, 3, 3, 3]);
    let mut yard = Yard::new(dice, plot);
    yard.ends = stall;
    yard.book(stall, stall, OPEN, MOST_ROWS);
    while yard.book.rows.len() < ROUND_ROWS {
        let mut ring = rings[yard.dice.below(rings.len())].clone();
        if yard.dice.chance(50) {
            ring.reverse();
        }
        let (first, second) = (yard.dice.below(ring.len()), yard.some_minute(30));
        let stays = yard.dice.among(2, 4.min(ring.len() / 2 + 1));
        let some = yard.dice.among(2, ring.len());
        for wagon in 0..yard.dice.pick(&[some, ring.len() - 1]) {
            let at = |step: usize| ring[(first + wagon + step) % ring.len()];
            yard.book(at(0), at(stays - 1), second, MOST_ROWS);
        }
    }
    while yard.book.rows.len() < 1_000 {
        let (start, destination, second) = (yard.some_end(), yard.some_end(), yard.some_minute(30));
        if !yard.book(start, destination, second, 1_000) {
            yard.book(start, start, second, 1_000);
        }
    }
    let closing = closing(&yard.map, &yard.plot.links, &yard.book.rows);
    let calls = (0..CALLS)
        .map(|i| match i % 6 {
            0 => yard.round(&closing),
            2 => yard.planned(|yard| (yard.some_end(), stall, yard.some_minute(30))),
            1 | 3 | 5 => yard.planned(|yard| {
                let row = yard.some_crossing();
                (row.place() as u32, yard.some_end(), row.entry())
            }),
            _ => yard.planned(|yard| (yard.some_end(), yard.some_end(), yard.some_minute(30))),
        })
        .collect();
    tested(yard.scene("ring roads", calls))
}

pub fn all(seed: u64) -> Vec<Scene> {
    let [plans, pages, refusals] = full(seed + 3);
    let mut scenes = vec![
        small(),
        usual("typical", seed + 1, 40, 90, 300),
        usual("busy", seed + 2, 100, 240, 700),
        plans,
        hot(seed + 4),
        usual("empty book", seed + 5, 256, 1_024, 0),
        pages,
        refusals,
    ];
    scenes.extend(growth(seed + 6));
    scenes.push(shuttle("barred all along", 124, 0));
    scenes.push(shuttle("barred all along, 248 stalls", 93, 248));
    scenes.push(convoys("convoys of 2", seed + 7, 2, &[10; 40]).1);
    scenes.push(convoys("convoys of 20", seed + 8, 20, &[10; 4]).1);
    let (mut yard, plans) = convoys("convoys of 100", seed + 9, 100, &[3, 3, 2]);
    scenes.push(plans);
    let calls = yard.pages();
    scenes.push(yard.scene("page of 64, convoys of 100", calls));
    scenes.push(ring_roads(seed + 10));
    scenes
}
