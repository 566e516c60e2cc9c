//! Broken books of 1,000 rows, beside the sound books that they were made from. A fault lies where it costs most to find, as far
//! as one can tell: late as a rule, and early too in some.

use crate::barn::{number, Row, BAD_BOOK, BARRED, BROKEN_RUN, DAY, KEYS_FALL, OVERFULL, PACKED_ROW, SHORT_LIST};
use crate::calls;
use crate::damage::wagon;
use crate::dice::Dice;
use crate::rings::Closing;
use crate::scenes::{packed, pages, shuffled, Plot, Scene, OPEN};
use std::collections::HashSet;

/// Pages of a broken book and of the sound one, and the answer to the first.
pub struct Broken {
    pub scene: Scene,
    pub sound: Scene,
    pub number: u64,
    pub row: u64,
}

#[derive(Clone, Copy, PartialEq)]
enum Where {
    Early,
    Late,
}
use Where::{Early, Late};

struct Sound {
    scene: Scene,
    rows: Vec<Row>,
    next_ticket: u32,
}

impl Sound {
    /// Pages of a scene's book.
    fn of(scene: &Scene) -> Sound {
        let rows: Vec<Row> = scene.book[5..].as_chunks().0.iter().map(Row::unpacked).collect();
        let calls = pages(&mut Dice::new(1), &rows);
        let sound = Sound { next_ticket: number(&scene.book[..3]), scene: Scene { calls, ..scene.clone() }, rows };
        assert!(sound.refusal(&sound.rows) == (SHORT_LIST as u64, 0), "{}: a sound book", scene.name);
        sound
    }

    fn book(&self, rows: &[Row]) -> Vec<u8> {
        packed(self.next_ticket, &rows.iter().map(Row::packed).collect::<Vec<_>>())
    }

    /// The number and row by which the peer refuses other rows.
    fn refusal(&self, rows: &[Row]) -> (u64, u64) {
        let got = calls::page(&self.scene.map, &self.book(rows), 1, 0, 0, 0, &mut []);
        (got >> 32, got & 0xFFFF_FFFF)
    }

    fn broken(&self, what: &str, want: u8, rows: Vec<Row>) -> Broken {
        let (number, row) = self.refusal(&rows);
        let name = format!("{}, {}", self.scene.name, what);
        assert!(number == want as u64 && rows.len() == self.rows.len(), "{}: {} at row {}", name, number, row);
        let scene = Scene { name, book: self.book(&rows), ..self.scene.clone() };
        Broken { scene, sound: self.scene.clone(), number, row }
    }

    /// A row whose entry is after the day's end.
    fn range(&self, lies: Where) -> Broken {
        let mut rows = self.rows.clone();
        let at = if lies == Late { rows.len() - 1 } else { 0 };
        let row = rows[at];
        rows[at] = Row::new(row.place(), DAY + 1, row.ticket(), row.exit(), row.next());
        self.broken(named(lies, "range late", "range early"), BAD_BOOK, rows)
    }

    /// Two rows exchanged.
    fn keys(&self, lies: Where) -> Broken {
        let mut rows = self.rows.clone();
        let at = if lies == Late { rows.len() - 1 } else { 1 };
        rows.swap(at - 1, at);
        self.broken(named(lies, "keys late", "keys early"), KEYS_FALL, rows)
    }

    /// A run that ends a second late. Late: under the highest ticket, and no other begins further down. Early: the first row's,
    /// under the lowest.
    fn run(&self, lies: Where) -> Broken {
        let tickets = self.tickets();
        let (least, most) = (tickets.iter().min(), tickets.iter().max());
        let (run, ticket) = if lies == Late { (tickets.last(), most) } else { (tickets.first(), least) };
        let (run, ticket) = (*run.expect("a row"), *ticket.expect("a row"));
        let exchanged = |row: &Row| match row.ticket() {
            other if other == run => ended_late(&row.under(ticket)),
            other if other == ticket => row.under(run),
            _ => *row,
        };
        let rows = self.rows.iter().map(exchanged).collect();
        self.broken(named(lies, "run late", "run early"), BROKEN_RUN, sorted(rows))
    }

    /// Two whole runs under one ticket, the highest; no others begin further down.
    fn two_runs(&self) -> Broken {
        let tickets = self.tickets();
        let (late, highest) = (&tickets[tickets.len() - 2..], *tickets.iter().max().expect("a row"));
        let exchanged = |row: &Row| match row.ticket() {
            other if late.contains(&other) => row.under(highest),
            other if other == highest => row.under(late[0]),
            _ => *row,
        };
        self.broken("two runs", BROKEN_RUN, sorted(self.rows.iter().map(exchanged).collect()))
    }

    fn all_runs(&self) -> Broken {
        self.broken("all runs", BROKEN_RUN, self.rows.iter().map(ended_late).collect())
    }

    /// A single stay moved to where another row enters a full place: the last such row, or the first.
    fn load(&self, lies: Where) -> Broken {
        let single = self.singles()[0];
        let mut others: Vec<usize> = (0..self.rows.len()).filter(|&at| at != single).collect();
        if lies == Late {
            others.reverse();
        }
        let moved = |other: usize| {
            let (place, entry) = (self.rows[other].place(), self.rows[other].entry());
            let stay = number(&self.scene.map[4 + 3 * place as usize..][1..3]);
            let mut rows = self.rows.clone();
            rows[single] = Row::new(place, entry, rows[single].ticket(), entry + stay, place);
            sorted(rows)
        };
        let rows = others.into_iter().map(moved).find(|rows| self.refusal(rows).0 == OVERFULL as u64);
        self.broken(named(lies, "load late", "load early"), OVERFULL, rows.expect("a full place"))
    }

    /// Two single stays turned into a wagon that closes a ring, of three places or more where there is one to close, as far down
    /// as can be or as far up.
    fn ring(&self, lies: Where) -> Broken {
        let singles = self.singles();
        let ticket = self.rows[singles[0]].ticket();
        let mut crossings = self.scene.closing.clone();
        if crossings.is_empty() {
            let leaving = self.rows.iter().filter(|row| !row.is_last());
            crossings.extend(leaving.map(|row| Closing { from: row.next(), to: row.place(), second: row.exit() }));
        }
        let with = |crossing: Closing| {
            let mut rows = self.rows.clone();
            rows.remove(singles[1]);
            rows.remove(singles[0]);
            rows.extend(wagon(&self.scene, crossing, ticket));
            sorted(rows)
        };
        let tried = crossings.into_iter().map(|crossing| (self.refusal(&with(crossing)), crossing));
        let closing = tried.filter(|((number, _), _)| *number == BARRED as u64);
        let at = |((_, row), _): &((u64, u64), Closing)| *row;
        let found = if lies == Late { closing.max_by_key(at) } else { closing.min_by_key(at) };
        self.broken(named(lies, "ring late", "ring early"), BARRED, with(found.expect("a ring that can be closed").1))
    }

    /// The tickets in order of their first rows.
    fn tickets(&self) -> Vec<u32> {
        let mut seen = HashSet::new();
        self.rows.iter().map(Row::ticket).filter(|&ticket| seen.insert(ticket)).collect()
    }

    /// The rows that are runs of one stay.
    fn singles(&self) -> Vec<usize> {
        let longer: HashSet<_> = self.rows.iter().filter(|row| !row.is_last()).map(Row::ticket).collect();
        (0..self.rows.len()).filter(|&at| !longer.contains(&self.rows[at].ticket())).collect()
    }
}

fn named(lies: Where, late: &'static str, early: &'static str) -> &'static str {
    if lies == Late { late } else { early }
}

fn sorted(mut rows: Vec<Row>) -> Vec<Row> {
    rows.sort_by_key(|row| row.key);
    rows
}

/// A run's last row with an exit a second late, any other as it is.
fn ended_late(row: &Row) -> Row {
    let late = row.is_last() as u32;
    Row::new(row.place(), row.entry(), row.ticket(), row.exit() + late, row.next())
}

fn scene(name: &str, plot: &Plot, rows: Vec<Row>, next_ticket: u32, closing: Vec<Closing>) -> Scene {
    let packed_rows: Vec<[u8; PACKED_ROW]> = sorted(rows).iter().map(Row::packed).collect();
    Scene {
        name: name.to_string(),
        places: plot.places.len() / 3,
        links: plot.links.len(),
        rows: packed_rows.len(),
        map: plot.packed(),
        book: packed(next_ticket, &packed_rows),
        calls: Vec::new(),
        closing,
    }
}

/// A single wagon that goes to and fro between two places.
fn one_wagon() -> Scene {
    let mut plot = Plot { places: Vec::new(), links: Vec::new() };
    plot.place(1, 10);
    plot.place(1, 10);
    plot.link(0, 1);
    plot.link(1, 0);
    let stay = |i: u32| {
        let (place, entry) = ((i % 2) as u8, OPEN + 10 * i);
        Row::new(place, entry, 1, entry + 10, if i == 999 { place } else { 1 - place })
    };
    scene("one wagon", &plot, (0..1_000).map(stay).collect(), 2, Vec::new())
}

/// Single stays at one place, always sixteen at a time.
fn one_place() -> Scene {
    let mut plot = Plot { places: Vec::new(), links: Vec::new() };
    plot.place(16, 16);
    let stay = |i: u32| Row::new(0, OPEN + i, i + 1, OPEN + i + 16, 0);
    scene("one place", &plot, (0..1_000).map(stay).collect(), 1_001, Vec::new())
}

/// 498 wagons that cross in one second, from each place to the next few in this order; a link leads from the last to the first.
fn one_second(name: &str, order: &[u32], few: usize) -> Scene {
    let mut plot = Plot { places: Vec::new(), links: Vec::new() };
    let near = |at: usize| order[at + 1..].iter().take(few).map(move |&to| (order[at] as usize, to as usize));
    let steps: Vec<(usize, usize)> = (0..order.len()).flat_map(near).collect();
    order.iter().for_each(|_| plot.place(16, 10));
    steps.iter().for_each(|step| plot.link(step.0, step.1));
    let (first, last) = (order[0], order[order.len() - 1]);
    plot.link(last as usize, first as usize);
    let mut rows = Vec::new();
    for (ticket, &(from, to)) in (1..).zip(steps.iter().cycle().take(498)) {
        let (from, to) = (from as u8, to as u8);
        rows.push(Row::new(from, OPEN - 10, ticket, OPEN, to));
        rows.push(Row::new(to, OPEN, ticket, OPEN + 10, to));
    }
    let (first, last) = (first as u8, last as u8);
    rows.extend((0..4).map(|i| Row::new(first, 10 * i, 499 + i, 10 * i + 10, first)));
    scene(name, &plot, rows, 503, vec![Closing { from: last, to: first, second: OPEN }])
}

/// Broken books, some of them made from books of these scenes.
pub fn all(scenes: &[Scene]) -> Vec<Broken> {
    let of = |name: &str| Sound::of(scenes.iter().find(|scene| scene.name == name).expect("a scene of this name"));
    let mut all = Vec::new();
    let full = of("full");
    all.extend([Late, Early].map(|lies| full.range(lies)));
    all.extend([Late, Early].map(|lies| full.keys(lies)));
    all.extend([Late, Early].map(|lies| full.run(lies)));
    all.extend([full.two_runs(), full.all_runs()]);
    all.extend([Late, Early].map(|lies| full.load(lies)));
    all.extend([Late, Early].map(|lies| full.ring(lies)));
    let hot = of("hot");
    all.extend([hot.run(Late), hot.load(Late), hot.ring(Late)]);
    let barred = of("barred all along");
    all.extend([barred.run(Late), barred.load(Late), barred.ring(Late)]);
    let convoys = of("convoys of 100");
    all.extend([convoys.run(Late), convoys.load(Late), convoys.ring(Late), convoys.ring(Early)]);
    let roads = of("ring roads");
    all.extend([roads.load(Late), roads.ring(Late), roads.ring(Early)]);
    all.push(Sound::of(&one_wagon()).run(Late));
    let place = Sound::of(&one_place());
    all.extend([place.keys(Late), place.run(Late), place.load(Late)]);
    let rising = |places: u32| (0..places).collect::<Vec<u32>>();
    let falling = |places: u32| (0..places).rev().collect::<Vec<u32>>();
    let mixed = shuffled(&mut Dice::new(1), 0..250);
    for (name, order, few) in [
        ("one second, rising", rising(250), 1),
        ("one second, falling", falling(250), 1),
        ("one second, mixed", mixed, 1),
        ("one second, dense rising", rising(40), 16),
        ("one second, dense falling", falling(40), 16),
    ] {
        all.push(Sound::of(&one_second(name, &order, few)).ring(Late));
    }
    all
}
