//! Free windows by a sweep, and the chosen plan by a search that keeps its open windows by second.

use crate::barn::{Book, Map, Row, DAY, MOST_PLACES, MOST_ROWS, WORDS};

const NEVER: u32 = DAY + 1;
const NONE: u16 = u16::MAX;
const MOST_WINDOWS: usize = MOST_PLACES + MOST_ROWS;
/// So many windows are looked through one by one.
const FEW: usize = 8;

/// A free window, and what the search knows of it.
#[derive(Clone, Copy)]
struct Window {
    start: u32,
    /// The last second at which it may be entered.
    latest: u32,
    /// Its earliest entry so far.
    entry: u32,
    /// The window before, or none.
    before: u16,
    place: u8,
}

const UNREACHED: Window = Window { start: 0, latest: 0, entry: NEVER, before: NONE, place: 0 };

/// A place's windows that an entry may yet be found or bettered for: those before have been settled or are over, those
/// after are entered at their start.
#[derive(Clone, Copy)]
struct Span {
    from: u16,
    stop: u16,
}

/// The windows in order of place and start, and the room of a search.
pub struct Search {
    windows: Vec<Window>,
    spans: [Span; MOST_PLACES],
    /// A bit for each place whose span isn't empty.
    live: [u64; WORDS],
    open: Queue,
    run: Vec<Row>,
}

impl Search {
    pub const fn new() -> Search {
        Search {
            windows: Vec::new(),
            spans: [Span { from: 0, stop: 0 }; MOST_PLACES],
            live: [0; WORDS],
            open: Queue::new(),
            run: Vec::new(),
        }
    }

    /// Finds the windows beside a book that may be entered at the second asked or later; false where a place is overfull.
    pub fn prepare(&mut self, map: &Map, book: &Book, second: u32) -> bool {
        self.windows.resize(MOST_WINDOWS + 1, UNREACHED);
        self.live = [0; WORDS];
        let mut count = 0;
        for at in 0..map.size() {
            let place = at as u8;
            let duration = map.duration(place);
            let first = count;
            let windows = &mut self.windows[..];
            let kept = sweep(map, book, place, |full, start, end| {
                let latest = end.wrapping_sub(duration);
                windows[count] = Window { start, latest, place, ..UNREACHED };
                count += (full & (latest as i32 >= start.max(second) as i32)) as usize;
            });
            if !kept {
                return false;
            }
            self.spans[at] = Span { from: first as u16, stop: count as u16 };
            self.live[at / 64] |= ((count > first) as u64) << (at % 64);
        }
        true
    }

    /// The chosen plan's rows in travel order with ticket 0, or none where no plan is permitted.
    pub fn chosen(&mut self, map: &Map, book: &mut Book, start: u8, destination: u8, second: u32) -> Option<&[Row]> {
        let Span { from, stop } = self.spans[start as usize];
        let first = &mut self.windows[from as usize];
        if from == stop || first.start > second {
            return None;
        }
        first.entry = second;
        self.open.clear();
        self.open.push(second, from);
        let words = map.size().div_ceil(64);
        // No window entered later than a window of the destination is of use.
        let mut bound = NEVER;
        while let Some((second, here)) = self.open.next() {
            let Window { latest, entry, place, .. } = self.windows[here as usize];
            if entry != second {
                continue;
            }
            if place == destination {
                trail(map, &self.windows, here, &mut self.run);
                return Some(&self.run);
            }
            let span = &mut self.spans[place as usize];
            span.from = here + 1;
            if span.from >= span.stop {
                self.live[place as usize / 64] &= !(1 << (place % 64));
            }
            let duration = map.duration(place);
            let leaving = Leaving { here, place, soonest: second + duration, end: latest + duration };
            for (word, onward) in map.onward(place).iter().enumerate().take(words) {
                let mut onward = onward & self.live[word];
                while onward != 0 {
                    let to = (64 * word) as u8 + onward.trailing_zeros() as u8;
                    onward &= onward - 1;
                    let entered = self.enter(book, leaving, to, bound);
                    if to == destination {
                        bound = bound.min(entered);
                    }
                }
            }
        }
        None
    }

    /// Goes from a window to all those of a place that it enters sooner than any before, none later than `bound`, and says
    /// how soon.
    #[inline]
    fn enter(&mut self, book: &mut Book, leaving: Leaving, to: u8, bound: u32) -> u32 {
        let Leaving { here, place, soonest, end } = leaving;
        let end = end.min(bound);
        let span = &mut self.spans[to as usize];
        let (first, mut stop) = (span.from as usize, span.stop as usize);
        let mut at = first;
        if stop - first > FEW {
            at += self.windows[first..stop].partition_point(|window| window.latest < soonest);
        }
        let mut soon = NEVER;
        for (i, there) in self.windows[at..stop].iter_mut().enumerate() {
            if there.latest < soonest {
                continue;
            }
            let least = soonest.max(there.start);
            if least > end {
                break;
            }
            if least >= there.entry {
                continue;
            }
            let most = end.min(there.latest);
            let entered = book.unbarred(place, to, least, most);
            if entered <= most && entered < there.entry {
                there.entry = entered;
                there.before = here;
                self.open.push(entered, (at + i) as u16);
                soon = soon.min(entered);
            }
        }
        while stop > first && self.windows[stop - 1].entry == self.windows[stop - 1].start {
            stop -= 1;
        }
        span.stop = stop as u16;
        if stop <= first {
            self.live[to as usize / 64] &= !(1 << (to % 64));
        }
        soon
    }
}

/// A window with its place, the soonest second at which it may be left after its entry, and its end.
#[derive(Clone, Copy)]
struct Leaving {
    here: u16,
    place: u8,
    soonest: u32,
    end: u32,
}

/// The rows of the plan that ends in this window.
fn trail(map: &Map, windows: &[Window], last: u16, run: &mut Vec<Row>) {
    run.clear();
    let mut here = &windows[last as usize];
    let (mut next, mut exit) = (here.place, here.entry + map.duration(here.place));
    loop {
        let before = windows.get(here.before as usize);
        let came = before.map_or(here.place, |window| window.place);
        run.push(Row::new(here.place, here.entry, 0, exit, next).coming(came));
        (next, exit) = (here.place, here.entry);
        match before {
            Some(window) => here = window,
            None => break,
        }
    }
    run.reverse();
}

/// Whether no place is overfull.
pub fn load_kept(map: &Map, book: &Book) -> bool {
    (0..map.size()).all(|place| sweep(map, book, place as u8, |_, _, _| ()))
}

/// Hands over the free stretches of a place in order, each with true, beside others with false; false where the place is
/// overfull.
#[inline(always)]
fn sweep(map: &Map, book: &Book, place: u8, free: impl FnMut(bool, u32, u32)) -> bool {
    let rows = book.at(place);
    match map.capacity(place) {
        _ if rows.is_empty() => swept::<1>(1, &[], free),
        1 => swept::<1>(1, rows, free),
        2 => swept::<2>(2, rows, free),
        capacity @ 3..=4 => swept::<4>(capacity, rows, free),
        capacity @ 5..=8 => swept::<8>(capacity, rows, free),
        capacity => swept::<16>(capacity, rows, free),
    }
}

/// The sweep with the exits of the wagons inside in rising order. Slots that the place doesn't have are never left.
#[inline(always)]
fn swept<const SLOTS: usize>(capacity: usize, rows: &[Row], mut free: impl FnMut(bool, u32, u32)) -> bool {
    let mut exits: [u32; SLOTS] = std::array::from_fn(|slot| if slot < capacity { 0 } else { u32::MAX });
    let mut start = 0;
    let mut odd = false;
    for row in rows {
        let (entry, mut exit) = (row.entry(), row.exit());
        odd |= entry < exits[0];
        for slot in 1..SLOTS {
            (exits[slot - 1], exit) = (exits[slot].min(exit), exits[slot].max(exit));
        }
        exits[SLOTS - 1] = exit;
        let full = entry < exits[0];
        free(full, start, entry);
        start = if full { exits[0] } else { start };
    }
    free(true, start, DAY);
    !odd
}

const SECOND_WORDS: usize = DAY as usize / 64 + 1;
const GROUPS: usize = SECOND_WORDS / 64 + 1;

/// The open windows by second: a bit for each second that has any, a bit for each word of those that isn't zero, a bit for
/// each of these words again, and a list for each second. A second's windows are put in order when it is the least: no more
/// are added to it then.
struct Queue {
    seconds: [u64; SECOND_WORDS],
    groups: [u64; GROUPS],
    top: u32,
    /// The first node of each second that has any.
    heads: Vec<Node>,
    /// The other nodes, from 1 on.
    nodes: Vec<Node>,
    /// What is left of the second at hand, the least window last.
    left: Vec<u16>,
    second: u32,
}

/// A window, and the number of the next node of the same second, or 0. A search makes fewer than 2^21 nodes, as no window is
/// reached from another twice.
#[derive(Clone, Copy)]
struct Node(u32);

impl Node {
    fn new(window: u16, next: usize) -> Node {
        Node((next as u32) << 11 | window as u32)
    }

    fn window(self) -> u16 {
        self.0 as u16 & 0x7FF
    }

    fn next(self) -> usize {
        self.0 as usize >> 11
    }
}

impl Queue {
    const fn new() -> Queue {
        Queue {
            seconds: [0; SECOND_WORDS],
            groups: [0; GROUPS],
            top: 0,
            heads: Vec::new(),
            nodes: Vec::new(),
            left: Vec::new(),
            second: 0,
        }
    }

    fn clear(&mut self) {
        while self.top != 0 {
            let group = self.top.trailing_zeros() as usize;
            while self.groups[group] != 0 {
                self.seconds[64 * group + self.groups[group].trailing_zeros() as usize] = 0;
                self.groups[group] &= self.groups[group] - 1;
            }
            self.top &= self.top - 1;
        }
        self.heads.resize(DAY as usize + 1, Node(0));
        self.nodes.clear();
        self.nodes.push(Node(0));
        self.left.clear();
    }

    fn push(&mut self, second: u32, window: u16) {
        let (second, word) = (second as usize, second as usize / 64);
        let mut next = 0;
        if self.seconds[word] >> (second % 64) & 1 == 1 {
            next = self.nodes.len();
            self.nodes.push(self.heads[second]);
        }
        self.seconds[word] |= 1 << (second % 64);
        self.groups[word / 64] |= 1 << (word % 64);
        self.top |= 1 << (word / 64);
        self.heads[second] = Node::new(window, next);
    }

    /// Takes the least window of the least second out.
    fn next(&mut self) -> Option<(u32, u16)> {
        if let Some(window) = self.left.pop() {
            return Some((self.second, window));
        }
        if self.top == 0 {
            return None;
        }
        let group = self.top.trailing_zeros() as usize;
        let word = 64 * group + self.groups[group].trailing_zeros() as usize;
        let second = 64 * word + self.seconds[word].trailing_zeros() as usize;
        self.seconds[word] &= self.seconds[word] - 1;
        if self.seconds[word] == 0 {
            self.groups[group] &= self.groups[group] - 1;
            if self.groups[group] == 0 {
                self.top &= self.top - 1;
            }
        }
        self.second = second as u32;
        let node = self.heads[second];
        if node.next() == 0 {
            return Some((self.second, node.window()));
        }
        self.left.push(node.window());
        let mut next = node.next();
        while next != 0 {
            self.left.push(self.nodes[next].window());
            next = self.nodes[next].next();
        }
        self.left.sort_unstable_by_key(|&window| std::cmp::Reverse(window));
        self.left.pop().map(|window| (self.second, window))
    }
}
