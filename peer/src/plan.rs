//! The earliest plan, found second by second from the definition of a permitted plan.
//!
//! For each second t, from the asked second on, the walk knows which places a permitted
//! beginning of a plan can enter at t, and which it can leave at t.

use crate::barn::{crossings, led_to, Crossings, Map, Places, Row, DAY, MOST_PLACES};

/// A longest stretch of free seconds and the first second a permitted beginning enters it.
struct Stretch {
    place: usize,
    from: u32,
    to: u32,
    entry: u32,
}

/// The tables over the seconds of the day; a new request overwrites what it reads.
pub struct Seconds {
    /// At this second the place's booked load is below its capacity.
    free: Vec<Places>,
    /// A permitted beginning of a plan can enter the place at this second.
    entered: Vec<Places>,
    /// How many steps of booked crossings are looked at for a ring.
    steps: usize,
}

impl Seconds {
    pub fn new() -> Seconds {
        Seconds::looking(MOST_PLACES)
    }

    /// With fewer steps than there are places, longer rings are not seen.
    pub fn looking(steps: usize) -> Seconds {
        let none = vec![Places::default(); DAY as usize + 1];
        Seconds { free: none.clone(), entered: none, steps }
    }

    /// The chosen plan's rows in travel order with ticket 0, or none where no plan is permitted.
    /// The map keeps its rules, the book is well formed, both places are on the map and
    /// the second is at most 86,400.
    pub fn plan(&mut self, map: &Map, rows: &[Row], start: usize, destination: usize, second: u32) -> Option<Vec<Row>> {
        if !joined(map, start, destination) {
            return None;
        }
        let arrival = self.arrival(map, rows, start, destination, second)?;
        Some(self.chosen(map, rows, destination, second, arrival))
    }

    /// Walks the seconds up to the first at which a stay at the destination is complete.
    fn arrival(&mut self, map: &Map, rows: &[Row], start: usize, destination: usize, second: u32) -> Option<u32> {
        let n = map.places.len();
        let longest = map.places.iter().map(|place| place.duration).max().unwrap_or(0);
        let mut onward = vec![Places::default(); n];
        for &(from, to) in &map.links {
            onward[from].put(to);
        }

        // What happens in the book, in order of seconds.
        let mut changes: Vec<(u32, usize, i32)> = Vec::new();
        for row in rows {
            changes.push((row.entry, row.place, 1));
            changes.push((row.exit, row.place, -1));
        }
        changes.sort();
        let mut changes = changes.into_iter().peekable();
        let booked = crossings(rows);

        let mut load = vec![0i32; n];
        let mut free = Places::default();
        for place in 0..n {
            free.put(place);
        }
        // Every second from here up to the last one walked was free.
        let mut free_since = vec![second; n];
        // A permitted beginning can be at the place, its duration over, up to this second.
        let mut ready = Places::default();
        let mut seen_ready = Places::default();
        let mut reach = Places::default();
        let mut last_entry = second;

        for t in second..=DAY {
            if t > second {
                for place in 0..n {
                    if !free.has(place) {
                        free_since[place] = t;
                        ready.take(place);
                    }
                    let duration = map.duration(place);
                    if t - free_since[place] >= duration && self.entered[(t - duration) as usize].has(place) {
                        ready.put(place);
                    }
                }
                if ready.has(destination) {
                    return Some(t);
                }
            }

            // The places that can be entered at t.
            if ready != seen_ready {
                seen_ready = ready;
                reach = Places::default();
                for place in (0..n).filter(|&place| ready.has(place)) {
                    reach.put_all(&onward[place]);
                }
            }
            let mut entered = reach;
            if let Some(met) = booked.get(&t) {
                entered = Places::default();
                for place in (0..n).filter(|&place| ready.has(place)) {
                    for to in (0..n).filter(|&to| onward[place].has(to)) {
                        // Barred where the booked crossings lead back to the place.
                        if !led_to(met, to, self.steps).has(place) {
                            entered.put(to);
                        }
                    }
                }
            }
            if t == second {
                entered.put(start);
            }
            self.entered[t as usize] = entered;

            // The places with room at t.
            while let Some(&(at, place, change)) = changes.peek() {
                if at > t {
                    break;
                }
                load[place] += change;
                if load[place] < map.places[place].capacity as i32 {
                    free.put(place);
                } else {
                    free.take(place);
                }
                changes.next();
            }
            self.free[t as usize] = free;

            // With nobody ready and no stay still in its duration, no beginning is left.
            if !entered.is_empty() {
                last_entry = t;
            }
            if ready.is_empty() && t > last_entry + longest {
                return None;
            }
        }
        None
    }

    /// Walks back from the destination along the stretches that yield each earliest entry.
    fn chosen(&self, map: &Map, rows: &[Row], destination: usize, second: u32, arrival: u32) -> Vec<Row> {
        let stretches = self.stretches(map, second, arrival);
        let booked = crossings(rows);

        let mut here = stretches
            .iter()
            .filter(|stretch| stretch.place == destination)
            .min_by_key(|stretch| stretch.entry)
            .expect("the destination is entered");
        let mut exit = arrival;
        let mut next = destination;
        let mut plan = Vec::new();
        loop {
            plan.push(Row { place: here.place, entry: here.entry, ticket: 0, exit, next });
            if here.entry == second {
                break;
            }
            exit = here.entry;
            next = here.place;
            here = stretches
                .iter()
                .filter(|before| map.has_link(before.place, here.place))
                .filter(|before| self.yielded(map, &booked, before, here) == Some(here.entry))
                .min_by_key(|before| (before.entry, before.place, before.from))
                .expect("some stretch yields the entry");
        }
        plan.reverse();
        plan
    }

    /// The free stretches entered in time for a whole stay before the arrival, as far as the
    /// seconds from the asked one to the arrival show them.
    fn stretches(&self, map: &Map, second: u32, arrival: u32) -> Vec<Stretch> {
        let mut found = Vec::new();
        for place in 0..map.places.len() {
            let mut t = second;
            while t < arrival {
                if !self.free[t as usize].has(place) {
                    t += 1;
                    continue;
                }
                let from = t;
                let mut entry = None;
                while t < arrival && self.free[t as usize].has(place) {
                    if entry.is_none() && self.entered[t as usize].has(place) {
                        entry = Some(t);
                    }
                    t += 1;
                }
                if let Some(entry) = entry {
                    if entry + map.duration(place) <= t {
                        found.push(Stretch { place, from, to: t, entry });
                    }
                }
            }
        }
        found
    }

    /// The least second at which the crossing is not barred, out of those that both stretches
    /// and the duration allow.
    fn yielded(&self, map: &Map, booked: &Crossings, before: &Stretch, after: &Stretch) -> Option<u32> {
        let least = after.from.max(before.entry + map.duration(before.place));
        let most = before.to.min(after.to - map.duration(after.place));
        (least..=most).find(|t| match booked.get(t) {
            Some(met) => !led_to(met, after.place, self.steps).has(before.place),
            None => true,
        })
    }
}

/// Whether links lead from one place to the other.
fn joined(map: &Map, from: usize, to: usize) -> bool {
    let mut met = vec![false; map.places.len()];
    met[from] = true;
    let mut grown = true;
    while grown && !met[to] {
        grown = false;
        for &(p, q) in &map.links {
            if met[p] && !met[q] {
                met[q] = true;
                grown = true;
            }
        }
    }
    met[to]
}
