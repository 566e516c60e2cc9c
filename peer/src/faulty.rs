//! Planning with one of the errors we have seen, to show that the comparison finds them.
//! With error 0 it makes none.

use crate::barn::{Map, Row, DAY};
use std::collections::{HashMap, HashSet};

const NEVER: u32 = DAY + 1;

struct Window {
    place: usize,
    from: u32,
    to: u32,
    entry: u32,
    before: Option<usize>,
    settled: bool,
}

pub fn plan(map: &Map, rows: &[Row], start: usize, destination: usize, second: u32, error: u32) -> Option<Vec<Row>> {
    let mut booked: HashMap<(usize, u32), Vec<usize>> = HashMap::new();
    for (from, to, t) in rows.iter().filter_map(|row| row.crossing()) {
        booked.entry((from, t)).or_default().push(to);
    }
    let linked: HashSet<(usize, usize)> = map.links.iter().copied().collect();
    let mut windows = windows(map, rows);
    for window in windows.iter_mut().filter(|window| window.place == start) {
        if window.from <= second && second + map.duration(start) <= window.to {
            window.entry = second;
        }
    }
    loop {
        let here = (0..windows.len())
            .filter(|&i| !windows[i].settled && windows[i].entry != NEVER)
            .min_by_key(|&i| (windows[i].entry, windows[i].place, windows[i].from))?;
        let place = windows[here].place;
        if place == destination {
            return Some(chain(map, &windows, here));
        }
        // Error 1: one earliest entry per place.
        let known = windows.iter().any(|window| window.settled && window.place == place);
        windows[here].settled = true;
        if error == 1 && known {
            continue;
        }
        for after in 0..windows.len() {
            let to = windows[after].place;
            if !linked.contains(&(place, to)) {
                continue;
            }
            // Error 2: a window is closed at its first reach.
            if error == 2 && windows[after].entry != NEVER {
                continue;
            }
            let least = windows[after].from.max(windows[here].entry + map.duration(place));
            let most = windows[here].to.min(windows[after].to - map.duration(to));
            for t in least..=most {
                if !leads(&booked, t, to, place) {
                    if t < windows[after].entry {
                        windows[after].entry = t;
                        windows[after].before = Some(here);
                    }
                    break;
                }
                // Error 3: a window is given up when its first second is barred.
                if error == 3 {
                    break;
                }
            }
        }
    }
}

/// Whether booked crossings at second t lead from one place to another.
fn leads(booked: &HashMap<(usize, u32), Vec<usize>>, t: u32, from: usize, to: usize) -> bool {
    let mut met = vec![from];
    let mut at = 0;
    while at < met.len() {
        for &next in booked.get(&(met[at], t)).into_iter().flatten() {
            if next == to {
                return true;
            }
            if !met.contains(&next) {
                met.push(next);
            }
        }
        at += 1;
    }
    false
}

fn windows(map: &Map, rows: &[Row]) -> Vec<Window> {
    let mut found = Vec::new();
    for (place, about) in map.places.iter().enumerate() {
        let stays: Vec<&Row> = rows.iter().filter(|row| row.place == place).collect();
        let has_room = |t: u32| {
            let load = stays.iter().filter(|row| row.entry <= t && t < row.exit).count();
            (load as u32) < about.capacity
        };
        let mut begins: Vec<u32> = stays.iter().map(|row| row.exit).filter(|&t| t < DAY).collect();
        begins.push(0);
        begins.sort();
        begins.dedup();
        for from in begins {
            if !has_room(from) || (from > 0 && has_room(from - 1)) {
                continue;
            }
            let to = stays.iter().map(|row| row.entry).filter(|&t| t >= from && !has_room(t)).min().unwrap_or(DAY);
            if to - from >= about.duration {
                found.push(Window { place, from, to, entry: NEVER, before: None, settled: false });
            }
        }
    }
    found
}

fn chain(map: &Map, windows: &[Window], last: usize) -> Vec<Row> {
    let place = windows[last].place;
    let mut exit = windows[last].entry + map.duration(place);
    let mut next = place;
    let mut at = Some(last);
    let mut plan = Vec::new();
    while let Some(i) = at {
        let window = &windows[i];
        plan.push(Row { place: window.place, entry: window.entry, ticket: 0, exit, next });
        exit = window.entry;
        next = window.place;
        at = window.before;
    }
    plan.reverse();
    plan
}
