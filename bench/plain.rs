//! The tightening of the day sheet in plain Rust, with the algorithm and the data structures of the proved crates but without
//! contracts: closing in one pass through the points that are not settled, bunkers that go from stretch to stretch of minutes, rounds
//! until nothing falls. `plain ROUNDS FOLDER..` prints for each day what the proved `bench` prints for it.
use std::env;
use std::fs;
use std::time::Instant;

const LAST_MINUTE: i64 = 10_080;
const HORIZON: i32 = 1_440;

#[derive(Clone, Copy)]
struct Use {
    first: usize,
    last: usize,
    kilos: i32,
}

#[derive(Clone, Copy)]
enum Moment {
    Point(usize),
    Minute(u32),
}

#[derive(Clone, Copy)]
struct Bounds {
    points: usize,
    entries: [[i16; 64]; 64],
}

impl Bounds {
    fn get(&self, i: usize, j: usize) -> i32 {
        if i < self.points && j < self.points {
            i32::from(self.entries[i][j])
        } else {
            10_080
        }
    }

    fn lower(&mut self, i: usize, j: usize, v: i32) {
        if i < self.points && j < self.points && v < self.get(i, j) {
            self.entries[i][j] = v.max(-10_081) as i16;
        }
    }

    fn relax_through(&mut self, k: usize) -> bool {
        let over = self.entries[k];
        let over = &over[..self.points];
        let shortest = over.iter().fold(10_080, |least, rest| least.min(*rest));
        for row in &mut self.entries[..self.points] {
            let first = row[k];
            if i32::from(first) + i32::from(shortest) < -10_080 {
                return false;
            }
            relax_row(row, first, over);
        }
        true
    }
}

fn relax_row(row: &mut [i16; 64], first: i16, over: &[i16]) {
    for (entry, rest) in row.iter_mut().zip(over) {
        *entry = (*entry).min(first + rest);
    }
}

#[derive(Clone, Copy)]
struct Table {
    bounds: Bounds,
    settled: [bool; 64],
}

impl Table {
    fn new(points: usize) -> Table {
        let mut bounds = Bounds { points, entries: [[HORIZON as i16; 64]; 64] };
        for p in 0..points {
            bounds.lower(p, p, 0);
            bounds.lower(p, 0, 0);
        }
        Table { bounds, settled: [true; 64] }
    }

    fn get(&self, i: usize, j: usize) -> i32 {
        self.bounds.get(i, j)
    }

    fn lower(&mut self, i: usize, j: usize, v: i32) {
        if v >= -10_080 && v < self.get(i, j) {
            self.bounds.lower(i, j, v);
            self.settled[i] = false;
            self.settled[j] = false;
        }
    }

    fn closed(&self) -> Option<Table> {
        let mut bounds = self.bounds;
        for k in 0..bounds.points {
            if !self.settled[k] && (bounds.get(k, k) < 0 || !bounds.relax_through(k)) {
                return None;
            }
        }
        Some(Table { bounds, settled: [true; 64] })
    }
}

fn sure_by(table: &Table, p: usize, at: Moment) -> bool {
    match at {
        Moment::Point(q) => table.get(q, p) <= 0,
        Moment::Minute(k) => i64::from(table.get(0, p)) <= i64::from(k),
    }
}

fn sure_after(table: &Table, p: usize, at: Moment) -> bool {
    match at {
        Moment::Point(q) => table.get(p, q) < 0,
        Moment::Minute(k) => i64::from(table.get(p, 0)) < -i64::from(k),
    }
}

#[derive(Clone, Copy)]
struct Options {
    worth: i64,
    active: bool,
    idle: bool,
}

impl Options {
    fn new(table: &Table, at: Moment, what: Use) -> Options {
        let delivery = what.first == what.last;
        let sure_active = sure_by(table, what.first, at) && (delivery || sure_after(table, what.last, at));
        let kilos = i64::from(what.kilos);
        Options {
            worth: if delivery { kilos } else { -kilos },
            active: !sure_after(table, what.first, at) && (delivery || !sure_by(table, what.last, at)),
            idle: !sure_active,
        }
    }

    fn high(self) -> i64 {
        match (self.active, self.idle) {
            (true, true) => self.worth.max(0),
            (true, false) => self.worth,
            (false, _) => 0,
        }
    }

    fn low(self) -> i64 {
        match (self.active, self.idle) {
            (true, true) => self.worth.min(0),
            (true, false) => self.worth,
            (false, _) => 0,
        }
    }
}

struct Bunker {
    floor: i64,
    roof: i64,
    start: i64,
    uses: Vec<(u32, Use)>,
}

fn before_change(first: u32, last: u32, change: i64) -> u32 {
    if i64::from(first) < change && change <= i64::from(last) {
        (change - 1) as u32
    } else {
        last
    }
}

fn before_point(table: &Table, p: usize, first: u32, last: u32) -> u32 {
    let end = before_change(first, last, i64::from(table.get(0, p)));
    before_change(first, end, -i64::from(table.get(p, 0)))
}

impl Bunker {
    fn profile(&self, table: &Table, at: Moment) -> (i64, i64) {
        let (mut highest, mut lowest) = (self.start, self.start);
        for (_, what) in &self.uses {
            let options = Options::new(table, at, *what);
            highest += options.high();
            lowest += options.low();
        }
        (highest, lowest)
    }

    fn misses(&self, highest: i64, lowest: i64) -> bool {
        highest < self.floor || lowest > self.roof
    }

    fn lacks_room(&self, table: &Table, at: Moment) -> bool {
        let (highest, lowest) = self.profile(table, at);
        self.misses(highest, lowest)
    }

    fn stretch_end(&self, table: &Table, first: u32) -> Option<u32> {
        if i64::from(first) > LAST_MINUTE {
            return None;
        }
        let mut last = LAST_MINUTE as u32;
        for (_, what) in &self.uses {
            last = before_point(table, what.first, first, last);
            last = before_point(table, what.last, first, last);
        }
        Some(last)
    }

    fn refuses(&self, table: &Table) -> bool {
        if self.uses.iter().any(|(_, u)| u.first != u.last && table.get(u.first, u.last) < 0) {
            return true;
        }
        for (_, u) in &self.uses {
            if self.lacks_room(table, Moment::Point(u.first)) || self.lacks_room(table, Moment::Point(u.last)) {
                return true;
            }
        }
        let mut first = 0;
        while let Some(last) = self.stretch_end(table, first) {
            if self.lacks_room(table, Moment::Minute(first)) {
                return true;
            }
            first = last + 1;
        }
        false
    }

    fn vouches(&self, table: &Table) -> bool {
        let fits = |at| {
            let (highest, lowest) = self.profile(table, at);
            self.floor <= lowest && highest <= self.roof
        };
        self.uses.iter().all(|(_, u)| u.first == u.last || table.get(u.last, u.first) <= 0)
            && self.uses.iter().all(|(_, u)| fits(Moment::Point(u.first)) && fits(Moment::Point(u.last)))
    }

    fn propagate_at(&self, table: &Table, at: Moment, bounds: &mut Bounds) {
        let (highest, lowest) = self.profile(table, at);
        for (_, what) in &self.uses {
            let options = Options::new(table, at, *what);
            let out = |worth| {
                let high = highest - options.high() + worth;
                let low = lowest - options.low() + worth;
                options.active && options.idle && self.misses(high, low)
            };
            let delivery = what.first == what.last;
            if out(0) {
                require_by(what.first, at, bounds);
                if !delivery {
                    require_after(what.last, at, bounds);
                }
            }
            if out(options.worth) {
                if delivery || sure_after(table, what.last, at) {
                    require_after(what.first, at, bounds);
                }
                if !delivery && sure_by(table, what.first, at) {
                    require_by(what.last, at, bounds);
                }
            }
        }
    }

    fn propagate(&self, table: &Table, bounds: &mut Bounds) {
        for (_, u) in &self.uses {
            if u.first != u.last {
                bounds.lower(u.last, u.first, 0);
            }
        }
        for (_, u) in &self.uses {
            self.propagate_at(table, Moment::Point(u.first), bounds);
            self.propagate_at(table, Moment::Point(u.last), bounds);
        }
        let mut first = 0;
        while let Some(last) = self.stretch_end(table, first) {
            self.propagate_at(table, Moment::Minute(first), bounds);
            self.propagate_at(table, Moment::Minute(last), bounds);
            first = last + 1;
        }
    }
}

fn require_by(p: usize, at: Moment, bounds: &mut Bounds) {
    match at {
        Moment::Point(q) => bounds.lower(q, p, 0),
        Moment::Minute(k) => bounds.lower(0, p, k as i32),
    }
}

fn require_after(p: usize, at: Moment, bounds: &mut Bounds) {
    match at {
        Moment::Point(q) => bounds.lower(p, q, -1),
        Moment::Minute(k) => bounds.lower(p, 0, -1 - k as i32),
    }
}

struct Weighbridge {
    uses: Vec<(u32, Use)>,
}

impl Weighbridge {
    fn pairs(&self) -> impl Iterator<Item = (Use, Use)> + '_ {
        self.uses.iter().enumerate().flat_map(move |(i, b)| self.uses[0..i].iter().map(move |a| (a.1, b.1)))
    }

    fn refuses(&self, table: &Table) -> bool {
        self.uses.iter().any(|(_, u)| table.get(u.first, u.last) < 0)
            || self.pairs().any(|(a, b)| table.get(a.last, b.first) < 0 && table.get(b.last, a.first) < 0)
    }

    fn vouches(&self, table: &Table) -> bool {
        self.uses.iter().all(|(_, u)| table.get(u.last, u.first) <= 0)
            && self.pairs().all(|(a, b)| table.get(b.first, a.last) <= 0 || table.get(a.first, b.last) <= 0)
    }

    fn lower(&self, table: &Table, bounds: &mut Bounds) {
        for (_, u) in &self.uses {
            bounds.lower(u.last, u.first, 0);
        }
        for (a, b) in self.pairs() {
            for (a, b) in [(a, b), (b, a)] {
                if table.get(a.last, b.first) < 0 {
                    bounds.lower(a.first, b.last, 0);
                }
            }
        }
    }
}

struct Day {
    bunkers: [Bunker; 2],
    bridge: Weighbridge,
    points: usize,
    slips: Vec<(u32, usize, usize, i32)>,
}

impl Day {
    fn refuses(&self, table: &Table) -> bool {
        self.bunkers.iter().any(|b| b.refuses(table)) || self.bridge.refuses(table)
    }

    fn next_round(&self, table: &Table) -> Option<(Table, bool)> {
        let closed = table.closed()?;
        if self.refuses(&closed) {
            return None;
        }
        let mut bounds = closed.bounds;
        for bunker in &self.bunkers {
            bunker.propagate(&closed, &mut bounds);
        }
        self.bridge.lower(&closed, &mut bounds);
        let mut lower = closed;
        let mut rests = true;
        for i in 0..self.points {
            for j in 0..self.points {
                let bound = bounds.get(i, j);
                if bound < closed.get(i, j) {
                    if bound < -10_080 {
                        return None;
                    }
                    lower.lower(i, j, bound);
                    rests = false;
                }
            }
        }
        Some((lower, rests))
    }

    fn tightened(&self) -> Option<Table> {
        let mut table = Table::new(self.points);
        for (_, from, to, minutes) in &self.slips {
            table.lower(*from, *to, *minutes);
        }
        loop {
            let (next, rests) = self.next_round(&table)?;
            if rests {
                return Some(next);
            }
            table = next;
        }
    }

    // The verdict's word and the count of loose points.
    fn answer(&self) -> (&'static str, u32) {
        let Some(table) = self.tightened() else {
            return ("noplan", 0);
        };
        let vouched = self.bunkers.iter().all(|b| b.vouches(&table)) && self.bridge.vouches(&table);
        let loose = (0..self.points).filter(|p| table.get(0, *p) + table.get(*p, 0) > 0).count();
        (if vouched { "any" } else { "open" }, loose as u32)
    }
}

fn rows(text: &str, names: &str) -> Vec<Vec<String>> {
    let mut lines = text.lines().skip_while(|line| *line != names);
    lines.next();
    lines.take_while(|line| !line.is_empty()).map(|line| line.split(' ').map(String::from).collect()).collect()
}

fn read(folder: &str) -> Day {
    let bridge = fs::read_to_string(format!("{folder}/bridge.day")).unwrap();
    let hall = fs::read_to_string(format!("{folder}/hall.day")).unwrap();
    let mut labels = vec![String::from("opening")];
    labels.extend(rows(&bridge, "label").into_iter().map(|mut row| row.remove(0)));
    let point = |word: &str| labels.iter().position(|l| l == word).unwrap();
    let number = |word: &str| word.parse::<i32>().unwrap();
    let mut slips: Vec<_> = rows(&bridge, "slip from to minutes")
        .iter()
        .map(|r| (number(&r[0]) as u32, point(&r[1]), point(&r[2]), number(&r[3])))
        .collect();
    slips.sort();
    let mut uses = [vec![], vec![], vec![]];
    for r in rows(&hall, "place slip first last kilos") {
        let what = Use { first: point(&r[2]), last: point(&r[3]), kilos: number(&r[4]) };
        uses[number(&r[0]) as usize].push((number(&r[1]) as u32, what));
    }
    for list in &mut uses {
        list.sort_by_key(|u| u.0);
    }
    let [first, second, crossings] = uses;
    let floors = rows(&hall, "floor roof start");
    let bunker = |i: usize, uses| {
        let n = |j: usize| i64::from(number(&floors[i][j]));
        Bunker { floor: n(0), roof: n(1), start: n(2), uses }
    };
    Day {
        bunkers: [bunker(0, first), bunker(1, second)],
        bridge: Weighbridge { uses: crossings },
        points: labels.len(),
        slips,
    }
}

fn main() {
    let mut args = env::args().skip(1);
    let rounds: u32 = args.next().unwrap().parse().unwrap();
    for folder in args {
        let day = read(&folder);
        let start = Instant::now();
        let mut answer = day.answer();
        for _ in 1..rounds {
            answer = std::hint::black_box(&day).answer();
        }
        let nanos = start.elapsed().as_nanos() / u128::from(rounds);
        println!("{folder} {} {} {nanos}", answer.0, answer.1);
    }
}
