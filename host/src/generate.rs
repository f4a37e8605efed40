//! Seeded random models, well made and damaged, and random settings.

pub mod loading;
pub mod ranges;
pub mod widths;

use crate::build::*;
use crate::reference::read_model;
use crate::reference::syntax::Variable;

/// The generator splitmix64.
pub struct Random(u64);

impl Random {
    pub fn new(seed: u64) -> Random {
        Random(seed)
    }

    pub fn word(&mut self) -> u64 {
        self.0 = self.0.wrapping_add(0x9E37_79B9_7F4A_7C15);
        let mut z = self.0;
        z = (z ^ (z >> 30)).wrapping_mul(0xBF58_476D_1CE4_E5B9);
        z = (z ^ (z >> 27)).wrapping_mul(0x94D0_49BB_1331_11EB);
        z ^ (z >> 31)
    }

    /// A number below `end`.
    pub fn below(&mut self, end: usize) -> usize {
        (self.word() % end as u64) as usize
    }

    /// A number from `first` to `last`.
    pub fn between(&mut self, first: i32, last: i32) -> i32 {
        first + self.below((last - first + 1) as usize) as i32
    }

    pub fn chance(&mut self, percent: usize) -> bool {
        self.below(100) < percent
    }

    pub fn pick<T: Clone>(&mut self, items: &[T]) -> T {
        items[self.below(items.len())].clone()
    }

    /// Puts the items into an order that is drawn.
    pub fn shuffle<T>(&mut self, items: &mut [T]) {
        for place in (1..items.len()).rev() {
            items.swap(place, self.below(place + 1));
        }
    }
}

/// Settings of a search: widest beam, length, budget.
pub fn settings(random: &mut Random) -> (u64, u64, u64) {
    let width = 1 << random.below(5);
    let length = random.between(1, 6) as u64;
    let budget = random.pick(&[0, 1, 2, 3, 4, 6, 9, 14, 100, 1_000, 100_000]);
    (width, length, budget)
}

/// A random model, to some of which a constraint is added that the target breaks, or that has no value there: four of a
/// hundred each.
pub fn with_any_target(random: &mut Random) -> Build {
    let build = model(random);
    let kind = random.below(100);
    if kind >= 8 {
        return build;
    }
    let started = started(random, &build);
    let constraint = match kind {
        0..=3 => not(started),
        4..=5 => at_most(quotient(lit(1), choice(started, lit(0), lit(1))), lit(1)),
        _ => less(lit(0), sum(lit(i32::MAX), choice(started, lit(1), lit(0)))),
    };
    let first = random.chance(50);
    build.constraint_among(&constraint, first)
}

/// A condition that holds where a variable, picked at random, has its start value.
fn started(random: &mut Random, build: &Build) -> Bytes {
    let model = read_model(&build.clone().end()).expect("a generated model is well made");
    let place = random.below(model.variables.len());
    let name = place as u8;
    match model.variables[place] {
        Variable::Set { count, start } => {
            let start = set_lit(count, start);
            and(subset(set(name), start.clone()), subset(start, set(name)))
        }
        Variable::Element { start, .. } => same(elem(name), obj(start)),
        Variable::Number { start, .. } => equal(num(name), lit(start as i32)),
    }
}

/// A random model of one of the families below. Stored cases are places in sequences of these.
pub fn model(random: &mut Random) -> Build {
    match random.below(10) {
        0..=3 => graph(random),
        4..=5 => routing(random),
        6 => packing(random),
        _ => mixed(random),
    }
}

// Graphs.

struct Edge {
    from: u8,
    to: u8,
    cost: i32,
    gain: i32,
}

/// The least cost from each node to a goal, at most 99, by the sum or the largest rule.
fn distances(nodes: u8, edges: &[Edge], goals: u64, rule: u8) -> Vec<i32> {
    let goal = |node: u8| if goals >> node & 1 == 1 { 0 } else { 99 };
    let mut least: Vec<i32> = (0..nodes).map(goal).collect();
    for _ in 0..nodes {
        for edge in edges {
            let rest = least[usize::from(edge.to)];
            let cost = if rule == SUM {
                edge.cost + rest
            } else {
                edge.cost.max(rest)
            };
            let from = usize::from(edge.from);
            least[from] = least[from].min(cost.min(99));
        }
    }
    least
}

/// A place in a graph, moved along edges, with a preferred number in some models.
pub fn graph(random: &mut Random) -> Build {
    let rule = if random.chance(25) { LARGEST } else { SUM };
    let nodes = random.between(3, 8) as u8;
    let goals = 1 << (nodes - 1)
        | if random.chance(30) {
            1 << random.between(1, 2)
        } else {
            0
        };
    let with_number = random.chance(50);
    let preference = random.pick(&[LESS, LESS, MORE, NONE]);
    let edges: Vec<Edge> = (0..random.between(3, 10))
        .map(|_| {
            let from = random.below(usize::from(nodes) - 1) as u8;
            let ahead = random.chance(85);
            let first = if ahead { from + 1 } else { 0 };
            Edge {
                from,
                to: first + random.below(usize::from(nodes - first)) as u8,
                cost: random.between(0, 4),
                gain: random.between(-1, 2),
            }
        })
        .collect();
    let exact = distances(nodes, &edges, goals, rule);
    let mut build = Build::new(rule).element(nodes, NONE, 0);
    if with_number {
        build = build.number(preference, random.between(0, 2));
    }
    let estimate = random.below(6);
    if estimate >= 2 {
        let entries: Vec<i32> = exact
            .iter()
            .map(|exact| match estimate {
                2 | 3 => *exact,
                4 => exact - random.between(0, 3),
                _ => random.between(0, 6),
            })
            .collect();
        build = build.table(nodes, 1, &entries);
    }
    for edge in &edges {
        let mut conditions = vec![same(elem(0), obj(edge.from))];
        let mut effects = vec![(0, obj(edge.to))];
        if with_number {
            if random.chance(25) {
                conditions.push(at_most(num(1), lit(random.between(0, 3))));
            }
            let moved = sum(num(1), lit(edge.gain));
            effects.push((1, greater(lit(-1), lesser(lit(4), moved))));
        }
        build = build.transition(&conditions, lit(edge.cost), &effects);
    }
    build = build.base(&[member(elem(0), set_lit(nodes, goals))]);
    if with_number && random.chance(30) {
        build = build.constraint(at_most(num(1), lit(random.between(1, 4))));
    }
    if estimate >= 2 {
        build = build.bound(entry(0, elem(0), obj(0)));
    }
    build
}

// Orders of visits.

/// A set of places to visit, in some models with a clock and closing times.
pub fn routing(random: &mut Random) -> Build {
    let rule = if random.chance(25) { LARGEST } else { SUM };
    let places = random.between(3, 5) as u8;
    let size = usize::from(places);
    let hours: Vec<i32> = (0..size * size).map(|_| random.between(0, 6)).collect();
    let least_in = |to: usize| {
        let from = (0..size).filter(|from| *from != to);
        from.map(|from| hours[from * size + to]).min().unwrap()
    };
    let clock = random.chance(50);
    let bound = random.below(4);
    let mut build = Build::new(rule)
        .set(places, (1 << places) - 2)
        .element(places, NONE, 0);
    if clock {
        build = build.number(random.pick(&[LESS, LESS, NONE, MORE]), 0);
    }
    build = build.table(places, places, &hours);
    if bound == 1 {
        let slack = if random.chance(70) { 0 } else { 1 };
        let least: Vec<i32> = (0..size).map(|to| least_in(to) + slack).collect();
        build = build.table(places, 1, &least);
    }
    for place in 1..places {
        let travel = entry(0, elem(1), obj(place));
        let mut conditions = vec![member(obj(place), set(0))];
        let mut effects = vec![(0, remove(obj(place), set(0))), (1, obj(place))];
        if clock {
            let arrival = sum(num(2), travel.clone());
            if random.chance(60) {
                let closing = random.between(3, 14);
                conditions.push(at_most(arrival.clone(), lit(closing)));
            }
            effects.push((2, greater(arrival, lit(random.between(0, 5)))));
        }
        build = build.transition(&conditions, travel, &effects);
    }
    build = build.base(&[empty(set(0))]);
    match bound {
        1 if rule == SUM => build.bound(entry_sum(1, set(0), obj(0))),
        2 => build.bound(lit(random.between(0, 5))),
        3 => build.bound(count(set(0))),
        _ => build,
    }
}

// Packing.

/// Items packed into bins of equal room; a bin costs 1, more room is preferred.
pub fn packing(random: &mut Random) -> Build {
    let items = random.between(2, 4) as u8;
    let room = random.between(3, 5);
    let sizes: Vec<i32> = (0..items).map(|_| random.between(1, 4)).collect();
    let preference = random.pick(&[MORE, MORE, LESS, NONE]);
    let mut build = Build::new(SUM)
        .set(items, (1 << items) - 1)
        .number(preference, 0)
        .table(items, 1, &sizes);
    for item in 0..items {
        let size = lit(sizes[usize::from(item)]);
        build = build.transition(
            &[member(obj(item), set(0)), at_most(size.clone(), num(1))],
            lit(0),
            &[
                (0, remove(obj(item), set(0))),
                (1, difference(num(1), size)),
            ],
        );
    }
    build = build
        .transition(&[not(empty(set(0)))], lit(1), &[(1, lit(room))])
        .base(&[empty(set(0))]);
    let rest = difference(entry_sum(0, set(0), obj(0)), num(1));
    let negative = difference(lit(0), rest);
    let divisor = if random.chance(75) { room } else { room - 2 };
    if random.chance(70) {
        build = build.bound(difference(lit(0), quotient(negative, lit(divisor))));
    }
    build
}

// Mixed models of all expression forms.

/// The names that expressions may use.
struct Names {
    sets: Vec<(u8, u8)>,
    elements: Vec<(u8, u8)>,
    numbers: Vec<u8>,
    tables: Vec<(u8, u8, u8)>,
    /// Whether values near the ends of the range and divisors of zero are made.
    troubled: bool,
}

impl Names {
    fn number(&self, random: &mut Random, depth: usize) -> Bytes {
        let form = if depth == 0 {
            random.below(2)
        } else {
            random.below(13)
        };
        let deeper = depth.saturating_sub(1);
        match form {
            1 | 12 if !self.numbers.is_empty() => num(random.pick(&self.numbers)),
            2 => sum(self.number(random, deeper), self.number(random, deeper)),
            3 => difference(self.number(random, deeper), self.number(random, deeper)),
            4 => product(self.number(random, deeper), self.number(random, deeper)),
            5 if self.troubled => {
                quotient(self.number(random, deeper), self.number(random, deeper))
            }
            5 => quotient(
                self.number(random, deeper),
                lit(random.pick(&[-3, -2, 2, 3])),
            ),
            6 => lesser(self.number(random, deeper), self.number(random, deeper)),
            7 => greater(self.number(random, deeper), self.number(random, deeper)),
            8 if !self.tables.is_empty() => {
                let (table, rows, columns) = random.pick(&self.tables);
                entry(
                    table,
                    self.element(random, rows),
                    self.element(random, columns),
                )
            }
            9 => {
                let objects = self.some_count(random, 4);
                count(self.set(random, objects, deeper))
            }
            10 if !self.tables.is_empty() => {
                let (table, rows, columns) = random.pick(&self.tables);
                let objects = self.some_count(random, rows);
                let set = self.set(random, objects, deeper);
                entry_sum(table, set, self.element(random, columns))
            }
            11 => choice(
                self.condition(random, deeper),
                self.number(random, deeper),
                self.number(random, deeper),
            ),
            _ if self.troubled && random.chance(15) => {
                lit(random.pick(&[i32::MAX, i32::MIN, 0, -1, 1 << 16]))
            }
            _ => lit(random.between(-2, 5)),
        }
    }

    /// A set variable's object count, or a small one, at most `most`.
    fn some_count(&self, random: &mut Random, most: u8) -> u8 {
        let counts: Vec<u8> = self.sets.iter().map(|(_, count)| *count).collect();
        let fitting: Vec<u8> = counts.into_iter().filter(|count| *count <= most).collect();
        if fitting.is_empty() {
            1 + random.below(usize::from(most)) as u8
        } else {
            random.pick(&fitting)
        }
    }

    /// An element expression with a count of at most `most`.
    fn element(&self, random: &mut Random, most: u8) -> Bytes {
        let fitting: Vec<u8> = self
            .elements
            .iter()
            .filter(|(_, count)| *count <= most)
            .map(|(variable, _)| *variable)
            .collect();
        if fitting.is_empty() || random.chance(35) {
            obj(random.below(usize::from(most)) as u8)
        } else {
            elem(random.pick(&fitting))
        }
    }

    /// A set expression with this count.
    fn set(&self, random: &mut Random, objects: u8, depth: usize) -> Bytes {
        let fitting: Vec<u8> = self
            .sets
            .iter()
            .filter(|(_, count)| *count == objects)
            .map(|(variable, _)| *variable)
            .collect();
        let deeper = depth.saturating_sub(1);
        match if depth == 0 { 7 } else { random.below(10) } {
            0 => add(
                self.element(random, objects),
                self.set(random, objects, deeper),
            ),
            1 | 2 => remove(
                self.element(random, objects),
                self.set(random, objects, deeper),
            ),
            3 => union(
                self.set(random, objects, deeper),
                self.set(random, objects, deeper),
            ),
            4 => intersection(
                self.set(random, objects, deeper),
                self.set(random, objects, deeper),
            ),
            5 => without(
                self.set(random, objects, deeper),
                self.set(random, objects, deeper),
            ),
            6 => complement(self.set(random, objects, deeper)),
            _ if fitting.is_empty() || random.chance(15) => {
                set_lit(objects, random.word() & (u64::MAX >> (64 - objects)))
            }
            _ => set(random.pick(&fitting)),
        }
    }

    fn condition(&self, random: &mut Random, depth: usize) -> Bytes {
        let deeper = depth.saturating_sub(1);
        match random.below(if depth == 0 { 7 } else { 10 }) {
            0 => equal(self.number(random, deeper), self.number(random, deeper)),
            1 => less(self.number(random, deeper), self.number(random, deeper)),
            2 => at_most(self.number(random, deeper), self.number(random, deeper)),
            3 => same(self.element(random, 4), self.element(random, 4)),
            4 => {
                let objects = self.some_count(random, 4);
                member(
                    self.element(random, objects),
                    self.set(random, objects, deeper),
                )
            }
            5 => {
                let objects = self.some_count(random, 4);
                empty(self.set(random, objects, deeper))
            }
            6 => {
                let objects = self.some_count(random, 4);
                subset(
                    self.set(random, objects, deeper),
                    self.set(random, objects, deeper),
                )
            }
            7 => not(self.condition(random, deeper)),
            8 => and(
                self.condition(random, deeper),
                self.condition(random, deeper),
            ),
            _ => or(
                self.condition(random, deeper),
                self.condition(random, deeper),
            ),
        }
    }

    fn conditions(&self, random: &mut Random, most: usize) -> Vec<Bytes> {
        (0..random.below(most + 1))
            .map(|_| self.condition(random, 2))
            .collect()
    }

    /// A cost that is not negative, unless the model may have trouble.
    fn cost(&self, random: &mut Random) -> Bytes {
        match random.below(3) {
            0 => lit(random.between(0, 4)),
            1 if self.troubled && random.chance(30) => self.number(random, 2),
            _ => greater(lit(random.between(0, 1)), self.number(random, 2)),
        }
    }

    fn effects(&self, random: &mut Random) -> Vec<(u8, Bytes)> {
        let mut effects = Vec::new();
        for (variable, count) in &self.sets {
            if random.chance(65) {
                effects.push((*variable, self.set(random, *count, 2)));
            }
        }
        for (variable, count) in &self.elements {
            if random.chance(65) {
                effects.push((*variable, self.element(random, *count)));
            }
        }
        for variable in &self.numbers {
            if random.chance(60) {
                let value = self.number(random, 2);
                let bounded = lesser(lit(4), greater(lit(-2), value.clone()));
                let free = self.troubled && random.chance(30);
                effects.push((*variable, if free { value } else { bounded }));
            }
        }
        if random.chance(30) {
            effects.reverse();
        }
        effects
    }
}

/// Variables of all kinds, small tables, and random expressions everywhere.
pub fn mixed(random: &mut Random) -> Build {
    let rule = if random.chance(25) { LARGEST } else { SUM };
    let mut names = Names {
        sets: Vec::new(),
        elements: Vec::new(),
        numbers: Vec::new(),
        tables: Vec::new(),
        troubled: random.chance(35),
    };
    let mut build = Build::new(rule);
    for variable in 0..random.between(1, 4) as u8 {
        let count = random.between(2, 4) as u8;
        let preference = random.pick(&[NONE, NONE, LESS, MORE]);
        match random.below(3) {
            0 => {
                names.sets.push((variable, count));
                build = build.set(count, random.word() & ((1 << count) - 1));
            }
            1 => {
                names.elements.push((variable, count));
                let start = random.below(usize::from(count)) as u8;
                build = build.element(count, preference, start);
            }
            _ => {
                names.numbers.push(variable);
                build = build.number(preference, random.between(-1, 3));
            }
        }
    }
    for table in 0..random.below(3) as u8 {
        let (rows, columns) = (random.between(2, 4) as u8, random.between(1, 2) as u8);
        let size = usize::from(rows) * usize::from(columns);
        let entries: Vec<i32> = (0..size).map(|_| random.between(-1, 5)).collect();
        names.tables.push((table, rows, columns));
        build = build.table(rows, columns, &entries);
    }
    for _ in 0..random.between(1, 5) {
        let conditions = names.conditions(random, 2);
        let cost = names.cost(random);
        let effects = names.effects(random);
        build = build.transition(&conditions, cost, &effects);
    }
    for _ in 0..random.between(0, 2) {
        let mut conditions = names.conditions(random, 1);
        conditions.push(names.condition(random, 2));
        build = build.base(&conditions);
    }
    for _ in 0..random.below(3) / 2 {
        build = build.constraint(names.condition(random, 2));
    }
    for _ in 0..random.below(3) {
        let bound = if random.chance(50) {
            lit(random.between(-1, 2))
        } else {
            names.number(random, 2)
        };
        build = build.bound(bound);
    }
    build
}

// Damage.

/// A damaged copy of a well-made model: one or two of the ways below.
pub fn damaged(random: &mut Random, build: &Build) -> Bytes {
    let mut starts = build.starts.clone();
    let mut bytes = build.clone().end();
    starts.push(bytes.len() - 1);
    for _ in 0..random.between(1, 2) {
        let at = random.below(bytes.len());
        match random.below(8) {
            0 => bytes[at] ^= 1 << random.below(8),
            1 => bytes[at] = random.word() as u8,
            2 => bytes.truncate(at),
            3 => bytes.insert(at, random.word() as u8),
            4 => {
                bytes.remove(at);
            }
            5 => return with_command_doubled(random, &starts, &bytes),
            6 => return with_commands_swapped(random, &starts, &bytes),
            _ => {
                let expression_bytes = [0x20, 0x21, 0x28, 0x2A, 0x30, 0x31, 0x40, 0x41, 0x57];
                bytes[at] = random.pick(&expression_bytes);
            }
        }
        if bytes.is_empty() {
            return bytes;
        }
        starts.retain(|start| *start < bytes.len());
    }
    bytes
}

fn command_end(starts: &[usize], bytes: &[u8], place: usize) -> usize {
    starts.get(place + 1).copied().unwrap_or(bytes.len())
}

fn with_command_doubled(random: &mut Random, starts: &[usize], bytes: &[u8]) -> Bytes {
    let place = random.below(starts.len());
    let (start, end) = (starts[place], command_end(starts, bytes, place));
    [&bytes[..end], &bytes[start..]].concat()
}

fn with_commands_swapped(random: &mut Random, starts: &[usize], bytes: &[u8]) -> Bytes {
    let place = random.below(starts.len().max(2) - 1);
    let (start, middle) = (starts[place], command_end(starts, bytes, place));
    let end = command_end(starts, bytes, place + 1);
    [
        &bytes[..start],
        &bytes[middle..end],
        &bytes[start..middle],
        &bytes[end..],
    ]
    .concat()
}
