// The same in plain Rust: the same stretches, and covers made by the same sorts, halves and merges.
use std::time::Instant;

const COUNT: u64 = 1000000;
const FEW: usize = 4;
const SHORT: usize = 64;

#[derive(Clone, Copy)]
struct Stretch {
    first: u64,
    last: u64,
    index: u32,
    class: u32,
}

#[derive(Clone, Copy)]
struct FirstItem {
    index: u32,
    class: u32,
    shared: bool,
}

struct Cover {
    first: u64,
    last: u64,
    index: u32,
    shared: bool,
}

struct StepMap {
    stops: Vec<u64>,
    values: Vec<Option<FirstItem>>,
}

impl StepMap {
    fn with_room(count: usize) -> StepMap {
        StepMap { stops: Vec::with_capacity(count), values: Vec::with_capacity(count) }
    }

    fn set(&mut self, from: u64, value: Option<FirstItem>) {
        let count = self.stops.len();
        if count > 0 && self.stops[count - 1] == from {
            self.values[count - 1] = value;
            return;
        }
        self.values.push(value);
        self.stops.push(from);
    }
}

fn over(top: Option<FirstItem>, below: Option<FirstItem>) -> Option<FirstItem> {
    match (top, below) {
        (None, _) => below,
        (_, None) => top,
        (Some(upper), Some(lower)) => Some(FirstItem {
            shared: upper.shared || lower.shared || upper.class != lower.class,
            ..upper
        }),
    }
}

fn overlay(upper: &StepMap, lower: &StepMap) -> StepMap {
    let mut both = StepMap::with_room(upper.stops.len() + lower.stops.len());
    let (mut i, mut j, mut x, mut y) = (0, 0, None, None);
    for _ in 0..upper.stops.len() + lower.stops.len() {
        if i < upper.stops.len() && (j == lower.stops.len() || upper.stops[i] <= lower.stops[j]) {
            x = upper.values[i];
            both.set(upper.stops[i], over(x, y));
            i += 1;
        } else {
            y = lower.values[j];
            both.set(lower.stops[j], over(x, y));
            j += 1;
        }
    }
    both
}

fn alone(item: &Stretch) -> FirstItem {
    FirstItem { index: item.index, class: item.class, shared: false }
}

fn in_order(items: &[Stretch]) -> StepMap {
    let mut steps = StepMap::with_room(2 * items.len());
    for item in items {
        steps.set(item.first, Some(alone(item)));
        if item.last < u64::MAX {
            steps.set(item.last + 1, None);
        }
    }
    steps
}

fn laid_at(items: &[Stretch], a: u64) -> Option<FirstItem> {
    let mut seen = None;
    for item in items.iter().rev() {
        if item.first <= a && a <= item.last {
            seen = over(Some(alone(item)), seen);
        }
    }
    seen
}

fn next_stop(items: &[Stretch], at: u64) -> Option<u64> {
    let stop_of = |item: &Stretch| {
        if at < item.first {
            Some(item.first)
        } else if item.last < at {
            None
        } else {
            item.last.checked_add(1)
        }
    };
    items.iter().filter_map(stop_of).min()
}

fn one_by_one(items: &[Stretch]) -> StepMap {
    let mut steps = StepMap::with_room(2 * items.len() + 1);
    let mut at = 0;
    steps.set(at, laid_at(items, at));
    while let Some(next) = next_stop(items, at) {
        steps.set(next, laid_at(items, next));
        at = next;
    }
    steps
}

fn is_ascending(items: &[Stretch]) -> bool {
    items.windows(2).all(|pair| pair[0].last < pair[1].first)
}

fn disjoint(items: &[Stretch]) -> Option<StepMap> {
    let mut sorted = items.to_vec();
    sorted.sort_unstable_by_key(|item| item.first);
    is_ascending(&sorted).then(|| in_order(&sorted))
}

fn layered(items: &[Stretch]) -> StepMap {
    if items.len() > SHORT && !is_ascending(items) {
        if let Some(steps) = disjoint(items) {
            return steps;
        }
    }
    halved(items)
}

fn halved(items: &[Stretch]) -> StepMap {
    if is_ascending(items) {
        return in_order(items);
    }
    if items.len() <= FEW {
        return one_by_one(items);
    }
    if items.len() <= SHORT {
        if let Some(steps) = disjoint(items) {
            return steps;
        }
    }
    let (front, back) = items.split_at(items.len() / 2);
    overlay(&halved(front), &halved(back))
}

fn covers(items: &[Stretch]) -> Vec<Cover> {
    let steps = layered(items);
    let mut covers = Vec::with_capacity(steps.stops.len());
    let (mut first, mut now) = (0, None::<FirstItem>);
    let mut push = |first, last, now: Option<FirstItem>| {
        if let Some(FirstItem { index, shared, .. }) = now {
            covers.push(Cover { first, last, index, shared });
        }
    };
    for (stop, value) in steps.stops.iter().zip(&steps.values) {
        if now.map(|item| item.index) != value.map(|item| item.index) {
            push(first, stop.saturating_sub(1), now);
            first = *stop;
            now = *value;
        }
    }
    push(first, u64::MAX, now);
    covers
}

fn main() {
    let measure = |name: &str, ends_of: fn(u64) -> (u64, u64)| {
        let items: Vec<Stretch> = (0..COUNT)
            .map(|k| {
                let (first, last) = ends_of(k);
                Stretch { first, last: last.max(first), index: k as u32, class: (k % 7) as u32 }
            })
            .collect();
        let start = Instant::now();
        let found = covers(&items);
        let took = start.elapsed().as_millis();
        let mut sum: u64 = 0;
        for cover in &found {
            let mark = if cover.shared { 1 } else { 2 };
            let index = u64::from(cover.index);
            sum = sum.wrapping_mul(31).wrapping_add(cover.first).wrapping_add(cover.last).wrapping_add(index + mark);
        }
        println!("{name} {took} {} {sum}", found.len());
    };
    measure("ascending", |k| (16 * k, 16 * k + 7));
    measure("falling", |k| (16 * (COUNT - k), 16 * (COUNT - k) + 7));
    measure("three-deep", |k| (16 * (k * 611953 % COUNT), 16 * (k * 611953 % COUNT) + 47));
    measure("inner-first", |k| (COUNT - k, COUNT + k));
    measure("outer-first", |k| (k, 2 * COUNT - k));
    measure("all-equal", |_| (16, 23));
}
