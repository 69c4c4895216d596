//! Every pair of states over a few cells: equality and order.
use super::dense::{entries, Dense};
use super::kind::{of, Entry, Kind};
use super::stored::told;
use super::{agree, Placed, Size};
use crate::ffi::{Map, Order, PLACES};
use crate::report::Report;
use std::cmp::Ordering;

struct Paired<K: Kind> {
    entries: Vec<Entry>,
    rust: K::Rust,
    map: Map,
}

impl<K: Kind> Paired<K> {
    fn new(entries: Vec<Entry>) -> Self {
        Paired {
            rust: K::rust_of(&entries),
            map: Map::of(&entries),
            entries,
        }
    }
}

fn number(order: Ordering) -> Order {
    Order {
        answer: 0,
        order: order as i8,
    }
}

/// The model: the first place that differs decides, and a prefix comes first.
fn model(a: &[Entry], b: &[Entry]) -> Ordering {
    for (one, other) in a.iter().zip(b) {
        let ((start, end), value) = *one;
        let ((other_start, other_end), other_value) = *other;
        let by_start = start.cmp(&other_start);
        let order = by_start
            .then(end.cmp(&other_end))
            .then(value.cmp(&other_value));
        if order.is_ne() {
            return order;
        }
    }
    a.len().cmp(&b.len())
}

fn compare_pair<K: Kind>(
    report: &mut Report,
    a: &Paired<K>,
    b: &Paired<K>,
    (first, second): (&mut Map, &mut Map),
) {
    let (of_a, of_b) = (of::<K>(&a.entries), of::<K>(&b.entries));
    let model = model(&a.entries, &b.entries);
    agree(
        report,
        format_args!("{of_a} eq {of_b}"),
        (K::OURS.eq)(first, second),
        told(a.rust == b.rust),
        told(model.is_eq()),
    );
    agree(
        report,
        format_args!("{of_a} cmp {of_b}"),
        (K::OURS.cmp)(first, second),
        number(a.rust.cmp(&b.rust)),
        number(model),
    );
    report.same(format_args!("{of_a} after {of_b}"), &*first, &a.map);
    report.same(format_args!("{of_b} after {of_a}"), &*second, &b.map);
}

/// Order is by place, so full maps that differ in one place only are compared too.
fn full_maps<K: Kind>() -> Vec<Vec<Entry>> {
    let range = |i: usize| K::ends(10 * i as i128, 10 * i as i128 + 5).expect("small keys");
    let value = K::value(7);
    let full: Vec<Entry> = (0..PLACES).map(|i| (range(i), value)).collect();
    let last = PLACES - 1;
    let mut maps = vec![full.clone(), full[..last].to_vec(), full[1..].to_vec()];
    for place in [0, 1, last / 2, last - 1, last] {
        // A set has no other value.
        for change in [((1, 0), 0), ((0, 1), 0), ((0, 0), K::value(1))] {
            let mut changed = full.clone();
            let ((start, end), value) = &mut changed[place];
            *start += change.0 .0;
            *end += change.0 .1;
            *value += change.1;
            maps.push(changed);
        }
    }
    maps
}

fn compare_all<K: Kind>(report: &mut Report, states: Vec<Vec<Entry>>) {
    let states: Vec<Paired<K>> = states.into_iter().map(Paired::new).collect();
    for a in &states {
        let mut first = a.map.clone();
        for b in &states {
            let mut second = b.map.clone();
            compare_pair(report, a, b, (&mut first, &mut second));
        }
    }
}

pub fn compare<K: Kind>(report: &mut Report, size: &Size) {
    let cells = size.paired_cells;
    for placed in Placed::all::<K>(cells) {
        let name = placed.name;
        report.part(format!("{}, pairs over {cells} cells {name}", K::NAME));
        let states = Dense::states::<K>(cells).map(|dense| entries::<K>(&placed.cells, &dense));
        compare_all::<K>(report, states.collect());
    }
    report.part(format!("{}, pairs of full ones", K::NAME));
    compare_all::<K>(report, full_maps::<K>());
}
