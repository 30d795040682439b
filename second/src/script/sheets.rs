//! Random valid sheets, as rows of records.

use std::collections::{BTreeMap, BTreeSet};

use crate::random::Random;
use crate::sheet::{MARK, OPERANDS};

use super::paths;

/// A record of a sheet.
pub fn record(kind: u8, payload: &[u8]) -> Vec<u8> {
    let mut bytes = MARK.to_vec();
    bytes.push(kind);
    bytes.push(payload.len() as u8);
    bytes.extend(payload);
    bytes
}

const MOST_ROOTS: usize = 16;

/// How large a sheet is to be: the most of each sort.
struct Size {
    events: usize,
    pairs: usize,
    roots: usize,
    nodes: usize,
}

/// A valid sheet of any size, the small ones being the likelier, for their
/// sessions close soon and their histories grow long.
pub fn any(random: &mut Random) -> Vec<Vec<u8>> {
    let size = match random.weighted(&[16, 34, 26, 14, 10]) {
        0 => Size { events: 2, pairs: 1, roots: 2, nodes: 6 },
        1 => Size { events: 5, pairs: 5, roots: 3, nodes: 14 },
        2 => Size { events: 12, pairs: 14, roots: 4, nodes: 22 },
        3 => Size { events: 32, pairs: 40, roots: 6, nodes: 40 },
        _ => Size { events: 32, pairs: 64, roots: MOST_ROOTS, nodes: 64 },
    };
    of_size(random, &size)
}

/// A valid sheet that takes little room.
pub fn small(random: &mut Random) -> Vec<Vec<u8>> {
    of_size(random, &Size { events: 6, pairs: 3, roots: 2, nodes: 5 })
}

fn of_size(random: &mut Random, size: &Size) -> Vec<Vec<u8>> {
    // One time in four as many as can be.
    let full = random.percent(25);
    let most = full || random.percent(20);
    let events = if most { size.events } else { random.between(1, size.events) };
    let mut records = vec![record(1, &[events as u8])];
    for kind in [2, 3] {
        let wanted = if full { size.pairs } else { random.between(0, size.pairs) };
        records.extend(pairs(random, kind, events, wanted));
    }
    let wanted = if full { size.roots } else { random.between(0, size.roots) };
    let long = size.roots == MOST_ROOTS && random.percent(20);
    records.extend(roots(random, events, wanted, long));
    let wanted = if full { size.nodes } else { random.between(1, size.nodes) };
    records.extend(nodes(random, events, wanted));
    records
}

/// How the pairs of one kind lie: anywhere, each event with the one before it
/// (which makes long chains), or each with one of the first two events.
#[derive(Clone, Copy)]
enum Shape {
    Any,
    Chain,
    Hubs,
}

/// Causes or conflicts: pairs a < b, strictly ascending, as many as wanted
/// where there are so many.
fn pairs(random: &mut Random, kind: u8, events: usize, wanted: usize) -> Vec<Vec<u8>> {
    let shape = random.pick(&[Shape::Any, Shape::Any, Shape::Chain, Shape::Hubs]);
    let mut found = BTreeSet::new();
    for _ in 0..if events > 1 { 5 * wanted } else { 0 } {
        if found.len() < wanted {
            let b = random.between(1, events - 1);
            let a = match shape {
                Shape::Any => random.below(b),
                Shape::Chain => b - 1,
                Shape::Hubs => random.below(b.min(2)),
            };
            found.insert((a as u8, b as u8));
        }
    }
    found.into_iter().map(|(a, b)| record(kind, &[a, b])).collect()
}

/// Roots, many of them nested, ascending by access and path; all of them
/// close to the longest, if that is asked for.
fn roots(random: &mut Random, events: usize, wanted: usize, long: bool) -> Vec<Vec<u8>> {
    let mut found: BTreeMap<(u8, Vec<u8>), u8> = BTreeMap::new();
    let mut earlier: Vec<Vec<u8>> = Vec::new();
    for _ in 0..3 * wanted {
        if found.len() < wanted {
            let path = if long { paths::long_root(random) } else { paths::root(random, &earlier) };
            let access = random.below(2) as u8;
            found.insert((access, path.clone()), random.below(events) as u8);
            earlier.push(path);
        }
    }
    let payload = |((access, path), event): ((u8, Vec<u8>), u8)| {
        let mut payload = vec![access, event];
        payload.extend(path);
        record(4, &payload)
    };
    found.into_iter().map(payload).collect()
}

/// A policy: atoms first, then mostly nodes that look back.
fn nodes(random: &mut Random, events: usize, wanted: usize) -> Vec<Vec<u8>> {
    let atoms = random.between(1, 4);
    let mut found = Vec::new();
    for place in 0..wanted {
        let weights: &[usize] = if place < atoms { &[2, 5, 4] } else { &[1, 3, 3, 5, 4, 4, 6, 9] };
        let kind = random.weighted(weights);
        let mut payload = vec![kind as u8];
        for _ in 0..OPERANDS[kind] {
            let operand = if kind < 3 { random.below(events) } else { earlier(random, place) };
            payload.push(operand as u8);
        }
        found.push(record(5, &payload));
    }
    found
}

/// An earlier node, mostly one close by, so that nodes grow deep.
fn earlier(random: &mut Random, place: usize) -> usize {
    if random.percent(65) {
        random.between(place.saturating_sub(4), place - 1)
    } else {
        random.below(place)
    }
}
