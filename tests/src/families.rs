//! Nine families of networks of any size, for the largest sizes and for timing.

use crate::chance::Chance;
use crate::net::Net;

pub const FAMILIES: [&str; 9] = [
    "random", "strong", "sparse", "acyclic", "layered", "many sources", "one cycle", "one path", "half withdrawn",
];

/// A network of the family, with four arcs a zone where the family allows it.
/// Zones are numbered and arcs are put in order by chance.
pub fn make(family: &str, zones: usize, chance: &mut Chance) -> Net {
    let arcs = match family {
        "random" => (0..4 * zones).map(|_| two(0, zones, chance)).collect(),
        // A ring through all zones makes it strong.
        "strong" => {
            let mut arcs = ring(0, zones);
            arcs.extend((0..3 * zones).map(|_| two(0, zones, chance)));
            arcs
        }
        "sparse" => (0..zones).map(|_| two(0, zones, chance)).collect(),
        "acyclic" => (0..4 * zones).map(|_| two(0, zones, chance)).map(|(a, b)| (a.min(b), a.max(b))).collect(),
        // Layers of 16 zones, each zone with four arcs to the next layer.
        "layered" => {
            let tails = (0..4 * (zones - 16)).map(|arc| arc / 4);
            tails.map(|tail| (tail, (tail / 16 + 1) * 16 + chance.below(16))).collect()
        }
        "many sources" => many_sources(zones, chance),
        "one cycle" => ring(0, zones),
        "one path" => (1..zones).map(|zone| (zone - 1, zone)).collect(),
        "half withdrawn" => return half_withdrawn(zones, chance),
        other => panic!("no family {other}"),
    };
    mixed(zones, arcs, chance)
}

/// Two distinct zones of those from `start` to before `end`.
fn two(start: usize, end: usize, chance: &mut Chance) -> (usize, usize) {
    let tail = chance.below(end - start);
    let head = (tail + 1 + chance.below(end - start - 1)) % (end - start);
    (start + tail, start + head)
}

fn ring(start: usize, end: usize) -> Vec<(usize, usize)> {
    (start..end).map(|zone| (zone, if zone + 1 < end { zone + 1 } else { start })).collect()
}

/// A third of the zones are sources with four arcs each into a strong middle,
/// which has four arcs to each of as many sinks: every source reaches every
/// sink, so the pairing has the most to look at.
fn many_sources(zones: usize, chance: &mut Chance) -> Vec<(usize, usize)> {
    let third = zones / 3;
    let middle = zones - 2 * third;
    let mut arcs = ring(2 * third, zones);
    while arcs.len() < 4 * middle {
        arcs.push(two(2 * third, zones, chance));
    }
    for end in 0..third {
        for _ in 0..4 {
            arcs.push((end, 2 * third + chance.below(middle)));
            arcs.push((2 * third + chance.below(middle), third + end));
        }
    }
    arcs
}

/// Every other zone is withdrawn, and those that remain have four arcs each.
fn half_withdrawn(zones: usize, chance: &mut Chance) -> Net {
    let left = zones.div_ceil(2);
    let arcs: Vec<(usize, usize)> =
        (0..4 * left).map(|_| two(0, left, chance)).map(|(a, b)| (2 * a, 2 * b)).collect();
    let gone: Vec<u16> = (0..zones as u16).filter(|zone| zone % 2 == 1).collect();
    Net::new(zones, &arcs).without(&gone)
}

/// Numbers the zones anew and puts the arcs in another order.
pub fn mixed(zones: usize, mut arcs: Vec<(usize, usize)>, chance: &mut Chance) -> Net {
    let number = chance.order(zones);
    for arc in &mut arcs {
        *arc = (number[arc.0], number[arc.1]);
    }
    chance.shuffle(&mut arcs);
    Net::new(zones, &arcs)
}
