//! The largest sizes: 1,024 zones, 4,096 arcs, in many shapes, and refusals at
//! the last place. And sizes about multiples of 128, where the skeleton's table
//! goes from one block of components to the next.

use crate::compare::Comparer;
use crate::families::{self, FAMILIES};
use crate::model::{work_asked, MOST_ARCS, MOST_ZONES};
use crate::net::Net;
use crate::properties;

pub fn run(to: &mut Comparer, rounds: usize, questions: usize) {
    for _ in 0..rounds {
        for family in FAMILIES {
            let net = families::make(family, MOST_ZONES, &mut to.chance);
            one(to, &net, questions);
        }
        for arcs in shapes() {
            let net = families::mixed(MOST_ZONES, arcs, &mut to.chance);
            one(to, &net, questions);
        }
        edges(to);
        for zones in [126, 127, 128, 129, 130, 255, 256, 257, 384, 385, 1023, 1024] {
            for arcs in block_shapes(zones) {
                let net = families::mixed(zones, arcs, &mut to.chance);
                one(to, &net, 1);
            }
        }
    }
}

/// Components along a path, so that a zone's place is its number, with arcs that
/// have a third between or not, within a block and from one to the next.
fn block_shapes(zones: usize) -> Vec<Vec<(usize, usize)>> {
    let path: Vec<(usize, usize)> = (1..zones).map(|zone| (zone - 1, zone)).collect();
    let ahead = |step: usize| (0..zones - step).map(move |zone| (zone, zone + step));
    // Every other zone has no arc to the next: arcs over one stay, arcs over two go.
    let steps: Vec<(usize, usize)> = ahead(2).chain(ahead(4)).collect();
    // The zones about each edge of a block, each to each behind it.
    let about: Vec<usize> = (0..zones).filter(|zone| (zone + 3) % 128 < 6).collect();
    let edge = about.iter().flat_map(|&a| about.iter().map(move |&b| (a, b))).filter(|(a, b)| a < b).collect();
    // The first zone of each block to the last of every block.
    let ends = (0..zones).step_by(128).flat_map(|a| (127..zones).step_by(128).map(move |b| (a, b)));
    let mut doubled = path.clone();
    doubled.extend(ahead(128.min(zones - 1)));
    doubled.extend(path.iter().copied());
    vec![steps, edge, ends.filter(|(a, b)| a < b).chain(path).collect(), doubled]
}

fn one(to: &mut Comparer, net: &Net, questions: usize) {
    if to.full() {
        return;
    }
    to.all(net, Some(questions));
    properties::hold(to, net);
    // The same in order, where a search goes deepest or a row is longest.
    let mut arcs: Vec<(usize, usize)> =
        net.tails.iter().zip(&net.heads).map(|(&a, &b)| (usize::from(a), usize::from(b))).collect();
    arcs.sort();
    to.all(&Net::new(net.zones, &arcs).without(&net.gone), Some(1));
}

/// Shapes at the edge of one thing or another.
fn shapes() -> Vec<Vec<(usize, usize)>> {
    let last = MOST_ZONES - 1;
    let path = |start: usize, end: usize| (start + 1..end).map(|zone| (zone - 1, zone)).collect::<Vec<_>>();
    let mut two_way = path(0, MOST_ZONES);
    two_way.extend((1..MOST_ZONES).map(|zone| (zone, zone - 1)));
    // Every source through one zone to every sink.
    let mut hub: Vec<(usize, usize)> = (0..511).map(|zone| (zone, last)).collect();
    hub.extend((511..last).map(|zone| (last, zone)));
    // Sources that all reach one sink, and that sink's source many sinks.
    let mut hard: Vec<(usize, usize)> = (1..500).map(|zone| (zone, 1000)).collect();
    hard.extend((500..1000).map(|zone| (0, zone)));
    hard.push((0, 1000));
    // A long path with an arc from each zone to the end, four times over.
    let mut shortcuts = path(0, MOST_ZONES);
    shortcuts.extend((0..last - 1).map(|zone| (zone, last)));
    shortcuts.extend((0..last - 1).map(|zone| (0, zone + 1)));
    shortcuts.extend((0..1000).map(|zone| (zone, zone + 2)));
    vec![
        vec![],
        vec![(0, last)],
        vec![(3, 4); MOST_ARCS],
        (1..MOST_ZONES).map(|zone| (0, zone)).collect(),
        (1..MOST_ZONES).map(|zone| (zone, 0)).collect(),
        (0..512).map(|zone| (zone, zone + 512)).collect(),
        (0..341).flat_map(|zone| [(zone, zone + 341), (zone, zone + 682)]).collect(),
        (0..341).flat_map(|zone| [(zone + 341, zone), (zone + 682, zone)]).collect(),
        (0..MOST_ARCS).map(|arc| (arc / 64, 64 + arc % 64)).collect(),
        (0..64 * 64).map(|arc| (arc / 64, arc % 64)).filter(|(a, b)| a != b).collect(),
        (0..512).flat_map(|zone| [(2 * zone, 2 * zone + 1), (2 * zone + 1, 2 * zone)]).collect(),
        two_way,
        hub,
        hard,
        shortcuts,
    ]
}

/// Sizes just within and just beyond, and trouble in the last arc.
fn edges(to: &mut Comparer) {
    let good = families::make("random", MOST_ZONES, &mut to.chance);
    let work = work_asked(MOST_ZONES, MOST_ARCS);
    let mut nets = vec![good.clone()];
    for change in 0..7 {
        let mut net = good.clone();
        match change {
            0 => net.zones = 1025,
            1 => net = net.with(&[0], &[1]),
            2 => net.tails[MOST_ARCS - 1] = 1024,
            3 => net.heads[MOST_ARCS - 1] = 1024,
            4 => net.heads[MOST_ARCS - 1] = net.tails[MOST_ARCS - 1],
            5 => drop(net.tails.pop()),
            _ => net.heads.push(0),
        }
        nets.push(net);
    }
    for net in nets {
        for short in [0, 1] {
            to.write(&net, 16_388 - short);
            to.strong(&net, work - short);
            to.reach(&net, 0, 1023 + short, work);
            to.reach(&net, 1023 + short, 0, work - short);
            to.reach(&net, 5, 1023, work - short);
            to.skeleton(&net, [MOST_ARCS - short, MOST_ARCS], work);
            to.skeleton(&net, [MOST_ARCS, MOST_ARCS - short], work);
            to.skeleton(&net, [MOST_ARCS, MOST_ARCS], work - short);
            to.plan(&net, [MOST_ZONES - short, MOST_ZONES, MOST_ZONES], work);
            to.plan(&net, [MOST_ZONES, MOST_ZONES - short, MOST_ZONES], work);
            to.plan(&net, [MOST_ZONES, MOST_ZONES, MOST_ZONES - short], work);
            to.plan(&net, [MOST_ZONES, MOST_ZONES, MOST_ZONES], work - short);
        }
    }
}
