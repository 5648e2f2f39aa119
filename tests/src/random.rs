//! Networks by chance, with repeated arcs, half of them damaged, and lent lists
//! of the length asked for, longer, or too short by one or by more.

use crate::chance::Chance;
use crate::compare::Comparer;
use crate::families;
use crate::files;
use crate::model::{self, work_asked};
use crate::net::Net;
use crate::properties;

pub fn run(to: &mut Comparer, cases: u64) {
    for _ in 0..cases {
        if to.full() {
            return;
        }
        case(to);
    }
}

fn case(to: &mut Comparer) {
    let mut good = network(&mut to.chance);
    if to.chance.one_in(2) {
        withdraw(&mut good, &mut to.chance);
    }
    let mut net = good.clone();
    if to.chance.one_in(2) {
        damage(&mut net, &mut to.chance);
    }
    if net == good && good.zones <= 64 {
        properties::hold(to, &good);
    }
    // Where the zone count is damaged, lengths go by the good one.
    let zones = if net.zones <= model::MOST_ZONES { net.zones } else { good.zones };
    let arcs = net.tails.len();
    let work = work_asked(zones, arcs);

    let file = model::file::bytes(good.zones, &good.tails, &good.heads);
    let lengths = [length(file.len(), to), length(work, to), length(work, to), length(work, to)];
    to.write(&net, lengths[0]);
    to.strong(&net, lengths[1]);
    let out = [length(arcs, to), length(arcs, to)];
    to.skeleton(&net, out, lengths[2]);
    let out = [length(zones, to), length(zones, to), length(zones, to)];
    to.plan(&net, out, lengths[3]);
    for _ in 0..2 {
        let (from, second) = (asked(zones, &mut to.chance), asked(zones, &mut to.chance));
        let work = length(work, to);
        to.reach(&net, from, second, work);
    }

    let mut file = file;
    if to.chance.one_in(2) {
        files::damage(&mut file, &mut to.chance);
    }
    let out = [length(good.tails.len(), to), length(good.tails.len(), to)];
    to.read(&file, out[0], out[1]);
}

/// A length to lend where `asked` is asked for.
fn length(asked: usize, to: &mut Comparer) -> usize {
    // Far more than enough; a length cut down to 16 bits would be too short.
    if to.chance.one_in(5000) {
        return 65_536 + to.chance.pick(&[0, asked / 2, asked.saturating_sub(1)]);
    }
    match to.chance.below(40) {
        0..=2 => asked.saturating_sub(1),
        3 => asked / 2,
        4 => 0,
        5..=20 => asked + to.chance.below(6),
        _ => asked,
    }
}

/// A zone of a question; sometimes one that there is not.
fn asked(zones: usize, chance: &mut Chance) -> usize {
    let zone = chance.below(zones.max(1));
    match chance.below(60) {
        0 => zones,
        1 => zones + 1,
        2 => 65_536 + zone,
        3 => (1 << 32) + zone,
        4 => usize::MAX,
        5 => chance.pick(&[255, 256, 1023, 1024, 1025, 65_535, 65_536, usize::MAX / 2 + 1]),
        _ => zone,
    }
}

/// A good network of one of several makes.
pub fn network(chance: &mut Chance) -> Net {
    let zones = match chance.below(5000) {
        0 => 1024,
        1..=10 => 129 + chance.below(150),
        11..=60 => 33 + chance.below(96),
        61..=2500 => 1 + chance.below(6),
        _ => 1 + chance.below(14),
    };
    if zones == 1 {
        return Net::new(1, &[]);
    }
    let many = if zones == 1024 { chance.pick(&[0, 1, 500, 4096]) } else { chance.below(3 * zones) };
    let pair = |chance: &mut Chance| {
        let tail = chance.below(zones);
        (tail, (tail + 1 + chance.below(zones - 1)) % zones)
    };
    let mut arcs: Vec<(usize, usize)> = (0..many).map(|_| pair(chance)).collect();
    shape(zones, &mut arcs, chance);
    if !arcs.is_empty() {
        for _ in 0..chance.pick(&[0, 0, 1, 3]) {
            let again = chance.pick(&arcs);
            arcs.push(again);
        }
    }
    arcs.truncate(model::MOST_ARCS);
    families::mixed(zones, arcs, chance)
}

/// Puts arcs by chance into one of seven shapes.
fn shape(zones: usize, arcs: &mut Vec<(usize, usize)>, chance: &mut Chance) {
    match chance.below(7) {
        // As they are, many or few.
        0 => {}
        1 => arcs.truncate(arcs.len() / 3),
        // Without rings.
        2 => arcs.iter_mut().for_each(|arc| *arc = (arc.0.min(arc.1), arc.0.max(arc.1))),
        // From the first zones to the last only, with the split anywhere.
        3 => {
            let split = 1 + chance.below(zones - 1);
            arcs.truncate(1 + zones);
            across(zones, split, arcs);
        }
        // In groups of zones that have nothing to do with each other.
        4 => {
            let group = 1 + chance.below(4);
            arcs.retain(|arc| arc.0 / group == arc.1 / group);
        }
        // Many sources to few sinks and few to many: some unpaired on each side.
        5 if zones > 3 => {
            let few = 1 + chance.below(2);
            let split = zones / 2;
            across(zones, split, arcs);
            for arc in arcs {
                if chance.one_in(2) {
                    arc.0 %= few;
                } else {
                    arc.1 = split + arc.1 % few;
                }
            }
        }
        // Small rings with arcs upward between them.
        _ => {
            let group = 2 + chance.below(3);
            for arc in arcs.iter_mut().filter(|arc| arc.0 / group > arc.1 / group) {
                *arc = (arc.1, arc.0);
            }
        }
    }
}

/// Turns every arc into one from the zones before the split to those behind it.
fn across(zones: usize, split: usize, arcs: &mut [(usize, usize)]) {
    for arc in arcs {
        *arc = (arc.0 % split, split + arc.1 % (zones - split));
    }
}

/// Withdraws zones by chance, few or many but not all, and drops their arcs.
fn withdraw(net: &mut Net, chance: &mut Chance) {
    let many = chance.pick(&[2, 2, 3, 8]);
    let left = chance.below(net.zones) as u16;
    net.gone = (0..net.zones as u16).filter(|&zone| chance.one_in(many) && zone != left).collect();
    if chance.one_in(8) {
        net.gone = (0..net.zones as u16).filter(|&zone| zone != left).collect();
    }
    let stay: Vec<bool> =
        net.tails.iter().zip(&net.heads).map(|(a, b)| !net.gone.contains(a) && !net.gone.contains(b)).collect();
    let mut at = stay.iter();
    net.tails.retain(|_| *at.next().unwrap());
    let mut at = stay.iter();
    net.heads.retain(|_| *at.next().unwrap());
}

/// A damage to the list of withdrawn zones.
fn damage_list(net: &mut Net, zones: usize, chance: &mut Chance) {
    let at = chance.below(net.gone.len() + 1);
    let zone = chance.below(zones) as u16;
    match chance.below(9) {
        // A zone more, which may have arcs, or stand there already, or be out of order.
        0 => net.gone.insert(at, zone),
        1 | 2 => {
            net.gone.push(zone);
            net.gone.sort();
            net.gone.dedup();
        }
        // All of them.
        3 => net.gone = (0..zones as u16).collect(),
        // A number out of range.
        4 => net.gone.insert(at, chance.pick(&[zones as u16, 1023, 1024, 65_535])),
        // Out of order, or one twice.
        5 if net.gone.len() > 1 => {
            let last = net.gone.len() - 1;
            net.gone.swap(at.min(last), last);
        }
        6 if at < net.gone.len() => net.gone.insert(at, net.gone[at]),
        // A list far longer than the zones; a length cut down to 16 bits would be a short one.
        7 if chance.one_in(200) => net.gone.resize(65_536 + at, zones as u16 - 1),
        _ => net.gone.resize(zones + 1 + at, zone),
    }
}

/// One to three damages, so that the order of the tests is seen.
fn damage(net: &mut Net, chance: &mut Chance) {
    let zones = net.zones;
    for _ in 0..1 + chance.below(3) {
        let arcs = net.tails.len();
        let at = if arcs > 0 { chance.below(arcs) } else { 0 };
        let at = if chance.one_in(4) { arcs.saturating_sub(1) } else { at };
        // Very long lists take time and come seldom.
        let kinds = if chance.one_in(200) { 11 } else { 9 };
        match chance.below(kinds) {
            0 | 1 => net.zones = other_zones(zones, chance),
            // Lists of different length.
            2 => {
                let (short, long) = (chance.below(arcs + 1), arcs + 1 + chance.below(3));
                let length = chance.pick(&[short, arcs.saturating_sub(1), long, arcs + 1]);
                let list = if chance.one_in(2) { &mut net.tails } else { &mut net.heads };
                list.resize(length, chance.below(zones) as u16);
            }
            // Zone numbers that there are not.
            3 | 4 => {
                let other = zones + chance.below(65_536 - zones);
                let zone = chance.pick(&[zones, zones + 1, zones + 256, 1023, 1024, 32_768, 65_535, other]) as u16;
                let list = if chance.one_in(2) { &mut net.tails } else { &mut net.heads };
                if at < list.len() {
                    list[at] = zone;
                }
            }
            // An arc from a zone to itself, perhaps from one that there is not.
            5 | 6 if at < net.tails.len().min(net.heads.len()) => net.heads[at] = net.tails[at],
            5 | 6 => {}
            7 | 8 => damage_list(net, zones, chance),
            both => too_many(net, zones, both == 9, chance),
        }
    }
}

/// A zone count that is not this one: mostly one that there may not be.
fn other_zones(zones: usize, chance: &mut Chance) -> usize {
    match chance.below(11) {
        0 => 0,
        1 => 1025,
        2 => 65_536 + zones,
        3 => (1 << 32) + zones,
        4 => usize::MAX,
        5 => usize::MAX / 2 + 1 + zones,
        6 => 1026 + chance.below(70_000),
        7 => 65_536,
        8 => 1 << (11 + chance.below(53)),
        9 => zones - 1,
        _ => 1 + chance.below(zones),
    }
}

/// More arcs than there may be; both lists or perhaps one. A count cut down to
/// 16 bits would be a small one.
fn too_many(net: &mut Net, zones: usize, both: bool, chance: &mut Chance) {
    let arcs = net.tails.len();
    let length = chance.pick(&[4096, 4097, 4097, 5000, 65_536, 65_536 + arcs, 65_537 + arcs]);
    if both || chance.one_in(2) {
        net.tails.resize(length, 0);
    }
    if both || chance.one_in(2) {
        net.heads.resize(length, (zones > 1) as u16);
    }
}
