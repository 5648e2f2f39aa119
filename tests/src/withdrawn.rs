//! Withdrawn zones: lists with one fault at each index, every single zone
//! withdrawn and every single zone left, all of them withdrawn, lists longer
//! than the zone count, and GONE at every number of the largest network.

use crate::compare::Comparer;
use crate::model::{work_asked, MOST_ZONES};
use crate::net::Net;
use crate::properties;

/// `step` thins out what is done for each zone of the largest networks.
pub fn run(to: &mut Comparer, step: usize) {
    for zones in [1, 2, 3, 4, 5, 8, 17] {
        of_size(to, zones, 1);
    }
    for zones in [63, 64, 65, 128, 1023, MOST_ZONES] {
        of_size(to, zones, step);
    }
    gone(to, step);
}

/// Every call on a network, good or not, asked about a few zones.
fn each(to: &mut Comparer, net: &Net) {
    if to.full() {
        return;
    }
    let (zones, arcs) = (net.zones, net.tails.len());
    let work = work_asked(zones, arcs);
    to.write(net, 4 * arcs + 8);
    to.strong(net, work);
    to.skeleton(net, [arcs, arcs], work);
    to.plan(net, [zones, zones, zones], work);
    let other = to.chance.below(zones);
    for (from, second) in [(0, zones - 1), (zones - 1, 0), (other, other)] {
        to.reach(net, from, second, work);
    }
}

/// A ring through the zones that remain.
fn ring(zones: usize, gone: &[u16]) -> Net {
    let stay: Vec<usize> = (0..zones).filter(|&zone| gone.binary_search(&(zone as u16)).is_err()).collect();
    let arcs: Vec<(usize, usize)> = (0..stay.len()).map(|i| (stay[i], stay[(i + 1) % stay.len()])).collect();
    Net::new(zones, if arcs.len() < 2 { &[] } else { &arcs }).without(gone)
}

fn of_size(to: &mut Comparer, zones: usize, step: usize) {
    let all: Vec<u16> = (0..zones as u16).collect();
    let odd: Vec<u16> = all.iter().copied().filter(|zone| zone % 2 == 1).collect();
    each(to, &Net::new(zones, &[]).without(&all));
    for index in (0..zones).step_by(step).chain([zones - 1]) {
        let zone = index as u16;
        let others: Vec<u16> = all.iter().copied().filter(|&other| other != zone).collect();
        // One zone withdrawn, and one zone left; no arc, and a ring.
        for gone in [vec![zone], others.clone()] {
            each(to, &Net::new(zones, &[]).without(&gone));
            if gone.len() < zones {
                let net = ring(zones, &gone);
                each(to, &net);
                properties::hold(to, &net);
            }
        }
        // One fault at the index.
        for good in [&all, &odd, &others] {
            if index < good.len() {
                faults(to, zones, good, index);
            }
        }
        // A list longer than the zone count, good up to the index or as far as can be.
        let mut longer = all.clone();
        longer.extend(&all[..=index]);
        each(to, &Net::new(zones, &[]).without(&longer));
    }
}

/// The list with one number put in the place of another.
fn faults(to: &mut Comparer, zones: usize, good: &[u16], index: usize) {
    let before = if index > 0 { good[index - 1] } else { 0 };
    let numbers = [zones as u16, 1023, 1024, 65_535, before, before.wrapping_sub(1), good[index].wrapping_add(64)];
    for number in numbers {
        let mut list = good.to_vec();
        list[index] = number;
        each(to, &Net::new(zones, &[]).without(&list));
    }
}

/// Each number withdrawn, with an arc at it and arcs at its neighbours; and each
/// left, with all but one other withdrawn.
fn gone(to: &mut Comparer, step: usize) {
    let zones = MOST_ZONES;
    for zone in (0..zones).step_by(step) {
        let (next, other) = ((zone + 1) % zones, (zone + 64) % zones);
        for arcs in [[(next, other), (zone, other)], [(other, next), (next, zone)], [(other, next), (next, other)]] {
            each(to, &Net::new(zones, &arcs).without(&[zone as u16]));
        }
        let rest: Vec<u16> = (0..zones).filter(|&z| z != zone && z != other).map(|z| z as u16).collect();
        for arcs in [vec![(zone, other)], vec![(zone, other), (other, zone)], vec![(zone, other), (zone, next)]] {
            let net = Net::new(zones, &arcs).without(&rest);
            each(to, &net);
            to.reach(&net, zone, other, work_asked(zones, arcs.len()));
            to.reach(&net, zone, next, work_asked(zones, arcs.len()));
        }
    }
}
