//! Holds the tuned skeleton against the model's on networks by chance. One
//! program makes them all, so that what is left of one may not change the next.

use crate::chance::Chance;
use crate::families::{make, mixed, FAMILIES};
use crate::model::{self, work_asked};
use crate::net::Net;
use crate::tuned::Tuned;

/// Both on one network, with lists longer than asked for, or shorter by one.
fn compare(tuned: &mut Tuned, net: &Net, short: usize) {
    let arcs = net.tails.len().max(net.heads.len());
    let lengths = [arcs, arcs, work_asked(net.zones, arcs)];
    let length = |list: usize| if list == short { lengths[list].saturating_sub(1) } else { lengths[list] + 2 };
    let mut lent: [Vec<u16>; 3] = std::array::from_fn(|list| vec![0xeeee; length(list)]);
    let mut theirs = lent.clone();
    let [tails, heads, work] = &mut lent;
    let answer = tuned.skeleton(net.zones, &net.tails, &net.heads, tails, heads, work);
    let [tails, heads, work] = &mut theirs;
    let model = model::skeleton(net.zones, &net.tails, &net.heads, &net.gone, tails, heads, work);
    assert!(answer == model && lent == theirs, "{net}");
}

/// A network whose arcs go mostly upwards, so that it has components of all
/// sizes, and sometimes one that is damaged.
fn small(chance: &mut Chance) -> Net {
    let zones = 1 + chance.below(40);
    let back = 1 + chance.below(12);
    let mut arcs = Vec::new();
    for _ in 0..chance.below(4 * zones) {
        let (a, b) = (chance.below(zones), chance.below(zones));
        if a != b {
            arcs.push(if chance.one_in(back) { (a.max(b), a.min(b)) } else { (a.min(b), a.max(b)) });
        }
    }
    let net = mixed(zones, arcs, chance);
    match chance.below(40) {
        0 => net.with(&[0], &[]),
        1 => net.with(&[0], &[0]),
        2 => net.with(&[zones as u16], &[0]),
        3 => Net { zones: 0, ..net },
        _ => net,
    }
}

#[test]
fn small_networks() {
    let (mut tuned, mut chance) = (Tuned::new(), Chance::new(1));
    for _ in 0..20_000 {
        let short = chance.below(40);
        compare(&mut tuned, &small(&mut chance), short);
    }
}

#[test]
fn large_networks() {
    let (mut tuned, mut chance) = (Tuned::new(), Chance::new(2));
    for zones in [1024, 1023, 769, 768, 767, 513, 512, 511, 257, 256, 255, 65, 64, 63] {
        // Layers are of 16 zones.
        for family in FAMILIES.iter().filter(|&&family| family != "layered" || zones % 16 == 0) {
            compare(&mut tuned, &make(family, zones, &mut chance), 3);
        }
    }
}
