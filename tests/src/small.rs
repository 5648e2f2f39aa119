//! Every network of up to four zones without repeated arcs, with every choice of
//! withdrawn zones, every call and every reach question. Over all of them
//! together that have the same zones withdrawn: the plan's number of links is
//! the fewest, skeletons are equal exactly where reach is, and equal skeletons
//! have equal plans.

use crate::compare::Comparer;
use crate::model::links;
use crate::net::Net;
use crate::properties;
use crate::words::Table;
use std::collections::HashMap;

pub fn run(to: &mut Comparer, most_zones: usize) {
    for zones in 1..=most_zones {
        for chosen in 0..(1 << zones) - 1 {
            let gone: Vec<u16> = (0..zones as u16).filter(|zone| chosen >> zone & 1 == 1).collect();
            of_size(to, zones, &gone);
        }
    }
}

/// The arcs that the bits of a number choose out of all pairs of zones.
fn subset(pairs: &[(usize, usize)], chosen: usize) -> Vec<(usize, usize)> {
    (0..pairs.len()).filter(|bit| chosen >> bit & 1 == 1).map(|bit| pairs[bit]).collect()
}

/// The fewest arcs that make each subset strong: none if it is, else one more
/// than the best of those with one arc more.
fn fewest_arcs(zones: usize, gone: &[u16], pairs: &[(usize, usize)]) -> Vec<usize> {
    let mut fewest = vec![0; 1 << pairs.len()];
    for chosen in (0..fewest.len()).rev() {
        if !Table::new(&Net::new(zones, &subset(pairs, chosen)).without(gone)).strong() {
            let more = (0..pairs.len()).filter(|bit| chosen >> bit & 1 == 0).map(|bit| fewest[chosen | 1 << bit]);
            fewest[chosen] = 1 + more.min().unwrap();
        }
    }
    fewest
}

fn of_size(to: &mut Comparer, zones: usize, gone: &[u16]) {
    let stays = |zone: usize| !gone.contains(&(zone as u16));
    let all = (0..zones * zones).map(|i| (i / zones, i % zones));
    let pairs: Vec<(usize, usize)> = all.filter(|&(a, b)| a != b && stays(a) && stays(b)).collect();
    let fewest = fewest_arcs(zones, gone, &pairs);
    let mut by_reach: HashMap<Table, Vec<(u16, u16)>> = HashMap::new();
    let mut by_skeleton: HashMap<Vec<(u16, u16)>, (Table, links::Plan)> = HashMap::new();
    for chosen in 0..fewest.len() {
        if to.full() {
            return;
        }
        let net = Net::new(zones, &subset(&pairs, chosen)).without(gone);
        to.all(&net, None);
        let table = properties::hold(to, &net);
        let plan = properties::of(&net).plan();
        to.hold(plan.links.len() == fewest[chosen], || {
            format!("model: fewest links are {}: {net}\n    {plan:?}", fewest[chosen])
        });
        let skeleton = properties::of(&net).skeleton();
        let same = by_reach.entry(table.clone()).or_insert_with(|| skeleton.clone()).clone();
        to.hold(same == skeleton, || format!("model: equal reach, other skeleton: {net}\n    {skeleton:?} {same:?}"));
        let same = by_skeleton.entry(skeleton).or_insert_with(|| (table.clone(), plan.clone())).clone();
        to.hold(same.0 == table, || format!("model: equal skeleton, other reach: {net}"));
        to.hold(same.1 == plan, || format!("model: equal skeleton, other plan: {net}"));

        // The same network with its arcs in another order.
        let mut arcs = subset(&pairs, chosen);
        to.chance.shuffle(&mut arcs);
        to.all(&Net::new(zones, &arcs).without(gone), Some(2));
    }
}
