//! The plan rule.

use super::graph::{component_arcs, components, rows, Components, Rows};

pub const RING: u16 = 0;
pub const CHAIN: u16 = 1;
pub const BACK: u16 = 2;

#[derive(Clone, Copy, PartialEq, Eq, Debug)]
pub struct Link {
    pub from: u16,
    pub to: u16,
    pub why: u16,
}

/// The plan and its counts; the counts are of the network as given.
#[derive(Clone, PartialEq, Eq, Debug)]
pub struct Plan {
    pub sources: usize,
    pub sinks: usize,
    pub alone: usize,
    pub pairs: usize,
    pub links: Vec<Link>,
}

pub fn plan(zones: usize, tails: &[u16], heads: &[u16]) -> Plan {
    let forward = rows(zones, tails, heads);
    let parts = components(zones, &forward);
    if parts.names.len() == 1 {
        return Plan { sources: 0, sinks: 0, alone: 1, pairs: 0, links: Vec::new() };
    }

    let [sources, sinks, alone] = kinds(&parts, tails, heads);
    let (s, t) = (sources.len(), sinks.len());
    let turned = s > t;
    let (pairs, mut links) = if turned {
        rule(zones, &rows(zones, heads, tails), &sinks, &sources, &alone)
    } else {
        rule(zones, &forward, &sources, &sinks, &alone)
    };
    if turned {
        for link in &mut links {
            std::mem::swap(&mut link.from, &mut link.to);
        }
    }
    Plan { sources: s, sinks: t, alone: alone.len(), pairs, links }
}

/// The names of the sources, of the sinks and of the components alone.
fn kinds(parts: &Components, tails: &[u16], heads: &[u16]) -> [Vec<u16>; 3] {
    let mut arcs_out = vec![false; parts.names.len()];
    let mut arcs_in = vec![false; parts.names.len()];
    for (a, b) in component_arcs(parts, tails, heads) {
        arcs_out[a] = true;
        arcs_in[b] = true;
    }
    let mut kinds = [Vec::new(), Vec::new(), Vec::new()];
    for (zone, &part) in parts.of.iter().enumerate() {
        if usize::from(parts.names[part]) != zone {
            continue;
        }
        match (arcs_out[part], arcs_in[part]) {
            (true, false) => kinds[0].push(zone as u16),
            (false, true) => kinds[1].push(zone as u16),
            (false, false) => kinds[2].push(zone as u16),
            (true, true) => {}
        }
    }
    kinds
}

/// The rule for a network that is not strong and has no more sources than
/// sinks. Gives the number of pairs and the links.
fn rule(zones: usize, rows: &Rows, sources: &[u16], sinks: &[u16], alone: &[u16]) -> (usize, Vec<Link>) {
    let (p, v, w) = paired(zones, rows, sources, sinks);
    let s = v.len();
    let mut links = Vec::new();
    for i in 1..p {
        links.push(Link { from: w[i - 1], to: v[i], why: RING });
    }
    let mut steps = Vec::new();
    if s == 0 {
        // No source is no sink either: all components are alone.
        steps.extend(alone);
        steps.push(alone[0]);
    } else {
        steps.push(w[p - 1]);
        steps.extend(&w[s..]);
        steps.extend(alone);
        steps.push(v[0]);
    }
    for step in steps.windows(2) {
        links.push(Link { from: step[0], to: step[1], why: CHAIN });
    }
    for i in p..s {
        links.push(Link { from: w[i], to: v[i], why: BACK });
    }
    (p, links)
}

/// The number of pairs, and the sources and the sinks with those of the pairs
/// first.
fn paired(zones: usize, rows: &Rows, sources: &[u16], sinks: &[u16]) -> (usize, Vec<u16>, Vec<u16>) {
    let (mut v, mut w) = (Vec::new(), Vec::new());
    let mut left = Vec::new(); // unpaired sources
    let mut free = sinks.to_vec(); // unpaired sinks, ascending
    let mut seen = vec![usize::MAX; zones]; // the last search that met a zone
    let mut waiting = Vec::new();
    for (search, &source) in sources.iter().enumerate() {
        seen[usize::from(source)] = search;
        waiting.push(source);
        while let Some(zone) = waiting.pop() {
            for &head in rows.of(usize::from(zone)) {
                if seen[usize::from(head)] != search {
                    seen[usize::from(head)] = search;
                    waiting.push(head);
                }
            }
        }
        // A component is reached where its name is.
        match free.iter().position(|&sink| seen[usize::from(sink)] == search) {
            Some(place) => {
                v.push(source);
                w.push(free.remove(place));
            }
            None => left.push(source),
        }
    }
    let p = v.len();
    v.extend(left);
    w.extend(free);
    (p, v, w)
}
