//! The rules by their words, over a table of which zone reaches which.
//!
//! Slow and short. The model is compared with this on every good network, so
//! that a slip in its quicker methods would be seen without the archive.

use crate::model::links::{Link, Plan, BACK, CHAIN, RING};
use crate::net::Net;

/// Which zone reaches which, a row of bits for each zone.
#[derive(Clone, PartialEq, Eq, Hash, Debug)]
pub struct Table {
    /// The zones that remain, ascending.
    zones: Vec<usize>,
    words: usize,
    bits: Vec<u64>,
}

impl Table {
    pub fn new(net: &Net) -> Table {
        let words = net.zones.div_ceil(64);
        let zones: Vec<usize> = (0..net.zones).filter(|&zone| !net.gone.contains(&(zone as u16))).collect();
        let mut table = Table { zones: zones.clone(), words, bits: vec![0; net.zones * words] };
        for &zone in &zones {
            table.set(zone, zone);
        }
        for (&tail, &head) in net.tails.iter().zip(&net.heads) {
            table.set(usize::from(tail), usize::from(head));
        }
        // Warshall: by way of `through`, what reaches it reaches what it does.
        for &through in &zones {
            for &zone in &zones {
                if table.reaches(zone, through) {
                    for word in 0..words {
                        table.bits[zone * words + word] |= table.bits[through * words + word];
                    }
                }
            }
        }
        table
    }

    fn set(&mut self, from: usize, to: usize) {
        self.bits[from * self.words + to / 64] |= 1 << (to % 64);
    }

    pub fn reaches(&self, from: usize, to: usize) -> bool {
        self.bits[from * self.words + to / 64] >> (to % 64) & 1 == 1
    }

    pub fn strong(&self) -> bool {
        self.zones.iter().all(|&a| self.zones.iter().all(|&b| self.reaches(a, b)))
    }

    /// The name of each zone's component; a withdrawn number has none.
    fn names(&self) -> Vec<Option<usize>> {
        let one = |a: usize| self.zones.iter().copied().find(|&b| self.reaches(a, b) && self.reaches(b, a));
        (0..self.bits.len() / self.words).map(one).collect()
    }
}

/// The arcs between components, by name, each once.
fn between(net: &Net, names: &[Option<usize>]) -> Vec<(usize, usize)> {
    let ends = net.tails.iter().zip(&net.heads);
    let name = |zone: u16| names[usize::from(zone)].unwrap();
    let mut arcs: Vec<(usize, usize)> = ends.map(|(&a, &b)| (name(a), name(b))).filter(|(a, b)| a != b).collect();
    arcs.sort();
    arcs.dedup();
    arcs
}

pub fn skeleton(net: &Net, table: &Table) -> Vec<(u16, u16)> {
    let names = table.names();
    let components: Vec<usize> = (0..net.zones).filter(|&zone| names[zone] == Some(zone)).collect();
    let mut arcs = Vec::new();
    for &name in &components {
        let members: Vec<usize> = (0..net.zones).filter(|&zone| names[zone] == Some(name)).collect();
        if members.len() >= 2 {
            for i in 0..members.len() {
                arcs.push((members[i], members[(i + 1) % members.len()]));
            }
        }
    }
    for (a, b) in between(net, &names) {
        let third = |&c: &usize| c != a && c != b && table.reaches(a, c) && table.reaches(c, b);
        if !components.iter().any(third) {
            arcs.push((a, b));
        }
    }
    arcs.sort();
    arcs.into_iter().map(|(a, b)| (a as u16, b as u16)).collect()
}

pub fn plan(net: &Net, table: &Table) -> Plan {
    let names = table.names();
    let arcs = between(net, &names);
    let out = |name: usize| arcs.iter().any(|arc| arc.0 == name);
    let into = |name: usize| arcs.iter().any(|arc| arc.1 == name);
    let of = |o: bool, i: bool| -> Vec<usize> {
        (0..net.zones).filter(|&zone| names[zone] == Some(zone) && out(zone) == o && into(zone) == i).collect()
    };
    let (sources, sinks, x) = (of(true, false), of(false, true), of(false, false));
    let counts = |pairs: usize, links: Vec<Link>| Plan {
        sources: sources.len(),
        sinks: sinks.len(),
        alone: x.len(),
        pairs,
        links,
    };
    if table.strong() {
        return counts(0, Vec::new());
    }
    let turned = sources.len() > sinks.len();
    let reaches = |a: usize, b: usize| if turned { table.reaches(b, a) } else { table.reaches(a, b) };
    let (from, to) = if turned { (&sinks, &sources) } else { (&sources, &sinks) };

    let (p, v, w) = paired(from, to, reaches);
    let link = |(a, b, why): (usize, usize, u16)| {
        let (from, to) = if turned { (b, a) } else { (a, b) };
        Link { from: from as u16, to: to as u16, why }
    };
    counts(p, linked(p, &v, &w, &x).into_iter().map(link).collect())
}

/// The number of pairs, and the sources and the sinks with those of the pairs
/// first. Lists from 1, as in the rule; element 0 is not used.
fn paired(from: &[usize], to: &[usize], reaches: impl Fn(usize, usize) -> bool) -> (usize, Vec<usize>, Vec<usize>) {
    let (mut v, mut w) = (vec![usize::MAX], vec![usize::MAX]);
    for &source in from {
        if let Some(&sink) = to.iter().find(|&&sink| reaches(source, sink) && !w.contains(&sink)) {
            v.push(source);
            w.push(sink);
        }
    }
    let p = v.len() - 1;
    for (all, list) in [(from, &mut v), (to, &mut w)] {
        for zone in all {
            if !list.contains(zone) {
                list.push(*zone);
            }
        }
    }
    (p, v, w)
}

/// The links over those lists and the components alone.
fn linked(p: usize, v: &[usize], w: &[usize], x: &[usize]) -> Vec<(usize, usize, u16)> {
    let (s, t) = (v.len() - 1, w.len() - 1);
    let mut links: Vec<(usize, usize, u16)> = (1..p).map(|i| (w[i], v[i + 1], RING)).collect();
    let mut steps = Vec::new();
    if s > 0 {
        steps.push(w[p]);
        steps.extend((s + 1..=t).map(|i| w[i]));
    }
    steps.extend(x);
    steps.push(if s > 0 { v[1] } else { x[0] });
    links.extend((1..steps.len()).map(|i| (steps[i - 1], steps[i], CHAIN)));
    links.extend((p + 1..=s).map(|i| (w[i], v[i], BACK)));
    links
}
