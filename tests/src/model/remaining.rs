//! A network without its withdrawn zones: those that remain, numbered from 0 on
//! in their order. So the lowest zone of a component stays the lowest, and what
//! the rules give of the new numbers is what they give of the old ones.

use super::links::{self, Link, Plan};
use super::{graph, reduce};
use std::borrow::Cow;

pub struct Remaining<'a> {
    /// The old number of each new one.
    old: Vec<u16>,
    /// The new number of each old one that has one.
    new: Vec<usize>,
    /// The arcs in the new numbers; where none is withdrawn these are the old ones.
    tails: Cow<'a, [u16]>,
    heads: Cow<'a, [u16]>,
}

impl Remaining<'_> {
    pub fn new<'a>(zones: usize, tails: &'a [u16], heads: &'a [u16], gone: &[u16]) -> Remaining<'a> {
        let mut stays = vec![true; zones];
        for &zone in gone {
            stays[usize::from(zone)] = false;
        }
        let mut new = vec![0; zones];
        let mut old = Vec::new();
        for zone in (0..zones).filter(|&zone| stays[zone]) {
            new[zone] = old.len();
            old.push(zone as u16);
        }
        let numbered = |list: &'a [u16]| match gone {
            [] => Cow::from(list),
            _ => list.iter().map(|&zone| new[usize::from(zone)] as u16).collect(),
        };
        let (tails, heads) = (numbered(tails), numbered(heads));
        Remaining { old, new, tails, heads }
    }

    fn rows(&self) -> graph::Rows {
        graph::rows(self.old.len(), &self.tails, &self.heads)
    }

    pub fn strong(&self) -> bool {
        graph::components(self.old.len(), &self.rows()).names.len() == 1
    }

    pub fn reaches(&self, from: usize, to: usize) -> bool {
        graph::reaches(self.old.len(), &self.rows(), self.new[from], self.new[to])
    }

    pub fn skeleton(&self) -> Vec<(u16, u16)> {
        let arcs = reduce::skeleton(self.old.len(), &self.tails, &self.heads);
        arcs.into_iter().map(|(tail, head)| (self.named(tail), self.named(head))).collect()
    }

    pub fn plan(&self) -> Plan {
        let plan = links::plan(self.old.len(), &self.tails, &self.heads);
        let named = |link: &Link| Link { from: self.named(link.from), to: self.named(link.to), why: link.why };
        Plan { links: plan.links.iter().map(named).collect(), ..plan }
    }

    fn named(&self, zone: u16) -> u16 {
        self.old[usize::from(zone)]
    }
}
