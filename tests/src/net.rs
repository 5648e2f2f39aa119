//! A network as it is handed to a call, with its withdrawn zones; it may be
//! damaged.

use std::fmt;

#[derive(Clone, PartialEq, Eq, Debug)]
pub struct Net {
    pub zones: usize,
    pub tails: Vec<u16>,
    pub heads: Vec<u16>,
    /// The withdrawn numbers, ascending in a good network.
    pub gone: Vec<u16>,
}

impl Net {
    /// A network with no zone withdrawn.
    pub fn new(zones: usize, arcs: &[(usize, usize)]) -> Net {
        let tails = arcs.iter().map(|arc| arc.0 as u16).collect();
        let heads = arcs.iter().map(|arc| arc.1 as u16).collect();
        Net { zones, tails, heads, gone: Vec::new() }
    }

    /// The same network with these zones withdrawn, and no other.
    pub fn without(&self, gone: &[u16]) -> Net {
        Net { gone: gone.to_vec(), ..self.clone() }
    }

    /// The same network with more arcs at its end.
    pub fn with(&self, tails: &[u16], heads: &[u16]) -> Net {
        let mut net = self.clone();
        net.tails.extend(tails);
        net.heads.extend(heads);
        net
    }
}

impl fmt::Display for Net {
    fn fmt(&self, out: &mut fmt::Formatter) -> fmt::Result {
        write!(out, "zones {} tails {:?} heads {:?} gone {:?}", self.zones, self.tails, self.heads, self.gone)
    }
}
