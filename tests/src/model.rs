//! The six calls, written from the documents alone.
//!
//! This is what the archive is compared with, and what it is timed beside. It
//! shares no code with it. Each call tests its input in the order of the table
//! of refusals, works in memory of its own, and only then writes to what the
//! caller lent, so that a refusal changes nothing.
//!
//! Every call gives the answer of the C interface: eight numbers, the refusal's
//! number, its place, then the call's values, then zeros.

// The paths are written out so that other crates can take this file in by path.
#[path = "model/file.rs"]
pub mod file;
#[path = "model/graph.rs"]
pub mod graph;
#[path = "model/links.rs"]
pub mod links;
#[path = "model/reduce.rs"]
pub mod reduce;
#[path = "model/remaining.rs"]
pub mod remaining;

use remaining::Remaining;

pub const MOST_ZONES: usize = 1024;
pub const MOST_ARCS: usize = 4096;

pub type Answer = [u64; 8];

/// The refusals, with the numbers of the table.
#[derive(Clone, Copy, PartialEq, Eq, Debug)]
pub enum Kind {
    Short = 1,
    Long = 2,
    Loose = 3,
    Zones = 4,
    Arcs = 5,
    Range = 6,
    SelfArc = 7,
    Extra = 8,
    Room = 9,
    Pair = 10,
    Head = 11,
    List = 12,
    None = 13,
    Gone = 14,
}

#[derive(Clone, Copy, PartialEq, Eq, Debug)]
pub struct Trouble {
    pub kind: Kind,
    pub place: usize,
}

pub fn trouble<T>(kind: Kind, place: usize) -> Result<T, Trouble> {
    Err(Trouble { kind, place })
}

/// Puts a call's outcome in the eight numbers.
fn answer(outcome: Result<[u64; 5], Trouble>) -> Answer {
    match outcome {
        Ok([a, b, c, d, e]) => [0, 0, a, b, c, d, e, 0],
        Err(Trouble { kind, place }) => [kind as u64, place as u64, 0, 0, 0, 0, 0, 0],
    }
}

/// How many elements of work memory the four calls that have it ask for.
pub fn work_asked(zones: usize, arcs: usize) -> usize {
    16 * zones + 3 * arcs
}

/// Where a list of zones is first out of range, or not above the number before.
fn list_fault(zones: usize, list: &[u16]) -> Option<usize> {
    (0..list.len()).find(|&index| usize::from(list[index]) >= zones || index > 0 && list[index] <= list[index - 1])
}

/// The tests that every call on a network makes, in order. A reach question
/// comes last: its first zone counts as a tail, its second as a head.
pub fn check(
    zones: usize,
    tails: &[u16],
    heads: &[u16],
    gone: &[u16],
    question: Option<(usize, usize)>,
) -> Result<(), Trouble> {
    if tails.len() != heads.len() {
        return trouble(Kind::Pair, 0);
    }
    if zones == 0 || zones > MOST_ZONES {
        return trouble(Kind::Zones, 0);
    }
    if tails.len() > MOST_ARCS {
        return trouble(Kind::Arcs, 0);
    }
    if let Some(index) = list_fault(zones, gone) {
        return trouble(Kind::List, index);
    }
    let mut withdrawn = vec![false; zones];
    for &zone in gone {
        withdrawn[usize::from(zone)] = true;
    }
    if withdrawn.iter().all(|&gone| gone) {
        return trouble(Kind::None, 0);
    }
    for (index, (&tail, &head)) in tails.iter().zip(heads).enumerate() {
        if usize::from(tail) >= zones {
            return trouble(Kind::Range, index);
        }
        if usize::from(head) >= zones {
            return trouble(Kind::Head, index);
        }
        if tail == head {
            return trouble(Kind::SelfArc, index);
        }
        if withdrawn[usize::from(tail)] || withdrawn[usize::from(head)] {
            return trouble(Kind::Gone, index);
        }
    }
    match question {
        Some((from, _)) if from >= zones => trouble(Kind::Range, tails.len()),
        Some((_, to)) if to >= zones => trouble(Kind::Head, tails.len()),
        Some((from, to)) if withdrawn[from] || withdrawn[to] => trouble(Kind::Gone, tails.len()),
        _ => Ok(()),
    }
}

fn room(enough: bool) -> Result<(), Trouble> {
    if enough {
        Ok(())
    } else {
        trouble(Kind::Room, 0)
    }
}

/// Reads a network file. Values: zones, arcs.
pub fn read(bytes: &[u8], tails: &mut [u16], heads: &mut [u16]) -> Answer {
    answer(file::parse(bytes, tails.len().min(heads.len())).map(|network| {
        let arcs = network.tails.len();
        tails[..arcs].copy_from_slice(&network.tails);
        heads[..arcs].copy_from_slice(&network.heads);
        [network.zones as u64, arcs as u64, 0, 0, 0]
    }))
}

/// Writes a network file, which holds no list of withdrawn zones. Value: its
/// length.
pub fn write(zones: usize, tails: &[u16], heads: &[u16], gone: &[u16], out: &mut [u8]) -> Answer {
    let mut call = || {
        check(zones, tails, heads, gone, None)?;
        let bytes = file::bytes(zones, tails, heads);
        room(bytes.len() <= out.len())?;
        out[..bytes.len()].copy_from_slice(&bytes);
        Ok([bytes.len() as u64, 0, 0, 0, 0])
    };
    answer(call())
}

/// Says whether the network is strong. Value: 1 for yes, 0 for no.
pub fn strong(zones: usize, tails: &[u16], heads: &[u16], gone: &[u16], work: &mut [u16]) -> Answer {
    let mut call = || {
        check(zones, tails, heads, gone, None)?;
        let asked = work_asked(zones, tails.len());
        room(work.len() >= asked)?;
        let yes = Remaining::new(zones, tails, heads, gone).strong();
        work[..asked].fill(0);
        Ok([yes as u64, 0, 0, 0, 0])
    };
    answer(call())
}

/// Says whether one zone reaches another. Value: 1 for yes, 0 for no.
pub fn reach(
    zones: usize,
    tails: &[u16],
    heads: &[u16],
    gone: &[u16],
    from: usize,
    to: usize,
    work: &mut [u16],
) -> Answer {
    let mut call = || {
        check(zones, tails, heads, gone, Some((from, to)))?;
        let asked = work_asked(zones, tails.len());
        room(work.len() >= asked)?;
        let yes = Remaining::new(zones, tails, heads, gone).reaches(from, to);
        work[..asked].fill(0);
        Ok([yes as u64, 0, 0, 0, 0])
    };
    answer(call())
}

/// Makes the skeleton. Value: its arc count.
pub fn skeleton(
    zones: usize,
    tails: &[u16],
    heads: &[u16],
    gone: &[u16],
    out_tails: &mut [u16],
    out_heads: &mut [u16],
    work: &mut [u16],
) -> Answer {
    let mut call = || {
        check(zones, tails, heads, gone, None)?;
        let asked = work_asked(zones, tails.len());
        room(out_tails.len() >= tails.len() && out_heads.len() >= tails.len() && work.len() >= asked)?;
        let arcs = Remaining::new(zones, tails, heads, gone).skeleton();
        for (index, &(tail, head)) in arcs.iter().enumerate() {
            out_tails[index] = tail;
            out_heads[index] = head;
        }
        work[..asked].fill(0);
        Ok([arcs.len() as u64, 0, 0, 0, 0])
    };
    answer(call())
}

/// Makes the plan. Values: s, t, q, p, the number of links.
pub fn plan(
    zones: usize,
    tails: &[u16],
    heads: &[u16],
    gone: &[u16],
    from: &mut [u16],
    to: &mut [u16],
    why: &mut [u16],
    work: &mut [u16],
) -> Answer {
    let mut call = || {
        check(zones, tails, heads, gone, None)?;
        let asked = work_asked(zones, tails.len());
        let records = from.len().min(to.len()).min(why.len());
        room(records >= zones && work.len() >= asked)?;
        let plan = Remaining::new(zones, tails, heads, gone).plan();
        for (index, link) in plan.links.iter().enumerate() {
            from[index] = link.from;
            to[index] = link.to;
            why[index] = link.why;
        }
        work[..asked].fill(0);
        Ok([plan.sources, plan.sinks, plan.alone, plan.pairs, plan.links.len()].map(|number| number as u64))
    };
    answer(call())
}
