//! The examples of the documents and the shapes that they leave out, with the
//! answers written out by hand. The model is held against them, and the archive
//! against the model.

use crate::compare::Comparer;
use crate::model::links::{BACK, CHAIN, RING};
use crate::model::{self, work_asked, Answer};
use crate::net::Net;
use crate::properties;

/// Zones and arcs; s, t, q, p; the links.
type Row = (&'static str, usize, &'static [(usize, usize)], [u64; 4], &'static [(u16, u16, u16)]);

/// Zones, arcs and withdrawn numbers; s, t, q, p; the links.
type GoneRow = (usize, &'static [(usize, usize)], &'static [u16], [u64; 4], &'static [(u16, u16, u16)]);

const GONE_PLANS: &[GoneRow] = &[
    (3, &[], &[1], [0, 0, 2, 0], &[(0, 2, CHAIN), (2, 0, CHAIN)]),
    (3, &[], &[0, 2], [0, 0, 1, 0], &[]),
    (5, &[(1, 2)], &[0, 3], [1, 1, 1, 1], &[(2, 4, CHAIN), (4, 1, CHAIN)]),
    (5, &[(1, 0), (2, 0)], &[4], [2, 1, 1, 1], &[(2, 1, CHAIN), (3, 2, CHAIN), (0, 3, CHAIN)]),
    (4, &[(1, 3), (3, 1)], &[0, 2], [0, 0, 1, 0], &[]),
];

/// Zones, arcs and withdrawn numbers, the two zones of a question, and the
/// answer's first three numbers.
type Question = (usize, &'static [(usize, usize)], &'static [u16], (usize, usize), [u64; 3]);

const QUESTIONS: &[Question] = &[
    // LIST: out of range, not above the one before, the same again; in one walk.
    (3, &[(0, 1)], &[3], (0, 0), [12, 0, 0]),
    (7, &[(0, 1)], &[4, 3], (0, 0), [12, 1, 0]),
    (7, &[(0, 1)], &[4, 4], (0, 0), [12, 1, 0]),
    (7, &[(0, 1)], &[9, 4], (0, 0), [12, 0, 0]),
    // LIST comes before NONE, NONE before an arc's trouble.
    (2, &[], &[0, 1, 1], (0, 0), [12, 2, 0]),
    (2, &[], &[0, 1], (0, 0), [13, 0, 0]),
    (2, &[(0, 2)], &[0, 1], (0, 0), [13, 0, 0]),
    (1, &[], &[0], (0, 0), [13, 0, 0]),
    // GONE of a tail, of a head; after SELF; arc by arc.
    (3, &[(0, 1), (2, 0)], &[2], (0, 0), [14, 1, 0]),
    (3, &[(0, 1), (1, 2)], &[2], (0, 0), [14, 1, 0]),
    (3, &[(0, 1), (2, 2)], &[2], (0, 0), [7, 1, 0]),
    (3, &[(2, 0), (3, 1)], &[2], (0, 0), [14, 0, 0]),
    // A question: answered, GONE of either zone, HEAD before GONE.
    (3, &[(0, 2)], &[1], (0, 2), [0, 0, 1]),
    (3, &[(0, 2)], &[1], (2, 0), [0, 0, 0]),
    (3, &[(0, 2)], &[1], (1, 0), [14, 1, 0]),
    (3, &[(0, 2)], &[1], (0, 1), [14, 1, 0]),
    (3, &[(0, 2)], &[1], (1, 1), [14, 1, 0]),
    (3, &[(0, 2)], &[1], (1, 9), [11, 1, 0]),
    (3, &[(0, 2)], &[1], (9, 1), [6, 1, 0]),
];

const PLANS: &[Row] = &[
    ("A", 6, &[(0, 2), (2, 3), (0, 4), (1, 4), (4, 5)], [2, 2, 0, 2], &[(3, 1, RING), (5, 0, CHAIN)]),
    ("B", 1, &[], [0, 0, 1, 0], &[]),
    ("C", 3, &[], [0, 0, 3, 0], &[(0, 1, CHAIN), (1, 2, CHAIN), (2, 0, CHAIN)]),
    ("D", 2, &[(0, 1)], [1, 1, 0, 1], &[(1, 0, CHAIN)]),
    ("E", 4, &[(0, 1), (0, 2), (0, 3)], [1, 3, 0, 1], &[(1, 2, CHAIN), (2, 3, CHAIN), (3, 0, CHAIN)]),
    ("F", 4, &[(1, 0), (2, 0), (3, 0)], [3, 1, 0, 1], &[(2, 1, CHAIN), (3, 2, CHAIN), (0, 3, CHAIN)]),
    ("G", 4, &[(0, 2), (0, 3), (1, 2)], [2, 2, 0, 1], &[(2, 0, CHAIN), (3, 1, BACK)]),
    ("H", 3, &[(0, 1)], [1, 1, 1, 1], &[(1, 2, CHAIN), (2, 0, CHAIN)]),
    ("I", 3, &[(0, 1), (1, 2), (2, 0)], [0, 0, 1, 0], &[]),
    ("more sinks, and alone", 4, &[(0, 1), (0, 2)], [1, 2, 1, 1], &[(1, 2, CHAIN), (2, 3, CHAIN), (3, 0, CHAIN)]),
    ("turned, and alone", 4, &[(1, 0), (2, 0)], [2, 1, 1, 1], &[(2, 1, CHAIN), (3, 2, CHAIN), (0, 3, CHAIN)]),
    (
        "ring, chain and back", 6, &[(0, 1), (0, 2), (4, 3), (5, 3)], [3, 3, 0, 2],
        &[(1, 4, RING), (3, 0, CHAIN), (2, 5, BACK)],
    ),
    (
        "turned, with back", 5, &[(0, 4), (1, 3), (2, 3), (0, 3)], [3, 2, 0, 1],
        &[(2, 0, CHAIN), (3, 2, CHAIN), (4, 1, BACK)],
    ),
    (
        "turned, with ring", 5, &[(0, 1), (2, 3), (4, 3)], [3, 2, 0, 2],
        &[(3, 0, RING), (4, 2, CHAIN), (1, 4, CHAIN)],
    ),
    (
        "all four at once", 8, &[(0, 1), (5, 1), (7, 1), (6, 3), (6, 2)], [4, 3, 1, 2],
        &[(2, 0, RING), (7, 6, CHAIN), (4, 7, CHAIN), (1, 4, CHAIN), (3, 5, BACK)],
    ),
    // The lowest sink that 0 reaches is 2; a search may well meet 3 first.
    ("lowest sink", 4, &[(0, 1), (0, 2), (1, 3)], [1, 2, 0, 1], &[(2, 3, CHAIN), (3, 0, CHAIN)]),
    // Components of several zones, named by their lowest.
    (
        "larger components", 5, &[(4, 1), (1, 4), (4, 3), (3, 2), (2, 3)], [1, 1, 1, 1],
        &[(2, 0, CHAIN), (0, 1, CHAIN)],
    ),
];

/// File, answer's number and place, and for accepted files zones and arcs.
const FILES: &[(&[u8], [u64; 4])] = &[
    (&[], [1, 0, 0, 0]),
    (&[0x80, 0x80, 0x00], [3, 2, 0, 0]),
    (&[0x80, 0x80], [1, 2, 0, 0]),
    (&[0x80, 0x80, 0x80], [2, 2, 0, 0]),
    (&[0x00, 0x00], [4, 0, 0, 0]),
    (&[0x80, 0x08, 0x00], [0, 0, 1024, 0]),
    (&[0x81, 0x08, 0x00], [4, 0, 0, 0]),
    (&[0x80, 0x08, 0x81, 0x20], [5, 2, 0, 0]),
    (&[0x80, 0x08, 0x80, 0x20], [1, 4, 0, 0]),
    (&[0x02, 0x01, 0x00, 0x02], [11, 3, 0, 0]),
    (&[0x02, 0x01, 0x01, 0x01], [7, 3, 0, 0]),
    (&[0x01, 0x00, 0x00], [8, 2, 0, 0]),
    (&[0x02, 0x80, 0x00], [3, 2, 0, 0]),
    (&[0x80], [1, 1, 0, 0]),
    (&[0x02], [1, 1, 0, 0]),
    (&[0x02, 0x01], [1, 2, 0, 0]),
    (&[0x02, 0x01, 0x00], [1, 3, 0, 0]),
    (&[0x02, 0x01, 0x02, 0x80], [6, 2, 0, 0]),
    // Both ends are no zones: the tail comes first.
    (&[0x02, 0x01, 0x02, 0x03], [6, 2, 0, 0]),
    // Three groups are not LONG; they are judged by their value.
    (&[0x80, 0x80, 0x01, 0x00], [4, 0, 0, 0]),
    (&[0x02, 0xff, 0xff, 0x7f], [5, 1, 0, 0]),
    (&[0x02, 0x01, 0x81, 0x80, 0x04, 0x00], [6, 2, 0, 0]),
    (&[0x02, 0x01, 0x00, 0x81, 0x80, 0x80, 0x00], [2, 5, 0, 0]),
    (&[0x02, 0x01, 0x00, 0x01], [0, 0, 2, 1]),
    (&[0x06, 0x05, 0, 2, 2, 3, 0, 4, 1, 4, 4, 5], [0, 0, 6, 5]),
];

/// Holds the model's plan of a network against what was written out by hand.
fn planned(to: &mut Comparer, name: &str, net: &Net, counts: [u64; 4], links: &[(u16, u16, u16)]) {
    to.all(net, None);
    properties::hold(to, net);
    let zones = net.zones;
    let (mut from, mut heads, mut why) = (vec![9; zones], vec![9; zones], vec![9; zones]);
    let mut work = vec![9; work_asked(zones, net.tails.len())];
    let answer = model::plan(zones, &net.tails, &net.heads, &net.gone, &mut from, &mut heads, &mut why, &mut work);
    let [s, t, q, p] = counts;
    let right: Answer = [0, 0, s, t, q, p, links.len() as u64, 0];
    to.hold(answer == right, || format!("example {name}: answer {answer:?}, should be {right:?}"));
    let got: Vec<(u16, u16, u16)> = (0..links.len()).map(|i| (from[i], heads[i], why[i])).collect();
    to.hold(got == links, || format!("example {name}: links {got:?}, should be {links:?}"));
}

/// Holds the bytes of the file of the model's skeleton against what was written
/// out by hand.
fn reduced(to: &mut Comparer, name: &str, net: &Net, right: &[u8]) {
    to.all(net, None);
    properties::hold(to, net);
    let (tails, heads): (Vec<u16>, Vec<u16>) = properties::of(net).skeleton().into_iter().unzip();
    let bytes = model::file::bytes(net.zones, &tails, &heads);
    to.hold(bytes == right, || format!("example {name}: {bytes:02x?}"));
}

pub fn run(to: &mut Comparer) {
    for &(name, zones, arcs, counts, links) in PLANS {
        planned(to, name, &Net::new(zones, arcs), counts, links);
    }
    for &(zones, arcs, gone, counts, links) in GONE_PLANS {
        planned(to, "with withdrawn zones", &Net::new(zones, arcs).without(gone), counts, links);
    }
    for &(zones, arcs, gone, (from, second), right) in QUESTIONS {
        let net = Net::new(zones, arcs).without(gone);
        let answer = to.reach(&net, from, second, work_asked(zones, arcs.len()));
        to.hold(answer[..3] == right, || format!("example {net} {from} to {second}: {answer:?}, should be {right:?}"));
    }

    let net = Net::new(4, &[(0, 1), (1, 2), (0, 2), (2, 1), (2, 3), (0, 3)]);
    reduced(to, "J", &net, &[4, 4, 0, 1, 1, 2, 1, 3, 2, 1]);
    let net = Net::new(4, &[(0, 2), (2, 0), (0, 3), (2, 3)]).without(&[1]);
    reduced(to, "J with a withdrawn zone", &net, &[4, 3, 0, 2, 0, 3, 2, 0]);

    for &(bytes, right) in FILES {
        let answer = to.read(bytes, 4096, 4096);
        let good = answer[..4] == right && answer[4..] == [0; 4];
        to.hold(good, || format!("example file {bytes:02x?}: {answer:?}, should be {right:?}"));
    }

    // ROOM in a file is placed at the arc count, before any arc is looked at.
    for (lengths, right) in [((0, 1), 9), ((1, 0), 9), ((1, 1), 7)] {
        let answer = to.read(&[0x80, 0x08, 0x01, 0x05, 0x05], lengths.0, lengths.1);
        let place = if right == 9 { 2 } else { 4 };
        to.hold(answer[..2] == [right, place], || format!("example ROOM in a file: {answer:?}"));
    }
}
