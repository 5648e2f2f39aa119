//! Files: a dozen good ones cut off at every length and changed in every byte,
//! the longest one there is, bytes by chance, and numbers by chance.

use crate::chance::Chance;
use crate::compare::Comparer;
use crate::families;
use crate::model::file;
use crate::net::Net;
use crate::random;

/// `every` takes one in so many of the places of the longest file; `streams`
/// files each are made of bytes and of numbers by chance.
pub fn run(to: &mut Comparer, every: usize, streams: u64) {
    for net in dozen(&mut to.chance) {
        let bytes = file::bytes(net.zones, &net.tails, &net.heads);
        // With room for more arcs than the file has, a changed count is not
        // refused for want of room.
        for room in [net.tails.len(), 300] {
            cut_and_change(to, &bytes, room);
        }
    }
    longest(to, every);
    for _ in 0..streams {
        if to.full() {
            return;
        }
        let bytes = by_chance(&mut to.chance);
        let room = [to.chance.pick(&[0, 1, 3, 40]), to.chance.pick(&[1, 3, 40, 40])];
        to.read(&bytes, room[0], room[1]);
        let bytes = numbers(&mut to.chance);
        to.read(&bytes, room[1], room[0].max(3));
    }
}

/// Networks whose files have numbers of one and two groups in all places.
fn dozen(chance: &mut Chance) -> Vec<Net> {
    let mut nets = vec![
        Net::new(6, &[(0, 2), (2, 3), (0, 4), (1, 4), (4, 5)]),
        Net::new(1, &[]),
        Net::new(1024, &[]),
        Net::new(2, &[(0, 1), (1, 0), (0, 1)]),
        Net::new(128, &[(127, 0), (0, 127), (5, 6)]),
        Net::new(129, &[(128, 127), (127, 128), (0, 128)]),
        Net::new(1024, &[(1023, 0), (0, 1023), (1023, 1022), (511, 512), (127, 128)]),
        // Arc counts of 127, 128 and 130: one group and two.
        families::mixed(30, (0..127).map(|i| (i % 29, 29)).collect(), chance),
        families::mixed(3, (0..128).map(|i| (i % 2, 2)).collect(), chance),
        families::mixed(200, (0..130).map(|i| (i, 199 - i / 3)).filter(|(a, b)| a != b).collect(), chance),
    ];
    while nets.len() < 12 {
        let net = random::network(chance);
        if (3..=20).contains(&net.tails.len()) {
            nets.push(net);
        }
    }
    nets
}

fn cut_and_change(to: &mut Comparer, bytes: &[u8], room: usize) {
    to.read(bytes, room, room);
    // So many extra bytes that a length cut down to 16 bits would be the right one.
    let mut longer = bytes.to_vec();
    longer.resize(bytes.len() + 65_536, 0);
    to.read(&longer, room, room);
    for place in 0..bytes.len() {
        if to.full() {
            return;
        }
        to.read(&bytes[..place], room, room);
        let mut changed = bytes.to_vec();
        for other in 1..=255 {
            changed[place] = bytes[place] ^ other;
            to.read(&changed, room, room);
        }
        // A byte left out, and one twice.
        changed.remove(place);
        to.read(&changed, room, room);
        changed.insert(place, bytes[place]);
        changed.insert(place, bytes[place]);
        to.read(&changed, room, room);
    }
}

/// The longest file accepted: 1,024 zones, 4,096 arcs, two bytes for every
/// number; 16,388 bytes.
fn longest(to: &mut Comparer, every: usize) {
    // Zones 128 to 1,023; a head is 1 to 895 after its tail, round about.
    let arc = |i: usize| (128 + i % 896, 128 + (i + 1 + 7 * i % 895) % 896);
    let net = Net::new(1024, &(0..4096).map(arc).collect::<Vec<_>>());
    let bytes = file::bytes(net.zones, &net.tails, &net.heads);
    to.hold(bytes.len() == 16_388, || format!("files: the longest has {} bytes", bytes.len()));
    to.read(&bytes, 4096, 4096);
    to.read(&bytes, 4095, 4096);
    to.read(&bytes, 4096, 4095);
    to.write(&net, 16_388);
    to.write(&net, 16_387);
    for extra in [0, 1, 127, 128, 255] {
        let mut longer = bytes.clone();
        longer.push(extra);
        to.read(&longer, 4096, 4096);
    }
    for place in (0..bytes.len()).step_by(every) {
        if to.full() {
            return;
        }
        to.read(&bytes[..place], 4096, 4097);
        let mut changed = bytes.clone();
        changed[place] = bytes[place] ^ 128;
        to.read(&changed, 4097, 4096);
        changed[place] = to.chance.next() as u8;
        to.read(&changed, 4096, 4096);
    }
}

/// Up to 40 bytes; small ones are more frequent, so that some files get far.
fn by_chance(chance: &mut Chance) -> Vec<u8> {
    let length = chance.below(41);
    let most = chance.pick(&[4, 8, 130, 256]);
    (0..length).map(|_| chance.below(most) as u8).collect()
}

/// A zone count, an arc count and as many arcs, give or take one, with any of
/// the numbers spoilt in value or in form.
fn numbers(chance: &mut Chance) -> Vec<u8> {
    let zones = chance.pick(&[1, 2, 3, 127, 128, 129, 1000, 1024]);
    let arcs = chance.below(4);
    let mut values = vec![zones, arcs];
    for _ in 0..(2 * arcs + chance.pick(&[0, 0, 0, 1, 2])).saturating_sub(chance.pick(&[0, 0, 0, 1])) {
        values.push(chance.below(zones));
    }
    let mut bytes = Vec::new();
    for value in values {
        let value = match chance.below(30) {
            0 => chance.pick(&[0, 1, 127, 128, 1023, 1024, 1025, 4095, 4096, 4097, 16_383, 16_384, 2_097_151]),
            1 => chance.below(2_097_152),
            2 => value + 1,
            _ => value,
        };
        let mut groups = 1;
        while value >> (7 * groups) > 0 {
            groups += 1;
        }
        // More groups than are needed: LOOSE, or LONG where there are four.
        if chance.one_in(25) {
            groups += 1 + chance.below(2);
        }
        for group in 0..groups {
            let more = if group + 1 < groups { 128 } else { 0 };
            bytes.push((value >> (7 * group) & 127) as u8 | more);
        }
    }
    if chance.one_in(20) {
        bytes.truncate(chance.below(bytes.len() + 1));
    }
    bytes
}

/// Spoils a file in one to three places.
pub fn damage(bytes: &mut Vec<u8>, chance: &mut Chance) {
    for _ in 0..1 + chance.below(3) {
        let at = chance.below(bytes.len() + 1);
        match chance.below(6) {
            0 => bytes.truncate(at),
            1 => bytes.insert(at, chance.next() as u8),
            2 => bytes.push(chance.pick(&[0, 1, 128])),
            _ if at == bytes.len() => {}
            3 => bytes[at] ^= 128,
            4 => bytes[at] = chance.next() as u8,
            _ => bytes[at] = bytes[at].wrapping_add(1),
        }
    }
}
