//! The network file: numbers in groups of seven bits, lowest group first.

use super::{trouble, Kind, Trouble, MOST_ARCS, MOST_ZONES};

pub struct Network {
    pub zones: usize,
    pub tails: Vec<u16>,
    pub heads: Vec<u16>,
}

/// The number that begins at `at`, and the offset after it. LONG and LOOSE are
/// placed at the group that makes them.
pub fn number(bytes: &[u8], at: usize) -> Result<(usize, usize), Trouble> {
    let mut value = 0;
    for group in 0..3 {
        // A byte is asked for only while fewer than three groups have been
        // read, so 80 80 80 is LONG though the bytes end there too.
        let Some(&byte) = bytes.get(at + group) else {
            return trouble(Kind::Short, bytes.len());
        };
        value |= usize::from(byte & 127) << (7 * group);
        if byte < 128 {
            if group > 0 && byte == 0 {
                return trouble(Kind::Loose, at + group);
            }
            return Ok((value, at + group + 1));
        }
    }
    trouble(Kind::Long, at + 2)
}

/// Reads a whole file; `room` is the length of the shorter output list.
pub fn parse(bytes: &[u8], room: usize) -> Result<Network, Trouble> {
    let (zones, at_arcs) = number(bytes, 0)?;
    if zones == 0 || zones > MOST_ZONES {
        return trouble(Kind::Zones, 0);
    }
    let (arcs, mut at) = number(bytes, at_arcs)?;
    if arcs > MOST_ARCS {
        return trouble(Kind::Arcs, at_arcs);
    }
    if arcs > room {
        return trouble(Kind::Room, at_arcs);
    }
    let mut tails = Vec::with_capacity(arcs);
    let mut heads = Vec::with_capacity(arcs);
    for _ in 0..arcs {
        let (tail, at_head) = number(bytes, at)?;
        if tail >= zones {
            return trouble(Kind::Range, at);
        }
        let (head, next) = number(bytes, at_head)?;
        if head >= zones {
            return trouble(Kind::Head, at_head);
        }
        if tail == head {
            return trouble(Kind::SelfArc, at_head);
        }
        tails.push(tail as u16);
        heads.push(head as u16);
        at = next;
    }
    if at < bytes.len() {
        return trouble(Kind::Extra, at);
    }
    Ok(Network { zones, tails, heads })
}

fn push(bytes: &mut Vec<u8>, mut value: usize) {
    while value >= 128 {
        bytes.push((value % 128 + 128) as u8);
        value /= 128;
    }
    bytes.push(value as u8);
}

/// The file of a good network.
pub fn bytes(zones: usize, tails: &[u16], heads: &[u16]) -> Vec<u8> {
    let mut bytes = Vec::with_capacity(4 + 4 * tails.len());
    push(&mut bytes, zones);
    push(&mut bytes, tails.len());
    for (&tail, &head) in tails.iter().zip(heads) {
        push(&mut bytes, usize::from(tail));
        push(&mut bytes, usize::from(head));
    }
    bytes
}
