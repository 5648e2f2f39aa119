//! The skeleton rule.

use super::graph::{component_arcs, components, rows, Components};

/// The skeleton's arcs, ascending by tail and then by head.
pub fn skeleton(zones: usize, tails: &[u16], heads: &[u16]) -> Vec<(u16, u16)> {
    let parts = components(zones, &rows(zones, tails, heads));
    let mut arcs = Vec::with_capacity(zones + tails.len());
    rings(zones, &parts, &mut arcs);
    between(&parts, &component_arcs(&parts, tails, heads), &mut arcs);
    arcs.sort_unstable();
    arcs
}

/// Rule 1: each component's zones in a ring, ascending.
fn rings(zones: usize, parts: &Components, arcs: &mut Vec<(u16, u16)>) {
    let mut last: Vec<Option<u16>> = vec![None; parts.names.len()];
    for zone in 0..zones {
        let part = parts.of[zone];
        if let Some(before) = last[part] {
            arcs.push((before, zone as u16));
        }
        last[part] = Some(zone as u16);
    }
    for (part, &name) in parts.names.iter().enumerate() {
        if let Some(end) = last[part].filter(|&end| end != name) {
            arcs.push((end, name));
        }
    }
}

/// Rule 2. Arcs go from higher numbers to lower, so parts are taken ascending:
/// what a head reaches is then known. The heads of one part are taken
/// descending: when a third part lies on the way to a head, it has a higher
/// number than that head, so the head is already known as reached.
fn between(parts: &Components, pairs: &[(usize, usize)], arcs: &mut Vec<(u16, u16)>) {
    let count = parts.names.len();
    let words = count.div_ceil(64);
    let mut reached = vec![0u64; count * words];
    let mut end = 0;
    for part in 0..count {
        let start = end;
        while end < pairs.len() && pairs[end].0 == part {
            end += 1;
        }
        let (below, row) = reached.split_at_mut(part * words);
        row[part / 64] |= 1 << (part % 64);
        for &(_, head) in pairs[start..end].iter().rev() {
            if row[head / 64] >> (head % 64) & 1 == 0 {
                arcs.push((parts.names[part], parts.names[head]));
                for word in 0..words {
                    row[word] |= below[head * words + word];
                }
            }
        }
    }
}
