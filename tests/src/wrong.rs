//! The six functions of the C interface, each made by the model and then spoilt
//! in one of many ways.
//!
//! The self-test puts them in place of the archive's to see that the comparing
//! finds every fault out. With no fault put in they are the model behind the C
//! interface: the stand-in exports them under their names.

use crate::model::{self, graph, Answer};
use std::slice::{from_raw_parts, from_raw_parts_mut};
use std::sync::atomic::{AtomicUsize, Ordering};

/// What is wrong; fault 0 is none.
pub const FAULTS: [&str; 52] = [
    "nothing",
    "a refusal's place is one too high",
    "a refusal keeps a value",
    "the last number of the answer is not 0",
    "DONE has a place",
    "the answer's last number is not written",
    "a write just after an output list",
    "a write just before an output list",
    "an output element after the result changes",
    "the last asked element of work memory is not cleared",
    "one element of work memory too many is cleared",
    "a refusal clears work memory",
    "a refused file has stored its first arc",
    "an input element changes",
    "a zone count is cut to 16 bits",
    "a zone of a question is cut to 16 bits",
    "an arc count is cut to 16 bits",
    "a file's length is cut to 16 bits",
    "work memory's length is cut to 16 bits",
    "ZONES is tested before PAIR",
    "ROOM is tested before RANGE",
    "SELF is tested before RANGE",
    "HEAD is tested before RANGE",
    "a question's second zone is tested first",
    "a file's head is tested before its tail",
    "RANGE is said of a head",
    "LOOSE is placed at the number's first byte",
    "LONG is placed one group too early",
    "SHORT is placed at the number's first byte",
    "a file's ROOM is placed at 0",
    "strong is always no",
    "reach is always no",
    "reach is asked the other way round",
    "the skeleton copies its input",
    "the skeleton is in another order",
    "the skeleton drops an arc that has another beside it",
    "the last arc is forgotten",
    "the plan has a link for a strong network",
    "two links are exchanged",
    "the last link's why is another",
    "the number of pairs is that of all sources",
    "a withdrawn list's length is cut to 16 bits",
    "LIST takes the same number twice",
    "LIST is tested for order first",
    "NONE is tested before LIST",
    "NONE is not said",
    "GONE is tested before SELF",
    "GONE is said of tails only",
    "GONE is said after the other tests of all arcs",
    "a question about a withdrawn zone is answered",
    "strength is over all numbers",
    "withdrawn zones come out alone",
];

pub static FAULT: AtomicUsize = AtomicUsize::new(0);

fn fault(name: &str) -> bool {
    FAULTS[FAULT.load(Ordering::Relaxed)] == name
}

fn cut(zones: usize) -> usize {
    if fault("a zone count is cut to 16 bits") {
        zones & 0xffff
    } else {
        zones
    }
}

/// The list as a call with faults sees it.
unsafe fn arcs<'a>(list: *const u16, length: usize) -> &'a [u16] {
    if fault("an input element changes") && length > 0 {
        *list.cast_mut() = (*list).wrapping_add(1);
    }
    if fault("an arc count is cut to 16 bits") {
        return from_raw_parts(list, length & 0xffff);
    }
    if fault("the last arc is forgotten") {
        return from_raw_parts(list, length.saturating_sub(1));
    }
    from_raw_parts(list, length)
}

/// The withdrawn numbers as a call with faults sees them.
unsafe fn withdrawn<'a>(list: *const u16, length: usize) -> &'a [u16] {
    let cut = fault("a withdrawn list's length is cut to 16 bits");
    from_raw_parts(list, if cut { length & 0xffff } else { length })
}

/// Work memory as a call with faults sees it.
unsafe fn memory<'a>(work: *mut u16, length: usize) -> &'a mut [u16] {
    let cut = fault("work memory's length is cut to 16 bits");
    from_raw_parts_mut(work, if cut { length & 0xffff } else { length })
}

/// Faults in the order of the tests: the refusal that is given too early.
fn early(zones: usize, tails: &[u16], heads: &[u16], gone: &[u16], room: bool) -> Option<Answer> {
    let zones_bad = zones == 0 || zones > model::MOST_ZONES;
    if fault("ZONES is tested before PAIR") && zones_bad {
        return Some([4, 0, 0, 0, 0, 0, 0, 0]);
    }
    if zones_bad || tails.len() != heads.len() || tails.len() > model::MOST_ARCS {
        return None;
    }
    if let Some(early) = early_list(zones, gone) {
        return Some(early);
    }
    if model::check(zones, &[], &[], gone, None).is_err() {
        return None;
    }
    if fault("ROOM is tested before RANGE") && !room {
        return Some([9, 0, 0, 0, 0, 0, 0, 0]);
    }
    if fault("HEAD is tested before RANGE") {
        let place = heads.iter().position(|&head| usize::from(head) >= zones)?;
        let before = model::check(zones, &tails[..place], &heads[..place], gone, None);
        return before.is_ok().then_some([11, place as u64, 0, 0, 0, 0, 0, 0]);
    }
    if fault("SELF is tested before RANGE") {
        let place = tails.iter().zip(heads).position(|(a, b)| a == b)?;
        let before = model::check(zones, &tails[..place], &heads[..place], gone, None);
        return before.is_ok().then_some([7, place as u64, 0, 0, 0, 0, 0, 0]);
    }
    if fault("GONE is tested before SELF") {
        let place = tails.iter().zip(heads).position(|(a, b)| gone.contains(a) || gone.contains(b))?;
        let before = model::check(zones, &tails[..place], &heads[..place], gone, None);
        let zone = |zone: u16| usize::from(zone) < zones;
        let good = before.is_ok() && zone(tails[place]) && zone(heads[place]);
        return good.then_some([14, place as u64, 0, 0, 0, 0, 0, 0]);
    }
    if fault("GONE is said after the other tests of all arcs") {
        let other = model::check(zones, tails, heads, &[], None).err()?;
        return Some([other.kind as u64, other.place as u64, 0, 0, 0, 0, 0, 0]);
    }
    None
}

/// Faults in the tests of the withdrawn list.
fn early_list(zones: usize, gone: &[u16]) -> Option<Answer> {
    let order = (1..gone.len()).find(|&index| gone[index] <= gone[index - 1]);
    let all = (0..zones).all(|zone| gone.contains(&(zone as u16)));
    if fault("LIST is tested for order first") {
        return order.map(|place| [12, place as u64, 0, 0, 0, 0, 0, 0]);
    }
    (fault("NONE is tested before LIST") && all).then_some([13, 0, 0, 0, 0, 0, 0, 0])
}

/// The withdrawn numbers that a call with faults reckons with.
fn reckoned(zones: usize, heads: &[u16], gone: &[u16]) -> Vec<u16> {
    let mut list = gone.to_vec();
    if fault("LIST takes the same number twice") {
        list.dedup();
    }
    if fault("NONE is not said") && model::check(zones, &[], &[], gone, None).is_err_and(|t| t.kind as u64 == 13) {
        list.pop();
    }
    if fault("GONE is said of tails only") && model::check(zones, &[], &[], gone, None).is_ok() {
        list.retain(|zone| !heads.contains(zone));
    }
    list
}

/// Faults in the answer itself, and then it is handed out.
unsafe fn give(mut answer: Answer, out: *mut u64) {
    let refused = answer[0] != 0;
    if fault("RANGE is said of a head") && answer[0] == 11 {
        answer[0] = 6;
    }
    if fault("a refusal's place is one too high") && refused {
        answer[1] += 1;
    }
    if fault("a refusal keeps a value") && refused {
        answer[2] = 1;
    }
    if fault("the last number of the answer is not 0") {
        answer[7] = 1;
    }
    if fault("DONE has a place") && !refused {
        answer[1] = 1;
    }
    let count = if fault("the answer's last number is not written") { 7 } else { 8 };
    from_raw_parts_mut(out, count).copy_from_slice(&answer[..count]);
}

/// Faults in an output list, `used` of whose elements are the result.
unsafe fn spoil<T: Copy>(list: *mut T, length: usize, used: usize, other: T) {
    if fault("a write just after an output list") {
        *list.add(length) = other;
    }
    if fault("a write just before an output list") {
        *list.sub(1) = other;
    }
    if fault("an output element after the result changes") && used < length {
        *list.add(used) = other;
    }
}

/// Faults in work memory.
unsafe fn spoil_work(answer: &Answer, zones: usize, arcs: usize, work: *mut u16, length: usize) {
    if answer[0] != 0 {
        if fault("a refusal clears work memory") {
            from_raw_parts_mut(work, length).fill(0);
        }
        return;
    }
    let asked = model::work_asked(zones, arcs);
    if fault("the last asked element of work memory is not cleared") {
        *work.add(asked - 1) = 7;
    }
    if fault("one element of work memory too many is cleared") && asked < length {
        *work.add(asked) = 0;
    }
}

/// The answer for a file whose tail at `at` is no zone, where its head is tested
/// first and is none either.
fn late_tail(bytes: &[u8], at: usize) -> Option<Answer> {
    let number = |at| model::file::number(bytes, at).ok();
    let (zones, _) = number(0)?;
    let (_, at_head) = number(at)?;
    let (head, _) = number(at_head)?;
    (head >= zones).then_some([11, at_head as u64, 0, 0, 0, 0, 0, 0])
}

#[cfg_attr(feature = "exported", no_mangle)]
pub unsafe extern "C" fn linkplan_read(
    file: *const u8, file_len: usize,
    tails: *mut u16, tails_len: usize, heads: *mut u16, heads_len: usize, out: *mut u64,
) {
    let cut_len = if fault("a file's length is cut to 16 bits") { file_len & 0xffff } else { file_len };
    let bytes = from_raw_parts(file, cut_len);
    let mut answer = model::read(bytes, from_raw_parts_mut(tails, tails_len), from_raw_parts_mut(heads, heads_len));
    let start = answer[1] as usize;
    if fault("LOOSE is placed at the number's first byte") && answer[0] == 3 {
        answer[1] -= bytes[..start].iter().rev().take_while(|&&byte| byte >= 128).count() as u64;
    }
    if fault("LONG is placed one group too early") && answer[0] == 2 {
        answer[1] -= 1;
    }
    if fault("a file's head is tested before its tail") && answer[0] == 6 {
        answer = late_tail(bytes, start).unwrap_or(answer);
    }
    if fault("SHORT is placed at the number's first byte") && answer[0] == 1 {
        answer[1] -= bytes.iter().rev().take_while(|&&byte| byte >= 128).count() as u64;
    }
    if fault("a file's ROOM is placed at 0") && answer[0] == 9 {
        answer[1] = 0;
    }
    let late = [6, 7, 8, 11].contains(&answer[0]) && start > 5 && tails_len > 0;
    if fault("a refused file has stored its first arc") && late {
        *tails = u16::from(bytes[2]);
    }
    spoil(tails, tails_len, answer[3] as usize, 7);
    give(answer, out);
}

#[cfg_attr(feature = "exported", no_mangle)]
pub unsafe extern "C" fn linkplan_write(
    zones: usize, tails: *const u16, tails_len: usize, heads: *const u16, heads_len: usize,
    gone: *const u16, gone_len: usize,
    file: *mut u8, file_len: usize, out: *mut u64,
) {
    let (zones, tails, heads) = (cut(zones), arcs(tails, tails_len), arcs(heads, heads_len));
    let lent = withdrawn(gone, gone_len);
    let gone = &reckoned(zones, heads, lent);
    let answer = early(zones, tails, heads, lent, file_len > 0)
        .unwrap_or_else(|| model::write(zones, tails, heads, gone, from_raw_parts_mut(file, file_len)));
    spoil(file, file_len, answer[2] as usize, 7);
    give(answer, out);
}

#[cfg_attr(feature = "exported", no_mangle)]
pub unsafe extern "C" fn linkplan_strong(
    zones: usize, tails: *const u16, tails_len: usize, heads: *const u16, heads_len: usize,
    gone: *const u16, gone_len: usize,
    work: *mut u16, work_len: usize, out: *mut u64,
) {
    let (zones, tails, heads) = (cut(zones), arcs(tails, tails_len), arcs(heads, heads_len));
    let lent = withdrawn(gone, gone_len);
    let gone = &reckoned(zones, heads, lent);
    let mut answer = early(zones, tails, heads, lent, work_len > 0)
        .unwrap_or_else(|| model::strong(zones, tails, heads, gone, memory(work, work_len)));
    if fault("strong is always no") || fault("strength is over all numbers") && !gone.is_empty() {
        answer[2] = 0;
    }
    spoil_work(&answer, zones, tails.len(), work, work_len);
    give(answer, out);
}

#[cfg_attr(feature = "exported", no_mangle)]
pub unsafe extern "C" fn linkplan_reach(
    zones: usize, tails: *const u16, tails_len: usize, heads: *const u16, heads_len: usize,
    gone: *const u16, gone_len: usize,
    mut from: usize, mut to: usize, work: *mut u16, work_len: usize, out: *mut u64,
) {
    let (zones, tails, heads) = (cut(zones), arcs(tails, tails_len), arcs(heads, heads_len));
    let lent = withdrawn(gone, gone_len);
    let gone = &reckoned(zones, heads, lent);
    if fault("a zone of a question is cut to 16 bits") {
        (from, to) = (from & 0xffff, to & 0xffff);
    }
    if fault("reach is asked the other way round") {
        (from, to) = (to, from);
    }
    let mut answer = early(zones, tails, heads, lent, work_len > 0)
        .unwrap_or_else(|| model::reach(zones, tails, heads, gone, from, to, memory(work, work_len)));
    if fault("a question about a withdrawn zone is answered") && answer[0] == 14 && answer[1] == tails.len() as u64 {
        answer = [0, 0, (from == to) as u64, 0, 0, 0, 0, 0];
        memory(work, work_len)[..model::work_asked(zones, tails.len())].fill(0);
    }
    let asked = answer[0] == 6 && answer[1] == tails.len() as u64;
    if fault("a question's second zone is tested first") && asked && to >= zones {
        answer[0] = 11;
    }
    if fault("reach is always no") {
        answer[2] = 0;
    }
    spoil_work(&answer, zones, tails.len(), work, work_len);
    give(answer, out);
}

#[cfg_attr(feature = "exported", no_mangle)]
pub unsafe extern "C" fn linkplan_skeleton(
    zones: usize, tails: *const u16, tails_len: usize, heads: *const u16, heads_len: usize,
    gone: *const u16, gone_len: usize,
    out_tails: *mut u16, out_tails_len: usize, out_heads: *mut u16, out_heads_len: usize,
    work: *mut u16, work_len: usize, out: *mut u64,
) {
    let (zones, tails, heads) = (cut(zones), arcs(tails, tails_len), arcs(heads, heads_len));
    let lent = withdrawn(gone, gone_len);
    let gone = &reckoned(zones, heads, lent);
    let one = from_raw_parts_mut(out_tails, out_tails_len);
    let two = from_raw_parts_mut(out_heads, out_heads_len);
    let mut answer = early(zones, tails, heads, lent, work_len > 0)
        .unwrap_or_else(|| model::skeleton(zones, tails, heads, gone, one, two, memory(work, work_len)));
    let count = answer[2] as usize;
    if answer[0] == 0 && fault("the skeleton copies its input") {
        one[..tails.len()].copy_from_slice(tails);
        two[..heads.len()].copy_from_slice(heads);
        answer[2] = tails.len() as u64;
    }
    if fault("the skeleton is in another order") && count > 1 {
        one.swap(count - 1, count - 2);
        two.swap(count - 1, count - 2);
    }
    if answer[0] == 0 && fault("the skeleton drops an arc that has another beside it") {
        answer[2] = drop_beside(zones, tails, heads, one, two, count) as u64;
    }
    spoil(out_heads, out_heads_len, answer[2] as usize, 7);
    spoil_work(&answer, zones, tails.len(), work, work_len);
    give(answer, out);
}

/// Takes out of a skeleton the arcs between components that more than one arc
/// of the network joins.
fn drop_beside(zones: usize, tails: &[u16], heads: &[u16], one: &mut [u16], two: &mut [u16], count: usize) -> usize {
    let of = graph::components(zones, &graph::rows(zones, tails, heads)).of;
    let pair = |a: u16, b: u16| (of[usize::from(a)], of[usize::from(b)]);
    let mut kept = 0;
    for arc in 0..count {
        let ends = pair(one[arc], two[arc]);
        let beside = tails.iter().zip(heads).filter(|(&a, &b)| pair(a, b) == ends).count();
        if ends.0 == ends.1 || beside < 2 {
            (one[kept], two[kept]) = (one[arc], two[arc]);
            kept += 1;
        }
    }
    kept
}

#[cfg_attr(feature = "exported", no_mangle)]
pub unsafe extern "C" fn linkplan_plan(
    zones: usize, tails: *const u16, tails_len: usize, heads: *const u16, heads_len: usize,
    gone: *const u16, gone_len: usize,
    from: *mut u16, from_len: usize, to: *mut u16, to_len: usize, why: *mut u16, why_len: usize,
    work: *mut u16, work_len: usize, out: *mut u64,
) {
    let (zones, tails, heads) = (cut(zones), arcs(tails, tails_len), arcs(heads, heads_len));
    let lent = withdrawn(gone, gone_len);
    let gone = &reckoned(zones, heads, lent);
    let one = from_raw_parts_mut(from, from_len);
    let two = from_raw_parts_mut(to, to_len);
    let three = from_raw_parts_mut(why, why_len);
    let mut answer = early(zones, tails, heads, lent, work_len > 0)
        .unwrap_or_else(|| model::plan(zones, tails, heads, gone, one, two, three, memory(work, work_len)));
    let count = answer[6] as usize;
    if fault("the plan has a link for a strong network") && answer[0] == 0 && count == 0 {
        (one[0], two[0], three[0], answer[6]) = (0, 0, 1, 1);
    }
    if fault("withdrawn zones come out alone") && answer[0] == 0 {
        answer[4] += gone.len() as u64;
    }
    if fault("two links are exchanged") && count > 1 {
        one.swap(0, 1);
        two.swap(0, 1);
    }
    if fault("the last link's why is another") && count > 0 {
        three[count - 1] = (three[count - 1] + 1) % 3;
    }
    if fault("the number of pairs is that of all sources") {
        answer[5] = answer[2].min(answer[3]);
    }
    spoil(why, why_len, answer[6] as usize, 7);
    spoil_work(&answer, zones, tails.len(), work, work_len);
    give(answer, out);
}
