//! The six functions of the C interface, for programs in Rust. `linkplan.h` says
//! what each call does and answers. Made by `include/declare rust` from the
//! proved source: not to be changed by hand.
//!
//! Every list is a pointer to its first element and its length; `answer` points
//! to eight numbers, of which the first is 0, DONE, or a refusal's number.
#![allow(dead_code)]

pub const LINKPLAN_DONE: u64 = 0;
pub const LINKPLAN_SHORT: u64 = 1;
pub const LINKPLAN_LONG: u64 = 2;
pub const LINKPLAN_LOOSE: u64 = 3;
pub const LINKPLAN_ZONES: u64 = 4;
pub const LINKPLAN_ARCS: u64 = 5;
pub const LINKPLAN_RANGE: u64 = 6;
pub const LINKPLAN_SELF: u64 = 7;
pub const LINKPLAN_EXTRA: u64 = 8;
pub const LINKPLAN_ROOM: u64 = 9;
pub const LINKPLAN_PAIR: u64 = 10;
pub const LINKPLAN_HEAD: u64 = 11;
pub const LINKPLAN_LIST: u64 = 12;
pub const LINKPLAN_NONE: u64 = 13;
pub const LINKPLAN_GONE: u64 = 14;
pub const LINKPLAN_RING: u16 = 0;
pub const LINKPLAN_CHAIN: u16 = 1;
pub const LINKPLAN_BACK: u16 = 2;

extern "C" {
    pub fn linkplan_read(
        file: *const u8,
        file_len: usize,
        tails: *mut u16,
        tails_len: usize,
        heads: *mut u16,
        heads_len: usize,
        answer: *mut u64,
    );
    pub fn linkplan_write(
        zones: usize,
        tails: *const u16,
        tails_len: usize,
        heads: *const u16,
        heads_len: usize,
        gone: *const u16,
        gone_len: usize,
        file: *mut u8,
        file_len: usize,
        answer: *mut u64,
    );
    pub fn linkplan_strong(
        zones: usize,
        tails: *const u16,
        tails_len: usize,
        heads: *const u16,
        heads_len: usize,
        gone: *const u16,
        gone_len: usize,
        work: *mut u16,
        work_len: usize,
        answer: *mut u64,
    );
    pub fn linkplan_reach(
        zones: usize,
        tails: *const u16,
        tails_len: usize,
        heads: *const u16,
        heads_len: usize,
        gone: *const u16,
        gone_len: usize,
        from: usize,
        to: usize,
        work: *mut u16,
        work_len: usize,
        answer: *mut u64,
    );
    pub fn linkplan_skeleton(
        zones: usize,
        tails: *const u16,
        tails_len: usize,
        heads: *const u16,
        heads_len: usize,
        gone: *const u16,
        gone_len: usize,
        out_tails: *mut u16,
        out_tails_len: usize,
        out_heads: *mut u16,
        out_heads_len: usize,
        work: *mut u16,
        work_len: usize,
        answer: *mut u64,
    );
    pub fn linkplan_plan(
        zones: usize,
        tails: *const u16,
        tails_len: usize,
        heads: *const u16,
        heads_len: usize,
        gone: *const u16,
        gone_len: usize,
        from: *mut u16,
        from_len: usize,
        to: *mut u16,
        to_len: usize,
        why: *mut u16,
        why_len: usize,
        work: *mut u16,
        work_len: usize,
        answer: *mut u64,
    );
}
