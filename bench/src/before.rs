//! The skeleton of an earlier archive. `bench/run --before` gives it its other
//! name; what it takes is the same as in `include/linkplan.rs`, so it is an
//! archive that takes withdrawn zones.

#[cfg(before)]
extern "C" {
    #[link_name = "before_linkplan_skeleton"]
    pub fn skeleton(
        zones: usize,
        tails: *const u16,
        tails_len: usize,
        heads: *const u16,
        heads_len: usize,
        gone: *const u16,
        gone_len: usize,
        out_tails: *mut u16,
        out_tails_len: usize,
        out_heads: *mut u16,
        out_heads_len: usize,
        work: *mut u16,
        work_len: usize,
        answer: *mut u64,
    );
}

/// Where there is no earlier archive, nobody asks for its call.
#[cfg(not(before))]
pub use crate::linkplan::linkplan_skeleton as skeleton;
