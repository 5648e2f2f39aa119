//! Runs the comparing against wrong calls: each fault must be seen, and none
//! where there is none.

use crate::calls::Calls;
use crate::compare::Comparer;
use crate::wrong::{FAULT, FAULTS};
use crate::{examples, files, random, small};
use std::sync::atomic::Ordering;

/// Whether all faults were seen.
pub fn run(seed: u64) -> bool {
    let mut missed = 0;
    for (number, name) in FAULTS.iter().enumerate() {
        FAULT.store(number, Ordering::Relaxed);
        let mut to = Comparer::new(Calls::Wrong, seed, 1, false);
        examples::run(&mut to);
        for section in 0..3 {
            if !to.full() {
                match section {
                    0 => small::run(&mut to, 3),
                    1 => random::run(&mut to, 20_000),
                    _ => files::run(&mut to, 4000, 1000),
                }
            }
        }
        let seen = to.differ > 0;
        let right = seen == (number > 0);
        if !right {
            missed += 1;
        }
        let verdict = if right { "as it should be" } else { "NOT AS IT SHOULD BE" };
        println!("{}: {name}: {} compared, {} differ", verdict, to.compared, to.differ);
        if seen {
            let text: String = to.shown[0].chars().take(400).collect();
            println!("    {text}");
        }
    }
    println!("{} faults, {} missed", FAULTS.len() - 1, missed);
    missed == 0
}
