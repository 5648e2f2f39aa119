//! Compares the archive's six calls with an independent model.
//!
//! Without options the full run; `--short` the same with fewer cases;
//! `--selftest` runs the comparing against wrong calls instead of the archive.
//! `--only SECTION` runs one section, `--cases N` sets the number of networks
//! by chance, `--seed N` another seed, and `--loud` prints every call before it
//! is made, to find one that stops the program or never ends.
//!
//! The last line is "N compared, 0 differ" and the exit status 0, or the first
//! few differences are printed with their inputs in full and the status is 1.

mod calls;
mod chance;
mod compare;
mod examples;
mod families;
mod files;
mod large;
mod lent;
mod model;
mod net;
mod properties;
mod random;
mod selftest;
mod small;
mod withdrawn;
mod words;
mod wrong;

use compare::{Comparer, NAMES};
use properties::SHAPES;
use std::process::exit;
use std::time::Instant;

const SECTIONS: [&str; 6] = ["examples", "small", "withdrawn", "random", "files", "large"];

/// The refusals that each call can give, DONE included; all must come up in a
/// run of all sections.
const CAN: [&[usize]; 6] = [
    &[0, 1, 2, 3, 4, 5, 6, 7, 8, 9, 11],
    &[0, 4, 5, 6, 7, 9, 10, 11, 12, 13, 14],
    &[0, 4, 5, 6, 7, 9, 10, 11, 12, 13, 14],
    &[0, 4, 5, 6, 7, 9, 10, 11, 12, 13, 14],
    &[0, 4, 5, 6, 7, 9, 10, 11, 12, 13, 14],
    &[0, 4, 5, 6, 7, 9, 10, 11, 12, 13, 14],
];

struct Options {
    short: bool,
    selftest: bool,
    loud: bool,
    only: Option<String>,
    cases: Option<u64>,
    seed: u64,
}

fn options() -> Option<Options> {
    let mut options = Options { short: false, selftest: false, loud: false, only: None, cases: None, seed: 1 };
    let mut words = std::env::args().skip(1);
    while let Some(word) = words.next() {
        match word.as_str() {
            "--short" => options.short = true,
            "--selftest" => options.selftest = true,
            "--loud" => options.loud = true,
            "--only" => options.only = Some(words.next().filter(|name| SECTIONS.contains(&name.as_str()))?),
            "--cases" => options.cases = Some(words.next()?.parse().ok()?),
            "--seed" => options.seed = words.next()?.parse().ok()?,
            _ => return None,
        }
    }
    Some(options)
}

fn section(name: &str, to: &mut Comparer, options: &Options) {
    let short = options.short;
    match name {
        "examples" => examples::run(to),
        "small" => small::run(to, 4),
        "withdrawn" => withdrawn::run(to, if short { 61 } else { 1 }),
        "random" => random::run(to, options.cases.unwrap_or(if short { 60_000 } else { 1_000_000 })),
        "files" if short => files::run(to, 64, 30_000),
        "files" => files::run(to, 1, 1_000_000),
        _ if short => large::run(to, 1, 4),
        _ => large::run(to, 10, 40),
    }
}

fn main() {
    let Some(options) = options() else {
        eprintln!("options: [--short] [--only SECTION] [--cases N] [--seed N] [--loud], or --selftest");
        eprintln!("sections: {}", SECTIONS.join(", "));
        exit(2);
    };
    if options.selftest {
        exit(if selftest::run(options.seed) { 0 } else { 1 });
    }

    println!("archive {}, seed {}", env!("LINKPLAN_ARCHIVE"), options.seed);
    let mut to = Comparer::new(calls::Calls::Archive, options.seed, 1000, options.loud);
    for name in SECTIONS {
        if to.full() || options.only.as_deref().is_some_and(|only| only != name) {
            continue;
        }
        let (start, compared, differ) = (Instant::now(), to.compared, to.differ);
        section(name, &mut to, &options);
        let seconds = start.elapsed().as_secs_f64();
        println!("{name}: {} compared, {} differ, {seconds:.1} s", to.compared - compared, to.differ - differ);
    }
    let missing = summary(&to, options.only.is_none() && !to.full());
    for text in &to.shown {
        println!("DIFFERENT {text}");
    }
    println!("{} compared, {} differ", to.compared, to.differ);
    exit(if to.differ == 0 && !missing { 0 } else { 1 });
}

/// Prints what came up, and says whether something that should have did not.
fn summary(to: &Comparer, whole: bool) -> bool {
    let mut missing = false;
    for (call, name) in NAMES.iter().enumerate() {
        let met: Vec<String> = CAN[call].iter().map(|&kind| format!("{kind}: {}", to.met[call][kind])).collect();
        println!("answers of {name} by number: {}", met.join(", "));
        missing |= CAN[call].iter().any(|&kind| to.met[call][kind] == 0);
    }
    let shapes: Vec<String> = SHAPES.iter().zip(to.shapes).map(|(name, count)| format!("{name} {count}")).collect();
    println!("plans: {}", shapes.join(", "));
    missing |= to.shapes.contains(&0);
    if whole && missing {
        println!("some answer or kind of plan never came up: the cases are too few");
    }
    whole && missing
}
