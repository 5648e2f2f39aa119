//! Times the archive's six calls beside the model, on nine families of
//! networks at three sizes, all in one run; the skeleton also beside a tuned
//! program and, if there is one, an earlier archive. Prints Markdown tables to
//! standard output and writes a plot of the ratios.

#[path = "../../tests/src/chance.rs"]
#[allow(dead_code)]
mod chance;
#[path = "../../tests/src/families.rs"]
mod families;
#[path = "../../tests/src/model.rs"]
#[allow(dead_code)]
mod model;
#[path = "../../tests/src/net.rs"]
#[allow(dead_code)]
mod net;
#[path = "../../include/linkplan.rs"]
mod linkplan;
mod before;
mod measure;
mod plot;
mod table;
mod timed;
mod tuned;
#[cfg(test)]
mod tuned_test;

use chance::Chance;
use families::FAMILIES;
use measure::Figure;
use std::process::exit;
use timed::{Timed, CALLS};

pub const SIZES: [usize; 3] = [256, 512, 1024];

fn main() {
    let (mut runs, mut file) = (31, String::from("speed.svg"));
    let mut words = std::env::args().skip(1);
    while let Some(word) = words.next() {
        match (word.as_str(), words.next()) {
            ("--runs", Some(number)) if number.parse::<usize>().is_ok_and(|n| n > 0) => runs = number.parse().unwrap(),
            ("--plot", Some(path)) => file = path,
            _ => {
                eprintln!("options: [--runs N] [--plot FILE]");
                exit(2);
            }
        }
    }

    let mut figures = Vec::new();
    for (family, name) in FAMILIES.iter().enumerate() {
        for zones in SIZES {
            // The same networks in every run.
            let mut chance = Chance::new(zones as u64 * 8 + family as u64);
            let net = families::make(name, zones, &mut chance);
            let mut timed = Timed::new(&net, &mut chance);
            for call in 0..CALLS.len() {
                if let Err(text) = timed.agree(call) {
                    eprintln!("{} on {name} of {zones} zones: {text}", CALLS[call]);
                    exit(1);
                }
                let times = measure::medians(&mut timed, call, runs);
                figures.push(Figure { call, family, zones, arcs: net.tails.len(), times });
            }
            eprintln!("timed: {name}, {zones} zones");
        }
    }
    table::print(&figures, runs);
    if let Err(error) = std::fs::write(&file, plot::draw(&figures, runs)) {
        eprintln!("{file}: {error}");
        exit(1);
    }
}
