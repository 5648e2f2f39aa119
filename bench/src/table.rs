//! Prints the figures as Markdown.

use crate::families::FAMILIES;
use crate::measure::{Figure, SAMPLE_SECONDS};
use crate::timed::{sides, Side, CALLS, QUESTIONS};
use crate::SIZES;

pub fn print(figures: &[Figure], runs: usize) {
    println!("# Speed of the six calls\n");
    let before = if cfg!(before) { ", *before* the skeleton of an earlier archive, called as ours is" } else { "" };
    println!(
        "*Ours* is the archive through the C interface, *model* the plain Rust program that the tests compare it \
         with (`tests/src/model.rs`), which takes memory of its own as it needs, *tuned* a Rust program without \
         proofs for the skeleton alone (`bench/src/tuned.rs`), which keeps memory of its own between calls{before}. \
         All in one run, in turn, on the same networks, the program and the model built for release. Each time is \
         the median of {runs} samples; a sample is the mean of as many calls in a row as take {:.0} microseconds, or \
         one call. Output lists and work memory are not cleared beforehand: before each sample, outside the timed \
         part, they are filled with a value that is no result. They have just the lengths asked for, and are in the \
         caches. The time for reach is that of one question, over {QUESTIONS} by chance. Before timing, all were \
         seen to give the same answer and the same lent elements. Times are in microseconds; growth is the time over \
         that of half the zones.\n",
        SAMPLE_SECONDS * 1e6
    );
    for (call, name) in CALLS.iter().enumerate() {
        println!("## {name}\n");
        let times: String = sides(call).iter().map(|side| format!(" {} |", side.name())).collect();
        let over: String = ratios(call).map(|(side, other)| format!(" {}/{} |", side.name(), other.name())).collect();
        println!("| family | zones | arcs |{times}{over} growth of ours | growth of model |");
        println!("|---|{}", "--:|".repeat(4 + sides(call).len() + ratios(call).count()));
        rows(figures, call);
        println!();
    }
    summary(figures);
}

/// The ratios in a call's table: ours over the model and the tuned program, and
/// the earlier archive over ours.
fn ratios(call: usize) -> impl Iterator<Item = (Side, Side)> {
    sides(call)[1..].iter().map(|&side| match side {
        Side::Before => (side, Side::Ours),
        _ => (Side::Ours, side),
    })
}

/// The rows of one call.
fn rows(figures: &[Figure], call: usize) {
    for (family, family_name) in FAMILIES.iter().enumerate() {
        let mut smaller: Option<&Figure> = None;
        for zones in SIZES {
            let figure =
                figures.iter().find(|f| (f.call, f.family, f.zones) == (call, family, zones)).unwrap();
            let times = figure.times.iter().map(|time| three(time * 1e6));
            let ratios = ratios(call).map(|(side, other)| three(figure.over(side, other)));
            let growths = [Side::Ours, Side::Model].map(|side| match smaller {
                Some(smaller) => format!("{:.1}", figure.time(side) / smaller.time(side)),
                None => String::new(),
            });
            let cells: Vec<String> = times.chain(ratios).chain(growths).collect();
            println!("| {family_name} | {zones} | {} | {} |", figure.arcs, cells.join(" | "));
            smaller = Some(figure);
        }
    }
}

/// The range and the middle of the ratios of each call at the largest size, and
/// below them those of the skeleton's other ratios.
fn summary(figures: &[Figure]) {
    println!("## Ours over model at {} zones\n", SIZES[2]);
    println!("| call | lowest | geometric mean | highest |");
    println!("|---|--:|--:|--:|");
    for (call, name) in CALLS.iter().enumerate() {
        summary_row(figures, call, name, (Side::Ours, Side::Model));
    }
    for (call, name) in CALLS.iter().enumerate() {
        for (side, other) in ratios(call).skip(1) {
            let name = format!("{name}, {} over {}", side.name(), other.name());
            summary_row(figures, call, &name, (side, other));
        }
    }
}

/// The same of one ratio.
fn summary_row(figures: &[Figure], call: usize, name: &str, (side, other): (Side, Side)) {
    let largest = figures.iter().filter(|f| f.call == call && f.zones == SIZES[2]);
    let ratios: Vec<f64> = largest.map(|f| f.over(side, other)).collect();
    let lowest = ratios.iter().copied().fold(f64::INFINITY, f64::min);
    let highest = ratios.iter().copied().fold(0.0, f64::max);
    let mean = (ratios.iter().map(|ratio| ratio.ln()).sum::<f64>() / ratios.len() as f64).exp();
    println!("| {name} | {} | {} | {} |", three(lowest), three(mean), three(highest));
}

/// A number in three figures or so.
pub fn three(number: f64) -> String {
    if number >= 100.0 {
        format!("{number:.0}")
    } else if number >= 10.0 {
        format!("{number:.1}")
    } else {
        format!("{number:.2}")
    }
}
