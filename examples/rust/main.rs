//! Reads a network file from standard input and prints its plan, as linkplan
//! does; what the other calls say, and which byte of a file is bad, goes to
//! standard error. The arguments, if there are any, are the numbers of zones
//! that are withdrawn, ascending.
//!
//! Build, from this directory, once `rt lib` has been run in crates/clib:
//!
//!   rustc --edition 2021 -O -o plan main.rs -L native=../../crates/clib/out
//!
//! Try:
//!
//!   printf '\6\5\0\2\2\3\0\4\1\4\4\5' | ./plan
//!   printf '\3\0' | ./plan 1

use std::io::Read;

#[path = "../../include/linkplan.rs"]
mod linkplan;

#[link(name = "clib", kind = "static")]
extern "C" {}

/// A refusal: its number and its place.
type Refusal = (u64, u64);

/// The calls' values, or the refusal.
fn outcome(answer: [u64; 8]) -> Result<[usize; 5], Refusal> {
    match answer {
        [0, _, a, b, c, d, e, _] => Ok([a, b, c, d, e].map(|value| value as usize)),
        [kind, place, ..] => Err((kind, place)),
    }
}

/// A network, with memory for the calls to work in. The slices give pointers
/// that are never null, and the borrow rules keep lent lists from overlapping:
/// all that the calls leave to the caller.
struct Network {
    zones: usize,
    tails: Vec<u16>,
    heads: Vec<u16>,
    /// The withdrawn zones, ascending.
    gone: Vec<u16>,
    work: Vec<u16>,
}

impl Network {
    /// The network of a file, which holds no withdrawn zones: they come beside it.
    fn read(file: &[u8], gone: Vec<u16>) -> Result<Network, Refusal> {
        let (mut tails, mut heads, mut answer) = (vec![0; 4096], vec![0; 4096], [0; 8]);
        unsafe {
            linkplan::linkplan_read(
                file.as_ptr(), file.len(),
                tails.as_mut_ptr(), tails.len(), heads.as_mut_ptr(), heads.len(),
                answer.as_mut_ptr(),
            );
        }
        let [zones, arcs, ..] = outcome(answer)?;
        tails.truncate(arcs);
        heads.truncate(arcs);
        Ok(Network { zones, tails, heads, gone, work: vec![0; 16 * zones + 3 * arcs] })
    }

    fn write(&self) -> Result<Vec<u8>, Refusal> {
        let (mut file, mut answer) = (vec![0; 16_388], [0; 8]);
        let (tails, heads, gone) = (&self.tails, &self.heads, &self.gone);
        unsafe {
            linkplan::linkplan_write(
                self.zones, tails.as_ptr(), tails.len(), heads.as_ptr(), heads.len(),
                gone.as_ptr(), gone.len(), file.as_mut_ptr(), file.len(),
                answer.as_mut_ptr(),
            );
        }
        let [length, ..] = outcome(answer)?;
        file.truncate(length);
        Ok(file)
    }

    fn strong(&mut self) -> Result<bool, Refusal> {
        let (tails, heads, gone) = (&self.tails, &self.heads, &self.gone);
        let (work, mut answer) = (&mut self.work, [0; 8]);
        unsafe {
            linkplan::linkplan_strong(
                self.zones, tails.as_ptr(), tails.len(), heads.as_ptr(), heads.len(),
                gone.as_ptr(), gone.len(), work.as_mut_ptr(), work.len(),
                answer.as_mut_ptr(),
            );
        }
        Ok(outcome(answer)?[0] == 1)
    }

    fn reach(&mut self, from: usize, to: usize) -> Result<bool, Refusal> {
        let (tails, heads, gone) = (&self.tails, &self.heads, &self.gone);
        let (work, mut answer) = (&mut self.work, [0; 8]);
        unsafe {
            linkplan::linkplan_reach(
                self.zones, tails.as_ptr(), tails.len(), heads.as_ptr(), heads.len(),
                gone.as_ptr(), gone.len(), from, to, work.as_mut_ptr(), work.len(),
                answer.as_mut_ptr(),
            );
        }
        Ok(outcome(answer)?[0] == 1)
    }

    fn skeleton(&mut self) -> Result<Vec<(u16, u16)>, Refusal> {
        let (tails, heads, gone) = (&self.tails, &self.heads, &self.gone);
        let (work, mut answer) = (&mut self.work, [0; 8]);
        let (mut out_tails, mut out_heads) = (vec![0; tails.len()], vec![0; tails.len()]);
        unsafe {
            linkplan::linkplan_skeleton(
                self.zones, tails.as_ptr(), tails.len(), heads.as_ptr(), heads.len(),
                gone.as_ptr(), gone.len(),
                out_tails.as_mut_ptr(), out_tails.len(), out_heads.as_mut_ptr(), out_heads.len(),
                work.as_mut_ptr(), work.len(),
                answer.as_mut_ptr(),
            );
        }
        let [arcs, ..] = outcome(answer)?;
        Ok(out_tails.into_iter().zip(out_heads).take(arcs).collect())
    }

    /// The plan's counts, and from, to and why of each link.
    #[allow(clippy::type_complexity)]
    fn plan(&mut self) -> Result<([usize; 5], Vec<(u16, u16, u16)>), Refusal> {
        let (tails, heads, gone) = (&self.tails, &self.heads, &self.gone);
        let (work, mut answer) = (&mut self.work, [0; 8]);
        let (mut from, mut to, mut why) = (vec![0; self.zones], vec![0; self.zones], vec![0; self.zones]);
        unsafe {
            linkplan::linkplan_plan(
                self.zones, tails.as_ptr(), tails.len(), heads.as_ptr(), heads.len(),
                gone.as_ptr(), gone.len(),
                from.as_mut_ptr(), from.len(), to.as_mut_ptr(), to.len(), why.as_mut_ptr(), why.len(),
                work.as_mut_ptr(), work.len(),
                answer.as_mut_ptr(),
            );
        }
        let counts = outcome(answer)?;
        Ok((counts, (0..counts[4]).map(|i| (from[i], to[i], why[i])).collect()))
    }
}

/// Which byte of a refused file it is, and of which number: as many numbers come
/// before it as bytes below 128 do.
fn place_in(file: &[u8], (kind, place): Refusal) -> String {
    const NAMES: [&str; 12] =
        ["DONE", "SHORT", "LONG", "LOOSE", "ZONES", "ARCS", "RANGE", "SELF", "EXTRA", "ROOM", "PAIR", "HEAD"];
    let (name, at) = (NAMES[kind as usize], place as usize);
    let byte = match file.get(at) {
        Some(byte) => format!("byte {at} is {byte:02x}"),
        None => format!("the file ends at byte {at}"),
    };
    let part = match file[..at].iter().filter(|&&byte| byte < 128).count() {
        _ if kind == linkplan::LINKPLAN_EXTRA => "after the last arc".into(),
        0 => "in the zone count".into(),
        1 => "in the arc count".into(),
        number => format!("in the {} of arc {}", ["tail", "head"][number % 2], number / 2 - 1),
    };
    format!("{name}: {byte}, {part}")
}

fn run(file: &[u8], gone: Vec<u16>) -> Result<(), Refusal> {
    let mut network = Network::read(file, gone).inspect_err(|&refusal| eprintln!("{}", place_in(file, refusal)))?;
    let ([sources, sinks, alone, pairs, need], links) = network.plan()?;
    println!("zones {} arcs {}", network.zones, network.tails.len());
    println!("sources {sources} sinks {sinks} alone {alone} pairs {pairs}");
    println!("need {need}");
    for (from, to, why) in links {
        println!("{from} {to} {}", ["ring", "chain", "back"][usize::from(why)]);
    }
    println!("done");
    others(file, network)
}

/// Says on standard error what the calls other than read and plan answer.
fn others(file: &[u8], mut network: Network) -> Result<(), Refusal> {
    eprintln!("written again: {}", if network.write()? == file { "the same" } else { "not the same" });
    eprintln!("strong: {}", if network.strong()? { "yes" } else { "no" });
    let stays = |zone: &usize| !network.gone.contains(&(*zone as u16));
    let (first, last) = ((0..network.zones).find(stays), (0..network.zones).rfind(stays));
    let yes = network.reach(first.unwrap(), last.unwrap())?;
    eprintln!("the first zone reaches the last: {}", if yes { "yes" } else { "no" });
    let skeleton: String = network.skeleton()?.iter().map(|(tail, head)| format!(" {tail}-{head}")).collect();
    eprintln!("skeleton:{skeleton}");
    Ok(())
}

fn main() {
    // One byte more than the longest good file is enough to decide any input.
    let mut file = Vec::new();
    std::io::stdin().take(16_389).read_to_end(&mut file).expect("standard input can be read");
    // A word that is no number of 16 bits is no zone's, and neither is the largest of these.
    let gone = std::env::args().skip(1).map(|word| word.parse().unwrap_or(65_535)).collect();
    if let Err((kind, place)) = run(&file, gone) {
        println!("refused {kind} at {place}");
    }
}
