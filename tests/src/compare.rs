//! Makes one call to the archive and to the model and compares all there is:
//! the eight numbers of the answer and every lent element, inputs too.

use crate::calls::{call, Calls};
use crate::chance::Chance;
use crate::lent::{Held, Lent};
use crate::model::{self, Answer, Kind};
use crate::net::Net;
use crate::properties::SHAPES;

pub const NAMES: [&str; 6] = ["read", "write", "strong", "reach", "skeleton", "plan"];
const READ: usize = 0;
const WRITE: usize = 1;
const STRONG: usize = 2;
const REACH: usize = 3;
const SKELETON: usize = 4;
const PLAN: usize = 5;

/// DONE, and every refusal.
pub const OUTCOMES: usize = Kind::Gone as usize + 1;

pub struct Comparer {
    calls: Calls,
    pub chance: Chance,
    pub compared: u64,
    pub differ: u64,
    /// The differences in words, the first few.
    pub shown: Vec<String>,
    /// After so many differences a section ends early.
    limit: u64,
    /// Print each call before it is made, to find one that never comes back.
    loud: bool,
    /// How often each call gave each refusal, by the model.
    pub met: [[u64; OUTCOMES]; 6],
    /// How often each kind of plan came up.
    pub shapes: [u64; SHAPES.len()],
}

impl Comparer {
    pub fn new(calls: Calls, seed: u64, limit: u64, loud: bool) -> Comparer {
        Comparer {
            calls,
            chance: Chance::new(seed),
            compared: 0,
            differ: 0,
            shown: Vec::new(),
            limit,
            loud,
            met: [[0; OUTCOMES]; 6],
            shapes: [0; SHAPES.len()],
        }
    }

    /// Enough differences have been seen.
    pub fn full(&self) -> bool {
        self.differ >= self.limit
    }

    /// A test beside the calls; the text is made only where it fails.
    pub fn hold(&mut self, good: bool, text: impl Fn() -> String) {
        self.compared += 1;
        if !good {
            self.add(text());
        }
    }

    fn add(&mut self, text: String) {
        self.differ += 1;
        if self.shown.len() < 5 {
            self.shown.push(text);
        }
    }

    fn before(&self, text: &dyn Fn() -> String) {
        if self.loud {
            eprintln!("{}", text());
        }
    }

    fn after(&mut self, call: usize, right: &Answer, text: &dyn Fn() -> String, lists: &[&dyn Held]) {
        self.met[call][right[0] as usize] += 1;
        self.compared += 1;
        let different: Vec<String> = lists.iter().filter_map(|list| list.difference()).collect();
        if !different.is_empty() {
            self.add(format!("{}\n    {}", text(), different.join("\n    ")));
        }
    }

    fn answer(&mut self, right: &Answer) -> Lent<u64> {
        let mut answer = Lent::output("answer", 8, &mut self.chance);
        answer.right().copy_from_slice(right);
        answer
    }

    fn network(&mut self, net: &Net) -> (Lent<u16>, Lent<u16>, Lent<u16>) {
        let tails = Lent::input("tails", &net.tails, &mut self.chance);
        let heads = Lent::input("heads", &net.heads, &mut self.chance);
        let gone = Lent::input("gone", &net.gone, &mut self.chance);
        (tails, heads, gone)
    }

    pub fn read(&mut self, bytes: &[u8], tails_len: usize, heads_len: usize) -> Answer {
        let mut file = Lent::input("file", bytes, &mut self.chance);
        let mut tails = Lent::output("tails", tails_len, &mut self.chance);
        let mut heads = Lent::output("heads", heads_len, &mut self.chance);
        let right = model::read(bytes, tails.right(), heads.right());
        let mut answer = self.answer(&right);
        let text = || format!("read: file {bytes:02x?} tails_len {tails_len} heads_len {heads_len}");
        self.before(&text);
        unsafe {
            call!(self.calls, linkplan_read(
                file.pointer(), file.length(),
                tails.pointer(), tails.length(), heads.pointer(), heads.length(),
                answer.pointer(),
            ));
        }
        self.after(READ, &right, &text, &[&answer, &tails, &heads, &file]);
        right
    }

    pub fn write(&mut self, net: &Net, file_len: usize) -> Answer {
        let (mut tails, mut heads, mut gone) = self.network(net);
        let mut file = Lent::output("file", file_len, &mut self.chance);
        let right = model::write(net.zones, &net.tails, &net.heads, &net.gone, file.right());
        let mut answer = self.answer(&right);
        let text = || format!("write: {net} file_len {file_len}");
        self.before(&text);
        unsafe {
            call!(self.calls, linkplan_write(
                net.zones, tails.pointer(), tails.length(), heads.pointer(), heads.length(),
                gone.pointer(), gone.length(), file.pointer(), file.length(),
                answer.pointer(),
            ));
        }
        self.after(WRITE, &right, &text, &[&answer, &file, &tails, &heads, &gone]);
        right
    }

    pub fn strong(&mut self, net: &Net, work_len: usize) -> Answer {
        let (mut tails, mut heads, mut gone) = self.network(net);
        let mut work = Lent::output("work", work_len, &mut self.chance);
        let right = model::strong(net.zones, &net.tails, &net.heads, &net.gone, work.right());
        let mut answer = self.answer(&right);
        let text = || format!("strong: {net} work_len {work_len}");
        self.before(&text);
        unsafe {
            call!(self.calls, linkplan_strong(
                net.zones, tails.pointer(), tails.length(), heads.pointer(), heads.length(),
                gone.pointer(), gone.length(), work.pointer(), work.length(),
                answer.pointer(),
            ));
        }
        self.after(STRONG, &right, &text, &[&answer, &work, &tails, &heads, &gone]);
        right
    }

    pub fn reach(&mut self, net: &Net, from: usize, to: usize, work_len: usize) -> Answer {
        let (mut tails, mut heads, mut gone) = self.network(net);
        let mut work = Lent::output("work", work_len, &mut self.chance);
        let right = model::reach(net.zones, &net.tails, &net.heads, &net.gone, from, to, work.right());
        let mut answer = self.answer(&right);
        let text = || format!("reach: {net} from {from} to {to} work_len {work_len}");
        self.before(&text);
        unsafe {
            call!(self.calls, linkplan_reach(
                net.zones, tails.pointer(), tails.length(), heads.pointer(), heads.length(),
                gone.pointer(), gone.length(), from, to, work.pointer(), work.length(),
                answer.pointer(),
            ));
        }
        self.after(REACH, &right, &text, &[&answer, &work, &tails, &heads, &gone]);
        right
    }

    /// `out` has the lengths of the two output lists.
    pub fn skeleton(&mut self, net: &Net, out: [usize; 2], work_len: usize) -> Answer {
        let (mut tails, mut heads, mut gone) = self.network(net);
        let mut out_tails = Lent::output("out_tails", out[0], &mut self.chance);
        let mut out_heads = Lent::output("out_heads", out[1], &mut self.chance);
        let mut work = Lent::output("work", work_len, &mut self.chance);
        let right = model::skeleton(
            net.zones, &net.tails, &net.heads, &net.gone,
            out_tails.right(), out_heads.right(), work.right(),
        );
        let mut answer = self.answer(&right);
        let text = || format!("skeleton: {net} out_tails_len {} out_heads_len {} work_len {work_len}", out[0], out[1]);
        self.before(&text);
        unsafe {
            call!(self.calls, linkplan_skeleton(
                net.zones, tails.pointer(), tails.length(), heads.pointer(), heads.length(),
                gone.pointer(), gone.length(),
                out_tails.pointer(), out_tails.length(), out_heads.pointer(), out_heads.length(),
                work.pointer(), work.length(),
                answer.pointer(),
            ));
        }
        self.after(SKELETON, &right, &text, &[&answer, &out_tails, &out_heads, &work, &tails, &heads, &gone]);
        right
    }

    /// `out` has the lengths of the lists from, to and why.
    pub fn plan(&mut self, net: &Net, out: [usize; 3], work_len: usize) -> Answer {
        let (mut tails, mut heads, mut gone) = self.network(net);
        let mut from = Lent::output("from", out[0], &mut self.chance);
        let mut to = Lent::output("to", out[1], &mut self.chance);
        let mut why = Lent::output("why", out[2], &mut self.chance);
        let mut work = Lent::output("work", work_len, &mut self.chance);
        let right = model::plan(
            net.zones, &net.tails, &net.heads, &net.gone,
            from.right(), to.right(), why.right(), work.right(),
        );
        let mut answer = self.answer(&right);
        let text = || {
            format!("plan: {net} from_len {} to_len {} why_len {} work_len {work_len}", out[0], out[1], out[2])
        };
        self.before(&text);
        unsafe {
            call!(self.calls, linkplan_plan(
                net.zones, tails.pointer(), tails.length(), heads.pointer(), heads.length(),
                gone.pointer(), gone.length(),
                from.pointer(), from.length(), to.pointer(), to.length(), why.pointer(), why.length(),
                work.pointer(), work.length(),
                answer.pointer(),
            ));
        }
        self.after(PLAN, &right, &text, &[&answer, &from, &to, &why, &work, &tails, &heads, &gone]);
        right
    }

    /// Every call on a good network, with just the lengths asked for or a few
    /// elements more. Reach is asked for `questions` pairs, or for all pairs
    /// where that is `None`; a zone asked about may be withdrawn. The file that
    /// is read is the network's, which holds no list of withdrawn zones.
    pub fn all(&mut self, net: &Net, questions: Option<usize>) {
        let (zones, arcs) = (net.zones, net.tails.len());
        let work = model::work_asked(zones, arcs);
        let mut longer = |length: usize| length + self.chance.pick(&[0, 0, 1, 5]);
        let (a, b, c, d) = (longer(arcs), longer(arcs), longer(work), longer(work));
        let (e, f, g, h) = (longer(zones), longer(zones), longer(zones), longer(work));
        let bytes = model::file::bytes(zones, &net.tails, &net.heads);
        let (i, j, k) = (longer(bytes.len()), longer(arcs), longer(arcs));
        self.read(&bytes, j, k);
        self.write(net, i);
        self.strong(net, c);
        self.skeleton(net, [a, b], d);
        self.plan(net, [e, f, g], h);
        match questions {
            None => {
                for pair in 0..zones * zones {
                    self.reach(net, pair / zones, pair % zones, work);
                }
            }
            Some(count) => {
                for _ in 0..count {
                    let (from, to) = (self.chance.below(zones), self.chance.below(zones));
                    self.reach(net, from, to, work);
                }
            }
        }
    }
}
