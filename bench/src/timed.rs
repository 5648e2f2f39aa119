//! One network with all the lists that its calls are lent, and the six calls on
//! it by the archive and by the model; the skeleton also by others.

use crate::before;
use crate::chance::Chance;
use crate::linkplan::*;
use crate::model::{self, work_asked, Answer};
use crate::net::Net;
use crate::tuned::Tuned;

pub const CALLS: [&str; 6] = ["read", "write", "strong", "reach", "skeleton", "plan"];

/// Questions asked one after the other where reach is timed; the time is that
/// of one.
pub const QUESTIONS: usize = 16;

/// Whose call is timed.
#[derive(Clone, Copy, PartialEq, Eq)]
pub enum Side {
    Ours,
    Model,
    Tuned,
    Before,
}

impl Side {
    pub const ALL: [Side; 4] = [Side::Ours, Side::Model, Side::Tuned, Side::Before];

    /// Its name in the tables.
    pub fn name(self) -> &'static str {
        ["ours", "model", "tuned", "before"][self as usize]
    }
}

/// Those whose calls are timed beside each other, ours first.
pub fn sides(call: usize) -> &'static [Side] {
    match CALLS[call] {
        "skeleton" if cfg!(before) => &Side::ALL,
        "skeleton" => &Side::ALL[..3],
        _ => &Side::ALL[..2],
    }
}

pub struct Timed {
    net: Net,
    tuned: Box<Tuned>,
    file: Vec<u8>,
    questions: Vec<(usize, usize)>,
    /// Output lists, of the lengths that the calls ask for.
    out_file: Vec<u8>,
    tails: Vec<u16>,
    heads: Vec<u16>,
    from: Vec<u16>,
    to: Vec<u16>,
    why: Vec<u16>,
    work: Vec<u16>,
}

impl Timed {
    pub fn new(net: &Net, chance: &mut Chance) -> Timed {
        let (zones, arcs) = (net.zones, net.tails.len());
        let file = model::file::bytes(zones, &net.tails, &net.heads);
        let stay: Vec<usize> = (0..zones).filter(|&zone| !net.gone.contains(&(zone as u16))).collect();
        Timed {
            net: net.clone(),
            tuned: Tuned::new(),
            questions: (0..QUESTIONS).map(|_| (chance.pick(&stay), chance.pick(&stay))).collect(),
            out_file: vec![0; file.len()],
            file,
            tails: vec![0; arcs],
            heads: vec![0; arcs],
            from: vec![0; zones],
            to: vec![0; zones],
            why: vec![0; zones],
            work: vec![0; work_asked(zones, arcs)],
        }
    }

    /// Fills all that is written to with a value that no result has, so that
    /// nothing is found cleared. Not timed.
    pub fn soil(&mut self) {
        self.out_file.fill(0xee);
        let lists = [&mut self.tails, &mut self.heads, &mut self.from, &mut self.to, &mut self.why, &mut self.work];
        for list in lists {
            list.fill(0xeeee);
        }
    }

    /// The answer of one side.
    pub fn answer(&mut self, side: Side, call: usize) -> Answer {
        match side {
            Side::Ours | Side::Before => self.archive(side, call),
            Side::Model => self.model(call),
            Side::Tuned => {
                // It knows of no withdrawn zones, and need not: they are at no arc.
                let Net { zones, tails, heads, .. } = &self.net;
                self.tuned.skeleton(*zones, tails, heads, &mut self.tails, &mut self.heads, &mut self.work)
            }
        }
    }

    /// The archive's answer. That of reach is the last question's, with all
    /// questions' yes and no as the bits of its last number.
    fn archive(&mut self, side: Side, call: usize) -> Answer {
        let (zones, arcs) = (self.net.zones, self.net.tails.len());
        let (t, h) = (self.net.tails.as_ptr(), self.net.heads.as_ptr());
        let (g, gone) = (self.net.gone.as_ptr(), self.net.gone.len());
        let (work, work_len) = (self.work.as_mut_ptr(), self.work.len());
        let (tails, heads) = (self.tails.as_mut_ptr(), self.heads.as_mut_ptr());
        let (from, to, why) = (self.from.as_mut_ptr(), self.to.as_mut_ptr(), self.why.as_mut_ptr());
        let (file, out_file) = (self.file.as_ptr(), self.out_file.as_mut_ptr());
        let mut answer = [0; 8];
        let a = answer.as_mut_ptr();
        // Every list is as long as it is said to be, and no two overlap.
        unsafe {
            match CALLS[call] {
                "read" => linkplan_read(file, self.file.len(), tails, arcs, heads, arcs, a),
                "write" => linkplan_write(zones, t, arcs, h, arcs, g, gone, out_file, self.out_file.len(), a),
                "strong" => linkplan_strong(zones, t, arcs, h, arcs, g, gone, work, work_len, a),
                "reach" => {
                    let mut all = 0;
                    for &(first, second) in &self.questions {
                        linkplan_reach(zones, t, arcs, h, arcs, g, gone, first, second, work, work_len, a);
                        all = all * 2 + *a.add(2);
                    }
                    *a.add(7) = all;
                }
                "skeleton" => {
                    let skeleton = if side == Side::Before { before::skeleton } else { linkplan_skeleton };
                    skeleton(zones, t, arcs, h, arcs, g, gone, tails, arcs, heads, arcs, work, work_len, a);
                }
                _ => linkplan_plan(
                    zones, t, arcs, h, arcs, g, gone, from, zones, to, zones, why, zones, work, work_len, a,
                ),
            }
        }
        answer
    }

    /// The model's answer, in the same way.
    fn model(&mut self, call: usize) -> Answer {
        let Net { zones, tails, heads, gone } = &self.net;
        match CALLS[call] {
            "read" => model::read(&self.file, &mut self.tails, &mut self.heads),
            "write" => model::write(*zones, tails, heads, gone, &mut self.out_file),
            "strong" => model::strong(*zones, tails, heads, gone, &mut self.work),
            "reach" => {
                let (mut answer, mut all) = ([0; 8], 0);
                for &(first, second) in &self.questions {
                    answer = model::reach(*zones, tails, heads, gone, first, second, &mut self.work);
                    all = all * 2 + answer[2];
                }
                answer[7] = all;
                answer
            }
            "skeleton" => {
                model::skeleton(*zones, tails, heads, gone, &mut self.tails, &mut self.heads, &mut self.work)
            }
            _ => {
                let (from, to, why) = (&mut self.from, &mut self.to, &mut self.why);
                model::plan(*zones, tails, heads, gone, from, to, why, &mut self.work)
            }
        }
    }

    /// All that a call may have written.
    fn written(&self) -> (Vec<u8>, Vec<u16>) {
        let lists = [&self.tails, &self.heads, &self.from, &self.to, &self.why, &self.work];
        (self.out_file.clone(), lists.into_iter().flatten().copied().collect())
    }

    /// Whether all give the same: times of wrong results are worth nothing.
    pub fn agree(&mut self, call: usize) -> Result<(), String> {
        self.soil();
        let ours = (self.answer(Side::Ours, call), self.written());
        if ours.0[0] != 0 {
            return Err(format!("refused: {:?}", ours.0));
        }
        for &side in &sides(call)[1..] {
            self.soil();
            if ours != (self.answer(side, call), self.written()) {
                return Err(format!("ours and {} differ", side.name()));
            }
        }
        Ok(())
    }
}
