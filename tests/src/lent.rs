//! Lists lent to a call, with guard elements on both sides.
//!
//! Beside what is lent stands what it should hold after the call, guards
//! included. Both start alike, with values by chance wherever the call is to
//! write or may not touch; the model is run on the one and the archive on the
//! other. So any write outside a list, and any element left out or changed
//! without need, is a difference.

use crate::chance::Chance;
use std::fmt::Debug;

/// Guard elements after a list, and the fewest before it.
const GUARD: usize = 8;

pub trait Element: Copy + PartialEq + Debug {
    /// How many of it one number by chance gives.
    const EACH: usize;
    fn cut(number: u64, part: usize) -> Self;
}

impl Element for u8 {
    const EACH: usize = 8;
    fn cut(number: u64, part: usize) -> u8 {
        (number >> (8 * part)) as u8
    }
}

impl Element for u16 {
    const EACH: usize = 4;
    fn cut(number: u64, part: usize) -> u16 {
        (number >> (16 * part)) as u16
    }
}

impl Element for u64 {
    const EACH: usize = 1;
    fn cut(number: u64, _: usize) -> u64 {
        number
    }
}

pub struct Lent<T> {
    name: &'static str,
    /// Guard elements before the list; by chance, so that lists begin at
    /// addresses of every kind.
    front: usize,
    length: usize,
    lent: Vec<T>,
    right: Vec<T>,
}

impl<T: Element> Lent<T> {
    /// A list of values by chance, for a call to write to.
    pub fn output(name: &'static str, length: usize, chance: &mut Chance) -> Lent<T> {
        Lent::make(name, length, None, chance)
    }

    /// A list that a call reads and leaves as it is.
    pub fn input(name: &'static str, content: &[T], chance: &mut Chance) -> Lent<T> {
        Lent::make(name, content.len(), Some(content), chance)
    }

    fn make(name: &'static str, length: usize, content: Option<&[T]>, chance: &mut Chance) -> Lent<T> {
        let front = GUARD + chance.below(8);
        let total = front + length + GUARD;
        let mut lent = Vec::with_capacity(total + T::EACH);
        while lent.len() < total {
            let number = chance.next();
            lent.extend((0..T::EACH).map(|part| T::cut(number, part)));
        }
        lent.truncate(total);
        if let Some(content) = content {
            lent[front..front + length].copy_from_slice(content);
        }
        let right = lent.clone();
        Lent { name, front, length, lent, right }
    }

    /// Where the lent list begins. Never null, also where the length is 0, as
    /// it points between the guards. It is taken from the whole list, so that
    /// a write to a guard is a write that the compiler must reckon with.
    pub fn pointer(&mut self) -> *mut T {
        unsafe { self.lent.as_mut_ptr().add(self.front) }
    }

    pub fn length(&self) -> usize {
        self.length
    }

    /// What it should hold after the call.
    pub fn right(&mut self) -> &mut [T] {
        &mut self.right[self.front..self.front + self.length]
    }
}

/// What the comparing asks of a list of any element.
pub trait Held {
    /// Says how the list differs from what it should hold, if it does.
    fn difference(&self) -> Option<String>;
}

impl<T: Element> Held for Lent<T> {
    fn difference(&self) -> Option<String> {
        if self.lent == self.right {
            return None;
        }
        let places: Vec<usize> = (0..self.lent.len()).filter(|&i| self.lent[i] != self.right[i]).collect();
        let first = places[0];
        let inner = self.front..self.front + self.length;
        let side = if first < inner.start {
            ", before the list"
        } else if first >= inner.end {
            ", after the list"
        } else {
            ""
        };
        let mut text = format!(
            "{} (length {}): {} differ, first at {}{}: {:?}, should be {:?}",
            self.name,
            self.length,
            places.len(),
            first as isize - inner.start as isize,
            side,
            self.lent[first],
            self.right[first],
        );
        if self.length <= 64 {
            text += &format!("\n      is        {:?}", &self.lent[inner.clone()]);
            text += &format!("\n      should be {:?}", &self.right[inner]);
        }
        Some(text)
    }
}
