//! How operations and back steps move the sum of work RAM, and which sums single calls are given.

use super::{Group, a_place_twice};
use crate::bench::Step;
use crate::image::{DMA, Entry};
use crate::layout::Field;
use crate::lent::BANK_SIZE;
use crate::listed::{BACK, FRESH, Listed, PAGE};
use crate::row::Row;

const WRITERS: [&str; 4] = ["script", "general", "HDMA", "back"];

pub struct Sums {
    moved: Group,
}

impl Sums {
    /// Only a false sum gets past an end of its range.
    pub fn of_calls() -> Self {
        let given = ["false, operation", "false, back", "false, refused"].map(String::from);
        Self::of(&["raises", "lowers", "leaves", "wraps up", "wraps down"], given.to_vec())
    }

    pub fn of_files() -> Self {
        Self::of(&["raises", "lowers", "leaves"], vec![])
    }

    fn of(ways: &[&str], mut members: Vec<String>) -> Self {
        members.extend(WRITERS.iter().flat_map(|writer| ways.iter().map(move |way| format!("{writer} {way}"))));
        members.extend(["HDMA a place twice", "back a place twice"].map(String::from));
        Self { moved: Group::new("the sum of work RAM", members) }
    }

    /// An accepted call; only those that write to work RAM count.
    pub fn step(&mut self, step: &Step) {
        let entry = Entry::take(step.entry);
        if entry.count == 0 {
            return;
        }
        let writer = match step.call {
            Row::Cycles { .. } if step.before.image.dma.state == DMA => WRITERS[1],
            Row::Cycles { .. } => WRITERS[2],
            Row::Back { .. } => WRITERS[3],
            _ => WRITERS[0],
        };
        let (before, after) = (step.before.sum, step.after.sum);
        let (way, wraps) = match after.wrapping_sub(before) as i32 {
            0 => ("leaves", false),
            1.. => ("raises", after < before),
            _ => ("lowers", after > before),
        };
        self.moved.hit(format!("{writer} {way}"));
        if wraps {
            self.moved.hit(format!("{writer} wraps {}", if way == "raises" { "up" } else { "down" }));
        }
        if a_place_twice(&entry) {
            self.moved.hit(format!("{writer} a place twice"));
        }
    }

    /// A listed call beside the true sum of the banks that it was lent.
    pub fn given(&mut self, listed: &Listed, number: u8, truth: u32) {
        let whole = [listed.lent_low, listed.lent_high] == [BANK_SIZE as u32; 2];
        if matches!(listed.kind, FRESH | PAGE) || !whole || listed.machine.sum == truth {
            return;
        }
        self.moved.hit(match (number, listed.kind) {
            (0, BACK) => "false, back",
            (0, _) => "false, operation",
            _ => "false, refused",
        });
    }

    pub fn group(&self) -> &Group {
        &self.moved
    }
}
