//! What generated files reach, in numbers. A member of a group that is never reached is named.

use crate::bench::Step;
use crate::generator::{self, KINDS, broken};
use crate::image::Entry;
use crate::row::Row;
use crate::trace;
use std::collections::BTreeMap;
use std::fmt;

mod dma;
pub mod listed;
mod registers;
mod rom;
mod script;
mod sums;

/// Members never reached that are named in a line.
const SHOWN: usize = 12;

/// Members that ought to be reached, with how often they were.
pub struct Group {
    name: &'static str,
    members: BTreeMap<String, u64>,
}

impl Group {
    pub(crate) fn new<T: ToString>(name: &'static str, members: impl IntoIterator<Item = T>) -> Self {
        Self { name, members: members.into_iter().map(|member| (member.to_string(), 0)).collect() }
    }

    /// Counts a member; what the group does not name is not counted.
    pub(crate) fn hit(&mut self, member: impl ToString) {
        if let Some(count) = self.members.get_mut(&member.to_string()) {
            *count += 1;
        }
    }

    /// How many members were never reached.
    pub(crate) fn never(&self) -> usize {
        self.members.values().filter(|count| **count == 0).count()
    }

    /// Each member with how often it was reached.
    pub(crate) fn counts(&self) -> String {
        self.members.iter().map(|(name, count)| format!("{name} {count}")).collect::<Vec<String>>().join(", ")
    }
}

impl fmt::Display for Group {
    fn fmt(&self, out: &mut fmt::Formatter) -> fmt::Result {
        let never: Vec<&str> = self.members.iter().filter(|(_, count)| **count == 0).map(|(name, _)| &**name).collect();
        let (least, count) = self.members.iter().min_by_key(|(_, count)| **count).expect("a group has members");
        let reached = self.members.len() - never.len();
        write!(out, "| {} | {reached} of {} | {least}: {count} |", self.name, self.members.len())?;
        match never.len() {
            0 => write!(out, " |"),
            1..=SHOWN => write!(out, " NEVER: {} |", never.join(", ")),
            more => write!(out, " NEVER: {} and {} more |", never[..SHOWN].join(", "), more - SHOWN),
        }
    }
}

pub struct Coverage {
    files: Group,
    broken: Group,
    registers: registers::Registers,
    dma: dma::Transfers,
    script: script::Scripts,
    sums: sums::Sums,
    pub calls: u64,
}

/// Runs `count` files of a seed and counts.
pub fn coverage(seed: u64, count: u64) -> Coverage {
    let mut coverage = Coverage {
        files: Group::new("kinds of file", KINDS.iter().map(|kind| kind.name).chain(["broken"])),
        broken: Group::new("ways to break a file (answer 11)", broken::WAYS.iter().map(|way| way.0)),
        registers: registers::Registers::new(),
        dma: dma::Transfers::new(),
        script: script::Scripts::new(),
        sums: sums::Sums::of_files(),
        calls: 0,
    };
    for index in 0..count {
        coverage.file(seed, index);
    }
    coverage
}

impl Coverage {
    fn file(&mut self, seed: u64, index: u64) {
        let file = generator::file(seed, index);
        self.files.hit(generator::kind_name(index));
        self.script.start(&file);
        let lines = trace::watched(&file, &mut |step| self.step(&step));
        self.script.whole_file(&lines);
        if let (Some(way), "0 0 11 0 0\n") = (generator::broken_way(index), &*lines) {
            self.broken.hit(way);
        }
    }

    fn step(&mut self, step: &Step) {
        self.calls += 1;
        self.script.step(step);
        if step.number == 0 {
            self.registers.step(step);
            self.sums.step(step);
            if matches!(step.call, Row::Cycles { .. }) {
                self.dma.step(step);
            }
        }
    }
}

impl Coverage {
    fn groups(&self) -> impl Iterator<Item = &Group> {
        let groups = [&self.files, &self.broken].into_iter();
        let groups = groups.chain(self.registers.groups()).chain(self.dma.groups());
        groups.chain(self.script.groups()).chain([self.sums.group()])
    }

    /// How many members of all groups were never reached.
    pub fn never(&self) -> usize {
        self.groups().map(Group::never).sum()
    }
}

impl fmt::Display for Coverage {
    fn fmt(&self, out: &mut fmt::Formatter) -> fmt::Result {
        writeln!(out, "| group | reached | least | |\n|---|---|---|---|")?;
        self.groups().try_for_each(|group| writeln!(out, "{group}"))
    }
}

/// Whether an entry's operation wrote a place of work RAM twice.
fn a_place_twice(entry: &Entry) -> bool {
    let old = &entry.old[..entry.count.into()];
    (1..old.len()).any(|index| old[..index].iter().any(|earlier| earlier.place == old[index].place))
}
