//! Bench files from a seed. Each kind aims at something document 01 names; `coverage` counts what was reached.

pub mod broken;
mod dma;
mod edges;
mod hdma;
pub(crate) mod joypad;
mod mixed;
mod registers;
pub(crate) mod script;

use crate::benchfile::BenchFile;
use crate::random::Random;
use script::Script;

/// A kind: its name, what it is after, and how a script of it is written.
pub struct Kind {
    pub name: &'static str,
    pub about: &'static str,
    write: fn(&mut Script),
}

pub const KINDS: [Kind; 18] = [
    Kind {
        name: "registers",
        about: "every register, read and written, from all system banks",
        write: registers::registers,
    },
    Kind {
        name: "arithmetic",
        about: "multiply, divide, WMADD and $2180 over the bank ends",
        write: registers::arithmetic,
    },
    Kind { name: "signals", about: "events, NMI edges, timer hits, status reads", write: registers::signals },
    Kind {
        name: "general",
        about: "general transfers: all modes, directions, steps, A and B sides",
        write: dma::general,
    },
    Kind { name: "queue", about: "several channels in MDMAEN, written again while running", write: dma::queue },
    Kind { name: "long", about: "DAS 0 and other long transfers", write: dma::long },
    Kind {
        name: "selfwrite",
        about: "transfers that rewrite their own channel, the enables or WMADD",
        write: dma::selfwrite,
    },
    Kind { name: "hdma", about: "HDMA tables, direct and indirect, all named counters", write: hdma::tables },
    Kind { name: "hdmaself", about: "HDMA that rewrites its own channel, table or WMADD", write: hdma::selfwrite },
    Kind {
        name: "takeover",
        about: "HDMA taking over from every DMA state, MDMAEN inside a pass",
        write: hdma::takeover,
    },
    Kind { name: "autojoy", about: "the automatic joypad read, disturbed in all ways", write: joypad::automatic },
    Kind { name: "manualjoy", about: "latch and clock by $4016 and $4017", write: joypad::manual },
    Kind { name: "refused", about: "rows refused by their calls (5, 6, 8)", write: edges::refused },
    Kind { name: "ring", about: "records that go round, back steps up to and past the oldest", write: edges::ring },
    Kind {
        name: "borders",
        about: "ROM lengths that repeat and that do not, cartridge borders at both speeds",
        write: edges::borders,
    },
    Kind {
        name: "limits",
        about: "sound files at the limits of their form, bit cycles in and out of range",
        write: edges::limits,
    },
    Kind { name: "mixed", about: "all of it in one script, with back steps", write: mixed::mixed },
    Kind { name: "noise", about: "rows without any plan", write: mixed::noise },
];

/// The name of file `index`'s kind; after one of each kind comes a broken file.
pub fn kind_name(index: u64) -> &'static str {
    kind(index).map_or("broken", |kind| kind.name)
}

/// In which way file `index` is broken, if it is.
pub fn broken_way(index: u64) -> Option<&'static str> {
    kind(index).is_none().then(|| broken::WAYS[broken::way(turn(index))].0)
}

/// The bytes of file `index` of a seed.
pub fn file(seed: u64, index: u64) -> Vec<u8> {
    let mut random = Random::new(seed, index);
    match kind(index) {
        Some(kind) => sound(kind, random).bytes(),
        None => broken::file(&mut random, turn(index)),
    }
}

/// A file of a kind that is in form (though fresh may refuse its bit cycles).
pub fn sound(kind: &Kind, random: Random) -> BenchFile {
    let mut script = Script::new(random);
    (kind.write)(&mut script);
    script.finish()
}

/// How many times all kinds came before file `index`.
fn turn(index: u64) -> u64 {
    index / (KINDS.len() as u64 + 1)
}

fn kind(index: u64) -> Option<&'static Kind> {
    KINDS.get((index % (KINDS.len() as u64 + 1)) as usize)
}
