//! Calls of the library on small stacks. Each exported function has its own, as deep as `player/stack` says that it
//! needs, and right below it lies memory that nothing may touch: a call that needs more ends the process. The C
//! functions that the library calls run there too.
//!
//! A thread's stack cannot be as small as that (16 KiB is the least), so %rsp is moved for each call. build.rs has the
//! linker lead every call of an exported function through a way that is made here. Where there are no small stacks, the
//! way leads straight on.

use std::arch::global_asm;
use std::ffi::c_void;
use std::sync::atomic::{AtomicU64, AtomicUsize, Ordering::Relaxed};
use std::{fmt, fs, ptr, slice};

/// What a way looks at.
#[repr(C)]
struct Way {
    /// Where the small stack starts; 0 if there is none.
    top: AtomicUsize,
    calls: AtomicU64,
}

macro_rules! ways {
    ($($index:literal $name:literal,)*) => {
        const NAMES: [&str; [$($index),*].len()] = [$($name),*];
        static WAYS: [Way; NAMES.len()] =
            [const { Way { top: AtomicUsize::new(0), calls: AtomicU64::new(0) } }; NAMES.len()];
        global_asm!(
            $(concat!(
                ".globl __wrap_", $name, "\n",
                "__wrap_", $name, ":\n",
                "lea r10, [rip + {ways} + {size} * ", $index, "]\n",
                "lea r11, [rip + __real_", $name, "]\n",
                "jmp cloverwain_way",
            ),)*
            ways = sym WAYS,
            size = const size_of::<Way>(),
        );
    };
}

include!(concat!(env!("OUT_DIR"), "/ways.rs"));

// SAFETY: a function is free to change rax, r10 and r11. The caller's %rsp is kept in rbp, which every function gives
// back. What the library is lent lies outside the small stack, and it returns a number, so nothing refers to that stack
// after the call. %rsp is a multiple of 16 at the call, as it must be. The library does not unwind. Only one thread
// makes calls, so no stack is in use twice; the one signal handler, Rust's for faults, has a stack of its own.
global_asm!(
    "cloverwain_way:",
    "mov rax, [r10]",
    "test rax, rax",
    "jz 2f",
    "inc qword ptr [r10 + 8]",
    "push rbp",
    "mov rbp, rsp",
    "mov rsp, rax",
    // Nine arguments at most come on the stack; the tenth word keeps %rsp a multiple of 16. Where there are fewer
    // arguments, these are words of the caller that no one reads.
    ".irp place, 88, 80, 72, 64, 56, 48, 40, 32, 24, 16",
    "push qword ptr [rbp + \\place]",
    ".endr",
    "call r11",
    "leave",
    "ret",
    "2: jmp r11",
);

/// Bytes of the words that a way copies. They are the caller's, so they lie above what a function is allowed.
const COPIED: usize = 80;
/// Longer than any frame, so that none reaches across.
const GUARD: usize = 65_536;
const PATTERN: u8 = 0xA5;

/// Linux's PROT_READ and PROT_WRITE, and MAP_PRIVATE and MAP_ANONYMOUS.
const READ_WRITE: i32 = 3;
const NEW_MEMORY: i32 = 0x22;

unsafe extern "C" {
    fn mmap(_: *mut c_void, length: usize, allow: i32, flags: i32, _: i32, _: i64) -> *mut c_void;
    fn mprotect(start: *mut c_void, length: usize, allow: i32) -> i32;
}

/// One function's stack. Its size is a multiple of 16, so it may be up to 15 bytes more than what is allowed.
struct Stack {
    index: usize,
    allowed: usize,
    lowest: *mut u8,
    size: usize,
}

impl Stack {
    /// From a line NAME BYTES.
    fn read(line: &str) -> Result<Self, &'static str> {
        let words = line.split_once(' ');
        let words = words.and_then(|(name, bytes)| Some((name, bytes.parse().ok()?)));
        let (name, bytes) = words.ok_or("no NAME BYTES")?;
        let index = NAMES.iter().position(|known| *known == name);
        Ok(Self::new(index.ok_or("unknown NAME")?, bytes))
    }

    fn new(index: usize, allowed: usize) -> Self {
        let size = allowed.next_multiple_of(16);
        let length = GUARD + size + COPIED;
        // SAFETY: the memory is new and of this length, and is never given back.
        let lowest = unsafe {
            let start = mmap(ptr::null_mut(), length, READ_WRITE, NEW_MEMORY, -1, 0);
            assert!(start.addr() != usize::MAX && mprotect(start, GUARD, 0) == 0);
            let lowest = start.cast::<u8>().add(GUARD);
            lowest.write_bytes(PATTERN, size);
            lowest
        };
        let top = lowest.expose_provenance() + size + COPIED;
        WAYS[index].top.store(top, Relaxed);
        Self {
            index,
            allowed,
            lowest,
            size,
        }
    }

    /// How deep the deepest call wrote.
    fn touched(&self) -> usize {
        // SAFETY: the memory is this stack's, and no call goes on.
        let bytes = unsafe { slice::from_raw_parts(self.lowest, self.size) };
        self.size - bytes.iter().take_while(|byte| **byte == PATTERN).count()
    }
}

/// The small stacks of all exported functions.
pub struct Stacks(Vec<Stack>);

impl Stacks {
    /// From lines NAME BYTES, as `player/stack --numbers` prints them. From here on the calls are made on these stacks.
    pub fn read(file: &str) -> Result<Self, String> {
        let text = fs::read_to_string(file).map_err(|error| format!("{file}: {error}"))?;
        let stacks = text
            .lines()
            .map(|line| Stack::read(line).map_err(|what| format!("{file}: {line}: {what}")))
            .collect::<Result<_, _>>()?;
        match WAYS.iter().position(|way| way.top.load(Relaxed) == 0) {
            Some(missing) => Err(format!("{file} has no {}", NAMES[missing])),
            None => Ok(Self(stacks)),
        }
    }

    /// A call that goes too deep by less than 16 bytes may live, and is found here.
    pub fn kept(&self) -> Result<(), String> {
        match self.0.iter().find(|stack| stack.touched() > stack.allowed) {
            Some(stack) => Err(format!("{} goes deeper than allowed", NAMES[stack.index])),
            None => Ok(()),
        }
    }
}

impl fmt::Display for Stacks {
    fn fmt(&self, out: &mut fmt::Formatter) -> fmt::Result {
        self.0.iter().try_for_each(|stack| {
            let calls = WAYS[stack.index].calls.load(Relaxed);
            let (name, touched, allowed) = (NAMES[stack.index], stack.touched(), stack.allowed);
            writeln!(
                out,
                "{name}: {calls} calls, {touched} of {allowed} bytes of stack"
            )
        })
    }
}
