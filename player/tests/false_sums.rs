//! Request 2/12 on the machine's bytes: fresh's sum, refused or not, and machines that come with a false sum. No call tests
//! a sum, so a false one stays false by the same amount, modulo 2^32.

mod parts;

use cloverwain::BANK_SIZE;
use cloverwain::raw::{self, ANSWER_SIZE, Lent, MACHINE_SIZE, RECORD_LENGTH, SUM};
use parts::Parts;

const RIGHT: usize = BANK_SIZE;

/// Bytes of every value.
fn bank(step: usize) -> Vec<u8> {
    (0..BANK_SIZE)
        .map(|place| (step * place / 8) as u8)
        .collect()
}

/// A fresh machine with a record of so many slots.
fn with_slots(slots: usize) -> Parts {
    let rom = vec![0x80, 0x5A, 0x01];
    Parts::fresh(bank(7), bank(13), vec![0; 256 * slots], rom)
}

impl Parts {
    fn sum(&self) -> u32 {
        u32::from_le_bytes(self.machine[SUM..].try_into().expect("four bytes"))
    }

    fn set_sum(&mut self, sum: u32) {
        self.machine[SUM..].copy_from_slice(&sum.to_le_bytes());
    }

    fn added_up(&self) -> u32 {
        let bytes = self.low.iter().chain(&self.high);
        bytes.map(|byte| u32::from(*byte)).sum()
    }
}

type Call = Box<dyn Fn(Lent) -> u8>;

fn write(bank: u8, address: u16, byte: u8) -> Call {
    Box::new(move |lent| raw::write(lent, bank, address, byte, &mut [0]))
}

fn read(bank: u8, address: u16) -> Call {
    Box::new(move |lent| raw::read(lent, bank, address, &mut [0; 2]))
}

fn cycle(event: u8, line: bool) -> Call {
    Box::new(move |lent| raw::cycle(lent, event, line, false, &mut [0; ANSWER_SIZE]))
}

fn pad(port: u8, word: u16) -> Call {
    Box::new(move |lent| raw::pad(lent, port, word))
}

fn plug(port: u8, on: bool) -> Call {
    Box::new(move |lent| raw::plug(lent, port, on))
}

fn answer(address: u16, byte: u8) -> Call {
    Box::new(move |lent| raw::port_answer(lent, address, byte))
}

fn back() -> Call {
    Box::new(raw::back)
}

/// xorshift64*.
struct Random(u64);

impl Random {
    fn next(&mut self) -> u32 {
        self.0 ^= self.0 >> 12;
        self.0 ^= self.0 << 25;
        self.0 ^= self.0 >> 27;
        (self.0.wrapping_mul(0x2545_F491_4F6C_DD1D) >> 32) as u32
    }

    /// Mostly calls that write to work RAM, by the CPU or by channels that are aimed at it; some are refused.
    fn call(&mut self) -> Call {
        let [byte, kind, low, high] = self.next().to_le_bytes();
        let (address, channel) = (u16::from_le_bytes([low, high]), u16::from(high % 8) * 16);
        match kind % 64 {
            0..3 => write(0x7E + byte % 2, address, byte),
            3 => write(0, 0x2180, byte),
            4 => write(0, 0x2181 + address % 3, byte),
            // Modes, directions, indirect or not; the B side; the A side's bank and the indirect one.
            5 => write(0, 0x4300 + channel, byte),
            6 => write(0, 0x4301 + channel, [0x80, byte][usize::from(low % 2)]),
            7 => write(
                0,
                [0x4304, 0x4307][usize::from(low % 2)] + channel,
                0x7E + byte % 2,
            ),
            8 => write(0, 0x420B, 1 << (byte % 8)),
            9 => write(0, 0x420C, byte),
            10..13 => back(),
            13 => pad(byte % 3, address),
            14 => plug(byte % 3, high % 2 == 0),
            15 => answer(0x2132 + address % 20, byte),
            16 => read(0, 0x2180),
            17..20 => cycle(byte % 6, low % 2 == 0),
            _ => cycle(0, false),
        }
    }
}

#[test]
fn a_false_sum_stays_false_by_the_same_amount() {
    let mut random = Random(2);
    let any = random.next();
    for false_sum in [0, 1, u32::MAX, any] {
        let mut good = with_slots(7);
        let mut bad = good.clone();
        bad.set_sum(false_sum);
        let amount = false_sum.wrapping_sub(good.sum());
        for number in 1..=20_000 {
            let call = random.call();
            assert_eq!(call(good.lent()), call(bad.lent()), "call {number}");
            let sum = good.sum().wrapping_add(amount);
            assert_eq!(bad.sum(), sum, "call {number}");
            if number % 64 == 0 {
                assert_eq!(good.sum(), good.added_up(), "call {number}");
                // All but the sum is the same, record included: no entry has it.
                bad.set_sum(good.sum());
                assert!(bad == good, "call {number}");
                bad.set_sum(sum);
            }
        }
    }
}

#[test]
fn a_false_sum_goes_past_both_ends() {
    let mut parts = with_slots(4);
    parts.low[0x1234] = 100;
    for (sum, byte, after) in [
        (0, 99, u32::MAX),
        (u32::MAX, 102, 1),
        (5, 0, 5u32.wrapping_sub(100)),
    ] {
        parts.set_sum(sum);
        assert_eq!(write(0x7E, 0x1234, byte)(parts.lent()), 0);
        assert_eq!(parts.sum(), after);
        assert_eq!(back()(parts.lent()), 0);
        assert_eq!(parts.sum(), sum);
    }
}

#[test]
fn banks_altered_between_calls_leave_the_sum_false_by_that_much() {
    let mut parts = with_slots(4);
    assert_eq!(write(0x7E, 0x1234, 0x11)(parts.lent()), 0);
    let sum = parts.sum();
    parts.low[0x1234] = 0x51;
    assert_eq!(write(0x7E, 0x4321, parts.low[0x4321])(parts.lent()), 0);
    assert_eq!(parts.sum(), sum);
    assert_eq!(write(0x7E, 0x1234, 0x50)(parts.lent()), 0);
    assert_eq!(parts.sum(), sum - 1);
    assert_eq!(parts.added_up(), parts.sum() + 0x40);
}

/// A refused call leaves everything as it was, whatever the sum.
#[track_caller]
fn refused(number: u8, parts: &Parts, calls: &[Call]) {
    for sum in [parts.sum(), 0, u32::MAX, 0x1234_5678] {
        let mut parts = parts.clone();
        parts.set_sum(sum);
        for (index, call) in calls.iter().enumerate() {
            let before = parts.clone();
            assert_eq!(call(parts.lent()), number, "call {index}, sum {sum}");
            assert!(parts == before, "call {index}, sum {sum}");
        }
    }
}

/// One call of each kind that would be accepted.
fn operations() -> Vec<Call> {
    vec![
        write(0x7E, 0x1234, 0x99),
        write(0x00, 0x2180, 0x99),
        read(0x00, 0x2180),
        cycle(1, true),
        pad(0, 0xFFF0),
        plug(1, false),
        answer(0x2140, 0x99),
    ]
}

#[test]
fn a_refused_call_leaves_every_byte() {
    let mut sound = with_slots(4);
    refused(8, &sound, &[back()]);
    for operation in operations() {
        assert_eq!(operation(sound.lent()), 0);
    }
    let with = |change: fn(&mut Parts)| {
        let mut parts = sound.clone();
        change(&mut parts);
        parts
    };
    let all = || operations().into_iter().chain([back()]).collect::<Vec<_>>();
    for length in [0, RIGHT - 1, RIGHT + 1] {
        let (mut low, mut high) = (sound.clone(), sound.clone());
        low.low.resize(length, 1);
        high.high.resize(length, 1);
        refused(1, &low, &all());
        refused(1, &high, &all());
    }
    refused(2, &with(|parts| parts.record.truncate(768)), &all());
    refused(
        3,
        &with(|parts| parts.rom = vec![0; 4_194_305]),
        &operations(),
    );
    refused(4, &with(|parts| parts.machine[0] = 0x80), &all());
    refused(4, &with(|parts| parts.machine[222] = 1), &all());
    refused(5, &sound, &[cycle(5, false), cycle(255, true)]);
    let ports = [
        pad(2, 0),
        plug(2, true),
        answer(0x2133, 1),
        answer(0x2144, 1),
    ];
    refused(6, &sound, &ports);
    refused(
        7,
        &with(|parts| parts.machine[214..222].fill(0xFF)),
        &[cycle(0, false)],
    );
    refused(9, &with(|parts| parts.record.fill(0xFF)), &[back()]);
}

/// Fresh over whole banks of ones and parts of them, into bytes that stood there before.
fn fresh(lengths: [usize; 2], record_length: usize, bit_cycles: u16) -> (u8, [u8; MACHINE_SIZE]) {
    let (mut machine, ones) = ([0xEE; MACHINE_SIZE], [1; RIGHT + 1]);
    let [low, high] = lengths.map(|length| &ones[..length]);
    let number = raw::fresh(&mut machine, low, high, record_length, bit_cycles);
    (number, machine)
}

#[test]
fn fresh_is_refused_by_1_then_2_then_10_and_has_sum_0() {
    let (number, mut power_on) = fresh([RIGHT, RIGHT], 256, 1);
    assert_eq!(number, 0);
    assert_eq!(power_on[SUM..], 131_072u32.to_le_bytes());
    power_on[RECORD_LENGTH..].fill(0);
    let lengths = [0, RIGHT - 1, RIGHT, RIGHT + 1];
    let numbers = [0, 255, 257, 512].map(|record| [0, 264, 4097].map(|cycles| (record, cycles)));
    for banks in lengths.map(|low| lengths.map(|high| [low, high])).concat() {
        for (record_length, bit_cycles) in numbers.concat() {
            let expected = match (banks, record_length, bit_cycles) {
                ([RIGHT, RIGHT], 512, 264) => continue,
                ([RIGHT, RIGHT], 512, _) => 10,
                ([RIGHT, RIGHT], _, _) => 2,
                _ => 1,
            };
            let (number, machine) = fresh(banks, record_length, bit_cycles);
            let given = format!("{banks:?}, {record_length}, {bit_cycles}");
            assert_eq!(number, expected, "{given}");
            assert_eq!(machine, power_on, "{given}");
        }
    }
}
