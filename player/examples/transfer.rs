//! A general transfer of four bytes from work RAM to $2118, watched access by access, then taken back.

use cloverwain::{BANK_SIZE, Event, Machine, Refusal};

fn main() -> Result<(), Refusal> {
    let (mut low, high) = (vec![0; BANK_SIZE], vec![0; BANK_SIZE]);
    low[0x10..0x14].copy_from_slice(&[0xDE, 0xAD, 0xBE, 0xEF]);
    let mut machine = Machine::fresh(low, high, 256, 264, vec![])?;
    let setup = [
        (0x4300, 1),
        (0x4301, 0x18),
        (0x4302, 0x10),
        (0x4303, 0),
        (0x4304, 0x7E),
        (0x4305, 4),
        (0x4306, 0),
    ];
    for (address, byte) in setup {
        machine.write(0, address, byte)?;
    }
    machine.write(0, 0x420B, 1)?;
    let mut cycles = 0;
    loop {
        let cycle = machine.cycle(Event::None, false, false)?;
        for access in cycle.accesses() {
            let way = if access.write { "write" } else { "read" };
            println!(
                "cycle {cycles}: {way} ${:02X}:{:04X} = ${:02X}",
                access.bank, access.address, access.byte
            );
        }
        cycles += 1;
        if !cycle.held {
            break;
        }
    }
    for _ in 0..cycles {
        machine.back()?;
    }
    println!(
        "{cycles} cycles taken back, $4302 is ${:02X}",
        machine.read(0, 0x4302)?.byte
    );
    Ok(())
}
