//! The timer through the safe crate: its registers by loads and stores of each width, and ticks.

use vb::{Hardware, Machine, Memories, ReadMemories, Refusal};

const TLR: u32 = 0x0200_0018;
const THR: u32 = 0x0200_001C;
const TCR: u32 = 0x0200_0020;

struct Bench {
    rom: Vec<u8>,
    wram: Vec<u8>,
    vram: Vec<u8>,
    machine: Machine,
}

type Store = fn(&mut Machine, &mut Memories, u32, u32) -> Result<(), Refusal>;

const STORES: [(u32, Store); 3] =
    [(1, Machine::store_byte), (2, Machine::store_half), (4, Machine::store_word)];

impl Bench {
    fn new(hardware: Hardware) -> Bench {
        let mut machine = Machine::reset();
        machine.processor.hardware = hardware;
        let (wram, vram) = (vec![0; vb::WRAM_LENGTH], vec![0; vb::VRAM_LENGTH]);
        Bench { rom: vec![0; 1_024], wram, vram, machine }
    }

    fn store(&mut self, store: Store, address: u32, value: u32) -> Hardware {
        let Bench { rom, wram, vram, machine } = self;
        let mut memories = Memories { rom, wram, vram, pak: &mut [] };
        store(machine, &mut memories, address, value).expect("not refused");
        machine.processor.hardware
    }

    fn loads(&self, address: u32) -> [u32; 3] {
        let Bench { rom, wram, vram, machine } = self;
        let memories = ReadMemories { rom, wram, vram, pak: &[] };
        [
            machine.load_byte(&memories, address).expect("not refused").into(),
            machine.load_half(&memories, address).expect("not refused").into(),
            machine.load_word(&memories, address).expect("not refused"),
        ]
    }
}

fn hardware(lines: u16, count: u16, reload: u16, control: u16) -> Hardware {
    Hardware { lines, count, reload, control }
}

/// Of a worked row.
fn hardware_of([lines, count, reload, control]: [u16; 4]) -> Hardware {
    hardware(lines, count, reload, control)
}

#[test]
fn worked_ticks() {
    for row in worked::TICKS {
        let [before, after] = row.map(hardware_of);
        let mut machine = Bench::new(before).machine;
        machine.tick().expect("not refused");
        assert_eq!(machine.processor.hardware, after);
    }
}

#[test]
fn worked_stores_of_each_width() {
    // a wider store drops the low bits of an offset, so that those of a word's first byte alone go for all
    for (before, offset, value, after) in
        worked::TIMER_WRITES.into_iter().filter(|row| row.1 % 4 == 0)
    {
        let (before, after) = (hardware_of(before), hardware_of(after));
        let address = 0x0200_0000 + offset;
        for (size, store) in STORES {
            for mirror in [0, 0x0800_0000, 0xF800_0000] {
                for byte in 0..size {
                    let mut bench = Bench::new(before);
                    let at = address + mirror + byte;
                    let source = 0xABCD_EF00 + value;
                    assert_eq!(bench.store(store, at, source), after, "{size} {at:08X}");
                }
            }
        }
    }
}

#[test]
fn every_other_byte_of_region_2_takes_nothing() {
    let before = hardware(0x1F, 3, 5, 0x1B);
    let mut bench = Bench::new(before);
    for address in (0x0200_0000..0x0200_0100).chain(0x0200_0118..0x0200_0124) {
        for (size, store) in STORES {
            if ![TLR, THR, TCR].contains(&(address & !(size - 1))) {
                assert_eq!(bench.store(store, address, 0xFFFF_FFFF), before, "{address:08X}");
            }
        }
    }
}

#[test]
fn loads_of_each_width() {
    let bench = Bench::new(hardware(0x1F, 0x1234, 0x5678, 0x1B));
    for address in (0x0200_0000..0x0200_0100).chain(0x0200_0118..0x0200_0124) {
        let byte = |address: u32| match address {
            TLR => 0x34,
            THR => 0x12,
            TCR => 0xFF,
            _ => 0,
        };
        let expected = [byte(address), byte(address & !1), byte(address & !3)];
        for mirror in [0, 0x0800_0000, 0xF800_0000] {
            assert_eq!(bench.loads(address + mirror), expected, "{address:08X}");
        }
    }
    assert_eq!(Bench::new(Hardware::default()).loads(TCR), [0xE4; 3]);
}

#[test]
fn records_above_their_widths_are_refused() {
    for (given, refused) in [
        (hardware(31, 0xFFFF, 0xFFFF, 0x1B), false),
        (hardware(32, 0, 0, 0), true),
        (hardware(0, 0, 0, 0x04), true),
        (hardware(0, 0, 0, 0x20), true),
    ] {
        let bench = Bench::new(given);
        let Bench { rom, wram, vram, mut machine } = bench;
        let memories = ReadMemories { rom: &rom, wram: &wram, vram: &vram, pak: &[] };
        let loaded = machine.load_byte(&memories, TCR).map(|_| ());
        let ticked = machine.tick();
        for answer in [loaded, ticked] {
            assert_eq!(
                answer.map_err(|refusal| refusal.number()),
                if refused { Err(5) } else { Ok(()) }
            );
        }
        if refused {
            assert_eq!(machine.processor.hardware, given);
        }
    }
}
