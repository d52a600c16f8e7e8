//! Loads and stores of the library against the model's: random accesses at
//! every legal length of ROM and pak RAM, and every address of the VIP.

use difftests::access::{biased_address, biased_value, by_library, by_model, Call, LOADS, STORES};
use difftests::machine::{Buffers, Registers};
use difftests::random::Random;
use model::{DrawingRegisters, Hardware};

/// Accesses at each pair of lengths; 42 pairs make 2,100,000.
const ACCESSES: u32 = 50_000;
/// Up to this many bytes of ROM and pak RAM together, all memories are
/// compared after every store.
const SMALL: usize = 0x4_0000;
/// Accesses between two comparisons elsewhere.
const BATCH: u32 = 8_192;

struct Pair {
    library: Buffers,
    model: Buffers,
    registers: Registers,
}

impl Pair {
    fn random(random: &mut Random, rom: usize, pak: usize) -> Pair {
        let library = Buffers::random(random, rom, pak);
        Pair { model: library.clone(), library, registers: Registers::random(random) }
    }

    /// Makes the access on both sides and compares the answers.
    fn access(&mut self, call: Call, address: u32, value: u32, what: &dyn Fn() -> String) {
        let library = by_library(call, &mut self.library, self.registers, address, value);
        let model = by_model(call, &mut self.model, self.registers, address, value);
        if library != model {
            panic!(
                "{call:?} 0x{address:08X} value 0x{value:08X}, registers {:X?}: the library \
                 answers {library:X?}, the model {model:X?}; {}",
                self.registers,
                what()
            );
        }
        self.registers = model.registers();
    }

    fn expect_equal(&self, what: &dyn Fn() -> String) {
        self.library.expect_equal(&self.model, what);
    }
}

fn accesses_at_lengths(rom: usize, pak: usize, seed: u64) {
    let mut random = Random::new(seed);
    let mut pair = Pair::random(&mut random, rom, pak);
    let small = rom + pak <= SMALL;
    for number in 0..ACCESSES {
        let stores = random.below(10) < if small { 3 } else { 6 };
        let call = random.pick(if stores { &STORES } else { &LOADS });
        let address = biased_address(&mut random, rom, pak);
        let value = biased_value(&mut random);
        let what = || {
            format!(
                "{call:?} 0x{address:08X}, access {number}, ROM {rom}, pak RAM {pak}, seed {seed}"
            )
        };
        pair.access(call, address, value, &what);
        if (small && stores) || number % BATCH == BATCH - 1 {
            pair.expect_equal(&what);
        }
    }
    pair.expect_equal(&|| format!("after all, ROM {rom}, pak RAM {pak}, seed {seed}"));
}

/// Every legal length of ROM: 1,024 to 16,777,216.
#[test]
fn every_rom_length() {
    let mut random = Random::new(0x0B05_0001);
    for power in 10..=24 {
        let pak = random.pick(&[0, 1, 2, 4, 8, 1_024, 8_192]);
        accesses_at_lengths(1 << power, pak, 100 + power);
    }
}

/// Every legal length of pak RAM: 0, and 1 to 16,777,216.
#[test]
fn every_pak_length() {
    accesses_at_lengths(1_024, 0, 200);
    for power in 0..=24 {
        accesses_at_lengths(1 << (10 + power % 5), 1 << power, 201 + power);
    }
    accesses_at_lengths(1 << 24, 1 << 24, 299);
}

/// Loads of each width at each of the VIP's 524,288 addresses.
#[test]
fn every_vip_address_loaded() {
    let mut random = Random::new(0x0B05_0002);
    let mut pair = Pair::random(&mut random, 1_024, 4);
    for address in 0..0x80000 {
        let mirror = random.below(32) * 0x80000;
        for call in LOADS {
            pair.access(call, mirror | address, 0, &|| "every VIP address".into());
        }
    }
}

/// Stores of each width at each of the VIP's addresses, each with its own
/// value, the memories compared at each 4,096 bytes.
#[test]
fn every_vip_address_stored() {
    let mut random = Random::new(0x0B05_0003);
    let mut pair = Pair::random(&mut random, 1_024, 4);
    for call in STORES {
        for address in 0..0x80000 {
            let value = biased_value(&mut random);
            let what = || format!("{call:?} at every VIP address, up to 0x{address:05X}");
            pair.access(call, address, value, &what);
            if address % 4_096 == 4_095 {
                pair.expect_equal(&what);
            }
        }
    }
}

/// Stores of each width at each byte of the registers' own range, every
/// memory compared after each, from registers all clear and all set.
#[test]
fn every_register_address_stored() {
    let mut random = Random::new(0x0B05_0004);
    let mut pair = Pair::random(&mut random, 1_024, 4);
    let full = DrawingRegisters { spt: [0x3FF; 4], gplt: [0xFF; 4], jplt: [0xFF; 4], bkcol: 3 };
    let timer = Hardware { lines: 0x1F, count: 0xFFFF, reload: 0xFFFF, control: 0x1B };
    for before in [Registers::default(), Registers { drawing: full, hardware: timer }] {
        for address in 0x5F7F0..0x5F880 {
            for call in STORES {
                for value in [0, 0xFFFF_FFFF, 0xA5A5_5A5A, 0x0000_FF00, 0x00FF_0000] {
                    pair.registers = before;
                    let what = || format!("{call:?} 0x{address:X} value 0x{value:X}");
                    pair.access(call, address, value, &what);
                    pair.expect_equal(&what);
                }
            }
        }
    }
}

/// A load gives what the model gives at the edges of the address space.
#[test]
fn ends_of_the_address_space() {
    let mut random = Random::new(0x0B05_0005);
    let mut pair = Pair::random(&mut random, 2_048, 1);
    for region in 0..=32u32 {
        for step in 0..64 {
            let address = (region << 27).wrapping_add(step).wrapping_sub(32);
            for call in LOADS {
                pair.access(call, address, 0, &|| "ends of the address space".into());
            }
        }
    }
}
