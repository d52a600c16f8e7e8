//! docs/CONSOLE.md: every number in its tables, compared with the library, with the model where the library does not show
//! it, and with the assembler.

#[path = "../common/mod.rs"]
mod common;
mod instructions;
mod machine;
mod page;
mod pictures;

use common::Folder;
use machine::Machine;
use page::{number, table};

/// The memory that a store reaches, and where in it.
fn stored_at(address: u32) -> Option<(&'static str, usize)> {
    let mut machine = Machine::new();
    machine.store_byte(address, 0xFF);
    machine.changed()
}

/// The pattern of bytes that ROM has.
fn rom_byte(at: usize) -> u32 {
    (at % 251) as u32
}

#[test]
fn the_memory_map() {
    let mut next = 0;
    for row in table("Memory map", "From") {
        let (from, to) = (number(&row[0]), number(&row[1]));
        let memory = match row[2].split([' ', ',']).next().unwrap() {
            "VIP" => Some("VRAM"),
            "WRAM" => Some("WRAM"),
            "pak" => Some("pak RAM"),
            _ => None,
        };
        // 0x08000000 is the VIP again
        let again = row[2].starts_with("all of the above");
        let memory = if again { Some("VRAM") } else { memory };
        assert_eq!(stored_at(from).map(|(name, _)| name), memory, "{row:?}");
        assert_eq!(u64::from(from), next, "{row:?}");
        next = u64::from(to) + 1;
        let machine = Machine::new();
        if row[2].starts_with("ROM") {
            let length = machine.rom().len();
            assert_eq!(machine.load_byte(from), (rom_byte(0), 0), "{row:?}");
            assert_eq!(machine.load_byte(to), (rom_byte(length - 1), 0), "{row:?}");
            assert_eq!(machine.load_byte(from + length as u32), (rom_byte(0), 0), "{row:?}");
        }
        if let Some(period) = row[3].strip_prefix("0x") {
            let period = u32::from_str_radix(period, 16).unwrap();
            assert_eq!(stored_at(from.wrapping_add(period)), stored_at(from), "{row:?}");
            assert_ne!(stored_at(from.wrapping_add(period / 2)), stored_at(from), "{row:?}");
        }
        if row[3] == "its length" && memory.is_some() {
            let length = machine.pak().len() as u32;
            assert_eq!(stored_at(from + length), Some(("pak RAM", 0)), "{row:?}");
        }
        if row[3].is_empty() {
            assert_eq!((stored_at(from), machine.load_byte(from)), (None, (0, 0)), "{row:?}");
        }
    }
    assert_eq!(next, 1 << 32);
}

/// `characters 0 to 511`: the two numbers.
fn ends(text: &str) -> (u32, u32) {
    let numbers: Vec<u32> = text.split(' ').filter_map(|word| word.parse().ok()).collect();
    (numbers[0], numbers[1])
}

#[test]
fn the_vips_map() {
    let mut next = 0;
    for row in table("Inside the VIP", "From") {
        let (from, to) = (number(&row[0]), number(&row[1]));
        assert_eq!(from, next, "{row:?}");
        next = to + 1;
        let what = row[2].as_str();
        let place = |address: u32| stored_at(address).filter(|(name, _)| *name == "VRAM");
        match what.split(' ').next().unwrap() {
            "image" => {
                let frame = u32::from(what.contains("frame 1"));
                let eye = u32::from(what.contains("right"));
                assert_eq!(from as usize, vb::image_offset(frame, eye), "{row:?}");
                assert_eq!((to + 1 - from) as usize, vb::IMAGE_LENGTH, "{row:?}");
            }
            "characters" => {
                let (first, last) = ends(what);
                let vram = vec![0; vb::VRAM_LENGTH];
                let at = |c: u32| vbsys::character(&vram, c).offset as usize;
                assert_eq!(place(from), Some(("VRAM", at(first))), "{row:?}");
                assert_eq!(place(to), Some(("VRAM", at(last) + 15)), "{row:?}");
            }
            "background" => assert!(to - from + 1 >= 14 * 8_192 && to - from + 1 < 15 * 8_192),
            "worlds" => {
                let (first, last) = ends(what);
                let at = model::world::World::address;
                assert_eq!((from as usize, to as usize), (at(first), at(last) + 31), "{row:?}");
            }
            "objects" => {
                let (first, last) = ends(what);
                let at = model::object::Object::address;
                assert_eq!((from as usize, to as usize), (at(first), at(last) + 7), "{row:?}");
            }
            "column" => {
                let eye = model::world::Eye::BOTH[usize::from(what.contains("right"))];
                let at = |entry| model::display::entry_address(eye, entry);
                assert_eq!((from as usize, to as usize), (at(0), at(255) + 1), "{row:?}");
            }
            "unmapped" => {
                for address in [from, to] {
                    assert_eq!(Machine::new().load_byte(address), (0, 1), "{row:?}");
                    assert_eq!(place(address), None, "{row:?}");
                }
            }
            "registers" => assert!([from, to].map(place) == [None, None], "{row:?}"),
            _ => panic!("{row:?}"),
        }
        if to < 0x40000 {
            assert_eq!(place(from), Some(("VRAM", from as usize)), "{row:?}");
            assert_eq!(place(to), Some(("VRAM", to as usize)), "{row:?}");
        }
    }
    assert_eq!(next, 0x80000);
}

#[test]
fn the_vips_registers() {
    let rows = table("VIP registers", "Address");
    for row in &rows {
        let (address, bits) = (number(&row[0]), number(&row[2]));
        let mut machine = Machine::new();
        machine.store_half(address, 0xFFFF);
        let kept = (1 << bits) - 1;
        let reads = if row[3] == "written" { kept } else { number(&row[3]) };
        assert_eq!(machine.load_half(address), (reads, 0), "{row:?}");
        assert_eq!(
            machine.registers().iter().filter(|r| **r == kept as u16 && kept > 0).count(),
            usize::from(bits > 0),
            "{row:?}"
        );
    }
    // the table has every register that 000 lists: elsewhere a read has no meaning
    let listed: Vec<u32> = rows.iter().map(|row| number(&row[0])).collect();
    for address in (0x5E000..0x60000).step_by(2) {
        let defined = Machine::new().load_half(address).1 == 0;
        assert_eq!(defined, listed.contains(&address), "0x{address:X}");
    }
}

#[test]
fn the_timers_registers() {
    let read = |row: &[String]| Machine::new().load_byte(number(&row[0])).0;
    let rows = table("The timer", "Address");
    for row in &rows {
        assert_eq!(read(row), number(&row[2]), "{row:?}");
    }
    let at = |name: &str| number(&rows.iter().find(|row| row[1] == name).unwrap()[0]);
    let mut machine = Machine::new();
    machine.store_byte(at("TLR"), 3);
    machine.store_byte(at("THR"), 1);
    assert_eq!(machine.timer(), [0, 0x103, 0x103, 0]);
    for row in table("The timer", "Bit of TCR") {
        let bit = 1 << number(&row[0]);
        let mut machine = Machine::new();
        machine.store_byte(at("TCR"), bit);
        let control = u32::from(machine.timer()[3]);
        let stored = !["Z-Stat-Clr", "Z-Stat"].contains(&row[1].as_str());
        assert_eq!(control, if stored { bit } else { 0 }, "{row:?}");
        // what each does, by a tick of a count of 1
        let mut timer = [0, 1, 1, 0x09];
        if row[1] == "T-Enb" || row[1] == "Tim-Z-Int" {
            timer[3] &= !(bit as u16);
        }
        let after = machine::ticked(timer);
        let expected = match row[1].as_str() {
            "T-Enb" => [0, 1, 1, 0x08],
            "Tim-Z-Int" => [0, 0, 1, 0x03],
            _ => [2, 0, 1, 0x0B],
        };
        assert_eq!(after, expected, "{row:?}");
        let mut machine = Machine::with_timer(after);
        machine.store_byte(at("TCR"), 0x09 | bit);
        let cleared = row[1] == "Z-Stat-Clr";
        assert_eq!(machine.timer()[3] & 2 == 0, cleared || row[1] == "T-Enb", "{row:?}");
    }
}

#[test]
fn a_cartridges_end() {
    for row in table("A cartridge", "Address") {
        let (address, before) = (number(&row[0]), number(&row[1]) as usize);
        let machine = Machine::new();
        let at = machine.rom().len() - before;
        assert_eq!(machine.load_byte(address), (rom_byte(at), 0), "{row:?}");
    }
    let handlers = table("Exceptions and interrupts", "Cause");
    assert!(handlers.iter().all(|row| number(&row[2]).is_multiple_of(16)));
}

#[test]
fn a_schedules_lines_and_levels() {
    let folder = Folder::new("console-schedule");
    let mut rom = vec![0; 1_024];
    rom[0x3F0..0x3F2].copy_from_slice(&[0x00, 0x68]); // HALT
    folder.write("halt.rom", &rom);
    for row in table("A schedule", "Line") {
        folder.write("one.schedule", row[0].as_bytes());
        let ran = folder.vbmodel("run --rom halt.rom --schedule one.schedule --budget 20");
        assert_eq!(ran.status, 0, "{row:?}: {}", ran.error);
    }
    for row in table("A schedule", "Level") {
        for level in [&row[0], &row[1]] {
            let ran =
                folder.vbmodel(&format!("step --rom halt.rom --raise {level} --save-processor p"));
            assert_eq!(ran.status, 0, "{row:?}: {}", ran.error);
            let lines = folder.read("p")[172];
            assert_eq!(lines, 1 << number(&row[0]), "{row:?}");
        }
    }
}
