//! The cartridges of examples/cartridges: each is assembled by their build script and run on the library. Both eyes'
//! pictures of two frames are drawn by the library and by the independent model, and are known by their hash.

mod common;

use std::fs;
use std::path::{Path, PathBuf};

use common::Folder;
use model::DrawingRegisters;
use vb::{image_offset, Machine, Memories, Stop, VRAM_LENGTH, WRAM_LENGTH};

/// The hash of each cartridge's four pictures: both eyes of frame 0, then of frame 1.
const PICTURES: &str = include_str!("golden/cartridges.txt");

/// Instructions between two ticks of the timer.
const TICK: u64 = 400;

/// More than any cartridge needs for a frame.
const MOST: u64 = 20_000_000;

fn sources() -> PathBuf {
    Path::new(env!("CARGO_MANIFEST_DIR")).join("../examples/cartridges")
}

/// Runs to the next HALT, with a tick now and then.
fn run_to_halt(machine: &mut Machine, memories: &mut Memories, name: &str) {
    for _ in 0..MOST / TICK {
        match machine.run(memories, TICK).unwrap().stop {
            Stop::Budget => machine.tick().unwrap(),
            Stop::Halted => return,
            stop => panic!("{name}: {stop:?} at 0x{:08X}", machine.processor.pc),
        }
    }
    panic!("{name}: no HALT within {MOST} instructions");
}

/// FNV-1a of the visible rows: 56 bytes of each column's 64.
fn hash(vram: &[u8], frame: u32, eye: u32) -> u64 {
    let at = image_offset(frame, eye);
    let columns = vram[at..at + 24_576].chunks(64).flat_map(|column| &column[..56]);
    columns.fold(0xCBF2_9CE4_8422_2325, |hash, &byte| {
        (hash ^ u64::from(byte)).wrapping_mul(0x100_0000_01B3)
    })
}

/// A line of the file: the name and the four hashes.
fn pictures(name: &str, rom: &[u8]) -> String {
    let (mut wram, mut vram) = (vec![0; WRAM_LENGTH], vec![0; VRAM_LENGTH]);
    let mut memories = Memories { rom, wram: &mut wram, vram: &mut vram, pak: &mut [] };
    let mut machine = Machine::reset();
    let mut line = name.to_string();
    for frame in 0..2 {
        run_to_halt(&mut machine, &mut memories, name);
        let vb::Drawing { spt, gplt, jplt, bkcol } = machine.drawing;
        let mut by_the_model = memories.vram.to_vec();
        let registers = DrawingRegisters { spt, gplt, jplt, bkcol };
        model::drawing::draw_frame(&mut by_the_model, &registers, frame).unwrap();
        machine.drawing.draw_frame(memories.vram, frame).unwrap();
        assert!(*memories.vram == by_the_model, "{name}: frame {frame} of library and model");
        for eye in 0..2 {
            line += &format!(" {:016X}", hash(memories.vram, frame, eye));
        }
        // the VIP's interrupt ends the HALT
        machine.processor.hardware.lines |= 0x10;
        machine.run(&mut memories, 1).unwrap();
        machine.processor.hardware.lines &= !0x10;
    }
    line
}

#[test]
fn every_cartridge_runs_and_its_pictures_are_the_known_ones() {
    let folder = Folder::new("cartridges");
    let build = sources().join("build");
    let built = folder.shell(&format!("'{}' roms \"$VB\"", build.display()));
    assert_eq!((built.status, built.error.as_str()), (0, ""), "{}", built.text);
    let mut names: Vec<String> = fs::read_dir(folder.path("roms"))
        .unwrap()
        .map(|entry| entry.unwrap().path().file_stem().unwrap().to_string_lossy().into_owned())
        .collect();
    names.sort();
    let lines: Vec<String> = names
        .iter()
        .map(|name| pictures(name, &folder.read(&format!("roms/{name}.rom"))))
        .collect();
    assert_eq!(lines.join("\n") + "\n", PICTURES);
}

#[test]
fn every_source_is_a_cartridge_with_a_number_of_its_own() {
    let mut numbers = Vec::new();
    for entry in fs::read_dir(sources()).unwrap() {
        let path = entry.unwrap().path();
        let is_cartridge = path.extension().is_some_and(|extension| extension == "s")
            && path.file_stem().unwrap() != "console";
        if is_cartridge {
            let text = fs::read_to_string(&path).unwrap();
            let number = text.lines().find(|line| line.contains(".equ cartridge,"));
            numbers.push(number.unwrap_or_else(|| panic!("{}", path.display())).to_string());
        }
    }
    let count = numbers.len();
    numbers.sort();
    numbers.dedup();
    assert!(count >= 9);
    assert_eq!(numbers.len(), count, "{numbers:?}");
}
