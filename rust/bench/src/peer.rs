//! The library compared with Beetle VB, an emulator of the console: the same loops,
//! memories and registers, the same pictures, in rounds that time both in turn.
//!
//! The emulator runs whole frames in a separate process (`peer/frontend.c`).
//! Its time is that of a frame less that of one in which its processor is
//! halted, or its drawing off; the library's, of a run of as many instructions
//! as the emulator does in a frame, or of `vb_draw_frame`. Of each side the
//! least of the rounds counts.

use crate::draw::{scenes, Scene};
use crate::least;
use std::fs;
use std::path::{Path, PathBuf};
use std::process::Command;

const ROM: usize = 1 << 20;
/// Where a picture's VRAM stands in its ROM.
const IMAGE: usize = 0x10000;

const ALWAYS: u16 = 5;
const NOT_ZERO: u16 = 10;
const ZERO: u16 = 2;
const LESS: u16 = 6;

/// Code in halfwords, from the start of ROM on.
#[derive(Default)]
struct Code(Vec<u16>);

impl Code {
    /// Formats I and II.
    fn short(&mut self, opcode: u16, reg2: u16, low: u16) -> &mut Code {
        self.0.push(opcode << 10 | reg2 << 5 | low & 31);
        self
    }

    /// Formats V, VI and VII.
    fn long(&mut self, opcode: u16, reg2: u16, reg1: u16, second: u16) -> &mut Code {
        self.short(opcode, reg2, reg1);
        self.0.push(second);
        self
    }

    /// MOVHI and MOVEA.
    fn set(&mut self, register: u16, value: u32) -> &mut Code {
        let high = (value.wrapping_add(0x8000) >> 16) as u16;
        self.long(0b101111, register, 0, high).long(0b101000, register, register, value as u16)
    }

    /// A branch to halfword `to`.
    fn branch(&mut self, condition: u16, to: usize) -> &mut Code {
        let distance = (2 * to as i32 - 2 * self.0.len() as i32) as u16;
        self.0.push(0x8000 | condition << 9 | distance & 0x1FF);
        self
    }

    fn here(&self) -> usize {
        self.0.len()
    }

    /// A ROM that starts here from the reset address.
    fn rom(&self) -> Vec<u8> {
        let mut rom = vec![0; ROM];
        for (n, half) in self.0.iter().enumerate() {
            rom[2 * n..2 * n + 2].copy_from_slice(&half.to_le_bytes());
        }
        let mut reset = Code::default();
        reset.set(1, 0x0700_0000).short(0b000110, 0, 1);
        for (n, half) in reset.0.iter().enumerate() {
            let at = ROM - 16 + 2 * n;
            rom[at..at + 2].copy_from_slice(&half.to_le_bytes());
        }
        rom
    }
}

/// A loop: its name, its instructions a turn, and its code. r10 counts the turns.
struct Loop {
    name: &'static str,
    length: u64,
    rom: Vec<u8>,
}

fn looped(
    name: &'static str,
    length: u64,
    before: impl Fn(&mut Code),
    body: impl Fn(&mut Code),
) -> Loop {
    let mut code = Code::default();
    code.short(0b010000, 10, 0);
    before(&mut code);
    let start = code.here();
    code.short(0b010001, 10, 1);
    body(&mut code);
    code.branch(ALWAYS, start);
    Loop { name, length, rom: code.rom() }
}

fn loops() -> Vec<Loop> {
    let wram = |code: &mut Code| {
        code.set(12, 0x0500_0100);
    };
    let mut counted = Code::default();
    counted.short(0b010000, 10, 0).short(0b010000, 11, 31);
    let start = counted.here();
    counted.short(0b010001, 10, 1).short(0b000011, 10, 11).branch(NOT_ZERO, start);
    let mut called = Code::default();
    called.short(0b010000, 10, 0).set(15, 7);
    let start = called.here();
    called.short(0b010001, 10, 1).long(0b101011, 0, 0, 6).branch(ALWAYS, start);
    called.short(0b000000, 12, 10).short(0b000001, 12, 15).short(0b010011, 15, 0);
    called.branch(ZERO, start).short(0b000110, 0, 31);
    let mut inner = Code::default();
    inner.short(0b010001, 10, 1).long(0b110011, 13, 12, 0).short(0b000001, 13, 10);
    inner.long(0b110111, 13, 12, 4).branch(ALWAYS, 0);
    let mut moved = Code::default();
    moved.short(0b010000, 10, 0).set(20, 0x0500_1000);
    for (n, &half) in inner.0.iter().enumerate() {
        moved.set(21, half.into()).long(0b110101, 21, 20, 2 * n as u16);
    }
    moved.set(12, 0x0500_0100).short(0b000110, 0, 20);
    vec![
        looped("ADD, BR", 2, |_| (), |_| ()),
        Loop { name: "ADD, CMP, BNZ", length: 3, rom: counted.rom() },
        looped("ADD, LD.W, ADD, ST.W, BR in WRAM", 5, wram, |code| {
            code.long(0b110011, 13, 12, 0).short(0b000001, 13, 10).long(0b110111, 13, 12, 4);
        }),
        Loop { name: "the same, its code in WRAM", length: 5, rom: moved.rom() },
        looped("ADD, 8 x (LD.W, ST.W), BR in WRAM", 18, wram, |code| {
            for n in 0..8 {
                code.long(0b110011, 13, 12, 4 * n).long(0b110111, 13, 12, 64 + 4 * n);
            }
        }),
        looped(
            "ADD, MOVHI, MOVEA, MUL, DIV, BR",
            6,
            |code| {
                code.set(12, 12_345).set(13, 7);
            },
            |code| {
                code.set(14, 98_765).short(0b001000, 14, 12).short(0b001001, 14, 13);
            },
        ),
        Loop { name: "ADD, JAL, MOV, ADD, CMP, BZ, JMP, BR", length: 8, rom: called.rom() },
        looped(
            "shifts and logic, SETF",
            14,
            |code| {
                code.set(12, 0x1234_5678).set(13, 5);
            },
            |code| {
                code.short(0b000000, 14, 12).short(0b000100, 14, 13).short(0b001110, 14, 12);
                code.short(0b010101, 14, 3).short(0b001100, 14, 10).long(0b101101, 15, 14, 0x7FFF);
                code.short(0b010111, 14, 2).short(0b001111, 16, 15).long(0b101100, 16, 16, 0x101);
                code.long(0b101110, 16, 16, 0x55).short(0b000010, 16, 14).short(0b010010, 17, LESS);
            },
        ),
        looped("bytes and halfwords, LD, IN, ST and OUT in WRAM", 14, wram, |code| {
            code.long(0b110000, 13, 12, 1).long(0b110100, 13, 12, 65).long(0b111000, 14, 12, 2);
            code.long(0b111100, 14, 12, 66).long(0b110001, 15, 12, 4).long(0b110101, 15, 12, 68);
            code.long(0b111001, 16, 12, 6).long(0b111101, 16, 12, 70).short(0b000001, 14, 13);
            code.short(0b000001, 16, 15).long(0b110111, 16, 12, 72).long(0b110011, 17, 12, 72);
        }),
        looped(
            "halfwords of VRAM",
            8,
            |code| {
                code.set(12, 0x6000).set(13, 0x2_0000);
            },
            |code| {
                code.long(0b110001, 14, 12, 2).short(0b000001, 14, 10).long(0b110101, 14, 12, 4);
                code.long(0b110001, 15, 13, 6).long(0b110101, 15, 13, 8).short(0b000001, 15, 14);
            },
        ),
        looped(
            "ADD, STSR, LDSR, SEI, CLI, BR",
            6,
            |_| (),
            |code| {
                code.short(0b011101, 12, 0).short(0b011100, 10, 0);
                code.short(0b011110, 0, 0).short(0b010110, 0, 0);
            },
        ),
        looped(
            "floating: CVT.WS, ADDF, MULF, SUBF, DIVF, CMPF, TRNC.SW",
            9,
            |code| {
                code.set(12, 0x4049_0FDB).set(13, 0x3F9E_0652);
            },
            |code| {
                for (sub_opcode, reg2, reg1) in [
                    (2, 14, 10),
                    (4, 14, 12),
                    (6, 14, 13),
                    (5, 14, 12),
                    (7, 14, 13),
                    (0, 14, 12),
                    (11, 15, 14),
                ] {
                    code.long(0b111110, reg2, reg1, sub_opcode << 10);
                }
            },
        ),
    ]
}

/// The processor halts at once.
fn halted() -> Vec<u8> {
    let mut code = Code::default();
    code.short(0b011010, 0, 0).branch(ALWAYS, 0);
    code.rom()
}

/// Copies a picture's VRAM, sets its registers, lets the emulator draw each frame, and halts.
fn drawn(scene: &Scene, drawing: bool) -> Vec<u8> {
    let vbsys::Drawing { spt, gplt, jplt, bkcol } = scene.drawing;
    let mut code = Code::default();
    code.set(10, 0x0700_0000 + IMAGE as u32).set(11, 0).set(12, 0x4_0000).set(14, 0x5_F800);
    code.long(0b110101, 0, 14, 0x42);
    let copy = code.here();
    code.long(0b110011, 13, 10, 0).long(0b110111, 13, 11, 0).short(0b010001, 10, 4);
    code.short(0b010001, 11, 4).short(0b000011, 11, 12).branch(NOT_ZERO, copy);
    let registers = (0..4u16).flat_map(|n| {
        let n2 = 2 * n;
        let n = usize::from(n);
        [(0x48 + n2, spt[n]), (0x60 + n2, gplt[n]), (0x68 + n2, jplt[n])]
    });
    let display = [(0x70, bkcol), (0x24, 0x20), (0x26, 0x40), (0x28, 0x20), (0x22, 0x0302)];
    let on = drawing.then_some((0x42, 2));
    for (register, value) in registers.chain(display).chain(on) {
        code.set(13, value.into()).long(0b110101, 13, 14, register);
    }
    let end = code.here();
    code.short(0b011010, 0, 0).branch(ALWAYS, end);
    let mut rom = code.rom();
    rom[IMAGE..IMAGE + scene.vram.len()].copy_from_slice(&scene.vram);
    rom
}

/// r10 in a state of the emulator: sections of a name in 32 bytes, a length, and variables, each a length and a name,
/// a length and the bytes.
fn turns(state: &[u8]) -> Option<u32> {
    let word = |at: usize| Some(u32::from_le_bytes(state.get(at..at + 4)?.try_into().ok()?));
    let mut at = 32;
    loop {
        let name = state.get(at..at + 32)?;
        let end = at + 36 + word(at + 32)? as usize;
        at += 36;
        while name.starts_with(b"V810") && at < end {
            let length = usize::from(*state.get(at)?);
            let variable = state.get(at + 1..at + 1 + length)?;
            let size = word(at + 1 + length)? as usize;
            at += 5 + length;
            if variable == b"P_REG" {
                return word(at + 40);
            }
            at += size;
        }
        at = end;
    }
}

struct Peer {
    frontend: PathBuf,
    core: PathBuf,
    folder: PathBuf,
}

impl Peer {
    /// Microseconds of a frame, and r10 at the end.
    fn frame(&self, rom: &Path, frames: u32) -> (f64, u32) {
        let state = self.folder.join("state");
        let ran = Command::new(&self.frontend)
            .args([&self.core, rom])
            .arg(frames.to_string())
            .arg(&state)
            .env("TMPDIR", &self.folder)
            .output()
            .expect("the frontend runs");
        let printed = String::from_utf8_lossy(&ran.stdout);
        let time = printed.trim().parse().unwrap_or_else(|_| {
            panic!(
                "the frontend fails ({}): {printed}{}",
                ran.status,
                String::from_utf8_lossy(&ran.stderr)
            )
        });
        let state = fs::read(&state).expect("the frontend writes a state");
        (time, turns(&state).expect("a state has the general registers"))
    }

    fn write(&self, name: &str, rom: &[u8]) -> PathBuf {
        let path = self.folder.join(format!("{name}.vb"));
        fs::write(&path, rom).expect("the folder can be written");
        path
    }
}

/// Microseconds of a run of `budget` instructions.
fn library_run(rom: &[u8], length: u64, budget: u64) -> f64 {
    let (mut wram, mut vram) = (vec![0; 65_536], vec![0; 262_144]);
    let vbsys::Machine { mut processor, drawing } = vbsys::reset();
    let mut done = 0;
    let nanoseconds = least(|| {
        let mut memories = vbsys::Memories { rom, wram: &mut wram, vram: &mut vram, pak: &mut [] };
        let ran = vbsys::run(&mut memories, processor, drawing, budget);
        assert_eq!((ran.refusal, ran.count), (0, budget));
        processor = ran.processor;
        done += budget;
        1
    });
    let turns = u64::from(processor.regs[10]);
    assert!((turns * length % (1 << 32)).abs_diff(done % (1 << 32)) < 200 * length, "not the loop");
    nanoseconds / 1000.0
}

fn library_draw(scene: &mut Scene) -> f64 {
    let mut frame = 0;
    let nanoseconds = least(|| {
        frame = 1 - frame;
        assert_eq!(vbsys::draw_frame(&mut scene.vram, scene.drawing, frame), 0);
        1
    });
    nanoseconds / 1000.0
}

fn setting(name: &str, otherwise: u32) -> u32 {
    std::env::var(name).ok().and_then(|value| value.parse().ok()).unwrap_or(otherwise)
}

fn head(title: &str, unit: &str) {
    println!("\n{title}\n\n| | Beetle VB, {unit} | library, {unit} | ratio of the times |");
    println!("|---|---:|---:|---:|");
}

fn cpu(peer: &Peer, rounds: u32, frames: u32) {
    let halted = peer.write("halted", &halted());
    let mut idle = f64::INFINITY;
    let loops = loops();
    let roms: Vec<PathBuf> = loops
        .iter()
        .enumerate()
        .map(|(n, one)| peer.write(&format!("loop{n}"), &one.rom))
        .collect();
    let budgets: Vec<u64> = loops
        .iter()
        .zip(&roms)
        .map(|(one, rom)| {
            let (few, many) = (peer.frame(rom, 10).1, peer.frame(rom, 40).1);
            u64::from(many.wrapping_sub(few)) * one.length / 30
        })
        .collect();
    let mut best = vec![(f64::INFINITY, f64::INFINITY); loops.len()];
    for _ in 0..rounds {
        idle = idle.min(peer.frame(&halted, frames).0);
        for (n, one) in loops.iter().enumerate() {
            best[n].0 = best[n].0.min(peer.frame(&roms[n], frames).0);
            best[n].1 = best[n].1.min(library_run(&one.rom, one.length, budgets[n]));
        }
    }
    head("Processor", "million instructions a second");
    for ((one, budget), (theirs, ours)) in loops.iter().zip(budgets).zip(best) {
        let (net, budget) = (theirs - idle, budget as f64);
        println!(
            "| {} | {:.1} | {:.1} | {:.2} |",
            one.name,
            budget / net,
            budget / ours,
            ours / net
        );
    }
}

fn draw(peer: &Peer, rounds: u32, frames: u32) {
    let mut scenes = scenes();
    let off = peer.write("off", &drawn(&scenes[0].1, false));
    let mut idle = f64::INFINITY;
    let roms: Vec<PathBuf> = scenes
        .iter()
        .enumerate()
        .map(|(n, (_, scene))| peer.write(&format!("picture{n}"), &drawn(scene, true)))
        .collect();
    let mut best = vec![(f64::INFINITY, f64::INFINITY); scenes.len()];
    for _ in 0..rounds {
        idle = idle.min(peer.frame(&off, frames).0);
        for (n, (_, scene)) in scenes.iter_mut().enumerate() {
            best[n].0 = best[n].0.min(peer.frame(&roms[n], frames).0);
            best[n].1 = best[n].1.min(library_draw(scene));
        }
    }
    head("Drawing: one frame, both eyes", "µs");
    for ((what, _), (theirs, ours)) in scenes.iter().zip(best) {
        let net = theirs - idle;
        println!("| {what} | {net:.1} | {ours:.1} | {:.2} |", ours / net);
    }
}

/// `bench peer FRONTEND CORE ROOM cpu|draw|all`, as `peer/run` calls it.
pub fn compare(words: &[String]) {
    let [frontend, core, folder, asked] = words else {
        eprintln!("use rust/bench/peer/run [cpu|draw|all]");
        std::process::exit(2);
    };
    let peer = Peer { frontend: frontend.into(), core: core.into(), folder: folder.into() };
    let (rounds, frames) = (setting("ROUNDS", 5), setting("FRAMES", 100));
    if asked == "cpu" || asked == "all" {
        cpu(&peer, rounds, frames);
    }
    if asked == "draw" || asked == "all" {
        draw(&peer, rounds, frames);
    }
}
