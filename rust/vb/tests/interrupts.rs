//! Interrupts through the safe crate: which line is accepted, what the entry leaves, and how a run counts.

use vb::{Answer, Hardware, Machine, Memories, Mode, Processor, Stop};

const HALT: u16 = 0x6800;
const ADD_1_R1: u16 = 0x4421;
const CLI: u16 = 0x5800;
const CAXI: u16 = 0xE800;
const PC: u32 = 0x0700_0100;
const MODES: [Mode; 3] = [Mode::Running, Mode::Halted, Mode::Fatal];

/// A ROM of 1,024 bytes: `code` at 0x100, and `handler` at the handler of each level.
fn rom(code: &[u16], handler: &[u16]) -> Vec<u8> {
    let mut rom = vec![0; 1024];
    let mut put = |at: usize, halves: &[u16]| {
        for (i, half) in halves.iter().enumerate() {
            rom[at + 2 * i..at + 2 * i + 2].copy_from_slice(&half.to_le_bytes());
        }
    };
    put(0x100, code);
    for level in 0..5 {
        put(0x200 + 16 * level, handler);
    }
    rom
}

struct Bench {
    rom: Vec<u8>,
    wram: Vec<u8>,
    vram: Vec<u8>,
    machine: Machine,
}

impl Bench {
    fn new(code: &[u16], psw: u32, lines: u16, mode: Mode) -> Bench {
        let mut machine = Machine::reset();
        let hardware = Hardware { lines, ..Hardware::default() };
        machine.processor =
            Processor { pc: PC, psw, mode, hardware, ecr: 0xABCD_FFF0, ..machine.processor };
        let (wram, vram) = (vec![0; vb::WRAM_LENGTH], vec![0; vb::VRAM_LENGTH]);
        Bench { rom: rom(code, &[ADD_1_R1, ADD_1_R1]), wram, vram, machine }
    }

    fn step(&mut self) -> Answer {
        let Bench { rom, wram, vram, machine } = self;
        machine.step(&mut Memories { rom, wram, vram, pak: &mut [] }).expect("not refused")
    }

    fn run(&mut self, budget: u64) -> (u64, Stop) {
        let Bench { rom, wram, vram, machine } = self;
        let mut memories = Memories { rom, wram, vram, pak: &mut [] };
        let ran = machine.run(&mut memories, budget).expect("not refused");
        (ran.count, ran.stop)
    }
}

#[test]
fn worked_rows() {
    for (psw, lines, mode, level, after) in [
        (0, 0x12, Mode::Running, 4, 0x0005_5000),
        (0x20000, 0x06, Mode::Running, 2, 0x0003_5000),
        (0x2000, 0x01, Mode::Halted, 0, 0x0001_5000),
        (0, 0x10, Mode::Running, 4, 0x0005_5000),
    ] {
        let mut bench = Bench::new(&[CAXI], psw, lines, mode);
        let before = bench.machine;
        assert_eq!(bench.step(), Answer::Interrupted(level));
        let code = 0xFE00 + 16 * u32::from(level);
        let expected = Processor {
            pc: 0xFFFF_0000 + code,
            eipc: PC,
            eipsw: psw,
            ecr: 0xABCD_0000 + code,
            psw: after,
            mode: Mode::Running,
            ..before.processor
        };
        assert_eq!(bench.machine, Machine { processor: expected, ..before });
    }
}

#[test]
fn every_set_of_lines_with_every_masking_level() {
    for lines in 0..32_u16 {
        for masks in 0..8_u32 {
            for (masking, mode) in (0..16).flat_map(|i| MODES.map(|mode| (i, mode))) {
                let (np, ep, id) = (masks & 1, masks >> 1 & 1, masks >> 2);
                let psw = np << 15 | ep << 14 | id << 12 | masking << 16;
                let highest = (0..5).rev().find(|level| lines >> level & 1 == 1);
                let accepted = highest.filter(|&level| {
                    masks == 0 && mode != Mode::Fatal && u32::from(level) >= masking
                });
                let mut bench = Bench::new(&[ADD_1_R1], psw, lines, mode);
                let expected = match (accepted, mode) {
                    (Some(level), _) => Answer::Interrupted(level),
                    (None, Mode::Running) => Answer::Ended,
                    (None, Mode::Halted) => Answer::WasHalted,
                    (None, Mode::Fatal) => Answer::WasFatal,
                };
                assert_eq!(bench.step(), expected, "{lines:02X} {psw:05X} {mode}");
                assert_eq!(bench.machine.processor.hardware.lines, lines);
            }
        }
    }
}

#[test]
fn runs_count_acceptances() {
    let mut woken = Bench::new(&[HALT], 0, 0x10, Mode::Halted);
    assert_eq!(woken.run(2), (2, Stop::Budget));
    assert_eq!((woken.machine.processor.regs[1], woken.machine.processor.eipc), (1, PC));
    let mut halted = Bench::new(&[HALT], 0, 0, Mode::Running);
    assert_eq!(halted.run(1), (1, Stop::Halted));
    assert_eq!(halted.run(1), (0, Stop::Halted));
    let mut nothing = Bench::new(&[ADD_1_R1], 0, 0x10, Mode::Running);
    let before = nothing.machine;
    assert_eq!((nothing.run(0), nothing.machine), ((0, Stop::Budget), before));
}

#[test]
fn an_instruction_can_let_an_interrupt_through() {
    let mut bench = Bench::new(&[ADD_1_R1, CLI, HALT], 0x1000, 0x04, Mode::Running);
    assert_eq!(bench.run(3), (3, Stop::Budget));
    let processor = bench.machine.processor;
    assert_eq!((processor.pc, processor.eipc, processor.regs[1]), (0xFFFF_FE20, PC + 4, 1));
}

#[test]
fn saved_states_load_lines_and_timer_at_reset() {
    let mut bench = Bench::new(&[HALT], 0, 0x1F, Mode::Halted);
    bench.machine.processor.hardware = Hardware { lines: 0x1F, count: 1, reload: 2, control: 0x1B };
    let Bench { rom, wram, vram, machine } = &mut bench;
    let read = vb::ReadMemories { rom, wram, vram, pak: &[] };
    let mut output = vec![0; vb::state_bytes(0)];
    assert_eq!(machine.write_state(&read, &mut output), Err(vb::Refusal::NotAtReset));
    let hardware = std::mem::take(&mut machine.processor.hardware);
    machine.write_state(&read, &mut output).expect("not refused");
    machine.processor.hardware = hardware;
    let (given, written) = (machine.processor, Machine { ..*machine });
    let mut memories = Memories { rom, wram, vram, pak: &mut [] };
    machine.read_state(&mut memories, &output).expect("not refused");
    let at_reset = Processor { hardware: Hardware::default(), ..given };
    assert_eq!(*machine, Machine { processor: at_reset, ..written });
}
