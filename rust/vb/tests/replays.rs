//! Replay of recorded traces through the library.

use vb::{record, Answer, End, Machine, Memories, Mode, Refusal, Replayed, Word};

struct Bench {
    rom: Vec<u8>,
    wram: Vec<u8>,
    vram: Vec<u8>,
}

impl Bench {
    fn memories(&mut self) -> Memories<'_> {
        Memories { rom: &self.rom, wram: &mut self.wram, vram: &mut self.vram, pak: &mut [] }
    }
}

/// A bench whose ROM begins with this code, and a machine that starts there.
fn bench(code: &[u16]) -> (Bench, Machine) {
    let mut rom = vec![0; 1024];
    for (place, half) in rom.chunks_exact_mut(2).zip(code) {
        place.copy_from_slice(&half.to_le_bytes());
    }
    let mut machine = Machine::reset();
    machine.processor.pc = 0x0700_0000;
    machine.processor.psw = 0;
    machine.processor.regs[12] = 0x0500_0000;
    (Bench { rom, wram: vec![0; 65_536], vram: vec![0; 262_144] }, machine)
}

/// ADD 1, r10; ST.W r10, 4[r12]; BR to the first
const LOOP: [u16; 4] = [0x4541, 0xDD4C, 4, 0x8BFA];
const HALT: u16 = 0x6800;
/// TRAP 0
const TRAP: u16 = 0x6000;
/// CAXI, not modelled
const CAXI: u16 = 0xE800;

/// As many steps as complete, at most `most`, with their records.
fn recorded(code: &[u16], psw: u32, most: usize) -> (Bench, Machine, Vec<u8>) {
    let (mut bench, mut machine) = bench(code);
    machine.processor.psw = psw;
    let mut trace = Vec::new();
    for _ in 0..most {
        let before = machine.processor.pc;
        match machine.step(&mut bench.memories()) {
            Ok(Answer::Ended | Answer::Trapped(_) | Answer::Interrupted(_)) => {
                trace.extend(record(before, &machine.processor));
            }
            _ => break,
        }
    }
    (bench, machine, trace)
}

#[test]
fn a_recorded_trace_agrees() {
    let (stepped, after, trace) = recorded(&LOOP, 0, 100);
    let (mut bench, mut machine) = bench(&LOOP);
    let replayed = machine.replay(&mut bench.memories(), &trace).unwrap();
    assert_eq!(replayed, Replayed { agreed: 100, end: End::Agreed });
    assert_eq!((machine, bench.wram), (after, stepped.wram));
}

#[test]
fn the_first_wrong_word_is_reported_and_its_step_stays_made() {
    let words = [Word::PcBefore, Word::PcAfter, Word::PswAfter, Word::Sum];
    for (k, (place, word)) in [0, 7, 19].into_iter().zip(words.into_iter().enumerate().cycle()) {
        let (stepped, after, mut trace) = recorded(&LOOP, 0, k + 1);
        trace.extend(recorded(&LOOP, 0, 20).2[trace.len()..].iter());
        (place..4).for_each(|place| trace[16 * k + 4 * place] ^= 1);
        let (mut bench, mut machine) = bench(&LOOP);
        let replayed = machine.replay(&mut bench.memories(), &trace).unwrap();
        assert_eq!(replayed, Replayed { agreed: k as u64, end: End::Differed(word) });
        assert_eq!((machine, bench.wram), (after, stepped.wram));
    }
}

#[test]
fn the_models_own_end_is_reported_first() {
    let refused = Refusal::NotModelled { pc: 0x0700_0002, first: CAXI, second: 0 };
    for (code, psw, end, mode) in [
        ([0x4541, HALT], 0, End::WasHalted, Mode::Halted),
        ([0x4541, CAXI], 0, End::NotModelled(refused), Mode::Running),
        ([0x4541, TRAP], 0x8000, End::TurnedFatal, Mode::Fatal),
    ] {
        let (_, after, trace) = recorded(&code, psw, 10);
        for wrong in [false, true] {
            let mut longer = trace.clone();
            longer.extend(if wrong {
                [0xFF; 16]
            } else {
                record(after.processor.pc, &after.processor)
            });
            let (mut bench, mut machine) = bench(&code);
            machine.processor.psw = psw;
            let replayed = machine.replay(&mut bench.memories(), &longer).unwrap();
            assert_eq!(replayed, Replayed { agreed: trace.len() as u64 / 16, end: end.clone() });
            assert_eq!(machine.processor.mode, mode);
            assert_eq!(machine.processor.regs, after.processor.regs);
        }
    }
}

#[test]
fn empty_traces_and_odd_lengths() {
    for mode in [Mode::Running, Mode::Halted, Mode::Fatal] {
        let (mut bench, mut machine) = bench(&[CAXI]);
        machine.processor.mode = mode;
        let before = machine;
        let replayed = machine.replay(&mut bench.memories(), &[]).unwrap();
        assert_eq!(replayed, Replayed { agreed: 0, end: End::Agreed });
        for length in [1, 15, 17, 31] {
            let refused = machine.replay(&mut bench.memories(), &vec![0; length]).unwrap_err();
            assert_eq!(refused, Refusal::TraceLength { given: length });
            assert_eq!(refused.number(), 14);
        }
        assert_eq!(machine, before);
        bench.vram.pop();
        let refused = machine.replay(&mut bench.memories(), &[0]).unwrap_err();
        assert_eq!(refused, Refusal::VramLength { given: 262_143 });
    }
}
