//! Replay of a recorded trace (W10): each row of what comparing a step with a record gives.

mod common;

use common::{Machine, NOP};
use model::arithmetic::NP;
use model::replay::{record_bytes, record_of, Ending, Replayed};
use model::{Hardware, Mode, Processor, Refusal};

const HALT: u16 = 0b011010 << 10;
const ILLEGAL: u16 = 0b011011 << 10;
const CAXI: u16 = 0b111010 << 10;
/// ADD 1, r1.
const ADD_ONE: u16 = 0b010001 << 10 | 1 << 5 | 1;

fn replay(machine: &mut Machine, trace: &[u8]) -> Replayed {
    let (mut memories, processor, drawing) = machine.borrowed();
    model::replay::replay(&mut memories, processor, drawing, trace)
}

fn trace(records: &[[u32; 4]]) -> Vec<u8> {
    records.iter().flat_map(|&record| record_bytes(record)).collect()
}

const FIRST: [u32; 4] = [0x0500_0000, 0x0500_0002, 0, 1];
const SECOND: [u32; 4] = [0x0500_0002, 0x0500_0004, 0, 2];

#[test]
fn all_agreed() {
    let mut machine = Machine::with_handlers(&[ADD_ONE, ADD_ONE, NOP]);
    let replayed = replay(&mut machine, &trace(&[FIRST, SECOND]));
    assert_eq!(replayed, Replayed { ending: Ending::Agreed, agreed: 2 });
    assert_eq!((machine.processor.pc, machine.processor.registers[1]), (0x0500_0004, 2));
    let replayed = replay(&mut machine, &[]);
    assert_eq!(replayed, Replayed { ending: Ending::Agreed, agreed: 0 });
}

/// The lowest wrong word is reported, and the differing step stays made.
#[test]
fn differing_words() {
    for set in 1..16u32 {
        let mut wrong = SECOND;
        for (word, value) in wrong.iter_mut().enumerate() {
            *value ^= (set >> word & 1) * 0x1000;
        }
        let mut machine = Machine::with_handlers(&[ADD_ONE, ADD_ONE, ADD_ONE]);
        let third = [0x0500_0004, 0x0500_0006, 0, 3];
        let replayed = replay(&mut machine, &trace(&[FIRST, wrong, third]));
        let ending = Ending::Differed(set.trailing_zeros());
        assert_eq!(replayed, Replayed { ending, agreed: 1 });
        assert_eq!((machine.processor.pc, machine.processor.registers[1]), (0x0500_0004, 2));
    }
}

/// What the model itself does at a record is reported first, whatever the record holds.
#[test]
fn the_models_end_is_reported_before_a_difference() {
    for (code, psw, ending) in [
        (CAXI, 0, Ending::Refused(Refusal::NotModelled)),
        (HALT, 0, Ending::WasHalted),
        (ILLEGAL, NP, Ending::TurnedFatal),
    ] {
        for last in [SECOND, [0; 4], [0x0500_0002; 4]] {
            let mut machine = Machine::with_handlers(&[ADD_ONE, code]);
            machine.processor.psw = psw;
            let first = [0x0500_0000, 0x0500_0002, psw, 1];
            let halt = [0x0500_0002, 0x0500_0004, 0, 1];
            let before = if code == HALT { vec![first, halt] } else { vec![first] };
            let agreed = before.len() as u64;
            let records = [&before[..], &[last]].concat();
            assert_eq!(
                replay(&mut machine, &trace(&records)),
                Replayed { ending, agreed },
                "{code:X}"
            );
            let mode = match code {
                HALT => Mode::Halted,
                ILLEGAL => Mode::Fatal,
                _ => Mode::Running,
            };
            assert_eq!(machine.processor.mode, mode);
            let pc = if code == HALT { 0x0500_0004 } else { 0x0500_0002 };
            assert_eq!((machine.processor.pc, machine.processor.registers[1]), (pc, 1));
        }
    }
    let mut machine = Machine::with_handlers(&[ADD_ONE]);
    machine.processor.mode = Mode::Fatal;
    let replayed = replay(&mut machine, &trace(&[FIRST]));
    assert_eq!(replayed, Replayed { ending: Ending::WasFatal, agreed: 0 });
    assert_eq!(replay(&mut machine, &[]).ending, Ending::Agreed);
}

/// A trap and an acceptance, one that wakes too, have one record each.
#[test]
fn completed_steps() {
    let mut machine = Machine::with_handlers(&[ILLEGAL]);
    let entered = [0x0500_0000, 0xFFFF_FF90, 0x5000, 0];
    let replayed = replay(&mut machine, &trace(&[entered]));
    assert_eq!(replayed, Replayed { ending: Ending::Agreed, agreed: 1 });
    for mode in [Mode::Running, Mode::Halted] {
        let mut machine = Machine::with_handlers(&[CAXI]);
        machine.processor.mode = mode;
        machine.processor.hardware = Hardware { lines: 0x10, ..Hardware::default() };
        let accepted = [0x0500_0000, 0xFFFF_FE40, 0x0005_5000, 0];
        let replayed = replay(&mut machine, &trace(&[accepted]));
        assert_eq!(replayed, Replayed { ending: Ending::Agreed, agreed: 1 });
    }
}

#[test]
fn the_sum_wraps() {
    let mut processor = Processor::default();
    processor.registers[1..].fill(0xFFFF_FFFF);
    assert_eq!(record_of(2, &processor), [2, 0, 0, 0xFFFF_FFE1]);
    assert_eq!(record_bytes([1, 2, 3, 0x0403_0201])[12..], [1, 2, 3, 4]);
}

/// 14 comes before any step, so before 6.
#[test]
fn trace_lengths() {
    for length in [1, 15, 17, 31] {
        let mut machine = Machine::with_handlers(&[CAXI]);
        let ending = Ending::Refused(Refusal::TraceLength);
        assert_eq!(replay(&mut machine, &vec![0; length]), Replayed { ending, agreed: 0 });
        machine.processor.pc = 1;
        let ending = Ending::Refused(Refusal::Register);
        assert_eq!(replay(&mut machine, &vec![0; length]), Replayed { ending, agreed: 0 });
    }
}
