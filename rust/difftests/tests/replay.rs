//! Replay of a recorded trace (W10): traces recorded from the model over random
//! programs, whole, cut, with changed words, and past the point where the machine
//! stops; refusals before and at a record.

use difftests::broken::Broken;
use difftests::machine::{random_hardware, to_library, Buffers};
use difftests::program::{
    half, load_interrupt_program, load_program, BIT_STRING, CAXI, HALT, ILLEGAL, NOP, TRAP,
};
use difftests::random::Random;
use difftests::twin::{ending_to_library, processor_to_library, Twin};
use model::replay::{record_bytes, record_of, Ending};
use model::{DrawingRegisters, Hardware, Mode, Processor, Refusal, StepAnswer};

type Record = [u32; 4];

fn bytes_of(records: &[Record]) -> Box<[u8]> {
    records.iter().flat_map(|&record| record_bytes(record)).collect()
}

/// Replays on both sides and compares the answer, the records and all memories.
fn replay(twin: &mut Twin, trace: &[u8], what: &dyn Fn() -> String) -> (Ending, u64) {
    let (before, registers) = (twin.processor, twin.drawing);
    let library = vbsys::replay(
        &mut twin.library.for_library(),
        processor_to_library(&before),
        to_library(&registers),
        trace,
    );
    let memories = &mut twin.model.for_model();
    let model = model::replay::replay(memories, &mut twin.processor, &mut twin.drawing, trace);
    let (refusal, answer, word) = ending_to_library(model.ending);
    let expected = vbsys::Replayed {
        refusal,
        answer,
        agreed: model.agreed,
        word,
        processor: processor_to_library(&twin.processor),
        drawing: to_library(&twin.drawing),
    };
    if library != expected {
        panic!(
            "a replay of {} bytes from {before:X?}:\nthe library answers {library:X?},\n\
             the model {expected:X?};\n{}",
            trace.len(),
            what()
        );
    }
    twin.expect_equal(what);
    (model.ending, model.agreed)
}

/// Up to `most` completed steps of the model and their records; then why there are
/// no more, if so. The twin is not changed.
fn record(twin: &Twin, most: usize) -> (Vec<Record>, Option<Ending>) {
    let mut twin = twin.clone();
    let mut records = Vec::new();
    while records.len() < most {
        let pc = twin.processor.pc;
        let memories = &mut twin.model.for_model();
        let stepped = model::processor::step(memories, &mut twin.processor, &mut twin.drawing);
        match stepped.map(|stepped| stepped.answer) {
            Err(refusal) => return (records, Some(Ending::Refused(refusal))),
            Ok(StepAnswer::WasHalted) => return (records, Some(Ending::WasHalted)),
            Ok(StepAnswer::WasFatal) => return (records, Some(Ending::WasFatal)),
            Ok(StepAnswer::TurnedFatal(_)) => return (records, Some(Ending::TurnedFatal)),
            Ok(_) => records.push(record_of(pc, &twin.processor)),
        }
    }
    (records, None)
}

fn new_twin(random: &mut Random, pak: usize) -> Twin {
    let buffers = Buffers::random(random, 1_024, pak);
    Twin::new(buffers, Processor::default(), DrawingRegisters::default())
}

/// A program with traps, HALT, stores into itself, and lines that are accepted.
fn load(random: &mut Random, twin: &mut Twin) {
    if random.one_in(3) {
        load_program(random, twin, 60);
    } else {
        load_interrupt_program(random, twin);
    }
}

/// The machine after as many steps as records, by the library's own run.
fn expect_run(start: &Twin, after: &Twin, steps: u64, what: &dyn Fn() -> String) {
    let mut run = start.clone();
    let ran = run.run(steps, what);
    assert_eq!((ran.count, ran.refusal), (steps, None), "{}", what());
    assert_eq!((run.processor, run.drawing), (after.processor, after.drawing), "{}", what());
    run.library.expect_equal(&after.library, what);
}

/// Whole traces: all agreed, and what a run of as many steps leaves.
#[test]
fn whole_traces() {
    let mut random = Random::new(0xA001_0000);
    let mut interrupted = 0;
    for (pak, programs) in [(0, 400), (64, 400)] {
        let mut twin = new_twin(&mut random, pak);
        for number in 0..programs {
            load(&mut random, &mut twin);
            let start = twin.clone();
            let (records, _) = record(&twin, 1 + random.below(200) as usize);
            let accepted = |record: &&Record| (0xFFFF_FE00..0xFFFF_FE50).contains(&record[1]);
            interrupted += records.iter().filter(accepted).count();
            let what = || format!("program {number} of pak RAM {pak}, seed A0010000");
            let found = replay(&mut twin, &bytes_of(&records), &what);
            assert_eq!(found, (Ending::Agreed, records.len() as u64), "{}", what());
            expect_run(&start, &twin, records.len() as u64, &what);
        }
    }
    assert!(interrupted > 2_000, "{interrupted} accepted interrupts");
}

/// A trace cut at every record, and replayed in two parts with a tick and changed
/// lines between them.
#[test]
fn cut_traces() {
    let mut random = Random::new(0xA002_0000);
    let mut twin = new_twin(&mut random, 2);
    for number in 0..24 {
        load(&mut random, &mut twin);
        let (records, _) = record(&twin, 24);
        for cut in 0..=records.len() {
            let mut cut_twin = twin.clone();
            let what = || format!("program {number} cut at {cut}, seed A0020000");
            let found = replay(&mut cut_twin, &bytes_of(&records[..cut]), &what);
            assert_eq!(found, (Ending::Agreed, cut as u64), "{}", what());
            if cut % 8 != 0 {
                continue;
            }
            // the bench's part between two traces
            let mut hardware = cut_twin.processor.hardware;
            hardware.lines = random.half() & 0x1F;
            model::hardware::tick(&mut hardware).unwrap();
            cut_twin.processor.hardware = hardware;
            let (rest, _) = record(&cut_twin, 12);
            let found = replay(&mut cut_twin, &bytes_of(&rest), &what);
            assert_eq!(found, (Ending::Agreed, rest.len() as u64), "{}", what());
        }
    }
}

/// Every set of wrong words, at the first, a middle and the last record: the lowest
/// is reported, the step stays made, and records after it do not count.
#[test]
fn changed_words() {
    let mut random = Random::new(0xA003_0000);
    let mut twin = new_twin(&mut random, 64);
    let mut programs = 0;
    while programs < 24 {
        load(&mut random, &mut twin);
        let (records, _) = record(&twin, 40);
        if records.len() < 3 {
            continue;
        }
        programs += 1;
        let last = records.len() - 1;
        for (place, set) in
            [0, last / 2, last].into_iter().flat_map(|p| (1..16u32).map(move |s| (p, s)))
        {
            let mut changed = records.clone();
            for (word, value) in changed[place].iter_mut().enumerate() {
                if set >> word & 1 == 1 {
                    *value ^= 1 << random.below(32);
                }
            }
            let mut after = twin.clone();
            let what = || format!("words {set:04b} of record {place}, program {programs}");
            let found = replay(&mut after, &bytes_of(&changed), &what);
            let word = set.trailing_zeros();
            assert_eq!(found, (Ending::Differed(word), place as u64), "{}", what());
            if set.count_ones() == 1 {
                expect_run(&twin, &after, place as u64 + 1, &what);
            }
        }
    }
}

/// The records that a machine has at the point where it stops: the right one, as
/// far as there is one, and wrong ones.
fn records_past_the_end(random: &mut Random, processor: &Processor) -> [Record; 4] {
    let right = record_of(processor.pc, processor);
    [
        right,
        [right[0], right[1].wrapping_add(2), right[2], right[3]],
        [0; 4],
        [0; 4].map(|_: u32| random.word()),
    ]
}

/// Random programs, with records past the point where they stop: that the model
/// refused, took no step or turned fatal is reported whatever the record holds.
#[test]
fn past_the_end() {
    let mut random = Random::new(0xA004_0000);
    let mut twin = new_twin(&mut random, 4);
    let mut seen = [0; 6];
    for number in 0..1_500 {
        load(&mut random, &mut twin);
        if number % 4 == 0 {
            twin.processor.psw |= 0x8000;
        }
        let (records, stop) = record(&twin, 200);
        let Some(stop) = stop else { continue };
        let (_, answer, _) = ending_to_library(stop);
        seen[answer as usize] += 1;
        let mut stopped = twin.clone();
        let what = || format!("program {number}, seed A0040000");
        replay(&mut stopped, &bytes_of(&records), &what);
        for last in records_past_the_end(&mut random, &stopped.processor) {
            let trace = bytes_of(&[&records[..], &[last, last]].concat());
            let mut after = twin.clone();
            assert_eq!(replay(&mut after, &trace, &what), (stop, records.len() as u64));
            let expected = match stop {
                Ending::TurnedFatal => Processor { mode: Mode::Fatal, ..stopped.processor },
                _ => stopped.processor,
            };
            assert_eq!((after.processor, after.drawing), (expected, stopped.drawing));
            after.library.expect_equal(&stopped.library, &what);
        }
    }
    let reached = [vbsys::REPLAY_REFUSED, vbsys::REPLAY_WAS_HALTED, vbsys::REPLAY_TURNED_FATAL];
    let least = reached.iter().map(|&answer| seen[answer as usize]).min();
    assert!(least > Some(30), "the programs no longer reach everything: {seen:?}");
}

/// A machine whose program starts at 0x05000000; ROM is NOPs.
fn programmed(code: &[u16], psw: u32, lines: u16) -> Twin {
    let mut buffers = Buffers::zeroed(1_024, 65_536, 262_144, 0);
    for pair in buffers.rom.chunks_mut(2) {
        pair.copy_from_slice(&NOP.to_le_bytes());
    }
    let hardware = Hardware { lines, ..Hardware::default() };
    let processor = Processor { pc: 0x0500_0000, psw, hardware, ..Processor::default() };
    let mut twin = Twin::new(buffers, processor, DrawingRegisters::default());
    twin.put_code(0x0500_0000, code);
    twin
}

const ADD_ONE: u16 = half(0b010001, 1, 1);

/// Each row of what comparing a step with a record gives, by the library's own answers.
#[test]
fn worked_records() {
    let first = [0x0500_0000, 0x0500_0002, 0, 1];
    let second = [0x0500_0002, 0x0500_0004, 0, 2];
    let wrong = [0x0500_0002, 0x0500_0004, 1, 3];
    let refused = Ending::Refused(Refusal::NotModelled);
    for (code, psw, lines, records, ending, agreed) in [
        (&[ADD_ONE, ADD_ONE][..], 0, 0, &[first, second][..], Ending::Agreed, 2),
        (&[ADD_ONE, ADD_ONE], 0, 0, &[first, wrong, first], Ending::Differed(2), 1),
        (&[ADD_ONE, ADD_ONE], 0, 0, &[second, second], Ending::Differed(0), 0),
        (&[ADD_ONE, CAXI], 0, 0, &[first, wrong], refused, 1),
        (&[BIT_STRING], 0, 0, &[first], refused, 0),
        (&[HALT], 0, 0, &[[0x0500_0000, 0x0500_0002, 0, 0], second], Ending::WasHalted, 1),
        (&[ILLEGAL], 0x8000, 0, &[first], Ending::TurnedFatal, 0),
        (&[ILLEGAL], 0, 0, &[[0x0500_0000, 0xFFFF_FF90, 0x5000, 0]], Ending::Agreed, 1),
        (&[half(TRAP, 0, 3)], 0, 0, &[[0x0500_0000, 0xFFFF_FFA0, 0x5000, 0]], Ending::Agreed, 1),
        (&[CAXI], 0, 0x10, &[[0x0500_0000, 0xFFFF_FE40, 0x0005_5000, 0]], Ending::Agreed, 1),
    ] {
        let mut twin = programmed(code, psw, lines);
        let what = || format!("{code:04X?} with {records:X?}");
        assert_eq!(replay(&mut twin, &bytes_of(records), &what), (ending, agreed), "{}", what());
    }
    // an acceptance that wakes, and its HALT
    let mut twin = programmed(&[HALT], 0, 0);
    twin.processor.mode = Mode::Halted;
    let before = twin.clone();
    let what = || "halted".into();
    let accepted = [0x0500_0000, 0xFFFF_FE00, 0x0001_5000, 0];
    assert_eq!(replay(&mut twin, &bytes_of(&[accepted]), &what), (Ending::WasHalted, 0));
    twin = before;
    twin.processor.hardware.lines = 1;
    assert_eq!(replay(&mut twin, &bytes_of(&[accepted]), &what), (Ending::Agreed, 1));
    // a fatal machine takes no step, whatever its lines
    let mut twin = programmed(&[NOP], 0, 0x1F);
    twin.processor.mode = Mode::Fatal;
    assert_eq!(replay(&mut twin, &bytes_of(&[first]), &what), (Ending::WasFatal, 0));
}

/// An empty trace agrees in every mode, at any instruction, with any lines.
#[test]
fn empty_traces() {
    let mut random = Random::new(0xA005_0000);
    for mode in [Mode::Running, Mode::Halted, Mode::Fatal] {
        for (code, lines) in [(NOP, 0), (CAXI, 0), (CAXI, 0x1F), (ILLEGAL, 0x02)] {
            let mut twin = programmed(&[code], 0, lines);
            twin.processor.mode = mode;
            twin.processor.hardware = Hardware { lines, ..random_hardware(&mut random) };
            let before = twin.clone();
            let what = || format!("{mode:?} at {code:04X}");
            assert_eq!(replay(&mut twin, &[], &what), (Ending::Agreed, 0));
            assert_eq!(twin.processor, before.processor);
            twin.library.expect_equal(&before.library, &what);
        }
    }
}

/// Lengths that are no multiple of 16, in every mode and at instructions that are
/// not modelled.
#[test]
fn trace_lengths() {
    for code in [NOP, CAXI] {
        for mode in [Mode::Running, Mode::Halted, Mode::Fatal] {
            let right = [0x0500_0000, 0x0500_0002, 0, 0];
            let trace = bytes_of(&[right; 20]);
            for length in (0..=64).chain([319, 320]) {
                let mut twin = programmed(&[code, NOP], 0, 0);
                twin.processor.mode = mode;
                let before = twin.clone();
                let what = || format!("{length} bytes of trace, {mode:?} at {code:04X}");
                let (ending, agreed) = replay(&mut twin, &trace[..length], &what);
                let odd = !length.is_multiple_of(16);
                assert_eq!(ending == Ending::Refused(Refusal::TraceLength), odd, "{}", what());
                if odd {
                    assert_eq!((agreed, twin.processor), (0, before.processor), "{}", what());
                    twin.library.expect_equal(&before.library, &what);
                }
            }
        }
    }
}

/// Every set of broken conditions among 1 to 5, the mode, 14 and 6, each in two
/// ways; a line that would be accepted is not looked at before them.
#[test]
fn the_order_of_refusals() {
    for broken in Broken::sets(8) {
        let mut buffers = broken.buffers();
        buffers.rom.fill(0x11);
        buffers.pak.fill(0x22);
        let code = if broken.has(7) { [CAXI, BIT_STRING][broken.way] } else { ADD_ONE };
        if buffers.wram.len() > 1 {
            buffers.wram[..2].copy_from_slice(&code.to_le_bytes());
        }
        let mut processor = vbsys::Processor { pc: 0x0500_0000, ..Default::default() };
        let mut drawing = vbsys::Drawing::default();
        match (broken.has(4), broken.way) {
            (true, 0) => processor.hardware.control = 0x20,
            (true, _) => drawing.spt[1] = 0x400,
            _ => {}
        }
        processor.mode = if broken.has(5) { 3 } else { vbsys::RUNNING };
        let mut trace = bytes_of(&[[0x0500_0000, 0x0500_0002, 0, 1]]).into_vec();
        if broken.has(6) {
            trace.resize([15, 17][broken.way], 0);
        }
        let before = buffers.clone();
        let replayed = vbsys::replay(&mut buffers.for_library(), processor, drawing, &trace);
        let what = broken.to_string();
        match broken.first(&[1, 2, 3, 4, 5, vbsys::MISUSE, 14, 6]) {
            Some(refusal) => {
                let expected =
                    vbsys::Replayed { refusal, processor, drawing, ..Default::default() };
                assert_eq!(replayed, expected, "{what}");
                buffers.expect_equal(&before, &|| what.clone());
            }
            None => {
                let found = (replayed.refusal, replayed.answer, replayed.agreed, replayed.word);
                assert_eq!(found, (0, vbsys::REPLAY_AGREED, 1, 0), "{what}");
            }
        }
    }
}

/// No byte outside the caller's buffers is touched; ROM and the trace are only read; the
/// trace and pak RAM may be empty.
#[cfg(target_os = "linux")]
#[test]
fn between_fences() {
    use difftests::fence::{sides_and_paks, Fenced, FencedMemories};
    let mut random = Random::new(0xA006_0000);
    for (side, pak) in sides_and_paks() {
        let mut twin = new_twin(&mut random, pak);
        for number in 0..40 {
            load(&mut random, &mut twin);
            let (mut records, _) = record(&twin, [0, 1, 20, 100][number % 4]);
            if number % 3 == 0 {
                records.push([0; 4]);
            }
            let mut trace = bytes_of(&records).into_vec();
            if number % 10 == 9 {
                trace.push(0);
            }
            let (mut fenced, given) =
                (FencedMemories::new(&twin.model, side), Fenced::closed(&trace, side));
            let processor = processor_to_library(&twin.processor);
            let drawing = to_library(&twin.drawing);
            let replayed = vbsys::replay(&mut fenced.write(), processor, drawing, given.bytes());
            let (ending, agreed) = replay(&mut twin, &trace, &|| "between fences".into());
            let (refusal, answer, word) = ending_to_library(ending);
            let found = (replayed.refusal, replayed.answer, replayed.agreed, replayed.word);
            assert_eq!(found, (refusal, answer, agreed, word));
            fenced.expect_equal(&twin.model);
        }
    }
}
