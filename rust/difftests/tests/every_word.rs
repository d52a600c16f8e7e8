//! CVT.WS, CVT.SW and TRNC.SW of all 2^32 words (W4), the library against the
//! model's whole numbers. A program converts 8,192 words in one run of the
//! library, so that the call costs next to nothing for each word; where the first
//! and the last of them trap, each is a separate step, which costs less than a
//! handler.
//!
//! Compared for every word: reg2 after, PSW after, and where the conversion traps
//! the exception's code and the PSW it saves; for every run, how many instructions
//! it took and that it halted; for every step, its answer, EIPC and PC.

use std::io::Write;
use std::sync::atomic::{AtomicU32, AtomicU64, Ordering};
use std::time::Instant;

use difftests::machine::Buffers;
use difftests::program::{half, ADD_IMMEDIATE, FLOATING, HALT, RETI};
use model::arithmetic::{CY, OV, S, Z};
use model::floating::{execute, Floating, Trap};
use model::Cause;

/// Words of one run: what fits into WRAM, two words of it for each.
const WORDS: u32 = 8_192;
/// Runs that all words take.
const RUNS: u32 = 524_288;
/// Words that a turn of the program's loop converts.
const TURN: u32 = 8;
/// What reg2 has before.
const BEFORE: u32 = 0x5A5A_5A5A;

const RESULT: u16 = 5;
const WORD: u16 = 6;
const AT: u16 = 7;
const STATUS: u16 = 8;
const CODE: u16 = 9;
const BACK: u16 = 10;
const FILL: u16 = 11;
const TURNS: u16 = 12;

const WRAM: u32 = 0x0500_0000;
const ROM: u32 = 0x0700_0000;
/// Where the first conversion of the program lies.
const CONVERSION: u32 = ROM + 4;
/// Where 0xFFFFFF60 lies in a ROM of 1,024 bytes.
const HANDLER: usize = 0x360;

/// A loop that makes the next word, converts it into a filled register and stores
/// the result and PSW. ADD's flags are what the conversion finds in PSW.
fn main_loop(sub_opcode: u16) -> Vec<u16> {
    let add = |register: u16, small: u16| half(ADD_IMMEDIATE, register, small & 0x1F);
    let store = |register: u16, displacement: u16| [half(0b110111, register, AT), displacement];
    let mut code = Vec::new();
    for n in 0..TURN as u16 {
        let mov = half(0b000000, RESULT, FILL);
        let convert = [half(FLOATING, RESULT, WORD), sub_opcode << 10];
        let psw = half(0b011101, STATUS, 5);
        code.extend([add(WORD, 1), mov, convert[0], convert[1], psw]);
        code.extend([store(RESULT, 8 * n), store(STATUS, 8 * n + 4)].concat());
    }
    code.extend([half(0b101001, AT, AT), 8 * TURN as u16, add(TURNS, 0xFFFF)]);
    let branch = 0x8000 | 10 << 9 | (0x200 - 2 * code.len() as u16) & 0x1FF;
    code.extend([branch, HALT]);
    code
}

/// The trap's handler: the status is the code and the saved PSW, and the program
/// goes on after the instruction that would have read PSW, with PSW 0.
fn handler() -> [u16; 9] {
    let (to_system, from_system) = (0b011100, 0b011101);
    let (eipc, eipsw, ecr) = (0, 1, 4);
    [
        half(from_system, STATUS, eipsw),
        half(from_system, CODE, ecr),
        half(0b010100, CODE, 16),
        half(0b001100, STATUS, CODE),
        half(from_system, BACK, eipc),
        half(ADD_IMMEDIATE, BACK, 6),
        half(to_system, BACK, eipc),
        half(to_system, 0, eipsw),
        RETI,
    ]
}

/// What a word's conversion came to.
#[derive(Debug, Default)]
struct Tally {
    ended: AtomicU64,
    reserved: AtomicU64,
    invalid: AtomicU64,
}

/// The flags that `ADD 1` leaves where it gives this word.
fn psw_before(word: u32) -> u32 {
    let flag = |set: bool, flag: u32| if set { flag } else { 0 };
    flag(word == 0, Z | CY) | flag(word >> 31 != 0, S) | flag(word == 0x8000_0000, OV)
}

/// A machine whose program converts the words from one on.
struct Bench {
    operation: Floating,
    buffers: Buffers,
    at_reset: vbsys::Processor,
}

impl Bench {
    fn new(operation: Floating) -> Bench {
        let sub_opcode = match operation {
            Floating::FromWord => 0b000010,
            Floating::ToWord => 0b000011,
            _ => 0b001011,
        };
        let mut buffers = Buffers::zeroed(1_024, 65_536, 262_144, 0);
        for (at, code) in [(0, &main_loop(sub_opcode)[..]), (HANDLER, &handler())] {
            for (bytes, half) in buffers.rom[at..].chunks_mut(2).zip(code) {
                bytes.copy_from_slice(&half.to_le_bytes());
            }
        }
        Bench { operation, buffers, at_reset: vbsys::reset().processor }
    }

    /// What the model has for a word: reg2 after, and PSW, or the trap with its
    /// code and the PSW that it saves.
    fn expected(&self, word: u32) -> (u32, u32, Option<Trap>) {
        let before = psw_before(word);
        match execute(self.operation, BEFORE, word, before) {
            Ok(ended) => (ended.result.expect("a conversion has one"), ended.psw, None),
            Err(trap) => {
                let cause = Cause::Floating(trap);
                (BEFORE, cause.code() << 16 | before | cause.flag(), Some(trap))
            }
        }
    }

    /// Converts the words from `first` on by the library and compares.
    fn convert(&mut self, first: u32, tally: &Tally) {
        let last = first + (WORDS - 1);
        let mut counts = [0; 3];
        let traps = |word: u32| self.expected(word).2.is_some();
        if traps(first) && traps(last) {
            (first..=last).for_each(|word| self.step(word, &mut counts));
        } else {
            self.run(first, &mut counts);
        }
        for (sum, count) in [&tally.ended, &tally.reserved, &tally.invalid].into_iter().zip(counts)
        {
            sum.fetch_add(count, Ordering::Relaxed);
        }
    }

    /// The words from `first` on by the program.
    fn run(&mut self, first: u32, counts: &mut [u64; 3]) {
        let vbsys::Machine { mut processor, drawing } = vbsys::reset();
        (processor.pc, processor.psw) = (ROM, 0);
        for (register, value) in
            [(WORD, first.wrapping_sub(1)), (AT, WRAM), (FILL, BEFORE), (TURNS, WORDS / TURN)]
        {
            processor.regs[usize::from(register)] = value;
        }
        let budget = u64::from(20 * WORDS);
        let ran = vbsys::run(&mut self.buffers.for_library(), processor, drawing, budget);
        let word_of = |bytes: &[u8]| u32::from_le_bytes(bytes.try_into().expect("four bytes"));
        for (word, stored) in (first..=first + (WORDS - 1)).zip(self.buffers.wram.chunks_exact(8)) {
            let (result, status, trap) = self.expected(word);
            let library = (word_of(&stored[..4]), word_of(&stored[4..]));
            assert!(
                library == (result, status),
                "{:?} of {word:08X}: the library has {library:08X?}, the model {:08X?} (reg2, then PSW \
                 or the code and the saved PSW)",
                self.operation,
                (result, status)
            );
            counts[place_of(trap)] += 1;
        }
        // a trap's handler has nine instructions, and one is left out after it
        let traps = counts[1] + counts[2];
        let count = u64::from(WORDS * 6 + WORDS / TURN * 3 + 1) + traps * 8;
        let left = (ran.refusal, ran.count, ran.processor.mode);
        assert_eq!(left, (0, count, vbsys::HALTED), "the run from {first:08X}");
    }

    /// One word by a step.
    fn step(&mut self, word: u32, counts: &mut [u64; 3]) {
        let before = psw_before(word);
        let mut processor = self.at_reset;
        (processor.pc, processor.psw) = (CONVERSION, before);
        processor.regs[usize::from(WORD)] = word;
        processor.regs[usize::from(RESULT)] = BEFORE;
        let drawing = vbsys::Drawing::default();
        let stepped = vbsys::step(&mut self.buffers.for_library(), processor, drawing);
        let (result, status, trap) = self.expected(word);
        let trap = trap.expect("words between two that trap do too");
        let (code, saved) = (status >> 16, status & 0xFFFF);
        let after = &stepped.processor;
        let library = [stepped.refusal, stepped.answer, stepped.code, after.ecr, after.eipsw];
        let more = [after.psw, after.eipc, after.pc, after.regs[usize::from(RESULT)]];
        assert!(
            library == [0, vbsys::TRAPPED, code, code, saved]
                && more == [saved | 0x5000, CONVERSION, 0xFFFF_FF60, result],
            "{:?} of {word:08X}: the library answers {stepped:08X?}, the model {trap:?}",
            self.operation
        );
        counts[place_of(Some(trap))] += 1;
    }
}

/// Where a word is counted.
fn place_of(trap: Option<Trap>) -> usize {
    match trap {
        None => 0,
        Some(Trap::ReservedOperand) => 1,
        Some(_) => 2,
    }
}

fn name(operation: Floating) -> &'static str {
    match operation {
        Floating::FromWord => "CVT.WS",
        Floating::ToWord => "CVT.SW",
        _ => "TRNC.SW",
    }
}

/// A line that is seen though the test passes.
fn say(line: String) {
    let _ = writeln!(std::io::stderr(), "{line}");
}

/// Every `share`th run of words of one conversion, on all cores.
fn convert(operation: Floating, share: u32, says: bool) -> Tally {
    let (begun, tally) = (Instant::now(), Tally::default());
    let next = AtomicU32::new(0);
    let runs = RUNS.div_ceil(share);
    let threads = std::thread::available_parallelism().map_or(2, |cores| cores.get());
    std::thread::scope(|scope| {
        for _ in 0..threads {
            scope.spawn(|| {
                let mut bench = Bench::new(operation);
                loop {
                    let run = next.fetch_add(1, Ordering::Relaxed);
                    if run >= runs {
                        return;
                    }
                    bench.convert(run * share * WORDS, &tally);
                    if says && (run + 1).is_multiple_of((runs / 16).max(1)) {
                        let words = |runs: u32| u64::from(runs) * u64::from(WORDS);
                        let (done, all, name) = (words(run + 1), words(runs), name(operation));
                        let seconds = begun.elapsed().as_secs();
                        say(format!("{name}: {done} of {all} words, {seconds} s"));
                    }
                }
            });
        }
    });
    tally
}

const CONVERSIONS: [Floating; 3] = [Floating::FromWord, Floating::ToWord, Floating::Truncate];

/// Each conversion's ends and traps are all there where the words are spread.
#[test]
fn words_spread_over_all_are_converted() {
    for operation in CONVERSIONS {
        let tally = convert(operation, 1_021, false);
        let [ended, reserved, invalid] =
            [tally.ended, tally.reserved, tally.invalid].map(AtomicU64::into_inner);
        assert_eq!(ended + reserved + invalid, 514 * u64::from(WORDS), "{operation:?}");
        let traps = operation != Floating::FromWord;
        assert!((reserved > 10_000) == traps && (invalid > 1_000_000) == traps, "{operation:?}");
    }
}

/// All 2^32 words of the three conversions, some minutes on two cores:
///
///     cargo test --release --offline -p difftests --test every_word -- --ignored
///
/// With VB_SHARE=N in the environment it takes every Nth run of 8,192 words.
#[test]
#[ignore = "2^32 words three times, asked for by name"]
fn every_word_converted() {
    let share = std::env::var("VB_SHARE").map_or(1, |n| n.parse().expect("VB_SHARE is a number"));
    let begun = Instant::now();
    for operation in CONVERSIONS {
        let tally = convert(operation, share, true);
        let [ended, reserved, invalid] =
            [tally.ended, tally.reserved, tally.invalid].map(AtomicU64::into_inner);
        let words = ended + reserved + invalid;
        say(format!(
            "{}: {words} words compared: {ended} end, {reserved} are reserved operands, {invalid} \
             are invalid; {} s since the start",
            name(operation),
            begun.elapsed().as_secs()
        ));
        if share == 1 {
            // subnormals, infinities and not-a-numbers; sizes from 2^31 on but -2^31
            let traps = match operation {
                Floating::FromWord => (0, 0),
                _ => ((4 << 23) - 2, 2 * 97 * (1 << 23) - 1),
            };
            assert_eq!((words, reserved, invalid), (1 << 32, traps.0, traps.1));
        }
    }
    say(
        "compared for each word: reg2 and PSW after, and of a trap its code and the PSW it saved; \
         for each run: its count and its HALT; for each step: its answer, EIPC and PC"
            .into(),
    );
}
