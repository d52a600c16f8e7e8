//! The table: for every call and every refusal number that it tests, the values on
//! both sides of each limit, as 01 "Refusal numbers" and the change requests print
//! them.

use crate::base::{due, put_instruction};
use crate::calls::{Call, Given};
use crate::{instructions, records};
use difftests::access;
use difftests::program::{half, BIT_STRING, CAXI, HALT, LDSR, SEI, STSR};
use model::instruction::Width;
use model::saved::Form;

const MIB16: usize = 16_777_216;
const MISUSE: u32 = vbsys::MISUSE;

type Change = Box<dyn Fn(&mut Given)>;

/// A value of one argument, and whether it is refused by the number.
pub struct Row {
    pub number: u32,
    pub refused: bool,
    pub what: String,
    /// Whether it has megabytes; such rows are tried alone only.
    pub large: bool,
    pub change: Change,
}

/// All calls, each with the numbers that it tests, in their order.
pub fn calls() -> Vec<(Call, Vec<u32>)> {
    let bus = |call| (Call::Bus(call), vec![1, 2, 3, 4, 5]);
    let probe = |width| (Call::Probe(width), vec![1, 2, 3, 4, 13]);
    let mut calls: Vec<_> = access::CALLS.map(bus).into();
    calls.extend([Width::Byte, Width::Half, Width::Word].map(probe));
    calls.extend([
        (Call::Step, vec![1, 2, 3, 4, 5, MISUSE, 6]),
        (Call::Run, vec![1, 2, 3, 4, 5, MISUSE, 6]),
        (Call::Tick, vec![5]),
        (Call::DrawStrip, vec![3, 5, 7, 8]),
        (Call::DrawFrame, vec![3, 5, 7]),
        (Call::Character, vec![3, 8]),
        (Call::PixelBytes, vec![3, 5, MISUSE]),
        (Call::WriteState(Form::One), vec![1, 2, 3, 4, 5, MISUSE, 9, 16]),
        (Call::WriteState(Form::Two), vec![1, 2, 3, 4, 5, MISUSE, 9]),
        (Call::ReadState, vec![1, 2, 3, 4, 5, MISUSE, 9, 10]),
        (Call::MoveState, vec![9, 10, 16]),
        (Call::SalvageState, vec![9, 17]),
        (Call::Display, vec![3, 7, 15]),
        (Call::LoadColumnTable, vec![3]),
        (Call::Encode, vec![12]),
        (Call::Decode, vec![6]),
        (Call::AccessList, vec![1, 2, 3, 4, 5, MISUSE, 11]),
        (Call::Replay, vec![1, 2, 3, 4, 5, MISUSE, 14, 6]),
    ]);
    calls
}

/// Rows of one argument: what it may be, and what it may not.
pub fn rows<T: Copy + std::fmt::Debug + 'static>(
    number: u32,
    what: &str,
    accepted: &[T],
    refused: &[T],
    set: fn(&mut Given, T),
) -> Vec<Row> {
    let row = |value: T, refused: bool| Row {
        number,
        refused,
        what: format!("{what} {value:X?}"),
        large: false,
        change: Box::new(move |given| set(given, value)),
    };
    let allowed = accepted.iter().map(|&value| row(value, false));
    allowed.chain(refused.iter().map(|&value| row(value, true))).collect()
}

/// Rows of a length in bytes.
fn lengths(
    number: u32,
    what: &str,
    accepted: &[usize],
    refused: &[usize],
    set: fn(&mut Given, usize),
) -> Vec<Row> {
    let mut all = rows(number, what, accepted, refused, set);
    for (row, &length) in all.iter_mut().zip(accepted.iter().chain(refused)) {
        row.large = length > 1_000_000;
        row.what = format!("{what} of {length} bytes");
    }
    all
}

/// The same bytes, cut or lengthened with zeros.
fn resize(bytes: &mut Box<[u8]>, length: usize) {
    let mut longer = std::mem::take(bytes).into_vec();
    longer.resize(length, 0);
    *bytes = longer.into_boxed_slice();
}

/// The rows of a call's number.
pub fn rows_of(call: Call, number: u32, base: &Given) -> Vec<Row> {
    match (number, call) {
        (1..=4, _) => memory_rows(call, number),
        (5, _) => records::record_rows(call),
        (6, Call::Decode) => rows(6, "halfword", &MODELLED, &NOT_MODELLED, |given, first| {
            given.halfwords[0] = first;
        }),
        (6, _) => instruction_rows(call),
        (7, _) => rows(7, "frame", &[0, 1], &[2, 3, 256, u32::MAX], |given, n| given.frame = n),
        (8, Call::Character) => {
            let refused = [2_048, 4_096, 65_536, u32::MAX];
            let set = |given: &mut Given, n| given.character = n;
            rows(8, "character", &[0, 511, 512, 2_047], &refused, set)
        }
        (8, _) => rows(8, "strip", &[0, 27], &[28, 31, 256, u32::MAX], |given, n| given.strip = n),
        (9, _) => length_rows(call, base),
        (10, _) => records::file_rows(base),
        (11, _) => list_rows(),
        (12, _) => instructions::rows(),
        (13, Call::Probe(width)) => probe_rows(width),
        (14, _) => lengths(14, "trace", &[0, 16, 32], &[1, 15, 17, 31, 33], |given, length| {
            given.trace.resize(length, 0);
        }),
        (15, _) => display_rows(),
        (16, _) => records::reset_rows(call),
        (17, _) => layout_rows(),
        (MISUSE, _) => misuse_rows(call),
        _ => unreachable!("{call:?} does not test {number}"),
    }
}

fn memory_rows(call: Call, number: u32) -> Vec<Row> {
    match number {
        1 => {
            let refused = [0, 1, 512, 1_023, 1_025, 1_536, 2_047, 2_049];
            let large = [MIB16 - 1, MIB16 + 1, 2 * MIB16];
            let all = [&refused[..], &large].concat();
            lengths(1, "ROM", &[1_024, 2_048, MIB16], &all, |given, length| {
                resize(&mut given.buffers.rom, length);
            })
        }
        2 => lengths(2, "WRAM", &[65_536], &[0, 65_535, 65_537, 131_072], |given, length| {
            resize(&mut given.buffers.wram, length);
        }),
        3 => lengths(3, "VRAM", &[262_144], &[0, 262_143, 262_145, 524_288], |given, length| {
            resize(&mut given.buffers.vram, length);
        }),
        _ => {
            let accepted = [0, 1, 2, 4, 8_192, MIB16 / 2, MIB16];
            let refused = [3, 5, 24, 8_191, 8_193, MIB16 - 1, MIB16 + 1, 2 * MIB16];
            let mut all = lengths(4, "pak RAM", &accepted, &refused, |given, length| {
                resize(&mut given.buffers.pak, length);
            });
            // a saved state's length follows pak RAM's, where that is legal
            for row in all.iter_mut().filter(|row| !row.refused) {
                let resized = std::mem::replace(&mut row.change, Box::new(|_| {}));
                row.change = Box::new(move |given| {
                    resized(given);
                    given.make_files(call);
                });
            }
            all
        }
    }
}

/// First halfwords that are modelled, next to those that are not.
const MODELLED: [u16; 9] = [
    HALT,
    SEI,
    half(LDSR, 1, 23),
    half(LDSR, 1, 25),
    half(STSR, 1, 23),
    half(STSR, 1, 25),
    half(0b111001, 1, 2),
    half(0b111011, 1, 2),
    half(0b011011, 0, 0),
];
/// 01: "bit strings, CAXI and system register 24 are left out".
const NOT_MODELLED: [u16; 9] = [
    BIT_STRING,
    half(0b011111, 0, 7),
    half(0b011111, 31, 8),
    half(0b011111, 0, 16),
    half(0b011111, 31, 31),
    CAXI,
    half(0b111010, 31, 31),
    half(LDSR, 1, 24),
    half(STSR, 31, 24),
];

/// Refusal 6 of a machine: the instruction at PC, in running mode, where no interrupt
/// is accepted and a step is asked for.
fn instruction_rows(call: Call) -> Vec<Row> {
    let mut all = rows(6, "instruction", &MODELLED, &NOT_MODELLED, put_instruction);
    type Reason = (&'static str, fn(&mut Given));
    let reasons: [Reason; 4] = [
        ("halted", |given| given.processor.mode = vbsys::HALTED),
        ("fatal", |given| given.processor.mode = vbsys::FATAL),
        ("an accepted interrupt", |given| given.processor.hardware.lines = vbsys::LINE_VIP),
        ("no step", |given| (given.budget, given.trace) = (0, Vec::new())),
    ];
    // a step cannot be asked for nothing
    let count = if call == Call::Step { 3 } else { 4 };
    for (what, change) in reasons.into_iter().take(count) {
        all.push(Row {
            number: 6,
            refused: false,
            what: format!("an instruction that is not modelled, and {what}"),
            large: false,
            change: Box::new(move |given| {
                put_instruction(given, BIT_STRING);
                change(given);
            }),
        });
    }
    all
}

/// Refusal 9: the output's length, and the file's.
fn length_rows(call: Call, base: &Given) -> Vec<Row> {
    let (file, output) = (base.file.len(), base.output.len());
    let other = [Form::One, Form::Two].map(|form| due(form, base.buffers.pak.len()));
    let near = |length: usize| {
        let all = [0, 1, length - 1, length + 1, length + 2, other[0], other[1]];
        all.into_iter().filter(|&other| other != length).collect::<Vec<_>>()
    };
    let set_output = |given: &mut Given, length| given.output.resize(length, 0xA5);
    let set_file = |given: &mut Given, length| given.file.resize(length, 0);
    match call {
        Call::ReadState => lengths(9, "file", &[file], &near(file), set_file),
        Call::MoveState => {
            let mut all = lengths(9, "output", &[output], &near(output), set_output);
            all.extend(lengths(9, "file", &[file], &near(file), set_file));
            all
        }
        // it compares the output with the file, whose length 17 changes
        Call::SalvageState => rows(9, "bytes more", &[0], &[1, -1, 14, -14], |given, more| {
            let length = given.output.len().checked_add_signed(more).unwrap_or(14);
            given.output.resize(length, 0xA5);
        }),
        _ => lengths(9, "output", &[output], &near(output), set_output),
    }
}

/// Refusal 11: how many accesses, and the size of each.
fn list_rows() -> Vec<Row> {
    let mut all = rows(11, "accesses", &[0, 1, 255, 256], &[257, 300], |given, count: usize| {
        let access = given.list[..20].to_vec();
        given.list = access.repeat(count);
    });
    let places = [0usize, 1, 2];
    let sizes = |sizes: &[u32]| -> Vec<(usize, u32)> {
        places.iter().flat_map(|&place| sizes.iter().map(move |&size| (place, size))).collect()
    };
    let (accepted, refused) = (sizes(&[1, 2, 4]), sizes(&[0, 3, 5, 8, u32::MAX]));
    all.extend(rows(11, "place and size", &accepted, &refused, |given, (place, size)| {
        given.list[20 * place + 4..20 * place + 8].copy_from_slice(&size.to_le_bytes());
    }));
    all
}

/// Refusal 13: both ends of each range, by its own addresses and by mirrors.
fn probe_rows(width: Width) -> Vec<Row> {
    let bytes = width.bytes();
    let ranges = [(0x1E000, 0x20000), (0x38000, 0x3C000), (0x7E000, 0x80000)];
    let mirrors = [0, 0x80000, 0xF8_0000, 0xF800_0000];
    let all = |(first, end): (u32, u32)| mirrors.map(|mirror| (mirror + first, mirror + end));
    let ranges: Vec<(u32, u32)> = ranges.into_iter().flat_map(all).collect();
    let inside =
        ranges.iter().flat_map(|(first, end)| [*first, first + bytes, end - bytes, end - 1]);
    let outside = ranges.iter().flat_map(|(first, end)| [first - 1, *end]);
    let elsewhere = [0x5F848, 0x0101_E000, 0x0200_0020, 0x0501_E000, 0x0601_E000, 0x0701_E000];
    let refused: Vec<u32> = outside.chain(elsewhere).collect();
    let set = |given: &mut Given, address| given.address = address;
    rows(13, "address", &inside.collect::<Vec<_>>(), &refused, set)
}

/// Refusal 15: eye, start, the output's length.
fn display_rows() -> Vec<Row> {
    let set_eye = |given: &mut Given, eye| given.pixel[0] = eye;
    let mut all = rows(15, "eye", &[0, 1], &[2, 256, u32::MAX], set_eye);
    let set_start = |given: &mut Given, start| given.start = start;
    all.extend(rows(15, "start", &[95, 96, 254, 255], &[0, 94, 256, u32::MAX], set_start));
    let refused = [0, 1, 86_015, 86_017, 172_032];
    all.extend(lengths(15, "output", &[86_016], &refused, |given, length| {
        given.output.resize(length, 0xA5);
    }));
    all
}

/// Refusal 17: lengths that form 2 has, and lengths that it has not.
fn layout_rows() -> Vec<Row> {
    let accepted = [0, 1, 2, 4, 32, 8_192, MIB16].map(|pak| due(Form::Two, pak));
    let least = due(Form::Two, 0);
    let refused = [0, 1, 76, least - 1, least + 1, 327_976, 327_979, 327_981, 328_000];
    let large = [327_976 + MIB16 - 1, 327_976 + MIB16 + 1, 327_976 + 2 * MIB16];
    lengths(17, "file and output", &accepted, &[&refused[..], &large].concat(), |given, length| {
        given.file.resize(length, 0);
        given.output.resize(length, 0xA5);
    })
}

/// VB_MISUSE: what only the C interface can express.
fn misuse_rows(call: Call) -> Vec<Row> {
    match call {
        Call::PixelBytes => {
            let accepted = [[0, 0, 0], [1, 383, 223], [0, 383, 0], [1, 0, 223]];
            let mut refused = vec![[2, 383, 223], [0, 384, 223], [1, 0, 224]];
            refused.extend((0..3).map(|n| {
                let mut pixel = [0; 3];
                pixel[n] = u32::MAX;
                pixel
            }));
            rows(MISUSE, "pixel", &accepted, &refused, |given, pixel| given.pixel = pixel)
        }
        Call::AccessList => {
            rows(MISUSE, "bytes more", &[0isize, 20, -20], &[1, -1, 19, -19, 21], |given, more| {
                let length = given.list.len().strict_add_signed(more);
                given.list = given.list.iter().copied().cycle().take(length).collect();
            })
        }
        _ => rows(
            MISUSE,
            "mode",
            &[0, 1, 2],
            &[3, 4, 255, 256, 0x8000_0000, u32::MAX],
            |given, n| {
                given.processor.mode = n;
            },
        ),
    }
}
