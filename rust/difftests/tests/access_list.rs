//! A list of accesses in one call (W7): against the library's own single calls and
//! against the model, over dense addresses; the limits of refusal 11.

use difftests::access::{biased_address, biased_value, by_library, timer_address, Call};
use difftests::broken::Broken;
use difftests::machine::{
    expect_same_bytes, hardware_to_library, hardware_to_model, to_library, to_model, Buffers,
    Registers,
};
use difftests::random::Random;
use model::access_list::{Access, ACCESS_LENGTH, MOST_ACCESSES};
use model::Hardware;

/// The list's bytes, as C has them.
fn bytes_of(list: &[Access]) -> Box<[u8]> {
    list.iter().flat_map(|access| access.to_bytes()).collect()
}

/// The bytes as a list; they are a whole number of accesses.
fn accesses_in(bytes: &[u8]) -> Vec<Access> {
    let (accesses, rest) = bytes.as_chunks::<ACCESS_LENGTH>();
    assert!(rest.is_empty());
    accesses.iter().map(Access::from_bytes).collect()
}

/// What a list call left: its number, the registers, the list's bytes.
#[derive(Debug, PartialEq, Eq)]
struct Made {
    refusal: u32,
    registers: Registers,
    list: Box<[u8]>,
}

fn made_by_library(buffers: &mut Buffers, registers: &Registers, list: &[u8]) -> Made {
    let mut list: Box<[u8]> = list.into();
    let drawing = to_library(&registers.drawing);
    let hardware = hardware_to_library(&registers.hardware);
    let stored = vbsys::access_bytes(&mut buffers.for_library(), drawing, hardware, &mut list);
    let registers = Registers {
        drawing: to_model(&stored.drawing),
        hardware: hardware_to_model(&stored.hardware),
    };
    Made { refusal: stored.refusal, registers, list }
}

fn made_by_model(buffers: &mut Buffers, registers: &Registers, list: &[u8]) -> Made {
    let mut list: Box<[u8]> = list.into();
    let Registers { mut drawing, mut hardware } = *registers;
    let memories = &mut buffers.for_model();
    let answer = model::boundary::access_list(memories, &mut drawing, &mut hardware, &mut list);
    let registers = Registers { drawing, hardware };
    Made { refusal: answer.err().unwrap_or(0), registers, list }
}

/// The same accesses made one by one by the library's single calls.
fn made_one_by_one(buffers: &mut Buffers, registers: &Registers, list: &[u8]) -> Made {
    let mut accesses = accesses_in(list);
    let mut registers = *registers;
    for access in &mut accesses {
        let call = match (access.size, access.write != 0) {
            (1, false) => Call::LoadByte,
            (2, false) => Call::LoadHalf,
            (_, false) => Call::LoadWord,
            (1, true) => Call::StoreByte,
            (2, true) => Call::StoreHalf,
            (_, true) => Call::StoreWord,
        };
        let answer = by_library(call, buffers, registers, access.address, access.value);
        assert_eq!(answer.refusal, 0, "{access:X?}");
        registers = answer.registers();
        if access.write == 0 {
            (access.value, access.undefined) = (answer.value, answer.undefined);
        }
    }
    Made { refusal: 0, registers, list: bytes_of(&accesses) }
}

/// Memories held three times.
struct Threefold {
    library: Buffers,
    singles: Buffers,
    model: Buffers,
}

impl Threefold {
    fn random(random: &mut Random, rom: usize, pak: usize) -> Threefold {
        let buffers = Buffers::random(random, rom, pak);
        Threefold { library: buffers.clone(), singles: buffers.clone(), model: buffers }
    }

    /// Makes an accepted list in all three ways and compares; gives what it left.
    fn make(&mut self, registers: &Registers, list: &[Access], what: &dyn Fn() -> String) -> Made {
        let bytes = bytes_of(list);
        let library = made_by_library(&mut self.library, registers, &bytes);
        let singles = made_one_by_one(&mut self.singles, registers, &bytes);
        let model = made_by_model(&mut self.model, registers, &bytes);
        for (name, other) in [("the single calls", &singles), ("the model", &model)] {
            assert_eq!(library.refusal, other.refusal, "{}", what());
            assert_eq!(library.registers, other.registers, "compared with {name}; {}", what());
            let found = accesses_in(&library.list);
            for (number, pair) in found.iter().zip(accesses_in(&other.list)).enumerate() {
                assert_eq!(*pair.0, pair.1, "access {number}, {name}; {}", what());
            }
        }
        self.library.expect_equal(&self.singles, what);
        self.library.expect_equal(&self.model, what);
        library
    }
}

/// A word that says whether an access writes: 0 reads.
fn random_direction(random: &mut Random) -> u32 {
    match random.below(8) {
        0..=3 => 0,
        4 | 5 => 1,
        6 => 1 << random.below(32),
        _ => random.word(),
    }
}

/// An address; dense ones lie so near to each other that reads meet earlier writes.
fn random_address(random: &mut Random, dense: bool, rom: usize, pak: usize) -> u32 {
    if !dense {
        return biased_address(random, rom, pak);
    }
    let low = random.below(12);
    let address = match random.below(8) {
        0 => 0x0500_0100 + low,
        1 => 0x0500_FFFC + low,
        2 => 0x0600_0000 + low,
        3 => 0x0007_8000 + low,
        4 => 0x0000_6000 + low,
        5 => 0x0005_F840 + random.below(0x34),
        6 => 0x0200_0000 + timer_address(random),
        _ => 0x0003_FFF8 + random.below(16),
    };
    match address >> 24 {
        // WRAM repeats every 65,536 bytes, the VIP every 0x80000
        5 => address | random.below(4) << 16 | random.below(32) << 27,
        0 => address | random.below(8) << 19 | random.below(32) << 27,
        _ => address | random.below(32) << 27,
    }
}

fn random_list(
    random: &mut Random,
    length: usize,
    dense: bool,
    rom: usize,
    pak: usize,
) -> Vec<Access> {
    let one = |random: &mut Random| Access {
        address: random_address(random, dense, rom, pak),
        size: random.pick(&[1, 2, 4]),
        write: random_direction(random),
        value: biased_value(random),
        undefined: random.word(),
    };
    (0..length).map(|_| one(random)).collect()
}

/// Lists of every length up to 256, dense and spread, at small and at large pak RAM.
#[test]
fn random_lists() {
    let mut random = Random::new(0x7001_0000);
    let lengths = [(1_024, 0), (1_024, 1), (2_048, 2), (4_096, 4), (1_024, 8_192), (1 << 20, 64)];
    for (rom, pak) in lengths {
        let mut threefold = Threefold::random(&mut random, rom, pak);
        let mut registers = Registers::random(&mut random);
        for number in 0..1_500 {
            let length = match random.below(4) {
                0 => random.below(4) as usize,
                1 => random.below(32) as usize,
                _ => random.below(257) as usize,
            };
            let dense = random.below(4) != 0;
            let list = random_list(&mut random, length, dense, rom, pak);
            let what = || format!("list {number} of {length}, ROM {rom}, pak RAM {pak}");
            registers = threefold.make(&registers, &list, &what).registers;
            if random.one_in(16) {
                registers = Registers::random(&mut random);
            }
        }
    }
}

/// Every byte of the VIP's registers and of the timer's, by each size: a read, a
/// write, a read.
#[test]
fn registers_by_every_size() {
    let mut random = Random::new(0x7002_0000);
    let mut threefold = Threefold::random(&mut random, 1_024, 2);
    let places = (0x0005_F7F8..0x0005_F880).chain(0x0200_0010..0x0200_0028);
    for address in places {
        for size in [1, 2, 4] {
            let registers = Registers::random(&mut random);
            let access = Access { address, size, write: 0, value: random.word(), undefined: 9 };
            let write = Access { write: 1, value: random.word(), ..access };
            let list = [access, write, access];
            threefold.make(&registers, &list, &|| format!("{size} bytes at 0x{address:08X}"));
        }
    }
}

/// Reads answer into their records and see the writes before them; writes leave
/// theirs as given; a byte write carries 16 bits into a register of the VIP.
#[test]
fn worked_list() {
    let read = |size, address| Access { address, size, write: 0, value: 0x5555_5555, undefined: 7 };
    let write = |size, address, value| Access { address, size, write: 1, value, undefined: 7 };
    let mut buffers = Buffers::zeroed(1_024, 65_536, 262_144, 2);
    let list = [
        read(4, 0x0500_0003),
        write(4, 0x0501_0001, 0x1234_5678),
        read(2, 0x0500_0003),
        write(1, 0x0005_F849, 0xFFFF),
        read(2, 0x0005_F848),
        read(4, 0x0005_F844),
        write(4, 0x0600_0000, 0x4433_2211),
        read(1, 0x0600_0000),
        write(1, 0x0200_0018, 0x1234),
        read(4, 0x0A00_001B),
        read(1, 0x0004_0000),
    ];
    let made = made_by_library(&mut buffers, &Registers::default(), &bytes_of(&list));
    assert_eq!(made.refusal, 0);
    let answered = |number: usize, value, undefined| Access { value, undefined, ..list[number] };
    let expected = [
        answered(0, 0, 0),
        list[1],
        answered(2, 0x1234, 0),
        list[3],
        answered(4, 0x3FF, 0),
        answered(5, 2, 0xC),
        list[6],
        answered(7, 0x33, 0),
        list[8],
        answered(9, 0x34, 0),
        answered(10, 0, 1),
    ];
    assert_eq!(accesses_in(&made.list), expected);
    assert_eq!(made.registers.drawing.spt[0], 0x3FF);
    assert_eq!(
        made.registers.hardware,
        Hardware { count: 0x34, reload: 0x34, ..Default::default() }
    );
    assert_eq!(
        (&buffers.wram[..4], &*buffers.pak),
        (&[0x78, 0x56, 0x34, 0x12][..], &[0x33, 0x44][..])
    );
}

/// The list is refused by `number`: no memory, no register and no byte of the list
/// changes.
fn expect_refused(
    buffers: &mut Buffers,
    registers: &Registers,
    list: &[u8],
    number: u32,
    what: &str,
) {
    let before = buffers.clone();
    let made = made_by_library(buffers, registers, list);
    assert_eq!((made.refusal, made.registers), (number, *registers), "{what}");
    expect_same_bytes("the list", &made.list, list, &|| what.into());
    buffers.expect_equal(&before, &|| what.into());
    assert_eq!(made_by_model(&mut buffers.clone(), registers, list), made, "{what}");
}

/// 0, 255, 256 and 257 accesses, and many more.
#[test]
fn lengths_of_lists() {
    let mut random = Random::new(0x7003_0000);
    let mut threefold = Threefold::random(&mut random, 1_024, 4);
    for length in [0, 1, 2, 255, 256] {
        let list = random_list(&mut random, length, true, 1_024, 4);
        let registers = Registers::random(&mut random);
        let made = threefold.make(&registers, &list, &|| format!("{length} accesses"));
        assert_eq!(made.refusal, 0);
        assert!(length != 0 || made.registers == registers);
    }
    for length in [257, 258, 300, 512, 513, 65_792] {
        let list = bytes_of(&random_list(&mut random, length, true, 1_024, 4));
        let registers = Registers::random(&mut random);
        expect_refused(
            &mut threefold.library,
            &registers,
            &list,
            11,
            &format!("{length} accesses"),
        );
    }
}

/// A bad size at the first, a middle and the last place, of a read and of a write,
/// also in a list that is too long.
#[test]
fn sizes() {
    let mut random = Random::new(0x7004_0000);
    let mut buffers = Buffers::random(&mut random, 1_024, 4);
    for size in [0, 3, 5, 6, 7, 8, 16, 0x100, 0x0001_0004, 0x8000_0001, 0xFFFF_FFFF] {
        for length in [1, 2, 3, 100, MOST_ACCESSES, MOST_ACCESSES + 1] {
            for (place, write) in
                [0, length / 2, length - 1].into_iter().flat_map(|place| [(place, 0), (place, 1)])
            {
                let mut list = random_list(&mut random, length, true, 1_024, 4);
                (list[place].size, list[place].write) = (size, write);
                let what = format!("size {size} at {place} of {length}");
                let registers = Registers::random(&mut random);
                expect_refused(&mut buffers, &registers, &bytes_of(&list), 11, &what);
            }
        }
    }
}

/// Lengths in bytes that are no whole number of accesses.
#[test]
fn parts_of_accesses() {
    let mut random = Random::new(0x7005_0000);
    let mut buffers = Buffers::random(&mut random, 1_024, 4);
    let registers = Registers::random(&mut random);
    let list = bytes_of(&random_list(&mut random, 260, true, 1_024, 4));
    for length in (1..20).chain([21, 39, 41, 5_119, 5_121, 5_139, 5_199]) {
        let what = format!("{length} bytes of list");
        expect_refused(&mut buffers, &registers, &list[..length], vbsys::MISUSE, &what);
    }
}

/// Every set of broken conditions 1 to 5, a list whose length is not a whole number of
/// accesses, and 11, each in two ways.
#[test]
fn the_order_of_refusals() {
    let mut random = Random::new(0x7006_0000);
    for broken in Broken::sets(7) {
        let mut buffers = broken.buffers();
        buffers.pak.fill(0x22);
        let mut registers = Registers::random(&mut random);
        match (broken.has(4), broken.way) {
            (true, 0) => registers.hardware.lines |= 0x20,
            (true, _) => registers.drawing.bkcol = 4,
            _ => {}
        }
        let accesses = if broken.has(6) && broken.way == 1 { 257 } else { 3 };
        let mut list = random_list(&mut random, accesses, true, 1_024, 8);
        if broken.has(6) && broken.way == 0 {
            list[2].size = 3;
        }
        let mut bytes = bytes_of(&list).into_vec();
        if broken.has(5) {
            bytes.truncate(bytes.len() - 1);
        }
        let what = broken.to_string();
        match broken.first(&[1, 2, 3, 4, 5, vbsys::MISUSE, 11]) {
            Some(number) => expect_refused(&mut buffers, &registers, &bytes, number, &what),
            None => {
                let made = made_by_library(&mut buffers, &registers, &bytes);
                assert_eq!(made.refusal, 0, "{what}");
            }
        }
        // the empty list tests 1 to 5 alone
        let first = broken.first(&[1, 2, 3, 4, 5]).unwrap_or(0);
        expect_refused(&mut buffers, &registers, &[], first, &what);
    }
}

/// No byte outside the caller's buffers is touched, and ROM is only read.
#[cfg(target_os = "linux")]
#[test]
fn between_fences() {
    use difftests::fence::{sides_and_paks, Fenced, FencedMemories};
    let mut random = Random::new(0x7007_0000);
    for (side, pak) in sides_and_paks() {
        for length in [0, 1, 2, 3, 100, 255, 256, 257] {
            let mut model = Buffers::random(&mut random, 1_024, pak);
            let list = bytes_of(&random_list(&mut random, length, true, 1_024, pak));
            let registers = Registers::random(&mut random);
            let (mut fenced, mut given) =
                (FencedMemories::new(&model, side), Fenced::new(&list, side));
            let drawing = to_library(&registers.drawing);
            let hardware = hardware_to_library(&registers.hardware);
            let stored =
                vbsys::access_bytes(&mut fenced.write(), drawing, hardware, given.bytes_mut());
            let expected = made_by_model(&mut model, &registers, &list);
            assert_eq!(stored.refusal, expected.refusal, "{length} accesses");
            assert!(*given.bytes() == *expected.list);
            fenced.expect_equal(&model);
        }
    }
}
