//! Lists of accesses through the library: against single calls, and every refusal.

mod common;

use common::Bench;
use vb::{read, write, Access, Machine, ReadMemories, Refusal};

/// The access made by a single call.
fn single(machine: &mut Machine, bench: &mut Bench, access: &mut Access) {
    let Access { address, size, write, value, .. } = *access;
    if write != 0 {
        let mut memories = bench.memories();
        match size {
            1 => machine.store_byte(&mut memories, address, value),
            2 => machine.store_half(&mut memories, address, value),
            _ => machine.store_word(&mut memories, address, value),
        }
        .unwrap();
        return;
    }
    let Bench { rom, wram, vram, pak } = &*bench;
    let memories = &ReadMemories { rom, wram, vram, pak };
    (access.value, access.undefined) = match size {
        1 => machine.read_byte(memories, address).map(|r| (r.value.into(), r.undefined.bits())),
        2 => machine.read_half(memories, address).map(|r| (r.value.into(), r.undefined.bits())),
        _ => machine.read_word(memories, address).map(|r| (r.value, r.undefined.bits())),
    }
    .unwrap();
}

#[test]
fn a_list_is_its_single_calls() {
    let places = [0x0500_0000, 0x0500_FFFE, 0x0600_0001, 0x0005_F848, 0x0005_F82C, 0x0007_8001];
    let mut list = Vec::new();
    for (i, place) in (0u32..).zip(places) {
        for size in [1, 2, 4] {
            list.push(write(place + size % 3, size, 0x89AB_CDEF ^ i << 8 ^ size));
            list.push(read(place, size));
        }
    }
    for pak in [0, 1, 2, 8_192] {
        let (mut first, mut second) = (Bench::of(pak, 7), Bench::of(pak, 7));
        let (mut one, mut other) = (Machine::reset(), Machine::reset());
        let mut singles = list.clone();
        singles.iter_mut().for_each(|access| single(&mut other, &mut second, access));
        let mut whole = list.clone();
        one.access_list(&mut first.memories(), &mut whole).unwrap();
        assert_eq!((whole, one), (singles, other));
        assert_eq!(first.bytes(), second.bytes());
    }
}

#[test]
fn a_read_sees_the_writes_before_it() {
    let mut bench = Bench::of(0, 7);
    let mut list = [
        write(0x0500_0010, 4, 0x1122_3344),
        read(0x0501_0011, 2),
        write(0x0500_0011, 1, 0xFF),
        read(0x0500_0010, 4),
    ];
    Machine::reset().access_list(&mut bench.memories(), &mut list).unwrap();
    assert_eq!([list[1].value, list[3].value], [0x3344, 0x1122_FF44]);
}

#[test]
fn refusals_are_reported_and_nothing_changes() {
    let mut bench = Bench::of(0, 7);
    let before = bench.bytes().map(<[u8]>::to_vec);
    let mut machine = Machine::reset();
    let given = vec![write(0x0500_0000, 4, 1); 257];
    let mut list = given.clone();
    let refused = machine.access_list(&mut bench.memories(), &mut list).unwrap_err();
    assert_eq!(refused, Refusal::TooManyAccesses { given: 257 });
    assert_eq!(refused.to_string(), "refusal 11: the list has 257 accesses; it may have up to 256");
    machine.access_list(&mut bench.memories(), &mut []).unwrap();
    for (index, size) in [(0, 0), (100, 3), (255, 8), (255, u32::MAX)] {
        let mut list = given[..256].to_vec();
        list[index].size = size;
        let refused = machine.access_list(&mut bench.memories(), &mut list).unwrap_err();
        assert_eq!(refused, Refusal::AccessSize { index, given: size });
        assert_eq!(refused.number(), 11);
    }
    assert_eq!(list, given);
    assert_eq!(before.each_ref().map(Vec::as_slice), bench.bytes());
    bench.wram.pop();
    let refused = machine.access_list(&mut bench.memories(), &mut list).unwrap_err();
    assert_eq!(refused, Refusal::WramLength { given: 65_535 });
}
