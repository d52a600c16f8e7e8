//! A list of accesses (W7).

mod common;

use common::Machine;
use model::access_list::{access_list, Access, ACCESS_LENGTH};
use model::Refusal;

fn machine(pak: usize) -> Machine {
    let mut machine = Machine::zeroed(pak);
    machine.rom.fill(7);
    machine
}

fn make(machine: &mut Machine, list: &mut [Access]) -> Result<(), Refusal> {
    let (mut memories, processor, drawing) = machine.borrowed();
    access_list(&mut memories, drawing, &mut processor.hardware, list)
}

fn read(size: u32, address: u32) -> Access {
    Access { address, size, write: 0, value: 0x5555_5555, undefined: 0x77 }
}

fn write(size: u32, address: u32, value: u32) -> Access {
    Access { address, size, write: 1, value, undefined: 0x77 }
}

#[test]
fn reads_see_the_writes_before_them() {
    let mut machine = machine(2);
    let mut list = [
        read(4, 0x0500_0003),
        write(4, 0x0501_0001, 0x1234_5678),
        read(2, 0x0500_0003),
        write(1, 0x0005_F849, 0xFFFF),
        read(2, 0x0005_F848),
        read(4, 0x0005_F844),
        write(4, 0x0600_0000, 0x4433_2211),
        read(1, 0x0600_0000),
        write(1, 0x0200_0018, 0x34),
        read(4, 0x0A00_0018),
        read(1, 0x0700_0000),
    ];
    let before = list;
    make(&mut machine, &mut list).unwrap();
    for (number, value, undefined) in [
        (0, 0, 0),
        (2, 0x1234, 0),
        (4, 0x3FF, 0),
        (5, 2, 0xC),
        (7, 0x33, 0),
        (9, 0x34, 0),
        (10, 7, 0),
    ] {
        let expected = Access { value, undefined, ..before[number] };
        assert_eq!(list[number], expected, "access {number}");
    }
    for number in [1, 3, 6, 8] {
        assert_eq!(list[number], before[number], "a write stays as given");
    }
    assert_eq!(machine.drawing.spt[0], 0x3FF);
    assert_eq!((machine.processor.hardware.count, machine.processor.hardware.reload), (0x34, 0x34));
    assert_eq!(machine.pak, [0x33, 0x44]);
}

#[test]
fn any_number_but_0_writes() {
    let mut machine = machine(0);
    for (number, word) in [1, 2, 0x8000_0000, 0xFFFF_FFFF].into_iter().enumerate() {
        let address = 0x0500_0000 + number as u32;
        let access = Access { address, size: 1, write: word, value: 0xA5, undefined: 0 };
        make(&mut machine, &mut [access]).unwrap();
        assert_eq!(machine.wram[number], 0xA5);
    }
}

#[test]
fn refused_lists() {
    let mut machine = machine(0);
    assert_eq!(make(&mut machine, &mut []), Ok(()));
    let good = write(4, 0x0500_0000, 0x1111_1111);
    assert_eq!(make(&mut machine, &mut [read(1, 0); 256]), Ok(()));
    assert_eq!(make(&mut machine, &mut [good; 257]), Err(Refusal::AccessList));
    for size in [0, 3, 5, 8, 0xFFFF_FFFF] {
        for bad in [read(size, 0x0500_0000), write(size, 0x0500_0000, 0)] {
            let mut list = [good, good, bad];
            assert_eq!(make(&mut machine, &mut list), Err(Refusal::AccessList), "size {size}");
            assert_eq!(list, [good, good, bad]);
            assert_eq!(machine.wram[0], 0);
        }
    }
    machine.processor.hardware.control = 4;
    assert_eq!(make(&mut machine, &mut [good; 257]), Err(Refusal::Register));
    machine.pak = vec![0; 3];
    assert_eq!(make(&mut machine, &mut [good; 257]), Err(Refusal::PakLength));
}

#[test]
fn five_little_endian_words() {
    let access = Access { address: 0x0403_0201, size: 4, write: 1, value: 2, undefined: 3 };
    let bytes = access.to_bytes();
    assert_eq!(bytes.len(), ACCESS_LENGTH);
    assert_eq!(bytes[..5], [1, 2, 3, 4, 4]);
    assert_eq!((bytes[8], bytes[12], bytes[16]), (1, 2, 3));
    assert_eq!(Access::from_bytes(&bytes), access);
}
