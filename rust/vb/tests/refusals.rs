//! Every refusal through the library: its number, and what its text names.

use vb::{Drawing, Machine, Memories, Probe, Processor, Refusal, Width};

/// The refusal of a step with these lengths and this machine, nothing changed by it.
fn refused(lengths: [usize; 4], mut machine: Machine) -> Refusal {
    let [rom, wram, vram, pak] = lengths;
    let rom = vec![1; rom];
    let (mut wram, mut vram, mut pak) = (vec![2; wram], vec![3; vram], vec![4; pak]);
    let before = machine;
    let mut memories = Memories { rom: &rom, wram: &mut wram, vram: &mut vram, pak: &mut pak };
    let refusal = machine.step(&mut memories).unwrap_err();
    assert_eq!(machine.run(&mut memories, 0), Err(refusal.clone()));
    assert_eq!(machine, before);
    assert!(
        wram.iter().all(|&b| b == 2) && vram.iter().all(|&b| b == 3) && pak.iter().all(|&b| b == 4)
    );
    refusal
}

const GOOD: [usize; 4] = [1024, 65536, 262144, 0];

#[test]
fn lengths() {
    for (lengths, number, text) in [
        ([512, 65536, 262144, 0], 1, "refusal 1: ROM has 512 bytes; its length must be a power of two from 1,024 to 16,777,216"),
        ([1024, 65535, 262144, 0], 2, "refusal 2: WRAM has 65,535 bytes; it must have 65,536"),
        ([1024, 65536, 262145, 0], 3, "refusal 3: VRAM has 262,145 bytes; it must have 262,144"),
        ([1024, 65536, 262144, 3], 4, "refusal 4: pak RAM has 3 bytes; its length must be 0 or a power of two up to 16,777,216"),
        ([0, 0, 0, 3], 1, "refusal 1: ROM has 0 bytes; its length must be a power of two from 1,024 to 16,777,216"),
        ([1024, 0, 0, 3], 2, "refusal 2: WRAM has 0 bytes; it must have 65,536"),
    ] {
        let refusal = refused(lengths, Machine::reset());
        assert_eq!((refusal.number(), refusal.to_string()), (number, text.to_string()));
    }
}

#[test]
fn registers() {
    type Change = fn(&mut Processor, &mut Drawing);
    let rows: [(Change, &str); 17] = [
        (|p, _| p.regs[0] = 1, "general register 0 is 0x00000001; it must be 0"),
        (|p, _| p.pc = 3, "PC is 0x00000003; it must be even"),
        (|p, _| p.eipc = 1, "EIPC is 0x00000001; it must be even"),
        (|p, _| p.fepc = 1, "FEPC is 0x00000001; it must be even"),
        (|p, _| p.sr25 = 1, "system register 25 is 0x00000001; it must be even"),
        (|p, _| p.eipsw = 0x400, "EIPSW is 0x00000400; it may have bits of 0x000FF3FF only"),
        (|p, _| p.fepsw = 0x800, "FEPSW is 0x00000800; it may have bits of 0x000FF3FF only"),
        (|p, _| p.psw = 0x10_0000, "PSW is 0x00100000; it may have bits of 0x000FF3FF only"),
        (
            |p, _| p.sr31 = 0x8000_0001,
            "system register 31 is 0x80000001; it must be at most 0x80000000",
        ),
        (|_, d| d.spt[3] = 0x400, "SPT3 is 0x00000400; it must be at most 0x3FF (10 bits)"),
        (|_, d| d.gplt[2] = 0x100, "GPLT2 is 0x00000100; it must be at most 0xFF (8 bits)"),
        (|_, d| d.jplt[0] = 0x1FF, "JPLT0 is 0x000001FF; it must be at most 0xFF (8 bits)"),
        (|_, d| d.bkcol = 4, "BKCOL is 0x00000004; it must be at most 3 (2 bits)"),
        (|p, _| p.hardware.lines = 32, "lines is 0x00000020; it must be at most 0x1F (5 lines)"),
        (|p, _| p.hardware.control = 0x04, "control is 0x00000004; it may have bits of 0x1B only"),
        (|p, _| p.hardware.control = 0x20, "control is 0x00000020; it may have bits of 0x1B only"),
        (|p, _| p.hardware.control = 0x3B, "control is 0x0000003B; it may have bits of 0x1B only"),
    ];
    for (change, text) in rows {
        let mut machine = Machine::reset();
        change(&mut machine.processor, &mut machine.drawing);
        let refusal = refused(GOOD, machine);
        assert_eq!((refusal.number(), refusal.to_string()), (5, format!("refusal 5: {text}")));
    }
}

#[test]
fn drawing_calls() {
    let drawing = Drawing::default();
    let wide = Drawing { bkcol: 4, ..drawing };
    let (mut vram, mut short) = (vec![0; 262144], vec![0; 262143]);
    for (done, number, text) in [
        (drawing.draw_strip(&mut vram, 0, 28), 8, "strip 28 was asked for; strips are 0 to 27"),
        (drawing.draw_strip(&mut vram, 2, 28), 7, "frame 2 was asked for; frames are 0 and 1"),
        (drawing.draw_frame(&mut vram, 2), 7, "frame 2 was asked for; frames are 0 and 1"),
        (wide.draw_frame(&mut vram, 2), 5, "BKCOL is 0x00000004; it must be at most 3 (2 bits)"),
        (wide.draw_strip(&mut short, 2, 28), 3, "VRAM has 262,143 bytes; it must have 262,144"),
    ] {
        let refusal = done.unwrap_err();
        assert_eq!(refusal.to_string(), format!("refusal {number}: {text}"));
    }
    assert!(vram.iter().chain(&short).all(|&byte| byte == 0));
    assert!(vb::character(&vram, 2047).is_ok());
    let text = vb::character(&vram, 2048).unwrap_err().to_string();
    assert_eq!(text, "refusal 8: character 2048 was asked for; characters are 0 to 2,047");
    assert_eq!(vb::character(&short, 2048).unwrap_err().number(), 3);
}

/// A probe's write, nothing changed where it is refused.
fn probed(lengths: [usize; 4], width: Width, address: u32) -> Result<Vec<u8>, Refusal> {
    let [rom, wram, vram, pak] = lengths;
    let rom = vec![1; rom];
    let (mut wram, mut vram, mut pak) = (vec![2; wram], vec![3; vram], vec![4; pak]);
    let mut memories = Memories { rom: &rom, wram: &mut wram, vram: &mut vram, pak: &mut pak };
    let done = memories.probe(width, address, 0x0A0B_0C0D);
    assert!(wram.iter().all(|&b| b == 2) && pak.iter().all(|&b| b == 4));
    assert!(done.is_ok() || vram.iter().all(|&b| b == 3));
    done.map(|()| vram)
}

#[test]
fn the_probe_refuses_1_to_4_and_then_13() {
    for (lengths, number) in [
        ([512, 0, 0, 3], 1),
        ([1024, 0, 0, 3], 2),
        ([1024, 65536, 0, 3], 3),
        ([1024, 65536, 262144, 3], 4),
        (GOOD, 13),
    ] {
        let refusal = probed(lengths, Width::Word, 0x0005_F848).unwrap_err();
        assert_eq!(refusal.number(), number);
    }
    let text = probed(GOOD, Width::Half, 0x0703_8001).unwrap_err().to_string();
    assert_eq!(
        text,
        "refusal 13: the probe was to write at 0x07038001; it may write characters 1,536 to 2,047 and background maps \
         12 and 13, at 0x0001E000 to 0x0001FFFF, 0x00038000 to 0x0003BFFF and their mirrors"
    );
}

#[test]
fn the_probe_writes_by_true_address_and_mirror() {
    let written = [0x0D, 0x0C, 0x0B, 0x0A];
    for (width, bytes, address, at) in [
        (Width::Byte, 1, 0x0001_E000, Some(0x1_E000)),
        (Width::Byte, 1, 0x0001_DFFF, None),
        (Width::Word, 4, 0x0001_FFFF, Some(0x1_FFFC)),
        (Width::Byte, 1, 0x0002_0000, None),
        (Width::Byte, 1, 0x0003_7FFF, None),
        (Width::Half, 2, 0x0003_8001, Some(0x3_8000)),
        (Width::Word, 4, 0x0003_BFFF, Some(0x3_BFFC)),
        (Width::Byte, 1, 0x0003_C000, None),
        (Width::Byte, 1, 0x0007_DFFF, None),
        (Width::Byte, 1, 0x0007_E000, Some(0x1_E000)),
        (Width::Byte, 1, 0x0007_FFFF, Some(0x1_FFFF)),
        (Width::Byte, 1, 0x0009_E000, Some(0x1_E000)),
        (Width::Byte, 1, 0x00FF_E000, Some(0x1_E000)),
        (Width::Byte, 1, 0xF803_8000, Some(0x3_8000)),
        (Width::Byte, 1, 0x0103_8000, None),
    ] {
        let done = probed(GOOD, width, address);
        let Some(at) = at else {
            assert_eq!(done, Err(Refusal::ProbeTarget { address }));
            continue;
        };
        let mut expected = vec![3; 262144];
        expected[at..at + bytes].copy_from_slice(&written[..bytes]);
        assert!(done == Ok(expected), "0x{address:08X}");
    }
}

#[test]
fn numbers_are_grouped_by_thousands() {
    for (number, text) in [(0, "0"), (999, "999"), (1000, "1,000"), (16_777_216, "16,777,216")] {
        assert_eq!(vb::grouped(number), text);
    }
}
