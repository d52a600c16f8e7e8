//! The safe crate as a bench uses it: step, run, load, store, draw, look up.

use vb::{
    Answer, Cause, Drawing, Hardware, Machine, Memories, Mode, Processor, ReadMemories,
    RecordError, Stop,
};

/// A ROM of 1,024 bytes whose reset address holds these halfwords.
fn rom(code: &[u16]) -> Vec<u8> {
    let mut rom = vec![0; 1024];
    for (i, half) in code.iter().enumerate() {
        rom[0x3F0 + 2 * i..0x3F2 + 2 * i].copy_from_slice(&half.to_le_bytes());
    }
    rom
}

struct Buffers {
    rom: Vec<u8>,
    wram: Vec<u8>,
    vram: Vec<u8>,
    pak: Vec<u8>,
}

impl Buffers {
    fn with(code: &[u16]) -> Buffers {
        Buffers {
            rom: rom(code),
            wram: vec![0; vb::WRAM_LENGTH],
            vram: vec![0; vb::VRAM_LENGTH],
            pak: Vec::new(),
        }
    }

    fn memories(&mut self) -> Memories<'_> {
        Memories { rom: &self.rom, wram: &mut self.wram, vram: &mut self.vram, pak: &mut self.pak }
    }

    fn read(&self) -> ReadMemories<'_> {
        ReadMemories { rom: &self.rom, wram: &self.wram, vram: &self.vram, pak: &self.pak }
    }
}

const HALT: u16 = 0x6800;
const ADD_1_R1: u16 = 0x4421;
const DIV_R0_R0: u16 = 0x2400;
const ILLEGAL: u16 = 0x6C00;
const TRAP_17: u16 = 0x6011;
const BIT_STRING: u16 = 0x7C00;

/// A machine at the reset address with NP and EP clear.
fn calm() -> Machine {
    let mut machine = Machine::reset();
    machine.processor.psw = 0;
    machine
}

#[test]
fn reset_is_paper_01s() {
    let Machine { processor, drawing } = Machine::reset();
    assert_eq!((processor.pc, processor.ecr, processor.psw), (0xFFFF_FFF0, 0xFFF0, 0x8000));
    assert_eq!((processor.mode, processor.regs), (Mode::Running, [0; 32]));
    assert_eq!(drawing, Drawing::default());
}

#[test]
fn a_step_answers_what_it_did() {
    for (code, expected, pc) in [
        (ADD_1_R1, Answer::Ended, 0xFFFF_FFF2),
        (HALT, Answer::Ended, 0xFFFF_FFF2),
        (DIV_R0_R0, Answer::Trapped(Cause::ZeroDivisor), 0xFFFF_FF80),
        (ILLEGAL, Answer::Trapped(Cause::Illegal), 0xFFFF_FF90),
        (TRAP_17, Answer::Trapped(Cause::Trap(17)), 0xFFFF_FFB0),
    ] {
        let (mut buffers, mut machine) = (Buffers::with(&[code]), calm());
        assert_eq!(machine.step(&mut buffers.memories()), Ok(expected), "0x{code:04X}");
        assert_eq!(machine.processor.pc, pc, "0x{code:04X}");
        if let Answer::Trapped(cause) = expected {
            assert_eq!(machine.processor.ecr & 0xFFFF, cause.code());
        }
    }
    let (mut buffers, mut machine) = (Buffers::with(&[TRAP_17]), Machine::reset());
    let fatal = Answer::TurnedFatal(Cause::Trap(17));
    assert_eq!(machine.step(&mut buffers.memories()), Ok(fatal));
    assert_eq!(machine.step(&mut buffers.memories()), Ok(Answer::WasFatal));
    machine.processor.mode = Mode::Halted;
    assert_eq!(machine.step(&mut buffers.memories()), Ok(Answer::WasHalted));
}

#[test]
fn a_run_says_why_it_ended() {
    let mut buffers = Buffers::with(&[ADD_1_R1, ADD_1_R1, HALT]);
    let mut machine = calm();
    let ran = machine.run(&mut buffers.memories(), 2).unwrap();
    assert_eq!((ran.count, ran.stop, machine.processor.regs[1]), (2, Stop::Budget, 2));
    let ran = machine.run(&mut buffers.memories(), 100).unwrap();
    assert_eq!((ran.count, ran.stop, machine.processor.mode), (1, Stop::Halted, Mode::Halted));
    let mut buffers = Buffers::with(&[ADD_1_R1, ILLEGAL]);
    let mut machine = Machine::reset();
    let ran = machine.run(&mut buffers.memories(), 100).unwrap();
    assert_eq!((ran.count, ran.stop), (1, Stop::Fatal));
}

#[test]
fn a_run_that_meets_refusal_6_keeps_what_was_done() {
    let mut buffers = Buffers::with(&[ADD_1_R1, BIT_STRING]);
    let mut machine = calm();
    let ran = machine.run(&mut buffers.memories(), 100).unwrap();
    let Stop::NotModelled(refusal) = ran.stop else { panic!("{:?}", ran.stop) };
    assert_eq!((ran.count, machine.processor.regs[1], refusal.number()), (1, 1, 6));
    let text = refusal.to_string();
    let start =
        "refusal 6: the instruction 0x7C00 (SCH0BSU) at 0xFFFFFFF2 is not modelled; left out are";
    assert!(text.starts_with(start), "{text}");
    let before = machine;
    assert_eq!(machine.step(&mut buffers.memories()), Err(refusal));
    assert_eq!(machine, before);
}

#[test]
fn loads_and_stores_reach_memories_and_registers() {
    let (mut buffers, mut machine) = (Buffers::with(&[]), Machine::reset());
    machine.store_word(&mut buffers.memories(), 0x0501_0002, 0x1234_5678).unwrap();
    assert_eq!(machine.load_word(&buffers.read(), 0x0500_0003), Ok(0x1234_5678));
    assert_eq!(machine.load_half(&buffers.read(), 0x0500_0002), Ok(0x1234));
    assert_eq!(machine.load_byte(&buffers.read(), 0x0500_0001), Ok(0x56));
    machine.store_byte(&mut buffers.memories(), 0x0005_F849, 0xFFFF).unwrap();
    assert_eq!((machine.drawing.spt[0], machine.drawing.spt[1]), (0x3FF, 0));
    machine.store_half(&mut buffers.memories(), 0x0007_A010, 0xABCD).unwrap();
    assert_eq!(vb::character(&buffers.vram, 513).unwrap()[..2], [0xCD, 0xAB]);
    assert_eq!(vb::character(&buffers.vram, 513).unwrap().len(), 16);
}

#[test]
fn a_frame_and_its_strips_leave_the_same_memory() {
    let drawing = Drawing { bkcol: 2, ..Drawing::default() };
    let (mut whole, mut strips) = (vec![0; vb::VRAM_LENGTH], vec![0; vb::VRAM_LENGTH]);
    drawing.draw_frame(&mut whole, 1).unwrap();
    for strip in 0..28 {
        drawing.draw_strip(&mut strips, 1, strip).unwrap();
    }
    assert!(whole == strips);
    for eye in 0..2 {
        let image = &whole[vb::image_offset(1, eye)..][..vb::IMAGE_LENGTH];
        assert_eq!((vb::pixel(image, 383, 223), vb::pixel(image, 383, 224)), (2, 0));
    }
    assert!(whole[..vb::image_offset(1, 0)].iter().all(|&byte| byte == 0));
}

#[test]
fn records_have_the_bytes_of_the_header() {
    let mut processor = Machine::reset().processor;
    processor.regs = std::array::from_fn(|n| 0x0101_0101 * n as u32);
    (processor.sr31, processor.mode) = (0x8000_0000, Mode::Fatal);
    processor.hardware = Hardware { lines: 0x1F, count: 0x1234, reload: 0x5678, control: 0x1B };
    let bytes = processor.to_bytes();
    assert_eq!(bytes.len(), vb::PROCESSOR_LENGTH);
    assert_eq!((&bytes[8..12], &bytes[128..132]), (&[2; 4][..], &[0xF0, 0xFF, 0xFF, 0xFF][..]));
    assert_eq!((&bytes[152..156], bytes[168]), (&[0, 0x80, 0, 0][..], 2));
    assert_eq!(bytes[172..], [0x1F, 0, 0x34, 0x12, 0x78, 0x56, 0x1B, 0]);
    assert_eq!(Processor::from_bytes(&bytes), Ok(processor));
    let at_reset = Processor { hardware: Hardware::default(), ..processor };
    assert_eq!(Processor::from_bytes(&bytes[..172]), Ok(at_reset));
    let drawing =
        Drawing { spt: [1, 2, 3, 4], gplt: [5, 6, 7, 8], jplt: [9, 10, 11, 12], bkcol: 3 };
    let bytes = drawing.to_bytes();
    assert_eq!((bytes.len(), bytes[6], bytes[24]), (vb::DRAWING_LENGTH, 4, 3));
    assert_eq!(Drawing::from_bytes(&bytes), Ok(drawing));
}

#[test]
fn bytes_that_are_not_a_record_are_reported() {
    let short = Processor::from_bytes(&[0; 171]).unwrap_err();
    assert_eq!(short, RecordError::Length { given: 171, wanted: 180 });
    assert_eq!(short.to_string(), "the record has 171 bytes; it must have 180");
    let mut bytes = [0; 172];
    bytes[168] = 3;
    let text = Processor::from_bytes(&bytes).unwrap_err().to_string();
    assert_eq!(text, "the mode is 3; it must be 0 (running), 1 (halted) or 2 (fatal)");
    assert!(Drawing::from_bytes(&[0; 27]).is_err());
}
