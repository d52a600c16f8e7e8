//! The machine's records, and their bytes in files.

use std::fmt;

use crate::{DRAWING_LENGTH, PROCESSOR_LENGTH, PROCESSOR_WORDS_LENGTH};

/// What the processor is doing.
#[derive(Clone, Copy, Debug, PartialEq, Eq, Hash)]
pub enum Mode {
    /// It does instructions.
    Running,
    /// HALT was done; an interrupt that is accepted ends it.
    Halted,
    /// An exception came while NP was set; nothing ends it.
    Fatal,
}

impl Mode {
    /// The mode of vb.h's number.
    pub fn of(number: u32) -> Option<Mode> {
        match number {
            vbsys::RUNNING => Some(Mode::Running),
            vbsys::HALTED => Some(Mode::Halted),
            vbsys::FATAL => Some(Mode::Fatal),
            _ => None,
        }
    }

    /// vb.h's number of the mode.
    pub fn number(self) -> u32 {
        match self {
            Mode::Running => vbsys::RUNNING,
            Mode::Halted => vbsys::HALTED,
            Mode::Fatal => vbsys::FATAL,
        }
    }
}

impl fmt::Display for Mode {
    fn fmt(&self, f: &mut fmt::Formatter) -> fmt::Result {
        f.write_str(match self {
            Mode::Running => "running",
            Mode::Halted => "halted",
            Mode::Fatal => "fatal",
        })
    }
}

/// The request lines and the timer.
#[derive(Clone, Copy, Debug, Default, PartialEq, Eq)]
pub struct Hardware {
    /// Bit n is the line of level n: 0 pad, 1 timer, 2 game pak, 3 link, 4 VIP.
    pub lines: u16,
    /// The timer's count.
    pub count: u16,
    /// The count that the timer starts again with.
    pub reload: u16,
    /// The timer's control bits at their places in TCR, those of 0x1B.
    pub control: u16,
}

/// The processor's registers and mode, the request lines and the timer.
#[derive(Clone, Copy, Debug, PartialEq, Eq)]
pub struct Processor {
    /// The general registers; r0 is 0.
    pub regs: [u32; 32],
    /// The address of the next instruction.
    pub pc: u32,
    /// System register 0: the PC to return to from an exception.
    pub eipc: u32,
    /// System register 1: the PSW to return to.
    pub eipsw: u32,
    /// System register 2: the PC to return to from a duplexed exception.
    pub fepc: u32,
    /// System register 3: the PSW to return to from it.
    pub fepsw: u32,
    /// System register 4: the codes of both exceptions.
    pub ecr: u32,
    /// System register 5: flags and interrupt level.
    pub psw: u32,
    /// System register 25, ADTRE.
    pub sr25: u32,
    /// System register 29.
    pub sr29: u32,
    /// System register 31.
    pub sr31: u32,
    /// What it is doing.
    pub mode: Mode,
    /// The request lines and the timer.
    pub hardware: Hardware,
}

/// The VIP's registers that drawing uses.
#[derive(Clone, Copy, Debug, Default, PartialEq, Eq)]
pub struct Drawing {
    /// The last object of each group, 10 bits.
    pub spt: [u16; 4],
    /// The background palettes, 8 bits.
    pub gplt: [u16; 4],
    /// The object palettes, 8 bits.
    pub jplt: [u16; 4],
    /// The background colour, 2 bits.
    pub bkcol: u16,
}

/// The whole state that goes by value.
#[derive(Clone, Copy, Debug, PartialEq, Eq)]
pub struct Machine {
    /// The processor, with request lines and timer.
    pub processor: Processor,
    /// The drawing registers.
    pub drawing: Drawing,
}

/// Why bytes are not a record.
#[derive(Clone, Copy, Debug, PartialEq, Eq)]
pub enum RecordError {
    /// The length is not a record's.
    Length {
        /// The length in bytes.
        given: usize,
        /// A record's length.
        wanted: usize,
    },
    /// The mode is not one of 0, 1 and 2.
    Mode {
        /// The mode's number.
        given: u32,
    },
}

impl fmt::Display for RecordError {
    fn fmt(&self, f: &mut fmt::Formatter) -> fmt::Result {
        match self {
            RecordError::Length { given, wanted } => {
                write!(f, "the record has {given} bytes; it must have {wanted}")
            }
            RecordError::Mode { given } => {
                write!(f, "the mode is {given}; it must be 0 (running), 1 (halted) or 2 (fatal)")
            }
        }
    }
}

impl std::error::Error for RecordError {}

impl Processor {
    /// Reads a record of 180 bytes, or of its first 172, with lines and timer at reset. Which values a register may hold
    /// is left to the calls.
    pub fn from_bytes(bytes: &[u8]) -> Result<Processor, RecordError> {
        if ![PROCESSOR_LENGTH, PROCESSOR_WORDS_LENGTH].contains(&bytes.len()) {
            return Err(RecordError::Length { given: bytes.len(), wanted: PROCESSOR_LENGTH });
        }
        let word = |n: usize| {
            u32::from_le_bytes([bytes[4 * n], bytes[4 * n + 1], bytes[4 * n + 2], bytes[4 * n + 3]])
        };
        let mode = Mode::of(word(42)).ok_or(RecordError::Mode { given: word(42) })?;
        Ok(Processor {
            regs: std::array::from_fn(word),
            pc: word(32),
            eipc: word(33),
            eipsw: word(34),
            fepc: word(35),
            fepsw: word(36),
            ecr: word(37),
            psw: word(38),
            sr25: word(39),
            sr29: word(40),
            sr31: word(41),
            mode,
            hardware: Hardware::from_bytes(&bytes[PROCESSOR_WORDS_LENGTH..]),
        })
    }

    /// The record as a file holds it, words before halfwords, lowest byte first.
    pub fn to_bytes(&self) -> Vec<u8> {
        let mut words = self.regs.to_vec();
        words.extend(self.system().map(|(_, value)| value));
        words.push(self.mode.number());
        let mut bytes: Vec<u8> = words.iter().flat_map(|word| word.to_le_bytes()).collect();
        bytes.extend(self.hardware.fields().iter().flat_map(|(_, value)| value.to_le_bytes()));
        bytes
    }

    /// PC and the system registers by name, in the record's order.
    pub fn system(&self) -> [(&'static str, u32); 10] {
        [
            ("pc", self.pc),
            ("eipc", self.eipc),
            ("eipsw", self.eipsw),
            ("fepc", self.fepc),
            ("fepsw", self.fepsw),
            ("ecr", self.ecr),
            ("psw", self.psw),
            ("sr25", self.sr25),
            ("sr29", self.sr29),
            ("sr31", self.sr31),
        ]
    }
}

impl Hardware {
    /// Reads the last eight bytes of a processor record; none are lines and timer at reset.
    fn from_bytes(bytes: &[u8]) -> Hardware {
        let half = |n: usize| match bytes.get(2 * n..2 * n + 2) {
            Some(pair) => u16::from_le_bytes([pair[0], pair[1]]),
            None => 0,
        };
        Hardware { lines: half(0), count: half(1), reload: half(2), control: half(3) }
    }

    /// Each field's name and value, in the record's order.
    pub fn fields(&self) -> [(&'static str, u16); 4] {
        [
            ("lines", self.lines),
            ("count", self.count),
            ("reload", self.reload),
            ("control", self.control),
        ]
    }
}

impl Drawing {
    /// Reads a record of 26 bytes. Which values a register may hold is left to the calls.
    pub fn from_bytes(bytes: &[u8]) -> Result<Drawing, RecordError> {
        if bytes.len() != DRAWING_LENGTH {
            return Err(RecordError::Length { given: bytes.len(), wanted: DRAWING_LENGTH });
        }
        let half = |n: usize| u16::from_le_bytes([bytes[2 * n], bytes[2 * n + 1]]);
        Ok(Drawing {
            spt: std::array::from_fn(half),
            gplt: std::array::from_fn(|n| half(4 + n)),
            jplt: std::array::from_fn(|n| half(8 + n)),
            bkcol: half(12),
        })
    }

    /// The record as a file holds it, 13 halfwords, lowest byte first.
    pub fn to_bytes(&self) -> Vec<u8> {
        self.registers().iter().flat_map(|(_, value, _)| value.to_le_bytes()).collect()
    }

    /// Each register's name, value and width in bits, in the record's order.
    pub fn registers(&self) -> [(&'static str, u16, u32); 13] {
        [
            ("SPT0", self.spt[0], 10),
            ("SPT1", self.spt[1], 10),
            ("SPT2", self.spt[2], 10),
            ("SPT3", self.spt[3], 10),
            ("GPLT0", self.gplt[0], 8),
            ("GPLT1", self.gplt[1], 8),
            ("GPLT2", self.gplt[2], 8),
            ("GPLT3", self.gplt[3], 8),
            ("JPLT0", self.jplt[0], 8),
            ("JPLT1", self.jplt[1], 8),
            ("JPLT2", self.jplt[2], 8),
            ("JPLT3", self.jplt[3], 8),
            ("BKCOL", self.bkcol, 2),
        ]
    }
}

/// A record and the boundary's form of it, of the same fields, each way; fields after `;` are turned too.
macro_rules! alike {
    ($record:ident: $($field:ident),*; $($turned:ident),*) => {
        impl From<&$record> for vbsys::$record {
            fn from(record: &$record) -> Self {
                vbsys::$record {
                    $($field: record.$field,)*
                    $($turned: (&record.$turned).into(),)*
                }
            }
        }

        impl From<&vbsys::$record> for $record {
            fn from(record: &vbsys::$record) -> Self {
                $record { $($field: record.$field,)* $($turned: (&record.$turned).into(),)* }
            }
        }
    };
}

alike!(
    Processor: regs, pc, eipc, eipsw, fepc, fepsw, ecr, psw, sr25, sr29, sr31; mode, hardware
);
alike!(Hardware: lines, count, reload, control;);
alike!(Drawing: spt, gplt, jplt, bkcol;);

impl From<&Mode> for u32 {
    fn from(mode: &Mode) -> u32 {
        mode.number()
    }
}

impl From<&u32> for Mode {
    /// The library gives back no mode but 0 to 2.
    fn from(number: &u32) -> Mode {
        Mode::of(*number).expect("a mode of vb.h")
    }
}
