//! A program's steps as a Value Change Dump (IEEE 1364), which GTKWave and other wave viewers read: PC, mode, the fields
//! of PSW and the registers. Time 0 is before the first step, and each completed step is one unit later.

use std::path::Path;

use vb::{record, Machine, Mode};

use super::replay::{field, FIELDS};
use crate::failure::Failure;
use crate::files::Stream;
use crate::inputs::trace::{records, Record};

/// A dump that grows with the run.
pub struct Waves {
    out: Stream,
    signals: Vec<Signal>,
    time: u64,
}

struct Signal {
    /// Its short name in the file.
    id: String,
    width: u32,
    /// The value that was written last.
    last: Option<u32>,
}

/// What a die's recorder has: its record, and whether it differs from the model's.
const DIE: [(&str, u32); 5] =
    [("pc_before", 32), ("pc_after", 32), ("psw_after", 32), ("sum_after", 32), ("differs", 1)];

impl Waves {
    /// Begins a dump of this machine; with `die`, a trace's records are in it too.
    pub fn new(path: &Path, machine: &Machine, die: bool) -> Result<Waves, Failure> {
        let mut waves = Waves { out: Stream::new(path)?, signals: Vec::new(), time: 0 };
        let mut head = format!(
            "$version vbmodel {} $end\n$comment one unit of time is one completed step; mode 0 running, 1 halted, 2 fatal $end\n\
             $timescale 1 ns $end\n$scope module processor $end\n",
            env!("CARGO_PKG_VERSION")
        );
        head += &waves.signal("pc", 32);
        head += &waves.signal("mode", 2);
        head += "$scope module psw $end\n";
        for (name, _, bits) in FIELDS {
            head += &waves.signal(&name.to_lowercase(), bits);
        }
        head += "$upscope $end\n";
        for n in 1..32 {
            head += &waves.signal(&format!("r{n}"), 32);
        }
        head += "$upscope $end\n";
        if die {
            head += "$scope module die $end\n";
            for (name, bits) in DIE {
                head += &waves.signal(name, bits);
            }
            head += "$upscope $end\n";
        }
        waves.out.write((head + "$enddefinitions $end\n#0\n$dumpvars\n").as_bytes())?;
        waves.change(&values(machine))?;
        waves.out.write(b"$end\n")?;
        Ok(waves)
    }

    /// A signal's line, with the next short name.
    fn signal(&mut self, name: &str, width: u32) -> String {
        let id = id(self.signals.len());
        let line = format!("$var wire {width} {id} {name} $end\n");
        self.signals.push(Signal { id, width, last: None });
        line
    }

    /// A step that was completed, and the machine after it.
    pub fn step(&mut self, machine: &Machine) -> Result<(), Failure> {
        self.time += 1;
        self.out.write(format!("#{}\n", self.time).as_bytes())?;
        self.change(&values(machine))
    }

    /// A step from this address that was compared with a die's record.
    pub fn compared(&mut self, pc: u32, machine: &Machine, seen: &Record) -> Result<(), Failure> {
        let expected = records(&record(pc, &machine.processor)).next();
        let differs = u32::from(expected.as_ref() != Some(seen));
        self.time += 1;
        self.out.write(format!("#{}\n", self.time).as_bytes())?;
        self.change(&[&values(machine)[..], seen, &[differs]].concat())
    }

    /// Writes the values that are new.
    fn change(&mut self, values: &[u32]) -> Result<(), Failure> {
        let mut text = String::new();
        for (signal, &value) in self.signals.iter_mut().zip(values) {
            if signal.last == Some(value) {
                continue;
            }
            signal.last = Some(value);
            text += &match signal.width {
                1 => format!("{value}{}\n", signal.id),
                _ => format!("b{value:b} {}\n", signal.id),
            };
        }
        self.out.write(text.as_bytes())
    }

    /// The file, all of its steps in it.
    pub fn finished(self) -> Stream {
        self.out
    }
}

/// The values of the signals, in their order.
fn values(machine: &Machine) -> Vec<u32> {
    let processor = &machine.processor;
    let mode = match processor.mode {
        Mode::Running => 0,
        Mode::Halted => 1,
        Mode::Fatal => 2,
    };
    let fields = FIELDS.iter().map(|one| field(processor.psw, *one));
    [processor.pc, mode]
        .into_iter()
        .chain(fields)
        .chain(processor.regs[1..].iter().copied())
        .collect()
}

/// The short name of signal n: digits from `!` to `~`.
fn id(n: usize) -> String {
    let digit = |n: usize| char::from(b'!' + n as u8);
    match n {
        0..=93 => digit(n).to_string(),
        _ => format!("{}{}", digit(n % 94), digit(n / 94)),
    }
}
