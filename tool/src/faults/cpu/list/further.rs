//! Kinds of faults that a die can have beyond stuck bits and broken rules: bridges, decoders, late writes, enables.

use vb::op;

use super::super::super::die::Width;
use super::super::access::Effect as Access;
use super::super::control::Effect as Control;
use super::super::float::Effect as Float;
use super::super::operands::{Effect as Operand, LOADS};
use super::super::results::Effect as Results;
use super::super::state::Effect as State;
use super::super::timer::Effect as Timer;
use super::super::Effect;
use super::{name, said, stuck, List, STUCK};

pub fn add(all: &mut List) {
    bridges(all);
    decoders(all);
    swapped(all);
    targets(all);
    data_lines(all);
    loads(all);
    stores(all);
    condition_flags(all);
    priorities(all);
    floats(all);
    timers(all);
}

fn bridges(all: &mut List) {
    for register in 1..32u32 {
        for bit in 0..31u8 {
            for (or, end, word) in [(false, "and", "AND"), (true, "or", "OR")] {
                let effect = Effect::State(State::Bridge { register, bit, or });
                let meaning =
                    format!("Bits {bit} and {} of r{register} are both their {word}.", bit + 1);
                let name = format!("cpu.bridge.r{register}.{bit}.{end}");
                all.add(name, "cpu bridge of register bits", meaning, effect);
            }
        }
    }
}

fn decoders(all: &mut List) {
    let class = "cpu register decoder";
    for (register, line) in (0..32u32).flat_map(|register| (0..5).map(move |line| (register, line)))
    {
        let other = register ^ 1 << line;
        let effect = Effect::Operand(Operand::ReadDecoder { register, other });
        let meaning = format!("A read of r{register} gives r{other}.");
        all.add(format!("cpu.decoder.read.r{register}.as-r{other}"), class, meaning, effect);
    }
    for (register, line) in (1..32u32).flat_map(|register| (0..5).map(move |line| (register, line)))
    {
        let other = register ^ 1 << line;
        let effect = Effect::State(State::WriteDecoder { register, other, also: false });
        let meaning = match other {
            0 => format!("A write to r{register} is lost."),
            _ => format!("A write to r{register} goes to r{other}."),
        };
        all.add(format!("cpu.decoder.write.r{register}.to-r{other}"), class, meaning, effect);
        if other != 0 {
            let effect = Effect::State(State::WriteDecoder { register, other, also: true });
            let meaning = format!("A write to r{register} goes to r{other} too.");
            all.add(format!("cpu.decoder.write.r{register}.and-r{other}"), class, meaning, effect);
        }
    }
    for bit in 2..32u8 {
        let effect = Effect::State(State::PcCarry { bit });
        let meaning = format!("The increment of PC does not carry into bit {bit}.");
        all.add(format!("cpu.pc.carry.{bit}.lost"), "cpu PC increment", meaning, effect);
    }
}

fn swapped(all: &mut List) {
    for of in [
        op::SUB,
        op::CMP,
        op::SHL,
        op::SHR,
        op::SAR,
        op::DIV,
        op::DIVU,
        op::MPYHW,
        op::SUBF_S,
        op::DIVF_S,
        op::CMPF_S,
    ] {
        let effect = Effect::Operand(Operand::Swapped { op: of });
        let meaning = format!("{} takes its two operands in the wrong order.", said(of));
        all.add(format!("cpu.operand.{}.swapped", name(of)), "cpu operand order", meaning, effect);
    }
}

fn targets(all: &mut List) {
    for of in [op::BCOND, op::JMP, op::JR, op::JAL, op::RETI] {
        for (bit, value) in (1..32u8).flat_map(|bit| STUCK.map(|value| (bit, value))) {
            let effect = Effect::Result(Results::Target { op: of, bit, value });
            let meaning = format!(
                "Bit {bit} of the address that {} goes to is always {}.",
                said(of),
                u8::from(value)
            );
            let name = format!("cpu.target.{}.{bit}.{}", name(of), stuck(value));
            all.add(name, "cpu jump target bit", meaning, effect);
        }
    }
}

fn data_lines(all: &mut List) {
    for (access, bits) in [("fetch", 16), ("load", 32), ("store", 32)] {
        for (bit, value) in (0..bits).flat_map(|bit: u8| STUCK.map(|value| (bit, value))) {
            let effect = match access {
                "fetch" => Effect::Operand(Operand::Fetched { bit, value }),
                _ => Effect::Access(Access::Data { store: access == "store", bit, value }),
            };
            let meaning = format!("Data line {bit} of a {access} is always {}.", u8::from(value));
            all.add(
                format!("cpu.data.{access}.{bit}.{}", stuck(value)),
                "cpu data line",
                meaning,
                effect,
            );
        }
    }
}

fn loads(all: &mut List) {
    let class = "cpu write after load";
    for &of in LOADS {
        let effect = Effect::Access(Access::Late { op: of });
        let meaning = format!("What {} loads is in the register one instruction later.", said(of));
        all.add(format!("cpu.load.{}.late", name(of)), class, meaning, effect);
        let effect = Effect::Access(Access::LostAfter { op: of });
        let meaning = format!("The instruction after {} writes no register.", said(of));
        all.add(format!("cpu.load.{}.next-write-lost", name(of)), class, meaning, effect);
    }
}

fn stores(all: &mut List) {
    let class = "bus byte enable";
    for (width, named, bytes) in [(Width::Half, "half", 2), (Width::Word, "word", 4)] {
        for byte in 0..bytes {
            let effect = Effect::Access(Access::Enable { width, byte });
            let meaning = format!("A store of a {named} does not write its byte {byte}.");
            all.add(format!("bus.enable.store.{named}.{byte}.lost"), class, meaning, effect);
        }
    }
    let effect = Effect::Access(Access::WholeHalf);
    let meaning = "A store of a byte clears the other byte of its halfword.".to_string();
    all.add("bus.enable.store.byte.whole-half".to_string(), class, meaning, effect);
}

/// The flags that a condition sees, where there are several.
fn flags_of(condition: u32) -> &'static [(u8, &'static str)] {
    match condition & 7 {
        3 => &[(3, "cy"), (0, "z")],
        6 => &[(2, "ov"), (1, "s")],
        7 => &[(2, "ov"), (1, "s"), (0, "z")],
        _ => &[],
    }
}

fn condition_flags(all: &mut List) {
    for (setf, unit) in [(false, "bcond"), (true, "setf")] {
        for condition in 0..16 {
            for &(flag, named) in flags_of(condition) {
                for value in STUCK {
                    let effect =
                        Effect::Result(Results::ConditionFlag { setf, condition, flag, value });
                    let (said, upper) = (if setf { "SETF" } else { "Bcond" }, named.to_uppercase());
                    let meaning = format!(
                        "Condition {condition} of {said} sees {upper} as {}.",
                        u8::from(value)
                    );
                    let name = format!("cpu.cond.{unit}.{condition}.{named}.{}", stuck(value));
                    all.add(name, "cpu condition's flag", meaning, effect);
                }
            }
        }
    }
}

fn priorities(all: &mut List) {
    for high in 1..5u32 {
        for low in 0..high {
            let effect = Effect::Control(Control::Pair { low, high });
            let meaning = format!("Interrupt {low} is accepted before interrupt {high}.");
            let name = format!("cpu.ctl.int.priority.{low}-over-{high}");
            all.add(name, "cpu interrupt priority", meaning, effect);
        }
    }
}

fn floats(all: &mut List) {
    let class = "cpu float limits";
    for of in [op::ADDF_S, op::SUBF_S, op::MULF_S, op::DIVF_S, op::CVT_SW, op::TRNC_SW] {
        let effect = Effect::Float(Float::Saturates { op: of });
        let meaning = format!("{} gives the largest number instead of an exception.", said(of));
        all.add(format!("cpu.float.{}.saturates", name(of)), class, meaning, effect);
    }
    for of in [op::ADDF_S, op::SUBF_S, op::MULF_S, op::DIVF_S] {
        let effect = Effect::Float(Float::UnderflowSmallest { op: of });
        let meaning = format!("{} gives the smallest number where it underflows.", said(of));
        all.add(format!("cpu.float.{}.underflow-smallest", name(of)), class, meaning, effect);
    }
}

fn timers(all: &mut List) {
    for (end, meaning, effect) in [
        ("rate.counts-twice", "Each tick counts twice.", Timer::CountsTwice),
        ("rate.every-second", "Every second tick counts.", Timer::EverySecond),
        ("prescaler.slow", "With T-Clk-Sel set every fifth tick counts.", Timer::PrescalerSlow),
        (
            "prescaler.fast",
            "With T-Clk-Sel clear each tick counts five times.",
            Timer::PrescalerFast,
        ),
        ("tick.wraps", "A count of zero goes on to 0xFFFF.", Timer::Wraps),
        ("tick.always-counts", "The timer counts with T-Enb clear.", Timer::AlwaysCounts),
    ] {
        all.add(format!("timer.{end}"), "timer rate", meaning.to_string(), Effect::Timer(effect));
    }
}
