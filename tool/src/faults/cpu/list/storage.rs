//! Bits of registers, PSW, PC, system registers, timer and lines that are stuck.

use super::super::super::quantities::Cell;
use super::super::state::{Effect as State, Reset};
use super::super::Effect;
use super::{stuck, List, STUCK};

/// The bits that PSW has.
const PSW: u32 = 0x000F_F3FF;

pub fn add(all: &mut List) {
    for n in 1..32 {
        let register = format!("cpu.reg.r{n}");
        cell(all, &register, "cpu register file bit", &format!("r{n}"), Cell::Register(n), !0);
    }
    cell(all, "cpu.psw", "cpu PSW bit", "PSW", Cell::Psw, PSW);
    cell(all, "cpu.pc", "cpu PC bit", "PC", Cell::Pc, !1);
    let system = [
        ("eipc", Cell::Eipc, !1),
        ("eipsw", Cell::Eipsw, PSW),
        ("fepc", Cell::Fepc, !1),
        ("fepsw", Cell::Fepsw, PSW),
        ("ecr", Cell::Ecr, !0),
        ("sr25", Cell::Sr25, !1),
        ("sr29", Cell::Sr29, !0),
        ("sr31", Cell::Sr31, !0),
    ];
    for (name, place, bits) in system {
        let said = match name.strip_prefix("sr") {
            Some(number) => format!("system register {number}"),
            None => name.to_uppercase(),
        };
        let class = "cpu system register bit";
        cell(all, &format!("cpu.sys.{name}"), class, &said, place, bits);
    }
    for (name, place, bits) in [
        ("count", Cell::Count, 0xFFFF),
        ("reload", Cell::Reload, 0xFFFF),
        ("control", Cell::Control, 0x1B),
    ] {
        let said = format!("the timer's {name}");
        cell(all, &format!("timer.{name}"), "timer bit", &said, place, bits);
    }
    lines(all);
    resets(all);
}

fn cell(all: &mut List, name: &str, class: &'static str, said: &str, cell: Cell, bits: u32) {
    for bit in (0..32u8).filter(|bit| bits >> bit & 1 == 1) {
        for value in STUCK {
            let effect = Effect::State(State::Stuck { cell, bit, value });
            let meaning = format!("Bit {bit} of {said} is always {}.", u8::from(value));
            all.add(format!("{name}.{bit}.{}", stuck(value)), class, meaning, effect);
            let always = cell == Cell::Ecr && (9..16).contains(&bit) && value;
            all.equivalent_if(always, "every exception's code has this bit set");
        }
    }
}

fn lines(all: &mut List) {
    for (level, name) in ["pad", "timer", "pak", "link", "vip"].iter().enumerate() {
        for value in STUCK {
            let bit = level as u8;
            let effect = Effect::State(State::Stuck { cell: Cell::Lines, bit, value });
            let meaning = match value {
                false => format!("The request line of level {level} ({name}) is never raised."),
                true => format!("The request line of level {level} ({name}) is always raised."),
            };
            all.add(
                format!("cpu.line.{name}.{}", stuck(value)),
                "cpu request line",
                meaning,
                effect,
            );
        }
    }
}

fn resets(all: &mut List) {
    for (name, reset, meaning) in [
        ("psw-np-clear", Reset::NpClear, "After a reset NP in PSW is clear."),
        ("ecr-zero", Reset::EcrZero, "After a reset ECR is 0 instead of 0xFFF0."),
        ("pc-0xffffffe0", Reset::PcLower, "A reset begins at 0xFFFFFFE0 instead of 0xFFFFFFF0."),
    ] {
        let effect = Effect::State(State::Reset(reset));
        all.add(format!("cpu.reset.{name}"), "cpu reset state", meaning.to_string(), effect);
    }
}
