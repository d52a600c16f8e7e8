//! Lines, fields and ports that are stuck, and rules that are broken.

use vb::op;

use super::super::super::quantities::Field;
use super::super::access::{Effect as Access, Lane};
use super::super::bus::{Effect as Bus, Place};
use super::super::control::Effect as Control;
use super::super::entry::{Effect as Entry, Wrong};
use super::super::float::Effect as Float;
use super::super::operands::{Effect as Operand, Extension, LOADS, STORES};
use super::super::timer::Effect as Timer;
use super::super::unit::Effect as Unit;
use super::super::Effect;
use super::{name, said, stuck, List, STUCK};

pub fn add(all: &mut List) {
    addresses(all);
    fields(all);
    units(all);
    extensions(all);
    lanes(all);
    unit_rules(all);
    floats(all);
    entries(all);
    controls(all);
    timers(all);
    buses(all);
}

fn addresses(all: &mut List) {
    for (name, class, first) in [
        ("fetch", "cpu fetch address line", 1),
        ("load", "cpu load address line", 0),
        ("store", "cpu store address line", 0),
    ] {
        for (bit, value) in (first..27u8).flat_map(|bit| STUCK.map(|value| (bit, value))) {
            let effect = match name {
                "fetch" => Effect::Operand(Operand::FetchAddress { bit, value }),
                _ => Effect::Access(Access::Address { store: name == "store", bit, value }),
            };
            let meaning = format!("Address line {bit} of a {name} is always {}.", u8::from(value));
            all.add(format!("cpu.addr.{name}.{bit}.{}", stuck(value)), class, meaning, effect);
        }
    }
}

fn fields(all: &mut List) {
    for (name, field, bits) in [
        ("reg1", Field::Reg1, 0..5),
        ("reg2", Field::Reg2, 0..5),
        ("imm5", Field::Imm5, 0..5),
        ("opcode", Field::Opcode, 0..6),
        ("cond", Field::Cond, 0..4),
        ("disp9", Field::Disp9, 1..9),
        ("imm16", Field::Imm16, 0..16),
        ("disp16", Field::Disp16, 0..16),
        ("disp26", Field::Disp26, 1..26),
        ("subop", Field::Subop, 0..6),
    ] {
        for (bit, value) in bits.flat_map(|bit: u8| STUCK.map(|value| (bit, value))) {
            let effect = Effect::Operand(Operand::Field { field, bit, value });
            let meaning = format!(
                "Bit {bit} of an instruction's field {name} is read as {}.",
                u8::from(value)
            );
            let name = format!("cpu.field.{name}.{bit}.{}", stuck(value));
            all.add(name, "cpu decode field bit", meaning, effect);
        }
    }
}

fn units(all: &mut List) {
    for (port, bit, value) in [1, 2]
        .into_iter()
        .flat_map(|port| (0..32u8).flat_map(move |bit| STUCK.map(|value| (port, bit, value))))
    {
        let effect = Effect::Operand(Operand::Port { port, bit, value });
        let meaning = format!("Bit {bit} of the operand reg{port} is read as {}.", u8::from(value));
        all.add(
            format!("cpu.port.{port}.{bit}.{}", stuck(value)),
            "cpu read port bit",
            meaning,
            effect,
        );
    }
    for (bit, value) in (1..32u8).flat_map(|bit| STUCK.map(|value| (bit, value))) {
        let effect = Effect::Unit(Unit::Carry { bit, value });
        let meaning = format!("The adder's carry into bit {bit} is always {}.", u8::from(value));
        all.add(
            format!("cpu.adder.carry.{bit}.{}", stuck(value)),
            "cpu adder carry",
            meaning,
            effect,
        );
    }
    for bit in 0..32u8 {
        let meaning = format!("MUL and MULU leave out the row of bit {bit} of reg1.");
        let effect = Effect::Unit(Unit::Row { bit });
        all.add(format!("cpu.mul.row.{bit}.lost"), "cpu multiplier row", meaning, effect);
    }
    for (bit, value) in (0..5u8).flat_map(|bit| STUCK.map(|value| (bit, value))) {
        let effect = Effect::Unit(Unit::ShiftAmount { bit, value });
        let meaning = format!("Bit {bit} of a shift's amount is always {}.", u8::from(value));
        let name = format!("cpu.shift.amount.{bit}.{}", stuck(value));
        all.add(name, "cpu shift amount bit", meaning, effect);
    }
}

fn extensions(all: &mut List) {
    let class = "cpu sign extension";
    for of in [op::LD_B, op::LD_H, op::IN_B, op::IN_H] {
        let (end, how) = match of {
            op::LD_B | op::LD_H => ("zeros", "with zeros"),
            _ => ("signed", "with its sign"),
        };
        let meaning = format!("{} extends what it loads {how}.", said(of));
        let effect = Effect::Access(Access::Extension { op: of });
        all.add(format!("cpu.ext.{}.{end}", name(of)), class, meaning, effect);
    }
    let rows: [(&str, &str, &str, Extension); 13] = [
        ("mov5.zeros", "MOV's five bits", "with zeros", Extension::Imm5(op::MOV_IMM)),
        ("add5.zeros", "ADD's five bits", "with zeros", Extension::Imm5(op::ADD_IMM)),
        ("cmp5.zeros", "CMP's five bits", "with zeros", Extension::Imm5(op::CMP_IMM)),
        ("movea.zeros", "MOVEA's immediate", "with zeros", Extension::Imm16(&[op::MOVEA])),
        ("addi.zeros", "ADDI's immediate", "with zeros", Extension::Imm16(&[op::ADDI])),
        ("load-disp16.zeros", "A load's displacement", "with zeros", Extension::Imm16(LOADS)),
        ("store-disp16.zeros", "A store's displacement", "with zeros", Extension::Imm16(STORES)),
        ("bcond-disp9.zeros", "Bcond's displacement", "with zeros", Extension::Disp9),
        ("jr-disp26.zeros", "JR's displacement", "with zeros", Extension::Disp26(op::JR)),
        ("jal-disp26.zeros", "JAL's displacement", "with zeros", Extension::Disp26(op::JAL)),
        ("ori.signed", "ORI's immediate", "with its sign", Extension::Signed16(op::ORI)),
        ("andi.signed", "ANDI's immediate", "with its sign", Extension::Signed16(op::ANDI)),
        ("xori.signed", "XORI's immediate", "with its sign", Extension::Signed16(op::XORI)),
    ];
    for (end, what, how, extension) in rows {
        let effect = Effect::Operand(Operand::Extension(extension));
        all.add(format!("cpu.ext.{end}"), class, format!("{what} is extended {how}."), effect);
    }
}

fn lanes(all: &mut List) {
    for (access, store) in [("load", false), ("store", true)] {
        for (end, meaning, lane) in [
            ("half.swapped", "The bytes of a halfword are exchanged", Lane::HalfSwapped),
            (
                "word.halves-swapped",
                "The halfwords of a word are exchanged",
                Lane::WordHalvesSwapped,
            ),
            ("word.reversed", "The bytes of a word are in reverse order", Lane::WordReversed),
            ("byte.lane-0-1", "A byte's lanes 0 and 1, 2 and 3 are exchanged", Lane::Byte(1)),
            ("byte.lane-0-2", "A byte's lanes 0 and 2, 1 and 3 are exchanged", Lane::Byte(2)),
            ("half.lane-0-2", "A halfword's two lanes are exchanged", Lane::Half(2)),
        ] {
            let effect = Effect::Access(Access::Lane { store, lane });
            let meaning = format!("{meaning} by a {access}.");
            all.add(format!("cpu.lane.{access}.{end}"), "cpu byte lane", meaning, effect);
        }
    }
}

fn unit_rules(all: &mut List) {
    let mut add = |end: String, meaning: String, effect: Unit| {
        let class = "cpu unit rule (mul/div/r30..)";
        all.add(format!("cpu.unit.{end}"), class, meaning, Effect::Unit(effect));
    };
    let units = [(op::MUL, "high"), (op::MULU, "high"), (op::DIV, "rest"), (op::DIVU, "rest")];
    for (of, what) in units {
        let (named, said) = (name(of), said(of));
        add(
            format!("{named}.{what}.zero"),
            format!("{said} leaves 0 in r30."),
            Unit::Second { op: of, kept: false },
        );
        add(
            format!("{named}.{what}.kept"),
            format!("{said} leaves r30 as it was."),
            Unit::Second { op: of, kept: true },
        );
    }
    for (of, _) in units {
        let meaning = format!("{} with r30 as reg2 leaves the second result there.", said(of));
        add(format!("{}.r30-wins", name(of)), meaning, Unit::SecondWins { op: of });
    }
    for (of, _) in units {
        let unsigned = matches!(of, op::MUL | op::DIV);
        let end = if unsigned { "unsigned" } else { "signed" };
        let meaning = format!("{} takes its operands as {end} numbers.", said(of));
        add(format!("{}.{end}", name(of)), meaning, Unit::OtherSign { op: of });
    }
    for (end, meaning, effect) in [
        ("div.floor", "DIV rounds its quotient down instead of towards zero.", Unit::DivFloor),
        ("sar.zero-fill", "SAR fills with zeros instead of the sign.", Unit::SarZeros),
        ("mpyhw.16-bits", "MPYHW takes 16 bits of reg1 instead of 17.", Unit::Mpyhw16),
        ("jal.link-2", "JAL leaves its own address plus 2 in r31.", Unit::JalLink2),
        ("divzero.no-trap", "A division by zero ends and does nothing.", Unit::DivideByZeroEnds),
    ] {
        add(end.to_string(), meaning.to_string(), effect);
    }
}

fn floats(all: &mut List) {
    for of in [op::ADDF_S, op::SUBF_S, op::MULF_S, op::DIVF_S, op::CVT_WS, op::CVT_SW, op::TRNC_SW]
    {
        let (end, how) = match of {
            op::TRNC_SW => ("nearest", "to nearest instead of towards zero"),
            _ => ("down", "towards minus infinity instead of to nearest"),
        };
        let effect = Effect::Float(Float::Rounding { op: of });
        let meaning = format!("{} rounds {how}.", said(of));
        all.add(format!("cpu.float.{}.{end}", name(of)), "cpu float rounding", meaning, effect);
    }
}

/// The causes of the list, by their bit.
const CAUSES: [(&str, &str); 14] = [
    ("zero-divisor", "a division by zero"),
    ("illegal", "an invalid opcode"),
    ("trap-low", "TRAP 0 to 15"),
    ("trap-high", "TRAP 16 to 31"),
    ("float-reserved", "a reserved floating operand"),
    ("float-overflow", "a floating overflow"),
    ("float-zero-divide", "a floating division by zero"),
    ("float-invalid", "an invalid floating operation"),
    ("pad", "the game pad's interrupt"),
    ("timer", "the timer's interrupt"),
    ("pak", "the game pak's interrupt"),
    ("link", "the link's interrupt"),
    ("vip", "the VIP's interrupt"),
    ("duplexed", "an exception in an exception"),
];

fn entries(all: &mut List) {
    for (cause, (name, said)) in CAUSES.iter().enumerate() {
        let duplexed = *name == "duplexed";
        let (pc, psw, level) = match duplexed {
            true => ("FEPC", "FEPSW", "NP"),
            false => ("EIPC", "EIPSW", "EP"),
        };
        let mut rows = vec![
            ("code", Wrong::Code, "leaves a code in ECR with bit 4 inverted".to_string()),
            (
                "restore-pc",
                Wrong::RestorePc,
                format!("leaves an address in {pc} that is 2 too high"),
            ),
            ("handler", Wrong::Handler, "goes to a handler 16 bytes too low".to_string()),
            ("id-not-set", Wrong::IdNotSet, "does not set ID".to_string()),
            ("level-not-set", Wrong::LevelNotSet, format!("does not set {level}")),
            ("ae-kept", Wrong::AeKept, "does not clear AE".to_string()),
            (
                "psw-saved-late",
                Wrong::PswSavedLate,
                format!("saves PSW in {psw} after changing it"),
            ),
        ];
        if (8..13).contains(&cause) {
            rows.push(("i-kept", Wrong::IKept, "leaves I as it was".to_string()));
            let meaning = "sets I to its level instead of one more".to_string();
            rows.push(("i-is-level", Wrong::IIsLevel, meaning));
        }
        for (end, wrong, meaning) in rows {
            let effect = Effect::Entry(Entry { cause: cause as u8, wrong });
            let mut meaning = format!("{said} {meaning}.");
            meaning[..1].make_ascii_uppercase();
            all.add(format!("cpu.exc.{name}.{end}"), "cpu exception entry", meaning, effect);
        }
    }
}

fn controls(all: &mut List) {
    const I: u32 = 15 << 16;
    for (end, meaning, effect) in [
        ("reti.fe-when-np-clear", "RETI with NP clear takes FEPC and FEPSW.", Control::RetiFe),
        ("reti.ei-when-np-set", "RETI with NP set takes EIPC and EIPSW.", Control::RetiEi),
        ("reti.psw-kept", "RETI leaves PSW as it was.", Control::RetiPswKept),
        ("fatal.goes-on", "An exception with NP set is passed over.", Control::FatalGoesOn),
        ("int.lowest-wins", "Of several interrupts the lowest is accepted.", Control::LowestWins),
        ("int.above-i-only", "An interrupt of level I is not accepted.", Control::AboveIOnly),
        ("int.i-ignored", "Interrupts below level I are accepted.", Control::Ignored { bits: I }),
        (
            "int.id-ignored",
            "Interrupts are accepted with ID set.",
            Control::Ignored { bits: 1 << 12 },
        ),
        (
            "int.ep-ignored",
            "Interrupts are accepted with EP set.",
            Control::Ignored { bits: 1 << 14 },
        ),
        (
            "int.np-ignored",
            "Interrupts are accepted with NP set.",
            Control::Ignored { bits: 1 << 15 },
        ),
        ("halt.goes-on", "HALT does not halt.", Control::HaltGoesOn),
        ("halt.never-wakes", "No interrupt ends HALT.", Control::HaltNeverWakes),
        (
            "halt.restore-at-halt",
            "An interrupt that ends HALT returns to HALT.",
            Control::HaltRestoreAtHalt,
        ),
        ("sei.clears", "SEI clears ID.", Control::SeiClears),
        ("cli.sets", "CLI sets ID.", Control::CliSets),
        (
            "ldsr.psw-flags-only",
            "LDSR to PSW changes Z, S, OV and CY alone.",
            Control::LdsrFlagsOnly,
        ),
        ("int.line-lowered", "Accepting an interrupt lowers its line.", Control::LineLowered),
        (
            "float.flag-not-set",
            "A floating exception does not set its flag.",
            Control::FloatFlagNotSet,
        ),
        ("trap.restore-own", "TRAP returns to itself.", Control::TrapRestoreOwn),
        ("halt.no-advance", "HALT leaves PC at itself.", Control::HaltNoAdvance),
    ] {
        let class = "cpu interrupt/halt/RETI control";
        all.add(format!("cpu.ctl.{end}"), class, meaning.to_string(), Effect::Control(effect));
    }
    let meaning = "TRAP takes four bits of its vector.".to_string();
    let effect = Effect::Operand(Operand::TrapVector);
    all.add(
        "cpu.ctl.trap.vector-bit4-lost".to_string(),
        "cpu interrupt/halt/RETI control",
        meaning,
        effect,
    );
}

fn timers(all: &mut List) {
    for (end, meaning, effect) in [
        ("no-reload", "A count of zero stays zero at the next tick.", Timer::NoReload),
        ("zero-early", "Zero is reported one tick early.", Timer::ZeroEarly),
        ("z-stat-not-set", "Reaching zero does not set Z-Stat.", Timer::ZStatNotSet),
        ("line-not-raised", "Reaching zero does not raise line 1.", Timer::LineNotRaised),
        ("z-stat-clr-ignored", "Z-Stat-Clr does not clear Z-Stat.", Timer::ZStatClrIgnored),
        ("line-kept", "Writing TCR does not lower line 1.", Timer::LineKept),
        ("count-write-lost", "Writing TLR or THR does not set the count.", Timer::CountWriteLost),
    ] {
        all.add(
            format!("timer.tick.{end}"),
            "timer rule",
            meaning.to_string(),
            Effect::Timer(effect),
        );
    }
}

fn buses(all: &mut List) {
    let lost = |store, place| Bus::Lost { store, place };
    let mirror = "the mirror of the characters";
    for (end, meaning, effect) in [
        (
            "char-mirror.store.next-table",
            format!("A store to {mirror} goes to the next table."),
            Bus::NextTable { store: true },
        ),
        (
            "char-mirror.store.lost",
            format!("A store to {mirror} is lost."),
            lost(true, Place::CharacterMirror),
        ),
        (
            "char-mirror.load.next-table",
            format!("A load from {mirror} reads the next table."),
            Bus::NextTable { store: false },
        ),
        (
            "char-mirror.load.zero",
            format!("A load from {mirror} reads 0."),
            lost(false, Place::CharacterMirror),
        ),
        (
            "vip-repeat.store.lost",
            "A store to a repeat of the VIP is lost.".into(),
            lost(true, Place::VipRepeat),
        ),
        (
            "vip-repeat.load.zero",
            "A load from a repeat of the VIP reads 0.".into(),
            lost(false, Place::VipRepeat),
        ),
        (
            "wram-repeat.store.lost",
            "A store to a repeat of WRAM is lost.".into(),
            lost(true, Place::WramRepeat),
        ),
        (
            "wram-repeat.load.zero",
            "A load from a repeat of WRAM reads 0.".into(),
            lost(false, Place::WramRepeat),
        ),
        (
            "rom-repeat.load.zero",
            "A load from a repeat of ROM reads 0.".into(),
            lost(false, Place::RomRepeat),
        ),
        (
            "bits27-31.load.zero",
            "A load with one of address bits 27 to 31 set reads 0.".into(),
            lost(false, Place::HighBits),
        ),
        (
            "bits27-31.store.lost",
            "A store with one of address bits 27 to 31 set is lost.".into(),
            lost(true, Place::HighBits),
        ),
        (
            "register.byte-write.8-bits",
            "A byte that is written to a VIP register clears its high byte.".into(),
            Bus::RegisterByte,
        ),
        (
            "register.odd-byte-write.lost",
            "A byte that is written to the odd address of a VIP register is lost.".into(),
            Bus::RegisterOddByte,
        ),
        ("rom.written", "A store to ROM changes it.".into(), Bus::RomWritten),
        (
            "half.bit0-kept",
            "A halfword at an odd address is not aligned.".into(),
            Bus::Unaligned { word: false },
        ),
        ("word.bits01-kept", "A word is not aligned.".into(), Bus::Unaligned { word: true }),
        (
            "register.word-write.low-half",
            "A word that is written to VIP registers changes the first alone.".into(),
            Bus::RegisterWord,
        ),
    ] {
        all.add(format!("bus.{end}"), "bus mirror/width rule", meaning, Effect::Bus(effect));
    }
}
