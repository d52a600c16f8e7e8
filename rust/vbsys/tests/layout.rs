//! Holds the layouts of this crate against include/vb.h: a C compiler prints
//! the sizes, offsets and constants it sees there.

use std::collections::BTreeMap;
use std::fs;
use std::mem::{align_of, offset_of, size_of};
use std::path::{Path, PathBuf};
use std::process::Command;

use vbsys::{
    op, Access, Decoded, Drawing, Encoded, Hardware, Instruction, Listed, Loaded, Machine, Part,
    Processor, Ran, Replayed, Restored, Salvaged, Stepped, Stored, Ticked, Undefined,
};

/// One line of the C program: a name, and the expression whose value it has.
struct Fact {
    expression: String,
    here: usize,
}

fn size(name: &str, here: usize) -> Fact {
    Fact { expression: format!("sizeof({name})"), here }
}

fn constant(name: &str, here: u32) -> Fact {
    Fact { expression: format!("(size_t)({name})"), here: here as usize }
}

macro_rules! fields {
    ($facts:ident, $kind:ty, $name:literal, $($field:ident),*) => {
        $facts.push(size($name, size_of::<$kind>()));
        $($facts.push(Fact {
            expression: format!("offsetof({}, {})", $name, stringify!($field)),
            here: offset_of!($kind, $field),
        });)*
    };
}

fn facts() -> Vec<Fact> {
    let mut facts = Vec::new();
    fields!(
        facts,
        Processor,
        "vb_processor",
        regs,
        pc,
        eipc,
        eipsw,
        fepc,
        fepsw,
        ecr,
        psw,
        sr25,
        sr29,
        sr31,
        mode,
        hardware
    );
    fields!(facts, Hardware, "vb_hardware", lines, count, reload, control);
    fields!(facts, Drawing, "vb_drawing", spt, gplt, jplt, bkcol);
    fields!(facts, Loaded, "vb_loaded", refusal, value, undefined);
    fields!(facts, Stored, "vb_stored", refusal, drawing, hardware);
    fields!(facts, Ticked, "vb_ticked", refusal, hardware);
    fields!(facts, Undefined, "vb_undefined", first, second, load);
    fields!(facts, Stepped, "vb_stepped", refusal, answer, code, undefined, processor, drawing);
    fields!(facts, Ran, "vb_ran", refusal, count, processor, drawing);
    fields!(facts, Machine, "vb_machine", processor, drawing);
    fields!(facts, Restored, "vb_restored", refusal, processor, drawing);
    fields!(facts, Salvaged, "vb_salvaged", refusal, replaced, kinds, contents_differ);
    fields!(facts, Part, "vb_part", refusal, offset, length);
    fields!(facts, Instruction, "vb_instruction", operation, reg1, reg2, condition, immediate);
    fields!(facts, Encoded, "vb_encoded", refusal, halfwords, first, second);
    fields!(facts, Decoded, "vb_decoded", refusal, halfwords, instruction);
    operations(&mut facts);
    fields!(facts, Listed, "vb_listed", refusal, count);
    fields!(facts, Access, "vb_access", address, size, write, value, undefined);
    fields!(facts, Replayed, "vb_replayed", refusal, answer, agreed, word, processor, drawing);
    for pak in [0, 1, 8_192, 16_777_216] {
        let expression = format!("VB_STATE_BYTES({pak})");
        facts.push(Fact { expression, here: vbsys::state_bytes(pak) });
        let expression = format!("VB_STATE_2_BYTES({pak})");
        facts.push(Fact { expression, here: vbsys::state_2_bytes(pak) });
    }
    facts.push(constant("VB_VERSION", vbsys::VERSION));
    facts.push(constant("VB_MISUSE", vbsys::MISUSE));
    facts.push(constant("VB_RUNNING", vbsys::RUNNING));
    facts.push(constant("VB_HALTED", vbsys::HALTED));
    facts.push(constant("VB_FATAL", vbsys::FATAL));
    facts.push(constant("VB_ENDED", vbsys::ENDED));
    facts.push(constant("VB_TRAPPED", vbsys::TRAPPED));
    facts.push(constant("VB_TURNED_FATAL", vbsys::TURNED_FATAL));
    facts.push(constant("VB_WAS_HALTED", vbsys::WAS_HALTED));
    facts.push(constant("VB_WAS_FATAL", vbsys::WAS_FATAL));
    facts.push(constant("VB_INTERRUPTED", vbsys::INTERRUPTED));
    for (name, here) in [
        ("VB_REPLAY_REFUSED", vbsys::REPLAY_REFUSED),
        ("VB_REPLAY_AGREED", vbsys::REPLAY_AGREED),
        ("VB_REPLAY_DIFFERED", vbsys::REPLAY_DIFFERED),
        ("VB_REPLAY_WAS_HALTED", vbsys::REPLAY_WAS_HALTED),
        ("VB_REPLAY_WAS_FATAL", vbsys::REPLAY_WAS_FATAL),
        ("VB_REPLAY_TURNED_FATAL", vbsys::REPLAY_TURNED_FATAL),
    ] {
        facts.push(constant(name, here));
    }
    for (name, here) in [
        ("VB_LINE_PAD", vbsys::LINE_PAD),
        ("VB_LINE_TIMER", vbsys::LINE_TIMER),
        ("VB_LINE_PAK", vbsys::LINE_PAK),
        ("VB_LINE_LINK", vbsys::LINE_LINK),
        ("VB_LINE_VIP", vbsys::LINE_VIP),
        ("VB_T_ENB", vbsys::T_ENB),
        ("VB_Z_STAT", vbsys::Z_STAT),
        ("VB_TIM_Z_INT", vbsys::TIM_Z_INT),
        ("VB_T_CLK_SEL", vbsys::T_CLK_SEL),
    ] {
        facts.push(constant(name, u32::from(here)));
    }
    facts
}

macro_rules! operations {
    ($facts:ident, $($name:ident),* $(,)?) => {
        $($facts.push(constant(concat!("VB_OP_", stringify!($name)), op::$name));)*
    };
}

fn operations(facts: &mut Vec<Fact>) {
    operations!(
        facts, MOV, ADD, SUB, CMP, SHL, SHR, JMP, SAR, MUL, DIV, MULU, DIVU, OR, AND, XOR, NOT,
        MOV_IMM, ADD_IMM, SETF, CMP_IMM, SHL_IMM, SHR_IMM, CLI, SAR_IMM, TRAP, RETI, HALT, LDSR,
        STSR, SEI, BCOND, MOVEA, ADDI, JR, JAL, ORI, ANDI, XORI, MOVHI, LD_B, LD_H, LD_W, ST_B,
        ST_H, ST_W, IN_B, IN_H, IN_W, OUT_B, OUT_H, OUT_W, CMPF_S, CVT_WS, CVT_SW, ADDF_S, SUBF_S,
        MULF_S, DIVF_S, XB, XH, REV, TRNC_SW, MPYHW, ILLEGAL,
    );
}

fn program(facts: &[Fact]) -> String {
    let mut text = String::from("#include \"vb.h\"\n#include <stdio.h>\nint main(void) {\n");
    for fact in facts {
        let expression = &fact.expression;
        text += &format!("    printf(\"{expression}=%zu\\n\", {expression});\n");
    }
    text + "    return 0;\n}\n"
}

fn compile_and_run(text: &str) -> String {
    let include = Path::new(env!("CARGO_MANIFEST_DIR")).join("../../include");
    let folder = PathBuf::from(env!("CARGO_TARGET_TMPDIR"));
    let (source, binary) = (folder.join("layout.c"), folder.join("layout"));
    fs::write(&source, text).expect("the temporary directory can be written");
    let compiler = std::env::var("CC").unwrap_or_else(|_| "cc".into());
    let compiled = Command::new(&compiler)
        .args(["-std=c99", "-Wall", "-Werror", "-I"])
        .arg(include)
        .arg(&source)
        .arg("-o")
        .arg(&binary)
        .status()
        .unwrap_or_else(|error| panic!("{compiler} cannot be run: {error}"));
    assert!(compiled.success(), "include/vb.h does not compile");
    let output = Command::new(&binary).output().expect("the program runs");
    String::from_utf8(output.stdout).expect("it prints text")
}

#[test]
fn a_processor_record_has_180_bytes() {
    assert_eq!((size_of::<Processor>(), size_of::<Hardware>()), (180, 8));
    assert_eq!(offset_of!(Processor, hardware), 172);
    assert_eq!(size_of::<Stepped>(), 232);
    assert_eq!((size_of::<Ran>(), size_of::<Machine>()), (224, 208));
}

#[test]
fn layouts_are_those_of_the_header() {
    let facts = facts();
    let printed = compile_and_run(&program(&facts));
    let there: BTreeMap<&str, usize> = printed
        .lines()
        .map(|line| line.split_once('=').expect("name=value"))
        .map(|(name, value)| (name, value.parse().expect("a number")))
        .collect();
    assert_eq!(there.len(), facts.len());
    for fact in &facts {
        assert_eq!(there[fact.expression.as_str()], fact.here, "{}", fact.expression);
    }
}

#[test]
fn an_access_has_20_bytes() {
    assert_eq!((size_of::<Access>(), align_of::<Access>()), (20, 4));
    assert_eq!(offset_of!(Replayed, agreed), 8);
}

#[test]
fn layouts_have_no_surprises() {
    assert_eq!(size_of::<Processor>(), 43 * 4 + 4 * 2);
    assert_eq!(size_of::<Stored>(), 40);
    assert_eq!(size_of::<Ticked>(), 12);
    assert_eq!(size_of::<Drawing>(), 13 * 2);
    assert_eq!(size_of::<Loaded>(), 12);
    assert_eq!(size_of::<Instruction>(), 20);
    assert_eq!((size_of::<Encoded>(), size_of::<Decoded>()), (12, 28));
    assert_eq!(align_of::<Ran>(), 8);
    assert_eq!(size_of::<Listed>(), 16);
}
