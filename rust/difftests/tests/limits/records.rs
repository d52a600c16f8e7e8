//! Refusals 5, 10 and 16: each field of the machine's records on both sides of its
//! limits, as a call is given it and as a file holds it.

use crate::base::bodies_of;
use crate::calls::{Call, Given};
use crate::rows::{rows, Row};

/// A field of the machine's records: its kind and number in a saved state, the values
/// on both sides of each of its limits.
struct Field {
    name: String,
    kind: u32,
    number: usize,
    accepted: Vec<u32>,
    refused: Vec<u32>,
}

/// Bits that a word of `width` bits may have, and bits that it may not, each alone.
fn bits(mask: u32, width: u32) -> (Vec<u32>, Vec<u32>) {
    let (inside, outside) =
        (0..width).map(|bit| 1 << bit).partition::<Vec<u32>, _>(|bit| bit & mask != 0);
    ([vec![0, mask], inside].concat(), [outside, vec![u32::MAX >> (32 - width)]].concat())
}

/// Every condition of refusal 5: "register 0 isn't 0, PC, EIPC, FEPC or register 25 is
/// odd, PSW, EIPSW or FEPSW has a bit outside its format, the value of 31 exceeds
/// 0x80000000, a drawing register exceeds its width", and of W6's record.
fn fields() -> Vec<Field> {
    let field = |name: &str, kind, number, (accepted, refused)| Field {
        name: name.into(),
        kind,
        number,
        accepted,
        refused,
    };
    let even = (vec![0, 0x0500_0000, 0xFFFF_FFFE], vec![1, 0x0500_0001, 0x8000_0001, 0xFFFF_FFFF]);
    let free = (vec![0, 1, 0x8000_0001, 0xFFFF_FFFF], vec![]);
    let mut all = vec![
        field("r0", 1, 0, (vec![0], vec![1, 2, 0x8000_0000, 0xFFFF_FFFF])),
        field("r1", 1, 1, free.clone()),
        field("r31", 1, 31, free.clone()),
        field("PC", 1, 32, (vec![0x0500_0000, 0x0500_0002, 0xFFFF_FFFE], even.1.clone())),
        field("EIPC", 1, 33, even.clone()),
        field("EIPSW", 1, 34, bits(0x000F_F3FF, 32)),
        field("FEPC", 1, 35, even.clone()),
        field("FEPSW", 1, 36, bits(0x000F_F3FF, 32)),
        field("ECR", 1, 37, free.clone()),
        field("PSW", 1, 38, bits(0x000F_F3FF, 32)),
        field("system register 25", 1, 39, even),
        field("system register 29", 1, 40, free),
        field(
            "system register 31",
            1,
            41,
            (vec![0, 0x7FFF_FFFF, 0x8000_0000], vec![0x8000_0001, 0xC000_0000, 0xFFFF_FFFF]),
        ),
        field("lines", 6, 0, bits(0x1F, 16)),
        field("count", 6, 1, (vec![0, 0x8000, 0xFFFF], vec![])),
        field("reload", 6, 2, (vec![0, 0x8000, 0xFFFF], vec![])),
        field("control", 6, 3, bits(0x1B, 16)),
    ];
    for (number, most) in [0x3FF, 0xFF, 0xFF].into_iter().enumerate() {
        let name = ["SPT", "GPLT", "JPLT"][number];
        for one in 0..4 {
            let limits = (vec![0, most], vec![most + 1, 0x8000, 0xFFFF]);
            all.push(field(&format!("{name}{one}"), 2, 4 * number + one, limits));
        }
    }
    all.push(field("BKCOL", 2, 12, (vec![0, 3], vec![4, 0x8000, 0xFFFF])));
    all
}

/// Puts a value into a field of the records that a call is given.
fn put_field(given: &mut Given, kind: u32, number: usize, value: u32) {
    let (p, d) = (&mut given.processor, &mut given.drawing);
    let words = [
        &mut p.pc,
        &mut p.eipc,
        &mut p.eipsw,
        &mut p.fepc,
        &mut p.fepsw,
        &mut p.ecr,
        &mut p.psw,
        &mut p.sr25,
        &mut p.sr29,
        &mut p.sr31,
        &mut p.mode,
    ];
    let h = &mut p.hardware;
    match (kind, number) {
        (1, 0..=31) => p.regs[number] = value,
        (1, _) => *words.into_iter().nth(number - 32).expect("43 words") = value,
        (2, 0..=3) => d.spt[number] = value as u16,
        (2, 4..=7) => d.gplt[number - 4] = value as u16,
        (2, 8..=11) => d.jplt[number - 8] = value as u16,
        (2, _) => d.bkcol = value as u16,
        (_, 0) => h.lines = value as u16,
        (_, 1) => h.count = value as u16,
        (_, 2) => h.reload = value as u16,
        _ => h.control = value as u16,
    }
}

/// The rows of these fields, whatever sets them.
fn field_rows(
    number: u32,
    fields: &[Field],
    set: impl Fn(&mut Given, u32, usize, u32) + Copy + 'static,
) -> Vec<Row> {
    let mut all = Vec::new();
    for Field { name, kind, number: at, accepted, refused } in fields {
        for (value, is_refused) in
            accepted.iter().map(|v| (*v, false)).chain(refused.iter().map(|v| (*v, true)))
        {
            let (kind, at) = (*kind, *at);
            all.push(Row {
                number,
                refused: is_refused,
                what: format!("{name} {value:#X}"),
                large: false,
                change: Box::new(move |given| set(given, kind, at, value)),
            });
        }
    }
    all
}

/// Refusal 5, for the records that the call is given.
pub fn record_rows(call: Call) -> Vec<Row> {
    let kinds: &[u32] = match call {
        Call::Bus(_) | Call::AccessList => &[2, 6],
        Call::Tick => &[6],
        Call::DrawStrip | Call::DrawFrame | Call::PixelBytes => &[2],
        _ => &[1, 2, 6],
    };
    let given: Vec<Field> =
        fields().into_iter().filter(|field| kinds.contains(&field.kind)).collect();
    field_rows(5, &given, put_field)
}

/// Refusal 10: each byte before the first body, each stored sum, each field of the
/// records.
pub fn file_rows(base: &Given) -> Vec<Row> {
    let bodies = bodies_of(&base.file, base.buffers.pak.len());
    let first = bodies.iter().map(|body| body.place).min().expect("a file has bodies");
    // another first halfword would choose the other form, which 9 refuses
    let from = if base.file.starts_with(&[0, 0]) { 2 } else { 0 };
    let bytes: Vec<usize> = (from..first).collect();
    let mut all = rows(10, "contents at", &[], &bytes, |given, at| given.file[at] ^= 0x40);
    let in_file = |given: &mut Given, kind: u32, number: usize, value: u32| {
        let bodies = bodies_of(&given.file, given.buffers.pak.len());
        let body = bodies.into_iter().find(|body| body.kind == kind).expect("it has this kind");
        body.put(&mut given.file, number, value);
    };
    let mut fields = fields();
    let mode = (vec![0, 1, 2], vec![3, 256, 0xFFFF_FFFF]);
    fields.push(Field {
        name: "mode".into(),
        kind: 1,
        number: 42,
        accepted: mode.0,
        refused: mode.1,
    });
    fields.retain(|field| bodies.iter().any(|body| body.kind == field.kind));
    // a move to form 1 has lines and timer at reset, which is 16's
    all.extend(field_rows(10, &fields, in_file));
    all
}

/// Refusal 16: each bit of lines and timer alone, in the record or in the file.
pub fn reset_rows(call: Call) -> Vec<Row> {
    let fields: Vec<Field> =
        [("lines", 0x1F), ("count", 0xFFFF), ("reload", 0xFFFF), ("control", 0x1B)]
            .into_iter()
            .enumerate()
            .map(|(number, (name, mask))| Field {
                name: name.into(),
                kind: 6,
                number,
                accepted: vec![0],
                refused: (0..16).map(|bit| 1 << bit).filter(|bit| bit & mask != 0).collect(),
            })
            .collect();
    let set = move |given: &mut Given, kind: u32, number: usize, value: u32| {
        if call == Call::MoveState {
            let bodies = bodies_of(&given.file, given.buffers.pak.len());
            bodies[bodies.len() - 1].put(&mut given.file, number, value);
        } else {
            put_field(given, kind, number, value);
        }
    };
    field_rows(16, &fields, set)
}
