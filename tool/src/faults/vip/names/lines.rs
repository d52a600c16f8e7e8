//! Bits and lines that are stuck or bridged: fields of records, cells, parameters, registers, addresses, frame buffers.

use super::super::buffer::Buffer;
use super::super::memory::Memory;
use super::super::registers::{Character, Register};
use super::super::tables::Table;
use super::super::{Bits, Effect};
use super::{Field, Names};

/// Name, halfword, lowest bit, width, how it is called.
type Row = (&'static str, usize, u32, u32, &'static str);

pub const WORLD: [Row; 18] = [
    ("lon", 0, 15, 1, "LON"),
    ("ron", 0, 14, 1, "RON"),
    ("bgm", 0, 12, 2, "BGM"),
    ("scx", 0, 10, 2, "SCX"),
    ("scy", 0, 8, 2, "SCY"),
    ("over", 0, 7, 1, "OVER"),
    ("end", 0, 6, 1, "END"),
    ("base", 0, 0, 4, "the map base"),
    ("gx", 1, 0, 10, "GX"),
    ("gp", 2, 0, 10, "GP"),
    ("gy", 3, 0, 16, "GY"),
    ("mx", 4, 0, 13, "MX"),
    ("mp", 5, 0, 15, "MP"),
    ("my", 6, 0, 13, "MY"),
    ("w", 7, 0, 13, "W"),
    ("h", 8, 0, 16, "H"),
    ("param", 9, 0, 16, "the parameter base"),
    ("overplane", 10, 0, 16, "the overplane's cell number"),
];

pub const OBJECT: [Row; 9] = [
    ("jx", 0, 0, 10, "JX"),
    ("jlon", 1, 15, 1, "JLON"),
    ("jron", 1, 14, 1, "JRON"),
    ("jp", 1, 0, 10, "JP"),
    ("jy", 2, 0, 8, "JY"),
    ("jplt", 3, 14, 2, "the palette number"),
    ("hflip", 3, 13, 1, "the horizontal flip"),
    ("vflip", 3, 12, 1, "the vertical flip"),
    ("char", 3, 0, 11, "the character number"),
];

const EYES: [&str; 2] = ["left", "right"];

fn mask(raised: u32, width: u32) -> u16 {
    (((1u32 << width) - 1) << raised) as u16
}

pub fn worlds(names: &mut Names) {
    let class = "vip world field bit";
    for (name, half, raised, width, called) in WORLD {
        let (prefix, what) = (format!("vip.world.{name}"), format!("{called} of every world"));
        let field = Field { prefix: &prefix, class, what: &what, first: 0, width, raised };
        names.field(field, |bits| Effect::Table(Table::World { half, bits }));
    }
    for (name, half, raised, width, called) in WORLD {
        for (beside, after) in [("next", true), ("previous", false)] {
            let table = Table::WorldNeighbour { half, mask: mask(raised, width), after };
            let name = format!("vip.world.{name}.of-{beside}");
            let meaning = format!("A world has {called} of the world with the {beside} number.");
            names.add(&name, "vip neighbouring record", &meaning, Effect::Table(table));
        }
    }
    let class = "vip record address";
    let (prefix, what) = ("vip.world.number", "the number of the world record that is read");
    let field = Field { prefix, class, what, first: 0, width: 5, raised: 0 };
    names.field(field, |bits| Effect::Table(Table::WorldNumber(bits)));
    for world in 0..32 {
        let (name, meaning) = (format!("vip.world.{world}.lost"), "is passed over");
        let meaning = format!("World {world} {meaning}.");
        names.add(&name, class, &meaning, Effect::Table(Table::WorldLost(world)));
    }
}

pub fn objects(names: &mut Names) {
    let class = "vip object field bit";
    for (name, half, raised, width, called) in OBJECT {
        let (prefix, what) = (format!("vip.object.{name}"), format!("{called} of every object"));
        let field = Field { prefix: &prefix, class, what: &what, first: 0, width, raised };
        names.field(field, |bits| Effect::Table(Table::Object { half, bits }));
    }
    for (name, half, raised, width, called) in OBJECT {
        for (beside, after) in [("next", true), ("previous", false)] {
            let table = Table::ObjectNeighbour { half, mask: mask(raised, width), after };
            let name = format!("vip.object.{name}.of-{beside}");
            let meaning = format!("An object has {called} of the object with the {beside} number.");
            names.add(&name, "vip neighbouring record", &meaning, Effect::Table(table));
        }
    }
    let (prefix, what) = ("vip.object.number", "the number of the object record that is read");
    let class = "vip record address";
    let field = Field { prefix, class, what, first: 0, width: 10, raised: 0 };
    names.field(field, |bits| Effect::Table(Table::ObjectNumber(bits)));
}

pub fn memory(names: &mut Names) {
    let (prefix, class, what) = ("vip.cell", "vip cell field bit", "every cell that is read");
    for (first, width) in [(0, 11), (12, 2), (14, 2)] {
        let field = Field { prefix, class, what, first, width, raised: 0 };
        names.field(field, |bits| Effect::Memory(Memory::Cell(bits)));
    }
    let class = "vip parameter bit";
    let what = "every H-bias offset";
    let field = Field { prefix: "vip.param.hbias", class, what, first: 0, width: 13, raised: 0 };
    names.field(field, |bits| Effect::Memory(Memory::HBias(bits)));
    for (place, name) in ["mx", "mp", "my", "dx", "dy"].into_iter().enumerate() {
        let prefix = format!("vip.param.{name}");
        let what = format!("{} of every affine row", name.to_uppercase());
        let field = Field { prefix: &prefix, class, what: &what, first: 0, width: 16, raised: 0 };
        names.field(field, |bits| Effect::Memory(Memory::Affine { place, bits }));
    }
    let (prefix, what) = ("vip.param.index", "the index of a parameter");
    let class = "vip record address";
    let field = Field { prefix, class, what, first: 0, width: 16, raised: 0 };
    names.field(field, |bits| Effect::Memory(Memory::ParameterIndex(bits)));
    let class = "vip map/cell address";
    let (prefix, what) = ("vip.map.number", "the number of the map that is read");
    let field = Field { prefix, class, what, first: 0, width: 4, raised: 0 };
    names.field(field, |bits| Effect::Memory(Memory::MapNumber(bits)));
    let (prefix, what) = ("vip.map.cell", "the number of the cell in its map");
    let field = Field { prefix, class, what, first: 0, width: 12, raised: 0 };
    names.field(field, |bits| Effect::Memory(Memory::MapCell(bits)));
}

pub fn registers(names: &mut Names) {
    let class = "vip palette/BKCOL bit";
    type Make = fn(usize, Bits) -> Register;
    for (name, make) in [("gplt", Register::Gplt as Make), ("jplt", Register::Jplt as Make)] {
        for n in 0..4 {
            let (prefix, what) = (format!("vip.{name}{n}"), format!("{}{n}", name.to_uppercase()));
            let field =
                Field { prefix: &prefix, class, what: &what, first: 2, width: 6, raised: 0 };
            names.field(field, |bits| Effect::Register(make(n, bits)));
        }
    }
    let field = Field { prefix: "vip.bkcol", class, what: "BKCOL", first: 0, width: 2, raised: 0 };
    names.field(field, |bits| Effect::Register(Register::Bkcol(bits)));
    let class = "vip SPT bit";
    for n in 0..4 {
        let (prefix, what) = (format!("vip.spt{n}"), format!("SPT{n}"));
        let field = Field { prefix: &prefix, class, what: &what, first: 0, width: 10, raised: 0 };
        names.field(field, |bits| Effect::Register(Register::Spt(n, bits)));
    }
}

pub fn characters(names: &mut Names) {
    let class = "vip character address/data";
    type Make = fn(Bits) -> Character;
    let rows: [(&str, u32, Make, &str); 4] = [
        ("vip.char.number", 11, Character::Number, "the number of the character that is read"),
        ("vip.char.row", 3, Character::Row, "the row in a character, after its flip"),
        ("vip.char.column", 3, Character::Column, "the column in a character, after its flip"),
        ("vip.char.data", 16, Character::Data, "a character row's halfword"),
    ];
    for (prefix, width, make, what) in rows {
        let field = Field { prefix, class, what, first: 0, width, raised: 0 };
        names.field(field, |bits| Effect::Character(make(bits)));
    }
}

pub fn buffers(names: &mut Names) {
    let class = "vip pixel column/row line";
    for (eye, side) in EYES.into_iter().enumerate() {
        for (x, shade) in (0..384).flat_map(|x| [(x, 0), (x, 3)]) {
            let name = format!("vip.fb.column.{x}.{side}.stuck{shade}");
            let meaning = format!("Column {x} of the {side} picture has shade {shade} throughout.");
            names.add(&name, class, &meaning, Effect::Buffer(Buffer::Column { x, eye, shade }));
        }
        for (y, shade) in (0..224).flat_map(|y| [(y, 0), (y, 3)]) {
            let name = format!("vip.fb.row.{y}.{side}.stuck{shade}");
            let meaning = format!("Row {y} of the {side} picture has shade {shade} throughout.");
            names.add(&name, class, &meaning, Effect::Buffer(Buffer::Row { y, eye, shade }));
        }
    }
    data_and_address(names);
    strips(names);
}

/// The names of data lines have the eye between bit and kind.
fn data_and_address(names: &mut Names) {
    let class = "vip frame buffer data/address";
    for (eye, side) in EYES.into_iter().enumerate() {
        for (bit, one) in (0..16).flat_map(|bit| [(bit, false), (bit, true)]) {
            let value = u32::from(one);
            let bits = if one { Bits::Stuck1(bit) } else { Bits::Stuck0(bit) };
            let name = format!("vip.fb.data.{bit}.{side}.stuck{value}");
            let meaning = format!(
                "Bit {bit} of each halfword that is stored for the {side} eye is always {value}."
            );
            names.add(&name, class, &meaning, Effect::Buffer(Buffer::Data { eye, bits }));
        }
        for (bit, or) in (0..15).flat_map(|bit| [(bit, false), (bit, true)]) {
            let (rule, high) = (if or { "or" } else { "and" }, bit + 1);
            let bits = if or { Bits::Or(bit, high) } else { Bits::And(bit, high) };
            let name = format!("vip.fb.data.{bit}-{high}.{side}.{rule}");
            let meaning = format!(
                "Bits {bit} and {high} of each halfword that is stored for the {side} eye are their {}.",
                rule.to_uppercase()
            );
            names.add(&name, super::BRIDGE, &meaning, Effect::Buffer(Buffer::Data { eye, bits }));
        }
    }
    let what = "the number of the halfword where a picture's halfword is stored";
    let field = Field { prefix: "vip.fb.address", class, what, first: 0, width: 14, raised: 0 };
    names.field(field, |bits| Effect::Buffer(Buffer::Address(bits)));
}

fn strips(names: &mut Names) {
    let class = "vip strip";
    for strip in 0..28 {
        let name = format!("vip.strip.{strip}.skipped");
        let meaning = format!("Strip {strip} is not stored.");
        names.add(&name, class, &meaning, Effect::Buffer(Buffer::StripSkipped(strip)));
    }
    for strip in 1..28 {
        let name = format!("vip.strip.{strip}.repeats-previous");
        let meaning = format!("Strip {strip} shows what strip {} shows.", strip - 1);
        names.add(&name, class, &meaning, Effect::Buffer(Buffer::StripRepeats(strip)));
    }
}
