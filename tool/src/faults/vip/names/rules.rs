//! Rules that a die keeps wrongly: windows, order, parallax, exchanges, what becomes of a picture.

use super::super::buffer::Buffer;
use super::super::memory::Memory;
use super::super::order::Order;
use super::super::registers::Register;
use super::super::tables::{Table, AFFINE, H_BIAS, NORMAL};
use super::super::window::{Side, Window};
use super::super::{Bits, Effect};
use super::Names;

const EYES: [&str; 2] = ["left", "right"];

pub fn windows(names: &mut Names) {
    let class = "vip window edge";
    let sides = [
        ("left", Side::Left),
        ("right", Side::Right),
        ("top", Side::Top),
        ("bottom", Side::Bottom),
    ];
    for (kind, name) in [(NORMAL, "normal"), (H_BIAS, "hbias"), (AFFINE, "affine")] {
        for (place, side) in sides {
            for (more, than) in [("one-less", false), ("one-more", true)] {
                let outwards = than == matches!(side, Side::Right | Side::Bottom);
                let of = if outwards { "further out" } else { "further in" };
                let meaning =
                    format!("The {place} edge of a window of kind {name} lies one pixel {of}.");
                let effect = Effect::Window(Window::Edge { kind, side, outwards });
                names.add(&format!("vip.window.{name}.{place}.{more}"), class, &meaning, effect);
            }
        }
    }
    let rows = [
        (
            "left-edge.paints-last-column",
            "A window wholly left of the picture paints its last column at column 0.",
            Window::LastColumn,
        ),
        (
            "top-edge.paints-last-row",
            "A window wholly above the picture paints its last row at row 0.",
            Window::LastRow,
        ),
        ("left.unsigned", "GX is read without its sign.", Window::LeftUnsigned),
        ("top.unsigned", "GY is read without its sign.", Window::TopUnsigned),
        (
            "normal.plain-height",
            "A normal world has H + 1 rows and not the rest of its first strip.",
            Window::PlainHeight { kind: NORMAL },
        ),
        (
            "hbias.plain-height",
            "An H-bias world has H + 1 rows and not the rest of its first strip.",
            Window::PlainHeight { kind: H_BIAS },
        ),
    ];
    for (name, meaning, window) in rows {
        names.add(&format!("vip.window.{name}"), class, meaning, Effect::Window(window));
    }
    for (axis, x) in [("x", true), ("y", false)] {
        let meaning = format!("An affine source's {axis} is rounded towards 0, not down.");
        let effect = Effect::Window(Window::Truncated { x });
        names.add(&format!("vip.affine.{axis}.truncated"), "vip affine rounding", &meaning, effect);
    }
}

pub fn order(names: &mut Names) {
    let rows = [
        ("worlds.reversed", "World 31 is in front and world 0 behind.", Order::WorldsReversed),
        ("objects.reversed", "A group's first object is in front.", Order::ObjectsReversed),
        ("group.counter.stuck3", "Every object world draws group 3.", Order::CounterStuck3),
        ("group.counter.upwards", "The group counter counts upwards.", Order::CounterUpwards),
        ("group.counter.stays-at-0", "The group counter stays at 0.", Order::CounterStaysAt0),
        ("group.counter.from-2", "The group counter starts with 2.", Order::CounterFrom2),
        (
            "group.counts-skipped",
            "An object world with LON and RON clear counts as a group.",
            Order::CountsSkipped,
        ),
        (
            "group.bound.one-more",
            "Groups 1 to 3 end one object later: with the object of SPT of the group below.",
            Order::BoundOneMore,
        ),
        ("group.bound.one-less", "Groups 1 to 3 end one object earlier.", Order::BoundOneLess),
        (
            "group.equal.empty",
            "A group whose SPT is that of the group below is empty.",
            Order::EqualEmpty,
        ),
        ("group.first-lost", "A group's first object is not drawn.", Order::FirstLost),
        ("end.one-late", "The world with END is still drawn.", Order::EndOneLate),
        ("group0.to-object-1", "Group 0 ends with object 1.", Order::Group0ToObject1),
    ];
    let class = "vip order/groups";
    for (name, meaning, order) in rows {
        names.add(&format!("vip.order.{name}"), class, meaning, Effect::Order(order));
    }
    let lost = Effect::Table(Table::WorldLost(0));
    names.add("vip.order.world0.lost", class, "World 0 is never drawn.", lost);
    let rows = [
        (
            "left-of-screen.lost",
            "An object that starts left of the picture is not drawn.",
            Order::LeftOfScreenLost,
        ),
        (
            "row-wrap.lost",
            "An object with JY above 248 does not show its lower rows at the top.",
            Order::RowWrapLost,
        ),
        (
            "right-edge.wraps",
            "An object over the right edge goes on at column 0.",
            Order::RightEdgeWraps,
        ),
        (
            "world-flags.hide",
            "LON and RON of an object world hide its objects from an eye.",
            Order::WorldFlagsHide,
        ),
    ];
    for (name, meaning, order) in rows {
        names.add(&format!("vip.object.{name}"), OTHER, meaning, Effect::Order(order));
    }
}

const OTHER: &str = "vip other";

pub fn parallax(names: &mut Names) {
    let class = "vip parallax";
    let mut add = |name: &str, meaning: String, effect: Effect| {
        names.add(&format!("vip.parallax.{name}"), class, &meaning, effect);
    };
    for (name, half, mask, called) in [("gp", 2, 0x3FF, "GP"), ("mp", 5, 0x7FFF, "MP")] {
        let effect = Effect::Table(Table::WorldNegated { half, mask });
        add(&format!("{name}.sign"), format!("{called} of a world is negated."), effect);
        for (eye, side) in EYES.into_iter().enumerate() {
            let effect = Effect::Table(Table::WorldZero { half, mask, eye });
            let meaning = format!("The {side} eye takes {called} of a world for 0.");
            add(&format!("{name}.ignored-{side}"), meaning, effect);
        }
    }
    let (half, mask) = (1, 0x3FF);
    let effect = Effect::Table(Table::ObjectNegated { half, mask });
    add("jp.sign", "JP of an object is negated.".to_string(), effect);
    for (eye, side) in EYES.into_iter().enumerate() {
        let effect = Effect::Table(Table::ObjectZero { half, mask, eye });
        add(&format!("jp.ignored-{side}"), format!("The {side} eye takes JP for 0."), effect);
    }
    let effect = Effect::Memory(Memory::AffineMpNegated);
    add("affine-mp.sign", "MP of an affine row is negated.".to_string(), effect);
    for (eye, side) in EYES.into_iter().enumerate() {
        let meaning = format!("The {side} eye takes MP of an affine row for 0.");
        let effect = Effect::Memory(Memory::AffineMpZero { eye });
        add(&format!("affine-mp.ignored-{side}"), meaning, effect);
    }
}

/// Things that change places, or are read the wrong way round.
pub fn exchanges(names: &mut Names) {
    let class = "vip exchange";
    let world =
        |a, b, width| Effect::Table(Table::World { half: 0, bits: Bits::Exchanged(a, b, width) });
    let object = |half, a, b| Effect::Table(Table::Object { half, bits: Bits::Exchanged(a, b, 1) });
    let inverted = |bit| Effect::Table(Table::World { half: 0, bits: Bits::Inverted(bit) });
    let flips = Effect::Memory(Memory::Cell(Bits::Exchanged(12, 13, 1)));
    let rows = [
        ("vip.lon-ron.exchanged", OTHER, "LON and RON of a world change places.", world(14, 15, 1)),
        ("vip.over.inverted", OTHER, "OVER is read the other way round.", inverted(7)),
        ("vip.world.scx-scy.exchanged", class, "SCX and SCY change places.", world(8, 10, 2)),
        (
            "vip.object.jlon-jron.exchanged",
            class,
            "JLON and JRON change places.",
            object(1, 14, 15),
        ),
        (
            "vip.object.flips.exchanged",
            class,
            "An object's flips change places.",
            object(3, 12, 13),
        ),
        ("vip.cell.flips.exchanged", class, "A cell's flips change places.", flips),
    ];
    for (name, class, meaning, effect) in rows {
        names.add(name, class, meaning, effect);
    }
    palettes(names, class);
    for (a, b, name) in [(0, 2, "mx-my"), (3, 4, "dx-dy")] {
        let called = name.to_uppercase().replace('-', " and ");
        let meaning = format!("{called} of an affine row change places.");
        let effect = Effect::Memory(Memory::AffineExchanged(a, b));
        names.add(&format!("vip.param.{name}.exchanged"), class, &meaning, effect);
    }
    let meaning = "The maps of a background of at most eight stand in columns, not in rows.";
    names.add("vip.map.order.by-columns", class, meaning, Effect::Memory(Memory::MapsByColumns));
    for (eye, side, h_bias) in [(0, "left", 1), (1, "right", -1)] {
        let effect = Effect::Table(Table::Parameters { h_bias, affine: 0, eye });
        let meaning = format!("The {side} eye uses the other eye's H-bias offset.");
        names.add(&format!("vip.param.hbias.{side}.of-other-eye"), class, &meaning, effect);
    }
}

fn palettes(names: &mut Names, class: &'static str) {
    type Make = fn(usize, usize) -> Register;
    let pairs = [(0, 1), (0, 2), (0, 3), (1, 2), (1, 3), (2, 3)];
    let all: [(&str, Make); 3] = [
        ("gplt", Register::GpltExchanged),
        ("jplt", Register::JpltExchanged),
        ("spt", Register::SptExchanged),
    ];
    for (name, make) in all {
        for (a, b) in pairs {
            let called = name.to_uppercase();
            let meaning = format!("{called}{a} and {called}{b} change places.");
            let effect = Effect::Register(make(a, b));
            names.add(&format!("vip.{name}.{a}-{b}.exchanged"), class, &meaning, effect);
        }
    }
    type Entry = fn(usize, Bits) -> Register;
    for (name, make) in [("gplt", Register::Gplt as Entry), ("jplt", Register::Jplt as Entry)] {
        for (n, (a, b)) in (0..4).flat_map(|n| [(n, (1, 2)), (n, (1, 3)), (n, (2, 3))]) {
            let called = name.to_uppercase();
            let meaning = format!("The shades of values {a} and {b} in {called}{n} change places.");
            let effect = Effect::Register(make(n, Bits::Exchanged(2 * a, 2 * b, 2)));
            names.add(&format!("vip.{name}{n}.values.{a}-{b}.exchanged"), class, &meaning, effect);
        }
    }
    let rows = [
        ("vip.jplt.is-gplt", "Objects use GPLT0 to GPLT3.", Register::ObjectsUseGplt),
        ("vip.gplt.is-jplt", "Backgrounds use JPLT0 to JPLT3.", Register::BackgroundsUseJplt),
    ];
    for (name, meaning, register) in rows {
        names.add(name, class, meaning, Effect::Register(register));
    }
}

/// What becomes of a whole picture.
pub fn pictures(names: &mut Names) {
    let later = Effect::Table(Table::Parameters { h_bias: 2, affine: 8, eye: 1 });
    let rows = [
        (
            "vip.value0.opaque",
            "A dot of value 0 is painted, with the palette's lowest two bits.",
            Effect::Value0Opaque,
        ),
        (
            "vip.eyes.exchanged",
            "Each eye's picture is stored for the other.",
            Effect::Buffer(Buffer::EyesExchanged),
        ),
        (
            "vip.frame.always-0",
            "Every picture is stored in frame buffer 0.",
            Effect::Buffer(Buffer::FrameAlways(0)),
        ),
        (
            "vip.frame.always-1",
            "Every picture is stored in frame buffer 1.",
            Effect::Buffer(Buffer::FrameAlways(1)),
        ),
        (
            "vip.image.last-drawn-byte-lost",
            "The byte of column 383, rows 220 to 223, is not stored.",
            Effect::Buffer(Buffer::ByteLost(64 * 383 + 55)),
        ),
        (
            "vip.right-eye.later-records",
            "The right eye uses the H-bias and affine parameters of the row after.",
            later,
        ),
        (
            "vip.fb.columns.mirrored",
            "Columns are stored from right to left.",
            Effect::Buffer(Buffer::ColumnsMirrored),
        ),
    ];
    for (name, meaning, effect) in rows {
        names.add(name, OTHER, meaning, effect);
    }
    let effect = Effect::Buffer(Buffer::ByteLost(64 * 383 + 63));
    names.add(
        "vip.image.last-byte-lost",
        OTHER,
        "The last byte of an image is not stored.",
        effect,
    );
    names.equivalent("rows 252 to 255 are never drawn");
    for (eye, side) in EYES.into_iter().enumerate() {
        let meaning = format!("The {side} eye starts with shade 0, not with BKCOL.");
        let effect = Effect::BkcolZero { eye };
        names.add(&format!("vip.bkcol.{side}.zero"), OTHER, &meaning, effect);
        let meaning = format!("The {side} eye's picture is not stored.");
        let effect = Effect::Buffer(Buffer::EyeLost(eye));
        names.add(&format!("vip.fb.{side}.lost"), OTHER, &meaning, effect);
    }
}
