//! The drawing list: which worlds and which groups of objects are drawn, in which order, and faults of that.

use vb::Drawing;

use super::tables::{Object, Table, World, END, OBJECTS, SHOWN};
use super::window::{kind, signed};
use super::Effect;

/// A fault of order, groups or objects.
#[derive(Clone, Debug, PartialEq, Eq)]
pub enum Order {
    WorldsReversed,
    ObjectsReversed,
    CounterStuck3,
    CounterUpwards,
    CounterStaysAt0,
    CounterFrom2,
    /// Worlds of objects that are passed over count.
    CountsSkipped,
    /// The bound that SPT of the group below gives lies one object further on.
    BoundOneMore,
    BoundOneLess,
    EqualEmpty,
    Group0ToObject1,
    /// Groups begin one object late.
    FirstLost,
    EndOneLate,
    LeftOfScreenLost,
    RowWrapLost,
    RightEdgeWraps,
    /// LON and RON of an object world hide its objects, too.
    WorldFlagsHide,
}

/// One thing that is drawn, as each eye sees it.
#[derive(Clone, Debug, PartialEq)]
pub enum Piece {
    World([World; 2]),
    Objects([Vec<Object>; 2]),
}

/// Worlds and objects as they were read, and the fault.
pub struct Tables<'a> {
    pub worlds: &'a [World],
    pub objects: &'a [Object],
    pub drawing: &'a Drawing,
    pub effect: &'a Effect,
}

impl Tables<'_> {
    fn has(&self, order: Order) -> bool {
        *self.effect == Effect::Order(order)
    }

    /// What is drawn, first to last.
    pub fn pieces(&self) -> Vec<Piece> {
        let mut pieces = Vec::new();
        let mut group = if self.has(Order::CounterFrom2) { 2 } else { 3 };
        for (number, world) in self.worlds.iter().enumerate().rev() {
            let last = world[0] & END != 0;
            if last && !self.has(Order::EndOneLate) {
                break;
            }
            let lost = *self.effect == Effect::Table(Table::WorldLost(number));
            let shown = world[0] & (SHOWN[0] | SHOWN[1]) != 0 && !lost;
            if kind(world) == OBJECTS && (shown || self.has(Order::CountsSkipped)) {
                if shown {
                    pieces.push(self.group(world, group));
                }
                group = self.next(group);
            } else if shown {
                pieces.extend(self.world(world));
            }
            if last {
                break;
            }
        }
        if self.has(Order::WorldsReversed) {
            pieces.reverse();
        }
        pieces
    }

    fn next(&self, group: usize) -> usize {
        match self.effect {
            Effect::Order(Order::CounterStuck3) => 3,
            Effect::Order(Order::CounterUpwards) => (group + 1) % 4,
            Effect::Order(Order::CounterStaysAt0) => group.saturating_sub(1),
            _ => (group + 3) % 4,
        }
    }

    fn world(&self, world: &World) -> Option<Piece> {
        let mut eyes = [*world; 2];
        for (eye, world) in eyes.iter_mut().enumerate() {
            match self.effect {
                Effect::Table(table) => *world = table.world_of_eye(*world, eye),
                Effect::Window(window) => *world = window.world_of_eye(*world, eye)?,
                _ => {}
            }
        }
        Some(Piece::World(eyes))
    }

    /// The numbers of a group's objects in drawing order.
    fn numbers(&self, group: usize) -> Vec<usize> {
        let spt = self.drawing.spt.map(i32::from);
        let below = match group {
            0 if self.has(Order::Group0ToObject1) => 0,
            0 => -1,
            _ if self.has(Order::BoundOneMore) => spt[group - 1] - 1,
            _ if self.has(Order::BoundOneLess) => spt[group - 1] + 1,
            _ => spt[group - 1],
        };
        let length = match (spt[group] - below).rem_euclid(1_024) {
            0 if group == 0 => spt[0] - below,
            0 if self.has(Order::EqualEmpty) => 0,
            0 => 1_024,
            length => length,
        };
        let first = i32::from(self.has(Order::FirstLost));
        let mut numbers: Vec<usize> =
            (first..length).map(|n| (spt[group] - n).rem_euclid(1_024) as usize).collect();
        if self.has(Order::ObjectsReversed) {
            numbers.reverse();
        }
        numbers
    }

    fn group(&self, world: &World, group: usize) -> Piece {
        let numbers = self.numbers(group);
        let list = |eye: usize| {
            let hidden = self.has(Order::WorldFlagsHide) && world[0] & SHOWN[eye] == 0;
            let numbers = if hidden { &[] } else { numbers.as_slice() };
            let objects = numbers.iter().map(|&number| self.objects[number]);
            objects.flat_map(|object| self.seen(object, eye)).collect()
        };
        Piece::Objects([list(0), list(1)])
    }

    /// What an eye sees of an object: up to two records.
    fn seen(&self, object: Object, eye: usize) -> Vec<Object> {
        let (jx, jp) = (signed(object[0], 10), signed(object[1], 10));
        let left = if eye == 0 { jx - jp } else { jx + jp };
        match self.effect {
            Effect::Table(table) => vec![table.object_of_eye(object, eye)],
            Effect::Order(Order::LeftOfScreenLost) if left < 0 => Vec::new(),
            Effect::Order(Order::RowWrapLost) if object[2] & 0xFF > 248 => Vec::new(),
            Effect::Order(Order::RightEdgeWraps) if (377..384).contains(&left) => {
                let again = (left - 384) as u16 & 0x3FF;
                vec![object, [again, object[1] & 0xFC00, object[2], object[3]]]
            }
            _ => vec![object],
        }
    }
}
