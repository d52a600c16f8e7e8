//! The objects of a group at a pixel: how many cover it, and why the others do not.

use model::object::{group_objects, Object};
use serde::Serialize;

use super::{registers, ObjectRecord, Question};

#[derive(Serialize)]
pub struct Objects {
    pub group: usize,
    /// The group's first object; it goes downwards from there.
    pub first: u32,
    pub length: u32,
    pub covering: u32,
    /// Not shown to the eye: JLON or JRON is clear.
    pub hidden: u32,
    /// Shown, but its square lies elsewhere.
    pub elsewhere: u32,
    /// One by one, where that was asked for.
    pub each: Option<Vec<One>>,
}

/// An object, and why it does or does not cover the pixel.
#[derive(Serialize)]
pub struct One {
    pub fate: String,
    pub record: ObjectRecord,
}

impl Objects {
    pub fn of(question: &Question, group: usize) -> Objects {
        let numbers: Vec<u32> = group_objects(&registers(question.drawing), group).collect();
        let mut objects = Objects {
            group,
            first: u32::from(question.drawing.spt[group]),
            length: numbers.len() as u32,
            covering: 0,
            hidden: 0,
            elsewhere: 0,
            each: None,
        };
        let mut each = Vec::new();
        for number in numbers {
            let fate = objects.look(question, number);
            if question.every_object {
                let record = ObjectRecord::read(question.vram, number, question.eye);
                each.push(One { fate, record });
            }
        }
        objects.each = question.every_object.then_some(each);
        objects
    }

    fn look(&mut self, question: &Question, number: u32) -> String {
        let object = Object::read(question.vram, number);
        let (x, y) = (question.x as i32, question.y as i32);
        let row = object.row(y);
        if !object.shown_to(question.eye) {
            self.hidden += 1;
            return "not shown to this eye".to_string();
        }
        if object.column(question.eye, x).is_some() && row.is_some() {
            self.covering += 1;
            return "covers the pixel".to_string();
        }
        self.elsewhere += 1;
        let start = object.start(question.eye);
        match row {
            None => format!("its rows, from {} on, do not hold row {y}", object.jy),
            Some(_) => format!("its columns {start} to {} do not hold column {x}", start + 7),
        }
    }

    pub fn fate(&self) -> String {
        let Objects { group, first, length, covering, hidden, elsewhere, .. } = self;
        format!(
            "objects of group {group}: {length} from object {first} downwards; {covering} cover the pixel, {hidden} \
             are not shown to this eye, {elsewhere} lie elsewhere"
        )
    }
}
