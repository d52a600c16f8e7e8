//! A lot to try a plan on: a program, a plan, and what 24 dies of a wafer showed. Most are good, six are not.

use std::path::{Path, PathBuf};

use vb::{COLUMNS, RECORD_LENGTH, ROWS};

use super::rom;
use crate::failure::Failure;
use crate::files::Outputs;
use crate::judge::model_of;
use crate::pictures::picture::Picture;
use crate::plan::{Expected, Plan};

const PLAN: &str = "\
# What a die must show: the demo's two frames, and the first 20,000 steps of its program.
name = \"demo\"

[[test]]
name = \"picture\"
rom = \"demo.rom\"
schedule = \"frame.schedule\"
budget = 400_000
frames = [\"halt\", \"halt\"]
bin = 3

[[test]]
name = \"steps\"
rom = \"demo.rom\"
frames = []
trace = 20_000
bin = 4
";
/// The VIP's line wakes the halted program for its second frame.
const SCHEDULE: &str = "at 400_000 raise vip\nat 400_001 lower vip\n";
/// How far each row of the wafer is from its edge, and how many dies it has.
const ROWS_OF_WAFER: [(usize, usize); 6] = [(2, 2), (1, 4), (0, 6), (0, 6), (1, 4), (2, 2)];
const RECORDS: usize = 20_000;

/// What is wrong with a die.
#[derive(Clone, Copy, PartialEq, Eq)]
enum Fault {
    None,
    /// A column that stays dark.
    WornColumn,
    /// Bit 0 of every pixel that is lit stays set.
    StuckBit,
    /// A wrong zero flag in one record.
    WrongFlag,
    MissingCapture,
    /// It stopped after 7,000 steps.
    Hung,
    /// Dust in the first test; the second one was good.
    Dust,
}

fn fault(die: usize) -> Fault {
    match die {
        4 => Fault::WornColumn,
        9 => Fault::StuckBit,
        14 => Fault::WrongFlag,
        17 => Fault::MissingCapture,
        20 => Fault::Hung,
        22 => Fault::Dust,
        _ => Fault::None,
    }
}

/// Writes the lot; gives the plan's file and the folder of parts.
pub fn write(folder: &Path) -> Result<(PathBuf, PathBuf), Failure> {
    let (plan, parts) = (folder.join("plan.toml"), folder.join("parts"));
    let mut outputs = Outputs::default();
    outputs.add_in(folder, "plan.toml", PLAN.as_bytes().to_vec());
    outputs.add_in(folder, "frame.schedule", SCHEDULE.as_bytes().to_vec());
    outputs.add_in(folder, "demo.rom", rom().map_err(Failure::bad)?);
    outputs.write()?;
    let (expected, _) = model_of(&Plan::read(&plan)?)?;
    let mut outputs = Outputs::default();
    let mut list = "part,wafer,x,y,probe card\n".to_string();
    let places = ROWS_OF_WAFER.iter().enumerate();
    let places = places.flat_map(|(y, &(edge, count))| (edge..edge + count).map(move |x| (x, y)));
    for (die, (x, y)) in places.enumerate().map(|(n, place)| (n + 1, place)) {
        list += &format!("die-{die:02},W1,{x},{y},A{}\n", 1 + die % 2);
        let name = parts.join(format!("die-{die:02}"));
        captures(&mut outputs, &name, &expected[0], fault(die));
        outputs.add_in(&name, "steps.trace", trace(&expected[1], fault(die))?);
        if fault(die) == Fault::Dust {
            let again = parts.join(format!("die-{die:02}@2"));
            captures(&mut outputs, &again, &expected[0], Fault::None);
            outputs.add_in(&again, "steps.trace", trace(&expected[1], Fault::None)?);
        }
    }
    outputs.add_in(&parts, "parts.csv", list.into_bytes());
    outputs.write()?;
    Ok((plan, parts))
}

fn captures(outputs: &mut Outputs, folder: &Path, expected: &Expected, fault: Fault) {
    for (number, frame) in expected.frames.iter().enumerate() {
        for (eye, picture) in [("left", &frame.views.left), ("right", &frame.views.right)] {
            let missing = (fault == Fault::Hung && number == 1)
                || (fault == Fault::MissingCapture && number == 1 && eye == "right");
            if !missing {
                let seen = seen(picture, fault, eye);
                outputs.add_in(folder, format!("picture.frame{number}.{eye}.png"), seen.png(1));
            }
        }
    }
}

/// A picture as a die with this fault shows it.
fn seen(picture: &Picture, fault: Fault, eye: &str) -> Picture {
    let value = |x: usize, y: usize| match (fault, picture.value(x, y)) {
        (Fault::WornColumn, _) if x == 201 && eye == "left" => 0,
        (Fault::StuckBit, value) if value > 0 => value | 1,
        (Fault::Dust, _) if (40..44).contains(&x) && (100..103).contains(&y) => 3,
        (_, value) => value,
    };
    Picture::of_values((0..COLUMNS * ROWS).map(|i| value(i % COLUMNS, i / COLUMNS)).collect())
}

fn trace(expected: &Expected, fault: Fault) -> Result<Vec<u8>, Failure> {
    let mut bytes = Vec::new();
    if let Some(records) = &expected.records {
        let read = records.bytes(0, RECORDS * RECORD_LENGTH, &mut bytes);
        read.map_err(|error| Failure::bad(format!("the model's records: {error}")))?;
    }
    match fault {
        // bit 0 of PSW, the third word
        Fault::WrongFlag => bytes[12_345 * RECORD_LENGTH + 8] ^= 1,
        Fault::Hung => bytes.truncate(7_000 * RECORD_LENGTH),
        _ => {}
    }
    Ok(bytes)
}
