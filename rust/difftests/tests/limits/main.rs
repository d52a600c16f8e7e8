//! Both sides of each limit, against the model: for every call of vb.h and every
//! refusal number that it tests, the last values that it accepts and the first that it
//! refuses, each condition of 5 and 10 among them. Number, answer, records and every
//! byte of every buffer are the model's. Then the order: every set of broken
//! conditions, and each refused value with one of every other number.

mod base;
mod calls;
mod instructions;
mod records;
mod rows;

use base::{bases, PC};
use calls::{Answer, Call, Given};
use model::saved::Form;
use rows::{calls, rows_of, Row};

/// Makes the call on both sides and compares everything.
fn made(call: Call, given: &Given, what: &dyn Fn() -> String) -> Answer {
    let (mut library, mut model) = (given.clone(), given.clone());
    let answer = library.by_library(call);
    let expected = model.by_model(call);
    assert_eq!(answer, expected, "{}", what());
    if library != model {
        library.buffers.expect_equal(&model.buffers, what);
        assert_eq!(library.processor, model.processor, "{}", what());
        assert_eq!(library.drawing, model.drawing, "{}", what());
        panic!("list, file, output or words differ; {}", what());
    }
    if answer.refusal != 0 {
        assert!(library == *given, "a refused call has changed something; {}", what());
        let empty = matches!(answer.refusal, 6) || answer.members.iter().all(|&member| member == 0);
        assert!(empty, "a refused call answers {:?}; {}", answer.members, what());
    }
    answer
}

/// What an accepted value of a limit leads to: 0, or 16 where lines and timer are
/// given to form 1.
fn number_of_accepted(call: Call, given: &Given) -> u32 {
    let at_reset = given.processor.hardware == vbsys::Hardware::default();
    let in_file = given.file.last_chunk::<8>();
    match call {
        Call::WriteState(Form::One) if !at_reset => 16,
        Call::MoveState if given.file.starts_with(&[0, 0]) && in_file != Some(&[0; 8]) => 16,
        _ => 0,
    }
}

/// The rows of a call's number from one base. 6 is met in running mode alone, and its
/// rows write to WRAM; 16 is met in a move to form 1 alone; memories of megabytes are tried from the first base.
fn rows_from(call: Call, number: u32, base: &Given, first: bool) -> Vec<Row> {
    let running = base.processor.mode == vbsys::RUNNING;
    let to_form_2 = call == Call::MoveState && !base.file.starts_with(&[0, 0]);
    let at_wram = base.processor.pc == PC;
    if number == 6 && !(running && at_wram) || number == 16 && to_form_2 {
        return Vec::new();
    }
    let mut rows = rows_of(call, number, base);
    rows.retain(|row| first || !row.large);
    rows
}

const HEADER: &str = include_str!("../../../../include/vb.h");

/// The numbers that vb.h lists in the comment before a declaration.
fn refusals_in_header(name: &str) -> Vec<u32> {
    let declared = HEADER.find(&format!(" {name}(")).expect("vb.h declares it");
    let (_, list) = HEADER[..declared].rsplit_once("Refusals: ").expect("it has refusals");
    let without_remarks: String = list.split(['(', ')']).step_by(2).collect();
    let (numbers, _) = without_remarks.split_once(['.', '*']).expect("the list ends");
    let words = numbers.split([',', ';']).filter_map(|item| item.split_whitespace().next());
    words.map(|word| word.parse().unwrap_or(vbsys::MISUSE)).collect()
}

/// The names of the calls that vb.h declares.
fn names_in_header() -> Vec<&'static str> {
    let starts = HEADER.match_indices(" vb_").map(|(at, _)| &HEADER[at + 1..]);
    let names = starts.filter_map(|rest| {
        let end = rest.find(|c: char| !c.is_alphanumeric() && c != '_')?;
        rest[end..].starts_with('(').then(|| &rest[..end])
    });
    names.collect()
}

/// The name that vb.h gives a call.
fn name_of(call: Call) -> String {
    let words = match call {
        Call::Bus(access) => format!("{access:?}"),
        Call::Probe(width) => format!("Probe{width:?}"),
        Call::WriteState(Form::One) => "WriteState".into(),
        Call::WriteState(Form::Two) => "WriteState_2".into(),
        other => format!("{other:?}"),
    };
    let snake = words.chars().flat_map(|c| match c.is_uppercase() {
        true => vec!['_', c.to_ascii_lowercase()],
        false => vec![c],
    });
    format!("vb{}", snake.collect::<String>())
}

/// The table has every call of vb.h and the numbers that its comment lists, in that
/// order, and values on both sides of each.
#[test]
fn the_table_is_complete() {
    let mut rows = 0;
    let mut names = Vec::new();
    for (call, numbers) in calls() {
        assert_eq!(refusals_in_header(&name_of(call)), numbers, "{call:?}");
        names.push(name_of(call));
        let bases = bases(call);
        for number in numbers {
            let mut sides = [0, 0];
            for (place, (_, base)) in bases.iter().enumerate() {
                for row in rows_from(call, number, base, place == 0) {
                    sides[usize::from(row.refused)] += 1;
                }
            }
            assert!(sides[0] > 0 && sides[1] > 0, "{call:?}, refusal {number}: {sides:?}");
            rows += sides[0] + sides[1];
        }
    }
    let outside = ["vb_reset", "vb_version", "vb_version_text", "vb_refusal_text"];
    for name in names_in_header().into_iter().filter(|name| !outside.contains(name)) {
        assert!(names.iter().any(|known| known == name), "{name} is not in the table");
    }
    println!("{rows} rows of {} calls", names.len());
}

/// Each value alone: refused by its number, or accepted.
#[test]
fn each_value_alone() {
    for (call, numbers) in calls() {
        for (place, (name, base)) in bases(call).into_iter().enumerate() {
            let answer = made(call, &base, &|| format!("{call:?}, {name}"));
            assert_eq!(answer.refusal, 0, "{call:?}, {name}");
            for row in numbers.iter().flat_map(|&n| rows_from(call, n, &base, place == 0)) {
                let mut given = base.clone();
                (row.change)(&mut given);
                let what = || format!("{call:?}, {name}, {}", row.what);
                let expected = match row.refused {
                    true => row.number,
                    false => number_of_accepted(call, &given),
                };
                let answer = made(call, &given, &what);
                assert_eq!(answer.refusal, expected, "{}", what());
            }
        }
    }
}

/// A call's refused rows that are not large, by number.
fn refused_rows(call: Call, numbers: &[u32], base: &Given) -> Vec<Vec<Row>> {
    let rows = numbers.iter().map(|&number| {
        let mut rows = rows_from(call, number, base, false);
        rows.retain(|row| row.refused);
        rows
    });
    rows.collect()
}

/// Applies the changes, those of later numbers first: a length is cut last.
fn expect_first(call: Call, base: &Given, broken: &[&Row], what: &dyn Fn() -> String) {
    let mut given = base.clone();
    for row in broken.iter().rev() {
        (row.change)(&mut given);
    }
    let answer = made(call, &given, what);
    let expected = broken.first().map_or(0, |row| row.number);
    assert_eq!(answer.refusal, expected, "{}", what());
}

/// Every set of a call's numbers, each broken by its first or by its last row: the
/// first of them in the call's order is answered.
#[test]
fn every_set_of_broken_conditions() {
    for (call, numbers) in calls() {
        let (_, base) = bases(call).swap_remove(0);
        let rows = refused_rows(call, &numbers, &base);
        for (set, last) in (0..1u32 << rows.len()).flat_map(|set| [(set, false), (set, true)]) {
            let chosen = (0..rows.len()).filter(|place| set >> place & 1 == 1);
            let broken: Vec<&Row> = chosen
                .map(|place| if last { rows[place].last() } else { rows[place].first() })
                .map(|row| row.expect("it has a refused row"))
                .collect();
            expect_first(call, &base, &broken, &|| format!("{call:?}, broken {set:b}, {last}"));
        }
    }
}

/// Each refused row with a row of every other number, another one each time.
#[test]
fn each_value_with_every_other_number() {
    for (call, numbers) in calls() {
        let (_, base) = bases(call).swap_remove(0);
        let rows = refused_rows(call, &numbers, &base);
        for first in 0..rows.len() {
            for second in first + 1..rows.len() {
                let (a, b) = (&rows[first], &rows[second]);
                for at in 0..a.len().max(b.len()) {
                    let broken = [&a[at % a.len()], &b[at % b.len()]];
                    let what = || format!("{call:?}, {} and {}", broken[0].what, broken[1].what);
                    expect_first(call, &base, &broken, &what);
                }
            }
        }
    }
}
