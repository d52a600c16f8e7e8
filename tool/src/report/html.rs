//! The report as one page that needs nothing else: style, script and pictures are in it, and it may load nothing.

use serde::Serialize;
use tinytemplate::TinyTemplate;
use vb::grouped;

use super::lines::read;
use super::section::{section, Model, Reason, Shared};
use super::wafers::{fills, wafers, Wafer};
use super::{Count, Part, Report, Totals};
use crate::failure::Failure;
use crate::files::printable;
use crate::judge::Verdict;
use crate::reports::invocation::quoted;

/// Rows of a table of what fails most.
const LISTED: usize = 10;
/// Parts of a verdict that have a section with their pictures and traces.
const SHOWN: usize = 200;
/// Rows of the table of parts that a browser lays out at once.
const CHUNK: usize = 200;

#[derive(Serialize)]
struct Page {
    title: String,
    css: &'static str,
    js: &'static str,
    summary: String,
    yielded: String,
    incomplete: String,
    unknown: String,
    header: Vec<Named>,
    bins: Vec<BinRow>,
    counts: Vec<Counted>,
    wafers: Vec<Wafer>,
    /// Rows and sections are ready HTML: made piece by piece, they need little memory however many parts there are.
    failed: String,
    more: String,
    models: Vec<Model>,
    sections: String,
    reasons: Vec<Reason>,
    passed_count: String,
    passed: String,
    files_count: String,
    files: String,
}

#[derive(Serialize)]
struct Named {
    name: &'static str,
    value: String,
}

#[derive(Serialize)]
struct BinRow {
    bin: u16,
    parts: String,
    share: String,
    what: String,
    fill: String,
}

/// A table of what fails most.
#[derive(Serialize)]
struct Counted {
    title: &'static str,
    column: &'static str,
    rows: Vec<Count>,
    more: String,
}

/// A piece of the table of parts.
#[derive(Serialize)]
struct Rows {
    /// Whether it is left until it comes into view.
    later: bool,
    said: bool,
    rows: Vec<Row>,
}

#[derive(Serialize)]
struct Row {
    number: usize,
    linked: bool,
    name: String,
    verdict: &'static str,
    /// So that no verdict is known by its colour alone.
    sign: &'static str,
    bin: u16,
    place: String,
    /// Empty where every test passes.
    line: String,
}

pub fn page(report: &Report, totals: &Totals) -> Result<String, Failure> {
    let made = templates().and_then(|templates| {
        let view = view(report, totals, &templates)?;
        templates.render("page", &view)
    });
    made.map_err(|error| Failure::bad(format!("the page: {error}")))
}

type Made<T> = Result<T, tinytemplate::error::Error>;

fn templates() -> Made<TinyTemplate<'static>> {
    let mut templates = TinyTemplate::new();
    for (name, text) in [
        ("page", include_str!("page.html")),
        ("rows", include_str!("rows.html")),
        ("section", include_str!("section.html")),
    ] {
        templates.add_template(name, text)?;
    }
    Ok(templates)
}

fn view(report: &Report, totals: &Totals, templates: &TinyTemplate) -> Made<Page> {
    let of = |verdict: Verdict| {
        let all = report.parts.iter().enumerate();
        all.filter(move |(_, part)| part.verdict == verdict)
    };
    let wrong = [Verdict::Fault, Verdict::Fail, Verdict::Invalid];
    let mut shared = Shared::default();
    let first = wrong.iter().flat_map(|one| of(*one).take(SHOWN));
    let mut sections = String::new();
    for (number, part) in first {
        sections += &templates.render("section", &section(number, part, &mut shared))?;
    }
    let (models, reasons) = shared.all();
    let failed = wrong.iter().flat_map(|one| {
        of(*one).enumerate().map(|(n, (number, part))| row(number, part, n < SHOWN))
    });
    let passed = of(Verdict::Pass).map(|(number, part)| row(number, part, false));
    let more = wrong.iter().map(|one| of(*one).count().saturating_sub(SHOWN)).sum();
    Ok(Page {
        title: title(report),
        css: include_str!("page.css"),
        js: include_str!("page.js"),
        summary: totals.text(),
        yielded: totals
            .percent()
            .map_or(String::new(), |percent| format!("; yield {percent:.1} %")),
        incomplete: match totals.not_judged {
            0 => String::new(),
            count => {
                format!("{} parts were not judged; the command was stopped", grouped(count as u64))
            }
        },
        unknown: report.header.unknown.join(", "),
        header: header(report),
        bins: bins(report, totals),
        counts: counts(totals),
        wafers: wafers(report),
        failed: rows(failed, true, templates)?,
        more: self::more(more, report.header.plan_file.as_deref()),
        models,
        sections,
        reasons,
        passed_count: format!("{} parts", grouped(of(Verdict::Pass).count() as u64)),
        passed: rows(passed, false, templates)?,
        files_count: grouped(report.files().count() as u64),
        files: report
            .files()
            .map(|file| {
                format!("{}  {:>12}  {}\n", file.sha256, grouped(file.bytes), printable(&file.path))
            })
            .collect(),
    })
}

/// `demo: demo/parts`, or the lot alone.
fn title(report: &Report) -> String {
    let plan = report.header.plan.as_ref().map(|plan| format!("{plan}: "));
    printable(&format!("{}{}", plan.unwrap_or_default(), report.header.lot))
}

/// The table of parts, in pieces; `said` where it has what is wrong with each.
fn rows(all: impl Iterator<Item = Row>, said: bool, templates: &TinyTemplate) -> Made<String> {
    let mut all = all.peekable();
    let mut text = String::new();
    while all.peek().is_some() {
        let rows: Vec<Row> = all.by_ref().take(CHUNK).collect();
        text += &templates.render("rows", &Rows { later: rows.len() == CHUNK, said, rows })?;
    }
    Ok(text)
}

fn header(report: &Report) -> Vec<Named> {
    let header = &report.header;
    let plan = header.plan_text().map(|value| Named { name: "Plan", value });
    let mut rows: Vec<Named> = plan.into_iter().collect();
    rows.extend([
        Named { name: "Lot", value: printable(&header.lot) },
        Named { name: "Model", value: header.model.text() },
        Named { name: "Command", value: printable(&header.command) },
        Named { name: "Date", value: header.date.clone() },
        Named { name: "Read", value: read(report) },
    ]);
    let shard = header.shard.map(|shard| format!("{} of {}", shard.number, shard.of));
    rows.extend(shard.map(|value| Named { name: "Shard", value }));
    rows
}

fn bins(report: &Report, totals: &Totals) -> Vec<BinRow> {
    let fills = fills(report);
    let judged = (totals.parts - totals.not_judged).max(1);
    let row = |bin: &super::totals::Bin| BinRow {
        bin: bin.bin,
        parts: grouped(bin.parts as u64),
        share: format!("{:.1} %", 100.0 * bin.parts as f64 / judged as f64),
        what: bin.what.clone(),
        fill: fills.get(&bin.bin).copied().unwrap_or("#fff").to_string(),
    };
    totals.bins.iter().map(row).collect()
}

fn counts(totals: &Totals) -> Vec<Counted> {
    let table = |title, column, all: &[Count]| Counted {
        title,
        column,
        rows: all.iter().take(LISTED).cloned().collect(),
        more: match all.len().saturating_sub(LISTED) {
            0 => String::new(),
            more => format!("and {more} more"),
        },
    };
    let all = [
        table("Tests that fail most", "Test", &totals.tests),
        table("Worlds and objects that fail most", "Test: what the model shows", &totals.sources),
        table("Instructions that fail most", "Test: instruction", &totals.instructions),
    ];
    all.into_iter().filter(|table| !table.rows.is_empty()).collect()
}

/// How to see why where a part has no section.
fn more(count: usize, plan: Option<&str>) -> String {
    if count == 0 {
        return String::new();
    }
    let why = match plan {
        Some(plan) => format!(
            "vbmodel expect --plan {} --out expected, then vbmodel why EYE COLUMN ROW --vram \
             expected/TEST.frameN.vram --drawing expected/TEST.frameN.drawing",
            printable(&quoted(plan))
        ),
        None => "vbmodel why EYE COLUMN ROW with the part's scene".to_string(),
    };
    format!(
        "The first {SHOWN} parts of each verdict have their pictures and traces below; {} have the line above alone. For a \
         pixel of those: {why}",
        grouped(count as u64)
    )
}

fn row(number: usize, part: &Part, linked: bool) -> Row {
    let at = |(x, y): (i16, i16)| format!("x {x}, y {y}");
    let wafer = part.wafer.iter().map(|wafer| printable(wafer));
    let place: Vec<String> = wafer.chain(part.x.zip(part.y).map(at)).collect();
    let note = if part.decides { "" } else { " (tested again)" };
    Row {
        number,
        linked,
        name: printable(&part.title()) + note,
        verdict: part.verdict.word(),
        sign: match part.verdict {
            Verdict::Pass => "\u{2713}",
            Verdict::Fail => "\u{2717}",
            Verdict::Invalid => "?",
            Verdict::Fault => "!",
        },
        bin: part.bin,
        place: place.join(", "),
        line: match part.verdict {
            Verdict::Pass => String::new(),
            _ => printable(&part.line()),
        },
    }
}

#[cfg(test)]
mod tests {
    use super::*;
    use crate::eye::Eye;
    use crate::pictures::difference::{Bounds, Difference};
    use crate::pictures::picture::Picture;
    use crate::report::{
        Detail, EyeFound, FileRead, Hash, Header, Pixel, TestHeader, Tested, Zoom,
    };

    /// A lot of 10,000 parts that all fail: four captures of each differ, each in one column.
    fn lot() -> Report {
        let values: Vec<u8> = (0..vb::COLUMNS * vb::ROWS).map(|i| (i * i / 97 % 4) as u8).collect();
        let model = Picture::of_values(values.clone());
        let part = |number: usize| {
            let eyes = [0, 1].into_iter().flat_map(|frame| Eye::BOTH.map(|eye| (frame, eye)));
            let eye = |(frame, eye): (usize, Eye)| {
                let first = Difference { x: number % 384, y: number % 224, expected: 1, seen: 2 };
                let bounds = Bounds { left: first.x, top: first.y, right: 383, bottom: 223 };
                let capture = format!("lot/{number}/a.frame{frame}.{eye}.png");
                EyeFound {
                    frame,
                    eye,
                    capture,
                    different: 2,
                    bounds,
                    first,
                    shares: Vec::new(),
                    more_shares: 0,
                    levels: None,
                }
            };
            let eyes: Vec<EyeFound> = eyes.map(eye).collect();
            let detail = |found: &EyeFound| {
                let mut values = values.clone();
                let worn = (0..vb::ROWS).map(|y| y * vb::COLUMNS + found.first.x);
                worn.for_each(|at| values[at] ^= 1);
                let seen = Picture::of_values(values);
                let text = "covered by a world\n".repeat(100);
                Detail {
                    test: "a".to_string(),
                    frame: found.frame,
                    eye: found.eye,
                    model: base64::encode(model.png(1)),
                    changes: base64::encode(model.changes(&seen)),
                    marks: base64::encode(model.marks(&seen)),
                    zoom: Zoom { left: 0, top: 0 },
                    pixels: vec![Pixel {
                        pixel: found.first,
                        because: "world 3".to_string(),
                        text,
                    }],
                }
            };
            let details = if number < 300 { eyes.iter().map(detail).collect() } else { Vec::new() };
            let file = |name: &str| FileRead {
                path: format!("lot/{number}/{name}"),
                bytes: 1_000,
                sha256: Hash::of(name.as_bytes()),
            };
            Part {
                part: format!("die-{number}"),
                attempt: 1,
                decides: true,
                verdict: Verdict::Fail,
                bin: 2,
                wafer: Some("W".to_string()),
                x: Some((number % 100) as i16),
                y: Some((number / 100) as i16),
                columns: Default::default(),
                problems: Vec::new(),
                tests: vec![Tested {
                    test: "a".to_string(),
                    verdict: Verdict::Fail,
                    problems: Vec::new(),
                    eyes,
                    trace: None,
                    memories: Vec::new(),
                }],
                files: ["a.frame0.left.png", "a.frame0.right.png"].map(file).to_vec(),
                details,
            }
        };
        let mut header = Header::bare("lot");
        let test =
            TestHeader { name: "a".to_string(), bin: 2, frames: 2, records: None, instructions: 0 };
        header.tests.push(test);
        Report { header, parts: (0..10_000).map(part).collect(), not_judged: 0 }
    }

    #[test]
    fn a_page_of_ten_thousand_failed_parts_has_pictures_of_the_first_200_and_stays_small() {
        let report = lot();
        let page = page(&report, &Totals::of(&report)).unwrap();
        let count = |text: &str| page.matches(text).count();
        assert_eq!(count("<tr id=\"row-"), 10_000);
        assert_eq!((count("<section "), count("href=\"#part-")), (200, 200));
        assert_eq!(count("<image id=\"model-"), 1, "the model's picture is there once");
        assert_eq!(count("<image id=\"capture-"), 800);
        assert_eq!(count("<details class=\"why\""), 1, "a reason is there once");
        assert_eq!(count("<text "), 0, "a map of so many dies has no numbers on them");
        assert_eq!(count("<path class=\"fail\""), 1, "the dies of a bin are one path");
        assert!(count("style=\"") == 0 && page.len() < 8_000_000, "{} bytes", page.len());
    }
}
