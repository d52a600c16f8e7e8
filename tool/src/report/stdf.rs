//! The report as STDF V4, the test industry's Standard Test Data Format, little-endian.
//!
//! FAR, ATR, MIR, then for each wafer WIR, the parts' PIR, FTR and PRR, and WRR; at the end TSR, HBR, SBR, PCR, MRR. The
//! header's further facts and the files that were read are DTR, one line each.

use std::collections::BTreeMap;
use std::time::{SystemTime, UNIX_EPOCH};

use super::{Part, Report, Totals};
use crate::judge::Verdict;

/// One record's fields as bytes.
#[derive(Default)]
struct Fields(Vec<u8>);

impl Fields {
    fn u1(mut self, value: u8) -> Fields {
        self.0.push(value);
        self
    }

    fn u2(mut self, value: u16) -> Fields {
        self.0.extend(value.to_le_bytes());
        self
    }

    fn i2(mut self, value: i16) -> Fields {
        self.0.extend(value.to_le_bytes());
        self
    }

    fn u4(mut self, value: u32) -> Fields {
        self.0.extend(value.to_le_bytes());
        self
    }

    fn c1(mut self, value: char) -> Fields {
        self.0.push(value as u8);
        self
    }

    /// A length and as many characters, at most 255, in ASCII.
    fn cn(mut self, text: &str) -> Fields {
        let plain = |c: char| if c == ' ' || c.is_ascii_graphic() { c as u8 } else { b'?' };
        let text: Vec<u8> = text.chars().take(255).map(plain).collect();
        self.0.push(text.len() as u8);
        self.0.extend(text);
        self
    }
}

/// The records in order.
#[derive(Default)]
struct Writer(Vec<u8>);

impl Writer {
    fn record(&mut self, kind: (u8, u8), fields: Fields) {
        let length = fields.0.len() as u16;
        self.0.extend(length.to_le_bytes());
        self.0.extend([kind.0, kind.1]);
        self.0.extend(fields.0);
    }

    fn data(&mut self, text: &str) {
        self.record((50, 30), Fields::default().cn(text));
    }
}

/// What is not known of a place.
const NO_PLACE: i16 = -32_768;

pub fn stdf(report: &Report, totals: &Totals) -> Vec<u8> {
    let now = SystemTime::now().duration_since(UNIX_EPOCH).map_or(0, |time| time.as_secs() as u32);
    let mut out = Writer::default();
    out.record((0, 10), Fields::default().u1(2).u1(4));
    out.record((0, 20), Fields::default().u4(now).cn(&report.header.command));
    out.record((1, 10), master(report, now));
    facts(report).iter().for_each(|fact| out.data(fact));
    let mut wafers: BTreeMap<&str, Vec<&Part>> = BTreeMap::new();
    for part in &report.parts {
        wafers.entry(part.wafer.as_deref().unwrap_or_default()).or_default().push(part);
    }
    for (wafer, parts) in wafers {
        if !wafer.is_empty() {
            out.record((2, 10), Fields::default().u1(1).u1(255).u4(now).cn(wafer));
        }
        parts.iter().for_each(|part| self::part(&mut out, report, part));
        if !wafer.is_empty() {
            out.record((2, 20), wafer_results(wafer, &parts, now));
        }
    }
    sums(&mut out, report, totals);
    out.record((1, 20), Fields::default().u4(now).c1(' ').cn("").cn(""));
    out.0
}

/// MIR.
fn master(report: &Report, now: u32) -> Fields {
    let header = &report.header;
    let lot = header.lot.trim_end_matches('/').rsplit('/').next().unwrap_or_default();
    Fields::default()
        .u4(now)
        .u4(now)
        .u1(1)
        .c1('P')
        .c1(' ')
        .c1(' ')
        .u2(65_535)
        .c1(' ')
        .cn(lot)
        .cn("VUE/VIP replacement")
        .cn("")
        .cn("vbmodel")
        .cn(header.plan.as_deref().unwrap_or("captures"))
        .cn(&header.model.commit)
        .cn("")
        .cn("")
        .cn("vbmodel")
        .cn(&header.model.version)
}

/// What the records have no field for.
fn facts(report: &Report) -> Vec<String> {
    let header = &report.header;
    let mut all: Vec<String> =
        header.plan_text().into_iter().map(|plan| format!("PLAN {plan}")).collect();
    all.extend([
        format!("MODEL {}", header.model.text()),
        format!("DATE {}", header.date),
        format!("COMMAND {}", header.command),
    ]);
    if report.not_judged > 0 {
        all.push(format!("INCOMPLETE {} parts were not judged", report.not_judged));
    }
    all.extend(header.unknown.iter().map(|name| format!("UNKNOWN {name}")));
    all.extend(
        report.files().map(|file| format!("FILE {} {} {}", file.sha256, file.bytes, file.path)),
    );
    all
}

/// PIR, an FTR for each test, PRR.
fn part(out: &mut Writer, report: &Report, part: &Part) {
    out.record((5, 10), Fields::default().u1(1).u1(1));
    for (number, test) in report.header.tests.iter().enumerate() {
        let tested = part.tests.iter().find(|one| one.test == test.name);
        let flags = match tested.map(|one| one.verdict) {
            Some(Verdict::Pass) => 0,
            Some(Verdict::Fail) => 0b1000_0000,
            // no verdict; and not executed where nothing was there
            Some(_) => 0b0100_0000,
            None => 0b0101_0000,
        };
        out.record(
            (15, 20),
            functional(
                number,
                test.name.as_str(),
                flags,
                tested.map_or(String::new(), |one| one.line()),
            ),
        );
    }
    let supersedes = u8::from(part.attempt > 1);
    let flags = supersedes
        | match part.verdict {
            Verdict::Pass => 0,
            Verdict::Fail => 0b0000_1000,
            Verdict::Invalid | Verdict::Fault => 0b0001_0000,
        };
    let fields = Fields::default()
        .u1(1)
        .u1(1)
        .u1(flags)
        .u2(report.header.tests.len() as u16)
        .u2(part.bin)
        .u2(part.bin)
        .i2(part.x.unwrap_or(NO_PLACE))
        .i2(part.y.unwrap_or(NO_PLACE))
        .u4(0)
        .cn(&part.part)
        .cn(&part.line());
    out.record((5, 20), fields);
}

/// FTR: the fields that say nothing are present with their defaults, up to the test's name.
fn functional(number: usize, name: &str, flags: u8, result: String) -> Fields {
    let fields = Fields::default().u4(number as u32 + 1).u1(1).u1(1).u1(flags);
    // OPT_FLAG: none of the numbers below is given
    let fields = fields.u1(0xFF).u4(0).u4(0).u4(0).u4(0).u4(0).u4(0).i2(0);
    // no indices of return and program pins, no failing pins, no vector, time set or operation
    let fields = fields.u2(0).u2(0).u2(0).cn("").cn("").cn("");
    fields.cn(name).cn("").cn("").cn(&result)
}

/// WRR.
fn wafer_results(wafer: &str, parts: &[&Part], now: u32) -> Fields {
    let count = |is: &dyn Fn(&Part) -> bool| parts.iter().filter(|part| is(part)).count() as u32;
    let last = |part: &Part| part.decides;
    Fields::default()
        .u1(1)
        .u1(255)
        .u4(now)
        .u4(count(&last))
        .u4(count(&|part| part.attempt > 1))
        .u4(0)
        .u4(count(&|part| last(part) && part.verdict == Verdict::Pass))
        .u4(u32::MAX)
        .cn(wafer)
}

/// TSR, HBR, SBR and PCR.
fn sums(out: &mut Writer, report: &Report, totals: &Totals) {
    for (number, test) in report.header.tests.iter().enumerate() {
        let all = report
            .parts
            .iter()
            .filter_map(|part| part.tests.iter().find(|one| one.test == test.name));
        let all: Vec<_> = all.collect();
        let failed = all.iter().filter(|one| one.verdict == Verdict::Fail).count() as u32;
        let fields = Fields::default().u1(255).u1(0).c1('F').u4(number as u32 + 1);
        let fields = fields.u4(all.len() as u32).u4(failed).u4(u32::MAX).cn(&test.name);
        out.record((10, 30), fields);
    }
    for kind in [(1, 40), (1, 50)] {
        for bin in &totals.bins {
            let sign = match bin.bin {
                number if number == report.header.pass_bin => 'P',
                number if number == report.header.invalid_bin => ' ',
                _ => 'F',
            };
            let fields = Fields::default().u1(255).u1(0).u2(bin.bin).u4(bin.parts as u32);
            out.record(kind, fields.c1(sign).cn(&bin.what));
        }
    }
    let judged = (totals.parts - totals.not_judged) as u32;
    let fields = Fields::default().u1(255).u1(0).u4(judged).u4(totals.retested as u32);
    out.record((1, 30), fields.u4(0).u4(totals.pass as u32).u4(u32::MAX));
}
