//! Reports of a plan: hashes of what was read, a page, shards that are put together, and a report that is tried again.

mod common;

use std::fs;
use std::path::Path;
use std::process::Command;

use common::Folder;
use serde_json::Value;

fn with_lot(name: &str) -> Folder {
    let folder = Folder::new(name);
    assert_eq!(folder.vbmodel("demo --lot lot").status, 0);
    folder
}

const JUDGE: &str = "judge --plan lot/plan.toml lot/parts";

fn json_lines(text: &str) -> Vec<Value> {
    text.lines().map(|line| serde_json::from_str(line).unwrap()).collect()
}

fn report(folder: &Folder, name: &str) -> Vec<Value> {
    json_lines(&String::from_utf8(folder.read(name)).unwrap())
}

#[test]
fn the_header_names_model_command_and_every_file_with_its_hash() {
    let folder = with_lot("reports-header");
    let json = json_lines(&folder.vbmodel(&format!("{JUDGE} --json")).text);
    let header = &json[0]["header"];
    assert_eq!((&header["plan"], &header["lot"]), (&"demo".into(), &"lot/parts".into()));
    assert_eq!(header["model"]["vb_version"], vbsys::VERSION);
    assert!(header["command"].as_str().unwrap().ends_with(&format!("{JUDGE} --json")), "{header}");
    assert!(header["date"].as_str().unwrap().ends_with('Z'));
    let files = json[1..json.len() - 1].iter().flat_map(|part| part["files"].as_array().unwrap());
    let files: Vec<&Value> = header["files"].as_array().unwrap().iter().chain(files).collect();
    assert_eq!(files.len(), 126);
    let list: String = files
        .iter()
        .map(|file| {
            format!("{}  {}\n", file["sha256"].as_str().unwrap(), file["path"].as_str().unwrap())
        })
        .collect();
    folder.write("list", list.as_bytes());
    let checked = folder.shell("sha256sum --check --quiet list");
    assert_eq!((checked.status, checked.text.as_str()), (0, ""), "{}", checked.error);
    for file in files {
        let path = folder.path(file["path"].as_str().unwrap());
        assert_eq!(file["bytes"].as_u64().unwrap(), fs::metadata(path).unwrap().len());
    }
}

/// Whether python3 is there to read a report.
fn python(folder: &Folder, script: &Path, arguments: &[&str]) -> Option<String> {
    let output = Command::new("python3")
        .arg(script)
        .args(arguments)
        .current_dir(folder.path("."))
        .output()
        .ok()?;
    assert!(output.status.success(), "{}", String::from_utf8_lossy(&output.stderr));
    Some(String::from_utf8(output.stdout).unwrap())
}

#[test]
fn stdf_is_read_by_a_reader_that_was_written_apart() {
    let folder = with_lot("reports-stdf");
    assert_eq!(folder.vbmodel(&format!("{JUDGE} --stdf r.stdf")).status, 2);
    let reader = Path::new(env!("CARGO_MANIFEST_DIR")).join("tests/stdf_reader.py");
    let Some(text) = python(&folder, &reader, &["r.stdf"]) else { return };
    let all = json_lines(&text);
    let of = |name: &str| all.iter().filter(|one| one["record"] == name).collect::<Vec<_>>();
    let order: Vec<&str> = all.iter().map(|one| one["record"].as_str().unwrap()).collect();
    assert_eq!(order[..3], ["FAR", "ATR", "MIR"]);
    assert_eq!(order[order.len() - 2..], ["PCR", "MRR"]);
    assert_eq!((of("PIR").len(), of("PRR").len(), of("FTR").len()), (25, 25, 50));
    assert_eq!(
        (&of("MIR")[0]["LOT_ID"], &of("MIR")[0]["JOB_NAM"]),
        (&"parts".into(), &"demo".into())
    );
    let prr = |part: &str| of("PRR").into_iter().rfind(|one| one["PART_ID"] == part).unwrap();
    let facts = |part: &str| {
        ["PART_FLG", "HARD_BIN", "SOFT_BIN", "X_COORD", "Y_COORD"]
            .map(|name| prr(part)[name].as_i64().unwrap())
    };
    assert_eq!(facts("die-01"), [0, 1, 1, 2, 0]);
    assert_eq!(facts("die-14"), [8, 4, 4, 1, 3]);
    assert_eq!(facts("die-17"), [16, 0, 0, 4, 3]);
    assert_eq!(facts("die-22"), [1, 1, 1, 4, 4]);
    let failed: Vec<_> = of("FTR")
        .iter()
        .filter(|one| one["TEST_FLG"] == 128)
        .map(|one| one["TEST_TXT"].clone())
        .collect();
    assert_eq!(failed, ["picture", "picture", "steps", "picture"]);
    let bins: Vec<_> = of("HBR")
        .iter()
        .map(|one| (one["HBIN_NUM"].clone(), one["HBIN_CNT"].clone(), one["HBIN_PF"].clone()))
        .collect();
    let bin = |bin: u32, count: u32, sign: &str| (bin.into(), count.into(), sign.into());
    assert_eq!(bins, [bin(0, 2, " "), bin(1, 19, "P"), bin(3, 2, "F"), bin(4, 1, "F")]);
    assert_eq!(of("SBR").len(), 4);
    let wrr = of("WRR")[0];
    assert_eq!(
        ["PART_CNT", "RTST_CNT", "GOOD_CNT"].map(|name| wrr[name].as_i64().unwrap()),
        [24, 1, 19]
    );
    assert_eq!(
        of("TSR").iter().map(|one| one["FAIL_CNT"].as_i64().unwrap()).collect::<Vec<_>>(),
        [3, 1]
    );
    let files = of("DTR")
        .into_iter()
        .filter(|one| one["TEXT_DAT"].as_str().unwrap().starts_with("FILE "))
        .count();
    assert_eq!(files, 126);
}

#[test]
fn csv_and_junit_have_every_part() {
    let folder = with_lot("reports-forms");
    assert_eq!(folder.vbmodel(&format!("{JUDGE} --csv r.csv --junit r.xml")).status, 2);
    let csv = String::from_utf8(folder.read("r.csv")).unwrap();
    assert_eq!(csv.lines().count(), 26);
    assert!(csv.starts_with(
        "part,attempt,decides,verdict,bin,wafer,x,y,what,test picture,test steps,probe card\n"
    ));
    assert!(csv.contains("die-17,1,yes,invalid,0,W1,4,3,\"picture: no capture of frame 1, right eye\",invalid,pass,A2\n"), "{csv}");
    let xml = String::from_utf8(folder.read("r.xml")).unwrap();
    for part in [
        "<testsuite name=\"demo\" tests=\"24\" failures=\"3\" errors=\"2\" skipped=\"0\" time=\"",
        "<testcase classname=\"vbmodel.judge\" name=\"die-01\"/>",
        "<failure message=\"steps: trace: record 12,345 differs in PSW after",
        "<error message=\"picture: no capture of frame 1, right eye\">",
        "<property name=\"file lot/demo.rom\" value=\"SHA-256 ",
    ] {
        assert!(xml.contains(part), "{part}\nnot in\n{xml}");
    }
    folder.write("read.py", b"import sys, xml.dom.minidom as m\nprint(len(m.parse(sys.argv[1]).getElementsByTagName('testcase')))\n");
    if let Some(count) = python(&folder, &folder.path("read.py"), &["r.xml"]) {
        assert_eq!(count, "24\n");
    }
}

#[test]
fn a_trace_that_differs_is_explained() {
    let folder = with_lot("reports-trace");
    let json = json_lines(&folder.vbmodel(&format!("{JUDGE} --json")).text);
    let part = json.iter().find(|one| one["part"] == "die-14").unwrap();
    let trace = &part["tests"][1]["trace"];
    assert_eq!(
        (&trace["record"], &trace["word"], &trace["later"]),
        (&12_345.into(), &2.into(), &0.into())
    );
    let explained = &trace["explained"];
    assert_eq!(explained["instruction"], "BNE 0x07000018");
    assert_eq!(
        (&explained["flags_expected"], &explained["flags_seen"]),
        (&"CY".into(), &"Z CY".into())
    );
    let before = explained["before"].as_array().unwrap();
    assert_eq!(before.len(), 8);
    assert!(
        before[7].as_str().unwrap().starts_with("12,344      0x0700001E 0x07000020 "),
        "{before:?}"
    );
    // as `replay` says it of the same trace
    let arguments = "replay --rom lot/demo.rom lot/parts/die-14/steps.trace --last 8 --json";
    let replay = json_lines(&folder.vbmodel(arguments).text).remove(0);
    assert_eq!(replay["agreed"], 12_345);
    assert_eq!(explained["instruction"], replay["instruction"]["instruction"]);
    assert_eq!(
        (&explained["operands"], &explained["hints"]),
        (&replay["operands"], &replay["hints"])
    );
    let text = folder.vbmodel(&arguments.replace(" --json", "")).text;
    for line in before.iter().chain([&explained["did"]]) {
        assert!(text.contains(line.as_str().unwrap()), "{line}\nnot in\n{text}");
    }
    let totals = &json.last().unwrap()["totals"];
    assert_eq!(totals["instructions"][0]["what"], "steps: BNE");
    assert_eq!(totals["tests"][0], serde_json::json!({"what": "picture", "parts": 4}));
}

/// The model's pictures, each frame and eye once; all PNGs, with what the capture changes and where for each of the ten
/// captures that differ; and pictures that are shown: model, capture, what differs and two enlarged pieces for each.
fn pictures(page: &str) -> (usize, usize, usize) {
    let count = |text: &str| page.matches(text).count();
    (count("<image id=\"model-"), count("href=\"data:image/png;base64,"), count("role=\"img\""))
}

#[test]
fn the_page_has_maps_failures_first_and_needs_nothing_else() {
    let folder = with_lot("reports-page");
    fs::write(folder.path("lot/parts/<b> & x.txt"), b"").unwrap();
    assert_eq!(folder.vbmodel(&format!("{JUDGE} --html r.html")).status, 2);
    let page = String::from_utf8(folder.read("r.html")).unwrap();
    for part in [
        "24 parts: 19 pass, 3 fail, 2 invalid, 1 unknown file; yield 79.2 %",
        "&lt;b&gt; &amp; x.txt",
        "<figcaption>wafer W1: 19 of 24 parts pass</figcaption>",
        " data-dies=\"0,2,0 0,3,1 1,1,2 ",
        "<h3>die-04: fail, bin 3</h3>",
        "\u{2717} fail",
        "? invalid",
        "before it psw is 0x",
        "Worlds and objects that fail most",
        "Instructions that fail most",
    ] {
        assert!(page.contains(part), "{part}");
    }
    let at = |text: &str| page.find(text).unwrap_or_else(|| panic!("{text}"));
    assert!(
        at("<h2 id=\"failed\">") < at("<h3>die-04") && at("<h3>die-20") < at("Parts that passed")
    );
    assert_eq!(pictures(&page), (4, 24, 50));
    for outside in ["http://", "https://", "src=\"/", "<link", "url("] {
        assert!(!page.contains(outside), "{outside}");
    }
}

#[test]
fn shards_put_together_are_the_report_of_the_whole_lot() {
    let folder = with_lot("reports-shards");
    assert_eq!(folder.vbmodel(&format!("{JUDGE} --report whole.json")).status, 2);
    for shard in 1..=3 {
        folder.vbmodel(&format!("{JUDGE} --shard {shard}/3 --report {shard}.json"));
    }
    let merged = folder.vbmodel("merge 2.json 3.json 1.json --report merged.json --html r.html");
    assert_eq!(merged.status, 2, "{}", merged.error);
    assert!(
        merged.text.contains("24 parts: 19 pass, 3 fail, 2 invalid; yield 79.2 %\n"),
        "{}",
        merged.text
    );
    let (whole, merged) = (report(&folder, "whole.json"), report(&folder, "merged.json"));
    assert!(whole[1..] == merged[1..], "parts and totals are the same");
    let page = String::from_utf8(folder.read("r.html")).unwrap();
    assert_eq!(pictures(&page), (4, 24, 50));
    for (arguments, message) in [
        ("1.json 2.json", "shard 3 of 3 is missing"),
        ("1.json 2.json 2.json", "2.json: is shard 2 of 3, as is 2.json"),
        ("whole.json", "whole.json: is not the report of a shard"),
        ("none.json", "none.json: No such file or directory; it must be a report of `judge --report`"),
        ("lot/plan.toml", "lot/plan.toml: line 1: expected value at line 1 column 1; it must be a report of `judge --report`"),
    ] {
        folder.refused(&format!("merge {arguments} --html m.html"), &format!("vbmodel: {message}"));
    }
    folder.vbmodel(&format!("{JUDGE} --shard 1/2 --report other.json"));
    folder.refused(
        "merge 1.json other.json",
        "vbmodel: other.json: is a shard of 2; the first report is one of 3",
    );
    let plan = String::from_utf8(folder.read("lot/plan.toml")).unwrap();
    folder.write("lot/plan.toml", plan.replace("bin = 4", "bin = 5").as_bytes());
    folder.vbmodel(&format!("{JUDGE} --shard 2/3 --report other.json"));
    let message = "vbmodel: other.json: a file of the plan or the lot differs: lot/plan.toml";
    folder.refused("merge 1.json other.json 3.json", message);
    for shard in ["0/3", "4/3", "3", "1/0", "a/b"] {
        let ran = folder.vbmodel(&format!("{JUDGE} --shard {shard}"));
        assert!(
            ran.status == 2 && ran.error.contains("is not a shard; write K/N"),
            "{}",
            ran.error
        );
    }
}

#[test]
fn a_report_is_tried_again_and_what_changed_is_said() {
    let folder = with_lot("reports-verify");
    assert_eq!(folder.vbmodel(&format!("{JUDGE} --report r.json")).status, 2);
    let same = folder.vbmodel("verify r.json");
    let text =
        "files:    126 read again, all as they were\nverdicts: the same for 25 tests of parts\n";
    assert_eq!((same.status, same.text.as_str()), (0, text));
    // another picture, and a file that is gone
    fs::copy(
        folder.path("lot/parts/die-09/picture.frame0.left.png"),
        folder.path("lot/parts/die-01/picture.frame0.left.png"),
    )
    .unwrap();
    fs::remove_file(folder.path("lot/parts/die-02/steps.trace")).unwrap();
    let other = folder.vbmodel("verify r.json");
    assert_eq!(other.status, 1);
    for line in [
        "files:    126 read again, 2 are not as they were\n  lot/parts/die-01/picture.frame0.left.png: has ",
        "  lot/parts/die-02/steps.trace: No such file or directory\nverdicts: 2 are not the same\n",
        "  die-01: was pass, bin 1; is fail, bin 3\n  die-02: was pass, bin 1; is invalid, bin 0\n",
    ] {
        assert!(other.text.contains(line), "{line}\nnot in\n{}", other.text);
    }
    let json = folder.vbmodel("verify r.json --json");
    assert_eq!(json_lines(&json.text)[0]["verdicts"][0]["is"], "fail, bin 3");
    fs::remove_file(folder.path("lot/demo.rom")).unwrap();
    let gone = folder.vbmodel("verify r.json");
    assert!(
        gone.status == 2 && gone.error.contains("lot/demo.rom: No such file"),
        "{}",
        gone.error
    );
    let whole = folder.read("r.json");
    folder.write("cut.json", &whole[..whole.len() / 2]);
    let message = "the report is not whole; it must be a report of `judge --report`";
    let ran = folder.vbmodel("verify cut.json");
    assert!(ran.status == 2 && ran.error.contains(message), "{}", ran.error);
}

/// A report whose lines were changed by `change`.
fn edited(folder: &Folder, from: &str, to: &str, change: impl FnOnce(&mut Vec<Value>)) {
    let mut lines = report(folder, from);
    change(&mut lines);
    let text: String = lines.iter().map(|line| format!("{line}\n")).collect();
    folder.write(to, text.as_bytes());
}

#[test]
fn a_report_that_was_edited_is_not_confirmed() {
    let folder = with_lot("reports-edited");
    folder.vbmodel(&format!("{JUDGE} --report r.json"));
    edited(&folder, "r.json", "e.json", |_| {});
    assert_eq!(folder.vbmodel("verify e.json").status, 0);
    let die_04 = 4;
    let refused = |what: &str, change: &dyn Fn(&mut Vec<Value>)| {
        edited(&folder, "r.json", "e.json", change);
        let message = format!("vbmodel: e.json: {what}; the report was changed");
        folder.refused("verify e.json", &message);
    };
    refused("the totals are not those of its parts", &|lines| {
        lines.last_mut().unwrap()["totals"]["pass"] = 24.into();
    });
    refused("it has 25 parts, and 0 that were not judged; it must have 24", &|lines| {
        let mut other = lines[die_04].clone();
        other["part"] = "die-99".into();
        lines.insert(25, other);
    });
    refused("part die-04 appears twice", &|lines| lines.insert(die_04, lines[die_04].clone()));
    refused("its parts are not those that the lot had", &|lines| {
        lines[die_04]["part"] = "die-99".into();
    });
    refused("part die-04: its verdict does not follow from its tests", &|lines| {
        lines[die_04]["verdict"] = "pass".into();
    });
    refused("part die-04: its bin does not follow from its verdict", &|lines| {
        lines[die_04]["bin"] = 1.into();
    });
    refused("part die-14: a record has no such word", &|lines| {
        lines[14]["tests"][1]["trace"]["word"] = 4.into();
    });
    refused("part die-22: only its last test decides", &|lines| {
        lines.iter_mut().filter(|line| line["part"] == "die-22").for_each(|line| {
            line["decides"] = (line["attempt"] == 1).into();
        });
    });
    refused("its shard is not K of N with K from 1 to N", &|lines| {
        lines[0]["header"]["shard"] = serde_json::json!({"number": 0, "of": 0});
    });
    // what agrees with itself is found by judging again
    let differs = |what: &str, change: &dyn Fn(&mut Vec<Value>)| {
        edited(&folder, "r.json", "e.json", change);
        let ran = folder.vbmodel("verify e.json");
        assert!(
            ran.status == 1 && ran.text.contains(what),
            "{what}\nnot in\n{}{}",
            ran.text,
            ran.error
        );
    };
    differs("report:   1 line is not the same\n  die-01: was x 77; is x 2\n", &|lines| {
        lines[1]["x"] = 77.into();
    });
    differs(
        "  die-01: was files {}; is files {lot/parts/die-01/picture.frame0.left.png, ",
        &|lines| {
            lines[1]["files"] = Value::Array(Vec::new());
        },
    );
    differs("  the lot: was files {}; is files {lot/plan.toml, lot/demo.rom, ", &|lines| {
        lines[0]["header"]["files"] = Value::Array(Vec::new());
    });
    folder.write("lot/parts/notes.txt", b"x");
    differs("  the lot: was unknown files {}; is unknown files {notes.txt}\n", &|_| {});
}

/// Of four parts each shard judges two. Where a part's name changes in between, one may be judged twice and one never.
#[test]
fn shards_of_a_lot_that_changed_in_between_are_refused() {
    let folder = with_lot("reports-other-lot");
    let four =
        "cd lot/parts && mkdir ../../p && for part in a b c d; do cp -r die-01 ../../p/$part; done";
    assert_eq!(folder.shell(four).status, 0);
    let shard = |number: u32| {
        let arguments =
            format!("judge --plan lot/plan.toml p --shard {number}/2 --report {number}.json");
        assert_eq!(folder.vbmodel(&arguments).status, 0);
    };
    shard(1);
    fs::rename(folder.path("p/a"), folder.path("p/e")).unwrap();
    shard(2);
    let message =
        "vbmodel: 2.json: the lot had other parts; every shard must be judged from the same lot";
    folder.refused("merge 1.json 2.json", message);
    fs::rename(folder.path("p/e"), folder.path("p/a")).unwrap();
    shard(2);
    assert_eq!(folder.vbmodel("merge 1.json 2.json").status, 0);
    edited(&folder, "2.json", "3.json", |lines| {
        lines.remove(1);
    });
    let message =
        "vbmodel: 3.json: it has 1 parts, and 0 that were not judged; it must have 2; the report was changed";
    folder.refused("merge 1.json 3.json", message);
    edited(&folder, "2.json", "3.json", |lines| lines[1]["part"] = "a".into());
    let message = "vbmodel: the shards are not those of one lot: part a appears twice";
    folder.refused("merge 1.json 3.json", message);
}

/// The parts that were judged when Ctrl-C came are reported; the others are counted.
#[test]
fn ctrl_c_leaves_a_report_that_is_marked_as_incomplete() {
    let folder = with_lot("reports-stopped");
    // enough parts to be stopped among them
    let copies = "cd lot/parts && rm parts.csv && for i in $(seq 1 120); do cp -rl die-01 a$i; cp -rl die-03 b$i; done";
    assert_eq!(folder.shell(copies).status, 0);
    let stopped = |delay: u64| {
        let child = Command::new(env!("CARGO_BIN_EXE_vbmodel"))
            .args(JUDGE.split(' ').chain(["--html", "r.html", "--report", "r.json"]))
            .env("RAYON_NUM_THREADS", "1")
            .current_dir(folder.path("."))
            .stdout(std::process::Stdio::piped())
            .spawn()
            .unwrap();
        std::thread::sleep(std::time::Duration::from_millis(delay));
        common::interrupt(child.id());
        child.wait_with_output().unwrap()
    };
    // the signal may come before the first part or after the last one: then it is tried later or earlier
    let (mut least, mut most) = (0, 4_000);
    for _ in 0..12 {
        let delay = (least + most) / 2;
        let _ = fs::remove_file(folder.path("r.json"));
        let output = stopped(delay);
        let text = String::from_utf8(output.stdout).unwrap();
        if output.status.code() != Some(130) {
            most = delay;
            continue;
        }
        let judged = fs::read_to_string(folder.path("r.json")).unwrap_or_default().lines().count();
        if judged <= 2 {
            least = delay;
            continue;
        }
        assert!(text.contains(" not judged"), "{text}");
        let lines = report(&folder, "r.json");
        let totals = &lines.last().unwrap()["totals"];
        assert_eq!((&totals["complete"], &totals["parts"]), (&false.into(), &264.into()));
        assert!(totals["not_judged"].as_u64().unwrap() > 0);
        let page = String::from_utf8(folder.read("r.html")).unwrap();
        assert!(page.contains("<strong>Incomplete:</strong> "));
        return;
    }
}

/// The aim is 6 s on two idle cores. It writes 1.7 GB and is run on demand.
#[test]
#[ignore = "timed; 1.7 GB of files"]
fn speed_a_thousand_parts_with_traces() {
    let folder = with_lot("reports-speed");
    let plan = "name = 's'\n[[test]]\nname = 'a'\nrom = 'demo.rom'\nschedule = 'frame.schedule'\nframes = ['halt', 'halt']\ntrace = 100_000\n";
    folder.write("lot/s.toml", plan.as_bytes());
    assert_eq!(folder.vbmodel("expect --plan lot/s.toml --out parts/0000").status, 0);
    let copies = "rm parts/0000/*.vram parts/0000/*.drawing; for i in $(seq -w 1 999); do cp -r parts/0000 parts/0$i; done";
    assert_eq!(folder.shell(copies).status, 0);
    for _ in 0..2 {
        let begun = std::time::Instant::now();
        let ran = folder.vbmodel("judge --plan lot/s.toml parts --html r.html");
        println!("1,000 parts, two frames, both eyes, 100,000 records each: {:?}", begun.elapsed());
        assert_eq!(ran.status, 0, "{}", ran.text);
    }
}
