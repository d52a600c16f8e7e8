//! `vbmodel state salvage`: what a damaged state still holds.

mod common;

use common::Folder;
use serde_json::Value;

/// A folder with the demo and `a.state`, form 2.
fn with_state(name: &str) -> Folder {
    let folder = Folder::with_demo(name);
    let ran = folder.vbmodel("run --rom out/rom.bin --budget 300_000 --save-state a.state");
    assert_eq!((ran.status, ran.error.as_str()), (0, ""));
    folder
}

#[test]
fn an_undamaged_state_comes_out_as_it_is() {
    let folder = with_state("salvage-sound");
    let ran = folder.vbmodel("state salvage a.state -o b.state");
    assert_eq!((ran.status, ran.error.as_str()), (0, ""));
    assert!(
        ran.text.starts_with("a.state: undamaged\nkept:         kind 1, processor record\n"),
        "{}",
        ran.text
    );
    assert!(
        ran.text
            .ends_with("kept:         kind 6, request lines and timer\nwritten:      b.state\n"),
        "{}",
        ran.text
    );
    assert!(folder.read("b.state") == folder.read("a.state"));
}

#[test]
fn what_is_lost_and_kept_is_reported_in_words() {
    let folder = with_state("salvage-damaged");
    let sound = folder.read("a.state");
    for (changes, lost, contents) in [
        (&[300][..], &[3][..], false),
        (&[16], &[1], false),
        (&[4], &[], true),
        (&[80, 70_000, 8], &[1, 4], true),
        (&[327_954, 250], &[2, 6], false),
    ] {
        let mut file = sound.clone();
        changes.iter().for_each(|&at| file[at] ^= 0x40);
        folder.write("bad", &file);
        let ran = folder.vbmodel("state salvage bad -o good");
        assert_eq!((ran.status, ran.error.as_str()), (1, ""), "{changes:?}");
        assert!(
            ran.text.starts_with("bad: damaged, and repaired as far as it could be\n"),
            "{}",
            ran.text
        );
        assert_eq!(
            ran.text.contains("contents:     damaged, and rebuilt\n"),
            contents,
            "{}",
            ran.text
        );
        let json = folder.vbmodel("state salvage bad -o good --json");
        let value: Value = serde_json::from_str(&json.text).unwrap();
        let kinds = |name: &str| -> Vec<u64> {
            value[name]
                .as_array()
                .unwrap()
                .iter()
                .map(|body| body["kind"].as_u64().unwrap())
                .collect()
        };
        assert_eq!(kinds("lost"), lost);
        let kept: Vec<u64> =
            [1, 2, 3, 4, 6].into_iter().filter(|kind| !lost.contains(kind)).collect();
        assert_eq!(kinds("kept"), kept);
        assert_eq!(
            (&value["undamaged"], &value["contents_repaired"]),
            (&false.into(), &contents.into())
        );
        // what came out is sound, and salvaged again it is undamaged
        assert_eq!(folder.vbmodel("state show good").status, 0);
        assert_eq!(folder.vbmodel("state salvage good -o again").status, 0);
        assert!(folder.read("again") == folder.read("good"));
        assert_eq!(folder.vbmodel("run --rom out/rom.bin --state good --budget 1").status, 0);
    }
    let ran = folder.vbmodel("state salvage bad -o mended");
    for line in [
        "lost:         kind 2, drawing record: now reset values\n",
        "lost:         kind 6, request lines and timer: now reset values\n",
        "kept:         kind 4, VRAM\n",
    ] {
        assert!(ran.text.contains(line), "{}", ran.text);
    }
    assert_eq!(folder.vbmodel("state show mended").status, 0);
    let mut file = sound;
    file[300] ^= 1;
    let fed = folder.vbmodel_fed("state salvage - -o good", &file);
    assert!(fed.text.contains("lost:         kind 3, WRAM: now zeros\n"), "{}", fed.text);
}

#[test]
fn a_sound_file_of_form_1_is_not_salvaged_unasked() {
    let folder = Folder::with_demo("salvage-form-1");
    folder.write("a.pak", &[7; 32]);
    let run = "run --rom out/rom.bin --pak a.pak --budget 9 --state-form 1 --save-state one.state";
    assert_eq!(folder.vbmodel(run).status, 0);
    assert_eq!(folder.read("one.state").len(), 327_962);
    folder.refused(
        "state salvage one.state -o b.state",
        "vbmodel: one.state (327,962 bytes): it is a sound saved state of form 1 with 32 bytes of pak RAM, and would be \
         taken for a damaged one of form 2; `vbmodel state move` brings it to form 2, and --force salvages it all the same",
    );
    let forced = folder.vbmodel("state salvage one.state -o b.state --force");
    assert_eq!(forced.status, 1, "{}", forced.error);
    assert_eq!(folder.vbmodel("state show b.state").status, 0);
    // a damaged one is not an undamaged one
    let mut file = folder.read("one.state");
    file[2] ^= 1;
    folder.write("bad", &file);
    assert_eq!(folder.vbmodel("state salvage bad -o b.state").status, 1);
}

#[test]
fn other_lengths_are_refused_and_nothing_is_written() {
    let folder = with_state("salvage-lengths");
    let sound = folder.read("a.state");
    folder.write("short", &sound[1..]);
    folder.write("empty", b"");
    folder.write("one", &sound[..327_920]);
    for (name, given) in [("short", "327,961"), ("empty", "0"), ("one", "327,920")] {
        folder.refused(
            &format!("state salvage {name} -o b.state"),
            &format!(
                "vbmodel: {name} ({given} bytes): refusal 17: the file has {given} bytes; a saved state of form 2 has 327,962 \
                 without pak RAM, or 327,976 and its length, a power of two up to 16,777,216"
            ),
        );
    }
    folder.refused(
        "state salvage none -o b.state",
        "vbmodel: none: No such file or directory; it must be a saved state of form 2",
    );
    let ran = folder.vbmodel("state salvage a.state -o out");
    assert_eq!(ran.status, 2);
    assert!(ran.error.contains("out: is a folder; nothing was written"), "{}", ran.error);
    let help = folder.vbmodel("state salvage --help").text;
    assert!(help.contains("Example: ") && help.contains("Exit status: 0 undamaged"), "{help}");
}
