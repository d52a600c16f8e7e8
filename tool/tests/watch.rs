//! `vbmodel run --watch-undefined`.

mod common;

use common::Folder;

const ADD_1_R2: u16 = 0x4441;
const HALT: u16 = 0x6800;
/// MOVHI 6, r0, r1
const MOVHI: [u16; 2] = [0b101111 << 10 | 1 << 5, 6];
/// LD.W -1934[r1], r1: the word at 0x5F870, where BKCOL is followed by no register
const LD_W: [u16; 2] = [0b110011 << 10 | 1 << 5 | 1, 0xF872];

fn with_rom(name: &str, code: &[u16]) -> Folder {
    Folder::with_rom(name, code, &[])
}

fn program() -> Vec<u16> {
    [&MOVHI[..], &LD_W, &[ADD_1_R2, HALT]].concat()
}

const SEEN: &str = "the instruction at 0xFFFFFFF4, LD.W -1934[r1], r1, read undefined bytes at 0x0005F872, 0x0005F873";

#[test]
fn it_stops_at_the_first_undefined_read() {
    let folder = with_rom("watch-stops", &program());
    let ran = folder.vbmodel("run --rom a.rom --watch-undefined");
    assert_eq!((ran.status, ran.error.as_str()), (1, ""), "{}", ran.text);
    let answer = format!("answer:       undefined: {SEEN}");
    for line in [answer.as_str(), "instructions: 2 of at most 20,000,000"] {
        assert!(ran.text.lines().any(|l| l == line), "{line}\nnot in\n{}", ran.text);
    }
}

#[test]
fn with_warn_it_goes_on_and_ends_as_a_run() {
    let folder = with_rom("watch-warns", &program());
    let plain = folder.vbmodel("run --rom a.rom");
    let ran = folder.vbmodel("run --rom a.rom --watch-undefined --warn");
    assert_eq!((ran.status, ran.text), (plain.status, plain.text));
    assert_eq!(ran.error, format!("vbmodel: {SEEN}\n"));
}

#[test]
fn without_an_undefined_read_it_is_a_run() {
    let folder = with_rom("watch-quiet", &[ADD_1_R2, HALT]);
    let plain = folder.vbmodel("run --rom a.rom --json");
    let ran = folder.vbmodel("run --rom a.rom --watch-undefined --json");
    assert_eq!((ran.status, ran.text, ran.error), (plain.status, plain.text, String::new()));
    assert_eq!(folder.vbmodel("run --rom a.rom --warn").status, 2);
}
