use vb::{op, Answer, Instruction, Machine};

use super::{text, total, Behaviour, Step};

#[test]
fn nothing_watched_leaves_every_cell_empty() {
    let counted = Behaviour::default().counted();
    let (cells, exercised) = total(&counted);
    assert_eq!(exercised, 0);
    assert!(cells > 5_000 && counted.len() >= 57, "{cells} cells of {} tables", counted.len());
    for table in &counted {
        assert_eq!(table.empty.len(), table.cells, "{}", table.table);
        let mut names = table.empty.clone();
        names.sort();
        names.dedup();
        assert_eq!(names.len(), table.cells, "{}: a name for each cell", table.table);
    }
}

#[test]
fn a_step_marks_the_cells_that_it_exercises_and_no_others() {
    let before = Machine::reset().processor;
    let mut after = before;
    (after.regs[3], after.psw) = (1, before.psw & !1);
    let instruction =
        Some(Instruction { operation: op::ADD, reg1: 2, reg2: 3, ..Instruction::default() });
    let mut behaviour = Behaviour::default();
    let (answer, rom) = (&Answer::Ended, 1_024);
    behaviour.step(&Step { before: &before, instruction, answer, after: &after, rom });
    let counted = behaviour.counted();
    let find = |name: &str| counted.iter().find(|table| table.table == name).expect(name);
    assert_eq!(find("instructions").exercised, 1);
    let operands = find("integer operands");
    assert_eq!(operands.exercised, 1);
    assert!(!operands.empty.contains(&"ADD, reg1 0, reg2 0".to_string()));
    assert!(find("float operands").exercised == 0 && find("worlds by slot").exercised == 0);
    assert!(text(&counted).contains("  integer operands: 1 of 490\n"));
}

#[test]
fn a_scene_marks_worlds_objects_and_shades() {
    let mut vram = vec![0; vb::VRAM_LENGTH];
    let world = [0xC000u16, 0, 0, 0, 0, 0, 0, 383, 223];
    for (n, half) in world.into_iter().enumerate() {
        vram[0x3D800 + 32 * 31 + 2 * n..][..2].copy_from_slice(&half.to_le_bytes());
    }
    vram[0x3D800 + 32 * 30] = 0x40;
    let mut behaviour = Behaviour::default();
    behaviour.scene(&vram, &vb::Drawing::default(), 1);
    let counted = behaviour.counted();
    let exercised =
        |name: &str| counted.iter().find(|table| table.table == name).map(|table| table.exercised);
    assert_eq!(exercised("worlds by slot"), Some(1));
    assert_eq!(exercised("END and skipped worlds"), Some(1));
    assert_eq!(exercised("shades"), Some(24));
    assert_eq!(exercised("object worlds of a scene"), Some(1));
    assert_eq!(exercised("window edges"), Some(8));
}
