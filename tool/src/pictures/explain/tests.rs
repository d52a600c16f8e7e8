use super::*;

fn question<'a>(vram: &'a [u8], drawing: &'a Drawing, library_value: u8) -> Question<'a> {
    Question { vram, drawing, eye: Eye::Left, x: 3, y: 5, library_value, every_object: false }
}

#[test]
fn a_disagreement_of_model_and_library_is_said_in_its_own_words() {
    let vram = vec![0; vb::VRAM_LENGTH];
    let drawing = Drawing { bkcol: 2, ..Drawing::default() };
    let same = explain(&question(&vram, &drawing, 2)).unwrap();
    assert!(same.agree && same.text().contains("the proved library draws 2, the same\n"));
    let other = explain(&question(&vram, &drawing, 1)).unwrap();
    assert!(!other.agree);
    let words = "the proved library draws 1: they differ, a fault of the model or of the library, not of the die";
    assert!(other.text().contains(words), "{}", other.text());
}

#[test]
fn lists_that_differ_are_reported() {
    let of = |library: &[u32]| Lists { model: vec![1, 2], library: library.to_vec() };
    assert!(of(&[1, 2]).head().ends_with("2, proved; the independent model's are the same:"));
    for other in [&[1][..], &[1, 3], &[2, 1], &[1, 2, 2]] {
        let lists = of(other);
        assert!(!lists.same());
        let words = format!(
            "the proved library lists {}, the independent model 2, and the lists differ: a fault",
            other.len()
        );
        assert!(lists.head().contains(&words), "{}", lists.head());
    }
}
