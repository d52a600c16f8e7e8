//! Salvage of a saved state (W13): "Files come back from a failing disk with bytes
//! changed, length kept. Form 2's length fixes every body's length and place."

use crate::processor;
use crate::refusal::{refuse_unless, Refusal};
use crate::saved::{can_be_made, file_of_bodies, processor_bytes, sum, word_at, Form};

/// What a salvage reports.
#[derive(Clone, Debug, Default, PartialEq, Eq)]
pub struct Salvaged {
    /// "the list of kinds replaced, in order".
    pub replaced: Vec<u16>,
    /// "whether, sums of replaced bodies aside, any byte before the first body
    /// differs in the output".
    pub contents_differ: bool,
}

/// The reset values of a body: "(3 to 5: zeros)", and of drawing registers, lines
/// and timer too.
fn reset_body(kind: u16, length: usize) -> Vec<u8> {
    match kind {
        1 => processor_bytes(&processor::reset().0),
        _ => vec![0; length],
    }
}

/// Writes a valid form 2 file with every recoverable body. Refusal 9 first: the
/// output buffer isn't as long as the file; then 17: no form 2 layout has this
/// length.
pub fn salvage_state(file: &[u8], output: &mut [u8]) -> Result<Salvaged, Refusal> {
    refuse_unless(output.len() == file.len(), Refusal::FileLength)?;
    let pak = Form::Two.pak_of(file.len()).ok_or(Refusal::NoLayout)?;
    let mut salvaged = Salvaged::default();
    let mut bodies = Vec::new();
    let mut left_out = Vec::new();
    for (number, (kind, place, length)) in Form::Two.places(pak).into_iter().enumerate() {
        let body = &file[place..place + length];
        let sum_place = Form::sum_place(number);
        // "keeps each body whose stored sum matches and which the writer could have made"
        if word_at(file, sum_place) == sum(body) && can_be_made(kind, body) {
            bodies.push((kind, body.to_vec()));
        } else {
            bodies.push((kind, reset_body(kind, length)));
            salvaged.replaced.push(kind);
            left_out.extend(sum_place..sum_place + 4);
        }
    }
    let bodies: Vec<_> = bodies.iter().map(|(kind, body)| (*kind, &body[..])).collect();
    let written = file_of_bodies(Form::Two, &bodies);
    let mut before_bodies = 0..Form::Two.contents_length(pak);
    salvaged.contents_differ =
        before_bodies.any(|at| file[at] != written[at] && !left_out.contains(&at));
    output.copy_from_slice(&written);
    Ok(salvaged)
}
