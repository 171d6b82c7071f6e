//! The listing: the text that tells the dealing, the outcomes and the changed cells, or the slip of a sheet.

use crate::dealing::Dealing;
use crate::kind::Value;
use crate::run::{Closing, Outcome};
use crate::sheet::{Sheet, Slip};

pub fn listing(sheet: &Sheet, dealing: &Dealing, closing: &Closing) -> String {
    [
        queues(&dealing.queues),
        rest_list(&dealing.rest),
        outcomes(sheet, &closing.outcomes),
        changed_cells(&sheet.board, &closing.board),
    ]
    .concat()
}

pub fn refusal(slip: Slip) -> String {
    format!("N {} {} {}\n", slip.number, slip.line, slip.word)
}

fn queues(queues: &[Vec<usize>]) -> String {
    section('Q', queues.iter().map(|queue| format!("{}{}", queue.len(), spaced(queue))).collect())
}

fn rest_list(rest: &[usize]) -> String {
    section('R', rest.iter().map(usize::to_string).collect())
}

fn outcomes(sheet: &Sheet, outcomes: &[Outcome]) -> String {
    let told = sheet.moves.iter().zip(outcomes).map(|(one, outcome)| format!("{} {}", one.label, outcome_words(outcome)));
    section('E', told.collect())
}

fn outcome_words(outcome: &Outcome) -> String {
    match outcome {
        Outcome::NotEnded => "0 0 0".to_string(),
        Outcome::Done => "1 0 0".to_string(),
        Outcome::Failed(step, cause) => format!("2 {step} {cause}"),
    }
}

fn changed_cells(opening: &[Value], closing: &[Value]) -> String {
    let cells = (0..opening.len()).filter(|&cell| opening[cell] != closing[cell]);
    section('V', cells.map(|cell| format!("{cell}{}", spaced(&closing[cell].words()))).collect())
}

/// A letter with the number of lines, and then the lines.
fn section(letter: char, lines: Vec<String>) -> String {
    let mut text = format!("{letter} {}\n", lines.len());
    for line in lines {
        text += &line;
        text.push('\n');
    }
    text
}

/// The numbers, each behind a space.
fn spaced<N: ToString>(numbers: &[N]) -> String {
    numbers.iter().map(|number| format!(" {}", number.to_string())).collect()
}
