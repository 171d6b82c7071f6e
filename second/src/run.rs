//! The run: each move is worked whole on a copy of the board, which becomes the board if no step fails.

use crate::dealing::Dealing;
use crate::kind::{Cause, Value};
use crate::sheet::{Move, Sheet};

#[derive(Clone, Copy, Debug, PartialEq, Eq)]
pub enum Outcome {
    NotEnded,
    Done,
    /// The failing step, from 1, and its cause.
    Failed(usize, Cause),
}

/// The board when all moves have ended, and the outcome of each by place.
#[derive(Clone, Debug, PartialEq, Eq)]
pub struct Closing {
    pub board: Vec<Value>,
    pub outcomes: Vec<Outcome>,
}

/// Works the queues in order, and then the rest list.
pub fn run(sheet: &Sheet, dealing: &Dealing) -> Closing {
    let order: Vec<usize> = dealing.queues.iter().flatten().chain(&dealing.rest).copied().collect();
    run_in_order(sheet, &order)
}

/// Works the moves at these places, one after the other.
pub fn run_in_order(sheet: &Sheet, order: &[usize]) -> Closing {
    let mut board = sheet.board.clone();
    let mut outcomes = vec![Outcome::NotEnded; sheet.moves.len()];
    for &place in order {
        outcomes[place] = match work_whole(&sheet.moves[place], &board) {
            Ok(after) => {
                board = after;
                Outcome::Done
            }
            Err((step, cause)) => Outcome::Failed(step, cause),
        };
    }
    Closing { board, outcomes }
}

/// The board after all steps of a move, or the failing step and its cause.
fn work_whole(one: &Move, board: &[Value]) -> Result<Vec<Value>, (usize, Cause)> {
    let mut after = board.to_vec();
    for (place, step) in one.steps.iter().enumerate() {
        let made = after[step.cell].after(step.letter, step.number);
        after[step.cell] = made.map_err(|cause| (place + 1, cause))?;
    }
    Ok(after)
}
