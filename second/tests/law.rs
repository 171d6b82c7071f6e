//! The law of runs, tried on many small sheets: queues never conflict, and their order makes no difference.

use second::dealing::{deal, Dealing};
use second::kind::Kind;
use second::run::{run, run_in_order};
use second::sheet::{read, Sheet};

/// A row of numbers that look random.
struct Numbers(u64);

impl Numbers {
    fn below(&mut self, count: u64) -> u64 {
        self.0 = self.0.wrapping_mul(6_364_136_223_846_793_005).wrapping_add(1_442_695_040_888_963_407);
        (self.0 >> 33) % count
    }

    fn pick<'a>(&mut self, texts: &[&'a str]) -> &'a str {
        texts[self.below(texts.len() as u64) as usize]
    }
}

fn random_sheet(numbers: &mut Numbers) -> Sheet {
    let kind = numbers.pick(&["S", "F"]);
    let cells = 2 + numbers.below(10);
    let moves = 1 + numbers.below(12);
    let mut text = format!("{kind} {cells} {}\nO {cells}\n", 1 + numbers.below(1_000));
    for cell in 0..cells {
        let value = if kind == "S" { numbers.pick(&["0", "1", "2"]) } else { numbers.pick(&["0 2", "1 2", "2 2", "3 2"]) };
        text += &format!("{cell} {value}\n");
    }
    text += &format!("M {moves}\n");
    for label in 1..=moves {
        let steps = 1 + numbers.below(4);
        text += &format!("{label} {steps}\n");
        for _ in 0..steps {
            let letter = if kind == "S" { numbers.pick(&["T", "P", "L"]) } else { numbers.pick(&["A", "S", "H"]) };
            text += &format!("{letter} {} {}\n", numbers.below(cells), 1 + numbers.below(2));
        }
    }
    let choices = numbers.below(5);
    text += &format!("C {choices}\n");
    for _ in 0..choices {
        text += &format!("{}\n", numbers.below(moves));
    }
    read(text.as_bytes()).expect("the sheet has no slip")
}

fn conflict(sheet: &Sheet, one: usize, other: usize) -> bool {
    let writes = |letter| sheet.kind.writes(letter);
    sheet.moves[one].steps.iter().any(|a| {
        sheet.moves[other].steps.iter().any(|b| a.cell == b.cell && (writes(a.letter) || writes(b.letter)))
    })
}

fn queues_never_conflict(sheet: &Sheet, dealing: &Dealing) -> bool {
    let queues = &dealing.queues;
    let apart = |a: &Vec<usize>, b: &Vec<usize>| a.iter().all(|&one| b.iter().all(|&other| !conflict(sheet, one, other)));
    (0..queues.len()).all(|a| (0..a).all(|b| apart(&queues[a], &queues[b])))
}

/// One move of each queue in turn, then the rest list.
fn in_turns(dealing: &Dealing) -> Vec<usize> {
    let longest = dealing.queues.iter().map(Vec::len).max().unwrap_or(0);
    let turns = (0..longest).flat_map(|turn| dealing.queues.iter().filter_map(move |queue| queue.get(turn)));
    turns.chain(&dealing.rest).copied().collect()
}

#[test]
fn the_order_of_queues_makes_no_difference() {
    let mut numbers = Numbers(5);
    let (mut with_rest, mut of_feeders) = (0, 0);
    for _ in 0..5_000 {
        let sheet = random_sheet(&mut numbers);
        let dealing = deal(&sheet);
        let mut standing: Vec<usize> = dealing.queues.iter().flatten().chain(&dealing.rest).copied().collect();
        standing.sort();
        assert_eq!(standing, (0..sheet.moves.len()).collect::<Vec<_>>());
        assert!(queues_never_conflict(&sheet, &dealing));
        let closing = run(&sheet, &dealing);
        let backwards: Vec<usize> = dealing.queues.iter().rev().flatten().chain(&dealing.rest).copied().collect();
        assert_eq!(closing, run_in_order(&sheet, &backwards));
        assert_eq!(closing, run_in_order(&sheet, &in_turns(&dealing)));
        with_rest += usize::from(!dealing.rest.is_empty());
        of_feeders += usize::from(sheet.kind == Kind::Feeders);
    }
    assert!(with_rest > 100 && of_feeders > 1_000, "{with_rest} with a rest list, {of_feeders} of feeders");
}
