//! Reading of a sheet: its bytes become a board, moves and choices, or the first slip is told.

use crate::kind::{Kind, Value};
use std::ops::RangeInclusive;

const MOST_BYTES: usize = 32_768;
const MOST_STEPS: usize = 1_024;

#[derive(Clone, Debug)]
pub struct Step {
    pub letter: u8,
    pub cell: usize,
    pub number: u32,
}

#[derive(Clone, Debug)]
pub struct Move {
    pub label: u32,
    pub steps: Vec<Step>,
}

#[derive(Clone, Debug)]
pub struct Sheet {
    pub kind: Kind,
    pub share: u64,
    pub board: Vec<Value>,
    pub moves: Vec<Move>,
    pub choices: Vec<usize>,
}

/// What is wrong: the number of the refusal, the line and the word.
#[derive(Clone, Copy, Debug, PartialEq, Eq)]
pub struct Slip {
    pub number: u32,
    pub line: usize,
    pub word: usize,
}

/// The bytes not read yet, and the number of lines read.
struct Reader<'a> {
    left: &'a [u8],
    lines: usize,
}

/// A line with as many words as were due.
struct Line<'a> {
    number: usize,
    words: Vec<&'a [u8]>,
}

pub fn read(bytes: &[u8]) -> Result<Sheet, Slip> {
    if bytes.len() > MOST_BYTES {
        return Err(Slip { number: 10, line: 0, word: 0 });
    }
    let mut reader = Reader { left: bytes, lines: 0 };
    let kind = Kind::of_first_byte(bytes.first());
    let (cells, share) = read_kind_line(&mut reader, kind)?;
    let board = read_occupancy(&mut reader, kind, cells)?;
    let moves = read_moves(&mut reader, kind, cells)?;
    let choices = read_choices(&mut reader, moves.len())?;
    reader.end()?;
    Ok(Sheet { kind, share, board, moves, choices })
}

fn read_kind_line(reader: &mut Reader, kind: Kind) -> Result<(usize, u64), Slip> {
    let line = reader.line(3)?;
    line.letter(1, &[kind.sheet_letter()])?;
    let cells = line.number(2, 1..=1_024)?;
    let share = line.number(3, 1..=1_000)?;
    Ok((cells as usize, u64::from(share)))
}

fn read_occupancy(reader: &mut Reader, kind: Kind, cells: usize) -> Result<Vec<Value>, Slip> {
    let line = reader.line(2)?;
    line.letter(1, b"O")?;
    let rows = line.number(2, 0..=1_024)?;
    if rows == 0 {
        return Err(line.slip(6, 2));
    }
    let mut board = vec![kind.unnamed(); cells];
    let mut before = None;
    for _ in 0..rows {
        let (cell, value) = read_row(reader, kind, cells, before)?;
        board[cell] = value;
        before = Some(cell);
    }
    Ok(board)
}

fn read_row(reader: &mut Reader, kind: Kind, cells: usize, before: Option<usize>) -> Result<(usize, Value), Slip> {
    let line = reader.line(1 + kind.value_words())?;
    let cell = line.cell(1, cells)?;
    let mut words = Vec::new();
    for place in 1..=kind.value_words() {
        words.push(line.number(1 + place, 0..=kind.largest_word())?);
    }
    if before.is_some_and(|before| cell <= before) {
        return Err(line.slip(7, 0));
    }
    Ok((cell, kind.value(&words)))
}

fn read_moves(reader: &mut Reader, kind: Kind, cells: usize) -> Result<Vec<Move>, Slip> {
    let count = reader.count_line(b"M", 256)?;
    let mut moves = Vec::new();
    let mut room = MOST_STEPS;
    for _ in 0..count {
        let next = read_move(reader, kind, cells, room)?;
        room -= next.steps.len();
        moves.push(next);
    }
    Ok(moves)
}

/// Reads a move that may have at most `room` steps.
fn read_move(reader: &mut Reader, kind: Kind, cells: usize, room: usize) -> Result<Move, Slip> {
    let line = reader.line(2)?;
    let label = line.number(1, 1..=65_535)?;
    let count = line.number(2, 1..=8)? as usize;
    if count > room {
        return Err(line.slip(8, 0));
    }
    let mut steps = Vec::new();
    for _ in 0..count {
        steps.push(read_step(reader, kind, cells)?);
    }
    Ok(Move { label, steps })
}

fn read_step(reader: &mut Reader, kind: Kind, cells: usize) -> Result<Step, Slip> {
    let line = reader.line(3)?;
    let letter = line.letter(1, kind.order_letters())?;
    let cell = line.cell(2, cells)?;
    let number = line.number(3, kind.order_numbers(letter))?;
    Ok(Step { letter, cell, number })
}

fn read_choices(reader: &mut Reader, moves: usize) -> Result<Vec<usize>, Slip> {
    let count = reader.count_line(b"C", 64)?;
    let mut choices = Vec::new();
    for _ in 0..count {
        choices.push(reader.line(1)?.cell(1, moves)?);
    }
    Ok(choices)
}

impl<'a> Reader<'a> {
    /// The next line, which has to have just so many words.
    fn line(&mut self, due: usize) -> Result<Line<'a>, Slip> {
        self.lines += 1;
        let Some(length) = self.left.iter().position(|&byte| byte == b'\n') else {
            return Err(Slip { number: 9, line: self.lines, word: 0 });
        };
        let words: Vec<&[u8]> = self.left[..length].split(|&byte| byte == b' ').collect();
        self.left = &self.left[length + 1..];
        let line = Line { number: self.lines, words };
        if line.words.len() != due || line.words.iter().any(|word| word.is_empty()) {
            return Err(line.slip(3, 0));
        }
        Ok(line)
    }

    /// A line of a letter and a count from 0 on.
    fn count_line(&mut self, letter: &[u8], most: u32) -> Result<u32, Slip> {
        let line = self.line(2)?;
        line.letter(1, letter)?;
        line.number(2, 0..=most)
    }

    fn end(&self) -> Result<(), Slip> {
        if self.left.is_empty() {
            return Ok(());
        }
        Err(Slip { number: 9, line: self.lines + 1, word: 0 })
    }
}

impl Line<'_> {
    fn slip(&self, number: u32, word: usize) -> Slip {
        Slip { number, line: self.number, word }
    }

    /// The word of this number, from 1, as one of the letters due.
    fn letter(&self, word: usize, due: &[u8]) -> Result<u8, Slip> {
        match self.words[word - 1] {
            [byte] if due.contains(byte) => Ok(*byte),
            _ => Err(self.slip(5, word)),
        }
    }

    fn number(&self, word: usize, range: RangeInclusive<u32>) -> Result<u32, Slip> {
        let text = self.words[word - 1];
        if !is_number(text) {
            return Err(self.slip(1, word));
        }
        let Some(number) = small_number(text) else {
            return Err(self.slip(2, word));
        };
        if !range.contains(&number) {
            return Err(self.slip(4, word));
        }
        Ok(number)
    }

    /// A number below `count`, be it a cell or the place of a move.
    fn cell(&self, word: usize, count: usize) -> Result<usize, Slip> {
        let number = self.number(word, 0..=65_535)? as usize;
        if number >= count {
            return Err(self.slip(4, word));
        }
        Ok(number)
    }
}

fn is_number(text: &[u8]) -> bool {
    text.iter().all(u8::is_ascii_digit) && (text.len() == 1 || text[0] != b'0')
}

/// The value of a number, if it is at most 65,535.
fn small_number(text: &[u8]) -> Option<u32> {
    if text.len() > 5 {
        return None;
    }
    let number = text.iter().fold(0, |sum, digit| 10 * sum + u32::from(digit - b'0'));
    (number <= 65_535).then_some(number)
}
