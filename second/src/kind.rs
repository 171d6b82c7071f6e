//! The two kinds of sheets: what their cells hold and what each order makes of a value.

use std::ops::RangeInclusive;

#[derive(Clone, Copy, Debug, PartialEq, Eq)]
pub enum Kind {
    Stands,
    Feeders,
}

/// What a cell holds.
#[derive(Clone, Copy, Debug, PartialEq, Eq)]
pub enum Value {
    Stand { tram: u32 },
    Feeder { load: u32, limit: u32 },
}

/// The number of a cause, 23 to 29.
pub type Cause = u32;

impl Kind {
    /// A sheet is read as feeders if it begins with `F`, else as stands.
    pub fn of_first_byte(byte: Option<&u8>) -> Kind {
        match byte {
            Some(b'F') => Kind::Feeders,
            _ => Kind::Stands,
        }
    }

    pub fn sheet_letter(self) -> u8 {
        match self {
            Kind::Stands => b'S',
            Kind::Feeders => b'F',
        }
    }

    pub fn order_letters(self) -> &'static [u8] {
        match self {
            Kind::Stands => b"TPL",
            Kind::Feeders => b"ASH",
        }
    }

    /// The numbers that may stand behind one of the kind's order letters.
    pub fn order_numbers(self, letter: u8) -> RangeInclusive<u32> {
        let lowest = if self.writes(letter) { 1 } else { 0 };
        lowest..=self.largest_word()
    }

    pub fn writes(self, letter: u8) -> bool {
        match self {
            Kind::Stands => letter == b'T' || letter == b'P',
            Kind::Feeders => letter == b'A' || letter == b'S',
        }
    }

    /// The largest number in a value or an order.
    pub fn largest_word(self) -> u32 {
        match self {
            Kind::Stands => 9_999,
            Kind::Feeders => 4_000,
        }
    }

    /// How many words a value has in a row, the cell not counted.
    pub fn value_words(self) -> usize {
        match self {
            Kind::Stands => 1,
            Kind::Feeders => 2,
        }
    }

    /// The value of a row with these words.
    pub fn value(self, words: &[u32]) -> Value {
        match self {
            Kind::Stands => Value::Stand { tram: words[0] },
            Kind::Feeders => Value::Feeder { load: words[0], limit: words[1] },
        }
    }

    /// The value of a cell that no row names.
    pub fn unnamed(self) -> Value {
        self.value(&[0, 0])
    }
}

impl Value {
    /// The words of the value in a row, without the cell.
    pub fn words(self) -> Vec<u32> {
        match self {
            Value::Stand { tram } => vec![tram],
            Value::Feeder { load, limit } => vec![load, limit],
        }
    }

    /// What an order makes of this value.
    pub fn after(self, letter: u8, number: u32) -> Result<Value, Cause> {
        match self {
            Value::Stand { tram } => {
                let tram = stand_after(letter, number, tram)?;
                Ok(Value::Stand { tram })
            }
            Value::Feeder { load, limit } => {
                let load = load_after(letter, number, load, limit)?;
                Ok(Value::Feeder { load, limit })
            }
        }
    }
}

fn stand_after(letter: u8, number: u32, tram: u32) -> Result<u32, Cause> {
    match letter {
        b'T' if tram == number => Ok(0),
        b'T' if tram == 0 => Err(23),
        b'T' => Err(24),
        b'P' if tram == 0 => Ok(number),
        b'P' => Err(25),
        b'L' if tram == number => Ok(tram),
        b'L' => Err(26),
        other => unreachable!("stands have no order {}", other as char),
    }
}

fn load_after(letter: u8, number: u32, load: u32, limit: u32) -> Result<u32, Cause> {
    match letter {
        b'A' if load + number <= limit => Ok(load + number),
        b'A' => Err(27),
        b'S' if number <= load => Ok(load - number),
        b'S' => Err(28),
        b'H' if load + number <= limit => Ok(load),
        b'H' => Err(29),
        other => unreachable!("feeders have no order {}", other as char),
    }
}
