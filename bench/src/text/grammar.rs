//! The kinds of lines, the numbers of each with their words and ranges, and why a line is refused.

use super::words::{number, Words};

/// Why a text is refused, as the C header numbers it.
pub mod fault {
    pub const WORD: u32 = 1;
    pub const NUMBER: u32 = 2;
    pub const RANGE: u32 = 3;
    pub const AGAIN: u32 = 4;
    pub const TWICE: u32 = 5;
    pub const INCOMPLETE: u32 = 6;
    pub const ABSENT: u32 = 7;
    pub const SIZE: u32 = 8;
}

/// What of a line it is about, likewise; those of the numbers stand in their places below.
pub mod item {
    pub const GUARD: u32 = 1;
    pub const TOP: u32 = 2;
    pub const FLOW: u32 = 7;
    pub const ROUTE: u32 = 16;
    pub const HOPS: u32 = 17;
    pub const FIRST: u32 = 18;
    pub const END: u32 = 19;
}

#[derive(Clone, Copy)]
pub struct Refused {
    pub fault: u32,
    pub item: u32,
    pub value: u64,
}

impl Refused {
    pub fn new(fault: u32, item: u32, value: u64) -> Refused {
        Refused { fault, item, value }
    }
}

/// A number of a line: the word before it, none behind the line's first word; what it is where it is left out; and its range.
pub struct Place {
    pub item: u32,
    word: &'static [u8],
    absent: Option<u64>,
    low: u64,
    high: u64,
}

const BLOCKER: u32 = 5;

const fn place(item: u32, word: &'static [u8], absent: Option<u64>, low: u64, high: u64) -> Place {
    Place { item, word, absent, low, high }
}

const GUARD: &[Place] = &[place(item::GUARD, b"", None, 0, 1_000_000)];
const TOP: &[Place] = &[place(item::TOP, b"", None, 1, 100_000_000)];
const PORT: &[Place] = &[
    place(3, b"", None, 1, 64),
    place(4, b"rate", None, 1, 100_000),
    place(BLOCKER, b"blocker", Some(0), 64, 2_000),
    place(6, b"extra", Some(0), 0, 64),
];
const FLOW: &[Place] = &[
    place(item::FLOW, b"", None, 1, 256),
    place(8, b"period", None, 1_000, 100_000_000),
    place(9, b"count", Some(1), 1, 64),
    place(10, b"length", None, 64, 2_000),
    place(11, b"jitter", Some(0), 0, 10_000_000),
];
const CLOCKS: &[Place] = &[
    place(12, b"drift", None, 0, 1_000),
    place(13, b"timing", None, 0, 1_000),
    place(14, b"sync", None, 0, 1_000_000),
];
const FORMAT: &[Place] = &[place(15, b"", None, 2, 2)];

impl Place {
    /// Its number, none where what stands there is no number; refused where its word is missing.
    pub fn take(&self, words: &mut Words) -> Result<Option<u64>, Refused> {
        if self.word.is_empty() || words.accept(self.word) {
            return Ok(words.next().and_then(number));
        }
        match self.absent {
            Some(absent) => Ok(Some(absent)),
            None => Err(Refused::new(fault::WORD, self.item, 0)),
        }
    }

    pub fn allows(&self, number: u64) -> bool {
        (self.low..=self.high).contains(&number) || (self.item == BLOCKER && number == 0)
    }
}

#[derive(Clone, Copy, PartialEq)]
pub enum Kind {
    Guard,
    Top,
    Port,
    Flow,
    Clocks,
    Format,
}

impl Kind {
    pub fn of(word: &[u8]) -> Option<Kind> {
        match word {
            b"guard" => Some(Kind::Guard),
            b"top" => Some(Kind::Top),
            b"port" => Some(Kind::Port),
            b"flow" => Some(Kind::Flow),
            b"clocks" => Some(Kind::Clocks),
            b"format" => Some(Kind::Format),
            _ => None,
        }
    }

    pub fn places(self) -> &'static [Place] {
        match self {
            Kind::Guard => GUARD,
            Kind::Top => TOP,
            Kind::Port => PORT,
            Kind::Flow => FLOW,
            Kind::Clocks => CLOCKS,
            Kind::Format => FORMAT,
        }
    }
}
