//! Texts by hand: K's text with one line written otherwise, and short ones; where each is refused, why, about what, with which number.

use super::known::K;
use super::text::{ask_encode, ask_refused};
use crate::answers::EncodeAnswer;
use crate::report::Tally;
use crate::rng::Rng;

const LINES: [&str; 5] = [
    "guard 1000",
    "top 1000000",
    "port 1 rate 100",
    "flow 1 period 100000 length 230 route 1",
    "flow 2 period 110000 length 605 route 1",
];

/// A refused text: the line, why, about what, and the number.
type Row<'a> = (&'a str, u32, u32, u32, u64);

/// A line in place of K's of this number; it is this line that is refused.
const OTHERWISE: [Row; 45] = [
    ("gard 1000", 1, 1, 18, 0),
    ("guard 1000 ns", 1, 1, 19, 0),
    ("guard x 0", 1, 1, 19, 0),
    ("format 2", 2, 1, 18, 0),
    ("port", 3, 1, 4, 0),
    ("port 1 rates 100", 3, 1, 4, 0),
    ("port x blocker 0", 3, 1, 4, 0),
    ("port 1 rate 100 extra 1 blocker 64", 3, 1, 19, 0),
    ("port 1 rate blocker 64", 3, 1, 19, 0),
    ("flow 1 length 230 route 1", 4, 1, 8, 0),
    ("flow 1 period 100000 route 1", 4, 1, 10, 0),
    ("flow 1 period 100000 length 230", 4, 1, 16, 0),
    ("flow 1 period 100000 length 230 jitter 1 count 1 route 1", 4, 1, 16, 0),
    ("clocks drift 1 sync 1 timing 1", 3, 1, 13, 0),
    ("clocks drift 1 timing 1", 3, 1, 14, 0),
    ("guard", 1, 2, 1, 0),
    ("top 1e6", 2, 2, 2, 0),
    ("port one rate 0", 3, 2, 3, 0),
    ("port 1 rate -1", 3, 2, 4, 0),
    ("port 99 rate 100 blocker", 3, 2, 5, 0),
    ("flow 1 period 100000 length 230 route", 4, 2, 16, 0),
    ("flow 1 period 1 length 230 route 1 to 2", 4, 2, 16, 0),
    ("flow x period 100000 length y route z", 4, 2, 7, 0),
    ("guard 1000001", 1, 3, 1, 1_000_001),
    ("top 0", 2, 3, 2, 0),
    ("top 100000001", 2, 3, 2, 100_000_001),
    ("port 65 rate 0", 3, 3, 3, 65),
    ("port 1 rate 0", 3, 3, 4, 0),
    ("port 1 rate 100001", 3, 3, 4, 100_001),
    ("port 1 rate 18446744073709551613", 3, 3, 4, u64::MAX - 2),
    ("port 1 rate 18446744073709551615", 3, 3, 4, u64::MAX - 1),
    ("port 1 rate 184467440737095516160000", 3, 3, 4, u64::MAX - 1),
    ("port 1 rate 100 blocker 63", 3, 3, 5, 63),
    ("port 1 rate 100 blocker 2000 extra 65", 3, 3, 6, 65),
    ("flow 257 period 100000 length 230 route 1", 4, 3, 7, 257),
    ("flow 1 period 999 length 63 route 65", 4, 3, 8, 999),
    ("flow 1 period 1000 count 0 length 230 route 1", 4, 3, 9, 0),
    ("flow 1 period 1000 length 2001 route 1", 4, 3, 10, 2_001),
    ("flow 1 period 1000 length 230 jitter 10000001 route 1", 4, 3, 11, 10_000_001),
    ("clocks drift 1001 timing 1001 sync 0", 3, 3, 12, 1_001),
    ("flow 1 period 1000 length 230 route 65 1 1 1 1 1 1 1 1 1 1 1 1 1 1 1 1", 4, 3, 17, 17),
    ("flow 1 period 1000 length 230 route 1 1 65", 4, 3, 16, 65),
    ("flow 1 period 1000 length 230 route 0", 4, 3, 16, 0),
    ("flow 1 period 100000 length 230 route 1 2 1", 4, 5, 16, 0),
    ("flow 1 period 100000 length 230 route 1 7 8", 4, 7, 16, 7),
];

/// Whole texts.
const WHOLE: [Row; 15] = [
    ("", 1, 6, 1, 0),
    ("# a\r\n\t \n", 3, 6, 1, 0),
    ("guard 1", 2, 6, 2, 0),
    ("top 5\nguard 1\nport 1 rate 1\n", 4, 6, 7, 0),
    ("guard 0 \r\ntop 5\r", 2, 2, 2, 0),
    ("format 3\n", 1, 3, 15, 3),
    ("\nformat 02\n#\nformat 2", 4, 4, 15, 2),
    ("guard 1\nguard 2\n", 2, 4, 1, 2),
    ("top 1\ntop 9\n", 2, 4, 2, 9),
    ("port 3 rate 1\nport 03 rate 2\n", 2, 4, 3, 3),
    ("flow 7 period 1000 length 64 route 1\nflow 7 period 1000 length 64 route 1 1\n", 2, 4, 7, 7),
    ("clocks drift 0 timing 0 sync 0\nclocks drift 7 timing 0 sync 0\n", 2, 4, 12, 7),
    ("flow 2 period 1000 length 64 route 1\ntop 1\n", 3, 6, 1, 0),
    ("flow 9 period 1000 length 64 route 9\nflow 1 period 1000 length 64 route 5\nguard 0\ntop 1\n", 1, 7, 16, 9),
    ("format 2\nflow 1 period 1000 length 64 route 1 2 3 4 5 6 7 8 9 10 11 12 13 14 15 16 17 18 19 20 21 22 23 24 24\n", 2, 3, 17, 25),
];

fn refused(tally: &mut Tally, said: &[u8], row: Row, rng: &mut Rng) {
    let (_, line, fault, item, value) = row;
    tally.case(0, said);
    ask_refused(tally, said, EncodeAnswer { refusal: 30, line, fault, item, value }, rng);
}

/// K's text with a comment behind it that makes it so many bytes.
fn padded(size: usize) -> Vec<u8> {
    let mut said = (LINES.join("\n") + "\n#").into_bytes();
    said.resize(size, b'x');
    said
}

pub fn run(tally: &mut Tally, rng: &mut Rng) {
    let k = LINES.join("\n") + "\n";
    for length in 0..60 {
        ask_encode(tally, k.as_bytes(), &K, length, rng);
    }
    for row in OTHERWISE {
        let mut lines = LINES;
        lines[row.1 as usize - 1] = row.0;
        refused(tally, lines.join("\n").as_bytes(), row, rng);
    }
    for row in WHOLE {
        refused(tally, row.0.as_bytes(), row, rng);
    }
    ask_encode(tally, &padded(65_536), &K, 52, rng);
    refused(tally, &padded(65_537), ("", 1, 8, 18, 0), rng);
}
