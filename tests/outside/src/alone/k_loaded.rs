//! K's fields of the newer form and a few more in several orders, with what either load answers.

use super::k::{k_and, newer, older};
use crate::answers::Answer;

/// Fields one after the other, and the answer of either load.
pub type Row = (Vec<&'static str>, Answer);

fn holds(fields: &[&'static str], ports: u64, flows: u64) -> Row {
    (fields.to_vec(), Answer::new(0, ports, flows))
}

fn refuses(fields: &[&'static str], refusal: u32, place: u64) -> Row {
    (fields.to_vec(), Answer::new(refusal, place, 0))
}

/// Plans that are held, with numbers at the ends of their ranges too.
fn held() -> Vec<Row> {
    use newer::*;
    vec![
        holds(K, 1, 2),
        holds(&[CLOCKED, PORT_1_EXTRA, FLOW_1_LATE, FLOW_2_LATE], 1, 2),
        holds(&[HEADER, PORT_1, FLOW_2], 1, 1),
        holds(&[HEADER, PORT_1, PORT_2, FLOW_1, FLOW_2], 2, 2),
        holds(&[HEADER, PORT_1, FLOW_1, FLOW_2, FLOW_256], 1, 3),
        holds(&["11 0014 000F4240 05F5E100 000003E8 000003E8 000F4240", PORT_1, FLOW_1], 1, 1),
        holds(&["11 0014 00000000 00000001 00000000 00000000 00000000", PORT_1, FLOW_1], 1, 1),
        holds(&[HEADER, PORT_1, "12 000A 0040 000186A0 07D0 0040", FLOW_1], 2, 1),
        holds(&[HEADER, PORT_1, "13 0010 0100 05F5E100 0040 07D0 00989680 0001"], 1, 1),
    ]
}

/// Fields that should have stood earlier.
fn out_of_order() -> Vec<Row> {
    use newer::*;
    vec![
        refuses(&[HEADER, PORT_1, FLOW_2, FLOW_1], 12, 55),
        refuses(&[HEADER, FLOW_1, PORT_1, FLOW_2], 12, 42),
        refuses(&[HEADER, PORT_2, PORT_1, FLOW_1, FLOW_2], 12, 36),
        refuses(&[HEADER, PORT_1, FLOW_1, FLOW_2, PORT_2], 12, 74),
        refuses(&[HEADER, PORT_1, FLOW_256, FLOW_2, FLOW_1], 12, 55),
        refuses(&[HEADER, PORT_1, FLOW_1, FLOW_256, FLOW_2], 12, 74),
        refuses(&[HEADER, PORT_1, FLOW_2, FLOW_1, "14 0000"], 12, 55),
        refuses(&[HEADER, PORT_1, FLOW_2, TWICE], 12, 55),
        refuses(&[HEADER, PORT_1, FLOW_2, FLOW_0], 5, 55),
        refuses(&[HEADER, PORT_1, FLOW_1, PORT_1, FLOW_2], 6, 55),
        refuses(&[HEADER, PORT_1, TWICE, FLOW_2], 7, 36),
    ]
}

/// Tags of the one form in plans of the other, and tags of none.
fn mixed() -> Vec<Row> {
    let mut rows = vec![
        refuses(&[newer::PORT_1, newer::HEADER, newer::FLOW_1, newer::FLOW_2], 3, 0),
        refuses(&[newer::FLOW_1], 3, 0),
        refuses(&[older::HEADER, newer::PORT_1, newer::FLOW_1], 3, 11),
        refuses(&[older::HEADER, older::PORT_1, newer::FLOW_1], 3, 22),
        refuses(&[newer::HEADER, older::PORT_1, older::FLOW_1, older::FLOW_2], 3, 23),
        refuses(&[newer::HEADER, newer::PORT_1, older::FLOW_1, older::FLOW_2], 3, 36),
    ];
    for field in [newer::HEADER, newer::PORT_2, newer::FLOW_256] {
        rows.push(refuses(&k_and(older::K, &[field]), 3, 52));
    }
    for field in [older::HEADER, older::PORT_2, older::FLOW_256, older::EXTRA_1, older::JITTER_1, older::CLOCKS] {
        rows.push(refuses(&k_and(newer::K, &[field]), 3, 74));
    }
    for field in ["00 0000", "07 0000", "10 0000", "14 0000", "21 0005 FF 00000001"] {
        rows.push(refuses(&k_and(newer::K, &[field]), 3, 74));
    }
    rows
}

/// Cut short, lengths, and numbers out of range.
fn faulty() -> Vec<Row> {
    use newer::*;
    vec![
        refuses(&["11"], 2, 0),
        refuses(&["11 0014"], 2, 0),
        refuses(&[HEADER, PORT_1, FLOW_1, "13 0010 0002 0001ADB0 0001 025D 00000000 00"], 2, 55),
        refuses(&[HEADER, PORT_1, FLOW_1, FLOW_2, "13"], 2, 74),
        refuses(&[HEADER, PORT_1, FLOW_1, FLOW_2, "03 0001"], 2, 74),
        refuses(&["11 0008 000003E8 000F4240"], 4, 0),
        refuses(&["11 0013 000003E8 000F4240 00000000 00000000 000000"], 4, 0),
        refuses(&["11 0015 000003E8 000F4240 00000000 00000000 00000000 00"], 4, 0),
        refuses(&[HEADER, "12 0008 0001 00000064 0000", FLOW_1], 4, 23),
        refuses(&[HEADER, PORT_1, "13 000C 0001 000186A0 0001 00E6 0001"], 4, 36),
        refuses(&[HEADER, PORT_1, "13 000E 0001 000186A0 0001 00E6 00000000"], 4, 36),
        refuses(&[HEADER, PORT_1, "13 0011 0001 000186A0 0001 00E6 00000000 0001 00"], 4, 36),
        refuses(&["11 0014 000F4241 000F4240 00000000 00000000 00000000"], 5, 0),
        refuses(&["11 0014 000003E8 00000000 00000000 00000000 00000000"], 5, 0),
        refuses(&["11 0014 000003E8 000F4240 000003E9 00000000 00000000"], 5, 0),
        refuses(&["11 0014 000003E8 000F4240 00000000 000003E9 00000000"], 5, 0),
        refuses(&["11 0014 000003E8 000F4240 00000000 00000000 000F4241"], 5, 0),
        refuses(&[HEADER, "12 000A 0041 00000064 0000 0000", FLOW_1], 5, 23),
        refuses(&[HEADER, "12 000A 0001 00000064 003F 0000", FLOW_1], 5, 23),
        refuses(&[HEADER, "12 000A 0001 00000064 0020 0000", FLOW_1], 5, 23),
        refuses(&[HEADER, "12 000A 0001 00000064 0000 0041", FLOW_1], 5, 23),
        refuses(&[HEADER, PORT_1, FLOW_0], 5, 36),
        refuses(&[HEADER, PORT_1, "13 0010 0001 000186A0 0001 00E6 00989681 0001"], 5, 36),
        refuses(&[HEADER, PORT_1, "13 0010 0001 000186A0 0001 00E6 00000000 0041"], 5, 36),
    ]
}

/// Something twice, nothing, and routes astray.
fn incomplete() -> Vec<Row> {
    use newer::*;
    vec![
        refuses(&[], 1, 0),
        refuses(&[HEADER, HEADER], 6, 23),
        refuses(&[HEADER, PORT_1, FLOW_1, FLOW_2, HEADER], 6, 74),
        refuses(&[HEADER, PORT_1, FLOW_1, FLOW_2, PORT_1], 6, 74),
        refuses(&[HEADER, PORT_1, FLOW_1, FLOW_2, FLOW_1], 6, 74),
        refuses(&[HEADER, PORT_1, FLOW_1, FLOW_2, TWICE], 6, 74),
        refuses(&[HEADER, TWICE], 7, 23),
        refuses(&[HEADER], 8, 23),
        refuses(&[HEADER, PORT_1], 8, 36),
        refuses(&[HEADER, FLOW_1], 9, 23),
        refuses(&[HEADER, PORT_2, FLOW_1, FLOW_2], 9, 36),
        refuses(&[HEADER, PORT_1, FLOW_1, "13 0012 0002 0001ADB0 0001 025D 00000000 0001 0002"], 9, 55),
    ]
}

pub fn rows() -> Vec<Row> {
    [held(), out_of_order(), mixed(), faulty(), incomplete()].concat()
}
