//! K's fields and a few more in several orders, with what the converters make of them.

use super::k::{k_and, newer, older};

/// Fields one after the other, and the fields that are written, or the refusal and its place.
pub type Row = (Vec<&'static str>, Result<Vec<&'static str>, (u32, u64)>);

fn gives(fields: &[&'static str], written: &[&'static str]) -> Row {
    (fields.to_vec(), Ok(written.to_vec()))
}

fn refuses(fields: &[&'static str], refusal: u32, place: u64) -> Row {
    (fields.to_vec(), Err((refusal, place)))
}

const BLOCKED: &str = "12 000A 0001 00000064 05C8 0020";
const DRIFTING: &str = "11 0014 000003E8 000F4240 00000001 00000000 00000000";
const JITTERY: &str = "11 0014 000003E8 000F4240 00000000 000003E8 00000000";
const APART: &str = "11 0014 000003E8 000F4240 00000000 00000000 000F4240";

/// K with 32 extra bytes, jitter for flow 1, and clocks.
const ALL: &[&str] = &[newer::CLOCKED, newer::PORT_1_EXTRA, newer::FLOW_1_LATE, newer::FLOW_2];

/// From the older form to the newer: any order, and fields that say what their absence says make no difference.
fn upgraded() -> Vec<Row> {
    use older::*;
    vec![
        gives(K, newer::K),
        gives(&[FLOW_2, FLOW_1, PORT_1, HEADER], newer::K),
        gives(&[HEADER, PORT_1, FLOW_2, FLOW_1], newer::K),
        gives(&[HEADER, PORT_1, FLOW_1, FLOW_2, "04 0004 0001 0000"], newer::K),
        gives(&["05 0006 0002 00000000", HEADER, PORT_1, FLOW_1, FLOW_2], newer::K),
        gives(&[HEADER, PORT_1, FLOW_1, FLOW_2, "06 000C 00000000 00000000 00000000"], newer::K),
        gives(&[CLOCKS, JITTER_1, EXTRA_1, FLOW_2, FLOW_1, PORT_1, HEADER], ALL),
        gives(&[JITTER_2, HEADER, PORT_1, FLOW_1, FLOW_2], &[newer::HEADER, newer::PORT_1, newer::FLOW_1, newer::FLOW_2_LATE]),
        gives(&[PORT_2, HEADER, PORT_1, FLOW_256, FLOW_1], &[newer::HEADER, newer::PORT_1, newer::PORT_2, newer::FLOW_1, newer::FLOW_256]),
        gives(&[HEADER, "02 0008 0001 00000064 05C8", FLOW_1, EXTRA_1], &[newer::HEADER, BLOCKED, newer::FLOW_1]),
        gives(&[HEADER, PORT_1, FLOW_1, "06 000C 00000001 00000000 00000000"], &[DRIFTING, newer::PORT_1, newer::FLOW_1]),
        gives(&[HEADER, PORT_1, FLOW_1, "06 000C 00000000 000003E8 00000000"], &[JITTERY, newer::PORT_1, newer::FLOW_1]),
        gives(&[HEADER, PORT_1, FLOW_1, "06 000C 00000000 00000000 000F4240"], &[APART, newer::PORT_1, newer::FLOW_1]),
    ]
}

/// Refusals on the way to the newer form: those of the loose reading, with the tags of the older form alone.
fn not_upgraded() -> Vec<Row> {
    use older::*;
    let seventeen = "03 002C 0001 000186A0 0001 00E6 0001 0002 0003 0004 0005 0006 0007 0008 0009 000A 000B 000C 000D 000E 000F 0010 0011";
    vec![
        refuses(&[], 1, 0),
        refuses(&["04 0001"], 2, 0),
        refuses(&["11 0001"], 2, 0),
        refuses(newer::K, 3, 0),
        refuses(&[newer::HEADER], 3, 0),
        refuses(&[HEADER, newer::PORT_1, newer::FLOW_1], 3, 11),
        refuses(&k_and(K, &[newer::FLOW_256]), 3, 52),
        refuses(&[HEADER, PORT_1, seventeen], 4, 22),
        refuses(&k_and(K, &["04 0004 0001 0041"]), 5, 52),
        refuses(&k_and(K, &[FLOW_1]), 6, 52),
        refuses(&[HEADER, PORT_1, FLOW_2, "03 000E 0001 000186A0 0001 00E6 0001 0001"], 7, 37),
        refuses(&[FLOW_2, FLOW_1, PORT_1], 8, 41),
        refuses(&[HEADER, FLOW_2, FLOW_1], 9, 11),
        refuses(&k_and(K, &["05 0006 0009 00000000"]), 9, 52),
        refuses(&k_and(K, &[EXTRA_2]), 9, 52),
    ]
}

/// From the newer form to the older: a jitter of 0, 0 extra bytes and clocks that are all 0 get no field.
fn downgraded() -> Vec<Row> {
    use newer::*;
    let k = [older::HEADER, older::PORT_1, older::FLOW_1, older::FLOW_2];
    let with = |more: &[&'static str]| k_and(&k, more);
    vec![
        gives(K, older::K),
        gives(ALL, &with(&[older::EXTRA_1, older::JITTER_1, older::CLOCKS])),
        gives(&[CLOCKED, PORT_1, FLOW_1, FLOW_2], &with(&[older::CLOCKS])),
        gives(&[HEADER, PORT_1_EXTRA, FLOW_1, FLOW_2], &with(&[older::EXTRA_1])),
        gives(&[HEADER, PORT_1, FLOW_1_LATE, FLOW_2], &with(&[older::JITTER_1])),
        gives(&[HEADER, PORT_1, FLOW_1, FLOW_2_LATE], &with(&[older::JITTER_2])),
        gives(&[HEADER, PORT_1, FLOW_1_LATE, FLOW_2_LATE], &with(&[older::JITTER_1, older::JITTER_2])),
        gives(&[HEADER, BLOCKED, FLOW_1], &[older::HEADER, "02 0008 0001 00000064 05C8", older::FLOW_1, older::EXTRA_1]),
        gives(&[DRIFTING, PORT_1, FLOW_1], &[older::HEADER, older::PORT_1, older::FLOW_1, "06 000C 00000001 00000000 00000000"]),
        gives(&[JITTERY, PORT_1, FLOW_1], &[older::HEADER, older::PORT_1, older::FLOW_1, "06 000C 00000000 000003E8 00000000"]),
        gives(&[APART, PORT_1, FLOW_1], &[older::HEADER, older::PORT_1, older::FLOW_1, "06 000C 00000000 00000000 000F4240"]),
    ]
}

/// Refusals on the way back that no load has: it knows the tags of the newer form alone, whatever the first byte is.
fn not_downgraded() -> Vec<Row> {
    use newer::*;
    vec![
        refuses(older::K, 3, 0),
        refuses(&["01 0001"], 2, 0),
        refuses(&[older::HEADER, PORT_1, FLOW_1], 3, 0),
        refuses(&[PORT_1, HEADER, FLOW_1, FLOW_2], 12, 13),
        refuses(&[PORT_1, FLOW_1, FLOW_2, HEADER], 12, 51),
        refuses(&[FLOW_1, PORT_1, HEADER], 12, 19),
        refuses(&[FLOW_1, HEADER, PORT_1], 12, 19),
        refuses(&[PORT_1, PORT_1, HEADER], 6, 13),
        refuses(&[PORT_1, TWICE, HEADER], 7, 13),
        refuses(&[PORT_1, FLOW_0, HEADER], 5, 13),
        refuses(&[PORT_1, older::HEADER], 3, 13),
        refuses(&[PORT_1], 8, 13),
        refuses(&[FLOW_1], 8, 19),
        refuses(&[PORT_1, FLOW_1, FLOW_2], 8, 51),
        refuses(&[FLOW_1, FLOW_2], 8, 38),
    ]
}

pub fn upgrades() -> Vec<Row> {
    [upgraded(), not_upgraded()].concat()
}

pub fn downgrades() -> Vec<Row> {
    [downgraded(), not_downgraded()].concat()
}
