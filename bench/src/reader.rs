//! The load in safe Rust: a plan's bytes read into fresh tables, by tests 1 to 9 of the papers in their order. SETS says whether
//! sets of ports are bits of a number, so that test 7 looks at each port of a route once and test 9 walks the fields again only
//! where it refuses; otherwise both tests go port by port. Which flows have a field of jitter is a set of bits either way.

use crate::answers::{Answer, Planner};
use crate::bytes::{be16, bit, ports, slot_of, split, HEAD};
use crate::draft::{Draft, FLOW_NUMBERS};

const MAX_BYTES: usize = 16_384;

/// The first field of a tag whose value is as sought.
fn first_field(plan: &[u8], wanted: u8, sought: impl Fn(&[u8]) -> bool) -> Option<usize> {
    let mut offset = 0;
    while offset < plan.len() {
        let (tag, value) = split(plan, offset)?;
        if tag == wanted && sought(value) {
            return Some(offset);
        }
        offset += HEAD + value.len();
    }
    None
}

/// Test 9: the first field that names an absent port or flow, routes before jitter before extra bytes.
fn first_absent(plan: &[u8], draft: &Draft) -> Option<usize> {
    let absent = |port: u16| draft.present & bit(port) == 0;
    first_field(plan, 3, |value| ports(&value[FLOW_NUMBERS..]).any(absent))
        .or_else(|| first_field(plan, 5, |value| !draft.emitting.has(slot_of(be16(value, 0)))))
        .or_else(|| first_field(plan, 4, |value| absent(be16(value, 0))))
}

/// The numbers of port and flow fields, or the refusal and its offset. A refusal leaves the tables half filled.
fn read<const SETS: bool>(plan: &[u8], tables: &mut Planner) -> Result<(u64, u64), (u32, usize)> {
    if plan.is_empty() || plan.len() > MAX_BYTES {
        return Err((1, 0));
    }
    let mut draft = Draft::new(tables);
    let mut offset = 0;
    while offset < plan.len() {
        let (tag, value) = split(plan, offset).ok_or((2, offset))?;
        let taken = match tag {
            1 => draft.header(value),
            2 => draft.port(value),
            3 => draft.flow::<SETS>(value),
            4 => draft.extra(value),
            5 => draft.jitter(value),
            6 => draft.clocks(value),
            _ => Err(3),
        };
        taken.map_err(|refusal| (refusal, offset))?;
        offset += HEAD + value.len();
    }
    if draft.tables.top == 0 || draft.flows == 0 {
        return Err((8, plan.len()));
    }
    let ports_known = (draft.named | draft.lengthened) & !draft.present == 0;
    if !SETS || !ports_known || !draft.delayed.within(&draft.emitting) {
        if let Some(offset) = first_absent(plan, &draft) {
            return Err((9, offset));
        }
    }
    Ok((draft.ports, draft.flows))
}

/// The planner then holds this plan, or what it held.
#[allow(improper_ctypes_definitions)]
#[inline(never)]
pub extern "C" fn load<const SETS: bool>(planner: &mut Planner, plan: &[u8]) -> Answer {
    let mut fresh = Planner::zero();
    match read::<SETS>(plan, &mut fresh) {
        Ok((ports, flows)) => {
            *planner = fresh;
            Answer::new(0, ports, flows)
        }
        Err((refusal, offset)) => Answer::new(refusal, offset as u64, 0),
    }
}
