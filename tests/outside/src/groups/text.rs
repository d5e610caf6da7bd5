//! A plan as text, and a text as a plan's bytes: the answer and every byte of the buffer, for buffers around the length needed; that
//! the text of a plan is encoded as the plan is saved; other spellings of it; and texts by hand, most of them refused.

use super::foreign::{damage_one, stir_unused};
use super::known::K;
use super::lent::{first_other, lend};
use super::save::{lengths, saved};
use super::strict::random_planner;
use super::text_k;
use crate::answers::{Answer, EncodeAnswer, Planner, PLANNER_BYTES, STRIDE};
use crate::ffi;
use crate::gen::newer::{self, merged};
use crate::gen::newer_sized::{around_the_most, with_total};
use crate::gen::{self, encode, sized};
use crate::model::save::{into_buffer, written};
use crate::model::tables::plan_of;
use crate::model::text::{text, text_of};
use crate::model::Plan;
use crate::report::Tally;
use crate::rng::Rng;

/// The text of what is held into a buffer of a length.
fn ask_text(tally: &mut Tally, planner: &Planner, plan: Option<&Plan>, length: usize, rng: &mut Rng) {
    let model = |buffer: &[u8]| text(plan, buffer);
    tally.saw("text", model(&vec![0; length]).0.refusal);
    lend(tally, format_args!("cp_text"), length, rng, |buffer| ffi::text(planner, buffer), model);
}

/// A good text as these bytes into a buffer of a length.
pub fn ask_encode(tally: &mut Tally, said: &[u8], bytes: &[u8], length: usize, rng: &mut Rng) {
    let model = |buffer: &[u8]| into_buffer(bytes, buffer);
    tally.saw("encode", model(&vec![0; length]).0.refusal);
    let (kept, mut others) = (said.to_vec(), None);
    let writer = |buffer: &mut [u8]| {
        let got = ffi::encode(said, buffer);
        others = Some((got.line, got.fault, got.item));
        Answer::new(got.refusal, got.value, 0)
    };
    lend(tally, format_args!("cp_encode"), length, rng, writer, model);
    tally.same(format_args!("line, fault and item where no line is refused"), others, Some((0, 0, 0)));
    tally.same(format_args!("the text after cp_encode"), said == kept, true);
}

/// A refused text: the answer, and every byte of any buffer as it was.
pub fn ask_refused(tally: &mut Tally, said: &[u8], want: EncodeAnswer, rng: &mut Rng) {
    for length in [0, 1, 52, 16_384] {
        let mut answer = None;
        let writer = |buffer: &mut [u8]| {
            answer = Some(ffi::encode(said, buffer));
            Answer::refused(0)
        };
        lend(tally, format_args!("cp_encode"), length, rng, writer, |buffer| (Answer::refused(0), buffer.to_vec()));
        tally.saw("encode", want.refusal);
        tally.saw("fault", want.fault);
        tally.same(format_args!("cp_encode of {:?}", String::from_utf8_lossy(said)), answer, Some(want));
    }
}

/// The same text spelled otherwise: lines in another order behind the form's, blanks, comments, line ends, zeros in front.
fn spelled(rng: &mut Rng, said: &[u8]) -> Vec<u8> {
    let said = String::from_utf8_lossy(said).into_owned();
    let mut lines: Vec<&str> = said.lines().collect();
    let kept = lines.iter().take_while(|line| line.starts_with("format")).count();
    rng.shuffle(&mut lines[kept..]);
    let mut out = String::new();
    for line in lines {
        if rng.chance(1, 4) {
            out += rng.pick(&["\n", "# flow 1\n", " \t\r\n", "\t# a\r\n"]);
        }
        for word in line.split(' ') {
            out += rng.pick(&["", " ", "\t", "  "]);
            if word.starts_with(|first: char| first.is_ascii_digit()) {
                out += rng.pick(&["", "", "0", "000000000000000000000000"]);
            }
            out += word;
            out += rng.pick(&[" ", " ", "\t "]);
        }
        out += rng.pick(&["\n", "\n", "\r\n", "# port 1\n", "#\r\n"]);
    }
    out.truncate(out.len() - usize::from(rng.chance(1, 4) && out.ends_with(" \n")));
    out.into_bytes()
}

/// A plan that a planner holds, there and back.
fn held(tally: &mut Tally, planner: &Planner, plan: &Plan, rng: &mut Rng) {
    let (said, bytes) = (text_of(plan), written(plan));
    tally.saw("form", plan.form.number());
    for length in lengths(said.len(), rng) {
        ask_text(tally, planner, Some(plan), length, rng);
    }
    tally.same(format_args!("saved: first byte that differs"), first_other(&saved(planner), &bytes), None);
    for length in lengths(bytes.len(), rng) {
        ask_encode(tally, &said, &bytes, length, rng);
    }
    let other = spelled(rng, &said);
    tally.saw("spelled otherwise, 1 where it is too long", u32::from(other.len() > 65_536));
    if other.len() <= 65_536 {
        tally.case(0, &other);
        ask_encode(tally, &other, &bytes, 20_000, rng);
    }
    let mut stirred = planner.clone();
    stir_unused(rng, &mut stirred);
    ask_text(tally, &stirred, Some(plan), said.len(), rng);
}

/// Planners that hold no plan: 20, whatever the buffer; and damaged ones, some of which hold one.
fn foreign(tally: &mut Tally, planner: &Planner, rng: &mut Rng) {
    tally.case(0, &planner.to_bytes());
    let plan = plan_of(planner);
    tally.saw("tables", u32::from(plan.is_none()) * 20);
    let needed = plan.as_ref().map_or(40, |plan| text_of(plan).len());
    for length in [0, 1, needed - 1, needed, needed + 9, 65_536] {
        ask_text(tally, planner, plan.as_ref(), length, rng);
    }
}

/// Tables of the newer form with 64 ports and 256 flows of 24 ports.
fn with_most_hops() -> Planner {
    let mut planner = ffi::load(&ffi::empty(), &newer::encode(&with_total(64, 5_588))).0;
    for slot in 0..256 {
        planner.hops[slot] = STRIDE as u8;
        (0..STRIDE).for_each(|hop| planner.routes[slot * STRIDE + hop] = ((slot + 5 * hop) % 64 + 1) as u8);
    }
    planner
}

/// The longest plans of either form, and tables of the newer form that say more bytes than a plan has.
fn longest(tally: &mut Tally, rng: &mut Rng) {
    let older = encode(&sized::longest());
    let plans = around_the_most().into_iter().map(|(_, fields)| newer::encode(&fields)).filter(|plan| plan.len() <= 16_384);
    for bytes in plans.chain([older]) {
        tally.case(0, &bytes);
        let planner = ffi::load(&ffi::empty(), &bytes).0;
        held(tally, &planner, &plan_of(&planner).expect("a plan"), rng);
    }
    let planner = with_most_hops();
    let plan = plan_of(&planner).expect("a plan");
    tally.same(format_args!("bytes of the most that tables say"), written(&plan).len(), 17_495);
    held(tally, &planner, &plan, rng);
}

pub fn run(tally: &mut Tally) {
    let mut rng = tally.rng(u64::MAX);
    text_k::run(tally, &mut rng);
    longest(tally, &mut rng);
    let k = ffi::load(&ffi::empty(), &K).0;
    for planner in [ffi::empty(), Planner::zero(), Planner::from_bytes([255; PLANNER_BYTES]), Planner { drift: 1_001, ..k }] {
        foreign(tally, &planner, &mut rng);
    }
    for case in 0..tally.cases {
        let mut rng = tally.rng(case);
        let older = encode(&gen::plan(&mut rng));
        let newer = newer::encode(&merged(&newer::plan(&mut rng)));
        for bytes in [older, newer] {
            tally.case(case, &bytes);
            let mut planner = ffi::load(&ffi::empty(), &bytes).0;
            let plan = plan_of(&planner).expect("a good plan");
            held(tally, &planner, &plan, &mut rng);
            for _ in 0..3 {
                damage_one(&mut rng, &mut planner);
                foreign(tally, &planner, &mut rng);
            }
        }
        foreign(tally, &random_planner(&mut rng), &mut rng);
    }
    tally.must_have_seen("text", &[0, 13, 20]);
    tally.must_have_seen("encode", &[0, 13, 30]);
    tally.must_have_seen("fault", &[1, 2, 3, 4, 5, 6, 7, 8]);
    tally.must_have_seen("form", &[0, 1]);
    tally.must_have_seen("tables", &[0, 20]);
}
