//! The converters: the answer and every byte of the buffer, for buffers around the length needed; there and back; and that what is
//! converted is the same plan.

use super::alike::same_answers;
use super::lent::{first_other, lend};
use super::save::{lengths, saved};
use crate::alone::k::bytes;
use crate::alone::k_converted::{downgrades, upgrades, Row};
use crate::alone::k_loaded;
use crate::answers::Answer;
use crate::ffi;
use crate::gen::newer::{encode, merged, plan, split, Field};
use crate::gen::newer_sized::{around_the_most, with_hops};
use crate::gen::strict::{sorted, without_needless};
use crate::gen::{self, damage, newer_damage, sized, Piece};
use crate::model::convert::{convert, converted};
use crate::model::read::read;
use crate::model::Form::{self, Newer, Older};
use crate::report::Tally;
use crate::rng::Rng;

fn name(from: Form) -> &'static str {
    match from {
        Older => "upgrade",
        Newer => "downgrade",
    }
}

/// The converter that reads a form.
fn call(from: Form, plan: &[u8], buffer: &mut [u8]) -> Answer {
    match from {
        Older => ffi::upgrade(plan, buffer),
        Newer => ffi::downgrade(plan, buffer),
    }
}

/// A conversion into a buffer of a length.
fn ask(tally: &mut Tally, from: Form, plan: &[u8], length: usize, rng: &mut Rng) {
    let model = |buffer: &[u8]| convert(from, plan, buffer);
    tally.saw(name(from), model(&vec![0; length]).0.refusal);
    let kept = plan.to_vec();
    lend(tally, format_args!("cp_{}", name(from)), length, rng, |buffer| call(from, plan, buffer), model);
    tally.same(format_args!("the plan after cp_{}", name(from)), plan == kept, true);
}

/// Both converters on any bytes, with buffers around the length that is needed and the length of the plan.
fn both(tally: &mut Tally, plan: &[u8], rng: &mut Rng) {
    for from in [Older, Newer] {
        let needed = converted(from, plan).map_or(plan.len().max(1), |bytes| bytes.len());
        for length in lengths(needed, rng) {
            ask(tally, from, plan, length, rng);
        }
    }
}

/// What a converter writes into a buffer that every plan fits; the refusal and its place otherwise.
fn through(from: Form, plan: &[u8]) -> Result<Vec<u8>, (u32, u64)> {
    let mut buffer = vec![0; 16_384];
    let answer = call(from, plan, &mut buffer);
    if answer.refusal != 0 {
        return Err((answer.refusal, answer.first));
    }
    buffer.truncate(answer.first as usize);
    Ok(buffer)
}

fn gives(tally: &mut Tally, from: Form, plan: &[u8], want: Result<Vec<u8>, (u32, u64)>) {
    tally.case(0, plan);
    match (through(from, plan), want) {
        (Ok(got), Ok(want)) => {
            tally.same(format_args!("cp_{}: first byte that differs", name(from)), first_other(&got, &want), None);
        }
        (got, want) => tally.same(format_args!("cp_{}", name(from)), got, want),
    }
}

fn rows(tally: &mut Tally, from: Form, rows: &[Row], rng: &mut Rng) {
    for (fields, want) in rows {
        let plan = bytes(fields);
        gives(tally, from, &plan, want.clone().map(|fields| bytes(&fields)));
        for length in 0..120 {
            ask(tally, from, &plan, length, rng);
        }
    }
}

/// Routes of 16, 17 and 24 ports; the longest plans; plans of about 16,384 bytes. 16 comes before 13, whatever the buffer.
fn ends(tally: &mut Tally, rng: &mut Rng) {
    let routes = [
        (&[16, 16, 16][..], None),
        (&[16, 17, 24][..], Some(1)),
        (&[24][..], Some(0)),
        (&[17, 16][..], Some(0)),
        (&[1, 16, 25][..], None),
    ];
    for (hops, late) in routes {
        let fields = with_hops(hops);
        let plan = encode(&fields);
        if let Some(late) = late {
            let place = encode(&fields[..65 + late]).len() as u64;
            gives(tally, Newer, &plan, Err((16, place)));
            tally.same(format_args!("no buffer"), call(Newer, &plan, &mut []), Answer::new(16, place, 0));
        }
        both(tally, &plan, rng);
    }
    let (old, new) = (gen::encode(&sized::longest()), encode(&merged(&sized::longest())));
    tally.same(format_args!("bytes of the longest plans"), (old.len(), new.len()), (15_002, 13_399));
    gives(tally, Older, &old, Ok(new.clone()));
    gives(tally, Newer, &new, Ok(old.clone()));
    for plan in [old, new].into_iter().chain(around_the_most().into_iter().map(|(_, fields)| encode(&fields))) {
        tally.case(0, &plan);
        both(tally, &plan, rng);
    }
}

/// A plan of the older form there and back, and what the planner holds of it in either form.
fn from_older(tally: &mut Tally, pieces: &[Piece], rng: &mut Rng) {
    let strict = sorted(pieces);
    let needed = without_needless(&strict);
    tally.saw("a plan of the older form, 1 with needless fields", u32::from(needed.len() < strict.len()));
    let (old, new) = (gen::encode(pieces), encode(&merged(pieces)));
    gives(tally, Older, &old, Ok(new.clone()));
    gives(tally, Older, &gen::encode(&strict), Ok(new.clone()));
    gives(tally, Newer, &new, Ok(gen::encode(&needed)));
    gives(tally, Older, &gen::encode(&needed), Ok(new.clone()));
    let (one, two) = (ffi::load(&ffi::empty(), &old).0, ffi::load(&ffi::empty(), &new).0);
    same_answers(tally, "upgraded", &two, &one, &read(&old).expect("a plan"), rng);
    tally.same(format_args!("saved and upgraded: first byte that differs"), first_other(&saved(&two), &new), None);
    both(tally, &old, rng);
}

/// A plan of the newer form back and there.
fn from_newer(tally: &mut Tally, fields: &[Field], rng: &mut Rng) {
    let new = encode(fields);
    match fields.iter().position(|field| field.hops() > 16) {
        Some(place) => gives(tally, Newer, &new, Err((16, encode(&fields[..place]).len() as u64))),
        None => {
            let old = gen::encode(&split(fields));
            gives(tally, Newer, &new, Ok(old.clone()));
            gives(tally, Older, &old, Ok(new.clone()));
        }
    }
    both(tally, &new, rng);
}

pub fn run(tally: &mut Tally) {
    let mut rng = tally.rng(u64::MAX);
    rows(tally, Older, &upgrades(), &mut rng);
    rows(tally, Newer, &downgrades(), &mut rng);
    for (fields, _) in k_loaded::rows() {
        let plan = bytes(&fields);
        tally.case(0, &plan);
        both(tally, &plan, &mut rng);
    }
    ends(tally, &mut rng);
    for case in 0..tally.cases {
        let mut rng = tally.rng(case);
        let pieces = gen::plan(&mut rng);
        from_older(tally, &pieces, &mut rng);
        let fields = merged(&plan(&mut rng));
        from_newer(tally, &fields, &mut rng);
        for plan in [damage::damaged(&mut rng, &pieces), newer_damage::damaged(&mut rng, &fields)] {
            tally.case(case, &plan);
            both(tally, &plan, &mut rng);
        }
    }
    tally.must_have_seen("a plan of the older form, 1 with needless fields", &[0, 1]);
    tally.must_have_seen("upgrade", &[0, 1, 2, 3, 4, 5, 6, 7, 8, 9, 13]);
    tally.must_have_seen("downgrade", &[0, 1, 2, 3, 4, 5, 6, 7, 8, 9, 12, 13, 16]);
}
