//! The converters: there and back, how long what they write is, and what they refuse.

use super::k::{bytes, newer};
use super::k_converted::{downgrades, upgrades, Row};
use super::k_loaded;
use crate::answers::Answer;
use crate::gen::newer::{encode, merged, plan, split, Field};
use crate::gen::newer_damage;
use crate::gen::newer_sized::{around_the_most, with_hops};
use crate::gen::strict::{sorted, without_needless};
use crate::gen::{self, damage, sized, Piece};
use crate::model::convert::{convert, converted};
use crate::model::read::{read_as, read_form, Reading};
use crate::model::save::written;
use crate::model::Form::{self, Newer, Older};
use crate::report::{hex, Tally};

/// The length of what a form is converted to, at most.
fn most(to: Form) -> usize {
    match to {
        Older => 15_002,
        Newer => 13_399,
    }
}

/// What is written holds the same plan by either load, and is no longer than the longest.
fn holds_the_same(tally: &mut Tally, from: Form, plan: &[u8], other: &[u8]) {
    let held = read_form(from, Reading::Loose, plan).map(|held| held.in_form(from.other()));
    tally.same(format_args!("the plan converted"), &read_as(Reading::Loose, other), &held);
    tally.same(format_args!("the plan converted, strictly"), &read_as(Reading::Strict, other), &held);
    tally.same(format_args!("{} bytes are not too many", other.len()), other.len() <= most(from.other()), true);
}

/// A plan of the older form: there and back it is written as the cabinet saves it.
fn there(tally: &mut Tally, old: &[u8]) -> Option<Vec<u8>> {
    let outcome = converted(Older, old);
    tally.saw("upgrade", outcome.as_ref().err().map_or(0, |refusal| refusal.0));
    let read = read_form(Older, Reading::Loose, old);
    tally.same(format_args!("refused as by the loose reading"), outcome.as_ref().err(), read.as_ref().err());
    let new = outcome.ok()?;
    holds_the_same(tally, Older, old, &new);
    let saved = read.as_ref().map(written).expect("a plan");
    tally.same(format_args!("there and back"), converted(Newer, &new).as_deref().map(hex), Ok(hex(&saved)));
    Some(new)
}

/// A plan of the newer form: where it goes back it comes there again byte for byte.
fn back(tally: &mut Tally, new: &[u8]) -> Option<Vec<u8>> {
    let outcome = converted(Newer, new);
    tally.saw("downgrade", outcome.as_ref().err().map_or(0, |refusal| refusal.0));
    let old = outcome.ok()?;
    holds_the_same(tally, Newer, new, &old);
    tally.same(format_args!("back and there"), converted(Older, &old).as_deref().map(hex), Ok(hex(new)));
    Some(old)
}

/// Buffers one byte short, just long enough, and longer.
fn buffers(tally: &mut Tally, from: Form, plan: &[u8]) {
    let lent = vec![0xA5; 17_000];
    match converted(from, plan) {
        Ok(bytes) => {
            let needed = bytes.len();
            for length in [needed, needed + 1, 17_000] {
                let want = (Answer::new(0, needed as u64, 0), [&bytes[..], &lent[needed..length]].concat());
                tally.same(format_args!("a buffer of {length}"), convert(from, plan, &lent[..length]), want);
            }
            for length in [0, needed / 2, needed - 1] {
                let want = (Answer::new(13, needed as u64, 0), lent[..length].to_vec());
                tally.same(format_args!("a buffer of {length}"), convert(from, plan, &lent[..length]), want);
            }
        }
        Err((refusal, place)) => {
            for length in [0, 100, 17_000] {
                let want = (Answer::new(refusal, place as u64, 0), lent[..length].to_vec());
                tally.same(format_args!("a buffer of {length}"), convert(from, plan, &lent[..length]), want);
            }
        }
    }
}

fn rows_of_k(tally: &mut Tally, from: Form, rows: &[Row]) {
    for (fields, want) in rows {
        let plan = bytes(fields);
        tally.case(0, &plan);
        let want = want.clone().map(|fields| hex(&bytes(&fields)));
        let got = converted(from, &plan).map(|bytes| hex(&bytes)).map_err(|(refusal, place)| (refusal, place as u64));
        tally.same(format_args!("from {from:?}: {fields:?}"), got, want);
        buffers(tally, from, &plan);
    }
}

/// Routes at the ends: 16 is the first flow of over sixteen ports, at its tag, before 13 and after all that reading refuses.
fn routes(tally: &mut Tally) {
    let routes = [
        (&[16, 16, 16][..], None),
        (&[16, 17, 24][..], Some(1)),
        (&[24][..], Some(0)),
        (&[1, 16, 17][..], Some(2)),
        (&[17, 16, 24][..], Some(0)),
    ];
    for (hops, late) in routes {
        let fields = with_hops(hops);
        let plan = encode(&fields);
        tally.case(0, &plan);
        let refusal = late.map(|late: usize| (16, encode(&fields[..65 + late]).len()));
        tally.same(format_args!("back with {hops:?} ports"), converted(Newer, &plan).err(), refusal);
        back(tally, &plan);
        buffers(tally, Newer, &plan);
        let cut = &plan[..plan.len() - 1];
        tally.same(format_args!("cut short, 2 before 16"), converted(Newer, cut).err().map(|refusal| refusal.0), Some(2));
        let astray: Vec<Field> = fields.iter().filter(|field| field.tag != 0x12).cloned().collect();
        tally.same(format_args!("without ports, 9 before 16"), converted(Newer, &encode(&astray)).err(), Some((9, 23)));
    }
}

/// The longest plans there are.
fn longest(tally: &mut Tally) {
    let old = gen::encode(&sized::longest());
    tally.case(0, &old);
    let new = there(tally, &old).expect("a plan");
    tally.same(format_args!("bytes there"), (old.len(), new.len()), (15_002, 13_399));
    let restored = back(tally, &new);
    tally.same(format_args!("bytes back"), restored, Some(old));
    for none in [&[][..], &[0x11; 16_385]] {
        let got = (there(tally, none), back(tally, none));
        tally.same(format_args!("none, or too long"), got, (None, None));
    }
    for (size, fields) in around_the_most() {
        let plan = encode(&fields);
        let want = if size > 16_384 { (1, 0) } else { (16, encode(&fields[..fields.len() - 256]).len()) };
        tally.same(format_args!("a plan of {size} bytes"), converted(Newer, &plan).err(), Some(want));
    }
}

/// A plan of the older form in any order and in its own, there and back.
fn from_older(tally: &mut Tally, case: u64, pieces: &[Piece]) {
    let strict = sorted(pieces);
    let needed = without_needless(&strict);
    tally.saw("a plan of the older form, 1 with needless fields", u32::from(needed.len() < strict.len()));
    for order in [pieces, &strict, &needed] {
        let old = gen::encode(order);
        tally.case(case, &old);
        let new = there(tally, &old).expect("a plan");
        tally.same(format_args!("what is written there"), hex(&new), hex(&encode(&merged(pieces))));
        let restored = back(tally, &new).expect("a plan");
        tally.same(format_args!("what is written back"), hex(&restored), hex(&gen::encode(&needed)));
        buffers(tally, Older, &old);
    }
}

/// A plan of the newer form back and there.
fn from_newer(tally: &mut Tally, case: u64, fields: &[Field]) {
    let new = encode(fields);
    tally.case(case, &new);
    let late = fields.iter().position(|field| field.hops() > 16);
    let want = match late {
        Some(place) => Err((16, encode(&fields[..place]).len())),
        None => Ok(gen::encode(&split(fields))),
    };
    tally.same(format_args!("what is written back"), converted(Newer, &new), want);
    back(tally, &new);
    buffers(tally, Newer, &new);
}

pub fn run(tally: &mut Tally) {
    rows_of_k(tally, Older, &upgrades());
    rows_of_k(tally, Newer, &downgrades());
    for (fields, want) in k_loaded::rows().iter().filter(|(fields, want)| fields.first() == Some(&newer::HEADER) && want.refusal != 0) {
        let got = converted(Newer, &bytes(fields)).err();
        tally.same(format_args!("back, as loaded: {fields:?}"), got, Some((want.refusal, want.first as usize)));
    }
    routes(tally);
    longest(tally);
    for case in 0..tally.cases {
        let mut rng = tally.rng(case);
        let pieces = gen::plan(&mut rng);
        from_older(tally, case, &pieces);
        let fields = merged(&plan(&mut rng));
        from_newer(tally, case, &fields);
        let any = [damage::damaged(&mut rng, &pieces), newer_damage::damaged(&mut rng, &fields), gen::encode(&pieces), encode(&fields)];
        for plan in &any {
            tally.case(case, plan);
            there(tally, plan);
            back(tally, plan);
            buffers(tally, rng.pick(&[Older, Newer]), plan);
        }
    }
    tally.must_have_seen("a plan of the older form, 1 with needless fields", &[0, 1]);
    tally.must_have_seen("upgrade", &[0, 1, 2, 3, 4, 5, 6, 7, 8, 9]);
    tally.must_have_seen("downgrade", &[0, 1, 2, 3, 4, 5, 6, 7, 8, 9, 12, 16]);
}
