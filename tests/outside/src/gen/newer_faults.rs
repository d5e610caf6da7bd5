//! Good plans of the newer form with a single fault, whose refusal and place are known from how it was made.

use super::newer::{encode, Field, FLOW, HEADER, PORT, ROUTE};
use super::newer_damage::outside;
use super::Piece;
use crate::rng::Rng;

/// A plan's bytes, the refusal and its place.
pub type Fault = (Vec<u8>, u32, usize);

/// A plan that is refused at the field of a place.
fn refused(fields: &[Field], refusal: u32, place: usize) -> Fault {
    (encode(fields), refusal, encode(&fields[..place]).len())
}

fn changed(fields: &[Field], place: usize, change: impl FnOnce(&mut Field)) -> Vec<Field> {
    let mut fields = fields.to_vec();
    change(&mut fields[place]);
    fields
}

/// A field with a number out of range, again, cut short, or with a field before it that the newer form has not.
fn of_any_field(rng: &mut Rng, fields: &[Field]) -> Vec<Fault> {
    let place = rng.index(fields.len());
    let number = rng.index(fields[place].numbers.len());
    let value = rng.pick(outside(fields[place].tag, number));
    let out_of_range = changed(fields, place, |field| field.numbers[number].0 = value);
    let mut again = fields.to_vec();
    again.insert(place + 1, fields[place].clone());
    let offset = encode(&fields[..place]).len();
    let cut = encode(fields)[..offset + 1 + rng.index(fields[place].bytes().len() - 1)].to_vec();
    let old = Piece::Extra { number: 1, extra: 0 }.bytes();
    let known = encode(&fields[..place + 1]);
    let mixed = [&known[..], &old, &encode(&fields[place + 1..])].concat();
    vec![refused(&out_of_range, 5, place), refused(&again, 6, place + 1), (cut, 2, offset), (mixed, 3, known.len())]
}

/// A flow with a port twice, with no port and with too many.
fn of_a_flow(rng: &mut Rng, fields: &[Field]) -> Vec<Fault> {
    let flows: Vec<usize> = (0..fields.len()).filter(|place| fields[*place].tag == FLOW).collect();
    let place = rng.pick(&flows);
    let hops = fields[place].hops();
    let twice = changed(fields, place, |field| {
        let port = field.numbers[ROUTE + rng.index(hops)];
        let at = ROUTE + rng.index(hops + 1);
        field.numbers.insert(at, port);
        field.numbers.truncate(ROUTE + 24);
    });
    let again = twice[place].numbers[ROUTE..].iter().enumerate().any(|(at, port)| twice[place].numbers[ROUTE..][..at].contains(port));
    let none = changed(fields, place, |field| field.numbers.truncate(ROUTE));
    let many = changed(fields, place, |field| {
        field.numbers.truncate(ROUTE);
        field.numbers.extend((1..=25).map(|port| (port, 2)));
    });
    let mut faults = vec![refused(&none, 4, place), refused(&many, 4, place)];
    faults.extend(again.then(|| refused(&twice, 7, place)));
    faults
}

/// Two neighbours behind the header exchanged.
fn exchanged(rng: &mut Rng, fields: &[Field]) -> Fault {
    let late = rng.range(2, fields.len() as u64 - 1) as usize;
    let mut fields = fields.to_vec();
    fields.swap(late - 1, late);
    refused(&fields, 12, late)
}

/// A plan without flows, and one without a port that a route names.
fn fewer(rng: &mut Rng, fields: &[Field]) -> Vec<Fault> {
    let flowless: Vec<Field> = fields.iter().filter(|field| field.tag != FLOW).cloned().collect();
    let crosses = |field: &Field, port: u64| field.tag == FLOW && field.numbers[ROUTE..].iter().any(|(hop, _)| *hop == port);
    let last = fields.last().expect("a flow");
    let port = last.numbers[ROUTE + rng.index(last.hops())].0;
    let lacks = |field: &&Field| field.tag != PORT || field.numbers[0].0 != port;
    let portless: Vec<Field> = fields.iter().filter(lacks).cloned().collect();
    let astray = portless.iter().position(|field| crosses(field, port)).expect("a flow over the port");
    vec![refused(&flowless, 8, flowless.len()), refused(&portless, 9, astray)]
}

/// Plans that are refused, one for each kind of fault, from a good one. All start with tag 11.
pub fn single(rng: &mut Rng, fields: &[Field]) -> Vec<Fault> {
    let mut faults = of_any_field(rng, fields);
    faults.extend(of_a_flow(rng, fields));
    faults.push(exchanged(rng, fields));
    faults.extend(fewer(rng, fields));
    faults.retain(|(plan, _, _)| plan.first() == Some(&HEADER) && plan.len() <= super::newer::MOST);
    faults
}
