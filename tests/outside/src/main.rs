//! Compares the planner behind the C interface with the model, group by group; and the model with what must hold of it.
//!
//! CP_LIB_DIR (at build): folder of libcapi.a. CP_SEED=n, CP_CASES=n: another seed, more or fewer cases.
//! CP_TRACE: every case to standard error before its calls. Arguments: names of groups; none for all.
//! It builds with Rust 1.63 and later.

mod alone;
mod answers;
mod ffi;
mod gen;
mod groups;
mod model;
mod report;
mod rng;
mod simulate;

use report::Tally;

const SEED: u64 = 20_261_115;
const CASES: u64 = 1_500;

/// A group's name, its share of the cases in hundredths, and its body.
const GROUPS: [(&str, u64, fn(&mut Tally)); 26] = [
    ("reading", 60, alone::reading::run),
    ("converting", 60, alone::converting::run),
    ("known", 100, groups::known::run),
    ("model", 20, groups::model::run),
    ("fields", 100, groups::fields::run),
    ("written", 60, groups::written::run),
    ("loads", 400, groups::loads::run),
    ("strict", 200, groups::strict::run),
    ("save", 60, groups::save::run),
    ("rows", 60, groups::rows::run),
    ("questions", 60, groups::questions::run),
    ("searches", 100, groups::searches::run),
    ("steps", 100, groups::steps::run),
    ("spans", 40, groups::spans::run),
    ("nearest", 40, groups::nearest::run),
    ("gates", 60, groups::gates::run),
    ("reprice", 60, groups::reprice::run),
    ("batch", 20, groups::batch::run),
    ("foreign", 200, groups::foreign::run),
    ("order", 40, groups::order::run),
    ("runs", 60, groups::runs::run),
    ("emission", 40, groups::emission::run),
    ("lighter", 60, groups::lighter::run),
    ("forms", 40, groups::forms::run),
    ("convert", 40, groups::convert::run),
    ("text", 40, groups::text::run),
];

fn number_from(name: &str, otherwise: u64) -> u64 {
    match std::env::var(name) {
        Ok(text) => text.parse().unwrap_or_else(|_| panic!("{name} is no number: {text}")),
        Err(_) => otherwise,
    }
}

fn main() {
    let seed = number_from("CP_SEED", SEED);
    let cases = number_from("CP_CASES", CASES);
    let wanted: Vec<String> = std::env::args().skip(1).collect();
    println!("seed {seed}, {cases} cases");
    let (mut passed, mut failed) = (0, 0);
    for (name, share, body) in GROUPS {
        if !wanted.is_empty() && !wanted.iter().any(|one| one == name) {
            continue;
        }
        let mut tally = Tally::new(name, seed, (cases * share / 100).max(1));
        body(&mut tally);
        tally.print();
        passed += tally.passed;
        failed += tally.failed;
    }
    println!("overall    {passed} passed, {failed} failed");
    if failed > 0 || passed == 0 {
        std::process::exit(1);
    }
}
