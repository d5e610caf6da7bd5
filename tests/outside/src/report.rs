//! Counting, and printing each difference with its case.

use crate::rng::Rng;
use std::collections::BTreeMap;
use std::fmt::{Arguments, Debug};

const SHOWN: u64 = 12;

pub struct Tally {
    pub name: &'static str,
    pub passed: u64,
    pub failed: u64,
    pub cases: u64,
    seed: u64,
    case: u64,
    bytes: Vec<u8>,
    trace: bool,
    seen: BTreeMap<(&'static str, u32), u64>,
}

pub fn hex(bytes: &[u8]) -> String {
    bytes.iter().map(|byte| format!("{byte:02X}")).collect()
}

impl Tally {
    pub fn new(name: &'static str, seed: u64, cases: u64) -> Tally {
        let trace = std::env::var_os("CP_TRACE").is_some();
        Tally { name, passed: 0, failed: 0, cases, seed, case: 0, bytes: Vec::new(), trace, seen: BTreeMap::new() }
    }

    /// The generator of one case: it hangs on the seed, the group and the case's number alone.
    pub fn rng(&self, case: u64) -> Rng {
        let group = self.name.bytes().fold(self.seed, |sum, byte| Rng::new(sum ^ u64::from(byte)).next());
        Rng::new(group ^ case.wrapping_mul(0xD134_2543_DE82_EF95))
    }

    /// What is printed with a difference from here on.
    pub fn case(&mut self, case: u64, bytes: &[u8]) {
        self.case = case;
        self.bytes = bytes.to_vec();
        if self.trace {
            eprintln!("{} case {case} {}", self.name, hex(bytes));
        }
    }

    pub fn same<T: PartialEq + Debug>(&mut self, call: Arguments, got: T, want: T) {
        if got == want {
            self.passed += 1;
            return;
        }
        self.failed += 1;
        if self.failed <= SHOWN {
            println!("DIFFERENCE in {}: seed {} case {}", self.name, self.seed, self.case);
            println!("  bytes {}", hex(&self.bytes));
            println!("  call  {call}");
            println!("  got   {got:?}");
            println!("  want  {want:?}");
        }
    }

    /// Remembers which outcomes of a call came up.
    pub fn saw(&mut self, call: &'static str, refusal: u32) {
        *self.seen.entry((call, refusal)).or_insert(0) += 1;
    }

    /// Every outcome named must have come up, unless the cases are few.
    pub fn must_have_seen(&mut self, call: &'static str, refusals: &[u32]) {
        if self.cases < 100 {
            return;
        }
        for refusal in refusals {
            let times = self.seen.get(&(call, *refusal)).copied().unwrap_or(0);
            self.case(0, &[]);
            self.same(format_args!("outcome {refusal} of {call} comes up"), times > 0, true);
        }
    }

    pub fn print(&self) {
        println!("{:<10} {} passed, {} failed", self.name, self.passed, self.failed);
        let mut calls: BTreeMap<&str, Vec<String>> = BTreeMap::new();
        for ((call, refusal), times) in &self.seen {
            calls.entry(call).or_default().push(format!("{refusal}: {times}"));
        }
        for (call, outcomes) in calls {
            println!("           {call} gave {}", outcomes.join(", "));
        }
    }
}
