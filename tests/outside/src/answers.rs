//! The plain data that goes over the C interface, used by the model too.

#[repr(C)]
#[derive(Clone, Copy, PartialEq, Eq, Debug)]
pub struct Answer {
    pub refusal: u32,
    pub first: u64,
    pub second: u64,
}

#[repr(C)]
#[derive(Clone, Copy, PartialEq, Eq, Debug)]
pub struct SlackAnswer {
    pub refusal: u32,
    pub slack: i64,
}

#[repr(C)]
#[derive(Clone, Copy, PartialEq, Eq, Debug)]
pub struct StepsAnswer {
    pub refusal: u32,
    pub first: u64,
    pub second: u64,
    pub steps: u64,
}

/// A flow's part in a bad emission.
#[repr(C)]
#[derive(Clone, Copy, PartialEq, Eq, Debug)]
pub struct BurstAnswer {
    pub refusal: u32,
    pub cycle: u64,
    pub frames: u64,
    pub instant: u64,
}

/// The first frame that a bad emission leaves unsent.
#[repr(C)]
#[derive(Clone, Copy, PartialEq, Eq, Debug)]
pub struct UnsentAnswer {
    pub refusal: u32,
    pub failing: u32,
    pub port: u32,
    pub cycle: u64,
    pub bits: u64,
    pub most: u64,
}

/// A run of admissible durations, by its ends.
#[repr(C)]
#[derive(Clone, Copy, PartialEq, Eq, Debug)]
pub struct SpanRecord {
    pub first: u64,
    pub last: u64,
}

/// What a text was turned into, or the line at which it is refused, why, and what of it.
#[repr(C)]
#[derive(Clone, Copy, PartialEq, Eq, Debug)]
pub struct EncodeAnswer {
    pub refusal: u32,
    pub line: u32,
    pub fault: u32,
    pub item: u32,
    pub value: u64,
}

/// How many numbers cp_field tells.
pub const NUMBERS: usize = 6;

#[repr(C)]
#[derive(Clone, Copy, PartialEq, Eq, Debug)]
pub struct FieldRead {
    pub refusal: u32,
    pub tag: u32,
    pub offset: u64,
    pub numbers: [u64; NUMBERS],
}

/// Places in the table of routes from one flow's route to the next.
pub const STRIDE: usize = 24;

/// The tables of a planner, laid out as the C header says.
#[repr(C)]
#[derive(Clone, PartialEq, Eq)]
pub struct Planner {
    pub form: u32,
    pub guard: u32,
    pub top: u32,
    pub drift: u32,
    pub timing_jitter: u32,
    pub sync_error: u32,
    pub rates: [u32; 64],
    pub blockings: [u16; 64],
    pub extras: [u8; 64],
    pub periods: [u32; 256],
    pub counts: [u16; 256],
    pub lengths: [u16; 256],
    pub jitters: [u32; 256],
    pub hops: [u8; 256],
    pub routes: [u8; 256 * STRIDE],
}

pub const PLANNER_BYTES: usize = 9944;
const _: () = assert!(std::mem::size_of::<Planner>() == PLANNER_BYTES);

impl Planner {
    pub fn zero() -> Planner {
        Planner::from_bytes([0; PLANNER_BYTES])
    }

    /// Plain integers without padding, so every row of bytes is a planner.
    pub fn from_bytes(bytes: [u8; PLANNER_BYTES]) -> Planner {
        unsafe { std::mem::transmute(bytes) }
    }

    /// The first table and slot in which another planner differs.
    pub fn differs(&self, other: &Planner) -> Option<(&'static str, usize)> {
        fn first<T: PartialEq>(name: &'static str, one: &[T], other: &[T]) -> Option<(&'static str, usize)> {
            (0..one.len()).find(|slot| one[*slot] != other[*slot]).map(|slot| (name, slot))
        }
        let header = |planner: &Planner| [planner.form, planner.guard, planner.top];
        let clocks = |planner: &Planner| [planner.drift, planner.timing_jitter, planner.sync_error];
        first("form, guard, top", &header(self), &header(other))
            .or_else(|| first("clocks", &clocks(self), &clocks(other)))
            .or_else(|| first("rates", &self.rates, &other.rates))
            .or_else(|| first("blockings", &self.blockings, &other.blockings))
            .or_else(|| first("extras", &self.extras, &other.extras))
            .or_else(|| first("periods", &self.periods, &other.periods))
            .or_else(|| first("counts", &self.counts, &other.counts))
            .or_else(|| first("lengths", &self.lengths, &other.lengths))
            .or_else(|| first("jitters", &self.jitters, &other.jitters))
            .or_else(|| first("hops", &self.hops, &other.hops))
            .or_else(|| first("routes", &self.routes, &other.routes))
    }

    pub fn to_bytes(&self) -> [u8; PLANNER_BYTES] {
        unsafe { std::mem::transmute(self.clone()) }
    }
}

/// A slot of a batch, laid out as the C header says.
#[repr(C)]
#[derive(Clone, PartialEq, Eq)]
pub struct Slot {
    pub duration: u64,
    pub steps: u64,
    pub state: u32,
    pub port: u32,
    pub count: u32,
    pub planner: Planner,
}

#[repr(C)]
#[derive(Clone, PartialEq, Eq)]
pub struct Batch {
    pub slots: [Slot; 8],
    pub next: u64,
}

pub const BATCH_BYTES: usize = std::mem::size_of::<Batch>();
const _: () = assert!(BATCH_BYTES == 8 * ((28 + PLANNER_BYTES + 7) / 8 * 8) + 8);

impl Batch {
    /// Plain integers, so every row of bytes is a batch.
    pub fn from_bytes(bytes: &[u8]) -> Batch {
        assert_eq!(bytes.len(), BATCH_BYTES);
        unsafe { std::ptr::read_unaligned(bytes.as_ptr().cast()) }
    }
}

impl Answer {
    pub fn new(refusal: u32, first: u64, second: u64) -> Answer {
        Answer { refusal, first, second }
    }

    pub fn refused(refusal: u32) -> Answer {
        Answer::new(refusal, 0, 0)
    }
}

impl StepsAnswer {
    pub fn new(answer: Answer, steps: u64) -> StepsAnswer {
        StepsAnswer { refusal: answer.refusal, first: answer.first, second: answer.second, steps }
    }

    /// The same without the steps.
    pub fn answer(&self) -> Answer {
        Answer::new(self.refusal, self.first, self.second)
    }
}

impl SlackAnswer {
    pub fn refused(refusal: u32) -> SlackAnswer {
        SlackAnswer { refusal, slack: 0 }
    }
}
