//! The C interface of the planner. Most exports are lent its columns one by one: `raw` takes them off a planner, as the C header does.
//! A Rust slice is never null, an empty one neither.

use crate::answers::{
    Answer, Batch, BurstAnswer, EncodeAnswer, FieldRead, Planner, SlackAnswer, SpanRecord, StepsAnswer, UnsentAnswer, PLANNER_BYTES,
};

mod raw {
    use crate::answers::{Answer, BurstAnswer, Planner, SlackAnswer, SpanRecord, StepsAnswer, UnsentAnswer, STRIDE};
    use std::ptr::{addr_of, addr_of_mut};

    /// For each export a function on the planner: the export is declared, and called with the planner's columns.
    macro_rules! lent {
        ($planner:ty, $kind:tt, $address:ident: $($export:ident as $name:ident($($given:ident: $type:ty),*) -> $answer:ty;)*) => { $(
            pub unsafe fn $name(planner: $planner, $($given: $type),*) -> $answer {
                extern "C" {
                    fn $export(
                        form: *$kind u32, guard: *$kind u32, top: *$kind u32,
                        drift: *$kind u32, timing_jitter: *$kind u32, sync_error: *$kind u32,
                        rates: *$kind [u32; 64], blockings: *$kind [u16; 64], extras: *$kind [u8; 64],
                        periods: *$kind [u32; 256], counts: *$kind [u16; 256], lengths: *$kind [u16; 256], jitters: *$kind [u32; 256],
                        hops: *$kind [u8; 256], routes: *$kind [u8; 256 * STRIDE], $($given: $type),*
                    ) -> $answer;
                }
                $export(
                    $address!(planner.form), $address!(planner.guard), $address!(planner.top),
                    $address!(planner.drift), $address!(planner.timing_jitter), $address!(planner.sync_error),
                    $address!(planner.rates), $address!(planner.blockings), $address!(planner.extras),
                    $address!(planner.periods), $address!(planner.counts), $address!(planner.lengths), $address!(planner.jitters),
                    $address!(planner.hops), $address!(planner.routes), $($given),*
                )
            }
        )* };
    }

    lent! { &mut Planner, mut, addr_of_mut:
        cp_clear_columns as clear() -> ();
        cp_load_columns as load(plan: *const u8, length: usize) -> Answer;
        cp_load_strict_columns as load_strict(plan: *const u8, length: usize) -> Answer;
    }

    lent! { &Planner, const, addr_of:
        cp_check_columns as check(duration: u64) -> Answer;
        cp_slack_columns as slack(port: u64, duration: u64) -> SlackAnswer;
        cp_least_columns as least(scratch: *mut u64, length: usize) -> Answer;
        cp_margin_safe_columns as margin_safe(scratch: *mut u64, length: usize) -> Answer;
        cp_lean_least_columns as lean_least(scratch: *mut u64, length: usize) -> Answer;
        cp_lean_margin_safe_columns as lean_margin_safe(scratch: *mut u64, length: usize) -> Answer;
        cp_fixed_point_columns as fixed_point(start: u64, steps: u64) -> StepsAnswer;
        cp_reprice_columns as reprice(duration: u64, flow: u64, length: u64, out: *mut i64, size: usize) -> Answer;
        cp_span_columns as span(duration: u64) -> Answer;
        cp_spans_columns as spans(list: *mut SpanRecord, size: usize) -> Answer;
        cp_nearest_columns as nearest(duration: u64) -> Answer;
        cp_burst_columns as burst(duration: u64, port: u64, flow: u64, frame: u64) -> BurstAnswer;
        cp_unsent_columns as unsent(duration: u64) -> UnsentAnswer;
        cp_save_columns as save(buffer: *mut u8, length: usize) -> Answer;
        cp_text_columns as text(buffer: *mut u8, length: usize) -> Answer;
        cp_gates_columns as gates(duration: u64, even: u64, odd: u64, buffer: *mut u8, length: usize) -> Answer;
    }
}

#[repr(C)]
struct PlaceOutcome {
    batch: Batch,
    answer: Answer,
}

#[repr(C)]
struct ServeOutcome {
    batch: Batch,
    slot: u64,
}

#[repr(C)]
struct CollectOutcome {
    batch: Batch,
    answer: StepsAnswer,
}

extern "C" {
    fn cp_batch_empty() -> Batch;
    fn cp_batch_place_bytes(batch: Batch, slot: u64, plan: *const u8, length: usize) -> PlaceOutcome;
    fn cp_batch_serve(batch: Batch) -> ServeOutcome;
    fn cp_batch_collect(batch: Batch, slot: u64) -> CollectOutcome;
    fn cp_field_bytes(plan: *const u8, length: usize, offset: usize) -> FieldRead;
    fn cp_repeats_bytes(tag: u32, value: *const u8, length: usize) -> u8;
    fn cp_encode_bytes(text: *const u8, length: usize, buffer: *mut u8, room: usize) -> EncodeAnswer;
    fn cp_upgrade_bytes(plan: *const u8, length: usize, buffer: *mut u8, room: usize) -> Answer;
    fn cp_downgrade_bytes(plan: *const u8, length: usize, buffer: *mut u8, room: usize) -> Answer;
    fn cp_write_header_bytes(guard: u32, top: u32, buffer: *mut u8, room: usize) -> Answer;
    fn cp_write_port_bytes(number: u32, rate: u32, blocking: u32, buffer: *mut u8, room: usize) -> Answer;
    fn cp_write_flow_bytes(
        number: u32, period: u32, count: u32, length: u32, route: *const u8, hops: usize, buffer: *mut u8, room: usize,
    ) -> Answer;
    fn cp_write_extra_bytes(number: u32, extra: u32, buffer: *mut u8, room: usize) -> Answer;
    fn cp_write_jitter_bytes(number: u32, jitter: u32, buffer: *mut u8, room: usize) -> Answer;
    fn cp_write_clocks_bytes(drift: u32, timing_jitter: u32, sync_error: u32, buffer: *mut u8, room: usize) -> Answer;
    fn cp_write_header2_bytes(
        guard: u32, top: u32, drift: u32, timing_jitter: u32, sync_error: u32, buffer: *mut u8, room: usize,
    ) -> Answer;
    fn cp_write_port2_bytes(number: u32, rate: u32, blocking: u32, extra: u32, buffer: *mut u8, room: usize) -> Answer;
    fn cp_write_flow2_bytes(
        number: u32, period: u32, count: u32, length: u32, jitter: u32, route: *const u8, hops: usize, buffer: *mut u8, room: usize,
    ) -> Answer;
}

/// The planner that holds no plan, set over bytes that were none of 0.
pub fn empty() -> Planner {
    let mut planner = Planner::from_bytes([0xA5; PLANNER_BYTES]);
    unsafe { raw::clear(&mut planner) };
    planner
}

pub fn load_into(planner: &mut Planner, plan: &[u8]) -> Answer {
    unsafe { raw::load(planner, plan.as_ptr(), plan.len()) }
}

/// A load into a copy of the planner given.
pub fn load(planner: &Planner, plan: &[u8]) -> (Planner, Answer) {
    let mut after = planner.clone();
    let answer = load_into(&mut after, plan);
    (after, answer)
}

pub fn load_strict(planner: &Planner, plan: &[u8]) -> (Planner, Answer) {
    let mut after = planner.clone();
    let answer = unsafe { raw::load_strict(&mut after, plan.as_ptr(), plan.len()) };
    (after, answer)
}

pub fn check(planner: &Planner, duration: u64) -> Answer {
    unsafe { raw::check(planner, duration) }
}

pub fn slack(planner: &Planner, port: u64, duration: u64) -> SlackAnswer {
    unsafe { raw::slack(planner, port, duration) }
}

pub fn least(planner: &Planner, scratch: &mut [u64]) -> Answer {
    unsafe { raw::least(planner, scratch.as_mut_ptr(), scratch.len()) }
}

pub fn margin_safe(planner: &Planner, scratch: &mut [u64]) -> Answer {
    unsafe { raw::margin_safe(planner, scratch.as_mut_ptr(), scratch.len()) }
}

pub fn lean_least(planner: &Planner, scratch: &mut [u64]) -> Answer {
    unsafe { raw::lean_least(planner, scratch.as_mut_ptr(), scratch.len()) }
}

pub fn lean_margin_safe(planner: &Planner, scratch: &mut [u64]) -> Answer {
    unsafe { raw::lean_margin_safe(planner, scratch.as_mut_ptr(), scratch.len()) }
}

pub fn fixed_point(planner: &Planner, start: u64, steps: u64) -> StepsAnswer {
    unsafe { raw::fixed_point(planner, start, steps) }
}

pub fn reprice(planner: &Planner, duration: u64, flow: u64, length: u64, list: &mut [i64]) -> Answer {
    unsafe { raw::reprice(planner, duration, flow, length, list.as_mut_ptr(), list.len()) }
}

pub fn span(planner: &Planner, duration: u64) -> Answer {
    unsafe { raw::span(planner, duration) }
}

pub fn nearest(planner: &Planner, duration: u64) -> Answer {
    unsafe { raw::nearest(planner, duration) }
}

pub fn burst(planner: &Planner, duration: u64, port: u64, flow: u64, frame: u64) -> BurstAnswer {
    unsafe { raw::burst(planner, duration, port, flow, frame) }
}

pub fn unsent(planner: &Planner, duration: u64) -> UnsentAnswer {
    unsafe { raw::unsent(planner, duration) }
}

pub fn spans(planner: &Planner, list: &mut [SpanRecord]) -> Answer {
    unsafe { raw::spans(planner, list.as_mut_ptr(), list.len()) }
}

pub fn save(planner: &Planner, buffer: &mut [u8]) -> Answer {
    unsafe { raw::save(planner, buffer.as_mut_ptr(), buffer.len()) }
}

pub fn text(planner: &Planner, buffer: &mut [u8]) -> Answer {
    unsafe { raw::text(planner, buffer.as_mut_ptr(), buffer.len()) }
}

pub fn gates(planner: &Planner, duration: u64, even: u64, odd: u64, buffer: &mut [u8]) -> Answer {
    unsafe { raw::gates(planner, duration, even, odd, buffer.as_mut_ptr(), buffer.len()) }
}

pub fn empty_batch() -> Batch {
    unsafe { cp_batch_empty() }
}

pub fn place(batch: &Batch, slot: u64, plan: &[u8]) -> (Batch, Answer) {
    let outcome = unsafe { cp_batch_place_bytes(batch.clone(), slot, plan.as_ptr(), plan.len()) };
    (outcome.batch, outcome.answer)
}

pub fn serve(batch: &Batch) -> (Batch, u64) {
    let outcome = unsafe { cp_batch_serve(batch.clone()) };
    (outcome.batch, outcome.slot)
}

pub fn collect(batch: &Batch, slot: u64) -> (Batch, StepsAnswer) {
    let outcome = unsafe { cp_batch_collect(batch.clone(), slot) };
    (outcome.batch, outcome.answer)
}

pub fn field(plan: &[u8], offset: usize) -> FieldRead {
    unsafe { cp_field_bytes(plan.as_ptr(), plan.len(), offset) }
}

/// Whether the value of a flow field of this tag names a port twice.
pub fn repeats(tag: u32, value: &[u8]) -> u8 {
    unsafe { cp_repeats_bytes(tag, value.as_ptr(), value.len()) }
}

pub fn encode(text: &[u8], buffer: &mut [u8]) -> EncodeAnswer {
    unsafe { cp_encode_bytes(text.as_ptr(), text.len(), buffer.as_mut_ptr(), buffer.len()) }
}

pub fn upgrade(plan: &[u8], buffer: &mut [u8]) -> Answer {
    unsafe { cp_upgrade_bytes(plan.as_ptr(), plan.len(), buffer.as_mut_ptr(), buffer.len()) }
}

pub fn downgrade(plan: &[u8], buffer: &mut [u8]) -> Answer {
    unsafe { cp_downgrade_bytes(plan.as_ptr(), plan.len(), buffer.as_mut_ptr(), buffer.len()) }
}

/// The writer of a tag, with its numbers in their order.
pub fn write(tag: u8, n: &[u32], route: &[u8], buffer: &mut [u8]) -> Answer {
    let (start, room) = (buffer.as_mut_ptr(), buffer.len());
    let (ports, hops) = (route.as_ptr(), route.len());
    unsafe {
        match tag {
            0x01 => cp_write_header_bytes(n[0], n[1], start, room),
            0x02 => cp_write_port_bytes(n[0], n[1], n[2], start, room),
            0x03 => cp_write_flow_bytes(n[0], n[1], n[2], n[3], ports, hops, start, room),
            0x04 => cp_write_extra_bytes(n[0], n[1], start, room),
            0x05 => cp_write_jitter_bytes(n[0], n[1], start, room),
            0x06 => cp_write_clocks_bytes(n[0], n[1], n[2], start, room),
            0x11 => cp_write_header2_bytes(n[0], n[1], n[2], n[3], n[4], start, room),
            0x12 => cp_write_port2_bytes(n[0], n[1], n[2], n[3], start, room),
            _ => cp_write_flow2_bytes(n[0], n[1], n[2], n[3], n[4], ports, hops, start, room),
        }
    }
}
