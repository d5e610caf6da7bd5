/* The cycle planner as a static library (libcapi.a), for C and C++ on x86-64, which is what the toolchain makes it for.
 *
 *     static cp_planner planner;
 *     if (cp_load(&planner, plan, length).refusal == CP_OK && cp_check(&planner, 72000).refusal == CP_OK) ..
 *
 * The caller holds the planner and gives its address: a load writes it, a question reads it. Every call answers any planner value, any
 * number and any slice. A slice is a pointer and a length in elements; with length 0 the pointer may be null. What is written overlaps
 * nothing else that a call is given. A planner or a slice that is not there, or shorter than its length says, is outside what is proved.
 *
 * The refusal number of document 01 is in `refusal`, CP_OK where there is a result; enum cp_refusal has them, and cp_refusal_text a
 * sentence for each. All numbers are unsigned but the spares of cp_slack and cp_reprice, which are negative where a port fails.
 * Durations, intervals, guard band, jitter and synchronization error are in ns, rates in Mbit/s, lengths of frames and plans in bytes,
 * demands in bits on the wire, spares in thousandths of a bit.
 *
 * Stack of a call, with what the functions of this header take: a load 11.6 KB (1.2 planners), a question up
 * to 1.5 KB, cp_upgrade and cp_downgrade 11.3 KB, cp_encode 26 KB. No heap. The library keeps nothing between calls and has no data of its own:
 * calls are re-entrant, and may be made from several tasks at once, also about one planner as long as none of them loads or clears it. */
#ifndef CYCLE_PLANNER_H
#define CYCLE_PLANNER_H
#include <stddef.h>
#include <stdint.h>

/* Of the library and this header. Where MAJOR differs, or MINOR while MAJOR is 0, a program has to be compiled again. */
#define CP_VERSION_MAJOR 0
#define CP_VERSION_MINOR 11
#define CP_VERSION_PATCH 0
#define CP_VERSION "0.11.0"

/* What a caller lends, in elements: the scratch of a search, that of a lean one, the list of cp_reprice. For the length of a list of
 * spans call cp_spans with size 0 first: it answers how many there are. */
#define CP_SCRATCH 64
#define CP_LEAN_SCRATCH 1
#define CP_SPARES 64

/* In bytes: the longest plan that a load takes; what any plan that a load left is saved as, at most; what cp_upgrade and cp_downgrade
 * write, at most; the longest gate list; the longest text of a plan, read or written; the longest field. */
#define CP_MAX_PLAN 16384
#define CP_MAX_SAVED 16384
#define CP_MAX_UPGRADED 13399
#define CP_MAX_DOWNGRADED 15002
#define CP_MAX_GATES 48
#define CP_MAX_TEXT 65536
#define CP_MAX_FIELD 65

/* Ports, flows and slots of a batch are numbered from 1, 1 and 0. */
#define CP_PORTS 64
#define CP_FLOWS 256
#define CP_SLOTS 8

enum cp_refusal {
  CP_OK = 0,
  CP_PLAN_SIZE = 1,
  CP_FIELD_CUT = 2,
  CP_UNKNOWN_TAG = 3,
  CP_FIELD_LENGTH = 4,
  CP_OUT_OF_RANGE = 5,
  CP_GIVEN_TWICE = 6,
  CP_PORT_TWICE = 7,
  CP_MISSING = 8,
  CP_ABSENT = 9,
  CP_BAD_DURATION = 10,
  CP_SHORT_SCRATCH = 11,
  CP_OUT_OF_ORDER = 12,
  CP_SHORT_BUFFER = 13,
  CP_NO_SLOT = 15,
  CP_LONG_ROUTE = 16,
  CP_BAD_FRAME_LENGTH = 17,
  CP_BAD_QUEUE = 18,
  CP_NO_PLAN = 20,
  CP_NOT_ADMISSIBLE = 21,
  CP_NO_LEAST = 22,
  CP_NO_MARGIN_SAFE = 23,
  CP_NOT_CROSSED = 24,
  CP_NO_SPAN = 25,
  CP_STEPS_ENDED = 26,
  CP_SLOT_TAKEN = 27,
  CP_NO_ANSWER_YET = 28,
  CP_ABSENT_FLOW = 29,
  CP_BAD_TEXT = 30
};

/* A sentence for each refusal, without a full stop; one for any other number too. */
static inline const char *cp_refusal_text(uint32_t refusal) {
  switch (refusal) {
    case CP_OK: return "a result, no refusal";
    case CP_PLAN_SIZE: return "the plan has no byte, or more than 16,384";
    case CP_FIELD_CUT: return "a field is cut short";
    case CP_UNKNOWN_TAG: return "a field has an unknown tag";
    case CP_FIELD_LENGTH: return "a field has a length that its tag does not have";
    case CP_OUT_OF_RANGE: return "a number is out of its range";
    case CP_GIVEN_TWICE: return "something is given twice";
    case CP_PORT_TWICE: return "a route names a port twice";
    case CP_MISSING: return "the plan has no header, or no flow";
    case CP_ABSENT: return "a port or a flow is named that is not given";
    case CP_BAD_DURATION: return "the duration or start is 0 or above the plan's top";
    case CP_SHORT_SCRATCH: return "the scratch or the list has too few numbers";
    case CP_OUT_OF_ORDER: return "a field should have stood earlier";
    case CP_SHORT_BUFFER: return "the buffer or the list of spans is too short";
    case CP_NO_SLOT: return "the batch has no such slot";
    case CP_LONG_ROUTE: return "a route is too long for the older form";
    case CP_BAD_FRAME_LENGTH: return "the frame length is not 64 to 2,000 bytes";
    case CP_BAD_QUEUE: return "a queue is above 7, or both are the same";
    case CP_NO_PLAN: return "no plan is held";
    case CP_NOT_ADMISSIBLE: return "the duration is not admissible: some port fails";
    case CP_NO_LEAST: return "no duration up to the plan's top is admissible";
    case CP_NO_MARGIN_SAFE: return "the plan's top is not admissible";
    case CP_NOT_CROSSED: return "no flow crosses the port, or there is no such port";
    case CP_NO_SPAN: return "no admissible duration at this one or later";
    case CP_STEPS_ENDED: return "the steps ended before the search did";
    case CP_SLOT_TAKEN: return "the slot of the batch has a plan";
    case CP_NO_ANSWER_YET: return "the slot of the batch has no final answer";
    case CP_ABSENT_FLOW: return "the flow is not in the plan";
    case CP_BAD_TEXT: return "a line of the text is refused";
    default: return "no refusal of this library";
  }
}

/* Why a line of a text is refused, with a sentence for each, and what of the line it is about, with its word. */
enum cp_text_fault {
  CP_FAULT_WORD = 1,
  CP_FAULT_NUMBER = 2,
  CP_FAULT_RANGE = 3,
  CP_FAULT_AGAIN = 4,
  CP_FAULT_TWICE = 5,
  CP_FAULT_INCOMPLETE = 6,
  CP_FAULT_ABSENT = 7,
  CP_FAULT_SIZE = 8
};
static inline const char *cp_text_fault_text(uint32_t fault) {
  switch (fault) {
    case CP_FAULT_WORD: return "a word is missing or wrong";
    case CP_FAULT_NUMBER: return "a number is missing or is none";
    case CP_FAULT_RANGE: return "a number is out of its range";
    case CP_FAULT_AGAIN: return "something is said again";
    case CP_FAULT_TWICE: return "a route names a port twice";
    case CP_FAULT_INCOMPLETE: return "guard, top or a flow is missing";
    case CP_FAULT_ABSENT: return "a route names a port that is not in the plan";
    case CP_FAULT_SIZE: return "the text has over 65,536 bytes";
    default: return "no fault of a text";
  }
}
enum cp_text_item {
  CP_ITEM_GUARD = 1,
  CP_ITEM_TOP = 2,
  CP_ITEM_PORT = 3,
  CP_ITEM_RATE = 4,
  CP_ITEM_BLOCKER = 5,
  CP_ITEM_EXTRA = 6,
  CP_ITEM_FLOW = 7,
  CP_ITEM_PERIOD = 8,
  CP_ITEM_COUNT = 9,
  CP_ITEM_LENGTH = 10,
  CP_ITEM_JITTER = 11,
  CP_ITEM_DRIFT = 12,
  CP_ITEM_TIMING = 13,
  CP_ITEM_SYNC = 14,
  CP_ITEM_FORMAT = 15,
  CP_ITEM_ROUTE = 16,
  CP_ITEM_HOPS = 17,
  CP_ITEM_FIRST = 18,
  CP_ITEM_END = 19
};
static inline const char *cp_text_item_text(uint32_t item) {
  switch (item) {
    case CP_ITEM_GUARD: return "guard";
    case CP_ITEM_TOP: return "top";
    case CP_ITEM_PORT: return "port";
    case CP_ITEM_RATE: return "rate";
    case CP_ITEM_BLOCKER: return "blocker";
    case CP_ITEM_EXTRA: return "extra";
    case CP_ITEM_FLOW: return "flow";
    case CP_ITEM_PERIOD: return "period";
    case CP_ITEM_COUNT: return "count";
    case CP_ITEM_LENGTH: return "length";
    case CP_ITEM_JITTER: return "jitter";
    case CP_ITEM_DRIFT: return "drift";
    case CP_ITEM_TIMING: return "timing";
    case CP_ITEM_SYNC: return "sync";
    case CP_ITEM_FORMAT: return "format";
    case CP_ITEM_ROUTE: return "route";
    case CP_ITEM_HOPS: return "how many ports a route has";
    case CP_ITEM_FIRST: return "the first word of a line";
    case CP_ITEM_END: return "what stands behind a line's last number";
    default: return "no item of a text";
  }
}

/* Whether a load was refused, and the batch to use next, are in what the call gives back: where it is dropped, compilers that can warn. */
#if defined(__GNUC__) || defined(__clang__)
#define CP_MUST_USE __attribute__((warn_unused_result))
#else
#define CP_MUST_USE
#endif

#ifdef __cplusplus
extern "C" {
#endif

/* How far clocks differ: drift in parts per million, timing jitter and synchronization error in ns. */
typedef struct { uint32_t drift, timing_jitter, sync_error; } cp_clock;

/* Places in the table of routes from one flow's route to the next. */
#define CP_ROUTE_STRIDE 24

/* Plain data, 9,944 bytes. Keep it as the last load left it; do not look inside. form is that of the plan's bytes: 0 for the older form,
 * 1 for the newer one. Any other number, and 0 with a route of over sixteen ports, is what no call leaves: no plan is held. A planner
 * whose bytes are all 0 holds no plan, so that a static one needs no cp_clear. */
typedef struct {
  uint32_t form, guard, top;
  cp_clock clock;
  uint32_t rates[64];
  uint16_t blockings[64];
  uint8_t extras[64];
  uint32_t periods[256];
  uint16_t counts[256], lengths[256];
  uint32_t jitters[256];
  uint8_t hops[256], routes[256 * CP_ROUTE_STRIDE];
} cp_planner;

typedef struct { uint32_t refusal; uint64_t first, second; } cp_answer;
typedef struct { uint32_t refusal; int64_t slack; } cp_slack_answer;
typedef struct { uint32_t refusal; uint64_t first, second, steps; } cp_fixed_point_answer;
typedef struct { uint32_t refusal; uint64_t cycle, frames, instant; } cp_burst_answer;
typedef struct { uint32_t refusal, failing, port; uint64_t cycle, bits, most; } cp_unsent_answer;
typedef struct { uint32_t refusal, line, fault, item; uint64_t value; } cp_encode_answer;
typedef struct { uint32_t refusal, tag; uint64_t offset; uint64_t numbers[6]; } cp_field_read;

/* A span: a run of admissible durations from 1 to top that can grow at neither end, given by its first and its last, in ns. */
typedef struct { uint64_t first, last; } cp_span_record;

/* What the library exports is lent the planner's columns one by one. Call the functions below instead: they take the columns off the
 * planner's address, and put the address of a number in place of the pointer of an empty slice. */
#define CP_LENT(CONST)                                                                                                            \
  CONST uint32_t *form, CONST uint32_t *guard, CONST uint32_t *top, CONST uint32_t *drift, CONST uint32_t *timing_jitter,         \
      CONST uint32_t *sync_error, CONST uint32_t *rates, CONST uint16_t *blockings, CONST uint8_t *extras,                        \
      CONST uint32_t *periods, CONST uint16_t *counts, CONST uint16_t *lengths, CONST uint32_t *jitters, CONST uint8_t *hops,     \
      CONST uint8_t *routes
void cp_clear_columns(CP_LENT());
cp_answer cp_load_columns(CP_LENT(), const uint8_t *plan, size_t length);
cp_answer cp_load_strict_columns(CP_LENT(), const uint8_t *plan, size_t length);
cp_answer cp_check_columns(CP_LENT(const), uint64_t duration);
cp_slack_answer cp_slack_columns(CP_LENT(const), uint64_t port, uint64_t duration);
cp_answer cp_least_columns(CP_LENT(const), uint64_t *scratch, size_t length);
cp_answer cp_margin_safe_columns(CP_LENT(const), uint64_t *scratch, size_t length);
cp_answer cp_lean_least_columns(CP_LENT(const), uint64_t *scratch, size_t length);
cp_answer cp_lean_margin_safe_columns(CP_LENT(const), uint64_t *scratch, size_t length);
cp_fixed_point_answer cp_fixed_point_columns(CP_LENT(const), uint64_t start, uint64_t steps);
cp_answer cp_reprice_columns(CP_LENT(const), uint64_t duration, uint64_t flow, uint64_t length, int64_t *out, size_t size);
cp_answer cp_span_columns(CP_LENT(const), uint64_t duration);
cp_answer cp_spans_columns(CP_LENT(const), cp_span_record *list, size_t size);
cp_answer cp_nearest_columns(CP_LENT(const), uint64_t duration);
cp_burst_answer cp_burst_columns(CP_LENT(const), uint64_t duration, uint64_t port, uint64_t flow, uint64_t frame);
cp_unsent_answer cp_unsent_columns(CP_LENT(const), uint64_t duration);
cp_answer cp_save_columns(CP_LENT(const), uint8_t *buffer, size_t length);
cp_answer cp_text_columns(CP_LENT(const), uint8_t *buffer, size_t length);
cp_answer cp_gates_columns(CP_LENT(const), uint64_t duration, uint64_t even, uint64_t odd, uint8_t *buffer, size_t length);
cp_encode_answer cp_encode_bytes(const uint8_t *text, size_t length, uint8_t *buffer, size_t room);
cp_answer cp_upgrade_bytes(const uint8_t *plan, size_t length, uint8_t *buffer, size_t room);
cp_answer cp_downgrade_bytes(const uint8_t *plan, size_t length, uint8_t *buffer, size_t room);
cp_field_read cp_field_bytes(const uint8_t *plan, size_t length, size_t offset);
uint8_t cp_repeats_bytes(uint32_t tag, const uint8_t *value, size_t length);
cp_answer cp_write_header_bytes(uint32_t guard, uint32_t top, uint8_t *buffer, size_t room);
cp_answer cp_write_port_bytes(uint32_t number, uint32_t rate, uint32_t blocking, uint8_t *buffer, size_t room);
cp_answer cp_write_flow_bytes(uint32_t number, uint32_t period, uint32_t count, uint32_t length, const uint8_t *route, size_t hops, uint8_t *buffer, size_t room);
cp_answer cp_write_extra_bytes(uint32_t number, uint32_t extra, uint8_t *buffer, size_t room);
cp_answer cp_write_jitter_bytes(uint32_t number, uint32_t jitter, uint8_t *buffer, size_t room);
cp_answer cp_write_clocks_bytes(uint32_t drift, uint32_t timing_jitter, uint32_t sync_error, uint8_t *buffer, size_t room);
cp_answer cp_write_header2_bytes(uint32_t guard, uint32_t top, uint32_t drift, uint32_t timing_jitter, uint32_t sync_error, uint8_t *buffer, size_t room);
cp_answer cp_write_port2_bytes(uint32_t number, uint32_t rate, uint32_t blocking, uint32_t extra, uint8_t *buffer, size_t room);
cp_answer cp_write_flow2_bytes(uint32_t number, uint32_t period, uint32_t count, uint32_t length, uint32_t jitter, const uint8_t *route, size_t hops, uint8_t *buffer, size_t room);

/* The columns in the order of CP_LENT. Nothing proves that this and the library name the same ones: tests/header/layout holds them
 * against each other. */
#define CP_COLUMNS(planner)                                                                                                       \
  &(planner)->form, &(planner)->guard, &(planner)->top, &(planner)->clock.drift, &(planner)->clock.timing_jitter,                 \
      &(planner)->clock.sync_error, (planner)->rates, (planner)->blockings, (planner)->extras, (planner)->periods,                \
      (planner)->counts, (planner)->lengths, (planner)->jitters, (planner)->hops, (planner)->routes

/* Sets the planner that holds no plan. */
static inline void cp_clear(cp_planner *planner) { cp_clear_columns(CP_COLUMNS(planner)); }

/* A plan whose first byte is 0x11 is of the newer form, with tags 0x11 to 0x13; any other is of the older one, with tags 1 to 6. The
 * other form's tags are unknown in it. Result: first = port fields, second = flow fields; the planner holds this plan and no other.
 * Refusal 1 to 9: first = offset (place), second = 0; every byte of the planner is as it was. Fields of the older form may stand in any
 * order; those of the newer one stand in strict order, and refusal 12 is as below. */
CP_MUST_USE static inline cp_answer cp_load(cp_planner *planner, const uint8_t *plan, size_t length) {
  const uint8_t none = 0;
  return cp_load_columns(CP_COLUMNS(planner), length == 0 ? &none : plan, length);
}

/* The same by the strict reading: the header first, then the ports, the flows and the later tags, by tag and then by number.
 * Refusal 12 too: a field should have stood earlier; it is tested between 6 and 7, first = that field's offset, second = 0, the planner
 * as it was, as for 1 to 9. */
CP_MUST_USE static inline cp_answer cp_load_strict(cp_planner *planner, const uint8_t *plan, size_t length) {
  const uint8_t none = 0;
  return cp_load_strict_columns(CP_COLUMNS(planner), length == 0 ? &none : plan, length);
}

/* The plain question. Result: 0, 0. Refusal 20, 10: 0, 0. 21: first = lowest failing port, second = how many fail. */
static inline cp_answer cp_check(const cp_planner *planner, uint64_t duration) {
  return cp_check_columns(CP_COLUMNS(planner), duration);
}

/* A port's spare at a duration: how much more the port could send in its window, in thousandths of a bit (rate in Mbit/s times ns).
 * Negative exactly where the port fails; 0 is just enough. Refusal 20, 10, 24: slack = 0. */
static inline cp_slack_answer cp_slack(const cp_planner *planner, uint64_t port, uint64_t duration) {
  return cp_slack_columns(CP_COLUMNS(planner), port, duration);
}

/* The least and the margin-safe duration. Result: first = duration in ns, second = 0; the scratch's first 64 numbers are each
 * port's demand there in bits on the wire, port n at n - 1, 0 for a port that no flow crosses. Refusal 20, 11: 0, 0, scratch untouched.
 * 22 (least), 23 (margin-safe): first = lowest failing port at top, second = how many fail; the first 64 numbers are the demand at top.
 * Later numbers never change. */
static inline cp_answer cp_least(const cp_planner *planner, uint64_t *scratch, size_t length) {
  uint64_t none = 0;
  return cp_least_columns(CP_COLUMNS(planner), length == 0 ? &none : scratch, length);
}
static inline cp_answer cp_margin_safe(const cp_planner *planner, uint64_t *scratch, size_t length) {
  uint64_t none = 0;
  return cp_margin_safe_columns(CP_COLUMNS(planner), length == 0 ? &none : scratch, length);
}

/* The same two searches over a scratch of one number or more: the same answers. The scratch's first number is the demand of the
 * highest-numbered crossed port, at the duration answered, or at top after 22 or 23; later numbers never change. Refusal 20, 11 (an
 * empty scratch): 0, 0, scratch untouched. */
static inline cp_answer cp_lean_least(const cp_planner *planner, uint64_t *scratch, size_t length) {
  uint64_t none = 0;
  return cp_lean_least_columns(CP_COLUMNS(planner), length == 0 ? &none : scratch, length);
}
static inline cp_answer cp_lean_margin_safe(const cp_planner *planner, uint64_t *scratch, size_t length) {
  uint64_t none = 0;
  return cp_lean_margin_safe_columns(CP_COLUMNS(planner), length == 0 ? &none : scratch, length);
}

/* The least admissible duration at or after a start, by at most so many steps of the fixed-point iteration. Result: first =
 * duration in ns, second = 0, steps = how many were used. Refusal 20, 10 (a start outside 1 to top): 0, 0, 0. 22, none up to top:
 * first = lowest failing port at top, second = how many fail, steps = how many were used. 26, the steps ended before: first = the
 * duration reached, second = 0, steps = those given; another call with that duration for its start goes on from there. */
static inline cp_fixed_point_answer cp_fixed_point(const cp_planner *planner, uint64_t start, uint64_t steps) {
  return cp_fixed_point_columns(CP_COLUMNS(planner), start, steps);
}

/* What if a flow's frames had another length? The spares along its route at a duration go into a list, out, port n at n - 1, signed and in
 * thousandths of a bit as from cp_slack. Result: 0, 0; the other numbers of the list remain, past the 64th too. Refusal 20, 10 (a
 * duration outside 1 to top), 11 (a list under 64 numbers), 17 (a length outside 64 to 2,000), 29 (a flow that is not in the plan), in
 * this order: 0, 0, list untouched. The held plan remains. Where the list held the spare of each crossed port at that duration, it now
 * holds those of the plan with that length. */
static inline cp_answer cp_reprice(const cp_planner *planner, uint64_t duration, uint64_t flow, uint64_t length, int64_t *out,
                                   size_t size) {
  int64_t none = 0;
  return cp_reprice_columns(CP_COLUMNS(planner), duration, flow, length, size == 0 ? &none : out, size);
}

/* The first span that ends at a duration or later; it may begin before that duration. Result: first and second = the span's first
 * and last duration. Refusal 20, 10 (a duration outside 1 to top), 25 (no span ends there or later): 0, 0. */
static inline cp_answer cp_span(const cp_planner *planner, uint64_t duration) {
  return cp_span_columns(CP_COLUMNS(planner), duration);
}

/* All spans, rising, into the first records of the list; those behind them remain. Result: first = how many there are, second = 0;
 * 0 where no duration is admissible, also with an empty list. Refusal 20: 0, 0. 13, the list is shorter: first = how many there
 * are, second = 0. Neither writes a record. */
static inline cp_answer cp_spans(const cp_planner *planner, cp_span_record *list, size_t size) {
  cp_span_record none = {0, 0};
  return cp_spans_columns(CP_COLUMNS(planner), size == 0 ? &none : list, size);
}

/* The nearest admissible durations. Result: first = the largest one at or below a duration, second = the least one at or above it,
 * each 0 where there is none; both are the duration itself where it is admissible. Refusal 20, 10 (a duration outside 1 to top):
 * 0, 0. */
static inline cp_answer cp_nearest(const cp_planner *planner, uint64_t duration) {
  return cp_nearest_columns(CP_COLUMNS(planner), duration);
}

/* Why a duration is refused: an emission that keeps every flow's contract and leaves a frame unsent. It is that of the lowest failing
 * port: each flow that crosses this port sends all that may come in one cycle, in such a cycle that all of it meets there. Result:
 * failing = that port; cycle = the first in which a frame is left unsent, cycles counted from 0; port = the lowest port that leaves one
 * there, which may be another; bits = what this one must send in that cycle, most = what it can send. All 0 where the duration is
 * admissible. Refusal 20, 10: all 0. */
static inline cp_unsent_answer cp_unsent(const cp_planner *planner, uint64_t duration) {
  return cp_unsent_columns(CP_COLUMNS(planner), duration);
}

/* A flow's part in such an emission of a port, failing or not. Result: cycle = the one in which it sends, frames = how many, 0 where the
 * flow does not cross the port; instant = that of one of them, in ns, counted from 0, or CP_NO_INSTANT where there are not so many.
 * Refusal 20, 10, 24 (a port outside 1 to 64), 29 (a flow that is not in the plan): all 0. */
#define CP_NO_INSTANT UINT64_MAX
static inline cp_burst_answer cp_burst(const cp_planner *planner, uint64_t duration, uint64_t port, uint64_t flow, uint64_t frame) {
  return cp_burst_columns(CP_COLUMNS(planner), duration, port, flow, frame);
}

/* The held plan written into the buffer in the form in which it was read: its fields in strict order, in the older form without those
 * that say what their absence says (extra bytes or a jitter of 0, clocks that are all 0). Result: first = the length written, at most
 * 15,002 bytes in the older form and 16,384 in the newer, second = 0; the bytes behind it remain. Refusal 20: 0, 0. 13, the buffer is
 * shorter than the plan: first = the length needed, second = 0. Neither writes a byte. Either load accepts what was written and holds
 * the same plan. Tables of the newer form that no load left may say more than 16,384 bytes, up to 17,495: these are written too, and no
 * load accepts them. */
static inline cp_answer cp_save(const cp_planner *planner, uint8_t *buffer, size_t length) {
  uint8_t none = 0;
  return cp_save_columns(CP_COLUMNS(planner), length == 0 ? &none : buffer, length);
}

/* A plan as text: a line for each port and flow, in words and decimal numbers (docs/REFERENCE.md, "The text of a plan"). cp_text writes
 * the text of the held plan into the buffer. Result: first = the length written, at most CP_MAX_TEXT, second = 0; the bytes behind it
 * remain. Refusal 20: 0, 0. 13, the buffer is shorter than the text: first = the length needed, second = 0. Neither writes a byte. */
static inline cp_answer cp_text(const cp_planner *planner, uint8_t *buffer, size_t length) {
  uint8_t none = 0;
  return cp_text_columns(CP_COLUMNS(planner), length == 0 ? &none : buffer, length);
}

/* cp_encode writes the plan that a text says as its bytes in strict order, as cp_save does. Result: value = the length written. Refusal
 * 13, the buffer is shorter: value = the length needed; CP_MAX_SAVED is enough for every plan that a load takes (a text behind format 2
 * can say up to 17,495 bytes). CP_BAD_TEXT: line = the line at which the text is refused, counted from 1, fault = why, item = what it is
 * about, value = the number that is named with it, or 0: one that is out of its range, how many ports a route has, the first number of
 * a line that is said again (of the clocks, item CP_ITEM_DRIFT), a port that is absent; one of 2^64 - 2 or more is told as 2^64 - 2. The
 * others are 0, and a refusal writes no byte. What cp_text wrote is encoded as what cp_save writes. */
static inline cp_encode_answer cp_encode(const uint8_t *text, size_t length, uint8_t *buffer, size_t room) {
  uint8_t none = 0;
  return cp_encode_bytes(length == 0 ? &none : text, length, room == 0 ? &none : buffer, room);
}

/* The converters. cp_upgrade reads a plan of the older form loosely and writes it in the newer one, at most 13,399 bytes; cp_downgrade
 * reads a plan of the newer form and writes it in the older one as cp_save does, at most 15,002 bytes. Each knows only the tags of the
 * form that it reads, whatever the first byte is. Result: first = the length written, second = 0; the bytes behind it remain. Refusal 1
 * to 9, and for cp_downgrade 12, as from a load; then, for cp_downgrade, 16 for the first flow of over sixteen ports: first = offset
 * (place), second = 0. Then 13, the buffer is shorter than what is written: first = the length needed, second = 0. A refusal writes no
 * byte. */
static inline cp_answer cp_upgrade(const uint8_t *plan, size_t length, uint8_t *buffer, size_t room) {
  uint8_t none = 0;
  return cp_upgrade_bytes(length == 0 ? &none : plan, length, room == 0 ? &none : buffer, room);
}
static inline cp_answer cp_downgrade(const uint8_t *plan, size_t length, uint8_t *buffer, size_t room) {
  uint8_t none = 0;
  return cp_downgrade_bytes(length == 0 ? &none : plan, length, room == 0 ? &none : buffer, room);
}

/* The gate control list of an admissible duration for two cycles, written into the buffer as fields of tag 0x21, length 5: gate
 * states (1 byte; bit q, from the lowest as 0, is 1 where queue q is open) and interval (4 bytes, ns, high byte first). Each cycle
 * is the guard band with both queues closed, the window with one open, the guard band with both closed; the even queue opens in the
 * first cycle, the odd one in the second, the other six are always open; an interval of 0 is left out. Result: first = the length
 * written, 48, or 16 without a guard band, second = 0; the bytes behind it remain. Refusal 20, 10, 21 as from cp_check; then 18, a
 * queue is above 7 or both are equal: 0, 0; then 13, the buffer is shorter than the list: first = the length needed, second = 0. A
 * refusal writes nothing. */
static inline cp_answer cp_gates(const cp_planner *planner, uint64_t duration, uint64_t even, uint64_t odd, uint8_t *buffer,
                                 size_t length) {
  uint8_t none = 0;
  return cp_gates_columns(CP_COLUMNS(planner), duration, even, odd, length == 0 ? &none : buffer, length);
}

/* A batch: eight plans whose least durations are searched in turn. For an office's computer and not for the cabinet: plain data of
 * 79,816 bytes that goes into each call by value and comes back as the call leaves it; keep it so, and do not look inside. A call of
 * these takes up to 340 KB of stack, beside the batch given and the outcome, 160 KB, that the caller holds, and copies up to 429 KB.
 * No call here takes or gives a cp_planner: a plan held elsewhere stays as it is. A slot's state is 0 for no plan, 1 for a plan that
 * is searched, with the duration reached and the steps used, and 2 to 5 for a final answer: found, 22, and 20 and 10 for tables and
 * durations that no call leaves. Any other state, and state 1 with as many steps as its duration or more, is a slot with no plan; next
 * counts modulo 8. */
typedef struct {
  uint64_t duration, steps;
  uint32_t state, port, count;
  cp_planner planner;
} cp_slot;
typedef struct { cp_slot slots[8]; uint64_t next; } cp_batch;
typedef struct { cp_batch batch; cp_answer answer; } cp_place_outcome;
typedef struct { cp_batch batch; uint64_t slot; } cp_serve_outcome;
typedef struct { cp_batch batch; cp_fixed_point_answer answer; } cp_collect_outcome;

/* The batch with no plan. */
cp_batch cp_batch_empty(void);

/* The export behind cp_batch_place. */
cp_place_outcome cp_batch_place_bytes(cp_batch batch, uint64_t slot, const uint8_t *plan, size_t length);

/* Reads a plan loosely into a slot, 0 to 7. Result: first = port fields, second = flow fields; the slot has the plan. Refusal 15, no
 * such slot: 0, 0. 27, the slot has a plan, finished or not: 0, 0. Then as from cp_load. A refusal leaves the batch as it was. */
CP_MUST_USE static inline cp_place_outcome cp_batch_place(cp_batch batch, uint64_t slot, const uint8_t *plan, size_t length) {
  const uint8_t none = 0;
  return cp_batch_place_bytes(batch, slot, length == 0 ? &none : plan, length);
}

/* A turn: sixteen steps of cp_fixed_point, from 1 ns on and then from where the plan's last turn stopped, for one unfinished plan, the
 * first from the slot after the last one served, going round, at first from slot 0. slot = the one served; 8 where no plan is
 * unfinished, and then the batch is as it was. A plan that takes r steps has its final answer within 8 * ceil(r / 16) turns of being
 * placed. */
cp_serve_outcome cp_batch_serve(cp_batch batch) CP_MUST_USE;

/* The final answer of a slot's plan, as from cp_fixed_point from 1 ns on with all its steps: a result or 22. The slot then has no plan
 * and can be used again. Refusal 15, no such slot, and 28, no final answer there: 0, 0, 0; the batch is as it was. */
cp_collect_outcome cp_batch_collect(cp_batch batch, uint64_t slot) CP_MUST_USE;

/* The field at an offset of a plan, by tests 2 to 5; the plan's first byte says of which form it is, whatever the offset. Result: the
 * tag; offset = the one after the field; numbers:
 * 1, header: guard, top; 2, port: number, rate, blocker; 3, flow: number, period, count, length, hops; 4, extra bytes per
 * frame at a port: port number, extra bytes; 5, release jitter of a flow: flow number, jitter; 6, clocks: drift,
 * timing jitter, synchronization error; and in the newer form 0x11, header: guard, top, drift, timing jitter, synchronization error;
 * 0x12, port: number, rate, blocker, extra bytes; 0x13, flow: number, period, count, length, jitter, hops; 0 in the others.
 * Refusal 2 to 5: offset = the one asked, tag and numbers 0. */
static inline cp_field_read cp_field(const uint8_t *plan, size_t length, size_t offset) {
  const uint8_t none = 0;
  return cp_field_bytes(length == 0 ? &none : plan, length, offset);
}

/* Whether the value of a flow field of this tag names a port twice (test 7): 1 or 0. Tag 0x13 is the newer form's flow; any other number
 * counts as 3, the older one's. */
static inline uint8_t cp_repeats(uint32_t tag, const uint8_t *value, size_t length) {
  const uint8_t none = 0;
  return cp_repeats_bytes(tag, length == 0 ? &none : value, length);
}

/* The writers of single fields, for a plan that is put together field by field. Each writes its field over the first bytes of the buffer
 * given: give it what remains of yours, and go on behind the length that it answers. Every number has 32 bits here, also where the field
 * has 2 bytes for it: one that does not fit is out of range, and never cut. A route is a row of port numbers, a byte each; the field has 2
 * for each. Result: first = the length written, second = 0; the bytes behind it remain. Refusal, as reading the field would be refused: 4,
 * a route of no port, or of more than the form allows, 16 in cp_write_flow and 24 in cp_write_flow2; 5, a number out of its range; 7, a
 * port twice in the route; in this order: 0, 0. Then 13, the buffer is shorter than the field: first = the length needed, at most
 * CP_MAX_FIELD, second = 0. A refusal writes nothing. What the fields of a plan say together, refusals 6, 8, 9 and 12, its load tells. */
/* The older form's fields, tags 1 to 6. */
static inline cp_answer cp_write_header(uint32_t guard, uint32_t top, uint8_t *buffer, size_t room) {
  uint8_t none = 0;
  return cp_write_header_bytes(guard, top, room == 0 ? &none : buffer, room);
}
static inline cp_answer cp_write_port(uint32_t number, uint32_t rate, uint32_t blocking, uint8_t *buffer, size_t room) {
  uint8_t none = 0;
  return cp_write_port_bytes(number, rate, blocking, room == 0 ? &none : buffer, room);
}
static inline cp_answer cp_write_flow(uint32_t number, uint32_t period, uint32_t count, uint32_t length,
                                      const uint8_t *route, size_t hops, uint8_t *buffer, size_t room) {
  uint8_t none = 0;
  return cp_write_flow_bytes(number, period, count, length, hops == 0 ? &none : route, hops, room == 0 ? &none : buffer, room);
}
static inline cp_answer cp_write_extra(uint32_t number, uint32_t extra, uint8_t *buffer, size_t room) {
  uint8_t none = 0;
  return cp_write_extra_bytes(number, extra, room == 0 ? &none : buffer, room);
}
static inline cp_answer cp_write_jitter(uint32_t number, uint32_t jitter, uint8_t *buffer, size_t room) {
  uint8_t none = 0;
  return cp_write_jitter_bytes(number, jitter, room == 0 ? &none : buffer, room);
}
static inline cp_answer cp_write_clocks(uint32_t drift, uint32_t timing_jitter, uint32_t sync_error, uint8_t *buffer, size_t room) {
  uint8_t none = 0;
  return cp_write_clocks_bytes(drift, timing_jitter, sync_error, room == 0 ? &none : buffer, room);
}
/* The newer form's, tags 0x11 to 0x13. */
static inline cp_answer cp_write_header2(uint32_t guard, uint32_t top, uint32_t drift, uint32_t timing_jitter, uint32_t sync_error,
                                         uint8_t *buffer, size_t room) {
  uint8_t none = 0;
  return cp_write_header2_bytes(guard, top, drift, timing_jitter, sync_error, room == 0 ? &none : buffer, room);
}
static inline cp_answer cp_write_port2(uint32_t number, uint32_t rate, uint32_t blocking, uint32_t extra,
                                       uint8_t *buffer, size_t room) {
  uint8_t none = 0;
  return cp_write_port2_bytes(number, rate, blocking, extra, room == 0 ? &none : buffer, room);
}
static inline cp_answer cp_write_flow2(uint32_t number, uint32_t period, uint32_t count, uint32_t length, uint32_t jitter,
                                       const uint8_t *route, size_t hops, uint8_t *buffer, size_t room) {
  uint8_t none = 0;
  return cp_write_flow2_bytes(number, period, count, length, jitter, hops == 0 ? &none : route, hops, room == 0 ? &none : buffer, room);
}

#ifdef __cplusplus
}
#endif
#endif
