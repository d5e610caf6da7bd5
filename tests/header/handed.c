/* What the functions of the header hand to the library, with stand-ins for its exports: the address of each column of the planner given,
 * the numbers in their order, a slice's own pointer with its length, and for an empty slice, whatever its pointer, an address that is not
 * null and is aligned. Prints what differs; exit status 1 where something does. It takes no library. */
#include "same.h"

static cp_planner planner;
static cp_span_record list[3];

/* What the stand-in that was called last was handed: the numbers, and the slices with their lengths and how they are aligned. */
static uint64_t numbers[5];
static size_t given, slices, lengths_seen[2], off[2];
static const void *starts[2];
static const char *call;

static void begin(const char *name) {
  call = name;
  given = slices = 0;
}
static void number(uint64_t n) { numbers[given++] = n; }
static void slice(const void *start, size_t length, size_t alignment) {
  starts[slices] = start;
  off[slices] = (size_t)((uintptr_t)start % alignment);
  lengths_seen[slices++] = length;
}
static void column(const char *name, const void *got, size_t offset) {
  same(call, name, (uint64_t)((const char *)got - (const char *)&planner), offset);
}

#define COLUMN(name) column(#name, name, offsetof(cp_planner, name))
#define COLUMNS(name)                                                                                                             \
  begin(name), COLUMN(form), COLUMN(guard), COLUMN(top), column("drift", drift, offsetof(cp_planner, clock)),                     \
      column("timing_jitter", timing_jitter, offsetof(cp_planner, clock) + offsetof(cp_clock, timing_jitter)),                    \
      column("sync_error", sync_error, offsetof(cp_planner, clock) + offsetof(cp_clock, sync_error)), COLUMN(rates),              \
      COLUMN(blockings), COLUMN(extras), COLUMN(periods), COLUMN(counts), COLUMN(lengths), COLUMN(jitters), COLUMN(hops),         \
      COLUMN(routes)
#define SLICE(start, length) slice(start, length, sizeof *(start) > 8 ? 8 : sizeof *(start))
#define LOAD(NAME)                                                                                                                \
  cp_answer cp_##NAME##_columns(CP_LENT(), const uint8_t *plan, size_t length) {                                                  \
    COLUMNS(#NAME), SLICE(plan, length);                                                                                          \
    return answer(1, 2, 3);                                                                                                       \
  }
#define DURATION(NAME)                                                                                                            \
  cp_answer cp_##NAME##_columns(CP_LENT(const), uint64_t duration) {                                                              \
    COLUMNS(#NAME), number(duration);                                                                                             \
    return answer(1, 2, 3);                                                                                                       \
  }
#define LENDING(NAME, TYPE)                                                                                                       \
  cp_answer cp_##NAME##_columns(CP_LENT(const), TYPE *start, size_t length) {                                                     \
    COLUMNS(#NAME), SLICE(start, length);                                                                                         \
    return answer(1, 2, 3);                                                                                                       \
  }
#define CONVERTER(NAME)                                                                                                           \
  cp_answer cp_##NAME##_bytes(const uint8_t *plan, size_t length, uint8_t *buffer, size_t room) {                                 \
    begin(#NAME), SLICE(plan, length), SLICE(buffer, room);                                                                       \
    return answer(1, 2, 3);                                                                                                       \
  }
#define GIVEN2 uint32_t a, uint32_t b
#define GIVEN3 GIVEN2, uint32_t c
#define GIVEN4 GIVEN3, uint32_t d
#define GIVEN5 GIVEN4, uint32_t e
#define NUMBERS2 number(a), number(b)
#define NUMBERS3 NUMBERS2, number(c)
#define NUMBERS4 NUMBERS3, number(d)
#define NUMBERS5 NUMBERS4, number(e)
#define WRITER(NAME, COUNT)                                                                                                       \
  cp_answer cp_write_##NAME##_bytes(GIVEN##COUNT, uint8_t *buffer, size_t room) {                                                 \
    begin(#NAME), NUMBERS##COUNT, SLICE(buffer, room);                                                                            \
    return answer(1, 2, 3);                                                                                                       \
  }
#define ROUTED(NAME, COUNT)                                                                                                       \
  cp_answer cp_write_##NAME##_bytes(GIVEN##COUNT, const uint8_t *route, size_t hops, uint8_t *buffer, size_t room) {              \
    begin(#NAME), NUMBERS##COUNT, SLICE(route, hops), SLICE(buffer, room);                                                        \
    return answer(1, 2, 3);                                                                                                       \
  }

void cp_clear_columns(CP_LENT()) { COLUMNS("clear"); }
LOAD(load)
LOAD(load_strict)
DURATION(check)
DURATION(span)
DURATION(nearest)
LENDING(least, uint64_t)
LENDING(margin_safe, uint64_t)
LENDING(lean_least, uint64_t)
LENDING(lean_margin_safe, uint64_t)
LENDING(spans, cp_span_record)
LENDING(save, uint8_t)
LENDING(text, uint8_t)
CONVERTER(upgrade)
CONVERTER(downgrade)
WRITER(header, 2)
WRITER(port, 3)
ROUTED(flow, 4)
WRITER(extra, 2)
WRITER(jitter, 2)
WRITER(clocks, 3)
WRITER(header2, 5)
WRITER(port2, 4)
ROUTED(flow2, 5)
cp_slack_answer cp_slack_columns(CP_LENT(const), uint64_t port, uint64_t duration) {
  COLUMNS("slack"), number(port), number(duration);
  return (cp_slack_answer){1, -2};
}
cp_burst_answer cp_burst_columns(CP_LENT(const), uint64_t duration, uint64_t port, uint64_t flow, uint64_t frame) {
  COLUMNS("burst"), number(duration), number(port), number(flow), number(frame);
  return (cp_burst_answer){1, 2, 3, 4};
}
cp_unsent_answer cp_unsent_columns(CP_LENT(const), uint64_t duration) {
  COLUMNS("unsent"), number(duration);
  return (cp_unsent_answer){1, 2, 3, 4, 5, 6};
}
cp_fixed_point_answer cp_fixed_point_columns(CP_LENT(const), uint64_t start, uint64_t steps) {
  COLUMNS("fixed_point"), number(start), number(steps);
  return (cp_fixed_point_answer){1, 2, 3, 4};
}
cp_answer cp_reprice_columns(CP_LENT(const), uint64_t duration, uint64_t flow, uint64_t length, int64_t *out, size_t size) {
  COLUMNS("reprice"), number(duration), number(flow), number(length), SLICE(out, size);
  return answer(1, 2, 3);
}
cp_answer cp_gates_columns(CP_LENT(const), uint64_t duration, uint64_t even, uint64_t odd, uint8_t *buffer, size_t length) {
  COLUMNS("gates"), number(duration), number(even), number(odd), SLICE(buffer, length);
  return answer(1, 2, 3);
}
cp_field_read cp_field_bytes(const uint8_t *plan, size_t length, size_t offset) {
  begin("field"), SLICE(plan, length), number(offset);
  return (cp_field_read){1, 2, 3, {4, 5, 6, 7, 8, 9}};
}
cp_encode_answer cp_encode_bytes(const uint8_t *text, size_t length, uint8_t *buffer, size_t room) {
  begin("encode"), SLICE(text, length), SLICE(buffer, room);
  return (cp_encode_answer){1, 2, 3, 4, 5};
}
uint8_t cp_repeats_bytes(uint32_t tag, const uint8_t *value, size_t length) {
  begin("repeats"), number(tag), SLICE(value, length);
  return 1;
}
cp_place_outcome cp_batch_place_bytes(cp_batch batch, uint64_t slot, const uint8_t *plan, size_t length) {
  begin("batch_place"), number(batch.next), number(slot), SLICE(plan, length);
  return (cp_place_outcome){.batch = batch, .answer = answer(1, 2, 3)};
}

/* Numbers 11, 12 and so on were handed; and slices of 3 elements from this start, or of none from a place of their own. */
static void handed(size_t expected, size_t lent, const void *start) {
  same(call, "how many numbers", given, expected);
  same(call, "how many slices", slices, lent);
  for (size_t i = 0; i < expected; i++) same_slot(call, "numbers", i, numbers[i], 11 + i);
  for (size_t i = 0; i < lent; i++) {
    same_slot(call, "lengths", i, lengths_seen[i], start == NULL ? 0 : 3);
    same_slot(call, "off the alignment", i, off[i], 0);
    same_slot(call, "pointer", i, start == NULL ? starts[i] == NULL || starts[i] == (void *)(list + 1) : starts[i] != start, 0);
  }
}

/* Every call that takes a slice, with this start for one of 3 elements; or with this start and length 0. */
static void lending(void *start, size_t length) {
  const void *want = length == 0 ? NULL : start;
  cp_batch batch = {.next = 11};
  same_answer("load", cp_load(&planner, start, length), answer(1, 2, 3)), handed(0, 1, want);
  same_answer("load_strict", cp_load_strict(&planner, start, length), answer(1, 2, 3)), handed(0, 1, want);
  same_answer("least", cp_least(&planner, start, length), answer(1, 2, 3)), handed(0, 1, want);
  same_answer("margin_safe", cp_margin_safe(&planner, start, length), answer(1, 2, 3)), handed(0, 1, want);
  same_answer("lean_least", cp_lean_least(&planner, start, length), answer(1, 2, 3)), handed(0, 1, want);
  same_answer("lean_margin_safe", cp_lean_margin_safe(&planner, start, length), answer(1, 2, 3)), handed(0, 1, want);
  same_answer("reprice", cp_reprice(&planner, 11, 12, 13, start, length), answer(1, 2, 3)), handed(3, 1, want);
  same_answer("spans", cp_spans(&planner, start, length), answer(1, 2, 3)), handed(0, 1, want);
  same_answer("save", cp_save(&planner, start, length), answer(1, 2, 3)), handed(0, 1, want);
  same_answer("gates", cp_gates(&planner, 11, 12, 13, start, length), answer(1, 2, 3)), handed(3, 1, want);
  same_answer("upgrade", cp_upgrade(start, length, start, length), answer(1, 2, 3)), handed(0, 2, want);
  same_answer("downgrade", cp_downgrade(start, length, start, length), answer(1, 2, 3)), handed(0, 2, want);
  same_answer("text", cp_text(&planner, start, length), answer(1, 2, 3)), handed(0, 1, want);
  same("encode", "the value", cp_encode(start, length, start, length).value, 5), handed(0, 2, want);
  same("field", "a number", cp_field(start, length, 11).numbers[5], 9), handed(1, 1, want);
  same("repeats", "the answer", cp_repeats(11, start, length), 1), handed(1, 1, want);
  same_answer("batch_place", cp_batch_place(batch, 12, start, length).answer, answer(1, 2, 3)), handed(2, 1, want);
}

/* The same of the writers of single fields. */
static void writing(void *start, size_t length) {
  const void *want = length == 0 ? NULL : start;
  same_answer("write_header", cp_write_header(11, 12, start, length), answer(1, 2, 3)), handed(2, 1, want);
  same_answer("write_port", cp_write_port(11, 12, 13, start, length), answer(1, 2, 3)), handed(3, 1, want);
  same_answer("write_flow", cp_write_flow(11, 12, 13, 14, start, length, start, length), answer(1, 2, 3)), handed(4, 2, want);
  same_answer("write_extra", cp_write_extra(11, 12, start, length), answer(1, 2, 3)), handed(2, 1, want);
  same_answer("write_jitter", cp_write_jitter(11, 12, start, length), answer(1, 2, 3)), handed(2, 1, want);
  same_answer("write_clocks", cp_write_clocks(11, 12, 13, start, length), answer(1, 2, 3)), handed(3, 1, want);
  same_answer("write_header2", cp_write_header2(11, 12, 13, 14, 15, start, length), answer(1, 2, 3)), handed(5, 1, want);
  same_answer("write_port2", cp_write_port2(11, 12, 13, 14, start, length), answer(1, 2, 3)), handed(4, 1, want);
  same_answer("write_flow2", cp_write_flow2(11, 12, 13, 14, 15, start, length, start, length), answer(1, 2, 3)), handed(5, 2, want);
}

int main(void) {
  cp_clear(&planner), handed(0, 0, NULL);
  same_answer("check", cp_check(&planner, 11), answer(1, 2, 3)), handed(1, 0, NULL);
  same_answer("span", cp_span(&planner, 11), answer(1, 2, 3)), handed(1, 0, NULL);
  same_answer("nearest", cp_nearest(&planner, 11), answer(1, 2, 3)), handed(1, 0, NULL);
  same("burst", "the instant", cp_burst(&planner, 11, 12, 13, 14).instant, 4), handed(4, 0, NULL);
  same("unsent", "what it can send", cp_unsent(&planner, 11).most, 6), handed(1, 0, NULL);
  same_slack("slack", cp_slack(&planner, 11, 12), 1, -2), handed(2, 0, NULL);
  same_steps("fixed_point", cp_fixed_point(&planner, 11, 12), answer(1, 2, 3), 4), handed(2, 0, NULL);
  lending(list, 3);
  writing(list, 3);
  lending(list + 1, 0);
  writing(list + 1, 0);
  lending(NULL, 0);
  writing(NULL, 0);
  printf("handed: %u passed, %u failed\n", passed, failed);
  return failed != 0;
}
