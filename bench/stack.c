/* How far down the stack each call of the header goes: the stack below the caller is painted, the call made, and the lowest word that no
 * longer has the paint looked up. The call is the header's function, compiled here, with all that it takes to hand the planner's columns
 * to the library. What the caller holds for it lies above that and is told apart: the answer's place, and a batch given by value. With
 * COPIES defined, how many bytes each call copies instead: the library calls memcpy for every block, and the linker's --wrap=memcpy leads
 * that here. Arguments: files with a plan, with one that is refused, and with one that no duration fits. */
#include "cycle_planner.h"
#include <pthread.h>
#include <stdio.h>
#include <stdlib.h>
#include <string.h>

enum { PAINTED = 1 << 20, PORTS = 64, MAX_BYTES = 16384 };
#define PAINT 0xa5c3965a0ff0695aULL

typedef struct { uint8_t bytes[MAX_BYTES]; size_t length; } plan_bytes;

static plan_bytes accepted, refused, upgraded;
static cp_planner held, loaded;
static cp_answer answer;
static cp_slack_answer slacked;
static cp_fixed_point_answer stepped;
static cp_field_read field;
static cp_burst_answer burst;
static cp_unsent_answer unsent;
static cp_encode_answer encoded;
static uint64_t scratch[PORTS];
static int64_t list[PORTS];
static cp_span_record spans[PORTS];
static uint8_t buffer[MAX_BYTES], text[CP_MAX_TEXT];
static uint8_t repeats;
static cp_batch batch;
static cp_place_outcome placed;
static cp_serve_outcome served;
static cp_collect_outcome collected;

/* The stack pointer in the caller at the call, as a function of the same type sees it. */
static char *at_call;
#define SEEN at_call = __builtin_dwarf_cfa()
static void see_clear(cp_planner *p) { SEEN; (void)p; }
static cp_answer see_load(cp_planner *p, const uint8_t *b, size_t n) { SEEN; (void)p, (void)b, (void)n; return answer; }
static cp_answer see_check(const cp_planner *p, uint64_t d) { SEEN; (void)p, (void)d; return answer; }
static cp_slack_answer see_slack(const cp_planner *p, uint64_t n, uint64_t d) { SEEN; (void)p, (void)n, (void)d; return slacked; }
static cp_answer see_search(const cp_planner *p, uint64_t *s, size_t n) { SEEN; (void)p, (void)s, (void)n; return answer; }
static cp_fixed_point_answer see_steps(const cp_planner *p, uint64_t d, uint64_t n) { SEEN; (void)p, (void)d, (void)n; return stepped; }
static cp_answer see_reprice(const cp_planner *p, uint64_t d, uint64_t f, uint64_t l, int64_t *s, size_t n) {
  SEEN; (void)p, (void)d, (void)f, (void)l, (void)s, (void)n; return answer;
}
static cp_answer see_spans(const cp_planner *p, cp_span_record *s, size_t n) { SEEN; (void)p, (void)s, (void)n; return answer; }
static cp_answer see_save(const cp_planner *p, uint8_t *b, size_t n) { SEEN; (void)p, (void)b, (void)n; return answer; }
static cp_answer see_gates(const cp_planner *p, uint64_t d, uint64_t e, uint64_t o, uint8_t *b, size_t n) {
  SEEN; (void)p, (void)d, (void)e, (void)o, (void)b, (void)n; return answer;
}
static cp_answer see_convert(const uint8_t *b, size_t n, uint8_t *c, size_t m) {
  SEEN; (void)b, (void)n, (void)c, (void)m; return answer;
}
static cp_burst_answer see_burst(const cp_planner *p, uint64_t d, uint64_t q, uint64_t f, uint64_t k) {
  SEEN; (void)p, (void)d, (void)q, (void)f, (void)k; return burst;
}
static cp_unsent_answer see_unsent(const cp_planner *p, uint64_t d) { SEEN; (void)p, (void)d; return unsent; }
static cp_encode_answer see_encode(const uint8_t *b, size_t n, uint8_t *c, size_t m) {
  SEEN; (void)b, (void)n, (void)c, (void)m; return encoded;
}
static cp_field_read see_field(const uint8_t *b, size_t n, size_t o) { SEEN; (void)b, (void)n, (void)o; return field; }
static cp_batch see_batch(void) { SEEN; return batch; }
static cp_place_outcome see_place(cp_batch b, uint64_t s, const uint8_t *p, size_t n) { SEEN; (void)b, (void)s, (void)p, (void)n; return placed; }
static cp_serve_outcome see_serve(cp_batch b) { SEEN; (void)b; return served; }
static cp_collect_outcome see_collect(cp_batch b, uint64_t s) { SEEN; (void)b, (void)s; return collected; }
static uint8_t see_repeats(uint32_t t, const uint8_t *b, size_t n) { SEEN; (void)t, (void)b, (void)n; return 0; }

/* The bytes below the caller that the last measured call went through, and those that it copied. */
static size_t used, copied;

#ifdef COPIES
/* The caller's own copies are made from its frame, which is not below the call. */
void *__real_memcpy(void *to, const void *from, size_t size);
void *__wrap_memcpy(void *to, const void *from, size_t size) {
  if ((char *)__builtin_frame_address(0) < at_call - 2 * sizeof(void *)) copied += size;
  return __real_memcpy(to, from, size);
}
#endif

/* One call site for both functions, so that the stack pointer is the same in all rounds: the first sees it, the second binds
 * what the library takes from C's, the third is measured. Paint and search stay in this frame; a call would write below it. */
#define MEASURED(NAME, TYPE, SEE, CALL, ...)                                                                  \
  static __attribute__((noinline)) void *NAME(void *unused) {                                                 \
    TYPE = SEE;                                                                                               \
    for (int round = 0; round < 3; round++) {                                                                 \
      if (round == 2)                                                                                         \
        for (volatile uint64_t *word = (uint64_t *)(at_call - PAINTED); word < (uint64_t *)at_call; word++)   \
          *word = PAINT;                                                                                      \
      copied = 0;                                                                                             \
      __VA_ARGS__;                                                                                            \
      call = CALL;                                                                                            \
    }                                                                                                         \
    volatile uint64_t *lowest = (uint64_t *)(at_call - PAINTED);                                              \
    while (lowest < (uint64_t *)at_call && *lowest == PAINT) lowest++;                                        \
    used = (size_t)(at_call - (char *)lowest);                                                                \
    return unused;                                                                                            \
  }

#define LOADS cp_answer (*volatile call)(cp_planner *, const uint8_t *, size_t)
#define SEARCHES cp_answer (*volatile call)(const cp_planner *, uint64_t *, size_t)
#define CONVERTS cp_answer (*volatile call)(const uint8_t *, size_t, uint8_t *, size_t)
MEASURED(on_clear, void (*volatile call)(cp_planner *), see_clear, cp_clear, call(&loaded))
MEASURED(on_load, LOADS, see_load, cp_load, answer = call(&loaded, accepted.bytes, accepted.length))
MEASURED(on_refused_load, LOADS, see_load, cp_load, answer = call(&loaded, refused.bytes, refused.length))
MEASURED(on_load_strict, LOADS, see_load, cp_load_strict, answer = call(&loaded, accepted.bytes, accepted.length))
MEASURED(on_refused_load_strict, LOADS, see_load, cp_load_strict, answer = call(&loaded, refused.bytes, refused.length))
MEASURED(on_check, cp_answer (*volatile call)(const cp_planner *, uint64_t), see_check, cp_check, answer = call(&held, held.top))
MEASURED(on_slack, cp_slack_answer (*volatile call)(const cp_planner *, uint64_t, uint64_t), see_slack, cp_slack,
         slacked = call(&held, 1, held.top))
MEASURED(on_least, SEARCHES, see_search, cp_least, answer = call(&held, scratch, PORTS))
MEASURED(on_margin_safe, SEARCHES, see_search, cp_margin_safe, answer = call(&held, scratch, PORTS))
MEASURED(on_lean_least, SEARCHES, see_search, cp_lean_least, answer = call(&held, scratch, 1))
MEASURED(on_lean_margin_safe, SEARCHES, see_search, cp_lean_margin_safe, answer = call(&held, scratch, 1))
MEASURED(on_fixed_point, cp_fixed_point_answer (*volatile call)(const cp_planner *, uint64_t, uint64_t), see_steps, cp_fixed_point,
         stepped = call(&held, 1, 1 << 20))
MEASURED(on_reprice, cp_answer (*volatile call)(const cp_planner *, uint64_t, uint64_t, uint64_t, int64_t *, size_t), see_reprice,
         cp_reprice, answer = call(&held, held.top, 1, 64, list, PORTS))
MEASURED(on_span, cp_answer (*volatile call)(const cp_planner *, uint64_t), see_check, cp_span, answer = call(&held, 1))
MEASURED(on_spans, cp_answer (*volatile call)(const cp_planner *, cp_span_record *, size_t), see_spans, cp_spans,
         answer = call(&held, spans, PORTS))
MEASURED(on_refused_spans, cp_answer (*volatile call)(const cp_planner *, cp_span_record *, size_t), see_spans, cp_spans,
         answer = call(&held, spans, 1))
MEASURED(on_save, cp_answer (*volatile call)(const cp_planner *, uint8_t *, size_t), see_save, cp_save,
         answer = call(&held, buffer, MAX_BYTES))
MEASURED(on_refused_save, cp_answer (*volatile call)(const cp_planner *, uint8_t *, size_t), see_save, cp_save,
         answer = call(&held, buffer, 1))
MEASURED(on_gates, cp_answer (*volatile call)(const cp_planner *, uint64_t, uint64_t, uint64_t, uint8_t *, size_t), see_gates, cp_gates,
         answer = call(&held, held.top, 2, 3, buffer, MAX_BYTES))
MEASURED(on_burst, cp_burst_answer (*volatile call)(const cp_planner *, uint64_t, uint64_t, uint64_t, uint64_t), see_burst, cp_burst,
         burst = call(&held, held.top, 1, 1, 0))
MEASURED(on_unsent, cp_unsent_answer (*volatile call)(const cp_planner *, uint64_t), see_unsent, cp_unsent, unsent = call(&held, held.top))
MEASURED(on_text, cp_answer (*volatile call)(const cp_planner *, uint8_t *, size_t), see_save, cp_text,
         answer = call(&held, text, CP_MAX_TEXT))
MEASURED(on_encode, cp_encode_answer (*volatile call)(const uint8_t *, size_t, uint8_t *, size_t), see_encode, cp_encode,
         encoded = call(text, (size_t)answer.first, buffer, MAX_BYTES))
MEASURED(on_upgrade, CONVERTS, see_convert, cp_upgrade, answer = call(accepted.bytes, accepted.length, buffer, MAX_BYTES))
MEASURED(on_downgrade, CONVERTS, see_convert, cp_downgrade, answer = call(upgraded.bytes, upgraded.length, buffer, MAX_BYTES))
MEASURED(on_field, cp_field_read (*volatile call)(const uint8_t *, size_t, size_t), see_field, cp_field,
         field = call(accepted.bytes, accepted.length, 0))
MEASURED(on_repeats, uint8_t (*volatile call)(uint32_t, const uint8_t *, size_t), see_repeats, cp_repeats,
         repeats = call(3, accepted.bytes + accepted.length - 42, 42))
MEASURED(on_batch, cp_batch (*volatile call)(void), see_batch, cp_batch_empty, batch = call())
MEASURED(on_place, cp_place_outcome (*volatile call)(cp_batch, uint64_t, const uint8_t *, size_t), see_place, cp_batch_place,
         placed = call(batch, 7, accepted.bytes, accepted.length))
MEASURED(on_serve, cp_serve_outcome (*volatile call)(cp_batch), see_serve, cp_batch_serve, served = call(batch))
MEASURED(on_collect, cp_collect_outcome (*volatile call)(cp_batch, uint64_t), see_collect, cp_batch_collect,
         collected = call(batch, 7))

static void row(const char *name, void *(*measured)(void *), size_t given, size_t given_back) {
  pthread_t thread;
  if (pthread_create(&thread, NULL, measured, NULL) != 0 || pthread_join(thread, NULL) != 0) exit(1);
  if (used >= PAINTED) exit(1);
  size_t with = used + given + given_back;
#ifdef COPIES
  (void)with, printf("%-23s %6zu %9.2f\n", name, copied, (double)copied / sizeof(cp_planner));
#else
  printf("%-23s %6zu %9.2f %12zu %9.2f\n", name, used, (double)used / sizeof(cp_planner), with,
         (double)with / sizeof(cp_planner));
#endif
}

static void read_plan(const char *path, plan_bytes *plan) {
  FILE *file = fopen(path, "rb");
  if (file == NULL) exit(1);
  plan->length = fread(plan->bytes, 1, MAX_BYTES, file);
  fclose(file);
}

/* The rows' names, in the order of the calls below. */
static void questions(const char *const names[7]) {
  row(names[0], on_check, 0, sizeof answer);
  row(names[1], on_slack, 0, sizeof slacked);
  row(names[2], on_least, 0, sizeof answer);
  row(names[3], on_margin_safe, 0, sizeof answer);
  row(names[4], on_lean_least, 0, sizeof answer);
  row(names[5], on_lean_margin_safe, 0, sizeof answer);
  row(names[6], on_fixed_point, 0, sizeof stepped);
}

/* A row of a call with a cp_answer, which must have this refusal. */
static void answering(const char *name, void *(*measured)(void *), uint32_t refusal) {
  row(name, measured, 0, sizeof answer);
  if (answer.refusal != refusal) exit(1);
}

static const char *const answered[7] = {"cp_check", "cp_slack", "cp_least", "cp_margin_safe", "cp_lean_least",
                                        "cp_lean_margin_safe", "cp_fixed_point"};
static const char *const refusing[7] = {"cp_check, refused", "cp_slack, negative", "cp_least, refused", "cp_margin_safe, refused",
                                        "lean_least, refused", "lean_m._safe, refused", "cp_fixed_point, refused"};

int main(int count, char **paths) {
  if (count != 4) return 1;
#ifdef COPIES
  printf("%-23s %6s %9s\n", "call", "bytes", "planners");
#else
  printf("%-23s %6s %9s %12s %9s\n", "call", "bytes", "planners", "with caller", "planners");
#endif
  row("cp_clear", on_clear, 0, 0);
  read_plan(paths[3], &accepted);
  answering("cp_load, short plan", on_load, 0);
  cp_planner overloaded = loaded;
  read_plan(paths[1], &accepted);
  answering("cp_load, longest plan", on_load, 0);
  answering("cp_load_strict", on_load_strict, 0);
  held = loaded;
  read_plan(paths[2], &refused);
  answering("cp_load, refused", on_refused_load, 9);
  answering("cp_load_strict, refused", on_refused_load_strict, 9);
  questions(answered);
  answering("cp_reprice", on_reprice, 0);
  answering("cp_span", on_span, 0);
  answering("cp_spans", on_spans, 0);
  answering("cp_spans, refused", on_refused_spans, 13);
  answering("cp_save", on_save, 0);
  answering("cp_save, refused", on_refused_save, 13);
  answering("cp_gates", on_gates, 0);
  answering("cp_text", on_text, 0);
  row("cp_encode", on_encode, 0, sizeof encoded);
  if (encoded.refusal != 0) return 1;
  row("cp_burst", on_burst, 0, sizeof burst);
  held = overloaded;
  questions(refusing);
  if (answer.refusal != 23 || stepped.refusal != 22) return 1;
  answering("cp_span, refused", on_span, 25);
  answering("cp_gates, refused", on_gates, 21);
  row("cp_unsent", on_unsent, 0, sizeof unsent);
  if (unsent.failing == 0) return 1;
  answering("cp_upgrade", on_upgrade, 0);
  memcpy(upgraded.bytes, buffer, upgraded.length = (size_t)answer.first);
  answering("cp_downgrade", on_downgrade, 0);
  row("cp_batch_empty", on_batch, 0, sizeof batch);
  row("cp_batch_place", on_place, sizeof batch, sizeof placed);
  if (placed.answer.refusal != 0) return 1;
  batch = placed.batch;
  row("cp_batch_serve", on_serve, sizeof batch, sizeof served);
  if (served.slot != 7) return 1;
  batch = served.batch;
  row("cp_batch_collect", on_collect, sizeof batch, sizeof collected);
  row("cp_field", on_field, 0, sizeof field);
  row("cp_repeats", on_repeats, 0, sizeof repeats);
  return 0;
}
