/* Comparisons of the header's structs, field by field: counted, and printed where something differs. */
#include "cycle_planner.h"
#include <inttypes.h>
#include <stdio.h>

static unsigned passed, failed;

/* Both numbers as 64-bit patterns; a negative one keeps its own. */
static void same(const char *call, const char *what, uint64_t got, uint64_t want) {
  if (got == want) {
    passed++;
    return;
  }
  failed++;
  printf("%s: %s is %" PRId64 " instead of %" PRId64 "\n", call, what, (int64_t)got, (int64_t)want);
}

static void same_slot(const char *call, const char *table, size_t slot, uint64_t got, uint64_t want) {
  char what[64];
  snprintf(what, sizeof what, "%s[%zu]", table, slot);
  same(call, what, got, want);
}

#define SAME_TABLE(call, table, got, want) \
  for (size_t slot = 0; slot < sizeof(got).table / sizeof(got).table[0]; slot++) \
    same_slot(call, #table, slot, (got).table[slot], (want).table[slot])

static cp_answer answer(uint32_t refusal, uint64_t first, uint64_t second) {
  return (cp_answer){.refusal = refusal, .first = first, .second = second};
}

static void same_answer(const char *call, cp_answer got, cp_answer want) {
  same(call, "refusal", got.refusal, want.refusal);
  same(call, "first", got.first, want.first);
  same(call, "second", got.second, want.second);
}

static void same_steps(const char *call, cp_fixed_point_answer got, cp_answer want, uint64_t steps) {
  same_answer(call, answer(got.refusal, got.first, got.second), want);
  same(call, "steps", got.steps, steps);
}

static void same_slack(const char *call, cp_slack_answer got, uint32_t refusal, int64_t slack) {
  same(call, "refusal", got.refusal, refusal);
  same(call, "slack", (uint64_t)got.slack, (uint64_t)slack);
}
